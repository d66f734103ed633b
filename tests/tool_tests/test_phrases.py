"""Tests of the check of phrases, in the comments of the crates."""

import sys

from .support import TOOLS, TOP, ToolTest, for_each

sys.path[:0] = [str(TOOLS), str(TOP / "tests")]

from checks.phrases import ALL, READERS  # noqa: E402


def phrases_in(ending: str, text: str) -> list[str]:
    """The phrases that the check finds in a file with this ending."""
    lines = READERS[ending](text)
    return [found[0] for _, line in lines for pattern, _ in ALL for found in pattern.finditer(line)]


class Comments(ToolTest):
    """Comments of code and of definitions."""

    @for_each(
        (".rt", "//! What an entry told.\n"),
        (".rt", "    /// What an entry told.\n"),
        (".rt", "let entry = found; // which told it\n"),
        (".antt", "-- What an entry told.\n"),
    )
    def test_a_phrase_is_found(self, given: tuple[str, str]) -> None:
        self.assertEqual(phrases_in(*given), ["told"])

    @for_each(
        (".rt", "let told = entry.told;\n"),
        (".rt", "/// What `told` says.\n"),
        (".rt", "ensures told { result ≡ told entry }\n"),
        (".antt", "told entry = entry.told\n"),
        (".antt", "-- What `told` says.\n"),
    )
    def test_a_name_is_no_phrase(self, given: tuple[str, str]) -> None:
        self.assertEqual(phrases_in(*given), [])
