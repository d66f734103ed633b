"""Tests of the tool that wraps long lines of .antt files."""

from pathlib import Path

from .support import TOOLS, ToolTest, for_each, run

LAY_OUT = TOOLS / "lay-out-antt"
MARGIN = "x" * 40  # a long name
# A long line, and the lines that it becomes.
ROWS = {
    "a signature": (
        f"name : (a b : {MARGIN}) (c : {MARGIN}) → first c → second a ≡ third b",
        f"name :\n    (a b : {MARGIN}) (c : {MARGIN})\n    → first c\n    → second a ≡ third b",
    ),
    "a definition": (
        f"name a b = {MARGIN} (f a) ∙ {MARGIN} (g b) ∙ refl refl",
        f"name a b =\n    {MARGIN} (f a)\n    ∙ {MARGIN} (g b)\n    ∙ refl refl",
    ),
    "a chain of operators": (
        f"    {MARGIN} (f a) ∙ {MARGIN} (g b) ∙ {MARGIN}",
        f"    {MARGIN} (f a)\n    ∙ {MARGIN} (g b)\n    ∙ {MARGIN}",
    ),
    "a chain of let": (
        f"    let a = {MARGIN} b in let c = {MARGIN} a in omega arith",
        f"    let a = {MARGIN} b in\n    let c = {MARGIN} a in\n    omega arith",
    ),
    "a function among arguments": (
        f"  {MARGIN} (λ (a : {MARGIN}). f (g a) (h a)) refl",
        f"  {MARGIN}\n      (λ (a : {MARGIN}). f (g a) (h a)) refl",
    ),
    "a function that fills two lines": (
        f"  (λ (a : {MARGIN}) (b : {MARGIN}). f (g a) (h a) b)",
        f"  (λ (a : {MARGIN}) (b : {MARGIN}).\n   f (g a) (h a) b)",
    ),
    "a record": (
        f"  name = record {{ first = {MARGIN}; second = {MARGIN} }}",
        f"  name =\n      record {{\n          first = {MARGIN};\n          second = {MARGIN}\n      }}",
    ),
    "arguments": (
        f"    f {MARGIN} {MARGIN} {MARGIN}",
        f"    f {MARGIN} {MARGIN}\n        {MARGIN}",
    ),
}
KEPT = {
    "an import": f"use A.B.{{{', '.join([MARGIN] * 3)}}}",
    "a remark": f"-- {' '.join([MARGIN] * 3)}",
    "a text": f'    "{" ".join([MARGIN] * 3)}"',
    "a short line": "name a = b",
}


class LayOut(ToolTest):
    """Files laid out."""

    def laid_out(self, text: str) -> str:
        """What the tool makes of a text."""
        path = self.folder / "File.antt"
        path.write_text(text + "\n", encoding="utf-8")
        self.assert_ran(run(LAY_OUT, path))
        return path.read_text(encoding="utf-8").removesuffix("\n")

    @for_each(*ROWS)
    def test_a_long_line(self, name: str) -> None:
        """It is broken at its loosest joints, and then left alone."""
        given, wanted = ROWS[name]
        self.assertEqual(self.laid_out(given), wanted)
        self.assertEqual(self.laid_out(wanted), wanted)

    @for_each(*KEPT)
    def test_a_line_that_is_kept(self, name: str) -> None:
        """It stays as it is."""
        self.assertEqual(self.laid_out(KEPT[name]), KEPT[name])

    def test_a_file_is_replaced_and_not_written_anew(self) -> None:
        """So that what it had before is lost at no moment: another name of it keeps that."""
        path, other = self.folder / "File.antt", self.folder / "other"
        path.write_text(ROWS["a definition"][0] + "\n", encoding="utf-8")
        other.hardlink_to(path)
        self.assert_ran(run(LAY_OUT, path))
        self.assertEqual(path.read_text(encoding="utf-8"), ROWS["a definition"][1] + "\n")
        self.assertEqual(other.read_text(encoding="utf-8"), ROWS["a definition"][0] + "\n")

    def test_check_changes_nothing(self) -> None:
        """A wide line is named, and the file stays."""
        path: Path = self.folder / "File.antt"
        path.write_text(ROWS["a definition"][0] + "\n", encoding="utf-8")
        ran = run(LAY_OUT, "--check", path)
        self.assertEqual(ran.status, 2)
        self.assertIn("File.antt", ran.err)
        self.assertEqual(path.read_text(encoding="utf-8"), ROWS["a definition"][0] + "\n")
