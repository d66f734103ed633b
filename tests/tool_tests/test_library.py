"""Tests of the crates in another repository: tools/vendor, and the program of docs/LIBRARY.md, made anew and run."""

import re

from .support import DOCS, TOOLS, TOP, Ran, ToolTest, needs, run

VENDOR, PAGE = TOOLS / "vendor", DOCS / "LIBRARY.md"
A_LINE = re.compile(r"[a-z_]+( [a-z_]+=[^ ]*)*: ")


def fenced(language: str) -> str:
    """The blocks in a language of the page's part on crates, which comes before that on other languages."""
    on_crates = PAGE.read_text(encoding="utf-8").partition("\n## From ")[0]
    blocks = re.findall(rf"^```{language}\n(.*?)^```$", on_crates, re.M | re.S)
    return "".join(blocks)


def lines_of_crates() -> list[str]:
    """The page's lines of crates.txt, with that of its own crate."""
    return [line for line in fenced("text").splitlines() if A_LINE.match(line)]


def names_of(lines: str) -> list[str]:
    """The crates that lines of crates.txt are of."""
    return [re.split("[ :]", line)[0] for line in lines.splitlines()]


class Vendor(ToolTest):
    """tools/vendor copies crates into another repository."""

    def setUp(self) -> None:
        super().setUp()
        self.other = self.folder / "other"
        self.other.mkdir()

    def vendor(self, *crates: str) -> Ran:
        """Copies crates into the other repository."""
        return run(VENDOR, *crates, self.other)

    def test_crates_are_copied_with_their_lines_and_licences(self) -> None:
        ran = self.vendor("hpt_hash", "papr_table")
        self.assert_ran(ran, (self.other / "crates.txt").read_text())
        self.assertIn("hpt_hash: power_addr page_sizes hpte_fields", ran.out.splitlines())
        crates = self.other / "crates"
        self.assert_same_folder(crates / "hpt_hash" / "specs", TOP / "crates" / "hpt_hash" / "specs")
        self.assert_same_file(crates / "basics" / "LICENSE-MIT", TOP / "LICENSE-MIT")
        self.assertFalse((crates / "hpt_hash" / "out").exists())
        self.assertEqual(sorted(names_of(ran.out)), sorted(it.name for it in crates.iterdir()))

    def test_further_crates_beside_those_that_are_there(self) -> None:
        """What is there already stays, and what is missing is added."""
        self.vendor("hpt_hash", "papr_table")
        mine = self.other / "crates" / "basics" / "src" / "lib.rt"
        mine.write_text(mine.read_text() + "// mine\n")
        ran = self.vendor("hpt_walk", "h_enter")
        self.assert_ran(ran, out=None)
        self.assertNotIn("basics", names_of(ran.out))
        self.assertIn("hpt_walk", names_of(ran.out))
        lines = (self.other / "crates.txt").read_text().splitlines()
        self.assertEqual(len(lines), len(set(lines)))
        self.assertIn("// mine\n", mine.read_text())

    def test_a_crate_that_is_there_on_another_line(self) -> None:
        (self.other / "crates.txt").write_text("basics: anyhow\n")
        self.assert_told(self.vendor("hpt_walk"), "another line for basics")
        self.assertFalse((self.other / "crates").exists())

    def test_a_program_is_no_library(self) -> None:
        self.assert_told(self.vendor("papr_main"), "is a program")

    def test_a_crate_that_is_not_one(self) -> None:
        self.assert_told(self.vendor("frob"), "no crate")

    def test_a_folder_that_is_not_one(self) -> None:
        self.assert_told(run(VENDOR, "basics", self.folder / "none"), "is no folder")

    def test_vendor_has_help(self) -> None:
        self.assert_help(VENDOR)

    def assert_told(self, ran: Ran, words: str) -> None:
        """Status 2, nothing on standard output, and a message with these words."""
        self.assert_ran(ran, status=2, err=None)
        self.assertIn(words, ran.err)


class ThePage(ToolTest):
    """What docs/LIBRARY.md says."""

    def test_its_lines_are_those_of_crates_txt(self) -> None:
        lines = [line for line in lines_of_crates() if not line.startswith("first_walk")]
        self.assertGreaterEqual(len(lines), 5)
        listed = (TOP / "crates.txt").read_text().splitlines()
        self.assertEqual([line for line in lines if line not in listed], [])

    @needs("rt")
    def test_its_program_writes_what_it_says(self) -> None:
        """In a repository that is made as the page says, and without a proof."""
        named = re.search(r"^ *tools/vendor (.*) \S+$", PAGE.read_text(encoding="utf-8"), re.M)
        assert named is not None
        crate = self.folder / "crates" / "first_walk"
        (crate / "src").mkdir(parents=True)
        self.assert_ran(run(VENDOR, *named[1].split(), ".", folder=self.folder), out=None)
        with open(self.folder / "crates.txt", "a", encoding="utf-8") as listed:
            listed.writelines(f"{line}\n" for line in lines_of_crates() if line.startswith("first_walk: "))
        (crate / "src" / "main.rt").write_text(fenced("rust"))
        ran = run("rt", "try", folder=crate)
        self.assertEqual(ran.status, 0, ran.err[-2000:])
        expected = answers_in(fenced("text"))
        self.assertNotEqual(expected, "")
        self.assert_text(answers_in(ran.out), expected)


def answers_in(text: str) -> str:
    """The lines that tell of H_ENTER."""
    return "".join(line for line in text.splitlines(keepends=True) if line.startswith("H_ENTER "))
