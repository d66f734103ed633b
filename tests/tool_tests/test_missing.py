"""Tests of the command papr where something that it needs is missing, or has no room."""

import gzip

from .support import Word
from .test_launcher import LauncherTest

BASH = "papr: it needs bash, which isn't on the path\n"
TEXT = "a trace\n" * 1000


class Rooms(LauncherTest):
    """Temporary files that have no room for an input."""

    def assert_no_room(self, name: str, line: str, *words: Word) -> None:
        """No file may get as large as this input, so that a write fails, as it does on a full disk."""
        before = self.left()
        ran = self.by_shell(f"trap '' XFSZ; ulimit -f 1; TMPDIR=. {line}", *words)
        self.assert_ran(ran, status=3, err=f"papr: {name}: it can't be copied into .\n")
        self.assertEqual(self.left(), before)

    def test_a_file_that_is_expanded(self) -> None:
        (self.folder / "t.gz").write_bytes(gzip.compress(TEXT.encode()))
        for words in (["run", "t.gz"], ["check", "/dev/null", "t.gz"]):
            self.assert_no_room("t.gz", '"$@"', *words)

    def test_a_file_that_is_joined_with_another(self) -> None:
        self.file("t", TEXT)
        for words in (["t", "/dev/null"], ["/dev/null", "t"]):
            self.assert_no_room("t", '"$@"', "check", *words)
        self.assert_no_room("standard input", '"$@" <t', "check", "-", "/dev/null")

    def test_a_line_between_two_files(self) -> None:
        """The first of them just fits."""
        self.file("t", "x" * 1024)
        self.assert_no_room("t", '"$@"', "check", "t", "/dev/null")

    def test_a_refused_pipe_of_which_no_copy_has_room(self) -> None:
        """Where the message would be about another input, of which the end is missing."""
        self.file("t", "ends 2\n" + TEXT)
        ran = self.by_shell("trap '' XFSZ; ulimit -f 1; TMPDIR=. \"$@\" < <(cat t)", "run")
        message = "papr: standard input: refused, for the reason on standard output\n"
        self.assert_ran(ran, "papr: line 1: word\n", status=2, err=message)
        self.assertEqual(self.left(), ["t"])


class Shells(LauncherTest):
    """A path without bash."""

    def path(self) -> str:
        """A folder in which there is nothing but the tools of a plain run."""
        place = self.folder / "bin"
        place.mkdir()
        (place / "cat").symlink_to("/bin/cat")
        return str(place)

    def test_a_command_says_that_bash_is_missing(self) -> None:
        path = self.path()
        for words in (["run", "t"], ["--help"], ["why", "t"]):
            self.assert_ran(self.papr(*words, PATH=path), status=127, err=BASH)

    def test_a_run_that_ends_well_needs_none(self) -> None:
        self.assert_run("good\n", out="ran run\ngood\n")

    def test_a_run_that_has_a_message_says_that_bash_is_missing(self) -> None:
        self.assert_run("ends 2\n", out="papr: line 1: word\n", status=127, err=BASH)

    def assert_run(self, trace: str, out: str, status: int = 0, err: str = "") -> None:
        """What comes of a plain run of this trace."""
        self.file("t", trace)
        line = f"PATH={self.path()} \"$@\" <t"
        self.assert_ran(self.by_shell(line, "run"), out, status=status, err=err)
