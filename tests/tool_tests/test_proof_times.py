"""Tests of tools/proof-times, by a stand-in for the toolchain that proves nothing."""

import re
import shutil

from .stand_in import make_kit
from .support import TOOLS, Ran, ToolTest, run

# A checker that writes modules, each some time after the one before.
CHECKER = """\
#!/usr/bin/env bash
echo "rattle $*" >>"$(dirname "$0")/words"
[ ! -e "$(dirname "$4")/fails" ] || { echo "a goal stands open"; exit 1; }
while [ "$1" != --incremental ]; do shift; done
write() { sleep "$1"; : >"$2"; }
cd "$2" && mkdir kept && cd kept || exit 2
write 0 Rattle-mid-specs.Words.oantt
write 0.1 Rattle-mid-proofs.small.Proof.decls.oantt
write 0.5 Rattle-mid-proofs.large.Table.find.Lts.oantt
write 1 Rattle-mid-proofs.large.Table.find.Proof.decls.oantt
write 0.2 Rattle-mid-proofs.large.Table.find.Answers.decls.oantt
write 0.1 Rattle-mid-proofs.Lemmas.decls.oantt
"""


class ProofTimes(ToolTest):
    """A checkout of its own with two crates, of which the lower one is built."""

    def setUp(self) -> None:
        super().setUp()
        self.top, self.kit = self.folder / "checkout", self.folder / "kit"
        self.built = self.top / "out" / "papr-build"
        (self.built / "low.rlib").mkdir(parents=True)
        (self.top / "tools").mkdir()
        for file in (TOOLS / "proof-times", *TOOLS.glob("*.py")):
            shutil.copy(file, self.top / "tools")
        for name in ("low", "mid"):
            (self.top / "crates" / name / "src").mkdir(parents=True)
            (self.top / "crates" / name / "src" / "lib.rt").touch()
        (self.top / "crates.txt").write_text("low:\nmid: low\n")
        make_kit(self.kit, CHECKER)

    def times(self, *words: str) -> Ran:
        """Runs the tool with the stand-in."""
        path = f"{self.kit}/bin:/usr/bin:/bin"
        return run(self.top / "tools" / "proof-times", *words, environment={"PATH": path})

    def assert_told(self, ran: Ran, words: str) -> None:
        """Status 2, no table, and a message with these words."""
        self.assert_ran(ran, status=2, err=None)
        self.assertIn(words, ran.err)

    def test_the_dearest_function_is_first_by_what_its_modules_took(self) -> None:
        ran = self.times("mid")
        self.assert_ran(ran, out=None)
        rows = [line.split(maxsplit=5) for line in ran.out.splitlines()]
        self.assertEqual(rows[0], ["seconds", "steps", "search", "answers", "rest", "function"])
        names = [row[5] for row in rows[1:]]
        self.assertEqual(names, ["large::Table::find", "small", "all, with types and lemmas"])
        for row in rows[1:]:
            self.assertEqual([it for it in row[:5] if not re.fullmatch(r"\d+\.\d", it)], [])
        seconds, steps, search, answers, rest = map(float, rows[1][:5])
        self.assertGreaterEqual(min(seconds - 1.7, steps - 0.5, search - 1, answers - 0.2), 0, ran.out)
        self.assertTrue(search > steps > answers, ran.out)
        self.assertEqual(rest, 0)
        seconds, rest = float(rows[3][0]), float(rows[3][4])
        self.assertGreaterEqual(min(seconds - 1.9, rest - 0.1), 0, ran.out)

    def test_it_keeps_to_so_many_rows(self) -> None:
        self.assertEqual(self.times("mid", "--functions", "1").out.count("\n"), 3)

    def test_a_proof_by_one_job_over_what_is_built(self) -> None:
        self.times("mid")
        words = (self.kit / "bin" / "words").read_text()
        self.assertRegex(words, rf"(?m)^rattle check .* --jobs 1 .* --extern low={self.built}/low\.rlib ")

    def test_a_lower_crate_that_is_not_built(self) -> None:
        self.built.rename(self.folder / "away")
        self.assert_told(self.times("mid"), "low isn't built")

    def test_a_proof_that_fails(self) -> None:
        (self.top / "crates" / "mid" / "src" / "fails").touch()
        self.assert_told(self.times("mid"), "a goal stands open")

    def test_no_such_crate(self) -> None:
        self.assert_told(self.times("high"), "invalid choice")
