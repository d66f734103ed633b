"""Tests of ./papr before there is a program: what it says and answers, by a stand-in for the toolchain."""

import os
import pty
import re
import shlex
import shutil
import subprocess
import unittest
from pathlib import Path

from .stand_in import IN_PROGRAM, Checkout
from .support import EXAMPLES, PROGRAM, TOP, Ran, ToolTest, needs, needs_program, run

PROCESSORS = len(os.sched_getaffinity(0))
NOBODY = 65534
USAGE = "papr: usage\n"


class WrapperTest(ToolTest):
    """A test with a checkout of its own, in which nothing is built."""

    def setUp(self) -> None:
        """Makes the checkout."""
        super().setUp()
        self.checkout = Checkout(self.folder)

    def assert_ran_program(self, ran: Ran, word: str = "run", given: str = "") -> None:
        """The program was run: its words, its input and its status passed through."""
        self.assert_ran(ran, f"ran {word}\n{given}", status=7, err=None)


class FirstBuild(WrapperTest):
    """What ./papr does and says where there is no program."""

    def test_builds_and_runs_the_program(self) -> None:
        """A first build, and the program's words, input, output and status."""
        ran = self.checkout.papr("run", given="a trace\n")
        self.assert_ran_program(ran, given="a trace\n")
        for words in ("4 crates to prove", "crate 4 of 4: papr_main", f"log: {self.checkout.log}"):
            self.assertIn(words, ran.err)
        logged = self.checkout.logged()
        self.assertIn("rattle build --crate-name mid crates/mid/src/lib.rt ", logged)
        self.assertNotIn("beside", logged)
        self.assertFalse((self.checkout.top / "out" / "papr-build").exists())

    def test_a_built_program_runs_without_a_word(self) -> None:
        """What is built isn't built again."""
        self.checkout.papr("run")
        ran = self.checkout.papr("par", given="a trace\n")
        self.assert_ran_program(ran, "par", "a trace\n")
        self.assertEqual(ran.err, "")

    def test_what_the_program_does_not_stand_on_is_no_cause_to_build(self) -> None:
        """A change of a crate below the program is one, a change of another crate isn't."""
        self.checkout.papr("run")
        self.checkout.touch("beside")
        self.assertEqual(self.checkout.papr("run").err, "")
        self.checkout.touch("low")
        self.assertIn("4 crates to prove", self.checkout.papr("run").err)

    @unittest.skipIf(PROCESSORS < 2, "there is one processor")
    def test_what_neither_needs_the_other_is_proved_side_by_side(self) -> None:
        """Both begin before one ends."""
        self.checkout.papr("run", SLOW="0.5")
        self.assertEqual(sorted(self.checkout.steps()[2:4]), ["begin mid", "begin trace_runner"])

    def test_long_proofs_have_more_processors(self) -> None:
        """One that has nothing beside it has four jobs, one that the others wait for three, if there are as many."""
        self.checkout.papr("run")
        logged = self.checkout.logged()
        for name, jobs in (("low", min(4, PROCESSORS)), ("trace_runner", min(3, PROCESSORS)), ("mid", 1)):
            self.assertRegex(logged, rf"(?m)^rattle .* {name} .* --jobs {jobs} ")

    def test_a_proof_keeps_the_memory_that_it_freed(self) -> None:
        """Unless its user says otherwise."""
        self.checkout.papr("run")
        self.assertEqual(self.checkout.logged().count("\nthe allocator's delay: -1\n"), 4)
        self.checkout.touch("low")
        self.checkout.papr("run", MIMALLOC_PURGE_DELAY="10")
        self.assertEqual(self.checkout.logged().count("\nthe allocator's delay: 10\n"), 4)

    def test_a_crate_that_fails(self) -> None:
        """The message has its name and where the log is, and the log what the compiler said."""
        self.checkout.source("mid").with_name("fails").touch()
        ran = self.checkout.papr("run")
        self.assert_ran(ran, status=126, err=None)
        self.assertIn(f"mid could not be built; {self.checkout.log} says why", ran.err)
        self.assertIn("a goal stands open", self.checkout.logged())
        self.assertFalse((self.checkout.top / "out" / "papr-build").exists())

    def test_two_first_builds_at_a_time(self) -> None:
        """One builds, and the other waits and then has the program too."""
        first = self.checkout.begin(self.checkout.top / "papr", "run", SLOW="0.5")
        first.wait_for_proofs()
        second = self.checkout.papr("par", given="second\n")
        self.assert_ran_program(first.ended())
        self.assert_ran_program(second, "par", "second\n")
        self.assertIn("waiting for another build", second.err)
        self.assertNotIn("crate 1 of", second.err)


class WhatIsLeft(WrapperTest):
    """What a build says of the time that it may still take."""

    def test_a_build_says_what_is_left(self) -> None:
        """As soon as it can tell; and the log says how long each proof took."""
        ran = self.checkout.papr("run", SLOW="0.7")
        self.assertRegex(ran.err, r"(?m)crate 1 of 4: low \(0 min \d+ s, about \d+ (min|s) left\)$")
        self.assertRegex(ran.err, r"(?m)crate 4 of 4: papr_main \(0 min \d+ s\)$")
        self.assertEqual(len(re.findall(r"(?m)^status 0, [1-9]\d* s$", self.checkout.logged())), 4)

    def test_what_is_left_of_a_change(self) -> None:
        """What an earlier build proved is no part of it."""
        self.checkout.be_of_git()
        self.checkout.papr("run")
        self.checkout.change("low", "/" * 99_999 + "\n")
        ran = self.checkout.papr("run", SLOW="0.7")
        self.assertRegex(ran.err, r"(?m)crate 1 of 4: low \(.* (min|s) left\)$")
        self.checkout.change("papr_main")
        ran = self.checkout.papr("run", SLOW="0.7")
        self.assertRegex(ran.err, r"(?m)crate 3 of 4: [a-z_]* \(0 min \d+ s\)$")
        self.assertRegex(ran.err, r"(?m)crate 4 of 4: papr_main \(0 min \d+ s\)$")

    def test_progress_on_a_terminal(self) -> None:
        """One line moves: each state begins with CR, and shows how many crates are proved."""
        states = self.on_a_terminal("run", slow="1.2").split("\r")
        self.assertTrue(any(re.search(r"0 of 4 crates proved, 0 min 0[01] s$", it) for it in states), states)
        self.assertTrue(any(re.search(r"1 of 4 crates proved, .*; last low$", it) for it in states), states)
        self.assertTrue(any("papr: built in" in it for it in states), states)

    def on_a_terminal(self, word: str, slow: str) -> str:
        """What the wrapper writes to a terminal."""
        here, there = pty.openpty()
        variables = {**os.environ, **self.checkout.environment(SLOW=slow)}
        with subprocess.Popen(
            [self.checkout.top / "papr", word], stdin=subprocess.DEVNULL, stdout=there, stderr=there, env=variables
        ):
            os.close(there)
            told = b""
            with open(here, "rb", buffering=0) as terminal:
                try:
                    while data := terminal.read(4096):
                        told += data
                except OSError:
                    pass  # the last of its writers has closed it
        return told.decode()


class Kept(WrapperTest):
    """What a build keeps for the next one, in a checkout of git."""

    def setUp(self) -> None:
        """Builds the program."""
        super().setUp()
        self.checkout.be_of_git()
        self.checkout.papr("run")

    def test_a_change_proves_what_stands_on_it(self) -> None:
        """And nothing else; the build says how many crates that are."""
        self.checkout.change("mid")
        ran = self.checkout.papr("run")
        self.assert_ran_program(ran)
        self.assertIn("building the program: 2 of 4 crates to prove\n", ran.err)
        self.assertIn("crate 4 of 4: papr_main", ran.err)
        self.assertEqual(self.checkout.proved(), ["mid", "papr_main"])

    def test_a_source_that_is_only_newer_proves_nothing(self) -> None:
        """What a proof rests on are the texts."""
        self.checkout.touch("low")
        ran = self.checkout.papr("run")
        self.assert_ran_program(ran)
        self.assertIn("building the program: 0 of 4 crates to prove\n", ran.err)
        self.assertEqual(self.checkout.proved(), [])

    def test_a_definition_that_changes_is_built_at_the_next_run(self) -> None:
        """The program was proved by the definitions that were there."""
        self.checkout.add("low", "specs/Low.antt", "-- a definition\n")
        ran = self.checkout.papr("run")
        self.assert_ran_program(ran)
        self.assertIn("low", self.checkout.proved())

    def test_a_proof_that_changes_waits_for_the_next_build(self) -> None:
        """The program stays as it is, and starts at once; a build proves the crate."""
        self.checkout.add("low", "proofs/Low.antt", "-- another proof\n")
        ran = self.checkout.papr("run")
        self.assert_ran_program(ran)
        self.assertNotIn("building", ran.err)
        built = self.checkout.build()
        self.assertIn("building the program: 4 crates to prove", built.err)

    def test_another_kit_proves_all(self) -> None:
        """A proof rests on the toolchain too."""
        (self.checkout.kit / "KIT-ID").write_text("another kit\n")
        self.checkout.touch("low")
        self.checkout.papr("run")
        self.assertEqual(sorted(self.checkout.proved()), sorted(IN_PROGRAM))


class Refusals(WrapperTest):
    """What ./papr refuses before it builds."""

    def test_wrong_words(self) -> None:
        """They are answered as the program answers them."""
        for words in (["runn"], ["run", "one", "other"], ["image"]):
            ran = self.checkout.papr(*words)
            self.assert_ran(ran, USAGE, status=1, err=None)
            self.assertIn("man/papr.1", ran.err)
        self.assertFalse((self.checkout.top / "out").exists())

    def test_no_build_for_help_the_version_or_a_file_that_is_missing(self) -> None:
        """Nothing is made."""
        shutil.copy(TOP / "VERSION", self.checkout.top)
        self.assert_ran(self.checkout.papr("--help"), out=None)
        self.assert_ran(self.checkout.papr("help", "check"), out=None)
        version = self.checkout.papr("--version")
        self.assert_ran(version, out=None)
        self.assertTrue(version.out.endswith("the program isn't built yet\n"), version.out)
        ran = self.checkout.papr("run", "none")
        self.assert_ran(ran, status=3, err="papr: none: No such file or directory\n")
        self.assertFalse((self.checkout.top / "out").exists())

    def test_wrong_words_into_a_full_device(self) -> None:
        """The status is the program's for a sink that fails."""
        with open("/dev/full", "wb") as full:
            ran = subprocess.run(
                [self.checkout.top / "papr"], stdout=full, stderr=subprocess.PIPE, text=True, check=False
            )
        self.assertEqual(ran.returncode, 4)
        self.assertIn("man/papr.1", ran.stderr)

    def test_no_toolchain_on_the_path(self) -> None:
        """The message says what is missing, and nothing is made."""
        self.checkout.tools = "/usr/bin:/bin"
        ran = self.checkout.papr("run")
        self.assert_ran(ran, status=127, err=None)
        for words in ("README.md", "rt doc"):
            self.assertIn(words, ran.err)
        self.assertFalse((self.checkout.top / "out").exists())

    @unittest.skipIf(os.getuid() == 0 and not Path("/usr/bin/setpriv").is_file(), "setpriv is not installed")
    def test_a_checkout_that_cannot_be_written(self) -> None:
        """As somebody who can't write there, where this is a user who can write anywhere."""
        for path in [self.folder, *self.folder.rglob("*")]:
            path.chmod(path.stat().st_mode | (0o555 if path.is_dir() else 0o444 | path.stat().st_mode >> 2 & 0o111))
        for path in (self.checkout.top, self.checkout.top / "crates"):
            path.chmod(0o555)
        one = ["setpriv", f"--reuid={NOBODY}", "--clear-groups"] if os.getuid() == 0 else []
        ran = run(*one, self.checkout.top / "papr", "run", environment=self.checkout.environment())
        for path in (self.checkout.top, self.checkout.top / "crates"):
            path.chmod(0o755)
        self.assert_ran(ran, status=126, err=None)
        self.assertIn(f"can't be written: {self.checkout.top}", ran.err)
        self.assertEqual(ran.err.count("\n"), 1)


class AnswersBeforeTheProof(WrapperTest):
    """The command that a build names for an answer before its end."""

    @needs("rt")
    def test_it_is_the_toolchains_and_gives_the_programs_answer(self) -> None:
        """The same command in this checkout, on the first example."""
        told = self.checkout.papr("run").err
        command = f"cd {self.checkout.top}/crates/papr_main && rt try -- run <TRACE"
        self.assertIn(f"an answer before it is proved, in a minute or two: {command}", told)
        given = EXAMPLES / "first.trace"
        ran = run("rt", "try", "--", "run", given=given, folder=TOP / "crates" / "papr_main")
        answers = "".join(ran.out.splitlines(keepends=True)[:2])
        self.assert_text(answers, (EXAMPLES / "first.replies").read_text())


@needs_program
class SameWords(ToolTest):
    """The wrapper takes just the words that the program takes."""

    def test_both_refuse_the_words_or_none_does(self) -> None:
        """Words with a meaning, numbers at their bounds, and others, alone and together."""
        words = "run par image old drill 1 0x186a0 0x186a1 100000 100001 0000100000 18446744073709551615"
        words += " 18446744073709551616 000018446744073709551615 0x10000000000000000 -1 +1 x  08 0x"
        tried: list[list[str]] = [[], ["run", "run"], ["image", "new"], ["image", "old", "new"]]
        tried += [["drill", "1"], ["drill", "1", "1", "1"]]
        for word in words.split(" "):
            tried += [[word], ["drill", word, "1"], ["drill", "0", word], ["image", word]]
        text = (TOP / "tools" / "launcher.bash").read_text()
        functions = text[text.index("# is_number WORD") : text.index("# take_words WORD")]
        asked = "\n".join(f"is_command {shlex.join(it)}; echo $?" for it in tried)
        own = run("bash", "-c", f"{functions}\n{asked}\n", folder=TOP).out.split()
        self.assertEqual(len(own), len(tried))
        for command, status in zip(tried, own):
            with self.subTest(command=command):
                is_refused = run(PROGRAM, *command).out.startswith("papr: usage")
                self.assertEqual(status, "1" if is_refused else "0")
