"""Tests of builds by a stand-in for the toolchain: the libraries for C, builds that are ended, and what goes wrong."""

import os
import re
import shutil
import signal

from .stand_in import IN_LIBRARIES, IN_PROGRAM, STATIC, Begun, Checkout, is_running
from .support import TOP, Ran, ToolTest, for_each, needs, run

INSTALLED = {"papr_c": "libpapr.a", "papr_shared": "libpapr_shared.a", "papr_bytes": "libpapr_bytes.a"}
INT, TERM, HUP, KILL = signal.SIGINT, signal.SIGTERM, signal.SIGHUP, signal.SIGKILL


class BuildTest(ToolTest):
    """A test with a checkout of git, in which nothing is built."""

    def setUp(self) -> None:
        super().setUp()
        self.checkout = Checkout(self.folder)
        self.checkout.be_of_git()

    def assert_failed(self, ran: Ran, message: str) -> None:
        """The wrapper couldn't build, and its last line is the message."""
        self.assert_ran(ran, status=126, err=None)
        self.assertEqual(ran.err.splitlines()[-1:], [message])


class Libraries(BuildTest):
    """The libraries for C."""

    def test_it_is_proved_with_all_that_it_stands_on_and_nothing_else(self) -> None:
        ran = self.checkout.build("--library")
        self.assert_ran(ran, err=None)
        self.assertEqual(self.checkout.archives["papr_c"].read_text(), "an archive over papr_c\n")
        self.assertCountEqual(self.checkout.proved(), IN_LIBRARIES)
        for words in (
            "building the libraries for C: 5 crates to prove, the first time ",
            f"log: {self.checkout.log}\n",
            "crate 5 of 5: papr_",
            "built in 0 min ",
        ):
            self.assertIn(f"papr: {words}", ran.err)
        self.assertNotIn("rt try", ran.err)

    def test_it_is_compiled_as_a_static_library(self) -> None:
        self.checkout.build("--library")
        (words,) = [it for it in self.checkout.logged().splitlines() if it.startswith("rattle ") and " papr_c " in it]
        archive = self.checkout.built / "libpapr_c.a"
        toolchain = f"--toolchain {self.checkout.kit}/toolchain --backend llvm"
        self.assertTrue(words.endswith(f" --crate-type staticlib {toolchain} -o {archive}"), words)
        self.assertNotIn("--statements", words)

    @for_each("papr_shared", "papr_bytes")
    def test_the_heap_is_put_into_the_archive_of(self, name: str) -> None:
        self.checkout.build("--library")
        heap = f"and {self.checkout.kit}/c/liblibc_c.a\n"
        self.assertEqual(self.checkout.archives[name].read_text(), f"an archive over {name}\n{heap}")

    def test_a_second_build_does_nothing_and_says_nothing(self) -> None:
        self.checkout.build("--library")
        archives = self.checkout.archives.values()
        made = [it.stat().st_mtime_ns for it in archives]
        self.checkout.times.unlink()
        self.assert_ran(self.checkout.build("--library"))
        self.assertFalse(self.checkout.times.exists())
        self.assertEqual([it.stat().st_mtime_ns for it in archives], made)

    @for_each(*STATIC)
    def test_an_archive_that_is_missing_is_put_back(self, name: str) -> None:
        """What is proved is kept, so nothing is proved for it."""
        self.checkout.build("--library")
        self.checkout.archives[name].unlink()
        self.checkout.times.unlink()
        self.assert_ran(self.checkout.build("--library"), err=None)
        self.assertTrue(self.checkout.archives[name].is_file())
        self.assertFalse(self.checkout.times.exists())

    def test_it_takes_over_what_the_program_proved(self) -> None:
        self.checkout.papr("run")
        ran = self.checkout.build("--library")
        self.assertIn("building the libraries for C: 4 of 5 crates to prove\n", ran.err)
        self.assertCountEqual(self.checkout.proved(), ["beside", *STATIC])

    def leave(self, *names: str) -> None:
        """Leaves the library of each crate where the gate does."""
        for name in names:
            (self.checkout.top / "crates" / name / "out" / "rlib" / f"{name}.rlib").mkdir(parents=True)

    def test_it_takes_over_what_the_gate_left(self) -> None:
        self.leave("low", "beside")
        ran = self.checkout.build("--from-gate")
        self.assert_ran(ran, err="build: 2 of 4 libraries are those that the gate left\n")
        self.checkout.build("--library")
        self.assertCountEqual(self.checkout.proved(), STATIC)

    def test_nothing_is_taken_over_that_is_older_than_a_source_below(self) -> None:
        self.leave("low", "beside")
        self.checkout.touch("low")
        ran = self.checkout.build("--from-gate")
        self.assert_ran(ran, err="build: 0 of 4 libraries are those that the gate left\n")

    def test_nothing_is_taken_over_that_the_gate_did_not_make(self) -> None:
        self.leave("low", "beside")
        (self.checkout.top / "crates" / "beside" / "out" / "rlib" / "stamp").touch()
        ran = self.checkout.build("--from-gate")
        self.assert_ran(ran, err="build: 1 of 4 libraries are those that the gate left\n")

    def test_the_program_takes_over_what_it_proved(self) -> None:
        self.checkout.build("--library")
        ran = self.checkout.papr("run")
        self.assertIn("building the program: 3 of 4 crates to prove\n", ran.err)
        self.assertEqual(sorted(self.checkout.proved()), sorted(set(IN_PROGRAM) - {"low"}))

    def test_a_change_proves_its_crate_and_those_above(self) -> None:
        self.checkout.build("--library")
        self.checkout.change("beside")
        self.checkout.build("--library")
        self.assertCountEqual(self.checkout.proved(), ["beside", *STATIC])
        self.checkout.change("papr_c")
        self.checkout.build("--library")
        self.assertEqual(self.checkout.proved(), ["papr_c"])

    def test_a_change_of_what_it_does_not_stand_on_is_no_cause_to_build(self) -> None:
        self.checkout.build("--library")
        self.checkout.change("trace_runner")
        self.assert_ran(self.checkout.build("--library"))

    def test_a_crate_that_fails_is_named(self) -> None:
        self.checkout.source("papr_c").with_name("fails").touch()
        ran = self.checkout.build("--library")
        self.assert_ran(ran, status=2, err=None)
        self.assertEqual(
            ran.err.splitlines()[-1], f"build: papr_c could not be built; {self.checkout.log} says why"
        )
        self.assertFalse(self.checkout.archives["papr_c"].exists())

    def test_no_toolchain_on_the_path(self) -> None:
        self.checkout.tools = "/usr/bin:/bin"
        message = "build: the Rattle toolchain (rt) isn't on the path; README.md says which kit of it"
        self.assert_refused(self.checkout.build("--library"), message)


@needs("make")
class Installed(BuildTest):
    """What `make install` puts in its places."""

    def setUp(self) -> None:
        super().setUp()
        for name in ("Makefile", "VERSION"):
            shutil.copy(TOP / name, self.checkout.top)
        for name in ("README.md", "CHANGELOG.md", "CONTRIBUTING.md", "LICENSE-APACHE", "LICENSE-MIT"):
            shutil.copy(TOP / name, self.checkout.top)
        for name in ("bindings", "completions", "docs", "examples", "include", "man"):
            (self.checkout.top / name).symlink_to(TOP / name)
        for tool in (TOP / "tools").iterdir():
            if tool.is_file() and not (self.checkout.top / "tools" / tool.name).exists():
                shutil.copy(tool, self.checkout.top / "tools")
        self.tree = self.folder / "tree"
        # An archive of the stand-in has no objects of which a shared one could be made.
        self.stand_in = self.folder / "library"
        self.stand_in.touch()

    def make(self, *words: str) -> Ran:
        """Runs make in the checkout, whose program ends with status 0."""
        given = [f"{name}={self.stand_in}" for name in ("SHARED", "BYTES_SHARED")]
        places = (f"DESTDIR={self.tree}", "PREFIX=/usr", *given)
        environment = self.checkout.environment(ENDS="0")
        return run("make", "-s", "-C", self.checkout.top, *places, *words, environment=environment)

    def test_program_and_library_are_built_where_they_are_missing_or_older(self) -> None:
        self.assert_ran(self.make("install"), err=None)
        self.assert_same_file(self.tree / "usr/libexec/papr/papr", self.checkout.program)
        version = (self.tree / "usr/share/papr/version").read_text().splitlines()
        self.assertEqual(version[2], "a kit")
        for name, installed in INSTALLED.items():
            self.assert_same_file(self.tree / "usr/lib" / installed, self.checkout.archives[name])
        self.assertEqual(len(self.checkout.compilers()), len({*IN_PROGRAM, *IN_LIBRARIES}))
        self.assert_ran(self.make("install"))
        self.checkout.times.unlink()
        self.checkout.change("beside")
        self.checkout.change("mid")
        self.assert_ran(self.make("install"), err=None)
        begun = {line.split()[1] for line in self.checkout.steps()}
        self.assertEqual(begun, {"beside", *STATIC, "mid", "papr_main"})

    def test_the_library_alone(self) -> None:
        self.assert_ran(self.make("install-library"), err=None)
        self.assert_same_file(self.tree / "usr/lib/libpapr.a", self.checkout.archives["papr_c"])
        self.assertFalse(self.checkout.program.exists())

    def test_make_builds_it_once(self) -> None:
        archives = [f"crates/{name}/out/lib{name}.a" for name in STATIC]
        self.assert_ran(self.make(*archives), err=None)
        self.assertEqual([it for it in self.checkout.archives.values() if not it.is_file()], [])
        self.assert_ran(self.make(*archives))


class Ended(BuildTest):
    """A build that a signal ends says what it keeps, and leaves no proof behind."""

    def begin(self) -> Begun:
        """Begins to build the program, and waits until low is being proved."""
        begun = self.checkout.begin(self.checkout.top / "papr", "run")
        begun.wait_for_proofs()
        return begun

    def assert_ended(
        self, ran: Ran, status: int, proved: int = 0, command: str = "./papr", count: int = 4
    ) -> None:
        """The last line says what is kept, and no proof goes on. A status below 0 is a signal's."""
        kept = f"what is proved so far ({proved} of {count} crates) is kept"
        self.assert_ran(ran, status=status, err=None)
        self.assertEqual(ran.err.splitlines()[-1], f"papr: ended; {kept}, and the next {command} goes on from there")
        self.assertNotEqual(self.checkout.compilers(), [])
        self.assertEqual([it for it in self.checkout.compilers() if is_running(it)], [])

    @for_each(INT, TERM, HUP)
    def test_by_a_signal_to_the_wrapper(self, number: signal.Signals) -> None:
        """The wrapper ends by it too, so that a shell's loop around it ends."""
        self.assert_ended(self.begin().end(number), -number)

    @for_each(INT, TERM, HUP)
    def test_by_a_signal_to_the_build(self, number: signal.Signals) -> None:
        """The wrapper hands the status on."""
        begun = self.begin()
        self.assert_ended(begun.end(number, begun.builder()), 128 + number)

    def test_by_an_interrupt_to_all_that_a_terminal_runs(self) -> None:
        begun = self.begin()
        os.killpg(begun.ran.pid, INT)
        self.assert_ended(begun.ended(), -INT)

    def test_by_two_interrupts(self) -> None:
        begun = self.begin()
        os.kill(begun.ran.pid, INT)
        self.assert_ended(begun.end(INT), -INT)

    def test_a_signal_that_is_ignored_does_not_end_it(self) -> None:
        """As that of a terminal that is closed, under nohup."""
        words = f"trap '' HUP && exec {self.checkout.top}/papr run"
        begun = self.checkout.begin("sh", "-c", words, SLOW="1")
        begun.wait_for_proofs()
        os.killpg(begun.ran.pid, HUP)
        self.assert_ran(begun.ended(), "ran run\n", status=7, err=None)

    def test_the_next_build_goes_on_from_there(self) -> None:
        self.checkout.source("mid").with_name("slow").touch()
        begun = self.checkout.begin(self.checkout.top / "papr", "run", SLOW="0", SLOWER="60")
        begun.wait_for("crate 2 of 4: trace_runner")
        begun.wait_for_proofs(3)
        self.assert_ended(begun.end(INT), -INT, proved=2)
        ran = self.checkout.papr("run")
        self.assertIn("building the program: 2 of 4 crates to prove\n", ran.err)
        self.assertEqual(self.checkout.proved(), ["mid", "papr_main"])

    def test_outside_a_checkout_of_git_the_next_build_goes_on_too(self) -> None:
        (self.checkout.top / ".git").rmdir()
        self.checkout.built = self.checkout.top / "out" / "papr-build"
        self.checkout.source("mid").with_name("slow").touch()
        begun = self.checkout.begin(self.checkout.top / "papr", "run", SLOW="0", SLOWER="60")
        begun.wait_for("crate 2 of 4: trace_runner")
        begun.wait_for_proofs(3)
        self.assert_ended(begun.end(TERM), -TERM, proved=2)
        ran = self.checkout.papr("run")
        self.assertIn("building the program: 2 of 4 crates to prove\n", ran.err)
        self.assertFalse(self.checkout.built.exists())

    def test_a_build_of_the_library(self) -> None:
        begun = self.checkout.begin(self.checkout.top / "tools" / "build", "--library")
        begun.wait_for_proofs()
        self.assert_ended(begun.end(INT), 128 + INT, command="make library", count=5)

    def test_a_build_that_waits_for_another_promises_nothing(self) -> None:
        first = self.begin()
        second = self.checkout.begin(self.checkout.top / "papr", "run")
        second.wait_for("waiting for another build")
        ran = second.end(TERM)
        self.assert_ran(ran, status=-TERM, err=None)
        self.assertNotIn("kept", ran.err)
        self.assert_ended(first.end(INT), -INT)


class GoneWrong(BuildTest):
    """What a build says where it can't go on."""

    def test_a_toolchain_whose_first_page_is_missing(self) -> None:
        (self.checkout.kit / "START-HERE.md").unlink()
        message = "build: `rt doc` names no page, so the toolchain can't be found"
        self.assert_failed(self.checkout.papr("run"), message)

    def test_a_toolchain_of_another_shape(self) -> None:
        kit = self.checkout.kit / "KIT-ID"
        kit.unlink()
        self.assert_failed(self.checkout.papr("run"), f"build: {kit}: No such file or directory")

    def test_a_toolchain_without_its_compiler(self) -> None:
        compiler = self.checkout.kit / "bin" / "rattle"
        compiler.unlink()
        self.assert_failed(self.checkout.papr("run"), f"build: {compiler}: No such file or directory")

    def test_a_proof_that_is_killed_fails_with_its_status_in_the_log(self) -> None:
        """As the system kills what takes too much memory. With several jobs it is tried by one again."""
        self.checkout.source("low").with_name("killed").touch()
        message = f"build: low could not be built; {self.checkout.log} says why"
        self.assert_failed(self.checkout.papr("run"), message)
        jobs = 1 if len(os.sched_getaffinity(0)) == 1 else 2
        self.assertEqual(len(re.findall(r"\nstatus -9, [0-9]+ s\n", self.checkout.logged())), jobs)
        self.assertIn(" --jobs 1 ", self.checkout.logged())

    def test_a_build_that_is_killed_is_begun_anew_by_the_next(self) -> None:
        """It can say nothing itself, and its status is that of a build that failed."""
        begun = self.checkout.begin(self.checkout.top / "papr", "run")
        begun.wait_for_proofs()
        killed = begun.end(KILL, begun.builder())
        self.assert_ran(killed, status=126, err=None)
        self.assertEqual(killed.err.splitlines()[-1], "papr: the build was ended by signal 9")
        (process,) = self.checkout.compilers()
        self.assertTrue(is_running(process))
        second = self.checkout.begin(self.checkout.top / "papr", "run", SLOW="0")
        second.wait_for("waiting for another build")
        self.assertEqual(self.checkout.compilers(), [process], "a proof began beside that of the build that was killed")
        os.killpg(process, TERM)
        ran = second.ended()
        self.assert_ran(ran, "ran run\n", status=7, err=None)
        self.assertIn("waiting for another build", ran.err)

    def test_a_full_disk_under_the_log(self) -> None:
        self.checkout.log.parent.mkdir()
        self.checkout.log.symlink_to("/dev/full")
        self.assert_failed(self.checkout.papr("run"), f"build: {self.checkout.log}: No space left on device")

    def test_a_full_disk_under_what_is_kept(self) -> None:
        """The stamps of proofs, which the build itself writes; a crate without its stamp is proved again."""
        full = self.checkout.source("low").with_name("full")
        full.touch()
        stamp = self.checkout.built / "low.stamp"
        self.assert_failed(self.checkout.papr("run"), f"build: {stamp}: No space left on device")
        full.unlink()
        self.assertIn("building the program: 4 crates to prove", self.checkout.papr("run").err)
