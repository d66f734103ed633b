"""Tests of the steps that threads make on shared words: what of a module is refused, and what compilers make of it."""

import re
import sys
import unittest

from .emulator import AARCH64, EMULATED, PPC64LE, RISCV64, Emulated
from .support import TOP, VERSION, ToolTest, for_each, run, run_bytes

sys.path[:0] = [str(TOP / "tools" / "targets"), str(TOP / "tools")]
from common import Bad  # noqa: E402
from machines import OTHERS  # noqa: E402
from orderings import check_steps  # noqa: E402
from porting import OF_TESTS, ported, ported_program  # noqa: E402

FUNCTION = "define internal i64 @a(ptr noundef %a0, i64 noundef %a1) #0 {{\nstart:\n{}  ret i64 0\n}}\n"
LOAD = "  %r1 = load atomic i64, ptr %a0 seq_cst, align 8\n"
EXPORT = "define noundef i64 @papr_try_a(ptr noundef %a0) #0 {{\nstart:\n{}  ret i64 0\n}}\n"

# A program: its start as the toolchain lowers it, for two features and a shorter text.
START = """define i32 @main() #5 {
start:
  %r0 = call i64 @__sysv_signal(i32 13, i64 1)
  %r1 = call ptr @__x86_get_cpuid_feature_leaf(i32 0)
  %r2 = getelementptr inbounds nuw i8, ptr %r1, i64 24
  %r3 = load i32, ptr %r2, align 4, !noundef !1
  %r4 = zext i32 %r3 to i64
  %r5 = xor i64 %r4, 3
  %r6 = and i64 %r5, 3
  %r7 = or i64 %r6, 0
  %r8 = icmp eq i64 %r7, 0
  br i1 %r8, label %run, label %refuse

run:                                              ; preds = %start
  %r9 = call i32 @"+threads::entry"()
  ret i32 %r9

refuse:                                           ; preds = %start
  %r10 = alloca [1 x i8], align 1
  %r11 = getelementptr inbounds nuw i8, ptr %r10, i64 0
  store i8 116, ptr %r11, align 1
  %r12 = call i64 @__write(i32 2, ptr %r10, i64 1)
  ret i32 127
}
"""
OF_START = """declare i64 @__sysv_signal(i32, i64) #6
declare ptr @__x86_get_cpuid_feature_leaf(i32) #6
declare i64 @__write(i32, ptr, i64) #6
"""
PROGRAM = START + OF_START
WAIT = '  %r1 = call i64 @"+threads::syscall"(i64 202, ptr %a0, i64 128, i64 %a1, ptr %a0)\n'
THREAD = """define internal i64 @b(ptr noundef %a0) #0 {
start:
  %r0 = call i64 @a(ptr %a0, i64 0)
  ret i64 %r0
}
"""
FORK = """define internal i64 @"core::thread::fork_join::<#1>"(ptr noundef %a0) #0 {
start:
  %r0 = call i32 @"+threads::create"(ptr %a0, ptr @b, i64 0)
  ret i64 0
}
define internal i32 @"+threads::create"(ptr noundef %a0, ptr noundef %a1, i64 noundef %a2) #0 {
start:
  ret i32 0
}
"""
LAY = 'define internal void @"atomic_table::owned::fill_words"(ptr noundef %a0) #0 {\n  ret void\n}\n'
LAID = '  call void @"atomic_table::owned::fill_words"(ptr %a0)\n'


class Module(unittest.TestCase):
    """A module of LLVM."""

    def assert_refused(self, lines: str, told: str, form: str = FUNCTION) -> None:
        """A function of these lines is refused with this reason."""
        with self.assertRaisesRegex(Bad, re.escape(told)):
            check_steps(form.format(lines))

    def test_steps_of_the_one_order_are_taken(self) -> None:
        swap = "  %r2 = cmpxchg ptr %a0, i64 0, i64 1 seq_cst seq_cst, align 8\n"
        put = "  store atomic i64 %a1, ptr %a0 seq_cst, align 8\n"
        check_steps(FUNCTION.format(LOAD + swap + put))

    def test_a_step_of_another_order(self) -> None:
        for line in (
            "  %r1 = load atomic i64, ptr %a0 acquire, align 8\n",
            "  store atomic i64 1, ptr %a0 release, align 8\n",
            "  %r1 = cmpxchg ptr %a0, i64 0, i64 1 seq_cst monotonic, align 8\n",
            "  %r1 = atomicrmw add ptr %a0, i64 1 acq_rel, align 8\n",
            '  %r1 = load atomic i64, ptr %a0 syncscope("singlethread") seq_cst, align 8\n',
            "  fence release\n",
        ):
            with self.subTest(line=line):
                self.assert_refused(line, f"an atomic step of another order: {line.strip()}")

    def test_a_plain_access_to_a_word_with_a_step(self) -> None:
        line = "  store i64 %a1, ptr %a0, align 8\n"
        told = f"an access to a shared word that is no atomic step: @a: {line.strip()}"
        self.assert_refused(LOAD + line, told)

    def test_a_plain_access_to_an_element_of_the_words(self) -> None:
        lines = (
            "  %r0 = alloca ptr, align 8\n"
            "  %r2 = getelementptr i8, ptr %a0, i64 %a1\n"
            "  store ptr %r2, ptr %r0, align 8\n"
            "  %r3 = load ptr, ptr %r0, align 8, !noundef !1\n"
            "  %r4 = load atomic i64, ptr %r3 seq_cst, align 8\n"
            "  %r5 = load i64, ptr %r2, align 8\n"
        )
        self.assert_refused(lines, "no atomic step: @a: %r5 = load i64, ptr %r2")

    def test_a_plain_access_to_a_word_that_another_function_steps_on(self) -> None:
        lines = "  %r1 = call i64 @a(ptr %a0, i64 0)\n  %r2 = load i64, ptr %a0, align 8\n"
        with self.assertRaisesRegex(Bad, "no atomic step: @papr_try_a: %r2"):
            check_steps(FUNCTION.format(LOAD) + EXPORT.format(lines))

    def test_a_step_that_is_made_a_plain_access(self) -> None:
        text = FUNCTION.replace("@a", '@"core::raw_atomic::load::<#1>"')
        check_steps(text.format(LOAD))
        plain = "  %r1 = load i64, ptr %a0, align 8\n"
        with self.assertRaisesRegex(Bad, "no atomic step: .*raw_atomic::load"):
            check_steps(text.format(plain) + FUNCTION.format(LOAD))

    def test_words_that_are_laid_while_threads_share_them(self) -> None:
        text = FUNCTION.format(LOAD) + LAY + EXPORT.format(LAID)
        with self.assertRaisesRegex(Bad, "@papr_try_a reaches .*fill_words"):
            check_steps(text)
        check_steps(text.replace("@papr_try_a", "@papr_open"))

    def test_a_word_that_is_moved(self) -> None:
        for line in (
            "  call void @llvm.memset.p0.i64(ptr %a0, i8 0, i64 8, i1 false)\n",
            "  call void @llvm.memmove.p0.p0.i64(ptr %r9, ptr %a0, i64 8, i1 false)\n",
        ):
            with self.subTest(line=line):
                self.assert_refused(LOAD + line, f"no atomic step: @a: {line.strip()}")

    def test_a_program_lays_words_where_no_thread_runs(self) -> None:
        """In what it starts a thread for, in what it runs beside, and in what these call."""
        laid = FUNCTION.format(LOAD) + LAY + THREAD + FORK + START
        check_steps(laid.replace("  ret i32 %r9\n", LAID + "  ret i32 %r9\n"))
        for function in ("@b(", "@a("):
            with self.subTest(function=function), self.assertRaisesRegex(Bad, "@b reaches .*fill_words"):
                check_steps(re.sub(rf"(internal i64 {re.escape(function)}.*\nstart:\n)", rf"\1{LAID}", laid))

    def test_another_function_that_starts_a_thread(self) -> None:
        text = FUNCTION.format(LOAD) + THREAD + FORK + START
        check_steps(text)
        with self.assertRaisesRegex(Bad, 'core::thread::spawn::<#1>" starts a thread'):
            check_steps(text.replace("fork_join", "spawn"))

    def test_a_word_of_a_stack(self) -> None:
        """One function of the toolchain steps on such a word, which it fills before, and tests have gates there."""
        lines = (
            "  %r0 = alloca [8 x i8], align 8\n"
            "  call void @llvm.memset.p0.i64(ptr %r0, i8 0, i64 8, i1 false)\n"
            "  %r1 = load atomic i64, ptr %r0 seq_cst, align 8\n"
        )
        self.assert_refused(lines, "@a: %r0 lies on its stack")
        check_steps(FUNCTION.replace("@a", '@"core::atomic::block::<#1>"').format(lines))
        plain = "  store i64 0, ptr %a0, align 8\n"
        form = FUNCTION.replace("@a", '@"core::atomic::block::<#1>"')
        self.assert_refused(lines + LOAD + plain, "no atomic step: ", form)
        of_test = FUNCTION.replace("@a", '@"papr_top_tests::tests::gates::held::run_held::<#1>"')
        check_steps(of_test.format(lines))
        self.assert_refused(lines + LOAD + plain, "no atomic step: ", of_test)
        self.assert_refused(lines, "lies on its stack", of_test.replace("_tests::tests::", "::"))


class Ported(unittest.TestCase):
    """A module for x86-64, made one for another processor."""

    def assert_refused(self, text: str, told: str) -> None:
        """The module is refused with this reason."""
        with self.assertRaisesRegex(Bad, told):
            ported(text, OTHERS["ppc64le"])

    def test_narrow_numbers_are_widened_as_the_abi_says(self) -> None:
        given = "define noundef i32 @papr_a(i8 noundef %a0, i1 noundef %a1, i32 noundef %a2) #0 {\n"
        narrow = "i8 zeroext noundef %a0, i1 zeroext noundef %a1"
        for name, word in (("ppc64le", "zeroext"), ("riscv64", "signext")):
            wanted = f"define {word} noundef i32 @papr_a({narrow}, i32 {word} noundef %a2) #0 {{\n"
            self.assertEqual(ported(given, OTHERS[name]), wanted)

    def test_an_export_of_another_form(self) -> None:
        self.assert_refused("define { i8, i64 } @papr_a(ptr noundef %a0) #0 {\n", "papr_a answers with another form")
        text = "define noundef i64 @papr_a(ptr noundef byval({ i64, i64, i64 }) %a0) #0 {\n"
        self.assert_refused(text, "papr_a takes another form")
        self.assert_refused("define fastcc i64 @papr_a(ptr noundef %a0) #0 {\n", "papr_a answers with another form")
        self.assert_refused("define i64 @papr_a(ptr noundef %a0) {\n", "an export of another form")

    def test_what_is_of_one_processor(self) -> None:
        self.assert_refused("declare i32 @llvm.x86.a(i32) #1\n", "is of one processor")
        self.assert_refused('  call void asm sideeffect "mfence", "~{memory}"()\n', "is of one processor")

    def test_a_name_that_is_not_known(self) -> None:
        ported("declare { i64, i64 } @rattle_alloc(i64 noundef, i64 noundef) #8\n", OTHERS["ppc64le"])
        ported("declare void @llvm.trap() #9\n", OTHERS["ppc64le"])
        self.assert_refused("declare i64 @rattle_alloc(i64 noundef, i64 noundef) #8\n", "calls what isn't known")
        text = "declare noundef i64 @read(i32 noundef, ptr noundef, i64 noundef) #8\n"
        self.assert_refused(text, "isn't known: i64 @read")
        self.assert_refused("declare double @llvm.sqrt.f64(double) #9\n", "isn't known: double @llvm.sqrt.f64")
        self.assert_refused("@stdout = external global ptr\n", "names what isn't known: @stdout")


class PortedProgram(unittest.TestCase):
    """The module of a program for x86-64, made one for another processor."""

    def assert_refused(self, text: str, told: str, name: str = "riscv64") -> None:
        """The module is refused with this reason."""
        with self.assertRaisesRegex(Bad, told):
            ported_program(text, OTHERS[name])

    def test_the_start_tests_for_no_features(self) -> None:
        for name, word in (("aarch64", ""), ("ppc64le", "zeroext "), ("riscv64", "signext ")):
            wanted = f"define {word}i32 @papr_main() #5 {{\nstart:\n  %r0 = call i64 @__sysv_signal("
            found = ported_program(PROGRAM, OTHERS[name])
            self.assertTrue(found.startswith(wanted), found)
            self.assertIn('call i32 @"+threads::entry"()\n  ret i32 %r9\n}\n', found)
            self.assertNotRegex(found, "cpuid|__write|refuse|@main")

    def test_a_start_of_another_form(self) -> None:
        for form, other in (
            ("i32 13, i64 1", "i32 13, i64 0"),
            ("xor i64 %r4, 3", "mul i64 %r4, 3"),
            ("  %r6 = and i64 %r5, 3\n", '  %r6 = call i64 @"papr_main::main"()\n'),
            ("ret i32 127", "ret i32 0"),
            ("  store i8 116, ptr %r11", "  call void @abort()\n  store i8 116, ptr %r11"),
            ("  ret i32 %r9\n", "  ret i32 0\n"),
            ("define i32 @main()", "define i32 @main(i32 %a0)"),
            ("define i32 @main()", "define i32 @start()"),
        ):
            with self.subTest(form=form, other=other):
                self.assertIn(form, PROGRAM)
                self.assert_refused(PROGRAM.replace(form, other), "the program starts in another form")

    def test_what_x86_is_asked_elsewhere_is_not_known(self) -> None:
        """Its declaration is gone, so no clang compiles it."""
        call = "  %r1 = call ptr @__x86_get_cpuid_feature_leaf(i32 0)\n"
        found = ported_program(PROGRAM + FUNCTION.format(call), OTHERS["aarch64"])
        self.assertNotIn("declare ptr @__x86", found)
        self.assert_refused(PROGRAM + "declare ptr @__x86_get_cpuid_features(i32) #6\n", "isn't known: ptr @__x86")

    def test_what_only_the_tests_of_a_crate_call(self) -> None:
        """A place is kept and written: by a program this isn't known, and by tests in no other form."""
        for answer, name, given in (("ptr", "keep", "ptr"), ("void", "write", "")):
            noundef = [f"{it} noundef" if it else "" for it in (given, "i64")]
            known, other = (PROGRAM + f"declare {answer} @__rattle_{name}_place({it}) #8\n" for it in noundef)
            self.assert_refused(known, f"isn't known: {answer} @__rattle_{name}_place")
            self.assertIn(f"@__rattle_{name}_place", ported_program(known, OTHERS["riscv64"], OF_TESTS))
            with self.assertRaisesRegex(Bad, f"isn't known: {answer} @__rattle_{name}_place"):
                ported_program(other, OTHERS["riscv64"], OF_TESTS)

    def test_threads_wait_by_the_number_of_the_processor(self) -> None:
        for name, number in (("aarch64", 98), ("ppc64le", 221), ("riscv64", 98)):
            found = ported_program(PROGRAM + FUNCTION.format(WAIT), OTHERS[name])
            self.assertIn(f"(i64 {number}, ptr %a0, i64 128, i64 %a1, ptr %a0)", found)
            self.assertNotIn("202", found)

    def test_a_call_of_linux_of_another_form(self) -> None:
        for form, other in (
            ("202", "39"),
            ("i64 202", "i64 %a1"),
            ("i64 128", "i64 0"),
            ("call i64 @", "call i32 @"),
            ('@"+threads::syscall"(i64 202, ', "@a(ptr @syscall, "),
            ('@"+threads::syscall"(i64 202, ', '@a(ptr @"+threads::wake", '),
            ('@"+threads::syscall"(i64 202', "@syscall(i64 202"),
        ):
            with self.subTest(form=form, other=other):
                self.assertIn(form, WAIT)
                text = PROGRAM + FUNCTION.format(WAIT.replace(form, other))
                self.assert_refused(text, "a call of Linux of another form")

    def test_an_int_of_c_is_widened_by_its_sign(self) -> None:
        declared = "declare noundef i64 @read(i32 noundef, ptr noundef, i64 noundef) #8\n"
        declared += "declare noundef i32 @rattle_errno() #8\n"
        calls = "  %r1 = call i64 @read(i32 %a1, ptr %a0, i64 1)\n  %r2 = call i32 @rattle_errno()\n"
        for name in ("ppc64le", "riscv64"):
            found = ported_program(PROGRAM + declared + FUNCTION.format(calls), OTHERS[name])
            for line in (
                "declare noundef i64 @read(i32 signext noundef, ptr noundef, i64 noundef) #8",
                "declare noundef signext i32 @rattle_errno() #8",
                "declare i64 @__sysv_signal(i32 signext, i64) #6",
                "  %r0 = call i64 @__sysv_signal(i32 signext 13, i64 1)",
                "  %r1 = call i64 @read(i32 signext %a1, ptr %a0, i64 1)",
                "  %r2 = call signext i32 @rattle_errno()",
            ):
                self.assertIn(f"{line}\n", found)
        self.assertNotIn("ext ", ported_program(PROGRAM + declared + FUNCTION.format(calls), OTHERS["aarch64"]))

    def test_a_call_of_c_of_another_form(self) -> None:
        for call in ("call i64 @a(ptr @read)", "tail call i64 @read(i32 %a1, ptr %a0, i64 1)"):
            with self.subTest(call=call):
                text = PROGRAM + FUNCTION.format(f"  %r1 = {call}\n")
                self.assert_refused(text, "a call of C of another form", "ppc64le")

    def test_a_name_that_is_not_known(self) -> None:
        for told in ("i32 @open(ptr, i32)", "i32 @read(i32, ptr)"):
            self.assert_refused(f"{PROGRAM}declare {told} #8\n", f"isn't known: {re.escape(told)}")
        self.assert_refused(PROGRAM + "@environ = external global ptr\n", "names what isn't known: @environ")


# Instructions by a letter: fences, steps, and loads and stores that aren't of the stack. Each kind of step is a word of
# these letters, and is as the mappings of C11's atomics to processors have it.
LETTERS = {
    AARCH64: {r"ldar ": "l", r"stlr ": "s", r"ldaxr ": "A", r"stlxr ": "C", r"(ldxr|stxr|ldapr|dmb)\b": "x"},
    PPC64LE: {
        r"(hwsync|sync) ": "F",
        r"isync ": "I",
        r"lwsync ": "L",
        r"ldarx ": "A",
        r"stdcx\. ": "C",
        r"(l[wbh]arx|st[wbh]cx\.) ": "x",
        r"ldx? (?!.*\(r1\))": "l",
        r"stdx? (?!.*\(r1\))": "s",
        r"(l[bhw]|st[bhw])\w* (?!.*\(r1\))": "m",
    },
    RISCV64: {
        r"fence rw,rw": "F",
        r"fence r,rw": "R",
        r"fence rw,w": "W",
        r"fence ": "x",
        r"lr\.d\.aqrl ": "A",
        r"sc\.d\.rl ": "C",
        r"amo\w+\.d\.aqrl ": "M",
        r"(lr|sc|amo)\S* ": "x",
        r"ld (?!.*\(sp\))": "l",
        r"sd (?!.*\(sp\))": "s",
        r"(l[bhw]u?|s[bhw]) (?!.*\(sp\))": "m",
    },
}
STEPS = {AARCH64: ("AC", "l", "s"), PPC64LE: ("FAC", "FlI", "Fs"), RISCV64: ("AC", "M", "WsF", "FlR")}
# A load of the stack is a step where it stands between the fences of one: the program waits on a word of its stack.
OF_STACK = {AARCH64: r"(?!)", PPC64LE: r"ldx? .*\(r1\)", RISCV64: r"ld .*\(sp\)"}
# What is left in no order but that of a step.
STRONG = {AARCH64: "ACx", PPC64LE: "FIACx", RISCV64: "FRWACMx"}
LIBRARY = f"libpapr.so.{VERSION}"
LINE = re.compile(r"^ +([0-9a-f]+):\t(\S+)[ \t]*(.*)$", re.M)


def letter_of(machine: Emulated, instruction: str) -> str:
    """The letter of an instruction, or nothing."""
    return next((letter for form, letter in LETTERS[machine].items() if re.match(form, f"{instruction} ")), "")


def letters_of(machine: Emulated, code: dict[str, str]) -> str:
    """The letters of instructions that follow one another."""
    found = ""
    waits = ""  # for the second fence: a load of the stack behind the first
    for it in code.values():
        letter = letter_of(machine, it)
        if letter:
            found += waits * (letter in "IR") + letter
            waits = ""
        elif found.endswith("F") and re.match(OF_STACK[machine], it):
            waits = "l"
    return found


class Compiled(ToolTest):
    """The steps of threads, as they are in the shared object of the library and in the program."""

    def code(self, machine: Emulated, name: str) -> dict[str, str]:
        """The instructions, by their addresses."""
        if machine.lacking:
            self.skipTest(machine.lacking)
        told = run_bytes(f"{machine.tools}-objdump", "-d", "--no-show-raw-insn", machine.built / name).decode()
        return {address: f"{name} {words}" for address, name, words in LINE.findall(told)}

    @for_each(*((machine, name) for machine in EMULATED for name in (LIBRARY, "papr")))
    def test_each_step_has_its_fences_and_there_is_no_other(self, words: tuple[Emulated, str]) -> None:
        machine, name = words
        letters = letters_of(machine, self.code(machine, name))
        for step in STEPS[machine]:
            self.assertIn(step, letters)
            letters = letters.replace(step, ".")
        left = re.search(f".{{,20}}[{STRONG[machine]}].{{,20}}", letters)
        self.assertIsNone(left)

    @for_each(*EMULATED)
    def test_the_number_is_that_of_the_headers(self, machine: Emulated) -> None:
        if machine.lacking:
            self.skipTest(machine.lacking)
        given = "#include <sys/syscall.h>\nwaits SYS_futex\n"
        told = run(machine.compiler, "-E", "-P", "-x", "c", "-", given=given).out.split()
        self.assertEqual(told[-2:], ["waits", str(OTHERS[machine.name].futex)])

    @for_each(LIBRARY, "papr")
    def test_after_a_conditional_store_nothing_is_done_before(self, name: str) -> None:
        """On Power a fence is on its way out, by which jumps are taken and branches aren't."""
        code = self.code(PPC64LE, name)
        addresses = list(code)
        stores = [at for at, it in enumerate(code.values()) if it.startswith("stdcx.")]
        self.assertGreater(len(stores), 0)
        for at in stores:
            letter = ""
            while not letter:
                found = re.match(r"b +([0-9a-f]+) <", code[addresses[at]])
                at = addresses.index(found[1]) if found else at + 1
                letter = letter_of(PPC64LE, code[addresses[at]])
            self.assertIn(letter, "LF", addresses[at])
