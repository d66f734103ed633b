"""What the toolchain lowers for x86-64, made what a clang compiles for another processor, and what is refused of it.

Such a module has nothing of x86-64 but its name, and in a program the start and the number of a call of Linux. (Those
for aarch64 call vector intrinsics of that.) The C ABIs agree on where an argument and an answer lie: up to 16 bytes in
two registers, more where the first argument points, which x86-64 answers with too. Others also want numbers below 64
bits widened, by who passes and by who answers. What isn't of the form that is known is refused.
"""

import re
from typing import Iterable

from common import Bad
from machines import Machine

# A processor's own intrinsics, and assembly other than the empty one that holds the compiler back.
OF_PROCESSOR = re.compile(
    r'^declare .*@llvm\.(?:x86|aarch64|arm|ppc|riscv|s390)\.| asm (?!sideeffect "", "~\{memory\}"\(\))', re.M
)
NAME_OF_PROCESSOR = re.compile(r' ?"(?:target-cpu|target-features|tune-cpu)"="[^"]*"')
EXPORT = re.compile(r"^define (noundef )?(.*?) ?@(papr_\w+)\((.*)\) (#\d+) \{$", re.M)
DEFINED = re.compile(r"^define (?!internal |private )[^\n]*$", re.M)
ANSWER = re.compile(r"i32|i64|ptr|void|\{ i64, i64 \}")
PARAMETER = re.compile(r"(i1|i8|i16|i32|i64|ptr) noundef (%\w+)")
# Words of LLVM 22, and those that LLVM 19 has for them.
OLDER = {"ptrtoaddr ptr": "ptrtoint ptr", "captures(none)": "nocapture", "nocreateundeforpoison ": ""}

# The functions that a module may call, by their declarations: those of the compiler, of the heap, and in a program of C
# and of program.c. An i32 is an int of C.
OF_COMPILER = re.compile(r"llvm\.(?:memset|memmove|memcpy|trap|cttz|ctlz|ctpop|bswap)\b[\w.]*")
OF_HEAP = (
    "{ i64, i64 } @rattle_alloc(i64, i64)",
    "{ i64, i64 } @rattle_realloc(ptr, i64, i64, i64)",
    "void @rattle_dealloc(ptr)",
)
OF_C = (
    "i64 @rattle_arg(i64, ptr, i64)",
    "i64 @rattle_env(ptr, ptr, i64)",
    "i64 @rattle_env_at(i64, ptr, i64)",
    "i32 @rattle_errno()",
    "void @rattle_set_errno(i32)",
    "i64 @__sysv_signal(i32, i64)",
    "i64 @read(i32, ptr, i64)",
    "i64 @write(i32, ptr, i64)",
    "void @_exit(i32)",
    "void @abort()",
    "ptr @malloc(i64)",
    "void @free(ptr)",
    "i32 @pthread_create(ptr, ptr, ptr, ptr)",
    "i32 @pthread_attr_init(ptr)",
    "i32 @pthread_attr_setguardsize(ptr, i64)",
    "i32 @pthread_attr_setstacksize(ptr, i64)",
    "i32 @pthread_attr_destroy(ptr)",
    "i64 @pthread_self()",
    "i32 @pthread_detach(i64)",
    "i32 @pthread_join(i64, ptr)",
    "i32 @sched_yield()",
    "i64 @syscall(i64, ptr, i64, i64, ptr, ...)",
)
# Those that the tests of a crate call beside, of places.c.
OF_TESTS = ("ptr @__rattle_keep_place(ptr)", "void @__rattle_write_place()")
DECLARED = re.compile(r"^declare ([^\n@]*)@([\w.$]+|\"[^\"]*\")\(([^\n]*)\)[^\n)]*$", re.M)
OUTSIDE = re.compile(r"^@\S+ = (?!private |internal )[^\n]*$", re.M)
WITH_INT = [it.split("@")[1].partition("(")[0] for it in OF_C if "i32" in it]
OF_INT = re.compile(rf"^[^\n]*@(?:{'|'.join(WITH_INT)})\b[^\n]*$", re.M)
CALL = re.compile(r"  (?:%\w+ = )?call (?:void|i32|i64) @\w+\((?:(?:i32|i64|ptr) [%\w]+(?:, )?)*\)")

# A program's start on x86-64: it has a write to a closed pipe fail, and tests for the processor's features.
START = re.compile(
    r"^define i32 @main\(\) (?P<attributes>#\d+) \{\n"
    r"start:\n(?P<signal>  %r0 = call i64 @__sysv_signal\(i32 13, i64 1\)\n)(?P<test>(?:  %\w+ = [^\n]*\n)+)"
    r"  br i1 %\w+, label %run, label %refuse\n\n"
    r'run: [^\n]*\n(?P<run>  (?P<status>%\w+) = call i32 @"\+threads::entry"\(\)\n  ret i32 (?P=status)\n)\n'
    r"refuse: [^\n]*\n(?P<refuse>(?:  [^\n]*\n)+)\}\n",
    re.M,
)
TEST = re.compile(
    r"  %\w+ = (?:call ptr @__x86_get_cpuid_feature_leaf\(i32 \d+\)|getelementptr inbounds nuw i8, ptr %\w+, i64 \d+"
    r"|load i32, ptr %\w+, align 4, !noundef !\d+|zext i32 %\w+ to i64|(?:xor|and|or) i64 %\w+, [%\w]+"
    r"|icmp eq i64 %\w+, 0)"
)
REFUSE = re.compile(
    r"  (?:%\w+ = (?:alloca \[\d+ x i8\], align 1|getelementptr inbounds nuw i8, ptr %\w+, i64 \d+"
    r"|call i64 @__write\(i32 2, ptr %\w+, i64 \d+\))|store i8 \d+, ptr %\w+, align 1|ret i32 127)"
)
OF_START = re.compile(r"^declare [^\n]*@(?:__x86_get_cpuid_feature_leaf|__write)\([^\n]*\n", re.M)

# Waiting for a word and waking who waits: the call of Linux has its number on x86-64, and the rest is the same.
FUTEX = 202
WAITING = re.compile(r'^[^\n]*@(?:"\+threads::(?:syscall|wake)"|syscall\b)[^\n]*\n', re.M)
WAIT = re.compile(
    r'(  %\w+ = call i64 @"\+threads::(?:syscall|wake)"\(i64 )(\d+)'
    r"(, ptr %\w+, i64 12[89], i64 [%\w]+, ptr (?:%\w+|null)\)\n)"
)
PASSED_ON = re.compile(
    r'define internal noundef i64 @"\+threads::(?:syscall|wake)"\(i64 noundef %a0, ptr noundef %a1, i64 noundef %a2,'
    r" i64 noundef %a3, ptr noundef %a4\) #\d+ \{\n"
    r"|  %\w+ = call i64 \(i64, ptr, i64, i64, ptr, \.\.\.\) @syscall\(i64 %a0, ptr %a1, i64 %a2, i64 %a3, ptr %a4\)\n"
    r"|declare [^\n]*\n"
)


def parameter(text: str, function: str, machine: Machine) -> str:
    """A parameter of an exported function, widened."""
    found = PARAMETER.fullmatch(text)
    if found is None:
        raise Bad(f"{function} takes another form: {text}")
    kind, name = found.groups()
    return " ".join(filter(None, (kind, machine.widened.get(kind), "noundef", name)))


def exported(export: re.Match[str], machine: Machine) -> str:
    """The first line of an exported function, with its narrow parameters and answer widened."""
    noundef, answer, name, parameters, attributes = export.groups()
    wide = machine.widened.get(answer)
    if wide is None and not ANSWER.fullmatch(answer):
        raise Bad(f"{name} answers with another form: {answer}")
    given = ", ".join(parameter(it, name, machine) for it in parameters.split(", ") if it)
    words = (wide and f"{wide} ", noundef, answer)
    return f"define {''.join(filter(None, words))} @{name}({given}) {attributes} {{"


def check_names(text: str, allowed: Iterable[str]) -> None:
    """Refuses a module that calls what isn't known, or calls it in another form."""
    declared = DECLARED.findall(text)
    if len(declared) != len(re.findall(r"^declare ", text, re.M)):
        raise Bad("a declaration of another form")
    for answer, name, parameters in declared:
        told = f"{answer.replace('noundef ', '')}@{name}({parameters.replace(' noundef', '')})"
        if told not in allowed and not OF_COMPILER.fullmatch(name):
            raise Bad(f"the module calls what isn't known: {told}")
    found = OUTSIDE.search(text)
    if found:
        raise Bad(f"the module names what isn't known: {found[0]}")


def ported(text: str, machine: Machine, allowed: Iterable[str] = OF_HEAP) -> str:
    """A module of LLVM for x86-64 as one for another processor."""
    found = OF_PROCESSOR.search(text)
    if found:
        raise Bad(f"the module is of one processor: {found[0]}")
    check_names(text, allowed)
    odd = [line for line in DEFINED.findall(text) if not EXPORT.fullmatch(line)]
    if odd:
        raise Bad(f"an export of another form: {odd[0]}")
    text = EXPORT.sub(lambda it: exported(it, machine), NAME_OF_PROCESSOR.sub("", text))
    for newer, older in OLDER.items() if machine.clang else ():
        text = text.replace(newer, older)
    text = re.sub(r"^target datalayout = .*", f'target datalayout = "{machine.layout}"', text, flags=re.M)
    return re.sub(r"^target triple = .*", f'target triple = "{machine.triple}"', text, flags=re.M)


def started(text: str) -> str:
    """A program whose start is a function for the `main` of program.c, and tests for no features of x86-64."""
    found = START.search(text)
    if found is None:
        raise Bad("the program starts in another form")
    for part, form in (("test", TEST), ("refuse", REFUSE)):
        odd = [line for line in found[part].splitlines() if not form.fullmatch(line)]
        if odd:
            raise Bad(f"the program starts in another form: {odd[0].strip()}")
    start = f"define i32 @papr_main() {found['attributes']} {{\nstart:\n{found['signal']}{found['run']}}}\n"
    return OF_START.sub("", text[: found.start()] + start + text[found.end() :])


def waiting(text: str, machine: Machine) -> str:
    """A program whose threads wait and wake by the number that the call has on the processor."""

    def line(found: re.Match[str]) -> str:
        wait = WAIT.fullmatch(found[0])
        if wait and int(wait[2]) == FUTEX:
            return f"{wait[1]}{machine.futex}{wait[3]}"
        if not PASSED_ON.fullmatch(found[0]):
            raise Bad(f"a call of Linux of another form: {found[0].strip()}")
        return found[0]

    return WAITING.sub(line, text)


def with_ints(text: str, machine: Machine) -> str:
    """A program that passes each int to C, and takes it, as the processor's ABI says."""
    wide = machine.of_int

    def line(found: re.Match[str]) -> str:
        if not DECLARED.fullmatch(found[0]) and not CALL.fullmatch(found[0]):
            raise Bad(f"a call of C of another form: {found[0].strip()}")
        answer, _, called = found[0].partition("@")
        return f"{answer.replace('i32', f'{wide} i32')}@{called.replace('i32', f'i32 {wide}')}"

    return OF_INT.sub(line, text) if wide else text


def ported_program(text: str, machine: Machine, more: Iterable[str] = ()) -> str:
    """The module of a program for x86-64 as one for another processor, over program.c, heap.c and what has more."""
    text = ported(waiting(started(text), machine), machine, (*OF_HEAP, *OF_C, *more))
    return with_ints(text, machine)
