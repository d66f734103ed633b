"""What the toolchain lowers for x86-64, made what it lowers for wasm64.

`rattle build` lowers no call of the heap for wasm64. A crate that is proved and lowered for x86-64 stands
on the heap's three functions and on nothing of the processor but its name, so its module of LLVM is
retargeted here as text. What isn't of the form that is known is refused. `compared` compares the outcome with
the toolchain's own of a crate without the heap, which it lowers for both.
"""

import re
from dataclasses import dataclass

from common import Bad

LAYOUT = "e-m:e-p:64:64-p10:8:8-p20:8:8-i64:64-i128:128-n32:64-S128-ni:1:10:20"
TARGET, PROCESSOR = "wasm64-unknown-unknown", "lime1"

# Assembly, a processor's own intrinsics, and a form in which blocks can't be renamed by text alone.
NOT_PORTABLE = re.compile(r"^declare .*@llvm\.(x86|aarch64|arm|riscv)\.| asm | phi ", re.MULTILINE)
FUNCTION = re.compile(r"^(define .*?^\}\n)", re.MULTILINE | re.DOTALL)
HEAD_AND_ENTRY = re.compile(
    r"(define [^\n]*\{\nstart:[^\n]*\n)(.*?)((?:^\n|^\}).*)", re.MULTILINE | re.DOTALL
)
SIGNATURE = re.compile(r"define (.*) @\w+\((.*)\) #(\d+) \{")

# On wasm64 a stack that ends runs below address 0, where nothing traps until it is written to. So each
# function tests where its frame lies.
FRAME_TEST = """  %frame.at = call ptr @llvm.frameaddress.p0(i32 0)
  %frame.number = ptrtoaddr ptr %frame.at to i64
  %frame.low = icmp slt i64 %frame.number, 16
  br i1 %frame.low, label %frame.trap, label %frame.fits

frame.fits:
"""
FRAME_TRAP = "\nframe.trap:\n  call void @llvm.trap()\n  unreachable\n"

# A host can catch a trap, and must not call again over memory that is half written.
EXPORT = """
define RESULT @NAME(PARAMETERS) #ATTRIBUTES "wasm-export-name"="NAME" {
start:
  %spent = call i1 @__rattle_enter()
  br i1 %spent, label %refuse, label %run

refuse:
  call void @__rattle_trap()
  unreachable

run:
  %ended = call RESULT @"rattle::export NAME"(ARGUMENTS)
  call void @__rattle_leave()
  ret TYPE %ended
}
"""
DECLARED = """
declare ptr @llvm.frameaddress.p0(i32 immarg)
declare i1 @__rattle_enter()
declare void @__rattle_leave()
declare void @__rattle_trap()
"""
# LLVM makes no calls of these, which a module doesn't have.
NO_BUILTINS = '"no-builtin-bcmp" "no-builtin-memcmp" "no-builtin-strlen" '


def name_of(function: str) -> str:
    """The name behind `define`."""
    found = re.search(r'@("[^"]*"|[\w.$]+)\(', function)
    if found is None:
        raise Bad(f"no name in {function[:80]}")
    return found[1].strip('"')


def tested(function: str) -> str:
    """The function with the test of its frame behind its places on the stack."""
    parts = HEAD_AND_ENTRY.fullmatch(function)
    if parts is None:
        raise Bad(f"another form of function: {function[:80]}")
    head, entry, rest = parts.groups()
    lines = entry.splitlines(keepends=True)
    places = max((at + 1 for at, line in enumerate(lines) if " = alloca " in line), default=0)
    body = "".join(lines[:places]) + FRAME_TEST + "".join(lines[places:]) + rest
    return f"{head}{body.removesuffix(chr(125) + chr(10))}{FRAME_TRAP}}}\n"


def exported(function: str, name: str) -> str:
    """The function under a name of its own, and the export that calls it."""
    parts = SIGNATURE.match(function)
    if parts is None:
        raise Bad(f"another form of export: {function[:80]}")
    result, parameters, attributes = parts.groups()
    given, inner = f"define {result} @{name}(", f'define internal {result} @"rattle::export {name}"('
    words = {
        "RESULT": result,
        "TYPE": re.sub(r"\b(noundef|zeroext|signext) ", "", result),
        "NAME": name,
        "PARAMETERS": parameters,
        "ATTRIBUTES": attributes,
        "ARGUMENTS": parameters.replace(" noundef", "").replace(" zeroext", ""),
    }
    export = re.sub("|".join(words), lambda found: words[found[0]], EXPORT)
    return function.replace(given, inner, 1) + export


def retargeted(text: str, exports: set[str]) -> str:
    """A module of LLVM for x86-64 as the one for wasm64, with these functions exported."""
    found = NOT_PORTABLE.search(text)
    if found:
        raise Bad(f"the module stands on a processor, or has another form: {found[0]}")
    parts = FUNCTION.split(text)
    for place in range(1, len(parts), 2):
        name = name_of(parts[place])
        parts[place] = exported(parts[place], name) if name in exports else tested(parts[place])
    text = "".join(parts) + DECLARED
    text = re.sub(r"^target datalayout = .*", f'target datalayout = "{LAYOUT}"', text, flags=re.M)
    text = re.sub(r"^target triple = .*", f'target triple = "{TARGET}"', text, flags=re.M)
    of_processor = r'^(attributes .*)("probe-stack".*)"target-cpu"="[^"]*"'
    of_wasm = rf'\1{NO_BUILTINS}\2"target-cpu"="{PROCESSOR}"'
    return re.sub(of_processor, of_wasm, text, flags=re.M)


def exporting(text: str, names: set[str]) -> str:
    """A module of LLVM for wasm64 that exports these functions alone, of those that it exports."""
    found = set(re.findall(r'"wasm-export-name"="(\w+)"', text))
    if not names <= found:
        raise Bad(f"the module doesn't export {', '.join(sorted(names - found))}")
    return re.sub(r'"wasm-export-name"="(\w+)" ?', lambda it: it[0] if it[1] in names else "", text)


# ---- compared with the toolchain's own

A_TEST = re.compile(
    r"  (%[\w.]+) = call ptr @llvm.frameaddress.p0\(i32 0\)\n"
    r"  (%[\w.]+) = ptrtoaddr ptr \1 to i64\n"
    r"  (%[\w.]+) = icmp slt i64 \2, 16\n"
    r"  br i1 \3, label %[\w.]+, label %([\w.]+)\n\n?\4:[^\n]*\n"
)
A_TRAP = re.compile(r"%\d+:\n  call void @llvm.trap\(\)\n  unreachable\n?")


@dataclass(frozen=True)
class Compared:
    """How two modules for wasm64 compare, function by function."""

    functions: int
    exports: set[str]
    in_one_alone: set[str]
    differ: set[str]

    @property
    def is_same(self) -> bool:
        """Whether all functions but the exports and what they wrap are the same text."""
        wrapped = {f"rattle::export {name}" for name in self.exports}
        return not self.in_one_alone and self.differ <= self.exports | wrapped


def renamed(text: str) -> str:
    """Values and labels numbered in the order in which they come."""
    numbers: dict[str, str] = {}
    return re.sub(r"%[\w.]+", lambda name: numbers.setdefault(name[0], f"%{len(numbers)}"), text)


def label_of(block: str) -> str:
    """The label of a block; the first has none."""
    found = re.match(r"%\d+", block)
    return found[0] if found else ""


def plain(function: str) -> str:
    """A function without names, attributes and remarks, and with the count of its frame's tests in front.

    The toolchain's test stands behind what is put into the first places, and ours before that; so it is
    taken out. Blocks that only trap stand anywhere, one of them or several: each is the same label.
    """
    function, tests = A_TEST.subn("", function)
    text = re.sub(r"(?m) *;.*$", "", function)
    text = renamed(re.sub(r"(?m)^([\w.]+):$", r"%\1:", text))
    text = re.sub(r"\n+", "\n", re.sub(r" #\d+", "", text)).removesuffix("}\n").rstrip()
    blocks = [block.rstrip() for block in re.split(r"\n(?=%\d+:)", text)]
    traps = {label_of(block) for block in blocks if A_TRAP.fullmatch(block + "\n")}
    kept = "\n".join(block for block in blocks if not label_of(block) or label_of(block) not in traps)
    kept = re.sub(r"%\d+", lambda name: "%trap" if name[0] in traps else name[0], kept)
    return f"{tests} tests\n{renamed(kept)}"


def compared(of_x86: str, of_wasm: str) -> Compared:
    """The toolchain's module for x86-64, retargeted, against its own for wasm64."""
    exports = set(re.findall(r'"wasm-export-name"="(\w+)"', of_wasm))
    made = retargeted(of_x86, exports)
    ours, theirs = ({name_of(it): it for it in FUNCTION.findall(text)} for text in (made, of_wasm))
    both = ours.keys() & theirs.keys()
    differ = {name for name in both if plain(ours[name]) != plain(theirs[name])}
    return Compared(len(both), exports, set(ours.keys() ^ theirs.keys()), differ)
