"""That a module of LLVM makes each step on a word that threads share in the one order of such steps.

What is proved of threads speaks of one order of all steps on the shared words. C11's order of the sequentially
consistent accesses is one, if no other access reaches these words. So each atomic step has to be sequentially
consistent, and what a function accesses by such a step it accesses in no other way. A table's words are laid and taken
back without such steps, while one thread has all of it: in a library only the exports that open and close a table reach
what does that, and in a program nothing that runs beside a thread.

Two functions of the toolchain are exempt, which a program reaches, as far as a word is one thread's alone. `fork_join`
lays a word in a new block before it starts the thread that steps on it, and frees the block once that has ended; it
alone may start a thread. `block` fills a word on its own stack, whose place no other thread gets, and steps on that;
nothing else may step on a word of its stack. Only what a function does by pointers of its own is looked at: an access
by a copy that was stored in another place isn't found, and `fork_join` has one, the word's first value.

The tests of a gate are exempt too; they are in no library and not in papr. A test lays its gate on its own stack before
it has the program start threads, which call it, and moves it only after the program has joined them.
"""

import re
from collections import defaultdict
from dataclasses import dataclass, field
from typing import Iterator

from common import Bad

STEPS = (" load atomic ", " store atomic ", " cmpxchg ", " atomicrmw ", " fence ")
STRONG = re.compile(r" seq_cst(?: seq_cst)?(?:, align \d+)?\Z")
WEAK = re.compile(r" (?:syncscope|unordered|monotonic|acquire|release|acq_rel)\b")
NAME = r'@(?:"[^"]*"|[\w.$]+)'
FUNCTION = re.compile(rf"^define [^\n]*?({NAME})\(([^\n]*)\)[^\n]*\{{\n(.*?)^\}}\n", re.M | re.S)
CALL = re.compile(rf"call [^@]*?({NAME})\((.*)\)$")
STORED = re.compile(r" store ptr (%[\w.]+), ptr (%[\w.]+)")
LOADED = re.compile(r" (%[\w.]+) = load ptr, ptr (%[\w.]+)")
PLACED = re.compile(r" (%[\w.]+) = getelementptr .*?, ptr (%[\w.]+), i64 (%[\w.]+|\d+)")
AT = re.compile(r"\bptr (%[\w.]+)")
MOVED = re.compile(r" call void @llvm\.mem(?:set|move|cpy)[\w.]*\((.*)\)$")
PLAIN = re.compile(r" (?:= load (?!atomic )[^,]*|store (?!atomic ).*?), ptr (%[\w.]+)")

# The toolchain's functions of steps: whatever they do with what they are given first has to be one.
STEPPING = re.compile(
    r'@"?(?:(?:core::raw_atomic|std_alloc::arc)::(?:load|store|cas|masked|increment|decrement|claim)'
    r"|core::atomic::seize_in)\b"
)
# What lays the words of a table, and takes them back; and the exports that may.
LAYING = re.compile(r'@"?atomic_table::owned::(?:fill_words|lay_words|Table::of_words|Closed::word)\b')
OPENING = {"@papr_open", "@papr_close"}
# Of a program: its start, the toolchain's functions over C's threads, what starts a thread, who may call that, and who
# may step on its own stack.
MAIN, OF_THREADS, CREATING = "@main", '@"+threads::', '@"+threads::create"'
FORKING = re.compile(r'@"core::thread::fork_join\b')
BLOCKING = re.compile(r'@"core::atomic::block\b')
TESTING = re.compile(r'@"papr_top_tests::tests::gates::')
ON_STACK = re.compile(r"  (%[\w.]+) = alloca ")


def is_step(line: str) -> bool:
    """Whether a line has an atomic step."""
    return any(it in line for it in STEPS)


@dataclass
class Function:
    """What a function does with pointers."""

    parameters: list[str]
    lines: list[str]
    steps: list[str] = field(default_factory=list)  # the pointers of its own
    calls: list[tuple[str, str]] = field(default_factory=list)
    stored: dict[str, set[str]] = field(default_factory=lambda: defaultdict(set))
    loaded: dict[str, str] = field(default_factory=dict)
    placed: dict[str, tuple[str, str]] = field(default_factory=dict)
    own: set[str] = field(default_factory=set)  # what lies on its stack

    def __post_init__(self) -> None:
        for line in self.lines:
            if " call " in line and (found := CALL.search(line)):
                self.calls.append((found[1], found[2]))
            elif found := STORED.match(line, 1):
                self.stored[found[2]].add(found[1])
            elif found := LOADED.match(line, 1):
                self.loaded[found[1]] = found[2]
            elif " = getelementptr " in line and (found := PLACED.match(line, 1)):
                self.placed[found[1]] = (found[2], found[3])
            elif found := ON_STACK.match(line):
                self.own.add(found[1])
            elif is_step(line) and (found := AT.search(line)):
                self.steps.append(found[1])

    def sources(self, pointer: str) -> set[str]:
        """The pointer, those that it is a copy of, and those to whose elements it points."""
        found: set[str] = set()
        left = [pointer]
        while left:
            it = left.pop()
            base, index = self.placed.get(it, ("", ""))
            new = {*self.stored.get(self.loaded.get(it, ""), ()), base if index.startswith("%") else ""}
            found.add(it)
            left += new - found - {""}
        return found


def functions_of(text: str) -> dict[str, Function]:
    """The functions that a module defines, by their names."""
    found = {it[1]: Function(re.findall(r"%\w+", it[2]), it[3].splitlines()) for it in FUNCTION.finditer(text)}
    for function in (it for name, it in found.items() if STEPPING.match(name)):
        function.steps += function.parameters[:1]
    return found


def stepped_on(function: Function, steps: dict[str, set[int]]) -> set[str]:
    """The pointers by which a function makes steps itself, or which it passes to one that does."""
    found = set(function.steps)
    for name, given in function.calls:
        words = [it.split()[-1] for it in given.split(", ")] if name in steps else []
        found |= {words[at] for at in steps.get(name, ()) if at < len(words)}
    return set().union(*(function.sources(it) for it in found))


def shared_words(functions: dict[str, Function]) -> dict[str, set[str]]:
    """The pointers to shared words in each function: a step's, and those that are passed on to one."""
    steps: dict[str, set[int]] = {}
    while True:
        found = {name: stepped_on(it, steps) for name, it in functions.items()}
        now = {
            name: {at for at, parameter in enumerate(functions[name].parameters) if parameter in pointers}
            for name, pointers in found.items()
            if pointers
        }
        if now == steps:
            return found
        steps = now


def accessed(line: str) -> list[str]:
    """The pointers by which a line accesses memory, if it is no step."""
    moved = MOVED.search(line)
    found = PLAIN.search(line)
    return AT.findall(moved[1]) if moved else [found[1]] if found else []


def plain_accesses(functions: dict[str, Function]) -> Iterator[str]:
    """Accesses to shared words that are no steps, and words of a stack that are shared."""
    for name, pointers in shared_words(functions).items():
        own = pointers & functions[name].own
        if own and not (BLOCKING.match(name) or TESTING.match(name)):
            yield f"{name}: {min(own)} lies on its stack"
        for line in functions[name].lines if pointers else ():
            if not (pointers - own).isdisjoint(accessed(line)):
                yield f"{name}: {line.strip()}"


def sharing(names: dict[str, set[str]]) -> Iterator[str]:
    """What runs while threads share the words of a table: each export, or what a program runs beside a thread."""
    if MAIN not in names:
        yield from (it for it in names if it.startswith("@papr_") and it not in OPENING)
    for name, used in names.items():
        if CREATING in used:
            if not FORKING.match(name):
                raise Bad(f"{name} starts a thread")
            yield from (it for it in used if not it.startswith(OF_THREADS))


def reached_from(name: str, uses: dict[str, set[str]]) -> set[str]:
    """The functions that a function calls, or that those do."""
    found, left = {name}, [name]
    while left:
        new = uses[left.pop()] - found
        found |= new
        left += new
    return found


def check_steps(text: str) -> None:
    """Refuses a module in which a shared word is accessed in another order."""
    steps = list(filter(is_step, text.splitlines()))
    for step in steps:
        if WEAK.search(step) or not STRONG.search(step):
            raise Bad(f"an atomic step of another order: {step.strip()}")
    functions = functions_of(text) if steps else {}
    for access in plain_accesses(functions):
        raise Bad(f"an access to a shared word that is no atomic step: {access}")
    names = {name: set(re.findall(NAME, "\n".join(it.lines))) & functions.keys() for name, it in functions.items()}
    for beside in sharing(names):
        for name in filter(LAYING.match, reached_from(beside, names)):
            raise Bad(f"{beside} reaches {name}, which lays or takes back the words of a table")
