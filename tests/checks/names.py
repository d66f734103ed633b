"""Whether the names in the documents about the code are there.

These are PROVED.md, MODEL.md, ARCHITECTURE.md, LIBRARY.md, DECISIONS.md, REFUSALS.md, CALLS.md, HOSTILE.md and
HARDWARE.md of docs/; `standard` looks up the names of STANDARD.md. Each name in backticks is looked up: of a crate, a
module, a file or folder, a function, a type, a definition, a lemma, a C function, a command, or a word of the
program. A name after its crate or type has to be of that one, and so has a name before ` of ` and a crate;
clauses have to be the function's. What no source here declares is in the list `ELSEWHERE`, by what has it.

The tables that list definitions are compared with the files: each name of a row has to be in the file that
the row names. (`heads` writes the tables of crates and of their modules.)
"""

import argparse
import re
from functools import partial
from typing import Callable, Iterable, Iterator

from checks.cited import WORD, Clauses, clauses_of, faults_of_clauses
from checks.declared import Declared, read_declared
from checks.listed import faults_of_places, faults_of_rows
from checks.rattle import read_functions
from checks.running import Failed
from crates import TOP

PAGES = ("PROVED", "MODEL", "ARCHITECTURE", "LIBRARY", "DECISIONS", "REFUSALS", "CALLS", "HOSTILE", "HARDWARE")
FENCED = re.compile(r"^```.*?^```$", re.MULTILINE | re.DOTALL)
LONE = re.compile(r"\w+(?:-\w+)*!?")
FILE = re.compile(r"[\w.-]+(?:/[\w.-]+)*/?")
OPTION = re.compile(r"--?[a-z][\w-]*")
OF = re.compile(r"`([\w:]+)` of `(\w+)`")
# What stands for something else in a quote of several words: a letter, capitals, a number; and in any quote.
ANY = re.compile(r"[a-z]|[A-Z]+|N\.\.|\d+|0x[0-9A-F]+|<")
LETTER = re.compile(r"[a-z]")

# Names that no source here declares, by what has them.
ELSEWHERE = {
    "the C library": (
        *("calloc", "fork", "free", "longjmp", "malloc", "memcpy", "memmove", "memset", "pthread_cancel"),
        *("realloc", "sched_yield", "LD_LIBRARY_PATH", "_FORTIFY_SOURCE"),
    ),
    "Rust and its standard library": (
        *("AllocError", "Arc", "Box", "Clone", "Snapshot", "String", "Sync", "Vec", "Vec::reserve", "no_std", "std"),
        *("push_str", "reserve_exact", "with_capacity", "write!"),
        *("impl", "match", "struct", "&self", "&mut self", ".0", "#[inline(never)]", "repr(C)"),
    ),
    "the toolchain and its crates": (
        *("ArrayVec", "Threads+Wait", "Wait", "ensures", "may_wait", "may_wait=", "requires"),
        *("clock.rt", "rt check", "rt ci", "rt run", "rt try", "rt try --fail-alloc"),
    ),
    "Python": (
        *("MemoryError", "OverflowError", "PYTHONSAFEPATH", "TypeError", "lzma", "pickle", "pip install", "tarfile"),
    ),
    "other programs": (
        *("clang-19", "dpkg-deb", "pkg-config", "sha256sum"),
        *("gcc-aarch64-linux-gnu", "gcc-powerpc64le-linux-gnu", "gcc-riscv64-linux-gnu"),
    ),
    "the Power ISA": ("eieio", "ld", "ldarx", "ptesync", "std", "stdcx.", "tlbie", "tlbsync"),
    "Linux": (
        *("HPTE_V_HVLOCK", "do_tlbies", "hpte[0]", "hpte[1]", "kvmppc_do_h_enter", "kvmppc_do_h_remove"),
        *("kvmppc_h_clear_mod", "kvmppc_h_read", "arch/powerpc/kvm/book3s_hv_rm_mmu.c"),
    ),
    "forms of other programs": ("# %%", "pcfiledir", "prerm", "-lpapr", "-static", "-fstack-clash-protection"),
    "options of compilers": ("-fstack-protector-strong", 'RUSTFLAGS="-C link-arg=-Wl,-rpath,$PAPR_LIB_DIR"'),
    "what is built or installed": (
        *(".git/papr-build", "crates/papr_c/out/libpapr_c.a", "out/aarch64", "out/ppc64le", "out/riscv64", "out/lib"),
        *("libpapr.a", "libpapr.so", "libpapr.so.0", "libpapr.so.0.1.0", "libpapr_shared.a"),
        *("libpapr_bytes.so.0", "papr.pc", "papr_shared.pc", "libpapr0", "libpapr-dev"),
    ),
    "an example of a caller's own": (
        *("../emulator/crates", "../emulator/crates.txt", "crates/first_walk/src/main.rt"),
        *('papr = { path = "../papr/bindings/rust/papr" }', 'features = ["shared", "std"]'),
    ),
    "forms of several names": (
        *("ENTRY.STAMP.BITS.ANSWER", "NAME_tests", "crates/CRATE/specs/", "papr_try_.."),
        *("N passed, M failed", "Result<Reply, Busy>", "Result<Walk, Busy>", "bad section K"),
    ),
}
ELSEWHERE_ALL = frozenset(name for names in ELSEWHERE.values() for name in names)


def is_target(word: str) -> bool:
    """Whether make has such a target."""
    rules = (TOP / "Makefile").read_text(encoding="utf-8").splitlines()
    return any(line.startswith(f"{word}:") for line in rules)


def is_command(known: Declared, word: str) -> bool:
    """Whether `papr` has such a command: it has a manual page, or the program has it."""
    return word in known.literals or known.has_path(f"man/papr-{word}.1")


def second_words(known: Declared) -> dict[str, Callable[[str], bool]]:
    """What the words after a command's name may be."""
    return {
        "make": is_target,
        "papr": partial(is_command, known),
        "tests/check": lambda word: known.has_path(f"tests/checks/{word.replace('-', '_')}.py"),
        "tests/tools": lambda word: known.has_path(f"tests/tool_tests/test_{word}.py"),
    }


def is_path_of_names(known: Declared, name: str) -> bool:
    """Whether a path leads from a crate or a type to what it has, or from Python's package to a name."""
    parts = name.split("::")
    if len(parts) == 1:
        package, _, last = name.partition(".")
        return package == "papr" and last in known.names
    return all(known.leads(*it) for it in zip(parts, parts[1:]))


def is_there(known: Declared, word: str) -> bool:
    """Whether one word is something that has a name here."""
    name = word.removeprefix("./").removesuffix("()")
    if name in ELSEWHERE_ALL or OPTION.fullmatch(name) or LETTER.fullmatch(name):
        return True
    if LONE.fullmatch(name) and name in known.names:
        return True
    return is_path_of_names(known, name) or FILE.fullmatch(name) is not None and known.has_path(name)


def is_known(known: Declared, quote: str) -> bool:
    """Whether what a page has in backticks is there: a name, or a command or form of several words."""
    first, *others = quote.split()
    rest = [it for it in others if not OPTION.fullmatch(it) and not ANY.fullmatch(it)]
    allowed = second_words(known).get(first)
    if allowed:
        return all(map(allowed, rest))
    return is_there(known, first) and all(is_there(known, it) for it in rest)


def faults_of_owners(known: Declared, text: str) -> Iterator[str]:
    """Names that a text says are of a crate that doesn't declare them."""
    for name, crate in OF.findall(text):
        is_other = name in known.crates or not known.files(crate)
        if not is_other and name.split("::")[0] not in known.names_of(crate):
            yield f"{crate} has no `{name}`"


def faults_of_quotes(known: Declared, text: str) -> Iterator[str]:
    """What a text has in backticks and nothing declares."""
    for quote in dict.fromkeys(" ".join(it.split()) for it in WORD.findall(text)):
        if quote not in ELSEWHERE_ALL and not is_known(known, quote):
            yield f"there is no `{quote}`"


def faults(known: Declared, clauses: Clauses, text: str) -> Iterator[str]:
    """What is wrong with the names of a page's text."""
    bare = FENCED.sub("", text)
    yield from faults_of_quotes(known, bare)
    yield from faults_of_owners(known, bare)
    yield from faults_of_clauses(bare, clauses)
    yield from faults_of_rows(known, bare)
    yield from faults_of_places(known, bare)


def unneeded(texts: Iterable[str]) -> Iterator[str]:
    """What the list of names that are declared elsewhere has, and no page."""
    quotes = {" ".join(it.split()) for text in texts for it in WORD.findall(FENCED.sub("", text))}
    words = quotes | {word for quote in quotes for word in quote.split()}
    yield from (f"ELSEWHERE has {name}, which no page has" for name in sorted(ELSEWHERE_ALL - words))


def texts_of_pages() -> dict[str, str]:
    """The pages by name."""
    return {page: (TOP / "docs" / f"{page}.md").read_text(encoding="utf-8") for page in PAGES}


def add_options(_parser: argparse.ArgumentParser) -> None:
    """This check has no options."""


def check(_given: argparse.Namespace) -> str:
    """All names of the pages."""
    known, clauses, texts = read_declared(TOP), clauses_of(read_functions(TOP)), texts_of_pages()
    found = ((page, faults(known, clauses, text)) for page, text in texts.items())
    wrong = [f"docs/{page}.md: {fault}" for page, faults_there in found for fault in faults_there]
    wrong += unneeded(texts.values())
    if wrong:
        raise Failed("\n".join(["names that aren't there", *wrong]))
    count = sum(len(WORD.findall(text)) for text in texts.values())
    return f"{count} names in {len(texts)} pages"
