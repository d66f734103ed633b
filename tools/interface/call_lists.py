"""What is written of the table of calls: rows of documents, and lists of Python, Rust and JavaScript."""

from textwrap import wrap
from typing import Iterator

from interface.calls import ENTRIES, WHOLE, Call
from interface.headers import header

PYTHON_COLUMNS, RUST_COLUMNS = 120, 100
MOST_ARGUMENTS = 60  # columns of the arguments that rustfmt leaves on one line
COUNTS = {8: "eight"}
# How the crate `papr` has what a function of the library borrows.
LENT = {"entries", "count", "order", "grants", "pass", "words", "receipts"}
ROOMS = {"words_room": "WORDS", "receipts_room": "RECEIPTS"}


def on_entries(calls: list[Call]) -> list[Call]:
    """The calls that work on the entries of the page table."""
    return [it for it in calls if it.works_on == ENTRIES]


def capital(sentence: str) -> str:
    """A text with a capital in front."""
    return sentence[:1].upper() + sentence[1:]


# ---- documents


def format_rows(calls: list[Call]) -> Iterator[str]:
    """The table of docs/FORMATS.md."""
    yield from ["| line | number | what it does |", "|---|---|---|"]
    for call in calls:
        form = f"`C {call.name}` and {COUNTS[call.count]} numbers" if call.is_list else ""
        form = form or f"`C {' '.join([call.name, *call.arguments])}`"
        yield f"| {form} | `{call.number:#04x}` | {capital(call.said('H_{}'))} |"


def manual_rows(calls: list[Call]) -> Iterator[str]:
    """The items of man/papr-trace.5."""
    for call in calls:
        arguments = "word ..." if call.is_list else " ".join(call.arguments)
        yield f".It Ar C Ic {call.name} Ar {arguments}"
        yield from capital(call.said("H_{}")).replace(". ", ".\n").splitlines()


# ---- Python


def number_members(calls: list[Call]) -> Iterator[str]:
    """The members of the class Hcall."""
    ordered = sorted(on_entries(calls), key=lambda it: it.number)
    yield from (f"    {call.name} = 0x{call.number:02X}" for call in ordered)


def python_methods(calls: list[Call]) -> Iterator[str]:
    """The methods of the class Calls."""
    for call in on_entries(calls):
        name = call.name.lower()
        typed = [f"{it}: {'Iterable[int]' if call.is_list else 'int'}" for it in call.parameters]
        yield from ["", f"    def {name}(self, {', '.join(typed)}) -> Reply:"]
        yield from python_comment(f"{call.name}: {call.said('{}')}")
        if call.is_list:
            yield f"        given = words_of({call.parameters[0]})"
        given = ["given", "len(given)"] if call.is_list else call.parameters
        lent = ["self.grants.c_list"] if takes_grants(call) else []
        yield f"        return self._call({', '.join([f'{chr(34)}{name}{chr(34)}', *lent, *given])})"


def python_comment(text: str) -> list[str]:
    """A comment of a method: on one line, or its first sentence apart from the others."""
    whole = f'        """{text}"""'
    if len(whole) <= PYTHON_COLUMNS:
        return [whole]
    first, _, rest = text.partition(". ")
    return [f'        """{first}.', "", *(f"        {it}" for it in wrap(rest, PYTHON_COLUMNS - 8)), '        """']


def takes_grants(call: Call) -> bool:
    """Whether its function looks at grants."""
    return any(name == "grants" for name, _ in header("papr.h").functions[call.functions[0]].parameters)


def tool_rows(calls: list[Call]) -> Iterator[str]:
    """The rows of tools/hypercalls.py."""
    for call in calls:
        yield f'    0x{call.number:02X}: Hypercall("{call.name}", {call.count}, "{call.works_on}"),'


# ---- C and JavaScript


def c_numbers(calls: list[Call]) -> Iterator[str]:
    """The members of the enum of calls of examples/c/replay.h."""
    yield from (f"    {it.name} = {it.number:#04x}," for it in calls)


def c_names(calls: list[Call]) -> Iterator[str]:
    """The rows of names of examples/c/replay.c."""
    yield from (f'        {{"{it.name}", {it.name}}},' for it in calls)


def resize_rows(calls: list[Call]) -> Iterator[str]:
    """The calls of the page that work on the whole table."""
    yield "const RESIZES = new Map(["
    yield from (f'  [{it.number:#x}n, "{it.name}"],' for it in calls if it.works_on == WHOLE)
    yield "]);"


# ---- Rust


def rust_methods(calls: list[Call], place: int, result: str) -> Iterator[str]:
    """The methods of a table, or of a pass, whose functions have this place in a row, and this result."""
    for call in on_entries(calls):
        yield from ["", *rust_method(call, call.functions[place], result)]


def rust_method(call: Call, function: str, result: str) -> Iterator[str]:
    """A method in the layout of rustfmt."""
    said = f"{call.name}: {call.said('[`flags::{0}`](crate::flags::{0})')}"
    yield from (f"    /// {it}" for it in wrap(said, RUST_COLUMNS - 8, break_long_words=False))
    typed = [f"{it}: {'&[u64; WORDS]' if call.is_list else 'u64'}" for it in call.parameters]
    yield f"    pub fn {call.name.lower()}(&mut self, {', '.join(typed)}) -> {result} {{"
    yield "        // SAFETY: all that is lent is ours, of the given lengths, and nothing overlaps."
    yield "        self.call(|it| unsafe {"
    yield from rust_call(f"papr_sys::{function}", rust_arguments(call, function))
    yield from ["        })", "    }"]


def rust_arguments(call: Call, function: str) -> list[str]:
    """What a method gives its function."""
    names = [name for of in ("papr.h", "papr_shared.h") for name, _ in parameters_of(of, function)]
    return [ROOMS.get(it) or (f"it.{it}" if it in LENT else own(call, it)) for it in names]


def parameters_of(of_header: str, function: str) -> list[tuple[str, str]]:
    """The parameters of a function of a header, or none."""
    found = header(of_header).functions.get(function)
    return found.parameters if found else []


def own(call: Call, name: str) -> str:
    """An argument of the call itself, or how many words its list has."""
    if name not in call.parameters:
        return "WORDS"
    return f"{name}.as_ptr()" if call.is_list else name


def rust_call(function: str, arguments: list[str]) -> Iterator[str]:
    """A call of a function: on one line where rustfmt leaves it there."""
    listed = ", ".join(arguments)
    whole = f"            {function}({listed})"
    if len(listed) <= MOST_ARGUMENTS and len(whole) <= RUST_COLUMNS:
        yield whole
    else:
        yield from [f"            {function}(", *(f"                {it}," for it in arguments), "            )"]
