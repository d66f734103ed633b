"""The whole program on texts: runs of traces, verdicts, images, sets of partitions, and drills."""

import ctypes
from typing import NamedTuple, Optional, Union

from ._library import function
from ._structs import U8
from .codes import Layout, Status
from .errors import ProgramFailed
from .replies import Replies

Text = Union[str, bytes]
ARGUMENTS = 3  # at most
LEAST_ROOM, ROOM_FOR_A_BYTE = 4_096, 24  # bytes of output
MOST_INPUT = 1 << 24  # bytes; more are refused by one line


class Verdict(NamedTuple):
    """Whether a text can be the replies to a trace; if not, the first section that isn't good."""

    is_good: bool
    bad_section: Optional[int]


class Summary(NamedTuple):
    """The summary of a drill."""

    lines: int
    hcalls: int
    success: int
    full: int
    notfound: int
    accesses: int
    at: int
    denied: int
    nopage: int
    hits: int
    entries: int
    changed: int


def call(*arguments: str, text: Text = b"") -> tuple[Status, bytes]:
    """The program with these arguments and this input: its status, and what it writes."""
    if len(arguments) > ARGUMENTS:
        raise ValueError(f"the program has at most {ARGUMENTS} arguments, and not {len(arguments)}")
    words = [argument.encode() for argument in arguments]
    given = [*words, *[b""] * (ARGUMENTS - len(words)), bytes_of(text)]
    arrays = [it for data in given for it in ((U8 * len(data)).from_buffer_copy(data), len(data))]
    room = LEAST_ROOM + ROOM_FOR_A_BYTE * min(len(given[-1]), MOST_INPUT)
    while True:
        output = (U8 * room)()
        ended = function("papr_bytes_call")(*arrays, output, room)
        if ended.status != Status.NO_ROOM:
            return Status(ended.status), ctypes.string_at(output, ended.length)
        room = ended.length


def bytes_of(text: Text) -> bytes:
    """A text as the program reads it."""
    return text.encode() if isinstance(text, str) else text


def written(*arguments: str, text: Text = b"", good: tuple[Status, ...] = (Status.DONE,)) -> str:
    """What the program writes; ProgramFailed where it ends otherwise, with the line and the reason of a refusal."""
    status, out = call(*arguments, text=text)
    if status not in good:
        raise ProgramFailed(status, out.decode())
    return out.decode()


def run(trace: Text) -> Replies:
    """The replies of the serial run of a trace, as `papr run` writes them."""
    return Replies(written("run", text=trace))


def check(trace: Text, replies: Union[Text, Replies]) -> Verdict:
    """Whether a text, whatever program wrote it, can be the replies to a trace: that of a good run."""
    judged = replies.text if isinstance(replies, Replies) else replies
    given = b"\n".join([bytes_of(trace).removesuffix(b"\n"), b"replies", bytes_of(judged)])
    words = written("check", text=given, good=(Status.DONE, Status.NOT_GOOD)).split()
    return Verdict(True, None) if words == ["good"] else Verdict(False, int(words[-1]))


def image(trace: Text, layout: Layout = Layout.OLD) -> str:
    """The table at the end of a trace's run, as `papr image` writes it."""
    return written("image", layout.name.lower(), text=trace)


def run_set(partitions: Text) -> str:
    """The replies of partitions whose tables share one pool, as `papr set` writes them."""
    return written("set", text=partitions)


def drill(seed: int, lines: int) -> Summary:
    """The summary of a generated trace of at most 100,000 lines."""
    pairs = [line.split() for line in written("drill", str(seed), str(lines)).splitlines()]
    return Summary(**{name: int(number) for name, number in pairs})
