#!/usr/bin/env python3
# %% [markdown]
# # A recorded guest: do two hypervisors answer it alike?
#
# A trace has the calls and accesses of a guest, as `papr from-qemu` makes it of a log. The guest's own hypervisor, or
# another program, wrote down its replies in papr's format. This compares them with papr's, by line.
#
# Each line `# %%` begins a cell of a notebook; as a script it runs from top to bottom.

# %%
import argparse
import lzma
import sqlite3
import sys
from pathlib import Path

import papr
from papr.replies import ReplyRow

parser = argparse.ArgumentParser(description="Compare the replies to a recorded guest with papr's.")
parser.add_argument("trace", type=Path, metavar="TRACE", help="the guest's calls and accesses; it may end with .xz")
parser.add_argument("replies", type=Path, metavar="REPLIES", help="what the other hypervisor replied")
# A notebook has arguments of its own.
options, _ = parser.parse_known_args()


def text_of(path: Path) -> str:
    """The text of a file."""
    data = path.read_bytes()
    return (lzma.decompress(data) if path.suffix == ".xz" else data).decode("ascii")


# %% [markdown]
# ## Both replies
#
# papr runs the trace. `rows()` gives each reply as a named tuple of numbers and texts, as a database takes it. Here
# they go into one in memory.

# %%
trace = text_of(options.trace)
ours, theirs = papr.run(trace), papr.Replies(text_of(options.replies))

base = sqlite3.connect(":memory:")
columns = ", ".join(ReplyRow._fields)
places = ", ".join("?" * len(ReplyRow._fields))
for name, replies in (("ours", ours), ("theirs", theirs)):
    base.execute(f"create table {name} ({columns})")
    base.executemany(f"insert into {name} values ({places})", replies.rows())

# %% [markdown]
# ## Where they differ
#
# By call, with how each ended, how often, and the first line. A line that the other text lacks ends with `none`.

# %%
ANSWERS = """
    select ours.call, ours.ending, coalesce(theirs.ending, 'none'), count(*), min(ours.line)
    from ours left join theirs using (line)
    where ours.ending is not theirs.ending or ours.words is not theirs.words
    group by 1, 2, 3 order by 4 desc, 5
"""
differences = base.execute(ANSWERS).fetchall()
(lines,) = base.execute("select count(*) from ours").fetchone()
print(f"{lines} replies, {sum(row[3] for row in differences)} of which differ")
for call, our_end, their_end, count, first in differences:
    print(f"{call}: papr {our_end}, the other {their_end}; {count} times, first in line {first}")

# %% [markdown]
# ## May they differ?
#
# Calls of several processors may come in another order, so another reply isn't always a wrong one. `check` says whether
# the other text can be the replies to the trace, in any order that the processors allow. It needs their receipts.

# %%
verdict = papr.check(trace, theirs)
print("they are those of a good run" if verdict.is_good else f"section {verdict.bad_section} is not that of a good run")
base.close()
sys.exit(1 if differences else 0)
