#!/usr/bin/env python3
# %% [markdown]
# # What a guest enters is what it gets back
#
# A random guest calls H_ENTER and H_REMOVE, and a property is tested after each call:
#
# - H_ENTER succeeds exactly if a place that it may take is free. It takes the first one, and the entry then has the two
#   doublewords.
# - H_REMOVE succeeds exactly if the entry is valid and passes the test that the flags ask for. Its words are the
#   doublewords that were entered, and it says that cached translations may be stale.
# - A refused call changes nothing.
#
# Each line `# %%` begins a cell of a notebook; as a script it runs from top to bottom.

# %%
import argparse
import random

import papr
from papr import Answer, Code, Flag

parser = argparse.ArgumentParser(description="Fuzz H_ENTER and H_REMOVE, and test what they answer.")
parser.add_argument("--seed", type=int, default=1, help="of the random numbers (default: 1)")
parser.add_argument("--calls", type=int, default=20_000, help="how many (default: 20000)")
# A notebook has arguments of its own.
options, _ = parser.parse_known_args()

# %% [markdown]
# ## The guest
#
# It has 1 GB of main storage, and the smallest table: 2^14 entries in groups of eight. It keeps what it entered, by the
# entry's index. To meet full groups soon, it uses four groups only.

# %%
table = papr.Table(18, [papr.Grant(0x0, 0x20_0000_0000, 0x4000_0000)])
entered: dict[int, tuple[int, int]] = {}
ALL_ONES = (1 << 64) - 1
draw = random.Random(options.seed)
counts: dict[tuple[str, str], int] = {}


def page_of(group: int) -> tuple[int, int]:
    """The doublewords of a page of 4 KB whose primary group this is: its hash is VSID xor page."""
    vsid = draw.randrange(1, 1 << 20)
    page = (vsid ^ group) & 0x7FF
    real = draw.randrange(1 << 18)
    return vsid << 12 | page >> 11 << 7 | 1, real << 12 | 0x12


def enter() -> None:
    """One H_ENTER, and the property."""
    ptex = 8 * draw.randrange(4) + draw.randrange(8)
    flags = draw.choice([0, Flag.EXACT])
    pteh, ptel = page_of(ptex // 8)
    places = [ptex] if flags else range(ptex & ~7, (ptex & ~7) + 8)
    free = [place for place in places if place not in entered]
    reply = table.h_enter(flags, ptex, pteh, ptel)
    if free:
        assert (reply.code, reply.words) == (Code.H_SUCCESS, (free[0],)), reply
        assert reply.receipts[-1].answer is Answer.ENTERED, reply
        entered[free[0]] = pteh, ptel
        assert table[free[0]].doublewords == (pteh, ptel), reply
    else:
        assert (reply.code, reply.words) == (Code.H_PTEG_FULL, ()), reply
    assert not reply.stale, reply
    counts["H_ENTER", reply.code.name] = counts.get(("H_ENTER", reply.code.name), 0) + 1


def remove() -> None:
    """One H_REMOVE, and the property."""
    ptex = draw.randrange(32)
    before = entered.get(ptex)
    known = before[0] if before and draw.random() < 0.7 else page_of(ptex // 8)[0]
    flags = draw.choice([0, Flag.AVPN, Flag.ANDCOND])
    avpn = {0: 0, Flag.AVPN: known & ~0x7F, Flag.ANDCOND: ~known & ALL_ONES}[flags]
    passes = {
        0: before is not None,
        Flag.AVPN: before is not None and before[0] & ~0x7F == avpn,
        Flag.ANDCOND: before is not None and before[0] & avpn == 0,
    }
    reply = table.h_remove(flags, ptex, avpn)
    if passes[flags]:
        assert (reply.code, reply.words, reply.stale) == (Code.H_SUCCESS, before, True), reply
        del entered[ptex]
    else:
        assert (reply.code, reply.words, reply.stale) == (Code.H_NOT_FOUND, (), False), reply
    counts["H_REMOVE", reply.code.name] = counts.get(("H_REMOVE", reply.code.name), 0) + 1


# %% [markdown]
# ## The run
#
# Every 100 calls the whole table is compared with what the guest knows.

# %%
for number in range(options.calls):
    draw.choice([enter, remove])()
    if number % 100 == 0:
        assert {at: it.doublewords for at, it in table.valid_entries()} == entered, number

print(f"seed {options.seed}: {options.calls} calls have the property")
for (call, code), count in sorted(counts.items()):
    print(f"{call:8} {code:12} {count}")
