#!/usr/bin/env python3
# %% [markdown]
# # Two processors on one table
#
# Two threads enter pages of their own into one group of eight entries, until it is full. Each makes its calls on a pass
# of its own, with no lock around them. Where one meets the other at an entry, `finish` goes on with its call.
#
# Each line `# %%` begins a cell of a notebook; as a script it runs from top to bottom.

# %%
import threading

import papr
from papr import Code

GROUP, CALLS = 0x20, 16
table = papr.Table(18, [papr.Grant(0x0, 0x20_0000_0000, 0x4000_0000)])
codes: list[Code] = []


def run(shared: papr.SharedTable, first_vsid: int) -> None:
    """What one processor does: it enters a page of each of its segments."""
    with shared.split() as mine:
        for vsid in range(first_vsid, first_vsid + CALLS):
            codes.append(mine.finish(mine.h_enter, 0, GROUP, vsid << 12 | 1, 0x3012).code)


# %% [markdown]
# ## The run
#
# While the table is shared, its entries belong to the passes. Leaving the block closes it: the table has them again.

# %%
with papr.SharedTable(table, passes=2) as shared:
    threads = [threading.Thread(target=run, args=(shared, vsid)) for vsid in (1, 1 + CALLS)]
    for thread in threads:
        thread.start()
    for thread in threads:
        thread.join()

for index in range(GROUP, GROUP + 8):
    print(f"entry {index:#x}: {'valid' if table[index].valid else 'empty'}")
print(f"{codes.count(Code.H_SUCCESS)} of {len(codes)} calls entered a page")
