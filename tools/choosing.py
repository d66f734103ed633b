"""Which receipts a tool is asked for, and whether their entries are decoded."""

import argparse
import re
from dataclasses import dataclass
from typing import Iterable, Optional

from common import Bad
from decoding import Decoder, Page
from inputs import text_of
from known import Known
from numerals import read_number
from replies import TABLE, Receipt, Reply, replies_of
from traces import read_order

END = 2**64


def read_lines(word: str) -> tuple[int, int]:
    """A range of lines: A..B, A.., ..B or A; a hyphen is as good as two dots."""
    found = re.fullmatch(r"([0-9a-fA-Fx]*)(\.\.|-)?([0-9a-fA-Fx]*)", word)
    if word in ("", "..", "-") or found is None:
        raise argparse.ArgumentTypeError(f"`{word}` is no range of lines, as 100..200")
    first = read_number(found[1]) if found[1] else 0
    last = read_number(found[3]) if found[3] else END if found[2] else first
    if last < first:
        raise argparse.ArgumentTypeError(f"`{word}` ends before it begins")
    return first, last


def read_page(word: str) -> tuple[int, int]:
    """A page of a segment: VSID:PAGE."""
    vsid, colon, page = word.partition(":")
    if not colon:
        raise argparse.ArgumentTypeError(f"`{word}` is no page, as 0x1:0x5: the VSID, and the page's index")
    return read_number(vsid), read_number(page)


HELP = {
    "entry": "only receipts of the page table's entry with this index",
    "lines": "only lines A to B of the trace; either may be left out",
    "page": "only receipts of entries of this page, its index in the segment; needs libpapr.so.0",
    "decode": "say what the entries map, by libpapr.so.0",
    "trace": "the trace of the replies: it has what was entered, and orders",
    "order": "the order of the first table",
}


def add_options(parser: argparse.ArgumentParser, has_entry: bool = True) -> None:
    """The options; a tool may take the entry as an argument of its own."""
    add = parser.add_argument
    if has_entry:
        add("--entry", type=read_number, metavar="ENTRY", help=HELP["entry"])
    add("--lines", type=read_lines, default=(0, END), metavar="A..B", help=HELP["lines"])
    add("--page", type=read_page, metavar="VSID:PAGE", help=HELP["page"])
    add("--decode", action="store_true", help=HELP["decode"])
    add("--trace", metavar="TRACE", help=HELP["trace"])
    add("--order", type=read_order, metavar="S", help=HELP["order"])


@dataclass(frozen=True)
class Chosen:
    """A reply that is asked for, with those of its receipts that are, and the entries that a dump shows."""

    reply: Reply
    receipts: list[Receipt]
    shown: list[int]

    @property
    def of_table(self) -> list[Receipt]:
        """The receipts of the page table's entries: all of them, or none."""
        return self.receipts if self.reply.store == TABLE else []


class Choice:
    """What the options ask for, and what is known of entries."""

    def __init__(self, options: argparse.Namespace) -> None:
        self.entry: Optional[int] = options.entry
        self.lines: tuple[int, int] = options.lines
        self.page: Optional[tuple[int, int]] = options.page
        self.is_decoded: bool = options.decode
        self.decoder = Decoder() if options.decode or options.page else None
        trace: Optional[list[str]] = None
        if options.trace is not None:
            with text_of(options.trace) as lines:
                trace = list(lines)
        self.known = Known(trace, options.order)

    @property
    def is_by_entry(self) -> bool:
        """Whether receipts are left out by their entry or its page."""
        return self.entry is not None or self.page is not None

    def decoded(self, receipt: Receipt) -> Optional[Page]:
        """What the receipt's entry maps, as far as it is known."""
        words = self.known.words(receipt) if self.decoder else None
        if self.decoder is None or words is None:
            return None
        return self.decoder.decode(words, receipt.entry, self.known.order(receipt.table))

    def takes(self, receipt: Receipt) -> bool:
        """Whether a receipt of a line that is asked for is asked for."""
        if self.entry is not None and (receipt.store != TABLE or receipt.entry != self.entry):
            return False
        if self.page is None:
            return True
        page = self.decoded(receipt)
        return page is not None and page.why == 0 and (page.vsid, page.page) == self.page

    def replies(self, text: Iterable[str], lines: Optional[tuple[int, int]] = None) -> list[Chosen]:
        """The replies that are asked for; or those of other lines."""
        first, last = lines or self.lines
        all_replies = list(replies_of(text))
        if self.decoder:
            for reply, shown in all_replies:
                self.known.take(reply, shown)
        chosen = []
        for reply, shown in all_replies:
            if first <= reply.line <= last:
                receipts = [it for it in reply.receipts if self.takes(it)]
                if receipts or not self.is_by_entry:
                    chosen.append(Chosen(reply, receipts, [it.entry for it in shown]))
        if self.page is not None and not chosen:
            message = f"no receipt of page {self.page[0]:#x}:{self.page[1]:#x}"
            if self.known.order(0) is None:
                message += "; no page is known without an order, which --order or --trace gives"
            raise Bad(message)
        return chosen
