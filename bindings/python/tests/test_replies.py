"""Tests of replies as records and as rows; no library is needed."""

import sqlite3
import unittest
from collections.abc import Iterable, Sequence
from contextlib import closing

from support import text_of

from papr import BadReplies, Replies
from papr.replies import Receipt, ReceiptRow, ReplyRow, Shown

DUMPED = "5 dump table 0 order 18 place 0x1000000000 entries 1\n 0x27 0x1001 0x3192 7\n6 0 slbclear ok\n"


class Records(unittest.TestCase):
    """The records of a text."""

    def test_each_reply_with_its_receipts(self) -> None:
        first, second = Replies(text_of("first.replies"))
        self.assertEqual((first.line, first.cpu, first.call), (4, 0, "H_ENTER"))
        self.assertEqual((first.ending, first.words), ("0", ["0x27"]))
        self.assertEqual(first.receipts, [Receipt(0, 4, 0, "H_ENTER", 0x27, 0, 0, "entered", "table")])
        self.assertEqual((second.ending, second.words), ("-6", []))
        self.assertEqual([it.answer for it in second.receipts], ["taken"])

    def test_a_dump_has_the_entries_that_it_shows(self) -> None:
        replies = list(Replies(DUMPED).with_entries())
        self.assertEqual([reply.call for reply, _ in replies], ["dump", "slbclear"])
        self.assertEqual([shown for _, shown in replies], [[Shown(0x27, 0x1001, 0x3192, 7)], []])

    def test_what_is_no_reply(self) -> None:
        dumps = ("5 dump table 0\n 0x27 0x1001\n", "5 dump table 0\n a b c d\n")
        for text in ("papr: line 3: word\n", "order 18\n", *dumps):
            with self.assertRaises(BadReplies):
                list(Replies(text))

    def test_numbers_are_of_ascii_digits_and_below_their_bounds(self) -> None:
        reply = "{} {} H_ENTER 0 0x20 | {}.{}.0.entered\n"
        good = ["4", "63", "0x3ffff", str(2**64 - 1)]
        (read,) = Replies(reply.format(*good))
        self.assertEqual(read.receipts[0][:2] + read.receipts[0][4:6], (0, 4, 0x3FFFF, 2**64 - 1))
        past = str(2**64)
        wrong = [("\u00b2", "1_0", past), ("64", "-1"), ("0x40000", "0x2_0"), (past, "7" * 5_000)]
        for place, words in enumerate(wrong):
            for word in words:
                with self.subTest(word=word[:30]), self.assertRaises(BadReplies):
                    list(Replies(reply.format(*good[:place], word, *good[place + 1 :])))

    def test_resizes_are_counted(self) -> None:
        tables = {receipt.table for receipt in Replies(text_of("resize.replies")).receipts()}
        commits = text_of("resize.replies").count("H_RESIZE_HPT_COMMIT 0")
        self.assertEqual(tables, set(range(commits + 1)))


def put(base: sqlite3.Connection, name: str, columns: Sequence[str], rows: Iterable[tuple[object, ...]]) -> None:
    """Makes a table of these rows, as they are."""
    base.execute(f"create table {name} ({', '.join(columns)})")
    base.executemany(f"insert into {name} values ({', '.join('?' * len(columns))})", rows)


class Rows(unittest.TestCase):
    """Rows, as a database takes them."""

    def test_rows_go_into_a_database(self) -> None:
        replies = Replies(text_of("sharing.replies"))
        with closing(sqlite3.connect(":memory:")) as base:
            put(base, "replies", ReplyRow._fields, replies.rows())
            put(base, "receipts", ReceiptRow._fields, replies.receipt_rows())
            counted = base.execute("select count(*), sum(receipts) from replies").fetchone()
            receipts = base.execute("select count(*) from receipts").fetchone()
        self.assertEqual(counted[0], text_of("sharing.replies").count("\n"))
        self.assertEqual(receipts[0], counted[1])

    def test_a_row_has_a_name_for_each_column(self) -> None:
        row = next(Replies(text_of("first.replies")).receipt_rows())
        expected = {"line": 4, "call": "H_ENTER", "entry": 0x27, "pteg": 4, "answer": "entered", "changes": 1}
        self.assertEqual({name: row._asdict()[name] for name in expected}, expected)
