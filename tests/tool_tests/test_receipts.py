"""Tests of the tables of receipts and of replies."""

import csv
import json
import signal
import sqlite3
import subprocess
from contextlib import closing
from pathlib import Path
from typing import Union

from .pictures import replies_of, written
from .support import A_TRACE, DATA, EXAMPLES, TOOLS, ToolTest, environment_with, for_each, needs, run

RECEIPTS = TOOLS / "receipts"
SHARING = EXAMPLES / "sharing.replies"
HEAD = "resizes,line,cpu,call,entry,pteg,stamp,referenced,changed,answer,changes,store"
WORDS = ("call", "answer", "store")  # the columns that aren't numbers


def typed(row: dict[str, str]) -> dict[str, Union[int, str, None]]:
    """A row of CSV as JSON has it: numbers, and null where a cell is empty."""
    return {name: cell if name in WORDS else int(cell) if cell else None for name, cell in row.items()}


class Tables(ToolTest):
    """What is written of replies."""

    def rows(self, path: Path) -> list[dict[str, str]]:
        """The rows of the receipts' table of these replies."""
        ran = run(RECEIPTS, "--csv", path)
        self.assert_ran(ran, out=None)
        self.assertEqual(ran.out.partition("\n")[0], HEAD)
        return list(csv.DictReader(ran.out.splitlines()))

    def test_receipts_as_csv_have_a_row_for_each_receipt(self) -> None:
        rows = self.rows(SHARING)
        expected = [
            {
                "resizes": "0",
                "line": str(it.line),
                "cpu": str(it.cpu),
                "call": it.call,
                "entry": str(it.entry),
                "pteg": str(it.entry // 8),
                "stamp": str(it.stamp),
                "referenced": str(it.bits // 2),
                "changed": str(it.bits % 2),
                "answer": it.answer,
                "changes": str(int(it.line in (9, 10, 14, 17, 18, 21, 23, 26, 28))),
                "store": "table",
            }
            for it in written(replies_of(SHARING))
        ]
        self.assertEqual(len(expected), 31)
        self.assertEqual(rows, expected)

    def test_replies_as_csv_have_a_row_for_each_reply(self) -> None:
        ran = run(RECEIPTS, "--csv", "--replies", given=EXAMPLES / "resize.replies")
        self.assert_ran(ran, replies_of(DATA / "resize.replies.csv"))

    def test_receipts_as_json_are_the_same_rows(self) -> None:
        ran = run(RECEIPTS, "--json", SHARING)
        self.assert_ran(ran, out=None)
        rows = self.rows(SHARING)
        self.assertTrue(rows)
        self.assertEqual(json.loads(ran.out), [typed(row) for row in rows])

    def test_no_receipts_are_an_empty_list(self) -> None:
        self.assert_ran(run(RECEIPTS, "--json", given="1 0 slbclear ok\n"), "[]\n")

    def test_calls_by_number_are_on_the_table(self) -> None:
        ran = run(RECEIPTS, "--csv", "--replies", given=DATA / "numbers.replies")
        self.assert_ran(ran, replies_of(DATA / "numbers.replies.csv"))

    def test_receipts_of_windows_as_csv(self) -> None:
        ran = run(RECEIPTS, "--csv", given=DATA / "windows.replies")
        self.assert_ran(ran, replies_of(DATA / "windows.receipts.csv"))

    def test_replies_of_windows_as_csv(self) -> None:
        ran = run(RECEIPTS, "--csv", "--replies", given=DATA / "windows.replies")
        self.assert_ran(ran, replies_of(DATA / "windows.replies.csv"))

    def test_receipts_of_windows_as_json_have_no_group(self) -> None:
        """Groups are the page table's: a window's entry has null there."""
        ran = run(RECEIPTS, "--json", given=DATA / "windows.replies")
        self.assert_ran(ran, out=None)
        expected = list(csv.DictReader(replies_of(DATA / "windows.receipts.csv").splitlines()))
        self.assertEqual(len(expected), 15)
        self.assertEqual(json.loads(ran.out), [typed(row) for row in expected])

    def test_no_cell_of_a_foreign_text_is_a_formula(self) -> None:
        """Codes stay numbers, also below 0."""
        text = "1 0 =1+1 -4 @A1 +1 | 0x1.0.0.entered\n2 0 a=b -4+A1 -1 | 0x2.0.0.entered\n"
        ran = run(RECEIPTS, "--csv", "--replies", given=text)
        self.assert_ran(ran, out=None)
        rows = [",".join(line.split(",")[3:6]) for line in ran.out.splitlines()]
        self.assertEqual(rows, ["call,ending,words", "'=1+1,-4,'@A1 +1", "a=b,'-4+A1,-1"])
        ran = run(RECEIPTS, "--csv", given=text)
        self.assert_ran(ran, out=None)
        self.assertEqual([line.split(",")[3] for line in ran.out.splitlines()], ["call", "'=1+1", "a=b"])
        for form in (["--json"], ["--json", "--replies"]):
            self.assertEqual(json.loads(run(RECEIPTS, *form, given=text).out)[0]["call"], "=1+1")

    def test_a_reader_may_stop_early(self) -> None:
        """Of more than a pipe holds it takes one line."""
        replies = self.folder / "long.replies"
        replies.write_text("".join(f"{n} 0 H_ENTER 0 0x20 | 0x20.{n}.0.entered\n" for n in range(20_000)))
        words = [str(RECEIPTS), "--csv", str(replies)]
        with subprocess.Popen(
            words, stdout=subprocess.PIPE, stderr=subprocess.PIPE, env=environment_with()
        ) as tool:
            assert tool.stdout is not None and tool.stderr is not None
            self.assertEqual(tool.stdout.readline().decode(), f"{HEAD}\n")
            tool.stdout.close()
            self.assertEqual(tool.stderr.read(), b"")
            self.assertEqual(tool.wait(), 128 + signal.SIGPIPE)

    def test_lines_and_an_entry_are_chosen(self) -> None:
        every = self.rows(EXAMPLES / "sharing.replies")
        for words, lines in (("10..14", (10, 14)), ("..10", (0, 10)), ("26..", (26, 99)), ("0x1B", (27, 27))):
            ran = run(RECEIPTS, "--csv", "--lines", words, "--entry", "0x20", SHARING)
            self.assert_ran(ran, out=None)
            rows = list(csv.DictReader(ran.out.splitlines()))
            within = range(lines[0], lines[1] + 1)
            wanted = [row for row in every if int(row["line"]) in within and row["entry"] == "32"]
            self.assertTrue(rows)
            self.assertEqual(rows, wanted)

    def test_replies_are_chosen_that_have_such_a_receipt(self) -> None:
        ran = run(RECEIPTS, "--csv", "--replies", "--entry", "0x3fd8", SHARING)
        self.assert_ran(ran, out=None)
        self.assertEqual([line.split(",")[1] for line in ran.out.splitlines()[1:]], ["27"])

    def test_a_database_has_both_tables_with_types(self) -> None:
        base = self.folder / "run.db"
        for _turn in range(2):
            self.assert_ran(run(RECEIPTS, "--sqlite", base, SHARING))
        with closing(sqlite3.connect(base)) as opened:
            asked = "select distinct typeof(stamp), typeof(pteg), typeof(answer) from receipts"
            types = opened.execute(asked)
            self.assertEqual(types.fetchall(), [("integer", "integer", "text")])
            names = [row[1] for row in opened.execute("pragma table_info(receipts)")]
            self.assertEqual(",".join(names), HEAD)
            # No name wants quotes.
            rows = opened.execute(f"select {', '.join(names)} from receipts order by line").fetchall()
            self.assertEqual(len(rows), len(written(replies_of(SHARING))))
            self.assertEqual(rows[0], (0, 9, 0, "H_ENTER", 32, 4, 0, 0, 0, "entered", 1, "table"))
            most = opened.execute("select max(stamp) from receipts").fetchone()
            self.assertEqual(most, (max(it.stamp for it in written(replies_of(SHARING))),))
            count = opened.execute("select count(resizes), count(words) from replies").fetchone()
            self.assertEqual(count, (replies_of(SHARING).count("\n"),) * 2)

    def test_a_database_stays_as_it_was_where_the_text_is_no_replies(self) -> None:
        base = self.folder / "run.db"
        self.assert_ran(run(RECEIPTS, "--sqlite", base, SHARING))
        before = base.read_bytes()
        self.assert_refused(run(RECEIPTS, "--sqlite", base, given="x\n"), "receipts: this is no reply: x")
        self.assertEqual(base.read_bytes(), before)
        (self.folder / "text").write_text("no database\n" * 100)
        ran = run(RECEIPTS, "--sqlite", self.folder / "text", SHARING)
        self.assert_ran(ran, status=4, err=f"receipts: {self.folder / 'text'}: file is not a database\n")

    @needs("sqlite3")
    def test_sqlite_takes_the_table(self) -> None:
        table, base = self.folder / "receipts.csv", self.folder / "run.db"
        ran = run(RECEIPTS, "--csv", EXAMPLES / "cache.replies")
        self.assert_ran(ran, out=None)
        table.write_text(ran.out, encoding="ascii")
        self.assert_ran(run("sqlite3", base, f".import --csv {table} receipts"))
        count = len(written(replies_of(EXAMPLES / "cache.replies")))
        self.assert_ran(run("sqlite3", base, "select count(*) from receipts"), f"{count}\n")


class Words(ToolTest):
    """The tool's words, and inputs that it can't use."""

    def test_the_tool_has_help(self) -> None:
        self.assert_help(RECEIPTS)

    def test_a_trace_is_no_replies(self) -> None:
        ran = run(RECEIPTS, "--csv", EXAMPLES / "first.trace")
        self.assert_refused(ran, f"receipts: {A_TRACE}")

    def test_nothing_is_written_of_a_text_whose_end_is_no_reply(self) -> None:
        text = replies_of(SHARING) + "papr: line 9: word\n"
        for form in ("--csv", "--json"):
            refused = run(RECEIPTS, form, given=text)
            self.assert_refused(refused, "receipts: these are no replies: papr: line 9: word")

    def test_a_form_has_to_be_named(self) -> None:
        message = "receipts: error: one of the arguments --csv --json --sqlite is required"
        self.assert_refused(run(RECEIPTS), message)
        both = run(RECEIPTS, "--sqlite", "x", "--replies")
        self.assert_refused(both, "receipts: error: --sqlite writes both tables")

    @for_each("x", "..", "5..1", "1..2..3")
    def test_a_range_of_lines_that_is_none(self, lines: str) -> None:
        ran = run(RECEIPTS, "--csv", "--lines", lines)
        self.assert_ran(ran, status=2, err=None)
        self.assertIn("argument --lines: ", ran.err)
