"""What is on the disk, and what becomes of it: crashes, damage, two writers, and each call of the system that fails."""
from __future__ import annotations

import os
import shutil
import unittest
from pathlib import Path
from typing import Iterator

from papledger import Busy, Damaged, LedgerError, Misuse, NotSaved, Refused, Year
from papledger.journal import HEAD
from tests.faults import CALLS, describe, fault
from tests.support import Case, answered, journal_lines, report_of

LINES = ["plan 2026-01-01 p0.xml limits.toml", "load t1.csv", "file 2026-01", "change dora 2026-01 2026-01-28 PAY=2000", "load t2.csv",
         "plan 2026-02-01 p1.xml limits.toml", "file 2026-02"]


def sent(folder: str, lines: list[str]) -> None:
    """A new year with these lines."""
    with Year.new(folder) as year:
        for line in lines:
            year.ask(line)


class Opening(Case):
    def setUp(self) -> None:
        super().setUp()
        sent("y", LINES)
        self.journal, self.digest = Path("y/year.script"), Path("y/year.digest")

    def opens_as(self, lines: list[str], notice: str = "") -> None:
        with Year("y") as year:
            self.assertEqual(year.report_text().decode(), report_of(self.program, lines))
            self.assertEqual(len(year.notices), int(bool(notice)), year.notices)
            self.assertIn(notice, "".join(year.notices))
        with Year("y") as year:
            self.assertEqual(list(year.notices), [])

    def test_the_journal_is_a_script(self) -> None:
        os.chdir("y")
        done = answered(self.program, Path("year.script").read_text().splitlines() + ["report"])
        self.assertTrue(done.endswith("end\n"))

    def test_again(self) -> None:
        self.opens_as(LINES)

    def test_a_torn_line_is_cut(self) -> None:
        for torn in [b"a", b"add anna 2026-02 2026-02-28 PAY=1", b"\0" * 300]:
            with self.journal.open("ab") as journal:
                journal.write(torn)
            self.opens_as(LINES, "in the midst of")
        self.assertEqual(journal_lines("y"), LINES)

    def test_lines_that_belong_together_are_cut_together(self) -> None:
        with Year("y") as year, year.batch():
            year.ask("add anna 2026-02 2026-02-28 PAY=1")
            year.ask("add ben 2026-02 2026-02-28 PAY=1")
        whole, digest = self.journal.read_bytes(), self.digest.read_bytes()
        first = whole.index(b"# together 2\n")
        for end in [first + 1, first + 12, first + 13, first + 20, whole.index(b"\n", first + 13) + 1, len(whole) - 1]:
            self.journal.write_bytes(whole[:end])
            self.digest.write_bytes(digest[:-34])
            self.opens_as(LINES, "in the midst of")
            self.assertEqual(self.journal.read_bytes(), whole[:first])
        self.journal.write_bytes(whole)
        self.digest.write_bytes(digest)
        self.opens_as([*LINES, "add anna 2026-02 2026-02-28 PAY=1", "add ben 2026-02 2026-02-28 PAY=1"])

    def test_a_digest_that_lacks_records_is_completed(self) -> None:
        whole = self.digest.read_bytes()
        for rest in [b"", whole[:17], whole[:-17], whole[:-5], whole[:-17] + b"\0" * 17]:
            self.digest.write_bytes(rest)
            self.opens_as(LINES, "the digest lacked the last")
            self.assertEqual(self.digest.read_bytes(), whole)
        self.digest.unlink()
        self.opens_as(LINES, "the digest lacked the last 7 of 7 lines")

    def test_lines_that_are_missing(self) -> None:
        self.journal.write_bytes(b"".join(self.journal.read_bytes().splitlines(keepends=True)[:-1]))
        with self.assertRaisesRegex(Damaged, "lines are missing"):
            Year("y")

    def test_the_first_line_that_differs_is_told(self) -> None:
        whole = self.journal.read_bytes()
        self.journal.write_bytes(whole.replace(b"PAY=2000", b"PAY=3000"))
        with self.assertRaisesRegex(Damaged, "line 5 has another answer .*`change dora 2026-01 2026-01-28 PAY=3000`"):
            Year("y")
        self.journal.write_bytes(whole.replace(b"PAY=2000", b"PAY=x"))
        with self.assertRaisesRegex(Damaged, "line 5 is answered `refused line Value 5`"):
            Year("y")
        self.journal.write_bytes(whole)
        self.opens_as(LINES)

    def test_another_program_is_told(self) -> None:
        Path("other").write_text(f"#!/bin/sh\nexec '{self.program}' \"$@\" | sed -u 's/ TAX 110.00$/ TAX 110.01/'\n")
        os.chmod("other", 0o755)
        with self.assertRaisesRegex(Damaged, "line 4 has another answer .*`file 2026-01`"):
            Year("y", program="./other")
        self.opens_as(LINES)

    def test_a_changed_flowchart_file_changes_nothing(self) -> None:
        before = report_of(self.program, LINES)
        for name in ["p0.xml", "p1.xml", "t1.csv", "limits.toml"]:
            Path(name).write_text("changed")
        os.unlink("t2.csv")
        with Year("y") as year:
            self.assertEqual(year.report_text().decode(), before)

    def test_a_copy_that_was_changed_or_lost_is_told(self) -> None:
        for copy in [*Path("y/flowcharts").iterdir(), *Path("y/tables").iterdir()]:
            whole = copy.read_bytes()
            copy.write_bytes(whole.replace(b"0", b"1"))
            with self.assertRaisesRegex(Damaged, "was changed since it was copied"):
                Year("y")
            copy.unlink()
            with self.assertRaisesRegex(Damaged, "there is no such file"):
                Year("y")
            copy.write_bytes(whole)
        self.opens_as(LINES)

    def test_copies_that_no_line_names_are_taken_away(self) -> None:
        with Year("y") as year:
            with self.assertRaises(Refused):
                year.ask("plan 2026-03-01 broken.xml limits.toml")
            year.ask("try 2026-02-01 p2.xml limits.toml")
            Path("y/tables/mine.csv").write_text("kept")
            self.assertEqual(len(list(Path("y/flowcharts").iterdir())), 5)
        self.opens_as(LINES)
        self.assertEqual(len(list(Path("y/flowcharts").iterdir())), 3)
        self.assertTrue(Path("y/tables/mine.csv").exists())

    def test_a_folder_that_is_moved(self) -> None:
        os.rename("y", "moved")
        with Year("moved") as year:
            self.assertEqual(year.report_text().decode(), report_of(self.program, LINES))


class Writers(Case):
    def test_the_second_writer_is_refused(self) -> None:
        with Year.new("y") as year:
            year.ask(LINES[0])
            with self.assertRaisesRegex(Busy, f"process {os.getpid()}"):
                Year("y")
            year.ask(LINES[1])
            with Year("y", read_only=True) as reader:
                self.assertEqual(reader.report_text(), year.report_text())
                for line in ["file 2026-01", "try 2026-01-01 p0.xml limits.toml"]:
                    with self.assertRaises(Misuse):
                        reader.ask(line)
        Year("y").close()

    def test_a_reader_sees_whole_lines(self) -> None:
        sent("y", LINES)
        with Path("y/year.script").open("ab") as journal:
            journal.write(b"add anna 2026-")
        with Year("y", read_only=True) as reader:
            self.assertEqual(reader.report_text().decode(), report_of(self.program, LINES))
        self.assertTrue(Path("y/year.script").read_bytes().endswith(b"add anna 2026-"))

    def test_no_year(self) -> None:
        Path("full").mkdir()
        Path("full/other").write_text("")
        for folder in ["no", "full", "p0.xml"]:
            with self.assertRaises(Damaged):
                Year(folder)
            self.assertFalse(Path(folder, "year.lock").exists())
        for folder in ["full", "no/no"]:
            with self.assertRaises(LedgerError):
                Year.new(folder)
        Year.new("y").close()
        with self.assertRaises(Damaged):
            Year.new("y")

    def test_a_batch_is_all_or_none(self) -> None:
        with Year.new("y") as year:
            with year.batch():
                year.ask(LINES[0])
                with self.assertRaises(Refused):
                    year.ask("drop 2026-02-01")
                year.ask(LINES[1])
                self.assertEqual(Path("y/year.script").read_bytes(), HEAD)
            self.assertEqual(journal_lines("y"), LINES[:2])
            with self.assertRaises(ZeroDivisionError), year.batch():
                year.ask(LINES[2])
                raise ZeroDivisionError
            self.assertEqual(journal_lines("y"), LINES[:2])
            self.assertEqual(year.filings, [])
            year.ask(LINES[2])
        self.assertEqual(journal_lines("y"), LINES[:3])


class EachCall(Case):
    """Each call of the system fails once, for each time that it is made."""

    def numbers(self, call: str, stays: bool = False, short: bool = False) -> Iterator[int]:
        """Sends the lines with a fault at the n-th call, for each n that there is; yields n when the folder `y` is left so."""
        for number in range(1, 1000):
            shutil.rmtree("y", ignore_errors=True)
            self.done: list[str] = []
            with fault(call, number, stays, short) as failing:
                self.send(stays)
            if not failing.has_failed:
                self.assertEqual(self.done, LINES)
                return
            self.says = describe(call, number, stays, short)
            yield number

    def send(self, stays: bool) -> None:
        """Sends each line until it is done, or where the fault stays until the first error."""
        for _ in range(3):
            try:
                with Year("y") if Path("y/year.script").exists() else Year.new("y") as year:
                    for line in LINES[len(self.done):]:
                        self.send_line(year, line, stays)
                return
            except NotSaved:
                if stays:
                    return

    def send_line(self, year: Year, line: str, stays: bool) -> None:
        try:
            year.ask(line)
        except NotSaved:
            if stays:
                raise
            self.assertEqual(journal_lines("y"), self.done, "the journal is as it was")
            before = len([*year.report()])
            self.assertEqual(before, report_of(self.program, self.done).count("\n") - 2, "the year in memory is as it was")
            year.ask(line)
        self.done.append(line)

    def test_a_fault_that_passes(self) -> None:
        total = 0
        for call in CALLS:
            for _ in self.numbers(call):
                total += 1
                self.assertEqual(self.done, LINES, self.says)
                self.assertEqual(journal_lines("y"), LINES, self.says)
        for _ in self.numbers("pwrite", short=True):
            total += 1
            self.assertEqual(journal_lines("y"), LINES, self.says)
        self.assertGreater(total, 40)

    def test_a_line_that_could_not_be_cut_off_again(self) -> None:
        """It is cut off before the next line, which is shorter."""
        with Year.new("y") as year:
            year.ask(LINES[0])
            with fault("pwrite", 1, stays=True, short=True), self.assertRaises(NotSaved):
                year.ask("add anna 2026-01 2026-01-28 PAY=1000.00 CHILDREN=2")
            self.assertFalse(Path("y/year.script").read_bytes().endswith(b"\n"))
            year.ask("file 2026-01")
            self.assertEqual(journal_lines("y"), [LINES[0], "file 2026-01"])

    def test_a_fault_that_stays(self) -> None:
        """As of a full disk, until the process ends. Then what was told done is there, and perhaps the line in flight."""
        for call, short in [*((call, False) for call in CALLS), ("pwrite", True)]:
            for _ in self.numbers(call, stays=True, short=short):
                if not Path("y/year.script").exists():
                    self.assertEqual(self.done, [])
                    continue
                with Year("y"):
                    there = journal_lines("y")
                self.assertIn(there, [self.done, LINES[:len(self.done) + 1]], self.says)


if __name__ == "__main__":
    unittest.main()
