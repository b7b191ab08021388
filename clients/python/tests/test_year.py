"""The lines of a script, and what is made of them, on a year in a folder."""
from __future__ import annotations

import os
import random
import unittest
from decimal import Decimal
from pathlib import Path

from papledger import FileMissing, Misuse, NotReady, ProgramFailed, Refused, Work, Year
from tests.support import Case, answered, journal_lines, kept_lines, random_script, report_of


class Lines(Case):
    def setUp(self) -> None:
        super().setUp()
        self.year = Year.new("y")
        self.addCleanup(self.year.close)
        self.year.plan("2026-01-01", "p0.xml", "limits.toml")

    def test_answers_are_values(self) -> None:
        self.year.add("anna", "2026-01-28", {"PAY": Decimal("1000.50"), "CHILDREN": 2})
        self.assertEqual(self.year.work().runs, 1)
        rows = {row.name: row.value for row in self.year.report()}
        self.assertEqual(rows, {"TAX": Decimal("100.05"), "TOTAL": Decimal("100.05")})
        self.assertEqual([step.value for step in self.year.trace("anna", "2026-01")], [Decimal("100.05")] * 2)
        filed = self.year.file("2026-01").amounts()
        self.assertEqual([(amount.name, str(amount.amount)) for amount in filed], [("TAX", "100.05"), ("TOTAL", "100.05")])
        trial = self.year.try_plan("2026-01-01", "p1.xml", "limits.toml")
        self.assertEqual([(value.old, value.new) for value in trial.values], [(Decimal("100.05"), Decimal("250.12"))] * 2)
        self.assertEqual(trial.work, Work(1, trial.work.steps))
        self.year.withdraw("anna", "2026-01")
        self.assertEqual([amount.amount for amount in self.year.owed()], [Decimal("-100.05")] * 2)
        self.year.drop("2026-01-01")
        self.assertEqual(self.year.report(), [])

    def test_refusals_have_a_reason_and_a_message(self) -> None:
        with self.assertRaises(Refused) as raised:
            self.year.withdraw("dora", "2026-01")
        self.assertEqual(raised.exception.reason, "refused edit Absent dora 2026-01")
        self.assertEqual(raised.exception.message, "dora has no run in or on 2026-01")
        with self.assertRaises(Refused) as raised:
            self.year.plan("2026-01-01", "broken.xml", "limits.toml")
        self.assertTrue(raised.exception.reason.startswith("refused plan Element"))
        self.assertIn("-broken.xml:1:6", raised.exception.message)

    def test_a_file_that_is_not_there_ends_nothing(self) -> None:
        for line in ["load nofile", "load .", "plan 2026-02-01 p1.xml nofile"]:
            with self.assertRaises(FileMissing):
                self.year.ask(line)
        self.year.load("t1.csv")
        self.assertEqual(journal_lines("y"), ["plan 2026-01-01 p0.xml limits.toml", "load t1.csv"])

    def test_files_may_have_any_name(self) -> None:
        os.rename("t1.csv", "Löhne Januar.csv")
        self.year.load("Löhne Januar.csv")
        self.assertEqual(journal_lines("y")[-1], "load L_hne_Januar.csv")

    def test_words_are_looked_at(self) -> None:
        for values in [{"PAY": "1 2"}, {"PAY": ""}, {"PAY": 1.5}, {"PAY": True}]:
            with self.assertRaises((Misuse, Refused)):
                self.year.add("anna", "2026-01-28", values)  # type: ignore[arg-type]
        with self.assertRaises(Misuse):
            self.year.withdraw("an na", "2026-01")
        with self.assertRaises(Refused):
            self.year.add("änne", "2026-01-28", {})
        self.assertEqual(self.year.report(), [])

    def test_comments_and_other_spellings_of_a_line(self) -> None:
        self.assertEqual(self.year.ask("# nothing\n"), b"")
        self.assertEqual(self.year.ask("   \n"), b"")
        self.assertEqual(self.year.ask(" add \t anna 2026-01 2026-01-28  PAY=1\r\n"), b"ok\n")
        self.assertEqual(journal_lines("y")[-1], "add anna 2026-01 2026-01-28 PAY=1")
        self.assertEqual(self.year.work().runs, 1)

    def test_a_month_that_is_not_ready_names_all_runs(self) -> None:
        for employee in ["anna", "ben"]:
            self.year.add(employee, "2026-01-28", {})
        self.year.add("chris", "2026-02-28", {})
        with self.assertRaises(NotReady) as raised:
            self.year.file("2026-01")
        waiting = [(run.employee, run.state, run.name) for run in raised.exception.waiting]
        self.assertEqual(waiting, [("anna", "missing", "PAY"), ("ben", "missing", "PAY")])
        self.assertEqual(self.year.filings, [])

    def test_set_keeps_the_other_values(self) -> None:
        self.year.load("t1.csv")
        self.year.set("emil", "2026-01", {"PAY": 2000})
        self.assertEqual(self.year.values("emil", "2026-01"), {"PAY": "2000", "CHILDREN": "1"})
        self.year.set("emil", "2026-01-28", {"CHILDREN": None})
        self.assertEqual(self.year.values("emil", "2026-01"), {"PAY": "2000"})
        self.year.add("emil", "2026-01-10", {"PAY": 1})
        for when in ["2026-01", "2026-02", "2026-02-01"]:
            with self.assertRaises(Misuse):
                self.year.set("emil", when, {"PAY": 1})

    def test_set_all_is_all_or_none(self) -> None:
        self.year.load("t1.csv")
        before = self.year.report()
        with self.assertRaises(Refused):
            self.year.set_all([("dora", "2026-01", {"PAY": 1}), ("emil", "2026-01", {"PAY": "x"})])
        with self.assertRaises(Misuse):
            self.year.set_all([("dora", "2026-01", {"PAY": 1}), ("nobody", "2026-01", {"PAY": 1})])
        self.assertEqual(self.year.report(), before)
        self.assertEqual(self.year.set_all([("dora", "2026-01", {"PAY": 1}), ("dora", "2026-01", {"CHILDREN": 3})]), 2)
        self.assertEqual(self.year.values("dora", "2026-01"), {"PAY": "1", "CHILDREN": "3"})

    def test_show_status_and_totals(self) -> None:
        self.year.load("t1.csv")
        self.year.file("2026-01")
        self.year.set("dora", "2026-01", {"PAY": 2000})
        self.year.add("dora", "2026-02-28", {})
        january, february = self.year.show("dora")
        self.assertEqual((january.amounts["TAX"], january.filed["TAX"], january.owed["TAX"]), (200, 100, 100))
        self.assertEqual((february.state, february.name, february.amounts), ("missing", "PAY", {}))
        self.assertEqual(self.year.show("dora", "2026-02"), [february])
        self.assertEqual(self.year.show("d"), [])
        status = self.year.status()
        self.assertEqual((status.lines, status.runs, status.filed), (5, 4, ("2026-01",)))
        self.assertEqual([cause[:3] for cause in status.causes], [("missing", "PAY", 1)])
        self.assertEqual([put.day for put in status.flowcharts], ["2026-01-01"])
        totals = {(total.month, total.name): (total.reported, total.filed) for total in self.year.totals()}
        self.assertEqual(totals["2026-01", "TAX"], (Decimal("430.00"), Decimal("330.00")))
        self.assertEqual([total.month for total in self.year.totals("2026-02")], [])

    def test_a_run_that_was_taken_away_is_shown_while_it_is_owed(self) -> None:
        self.year.load("t1.csv")
        self.year.file("2026-01")
        self.year.withdraw("dora", "2026-01")
        (run,) = self.year.show("dora")
        self.assertEqual((run.state, run.owed["TAX"]), ("gone", -100))

    def test_export_is_the_report(self) -> None:
        self.year.load("t1.csv")
        self.assertEqual(self.year.export("out.csv"), 6)
        self.assertEqual(Path("out.csv").read_text() + "end\n", self.year.report_text().decode())

    def test_an_amount_that_is_named_ok(self) -> None:
        Path("ok.xml").write_text(Path("p0.xml").read_text().replace("PAY", "ok"))
        Path("ok.toml").write_text(Path("limits.toml").read_text().replace("PAY", "ok"))
        self.year.plan("2026-01-01", "ok.xml", "ok.toml")
        self.year.add("ok", "2026-01-28", {})
        self.assertEqual([run.state for run in self.year.waiting()], ["missing"])


class Books(Case):
    def test_a_saved_book_begins_a_year(self) -> None:
        lines = ["plan 2026-01-01 p0.xml limits.toml", "load t1.csv"]
        Path("january.book").write_text(answered(self.program, lines, "save"))
        with Year.new("y") as year:
            with self.assertRaises(Misuse):
                year.ask("open january.book")
            filing = year.open_book("january.book", "2026-01")
            assert filing is not None
            self.assertEqual(len(filing.amounts()), 6)
            self.assertEqual(year.values("emil", "2026-01"), {"CHILDREN": "1", "PAY": "1100"})
            year.load("t2.csv")
            self.assertEqual({amount.day for amount in year.file("2026-02").amounts()}, {"2026-02-28"})
        with Year("y") as year:
            self.assertEqual([filing.month for filing in year.filings], ["2026-01", "2026-02"])

    def test_a_book_whose_months_cannot_be_filed_is_not_opened(self) -> None:
        Path("january.book").write_text(answered(self.program, ["add anna 2026-01 2026-01-28"], "save"))
        with Year.new("y") as year:
            with self.assertRaises(NotReady):
                year.open_book("january.book", "2026-01")
            self.assertEqual(year.status().runs, 0)
            self.assertIsNone(year.open_book("january.book", None))
            self.assertEqual(year.status().runs, 1)


class RandomScripts(Case):
    def test_a_year_is_what_its_lines_are(self) -> None:
        """The journal has the accepted lines, the report and the answers are those of papcalc alone, and the values of each run are those
        that it saves."""
        for seed in range(12):
            lines = random_script(random.Random(seed), 40)
            folder = f"y{seed}"
            with Year.new(folder) as year:
                for line in lines:
                    try:
                        year.ask(line)
                    except Refused:
                        pass
                kept = kept_lines(self.program, lines)
                self.assertEqual(journal_lines(folder), kept, seed)
                self.assertEqual(year.report_text().decode(), report_of(self.program, kept), seed)
                saved = answered(self.program, [line for line in kept if not line.startswith("file")], "save").splitlines()
                values = {tuple(line.split()[1:3]): line.split()[3:] for line in saved if line.startswith("run ")}
                for (employee, day), words in values.items():
                    given = {name: Decimal(value) for name, value in year.values(employee, day).items()}
                    self.assertEqual(given, {name: Decimal(value) for name, value in (word.split("=") for word in words)}, seed)
                self.assertEqual(sum(len(run) for run in year._store.book.runs.values()), len(values))
            with Year(folder, read_only=True) as again:
                self.assertEqual(again.report_text().decode(), report_of(self.program, kept), seed)


class Programs(Case):
    def test_a_program_that_is_not_there(self) -> None:
        Year.new("y").close()
        with self.assertRaises(ProgramFailed):
            Year("y", program="./no-such-program")

    def test_a_program_that_is_none(self) -> None:
        Path("other").write_text("#!/bin/sh\nexit 3\n")
        os.chmod("other", 0o755)
        Year.new("y").close()
        with Year("y", program="./other") as year, self.assertRaises(ProgramFailed):
            year.work()


if __name__ == "__main__":
    unittest.main()
