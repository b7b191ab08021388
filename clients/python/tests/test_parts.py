"""A year of several parts against one year of the same lines."""
from __future__ import annotations

import random
import unittest
from pathlib import Path

from papledger import Busy, Damaged, LedgerError, Misuse, NotReady, NotSaved, Parts, Refused, Year
from tests.faults import CALLS, describe, fault
from tests.support import Case, random_script

EMPLOYEES = "employee,month,day\nanna,2026-01,2026-01-28\nben,2026-01,2026-01-28\nchris,2026-01,2026-01-28\ndora,2026-01,2026-01-28\n"
LINES = ["plan 2026-01-01 p0.xml limits.toml", "load t1.csv", "file 2026-01"]


class SeveralParts(Case):
    def setUp(self) -> None:
        super().setUp()
        Path("employees.csv").write_text(EMPLOYEES)

    def test_the_parts(self) -> None:
        Parts.new("y", "employees.csv", 2).close()
        self.assertEqual(Path("y/year.parts").read_text(), "part-0001\npart-0002 chris\n")
        with Parts("y") as parts:
            for employee, part in [("-", 1), ("ben", 1), ("c", 1), ("chris", 2), ("zoe", 2)]:
                self.assertEqual(parts.year_of(employee).folder[-1], str(part))
            with self.assertRaises(Busy):
                Parts("y")
        with self.assertRaises(LedgerError):
            Parts.new("y", "employees.csv")
        for table in [b"", b"employee\n", b"employee,month,day\nm\xfcller,,\n", "employee,month,day\nmüller,,\n".encode()]:
            Path("wrong.csv").write_bytes(table)
            with self.assertRaises(Misuse):
                Parts.new("z", "wrong.csv")
        self.assertFalse(Path("z").exists())

    def test_as_one_year(self) -> None:
        """Answers, reports, states and sums are those of one year."""
        for seed in range(5):
            with Year.new(f"one{seed}") as one, Parts.new(f"all{seed}", "employees.csv", 2) as parts:
                for line in [*random_script(random.Random(seed), 40), "file 2026-03", "owed", "try 2026-01-01 p2.xml limits.toml", "report"]:
                    self.assertEqual(self.answer(one, line), self.answer(parts, line), (seed, line))
                self.assertEqual(parts.totals(), one.totals())
                self.assertEqual(parts.show("chris"), one.show("chris"))
                all_parts, single = parts.status(), one.status()
                self.assertEqual((all_parts.runs, all_parts.causes, all_parts.filed), (single.runs, single.causes, single.filed))

    def answer(self, year: "Year | Parts", line: str) -> bytes:
        try:
            return year.ask(line)
        except Refused as refused:
            return refused.reason.encode()

    def test_a_month_is_filed_in_all_parts_or_in_none(self) -> None:
        with Parts.new("y", "employees.csv", 1) as parts:
            parts.ask(LINES[0])
            parts.ask(LINES[1])
            parts.ask("add ben 2026-01 2026-01-28")
            parts.ask("add anna 2026-01 2026-01-28")
            with self.assertRaises(NotReady) as raised:
                parts.ask(LINES[2])
            self.assertEqual([run.employee for run in raised.exception.waiting], ["anna", "ben"])
            self.assertEqual(parts.status().filed, ())
            self.assertEqual(parts.set_all([("ben", "2026-01", {"PAY": 1}), ("anna", "2026-01", {"PAY": 2})]), 2)
            self.assertTrue(parts.ask(LINES[2]).endswith(b"filed 10\n"))

    def test_values_of_many(self) -> None:
        with Parts.new("y", "employees.csv", 1) as parts:
            for line in LINES[:2]:
                parts.ask(line)
            before = parts.report_text()
            with self.assertRaises((Misuse, Refused)):
                parts.set_all([("dora", "2026-01", {"PAY": 1}), ("nobody", "2026-01", {"PAY": 1})])
            self.assertEqual(parts.report_text(), before)
            self.assertFalse(Path("y/year.intent").exists())

    def test_each_call_fails_once(self) -> None:
        """A line that all parts do is then done in all of them or in none."""
        cuts = 0
        for call in CALLS:
            for number in range(1, 200):
                folder = f"{call}{number}"
                with Parts.new(folder, "t1.csv", 2) as parts:
                    parts.ask(LINES[0])
                    try:
                        with fault(call, number, stays=True) as failing:
                            parts.ask(LINES[1])
                    except NotSaved:
                        pass
                if not failing.has_failed:
                    break
                cuts += 1
                if Path(folder, "year.intent").exists():
                    with self.assertRaisesRegex(Damaged, "in the midst of a line"):
                        Year(f"{folder}/part-0001")
                with Parts(folder) as parts:
                    self.assertIn(parts.status().runs, (0, 3), describe(call, number, True, False))
                    if not parts.status().runs:
                        parts.ask(LINES[1])
                    self.assertTrue(parts.ask(LINES[2]).endswith(b"filed 6\n"))
        self.assertGreater(cuts, 10)


if __name__ == "__main__":
    unittest.main()
