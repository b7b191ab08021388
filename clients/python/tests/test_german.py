"""German exports as tables."""
from __future__ import annotations

import unittest
from pathlib import Path

from papledger import Misuse, Year
from papledger.german import day_of, make_table, month_of, number_of
from tests.support import Case

EXPORT = "Personalnummer;Abrechnungstag;Brutto €;Kinder;Bemerkung\r\n4711;28.01.2026;1.234,56;1;Zulage für März\r\n4712;28.1.2026;10,5-;;\r\n;;;;\r\n"
COLUMNS = """# what the columns are
Personalnummer = employee
Abrechnungstag = day
Brutto € = PAY * 2
Kinder = CHILDREN
Bemerkung =
"""


class Cells(unittest.TestCase):
    def test_numbers(self) -> None:
        for cell, number in {"1.234,56": "1234.56", "1234,5": "1234.5", "0,50": "0.50", "7": "7", "12,50-": "-12.50", "-3": "-3",
                             "1.234.567,00": "1234567.00", "1.234": None, "1,234.5": None, "1.23,4": None, "12.5": None, "": None, "--1": None,
                             "1 234": None, "1e3": None, "½": None}.items():
            self.assertEqual(number_of(cell), number, cell)

    def test_days_and_months(self) -> None:
        for cell, day in {"31.01.2026": "2026-01-31", "1.2.2026": "2026-02-01", "2026-01-31": "2026-01-31", "31.01.26": None,
                          "01/31/2026": None}.items():
            self.assertEqual(day_of(cell), day, cell)
        for cell, month in {"01.2026": "2026-01", "1/2026": "2026-01", "2026-01": "2026-01", "31.01.2026": "2026-01", "Januar": None}.items():
            self.assertEqual(month_of(cell), month, cell)


class Exports(Case):
    def made(self, export: str, columns: str = COLUMNS, encoding: str = "cp1252") -> str:
        Path("export.csv").write_bytes(export.encode(encoding))
        Path("columns").write_bytes(columns.encode(encoding))
        name, self.changes = make_table("export.csv", True, "columns")
        return Path(name).read_text()

    def test_a_table_is_made_beside_it_and_loaded(self) -> None:
        text = self.made(EXPORT.replace("10,5-", "10,5"))
        self.assertEqual(text, "employee,month,day,PAY,CHILDREN\n4711,2026-01,2026-01-28,2469.12,1\n4712,2026-01,2026-01-28,21,\n")
        self.assertIn("the text was read as Latin-1", self.changes)
        self.assertIn("the column Brutto € is PAY, times 2", self.changes)
        self.assertIn("the column Bemerkung is left out", self.changes)
        self.assertIn("a number is written with a point: PAY (2 times)", self.changes)
        with Year.new("y") as year:
            year.load("export.papcalc.csv")
            self.assertEqual(year.values("4711", "2026-01"), {"PAY": "2469.12", "CHILDREN": "1"})

    def test_a_value_that_each_row_gets(self) -> None:
        text = self.made(EXPORT, COLUMNS.replace("Kinder = CHILDREN", "Kinder =\nCHILDREN = 2"))
        self.assertEqual(text.splitlines()[:2], ["employee,month,day,PAY,CHILDREN", "4711,2026-01,2026-01-28,2469.12,2"])
        self.assertIn("each row has CHILDREN=2", self.changes)
        with self.assertRaises(Misuse):
            self.made(EXPORT, COLUMNS + "CHILDREN = 2\n")

    def test_utf_8_is_read_as_such(self) -> None:
        text = self.made("\ufeff" + EXPORT, encoding="utf-8")
        self.assertIn("4712,2026-01,2026-01-28,-21,\n", text)
        self.assertNotIn("the text was read as Latin-1", self.changes)

    def test_all_faults_are_told_at_once(self) -> None:
        rows = ["Müller;28.01.2026;1;;", "4711;28.01.26;1;;", "4712;28.01.2026;1.234;x;", "4713;28.01.2026"]
        with self.assertRaises(Misuse) as raised:
            self.made("\n".join([EXPORT.splitlines()[0], *rows]))
        lines = str(raised.exception).splitlines()
        self.assertEqual(len(lines), 6)
        self.assertIn("row 1: `Müller` can't be an employee", lines[1])
        self.assertIn("row 3, PAY: `1.234` isn't a number: 1.234 may be 1234 or 1,234", lines[3])
        self.assertFalse(Path("export.papcalc.csv").exists())

    def test_columns_that_are_wrong(self) -> None:
        for columns in ["Nummer = employee", "Personalnummer employee", "Kinder = a b", "Kinder = PAY\nKinder = PAY",
                        "Kinder = employee\nPersonalnummer = employee", "Personalnummer = employee"]:
            with self.assertRaises(Misuse):
                self.made(EXPORT, columns)
        for export in ["", "\n\n"]:
            with self.assertRaises(Misuse):
                self.made(export)

    def test_columns_alone(self) -> None:
        Path("export.csv").write_text("Nr,day,PAY\n1,2026-01-28,12.50\n")
        Path("columns").write_text("Nr = employee\n")
        self.assertEqual(Path(make_table("export.csv", False, "columns")[0]).read_text(), "employee,month,day,PAY\n1,2026-01,2026-01-28,12.50\n")


if __name__ == "__main__":
    unittest.main()
