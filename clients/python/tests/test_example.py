"""The small year in examples/year, and the command on it as a user would type it."""
from __future__ import annotations

import os
import subprocess
import sys
import unittest
from decimal import Decimal
from pathlib import Path

from papledger import Year
from papledger.program import find_program
from tests.support import Case

TOP = Path(__file__).resolve().parents[3]


class SmallYear(Case):
    def test_from_an_empty_folder_to_december(self) -> None:
        folder = os.path.abspath("2026")
        Path("papledger").write_text(f"#!/bin/sh\nexec '{sys.executable}' '{TOP}/clients/python/papledger' \"$@\"\n")
        os.chmod("papledger", 0o755)
        environment = {**os.environ, "PATH": f"{os.getcwd()}:{os.environ['PATH']}", "PAPCALC": find_program(None)}
        done = subprocess.run(["examples/year/year.sh", folder], cwd=TOP, env=environment, capture_output=True, text=True, check=False)
        self.assertEqual((done.returncode, done.stderr), (0, ""))
        wanted = (TOP / "examples" / "year" / "totals.csv").read_text()
        self.assertTrue(done.stdout.endswith(f"filed 3\nend\n{wanted}"), done.stdout)
        with Year(folder) as year:
            filed = [amount for filing in year.filings for amount in filing.amounts()]
            sums = {name: sum(amount.amount for amount in filed if amount.name == name) for name in ("TAX", "CHURCH_TAX")}
            self.assertEqual(sums, {"TAX": Decimal(738_000), "CHURCH_TAX": Decimal(35_280)})
            self.assertEqual(year.owed(), [])


if __name__ == "__main__":
    unittest.main()
