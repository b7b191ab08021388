"""A power cut at each call of the system: what was told done is there, and perhaps the line in flight."""
from __future__ import annotations

import random
import shutil
import unittest
from contextlib import suppress
from pathlib import Path
from unittest import mock

from papledger import Year
from tests.power import LossyOs, PowerCut
from tests.support import Case, journal_lines, report_of

# Lines, and in their midst a batch.
GROUPS = [["plan 2026-01-01 p0.xml limits.toml"], ["load t1.csv"], ["add anna 2026-01 2026-01-28 PAY=1", "add ben 2026-01 2026-01-28 PAY=2"],
          ["file 2026-01"], ["load t2.csv"]]
DRAWS = 4


class PowerCuts(Case):
    def run_until(self, number: int) -> LossyOs:
        """A year of the lines, cut at this call; `self.done` is the number of groups that were told done."""
        shutil.rmtree("y", ignore_errors=True)
        self.done = 0
        self.begun = False
        lossy = LossyOs("y", number)
        with mock.patch("papledger.disk.os", lossy), suppress(PowerCut), Year.new("y") as year:
            self.begun = True
            for group in GROUPS:
                with year.batch():
                    for line in group:
                        year.ask(line)
                self.done += 1
        return lossy

    def test_a_power_cut(self) -> None:
        cuts = 0
        for number in range(1, 1000):
            lossy = self.run_until(number)
            if not lossy.is_cut:
                break
            for draw in range(DRAWS):
                shutil.rmtree("after", ignore_errors=True)
                lossy.leave("after", random.Random(f"{number} {draw}"))
                self.check(f"call {number}, draw {draw}")
                cuts += 1
        self.assertGreater(cuts, 100)

    def check(self, says: str) -> None:
        if not Path("after/year.script").exists():
            self.assertFalse(self.begun, says)
            return
        with Year("after") as year:
            there = journal_lines("after")
            self.assertIn(there, [sum(GROUPS[:count], []) for count in (self.done, self.done + 1)], says)
            self.assertEqual(year.report_text().decode(), report_of(self.program, there), says)


if __name__ == "__main__":
    unittest.main()
