"""A disk that is full: a small file system in memory where one may be mounted, and a limit of the size of files anywhere."""
from __future__ import annotations

import os
import resource
import subprocess
import unittest
from contextlib import contextmanager
from pathlib import Path
from typing import Iterator

from papledger import NotSaved, Year
from tests.support import Case, journal_lines, report_of


def added(number: int) -> str:
    return f"add e{number} 2026-01 2026-01-28 PAY=100 CHILDREN={number % 10}"


class FullDisk(Case):
    def fill(self, year: Year, lines: list[str]) -> None:
        """Sends lines until one isn't saved. The year is then as it was, in memory and on the disk."""
        with self.assertRaisesRegex(NotSaved, "the year is as it was before"):
            for number in range(len(lines), 100_000):
                year.ask(added(number))
                lines.append(added(number))
        self.assertEqual(journal_lines(year.folder), lines)
        self.assertEqual(year.report_text().decode(), report_of(self.program, lines))

    def goes_on(self, year: Year, lines: list[str]) -> None:
        """There is room again."""
        year.ask(added(len(lines)))
        lines.append(added(len(lines)))
        year.close()
        with Year(year.folder) as again:
            self.assertEqual(again.report_text().decode(), report_of(self.program, lines))

    def test_a_small_file_system(self) -> None:
        Path("disk").mkdir()
        mounted = subprocess.run(["mount", "-t", "tmpfs", "-o", "size=64k", "papledger", "disk"], capture_output=True, check=False)
        if mounted.returncode != 0:
            self.skipTest("no file system can be mounted here")
        self.addCleanup(subprocess.run, ["umount", "-l", os.path.abspath("disk")], check=True)
        ballast = Path("disk/ballast")
        ballast.write_bytes(b"x" * 20_000)
        with Year.new("disk/y") as year:
            lines = ["plan 2026-01-01 p0.xml limits.toml"]
            year.ask(lines[0])
            self.fill(year, lines)
            with self.assertRaises(NotSaved):
                year.load("t1.csv")
            self.assertEqual(journal_lines("disk/y"), lines)
            ballast.unlink()
            self.goes_on(year, lines)

    def test_a_limit_of_size(self) -> None:
        with Year.new("y") as year:
            lines = ["plan 2026-01-01 p0.xml limits.toml"]
            year.ask(lines[0])
            rows = [f"f{number},2026-01,2026-01-28,100" for number in range(100)]
            Path("long.csv").write_text("\n".join(["employee,month,day,PAY", *rows]) + "\n")
            with limited(2_000):
                self.fill(year, lines)
                with self.assertRaises(NotSaved):
                    year.load("long.csv")
                self.assertEqual(list(Path("y/tables").iterdir()), [])
            year.load("long.csv")
            lines.append("load long.csv")
            self.goes_on(year, lines)

    def test_a_folder_that_cannot_be_written(self) -> None:
        if os.geteuid() == 0:
            self.skipTest("the superuser may write everywhere")
        Year.new("y").close()
        os.chmod("y", 0o500)
        self.addCleanup(os.chmod, "y", 0o700)
        with Year("y") as year, self.assertRaises(NotSaved):
            year.load("t1.csv")


@contextmanager
def limited(size: int) -> Iterator[None]:
    """No file may be longer."""
    before, hard = resource.getrlimit(resource.RLIMIT_FSIZE)
    resource.setrlimit(resource.RLIMIT_FSIZE, (size, hard))
    try:
        yield
    finally:
        resource.setrlimit(resource.RLIMIT_FSIZE, (before, hard))


if __name__ == "__main__":
    unittest.main()
