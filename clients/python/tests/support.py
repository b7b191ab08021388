"""What the tests share: small flowcharts, random scripts, and papcalc alone, with which a year is compared."""
from __future__ import annotations

import os
import random
import subprocess
import tempfile
import unittest
from pathlib import Path
from typing import Sequence

from papledger.program import find_program
from papledger.script import KEPT

PLAN = """<PAP><INTERFACE>
<INPUTS><INPUT name="PAY" type="BigDecimal"/><INPUT name="CHILDREN" type="int" default="0"/><INPUT name="SO_FAR" type="BigDecimal"/></INPUTS>
<OUTPUTS><OUTPUT name="TAX" type="BigDecimal"/><OUTPUT name="TOTAL" type="BigDecimal"/></OUTPUTS>
</INTERFACE><METHODS><MAIN><EVAL exec="TAX= PAY.multiply(BigDecimal.valueOf(RATE)).setScale(2, BigDecimal.ROUND_DOWN)"/>
<EVAL exec="TOTAL= SO_FAR.add(TAX)"/></MAIN></METHODS></PAP>
"""
LIMITS = """input.PAY = { low = 0, high = 9000, places = 2 }
input.CHILDREN = { low = 0, high = 9, places = 0 }
input.SO_FAR = { low = 0, high = 100000000, places = 2 }
bind.SO_FAR = { kind = "sum", output = "TAX" }
"""
RATES = ["0.1", "0.25", "0.14"]
EMPLOYEES = ["anna", "ben", "chris", "c.h-r_is"]


class Case(unittest.TestCase):
    """A test in a folder of its own, which is the working folder and has the files of the random scripts."""

    def setUp(self) -> None:
        self.program = find_program(None)
        before = os.getcwd()
        folder = tempfile.TemporaryDirectory(prefix="papledger-")
        self.addCleanup(folder.cleanup)
        self.addCleanup(os.chdir, before)
        os.chdir(folder.name)
        write_files(Path(folder.name))


def write_files(folder: Path) -> None:
    """The files that the lines of a random script name."""
    for number, rate in enumerate(RATES):
        (folder / f"p{number}.xml").write_text(PLAN.replace("RATE", rate))
    (folder / "limits.toml").write_text(LIMITS)
    (folder / "broken.xml").write_text("<PAP>")
    for month in range(1, 4):
        rows = [f"{name},2026-{month:02d},2026-{month:02d}-28,{1000 * month + 100 * at},{at}" for at, name in enumerate(["dora", "emil", "fay"])]
        (folder / f"t{month}.csv").write_text("\n".join(["employee,month,day,PAY,CHILDREN", *rows]) + "\n")


def answered(program: str, lines: Sequence[str], word: str = "run", folder: str = ".") -> str:
    """What papcalc alone writes for these lines, begun in a folder."""
    done = subprocess.run([program, word], input="".join(f"{line}\n" for line in lines), cwd=folder, capture_output=True, text=True, timeout=60,
                          check=False)
    return done.stdout


def report_of(program: str, lines: Sequence[str], folder: str = ".") -> str:
    """The report behind these lines, as papcalc alone writes it."""
    said = answered(program, [*lines, "report"], folder=folder)
    return said[said.rindex("employee,month,day,"):]


def random_line(rng: random.Random) -> str:
    """A line that papcalc accepts more often than not."""
    employee, month = rng.choice(EMPLOYEES), rng.randint(1, 3)
    day = f"2026-{month:02d}-{rng.choice([10, 28])}"
    values = rng.choice(["PAY=1000", "PAY=4711.50", "PAY=8999.99 CHILDREN=2", "PAY=007.50", "PAY=100 CHILDREN=1"])
    kind = rng.choice(["add"] * 8 + ["change"] * 4 + ["withdraw", "load", "load", "plan", "drop", "file", "broken", "owed"])
    if kind in ("add", "change"):
        return f"{kind} {employee} 2026-{month:02d} {day} {values}"
    return {
        "withdraw": f"withdraw {employee} 2026-{month:02d}", "load": f"load t{month}.csv",
        "plan": f"plan 2026-{month:02d}-01 p{rng.randrange(len(RATES))}.xml limits.toml", "drop": f"drop 2026-{rng.randint(2, 3):02d}-01",
        "file": f"file 2026-{month:02d}", "broken": "plan 2026-01-01 broken.xml limits.toml", "owed": "owed",
    }[kind]


def random_script(rng: random.Random, count: int) -> list[str]:
    return ["plan 2026-01-01 p0.xml limits.toml", *(random_line(rng) for _ in range(count - 1))]


def are_kept(program: str, lines: Sequence[str], folder: str = ".") -> list[bool]:
    """Of each line, whether papcalc accepts it, and it changes something."""
    answers = iter(answered(program, lines, folder=folder).splitlines())
    kept = []
    for line in lines:
        word, answer = line.split()[0], next(answers)
        last = {"file": "filed", "owed": "end"}.get(word)
        is_refused = answer.startswith("refused ")
        while last and not is_refused and answer.split()[0] != last:
            answer = next(answers)
        kept.append(word in KEPT and not is_refused)
    return kept


def kept_lines(program: str, lines: Sequence[str]) -> list[str]:
    return [line for line, is_kept in zip(lines, are_kept(program, lines)) if is_kept]


def without_sums(lines: Sequence[str]) -> list[str]:
    """The lines of a journal with the names that the files had before they were copied."""
    def name(word: str) -> str:
        return word.split("-", 1)[1] if word.startswith(("flowcharts/", "tables/")) else word
    return [" ".join(name(word) for word in line.split()) for line in lines]


def journal_lines(folder: str) -> list[str]:
    """The lines of a year's journal, with the names that the files had."""
    lines = Path(folder, "year.script").read_text(encoding="ascii").splitlines()
    return without_sums([line for line in lines if not line.startswith("#")])
