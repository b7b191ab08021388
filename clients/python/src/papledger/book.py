"""What the lines of a journal gave the book: the values of each run, and which flowcharts hold. No amount is computed here.

The lines were accepted, so a run that a line means is there. A test compares this with what `papcalc save` writes of the same lines."""
from __future__ import annotations

import csv
import io
from dataclasses import dataclass, field
from typing import Callable, Iterator, Optional, Union

from .errors import Misuse

Values = dict[str, str]
# The values of a run as a line has them, which are read when they are asked for, or as a table had them.
Given = Union[bytes, Values]


@dataclass(frozen=True)
class Flowchart:
    """The files of a flowchart that was put, in the year's folder; None of one that came with a saved book."""

    day: str
    plan: Optional[str]
    limits: Optional[str]


@dataclass
class Book:
    """The runs by employee and day, and the flowcharts by day. `read` gives the content of a file that a line names."""

    read: Callable[[str], bytes]
    runs: dict[str, dict[str, Given]] = field(default_factory=dict)
    flowcharts: dict[str, Flowchart] = field(default_factory=dict)

    def apply(self, line: bytes) -> None:
        """Does what an accepted line did; nothing for a comment or an empty line."""
        word, _, rest = line.strip().partition(b" ")
        if word in (b"add", b"change"):
            self._put(word == b"change", rest)
        elif word in (b"plan", b"drop", b"withdraw", b"load", b"open"):
            getattr(self, f"_{word.decode('ascii')}")(*rest.decode("ascii").split())

    def _put(self, is_change: bool, rest: bytes) -> None:
        fields = rest.split(None, 3)
        employee, month, day = (part.decode("ascii") for part in fields[:3])
        runs = self.runs.setdefault(employee, {})
        if is_change:
            del runs[day if day in runs else only_day(runs, month)]
        runs[day] = fields[3] if len(fields) > 3 else b""

    def _withdraw(self, employee: str, when: str) -> None:
        runs = self.runs[employee]
        del runs[only_day(runs, when)]

    def _plan(self, day: str, plan: str, limits: str) -> None:
        self.flowcharts[day] = Flowchart(day, plan, limits)

    def _drop(self, day: str) -> None:
        del self.flowcharts[day]

    def _load(self, table: str) -> None:
        rows = table_rows(self.read(table))
        names = next(rows)[3:]
        for row in rows:
            self.runs.setdefault(row[0], {})[row[2]] = {name: cell for name, cell in zip(names, row[3:]) if cell}

    def _open(self, saved: str) -> None:
        text = self.read(saved)
        at = text.index(b"plans ")
        count, at = int(text[at + 6:text.index(b"\n", at)]), text.index(b"\n", at) + 1
        for _ in range(count):
            end = text.index(b"\n", at)
            _, day, plan, limits = text[at:end].decode("ascii").split(" ")
            self.flowcharts[day] = Flowchart(day, None, None)
            at = end + 1 + int(plan) + int(limits) + 1
        for line in text[at:].split(b"\n")[1:-2]:
            _, _, run = line.partition(b" ")
            employee, run_day, *words = run.split(b" ", 2)
            self.runs.setdefault(employee.decode("ascii"), {})[run_day.decode("ascii")] = words[0] if words else b""

    def values(self, employee: str, day: str) -> Values:
        """The values that the employee's run of a day was given."""
        given = self.runs[employee][day]
        return values_of(given) if isinstance(given, bytes) else dict(given)

    def find(self, employee: str, when: str) -> str:
        """The day of the run that is meant by a day or a month."""
        runs = self.runs.get(employee, {})
        days = [day for day in runs if when in (day, day[:7])]
        if len(days) != 1:
            raise Misuse(f"{employee} has no run in or on {when}" if not days else
                         f"{employee} has {len(days)} runs in {when}: say which by its day, as {min(days)}")
        return days[0]

    def flowchart_of(self, day: str) -> Optional[Flowchart]:
        """The flowchart that holds on a day: the last that was put up to it in its calendar year."""
        days = [put for put in self.flowcharts if put[:4] == day[:4] and put <= day]
        return self.flowcharts[max(days)] if days else None


def only_day(runs: dict[str, Given], when: str) -> str:
    """The one day of these runs that is this day or lies in this month."""
    return next(day for day in runs if when in (day, day[:7]))


def values_of(words: bytes) -> Values:
    """The values of words NAME=VALUE."""
    return dict(word.split("=", 1) for word in words.decode("ascii").split())


def table_rows(table: bytes) -> Iterator[list[str]]:
    """The rows of a table that papcalc reads, its header first, without empty lines."""
    return (row for row in csv.reader(io.StringIO(table.decode("utf-8-sig"), newline="")) if row)
