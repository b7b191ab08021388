"""What is read off a report and off the filings: one employee's runs, the state of a year, and its sums."""
from __future__ import annotations

import os
from collections import Counter
from dataclasses import dataclass
from decimal import Decimal
from typing import Iterable, NamedTuple, Optional, Sequence

from . import disk
from .answers import Amount, Filing, Waiting, Work, row_of
from .book import Flowchart, Values
from .errors import NotSaved


@dataclass(frozen=True)
class Run:
    """What there is of a run. `amounts` is empty where the run isn't ok."""

    employee: str
    day: str
    state: str
    name: str
    flowchart: Optional[Flowchart]
    values: Values
    amounts: dict[str, Decimal]
    filed: dict[str, Decimal]
    owed: dict[str, Decimal]


class Cause(NamedTuple):
    """Why runs aren't ok: how many they are, and the first of them."""

    state: str
    name: str
    runs: int
    employee: str
    day: str


@dataclass(frozen=True)
class Status:
    """Where a year stands."""

    lines: int
    runs: int
    causes: tuple[Cause, ...]
    filed: tuple[str, ...]
    work: Work
    flowcharts: tuple[Flowchart, ...]


class Total(NamedTuple):
    """The sum of an output over the runs of a month as they are now, and the sum that was filed with that month, corrections of earlier
    months among it; None where the month wasn't filed."""

    month: str
    name: str
    reported: Decimal
    filed: Optional[Decimal]


def report_lines(report: bytes) -> list[bytes]:
    """The rows of a report, without its first line and `end`."""
    return report.split(b"\n")[1:-2]


def waiting_of(report: bytes, month: Optional[str] = None) -> list[Waiting]:
    """The runs that aren't ok; up to the end of a month where one is said."""
    found = []
    for line in report_lines(report):
        if line.split(b",", 5)[4] != b"ok":
            row = row_of(line.decode("ascii"))
            if month is None or row.day[:7] <= month:
                found.append(Waiting(row.employee, row.day, row.state, row.name))
    return found


def causes_of(waiting: Iterable[Waiting]) -> tuple[Cause, ...]:
    """The runs that aren't ok by cause. One that waits for another is counted apart from the day that it waits for."""
    first: dict[tuple[str, str], Waiting] = {}
    count: Counter[tuple[str, str]] = Counter()
    for run in waiting:
        key = (run.state, "-" if run.state in ("waits", "noplan") else run.name)
        first.setdefault(key, run)
        count[key] += 1
    return tuple(Cause(*key, count[key], run.employee, run.day) for key, run in sorted(first.items()))


def count_runs(report: bytes) -> int:
    """How many runs a report has: the rows of one stand together."""
    count, last = 0, b""
    for line in report_lines(report):
        employee, _, day = line.split(b",", 3)[:3]
        run = employee + b"," + day
        if run != last:
            count, last = count + 1, run
    return count


def totals_of(report: bytes, filings: Sequence[Filing], month: Optional[str]) -> list[Total]:
    """The sums by month and output, in order of month and of the names in the report."""
    reported: dict[tuple[str, str], Decimal] = {}
    for line in report_lines(report):
        _, at, _, _, state, name, value = line.decode("ascii").split(",")
        if state == "ok" and month in (None, at):
            reported[at, name] = reported.get((at, name), Decimal(0)) + Decimal(value)
    filed: dict[tuple[str, str], Decimal] = {}
    months = {filing.month for filing in filings}
    for filing in filings:
        if month in (None, filing.month):
            for amount in filing.amounts():
                key = (filing.month, amount.name)
                filed[key] = filed.get(key, Decimal(0)) + amount.amount
    keys = dict.fromkeys([*reported, *filed])
    zero = Decimal(0)
    return [Total(at, name, reported.get((at, name), zero), filed.get((at, name), zero) if at in months else None)
            for at, name in sorted(keys, key=lambda key: key[0])]


def status_of(parts: Sequence[Status]) -> Status:
    """Where the parts of a year stand together."""
    causes: dict[tuple[str, str], Cause] = {}
    for cause in (cause for part in parts for cause in part.causes):
        key = (cause.state, cause.name)
        causes[key] = causes[key]._replace(runs=causes[key].runs + cause.runs) if key in causes else cause
    work = Work(sum(part.work.runs for part in parts), sum(part.work.steps for part in parts))
    return Status(sum(part.lines for part in parts), sum(part.runs for part in parts), tuple(causes[key] for key in sorted(causes)),
                  parts[0].filed, work, parts[0].flowcharts)


def sum_totals(parts: Sequence[Sequence[Total]]) -> list[Total]:
    """The totals of parts added up, in order of month."""
    found: dict[tuple[str, str], Total] = {}
    for total in (total for part in parts for total in part):
        key = (total.month, total.name)
        before = found.get(key)
        filed = total.filed if before is None else add(before.filed, total.filed)
        found[key] = total._replace(reported=total.reported + (before.reported if before else 0), filed=filed)
    return sorted(found.values(), key=lambda total: total.month)


def add(one: Optional[Decimal], other: Optional[Decimal]) -> Optional[Decimal]:
    return one if other is None else other if one is None else one + other


def export(report: bytes, path: str) -> int:
    """Writes a report as a CSV file, whole or not at all, and gives the number of its rows."""
    lines = report.split(b"\n")[:-2]
    try:
        disk.put_file(os.path.abspath(path), b"\n".join(lines) + b"\n")
    except OSError as fault:
        raise NotSaved(f"{path} can't be written: {fault.strerror}") from fault
    return len(lines) - 1


def sums_of(amounts: Iterable[Amount], employee: str) -> dict[str, dict[str, Decimal]]:
    """The amounts of an employee by day and name, added up."""
    found: dict[str, dict[str, Decimal]] = {}
    for amount in amounts:
        if amount.employee == employee:
            of_day = found.setdefault(amount.day, {})
            of_day[amount.name] = of_day.get(amount.name, Decimal(0)) + amount.amount
    return found
