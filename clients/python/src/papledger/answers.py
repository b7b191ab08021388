"""Answers of papcalc as values. Amounts are decimals, exactly as they were written."""
from __future__ import annotations

from dataclasses import dataclass
from decimal import Decimal
from typing import Iterator, NamedTuple, Optional


class Amount(NamedTuple):
    """An amount that is filed with a month, or owed."""

    employee: str
    day: str
    name: str
    amount: Decimal


class Row(NamedTuple):
    """A row of a report. A run that isn't ok has one, without a value."""

    employee: str
    month: str
    day: str
    plan: Optional[str]
    state: str
    name: str
    value: Optional[Decimal]


class Waiting(NamedTuple):
    """A run that isn't ok, with its state and the name that the report tells: of an input, or the day of the run that it waits for."""

    employee: str
    day: str
    state: str
    name: str


class Work(NamedTuple):
    """How many runs an edit ran, and their steps."""

    runs: int
    steps: int


class Step(NamedTuple):
    """An executed statement: `set` with a name and its value, `test` with yes or no, `call` with a method."""

    kind: str
    place: str
    name: str
    value: Optional[Decimal]


class Change(NamedTuple):
    """A value of a run before and after a flowchart would be put; None where it isn't there."""

    employee: str
    day: str
    name: str
    old: Optional[Decimal]
    new: Optional[Decimal]


class Changed(NamedTuple):
    """The states of a run before and after a flowchart would be put."""

    employee: str
    day: str
    old: str
    new: str


@dataclass(frozen=True)
class Trial:
    """What would change if a flowchart were put."""

    most_steps: int
    runs: tuple[Changed, ...]
    values: tuple[Change, ...]
    work: Work


@dataclass(frozen=True)
class Filing:
    """A month that was filed, with its answer. The amounts are read from it when they are asked for."""

    month: str
    answer: bytes

    def amounts(self) -> list[Amount]:
        return list(amounts_of(self.answer))


def lines_of(answer: bytes) -> list[str]:
    return answer.decode("ascii", "replace").splitlines()


def amounts_of(answer: bytes) -> Iterator[Amount]:
    """The amounts of an answer to `file` or `owed`, without its last line."""
    for line in lines_of(answer)[:-1]:
        _, employee, day, name, amount = line.split(" ")
        yield Amount(employee, day, name, Decimal(amount))


def row_of(line: str) -> Row:
    employee, month, day, plan, state, name, value = line.split(",")
    return Row(employee, month, day, plan or None, state, name, Decimal(value) if value else None)


def rows_of(answer: bytes) -> Iterator[Row]:
    """The rows of a report, without its first and its last line."""
    return map(row_of, lines_of(answer)[1:-1])


def work_of(answer: bytes) -> Work:
    _, runs, steps = lines_of(answer)[0].split(" ")
    return Work(int(runs), int(steps))


def steps_of(answer: bytes) -> list[Step]:
    found = []
    for line in lines_of(answer)[:-1]:
        kind, place, name, *value = line.split(" ")
        found.append(Step(kind, place, name, Decimal(value[0]) if value else None))
    return found


def most_steps_of(answer: bytes) -> int:
    return int(lines_of(answer)[0].rsplit(" ", 1)[1])


def trial_of(answer: bytes) -> Trial:
    def value(word: str) -> Optional[Decimal]:
        return None if word == "-" else Decimal(word)

    lines = lines_of(answer)
    runs, values = [], []
    for kind, *words in (line.split(" ") for line in lines[1:-1]):
        if kind == "changed":
            runs.append(Changed(*words))
        else:
            values.append(Change(words[0], words[1], words[2], value(words[3]), value(words[4])))
    _, count, steps = lines[-1].split(" ")
    return Trial(most_steps_of(answer), tuple(runs), tuple(values), Work(int(count), int(steps)))
