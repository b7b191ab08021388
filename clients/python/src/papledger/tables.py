"""Tables that papledger reads itself: values to set for many runs, and the employees of a year of several parts."""
from __future__ import annotations

import csv
import re
from typing import Iterator

from .book import Values, table_rows
from .copies import read_named
from .errors import Misuse

EMPLOYEE = re.compile(r"[A-Za-z0-9_.-]{1,32}")


def rows_to_set(path: str) -> Iterator[tuple[str, str, Values]]:
    """The rows of a table `employee,when,NAME ..` or `employee,month,day,NAME ..`: an employee, a day or a month, and the values of the
    cells that aren't empty. Where the day is empty the month is meant."""
    rows = rows_of_file(path)
    header = rows[0] if rows else []
    first = 2 if header[:2] == ["employee", "when"] else 3
    if first == 3 and header[:3] != ["employee", "month", "day"]:
        raise Misuse(f"{path}: the first row has to be employee,when or employee,month,day, and then names of inputs, with commas between")
    for number, row in enumerate(rows[1:], 1):
        if len(row) != len(header):
            raise Misuse(f"{path}: row {number} has {len(row)} fields, and the first row {len(header)}; nothing was set")
        yield row[0], row[first - 1] or row[1], {name: cell for name, cell in zip(header[first:], row[first:]) if cell}


def rows_of_file(path: str) -> list[list[str]]:
    """The rows of a table with commas, its header first."""
    try:
        return list(table_rows(read_named(path)))
    except (UnicodeDecodeError, csv.Error) as fault:
        raise Misuse(f"{path} is not a table of UTF-8 with commas: {fault}") from fault


def employees_of(path: str) -> list[str]:
    """The employees of a table in order of bytes, each once."""
    rows = rows_of_file(path)
    if not rows or rows[0][:3] != ["employee", "month", "day"]:
        raise Misuse(f"{path}: the first row isn't employee,month,day and then names of inputs, with commas between them")
    employees = sorted({row[0] for row in rows[1:]})
    wrong = next((employee for employee in employees if not EMPLOYEE.fullmatch(employee)), None)
    if wrong is not None:
        raise Misuse(f"{path}: `{wrong}` can't be an employee: 1 to 32 letters of ASCII, digits, `_`, `-` and `.`")
    return employees
