"""Tables as payroll programs export them in Germany, made into tables that papcalc reads.

With `german`, fields stand between semicolons, the text may be Latin-1, decimals have a comma and perhaps points between thousands, a minus
may stand behind, and dates are written 31.01.2026. A file of columns says what each column is. A cell that can be read in two ways is an
error: nothing is guessed."""
from __future__ import annotations

import csv
import io
import os
import re
from collections import Counter
from dataclasses import dataclass, field
from decimal import Decimal
from typing import Callable, NamedTuple, Optional, Sequence

from . import disk
from .copies import read_named
from .errors import Misuse, NotSaved
from .tables import EMPLOYEE

KEYS = ("employee", "month", "day")
NUMBER = re.compile(r"-?\d+(,\d+)?|-?\d{1,3}(\.\d{3})+,\d+", re.ASCII)
# 1.234 is a thousand and some in one country, and one and some in another.
TWO_WAYS = re.compile(r"-?\d{1,3}(\.\d{3})+", re.ASCII)
PLAIN = re.compile(r"-?\d+(\.\d+)?", re.ASCII)
DAY = re.compile(r"\d{4}-\d{2}-\d{2}", re.ASCII)
GERMAN_DAY = re.compile(r"(\d{1,2})\.(\d{1,2})\.(\d{4})", re.ASCII)
GERMAN_MONTH = re.compile(r"(\d{1,2})[./](\d{4})", re.ASCII)
COLUMN = re.compile(r"([A-Za-z_]\w*|)(?:\s*\*\s*(\d+(?:\.\d+)?))?", re.ASCII)
MOST_FAULTS = 20


class Column(NamedTuple):
    """What a column of an export becomes: a column of the table, its numbers times a factor; no column where the name is empty."""

    name: str
    factor: Decimal = Decimal(1)


@dataclass(frozen=True)
class Columns:
    """What a file of columns says: what the columns of the export become, and the values that each row gets besides."""

    named: dict[str, Column] = field(default_factory=dict)
    fixed: dict[str, str] = field(default_factory=dict)


@dataclass
class Report:
    """What was changed, each kind with its number, and what can't be read."""

    changes: Counter[str] = field(default_factory=Counter)
    faults: list[str] = field(default_factory=list)

    def lines(self) -> list[str]:
        return [f"{text} ({count} {'time' if count == 1 else 'times'})" if count else text for text, count in self.changes.items()]


def read_columns(path: str) -> Columns:
    """A file of columns, with a line for each: `Personalnummer = employee`; `Brutto = PAY * 100` for an amount in euros that the flowchart
    takes in cents; `Bemerkung =` for a column that is left out; `PERIOD = 2` for a value that each row gets. Empty lines and those that begin
    with # say nothing."""
    columns = Columns()
    for number, line in enumerate(decoded(read_named(path))[0].splitlines(), 1):
        text = line.strip()
        if not text or text.startswith("#"):
            continue
        left, mark, right = (part.strip() for part in text.partition("="))
        column = COLUMN.fullmatch(right)
        if left in columns.named or left in columns.fixed:
            raise Misuse(f"{path}, line {number}: {left} stands twice")
        if mark and left and PLAIN.fullmatch(right):
            columns.fixed[left] = right
        elif mark and left and column:
            columns.named[left] = Column(column[1], Decimal(column[2] or 1))
        else:
            raise Misuse(f"{path}, line {number}: `{text}` isn't as `Brutto = PAY`, `Brutto = PAY * 100`, `Bemerkung =` or `PERIOD = 2`")
    return columns


def decoded(content: bytes) -> tuple[str, str]:
    """The text, and what it was written in: UTF-8 where it can be that, else Latin-1 as Windows has it, with the euro's sign."""
    try:
        return content.decode("utf-8-sig"), "UTF-8"
    except UnicodeDecodeError:
        return content.decode("cp1252", "replace"), "Latin-1"


def day_of(cell: str) -> Optional[str]:
    """A day as papcalc has it; None where the cell isn't one."""
    found = GERMAN_DAY.fullmatch(cell)
    if found:
        return f"{found[3]}-{int(found[2]):02d}-{int(found[1]):02d}"
    return cell if DAY.fullmatch(cell) else None


def month_of(cell: str) -> Optional[str]:
    """A month as papcalc has it, also of a day in it."""
    found = GERMAN_MONTH.fullmatch(cell)
    if found:
        return f"{found[2]}-{int(found[1]):02d}"
    if DAY.fullmatch(f"{cell}-01"):
        return cell
    day = day_of(cell)
    return day[:7] if day else None


def number_of(cell: str) -> Optional[str]:
    """A number with a point; None where the cell isn't one, or can be read in two ways."""
    text = "-" + cell[:-1] if cell.endswith("-") and not cell.startswith("-") else cell
    if TWO_WAYS.fullmatch(text) or not NUMBER.fullmatch(text):
        return None
    return text.replace(".", "").replace(",", ".")


def plain_number(cell: str) -> Optional[str]:
    return cell if PLAIN.fullmatch(cell) else None


class Maker:
    """Makes a table of an export."""

    def __init__(self, german: bool, columns: Columns) -> None:
        self.columns = columns
        self.report = Report()
        self._number = number_of if german else plain_number
        self._delimiter = ";" if german else ","
        self._is_german = german

    def table(self, content: bytes) -> str:
        """The table's text. `report` says what was changed, and has the faults where there are some."""
        text, encoding = decoded(content)
        if encoding != "UTF-8":
            self._note(f"the text was read as {encoding}")
        rows = [row for row in csv.reader(io.StringIO(text, newline=""), delimiter=self._delimiter) if any(cell.strip() for cell in row)]
        if not rows:
            raise Misuse("the file has no row")
        header = self._header([cell.strip() for cell in rows[0]])
        names = [*KEYS, *(column.name for column in header if column.name and column.name not in KEYS), *self.columns.fixed]
        made = [names, *(self._row(number, header, row) for number, row in enumerate(rows[1:], 1))]
        out = io.StringIO()
        csv.writer(out, lineterminator="\n").writerows(made)
        return out.getvalue()

    def _note(self, text: str, count: int = 0) -> None:
        self.report.changes[text] += count

    def _fault(self, text: str) -> None:
        self.report.faults.append(text)

    def _header(self, cells: Sequence[str]) -> list[Column]:
        """What each column becomes. One that the file of columns doesn't name keeps its name."""
        unknown = [theirs for theirs in self.columns.named if theirs not in cells]
        if unknown:
            raise Misuse(f"the file has no column {unknown[0]}; its columns are {', '.join(cells)}")
        found = [self.columns.named.get(cell, Column(cell)) for cell in cells]
        for cell, column in zip(cells, found):
            if column.name != cell:
                self._note(f"the column {cell} is left out" if not column.name else f"the column {cell} is {column.name}"
                           + (f", times {column.factor}" if column.factor != 1 else ""))
        for name, value in self.columns.fixed.items():
            self._note(f"each row has {name}={value}")
        names = [column.name for column in found if column.name] + list(self.columns.fixed)
        if len(set(names)) < len(names):
            raise Misuse(f"two columns are {next(name for name in names if names.count(name) > 1)}")
        if "employee" not in names or "day" not in names:
            raise Misuse(f"no column is {'employee' if 'employee' not in names else 'day'}; the columns are {', '.join(cells)}: say which it is "
                         "in a file of columns (--columns), by a line as `Personalnummer = employee`")
        if "month" not in names:
            self._note("there is no column month: it is that of the day")
        return found

    def _row(self, number: int, header: Sequence[Column], row: Sequence[str]) -> list[str]:
        if len(row) != len(header):
            self._fault(f"row {number} has {len(row)} fields, and the first row {len(header)}")
            return []
        keys = dict.fromkeys(KEYS, "")
        values = []
        for column, cell in zip(header, row):
            if column.name in KEYS:
                keys[column.name] = self._key(number, column.name, cell.strip())
            elif column.name:
                values.append(self._value(number, column, cell.strip()))
        return [keys["employee"], keys["month"] or keys["day"][:7], keys["day"], *values, *self.columns.fixed.values()]

    def _key(self, number: int, name: str, cell: str) -> str:
        if name == "employee":
            if not EMPLOYEE.fullmatch(cell):
                self._fault(f"row {number}: `{cell}` can't be an employee: 1 to 32 letters of ASCII, digits, `_`, `-` and `.`; take a number")
            return cell
        read: Callable[[str], Optional[str]] = day_of if name == "day" else month_of
        return self._read(number, name, cell, read(cell), f"a {name}, as {'31.01.2026' if name == 'day' else '01.2026'}")

    def _value(self, number: int, column: Column, cell: str) -> str:
        if not cell:
            return ""
        wanted = "a number" + (": 1.234 may be 1234 or 1,234, so write one of these" if self._is_german and TWO_WAYS.fullmatch(cell) else "")
        text = self._read(number, column.name, cell, self._number(cell), wanted)
        if not text or column.factor == 1:
            return text
        product = Decimal(text) * column.factor
        return format(product.normalize() if product == product.to_integral_value() else product, "f")

    def _read(self, number: int, name: str, cell: str, read: Optional[str], wanted: str) -> str:
        """The cell as it is read, and a note where that is another text."""
        if read is None:
            self._fault(f"row {number}, {name}: `{cell}` isn't {wanted}")
            return ""
        if read != cell:
            kind = {"day": "a day is written as 2026-01-31", "month": "a month is written as 2026-01"}.get(name, "a number is written with a point")
            self._note(f"{kind}: {name}", 1)
        return read


def make_table(path: str, german: bool, columns: Optional[str]) -> tuple[str, list[str]]:
    """Writes the table of an export beside it, as FILE.papcalc.csv, and gives its name, and what was changed."""
    maker = Maker(german, read_columns(columns) if columns else Columns())
    try:
        text = maker.table(read_named(path))
    except (Misuse, csv.Error) as fault:
        raise Misuse(f"{path}: {fault}; nothing was loaded") from fault
    faults = maker.report.faults
    if faults:
        more = [f"and {len(faults) - MOST_FAULTS} more"] if len(faults) > MOST_FAULTS else []
        raise Misuse("\n".join([f"{path}: nothing was loaded:", *faults[:MOST_FAULTS], *more]))
    made = f"{os.path.splitext(path)[0]}.papcalc.csv"
    if os.path.abspath(made) == os.path.abspath(path):
        raise Misuse(f"{path} would be written over: give it another name")
    try:
        disk.put_file(os.path.abspath(made), text.encode("utf-8"))
    except OSError as fault:
        raise NotSaved(f"{made} can't be written: {fault.strerror}; nothing was loaded") from fault
    return made, maker.report.lines()
