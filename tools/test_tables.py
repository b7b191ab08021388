"""Test tables as they are published, and the pay runs that they ask for: inputs, and the amounts that are expected of the outputs."""
import csv
import dataclasses
import decimal
import io
import re
from decimal import Decimal

NAME = r"[A-Za-z_]\w*"
COLUMN = re.compile(rf"(?P<name>{NAME})?(?:\s*\*\s*(?P<factor>\d+(?:\.\d+)?))?(?:\s+if\s+(?P<input>{NAME})\s*=\s*(?P<value>-?\d+(?:\.\d+)?))?", re.ASCII)
PLAIN = re.compile(r"-?\d+(\.\d+)?", re.ASCII)
GERMAN = re.compile(r"-?(\d+|\d{1,3}(\.\d{3})+)(,\d+)?", re.ASCII)
FORMS = "`Brutto = PAY`, `Brutto = PAY * 100`, `III = WAGE_TAX if TAX_CLASS = 3`, `Nummer =` or `PERIOD = 2`"
# No product of a cell and a factor is rounded.
EXACT = decimal.Context(prec=1000)


class TableFault(Exception):
    """Why a table can't be compared: one sentence."""


@dataclasses.dataclass(frozen=True)
class Column:
    """What a column of a published table is: an input or an output, whose numbers are taken times a factor; nothing where the name is empty.
    One with a case, an input and its value, belongs to a run of its own."""
    name: str
    factor: Decimal = Decimal(1)
    case: tuple = ()


@dataclasses.dataclass(frozen=True)
class Columns:
    """What a file of columns says: what the columns of the table are, and the values that each run gets besides."""
    named: dict = dataclasses.field(default_factory=dict)
    fixed: dict = dataclasses.field(default_factory=dict)


@dataclasses.dataclass(frozen=True)
class Run:
    """A run that a row asks for. The heading of an output's column says where its expected amount stands."""
    employee: str
    row: int
    inputs: dict
    expected: dict
    headings: dict

    def place(self, output):
        """Where the expected amount of an output stands."""
        heading = self.headings[output]
        return f"row {self.row}, {heading}" + (f" ({output})" if heading != output else "")


def read_columns(path):
    """A file of columns, with a line for each. It has the lines that papledger's have, and for a column that belongs to a run of its own
    `III = WAGE_TAX * 100 if TAX_CLASS = 3`."""
    columns = Columns()
    for number, line in enumerate(read_text(path).splitlines(), 1):
        text = line.strip()
        if not text or text.startswith("#"):
            continue
        left, mark, right = (part.strip() for part in text.partition("="))
        column = COLUMN.fullmatch(right)
        if left in columns.named or left in columns.fixed:
            raise TableFault(f"{path}, line {number}: {left} stands twice")
        if mark and left and PLAIN.fullmatch(right):
            columns.fixed[left] = right
        elif mark and left and column:
            case = (column["input"], column["value"]) if column["input"] else ()
            columns.named[left] = Column(column["name"] or "", Decimal(column["factor"] or 1), case)
        else:
            raise TableFault(f"{path}, line {number}: `{text}` isn't as {FORMS}")
    return columns


def read_text(path):
    try:
        with open(path, encoding="utf-8-sig", newline="") as file:
            return file.read()
    except OSError as fault:
        raise TableFault(f"{path}: {fault.strerror}") from None
    except UnicodeDecodeError as fault:
        raise TableFault(f"{path}: it isn't UTF-8: {fault}") from None


def read_rows(path, is_german):
    """The headings and the rows of a table. Rows without a cell are left out."""
    try:
        reader = csv.reader(io.StringIO(read_text(path), newline=""), delimiter=";" if is_german else ",")
        rows = [row for row in reader if row]
    except csv.Error as fault:
        raise TableFault(f"{path}: {fault}") from None
    return (rows[0], rows[1:]) if rows else ([], [])


class TestTable:
    """A table's columns, once they are known to be inputs and outputs of a flowchart."""

    def __init__(self, path, columns, is_german, inputs, outputs):
        self.path, self.fixed, self.is_german, self.outputs = path, columns.fixed, is_german, outputs
        self.headings, self.rows = read_rows(path, is_german)
        if is_german or columns.named:
            self.headings = [heading.strip() for heading in self.headings]
        self.columns = [columns.named.get(heading, Column(heading)) for heading in self.headings]
        for heading in columns.named:
            if heading not in self.headings:
                raise TableFault(f"{path}: there is no column {heading}")
        self.cases = list(dict.fromkeys(column.case for column in self.columns if column.case)) or [()]
        for name in [*(case[0] for case in self.cases if case), *self.fixed]:
            if name not in inputs:
                raise TableFault(f"{path}: {name} isn't an input of the flowchart")
        for heading, column in zip(self.headings, self.columns):
            self.check_column(heading, column, inputs)
        for case in self.cases:
            self.check_case(case)

    def check_column(self, heading, column, inputs):
        name = column.name
        if name and name not in inputs and name not in self.outputs:
            hint = " (commas stand between the fields; --german reads semicolons)" if ";" in heading and not self.is_german else ""
            raise TableFault(f"{self.path}: the column {name} is neither an input nor an output of the flowchart{hint}")

    def check_case(self, case):
        """In a run each input and output stands once."""
        names = [*case[:1], *self.fixed, *(column.name for column in self.columns if column.name and column.case in ((), case))]
        for place, name in enumerate(names):
            if name in names[:place]:
                raise TableFault(f"{self.path}: the column {name} stands twice")

    def runs(self):
        """The runs that the rows ask for, in order."""
        made = [run for number, row in enumerate(self.rows, 1) for run in self.runs_of(number, row)]
        if not any(run.expected for run in made):
            raise TableFault(f"{self.path}: no amount is expected")
        return made

    def runs_of(self, number, row):
        if len(row) > len(self.headings):
            raise TableFault(f"{self.path}: row {number} has more cells than columns")
        for at, case in enumerate(self.cases, 1):
            inputs, expected, headings = {**self.fixed, **dict([case] if case else [])}, {}, {}
            for heading, column, cell in zip(self.headings, self.columns, row):
                if not column.name or not cell or column.case not in ((), case):
                    continue
                text = self.number(number, heading, column, cell)
                (expected if column.name in self.outputs else inputs)[column.name] = text
                headings[column.name] = heading
            if expected or not case:
                yield Run(f"row-{number:05d}" + (f"-{at}" if case else ""), number, inputs, expected, headings)

    def number(self, number, heading, column, cell):
        """A cell's number as the flowchart has it. An input that is taken as it stands may be any text: the program judges it."""
        text = german_number(cell.strip()) if self.is_german else cell
        if (self.is_german or column.factor != 1 or column.name in self.outputs) and not is_number(text):
            wanted = "points between thousands, a comma before the places" if self.is_german else "a point stands before the places"
            raise TableFault(f"{self.path}: row {number}, {heading}: {cell} is no number ({wanted})")
        if column.factor == 1:
            return text
        product = format(EXACT.multiply(Decimal(text), column.factor), "f")
        return product.rstrip("0").rstrip(".") if "." in product else product


def german_number(text):
    """The number with a point before its places, or an empty text."""
    return text.replace(".", "").replace(",", ".") if GERMAN.fullmatch(text) else ""


def is_number(text):
    try:
        return Decimal(text).is_finite()
    except decimal.InvalidOperation:
        return False
