"""The rows of a table as bytes, and the employee that each names: where rows and fields end is as `csv` reads it, and nothing else of a
row is read."""
import re

BLOCK = 1 << 20
LONGEST_TABLE = 33_554_432
COLUMNS = [b"employee", b"month", b"day"]
ALLOWED = b"0123456789ABCDEFGHIJKLMNOPQRSTUVWXYZabcdefghijklmnopqrstuvwxyz_-."
LONGEST_EMPLOYEE = 32
BYTE_ORDER_MARK = b"\xef\xbb\xbf"
# A field in quotes, or one without; a quote behind the first byte of a field without is a byte as any other.
FIELD = rb'(?:"[^"]*(?:""[^"]*)*"(?!")[^,\r\n]*|[^",\r\n][^,\r\n]*)?'
ROW = re.compile(FIELD + rb"(?:," + FIELD + rb")*(?:\r\n|\r|\n)")
QUOTED = re.compile(rb'"([^"]*(?:""[^"]*)*)"(?!")([^,\r\n]*)')


class TableFault(Exception):
    """Why a text isn't a table, or can't be split: one sentence."""


def first_field(row):
    """The bytes of the first field, without quotes and line end."""
    quoted = QUOTED.match(row)
    if quoted:
        return quoted.group(1).replace(b'""', b'"') + quoted.group(2)
    return row.split(b",", 1)[0].rstrip(b"\r\n")


def are_employees(names):
    """Whether each of some names is an employee: 1 to 32 letters, digits, `_`, `-` and `.`"""
    lengths = list(map(len, names))
    return min(lengths) > 0 and max(lengths) <= LONGEST_EMPLOYEE and not b"".join(names).translate(None, ALLOWED)


def shown(text):
    return ascii(text[:40].decode("utf-8", "replace"))


def cut_rows(data, is_end):
    """The rows that end in the data, each with its line end, and the bytes behind them."""
    if is_end and data and data[-1:] not in (b"\n", b"\r"):
        data += b"\n"
    if b'"' in data:
        return cut_quoted_rows(data, is_end)
    rows = data.splitlines(True)
    is_open = rows and not is_end and not rows[-1].endswith(b"\n")
    return rows, rows.pop() if is_open else b""


def cut_quoted_rows(data, is_end):
    rows, at = [], 0
    for row in iter(lambda: ROW.match(data, at), None):
        if row.end() == len(data) and row.group().endswith(b"\r") and not is_end:
            break
        at = row.end()
        rows.append(row.group())
    return rows, data[at:]


def raw_rows(file):
    """For about a block each: its rows, the empty ones with them, and whether they have quotes."""
    left, block = b"", True
    while block:
        block = file.read(BLOCK)
        data = left + block
        rows, left = cut_rows(data, not block)
        if len(left) > LONGEST_TABLE:
            raise TableFault(f"a row has more than {LONGEST_TABLE} bytes; is a quote left open before it?")
        if rows:
            yield rows, b'"' in data
    if left:
        raise TableFault("the last row has a quote that isn't closed")


def header_of(file):
    """The first row, which names the columns, without a byte order mark and with a line end; the file stands behind it."""
    start = file.read(BLOCK)
    mark = len(BYTE_ORDER_MARK) if start.startswith(BYTE_ORDER_MARK) else 0
    rows, _ = cut_rows(start[mark:], len(start) < BLOCK)
    empty = 0
    while empty < len(rows) and not rows[empty].strip(b"\r\n"):
        empty += 1
    if empty == len(rows) or columns_of(rows[empty]) != COLUMNS:
        raise TableFault("the first row isn't employee,month,day and the names of inputs, with commas between them")
    file.seek(mark + sum(map(len, rows[:empty + 1])))
    return rows[empty]


def columns_of(header):
    """The first three fields."""
    columns, rest = [], header
    while len(columns) < len(COLUMNS) and rest:
        quoted = QUOTED.match(rest)
        end = quoted.end() if quoted else len(rest.split(b",", 1)[0])
        columns.append(first_field(rest))
        rest = rest[end + 1:]
    return columns


def named_rows(file):
    """For about a block each: the employees of its rows, and the rows. The file stands behind the first row."""
    count = 0
    for rows, are_quoted in raw_rows(file):
        names = list(map(first_field, rows)) if are_quoted else [row.split(b",", 1)[0] for row in rows]
        if not are_employees(names):
            rows = [row for row in rows if row.strip(b"\r\n")]
            names = list(map(first_field, rows))
            refuse_others(names, count)
        count += len(rows)
        if rows:
            yield names, rows


def refuse_others(names, before):
    """Refuses the first row whose first field isn't an employee; rows are counted behind the header, from 1, without empty ones."""
    for at, name in enumerate(names):
        if not are_employees([name]):
            raise TableFault(f"row {before + at + 1}: {shown(name)} isn't an employee, 1 to {LONGEST_EMPLOYEE} letters of ASCII, digits, "
                             "_, - and .")
