"""The table of declarations of a page, row by row: what the page has, and what the plan's file asks for.

A row is a name, its type, its default or value, its range, and the comments before its tag. Values are those of the forms that flowcharts
have (`wanted_value`); without a range file the cells of ranges are empty."""
import html
import re
from decimal import Decimal

GROUPS = (("Inputs", "INPUT", "default"), ("Outputs", "OUTPUT", "default"),
          ("Internals", "INTERNAL", "default"), ("Constants", "CONSTANT", "value"))
TOKEN = re.compile(r'<!--(?P<comment>.*?)-->|<(?P<tag>[/?\w]+)(?P<given>(?:[^<>"]|"[^"]*")*)>', re.S)
NAMED = {"ZERO": "0", "ONE": "1", "TEN": "10"}


def one_line(text):
    return " ".join(text.split())


def wanted_number(text):
    """The number of an expression of a declaration, with its places."""
    text = text.strip()
    named = re.fullmatch(r"BigDecimal\.(ZERO|ONE|TEN)", text)
    if named:
        return NAMED[named.group(1)]
    whole = re.fullmatch(r"BigDecimal\.valueOf\(\s*(-?\d+)L?\s*,\s*(\d+)\s*\)", text)
    if whole:
        return "{:f}".format(Decimal(whole.group(1)).scaleb(-int(whole.group(2))))
    inside = re.fullmatch(r"(?:BigDecimal\.valueOf|new BigDecimal)\(\s*\"?(-?[\d.]+)L?\"?\s*\)", text)
    return "{:f}".format(Decimal(inside.group(1) if inside else text.rstrip("L")))


def wanted_value(text):
    """The number of a declaration, the numbers of a table, or nothing."""
    if text is None:
        return ""
    if text.strip().startswith("{"):
        items = re.findall(r"(?:[^,()]|\([^)]*\))+", text.strip()[1:-1])
        return [wanted_number(item) for item in items]
    return wanted_number(text)


def wanted_rows(plan):
    """The rows of each kind that a plan asks for, in the order of its file."""
    kinds = {tag: (title, key) for title, tag, key in GROUPS}
    rows = {title: [] for title, _, _ in GROUPS}
    comments = []
    for token in TOKEN.finditer(plan.decode("utf-8")):
        if token.group("comment") is not None:
            comments.append(one_line(token.group("comment")))
            continue
        if token.group("tag") in kinds:
            title, key = kinds[token.group("tag")]
            given = {name: html.unescape(value) for name, value in re.findall(r'(\w+)="([^"]*)"', token.group("given"))}
            text = " ".join(comment for comment in comments if comment)
            rows[title].append((given["name"], given["type"], wanted_value(given.get(key)), "", text))
        comments = []
    return rows


def text_of(cell):
    return one_line(html.unescape(re.sub(r"<[^>]*>", "", cell)))


def shown_row(name, row):
    """The row of a page between its name and its end."""
    table = re.fullmatch(r'<td>([^<]*)<td colspan="3">([^<]*)(?:<br>)?<span class="tab">(.*)</span>', row)
    if table:
        items = re.findall(r"<span><i>(\d+)</i>([^<]*)</span>", table.group(3))
        if [int(index) for index, _ in items] != list(range(len(items))):
            return None
        return name, table.group(1), [value for _, value in items], "", text_of(table.group(2))
    cells = re.fullmatch(r'<td>([^<]*)<td class="num">([^<]*)<td class="num">([^<]*)<td>([^<]*)', row)
    return (name,) + tuple(text_of(cell) for cell in cells.groups()) if cells else None


def shown_rows(page):
    """The rows of each kind that a page has."""
    rows = {}
    for title, count, group in re.findall(
            r'<tbody><tr><th class="g" colspan="5" scope="rowgroup">(\w+) <span>(\d+)</span></tr>\n(.*?)</tbody>', page, re.S):
        found = re.findall(r'<tr id="name-(\w+)"(?: class="bad")?><th scope="row">(\w+)(<td>.*?)</tr>\n', group, re.S)
        rows[title] = [shown_row(name, row) if link == name else None for link, name, row in found]
        if len(found) != int(count):
            rows[title].append(None)
    return rows


def table_faults(plan, page):
    """Faults of the table of declarations."""
    wanted, shown = wanted_rows(plan), shown_rows(page)
    faults = ["the kinds %s" % sorted(set(shown) - set(wanted))] if set(shown) - set(wanted) else []
    for title, rows in wanted.items():
        has = shown.get(title, [])
        if len(has) != len(rows):
            faults.append("%d rows of %s in place of %d" % (len(has), title, len(rows)))
        faults += ["the row %r in place of %r" % (one, other) for one, other in zip(has, rows) if one != other]
    return faults


def with_cells_exchanged(page):
    """The page with the cells of two rows exchanged that follow one another and differ there: once for each kind of cell."""
    row = re.compile(r'(<tr id="name-\w+"><th scope="row">\w+<td>)([^<]*)(<td class="num">)([^<]*)(<td class="num">)([^<]*)(<td>)([^<]*)(</tr>\n)')
    found = list(row.finditer(page))
    for cell in (2, 4, 8):
        for one, other in zip(found, found[1:]):
            if one.group(cell) != other.group(cell):
                parts, below = list(one.groups()), list(other.groups())
                parts[cell - 1], below[cell - 1] = below[cell - 1], parts[cell - 1]
                yield (page[:one.start()] + "".join(parts) + page[one.end():other.start()] + "".join(below)
                       + page[other.end():])
                break


def with_the_default_above(page):
    """The page on which each default is that of the row above."""
    last = [""]

    def moved(match):
        above, last[0] = last[0], match.group(2)
        return match.group(1) + above + match.group(3)

    yield re.sub(r'(<th scope="row">\w+<td>[^<]*<td class="num">)([^<]*)(<td class="num">)', moved, page)


def without_a_row(page):
    """The page without one of its rows."""
    yield re.sub(r'<tr id="name-\w+"><th scope="row">.*?</tr>\n', "", page, count=1, flags=re.S)
