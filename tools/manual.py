#!/usr/bin/env python3
"""Two lists of the manual page: manual.py [--check], from the top of the repository.

The lines of a script and the statuses stand in tables of docs/USE.md. docs/papcalc.1 has the same between `.\\" begin NAME` and `.\\" end NAME`,
in the markup of mdoc. With --check nothing is written, and a list that isn't what the table says is a fault."""
import re
import sys
import textwrap

from check_commands import MANUAL, USE, read, table


def heading(form):
    """The head of a form: its first word is a command, and what follows are arguments."""
    first, _, rest = form.partition(" ")
    rest = rest.lower().replace("emp ", "employee ").replace("name=value ..", "\0").strip()
    rest = re.sub(r"(?:^| )\.\.$", " ...", rest)
    rest = f" Ar {rest.strip()}" if rest.strip() else ""
    return f".It Cm {first}" + rest.replace(" \0", " Op Ar name Ns Cm = Ns Ar value ...")


def markup(text):
    """A cell as lines of mdoc: what stands between backquotes is quoted, with the punctuation behind it."""
    parts = (text if text.endswith(".") else text + ".").split("`")
    for at, part in enumerate(parts):
        if at % 2:
            behind = re.match(r"[,.;:]", parts[at + 1])
            parts[at + 1] = parts[at + 1][1:] if behind else parts[at + 1]
            yield f".Ql {part}" + (f" {behind.group(0)}" if behind else "")
        else:
            yield from textwrap.wrap(part.strip(), 78)


def made(rows, head):
    lines = [line for row in rows for line in [head(row[0]), *markup(row[1])]]
    return "\n".join([".Bl -tag -width Ds", *lines, ".El"])


def main():
    page = text = read(MANUAL)
    lists = {
        "lines": made(table(USE, "## Scripts"), lambda cell: heading(cell.strip("`"))),
        "statuses": made(table(USE, "| status |"), lambda cell: f".It {cell}"),
    }
    for name, lines in lists.items():
        mark = rf'(\.\\" begin {name}[^\n]*\n).*?(\n\.\\" end {name}\n)'
        page, count = re.subn(mark, lambda found, lines=lines: found.group(1) + lines + found.group(2), page, flags=re.S)
        if count != 1:
            raise SystemExit(f"manual: {MANUAL} has {count} lists of {name}")
    differs = page != text
    if differs and "--check" in sys.argv:
        print(f"manual: the lists of {MANUAL} aren't what {USE} says: python3 tools/manual.py writes them")
    elif differs:
        open(MANUAL, "w", encoding="utf-8").write(page)
    wrong = differs and "--check" in sys.argv
    print(f"manual: {len(lists)} lists, {int(wrong)} faults")
    return int(wrong)


if __name__ == "__main__":
    sys.exit(main())
