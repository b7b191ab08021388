#!/usr/bin/env python3
"""What the built programs answer and say: answer_rows.py [--write] PAPCALC PAP_AUTHOR [FILE ..], from the top of the repository.

The files are examples/answers/*.rows; README.md beside them says how they are written. Each row is put to the program that its command names
in a folder of its own, and standard output, standard error and the status are compared. With --write the files get what comes, for you to
read in `git diff`."""
import concurrent.futures
import glob
import itertools
import os
import re
import subprocess
import sys
import tempfile


COMMAND = re.compile(r"\$ (?:(PAPCALC_MESSAGES)=(\w+) )?(papcalc|pap_author) (.*)")


class Table:
    """What rows are put to: a variable of the environment, if any, the words for a program, and texts of files and of standard input, with
    places for what a row asks."""

    def __init__(self, variable, value, program, words, texts):
        self.environment = {variable: value} if variable else {}
        self.program, self.words, self.texts = program, words, texts


class Row:
    """What is asked, the lines of both streams, and the status where it isn't the usual one."""

    def __init__(self, table, asked=()):
        self.table, self.asked, self.out, self.err, self.other = table, list(asked), [], [], None

    def status(self):
        """The status that is said, or else the usual one: 1 with a refusal and 0 without."""
        return int(any(line.startswith("refused") for line in self.out)) if self.other is None else self.other

    def add(self, mark, line):
        if mark == "=":
            self.other = int(line)
        elif mark == "?":
            self.asked.append(line)
        else:
            times = re.match(r"(\d+) x ", line)
            {">": self.out, "!": self.err}[mark].extend([line[times.end():]] * int(times[1]) if times else [line])

    def lines(self):
        """The row as it stands in a file."""
        status = [] if self.other is None else [str(self.other)]
        parts = [("?", self.asked), (">", shortened(self.out)), ("!", shortened(self.err)), ("=", status)]
        return [f"{mark} {line}" if line else mark for mark, lines in parts for line in lines]


def shortened(lines):
    """The lines, with `N x ` before one in place of more than eight that are the same."""
    found = []
    for line, same in itertools.groupby(lines):
        count = len(list(same))
        found += [f"{count} x {line}"] if count > 8 else [line] * count
    return found


def read_rows(text):
    """The lines of a file; a row stands in the place of its own."""
    items, table, texts, name = [], None, {}, None
    for line in text.split("\n"):
        last = items[-1] if items else ""
        if line[:1] in ("?", ">", "!", "="):
            if not isinstance(last, Row) or line[0] == "?" and (last.out or last.err):
                last = Row(table)
                items.append(last)
            last.add(line[0], line[2:])
            continue
        items.append(line)
        if command := COMMAND.fullmatch(line):
            table = Table(*command.groups(), dict(texts))
        elif line.startswith("    "):
            texts[name] += line[4:] + "\n"
        elif line.endswith(":") and not line.startswith("#"):
            name = line[:-1]
            texts[name] = ""
    return items


def written_out(asked):
    """Parts with ` ~ ` between them, once each; one that begins with `N x ` N times, with the number of the time for `{n}`."""
    pieces = []
    for part in asked.split(" ~ "):
        times = re.match(r"(\d+) x ", part)
        piece = part[times.end():] if times else part
        for written, meant in [("\\n", "\n"), ("\\r", "\r"), ("\\t", "\t")]:
            piece = piece.replace(written, meant)
        # A byte that isn't UTF-8 is a lone surrogate until it is written.
        piece = re.sub(r"\\x([89a-f][0-9a-f])", lambda byte: chr(0xDC00 + int(byte[1], 16)), piece)
        count = int(times[1]) if times else 1
        pieces.append("".join(piece.replace("{n}", f"{n:03}") for n in range(count)) if "{n}" in piece else piece * count)
    return "".join(pieces)


def filled(text, asked):
    """A text with what is asked in its places, in those of an attribute as an attribute has it."""
    parts = [asked, *asked.split(" | ")]

    def part(place):
        chosen = parts[int(place[2] or 0)]
        return chosen if place[1] == "asked" else chosen.replace("&", "&amp;").replace("<", "&lt;").replace('"', "&quot;")

    return re.sub(r"\{(asked|attribute)(?: (\d))?\}", part, re.sub(r"\}\n\Z", "}", text))


def lines_of(written):
    """The lines that were written; each ends with LF."""
    *lines, rest = written.decode().split("\n")
    return [*lines, *[rest + " (without a line end)"] * (rest != "")]


def answered(programs, row):
    """The row with what comes."""
    asked = written_out("\n".join(row.asked))
    files = {name: filled(text, asked).encode("utf-8", "surrogateescape") for name, text in row.table.texts.items()}
    script = files.pop("stdin", b"")
    words, _, unseen = filled(row.table.words, asked).partition(" 2> ")
    with tempfile.TemporaryDirectory(prefix="papcalc-rows-") as folder:
        for name, text in files.items():
            with open(os.path.join(folder, name), "wb") as file:
                file.write(text)
        done = subprocess.run([programs[row.table.program], *words.split()], input=script, cwd=folder, capture_output=True, timeout=300,
                              env={**os.environ, **row.table.environment})
    came = Row(row.table, row.asked)
    came.out = lines_of(done.stdout)
    came.err = [] if unseen else lines_of(done.stderr)
    if came.status() != done.returncode:
        came.other = done.returncode
    return came


def compared(programs, name, is_writing):
    """How many rows of a file have what comes, and how many not; what differs is printed, or written."""
    with open(name, encoding="utf-8") as file:
        items = read_rows(file.read())
    rows = [item for item in items if isinstance(item, Row)]
    with concurrent.futures.ThreadPoolExecutor(4) as pool:
        came = list(pool.map(lambda row: answered(programs, row), rows))
    if is_writing:
        new = iter(came)
        lines = [line for item in items for line in (next(new).lines() if isinstance(item, Row) else [item])]
        with open(name, "w", encoding="utf-8") as file:
            file.write("\n".join(lines))
        return len(rows), 0
    differ = [(row, new) for row, new in zip(rows, came) if row.lines() != new.lines()]
    for row, new in differ:
        print("\n".join([f"answer_rows: {name}: wanted", *row.lines(), "and there came", *new.lines()]))
    return len(rows) - len(differ), len(differ)


def main(words):
    is_writing = words[0] == "--write"
    papcalc, pap_author, *names = words[is_writing:]
    programs = {"papcalc": os.path.abspath(papcalc), "pap_author": os.path.abspath(pap_author)}
    counts = [compared(programs, name, is_writing) for name in names or sorted(glob.glob("examples/answers/*.rows"))]
    passed, failed = map(sum, zip(*counts))
    print(f"answer_rows: {passed} passed, {failed} failed")
    return 1 if failed else 0


if __name__ == "__main__":
    sys.exit(main(sys.argv[1:]))
