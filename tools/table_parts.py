"""From a table to a folder of parts. The table is read once, but for a sample that tells where to cut; a part that came out too large is
cut anew, by the exact numbers of its employees' runs."""
import bisect
import collections
import hashlib
import itertools
import os
import shutil
import subprocess

import parts
import table_rows
from parts import PartsFault
from table_rows import LONGEST_TABLE, TableFault

MOST_RUNS = 50_000
# How many bytes of rows wait before they are written, and up to which size a table's employees are counted before it is cut.
MOST_WAITING = 48 << 20
COUNTED = 32 << 20
# How full a part is meant to be where a sample tells, and at how many places of a part and how far the sample is read.
FULLNESS = 0.8
PLACES = 16
ROWS_AT_PLACE = 20
GOLDEN_RATIO = (5 ** 0.5 - 1) / 2


class Piece:
    """The rows of a range of employees in a file of their own, behind the header, in the table's order."""

    def __init__(self, path, header):
        self.path, self.size, self.runs = path, len(header), 0
        self.first = self.last = None
        self.digest = hashlib.sha256(header)
        self.rows, self.names = [], []
        with open(path, "wb") as file:
            file.write(header)

    def write_rows(self):
        """Writes the rows that wait."""
        if not self.rows:
            return
        data = b"".join(self.rows)
        with open(self.path, "ab") as file:
            file.write(data)
        self.digest.update(data)
        self.size, self.runs = self.size + len(data), self.runs + len(self.rows)
        first, last = min(self.names), max(self.names)
        self.first = first if self.first is None else min(first, self.first)
        self.last = last if self.last is None else max(last, self.last)
        self.rows.clear()
        self.names.clear()

    def fits(self, most_runs):
        return self.runs <= most_runs and self.size <= LONGEST_TABLE


def distribute(table, cuts, pieces):
    """The rows of a table go to the pieces between the cuts: those of a cut's employee, and of later ones, behind it."""
    waiting, place = 0, bisect.bisect_right
    targets = [(piece.names, piece.rows) for piece in pieces]
    with open(table, "rb") as file:
        table_rows.header_of(file)
        for names, rows in table_rows.named_rows(file):
            for name, row in zip(names, rows):
                names_there, rows_there = targets[place(cuts, name)]
                names_there.append(name)
                rows_there.append(row)
            waiting += sum(map(len, rows))
            if waiting > MOST_WAITING:
                write_all(pieces)
                waiting = 0
    write_all(pieces)


def write_all(pieces):
    for piece in pieces:
        piece.write_rows()


# ---- where to cut

def counted_cuts(table, most_runs):
    """Where to cut a table so that each part fits, by the runs and bytes of each employee."""
    runs, sizes = collections.Counter(), collections.Counter()
    with open(table, "rb") as file:
        header = len(table_rows.header_of(file))
        for names, rows in table_rows.named_rows(file):
            runs.update(names)
            for name, row in zip(names, rows):
                sizes[name] += len(row)
    count = max(-(-sum(runs.values()) // most_runs), -(-sum(sizes.values()) // (LONGEST_TABLE - header)), 1)
    aim, cuts, held, size = -(-sum(runs.values()) // count), [], 0, header
    for name in sorted(runs):
        if held and (held >= aim or held + runs[name] > most_runs or size + sizes[name] > LONGEST_TABLE):
            cuts.append(name)
            held, size = 0, header
        held, size = held + runs[name], size + sizes[name]
    return cuts


def sampled_cuts(table, most_runs):
    """Where to cut a table so that parts will be full by four fifths, as far as a sample tells; at least one cut."""
    size = os.path.getsize(table)
    with open(table, "rb") as file:
        table_rows.header_of(file)
        begin = file.tell()
        rows, _ = table_rows.cut_rows(file.read(table_rows.BLOCK), False)
        length = sum(map(len, rows)) / len(rows) if rows else table_rows.BLOCK
        count = 1 + int(size / min(most_runs * length, LONGEST_TABLE) / FULLNESS)
        names = sorted(sampled_names(file, begin, size, PLACES * count, int(ROWS_AT_PLACE * length)))
    if not names:
        return counted_cuts(table, most_runs)
    cuts = sorted({names[at * len(names) // count] for at in range(1, count)} - {names[0]})
    return cuts or just_around(names[0])


def just_around(name):
    """The cuts that leave an employee alone: `-` is the least byte of one."""
    return [name, name + b"-"]


def sampled_names(file, begin, size, places, length):
    """Employees of rows at places that lie evenly, but not at equal distances: in a table of months these would meet the same employees."""
    for share in sorted(place * GOLDEN_RATIO % 1 for place in range(places)):
        file.seek(begin + int((size - begin) * share))
        rows = file.read(length).splitlines(True)[1:-1]
        names = map(table_rows.first_field, rows)
        yield from (name for name in names if table_rows.are_employees([name]))


# ---- the whole

def cut_table(table, size, header, paths, most_runs):
    """The pieces of a table in order, each of which fits. A piece lies at one of the paths, which don't end."""
    cuts = (counted_cuts if size <= COUNTED else sampled_cuts)(table, most_runs)
    made = [Piece(next(paths), header) for _ in range(len(cuts) + 1)]
    distribute(table, cuts, made)
    for piece in made:
        if piece.runs and piece.fits(most_runs):
            yield piece
            continue
        if piece.runs:
            if piece.first == piece.last:
                raise TableFault(f"the runs of {piece.first.decode()} are more than one part holds: {piece.runs} runs in {piece.size} bytes, "
                                 f"of at most {most_runs} in {LONGEST_TABLE}")
            yield from cut_table(piece.path, piece.size, header, paths, most_runs)
        os.remove(piece.path)


def cut_alike(table, header, paths, most_runs, earlier):
    """The pieces of a table, one for each part of an earlier split, with the employees that belong to it."""
    made = [Piece(next(paths), header) for _ in earlier]
    distribute(table, [manifest.first.encode() for manifest in earlier[1:]], made)
    faults = [f"{manifest.name} would have no run" for manifest, piece in zip(earlier, made) if not piece.runs]
    faults += [f"{manifest.name} would have {piece.runs} runs in {piece.size} bytes, and at most {most_runs} in {LONGEST_TABLE} go into a part"
               for manifest, piece in zip(earlier, made) if not piece.fits(most_runs)]
    if faults:
        raise PartsFault(*faults)
    return made


def make_parts(table, folder, plans, most_runs, program, earlier=None):
    """Makes the parts of a table in an empty folder: their tables, manifests and flowcharts. Gives the manifests. Where there are those of an
    earlier split, each employee keeps the part."""
    if not 1 <= most_runs <= MOST_RUNS:
        raise PartsFault(f"{most_runs} isn't a number of runs from 1 to {MOST_RUNS}")
    said, files = version_of(program), copy_plans(plans, folder)
    with open(table, "rb") as file:
        header = table_rows.header_of(file)
    paths = (f"{folder}/piece-{number}" for number in itertools.count())
    if earlier:
        pieces = cut_alike(table, header, paths, most_runs, earlier)
    else:
        pieces = list(cut_table(table, os.path.getsize(table), header, paths, most_runs))
    if not pieces:
        raise TableFault("there is no run in it")
    split = hashlib.sha256("".join(piece.digest.hexdigest() for piece in pieces).encode()).hexdigest()
    manifests = []
    for number, piece in enumerate(pieces, 1):
        name = f"{parts.part_name(number)}.csv"
        os.rename(piece.path, f"{folder}/{name}")
        manifests.append(parts.Manifest(parts.FORMAT, number, len(pieces), split, piece.runs, piece.first.decode(), piece.last.decode(),
                                        {name: piece.digest.hexdigest(), **files}, said))
        parts.write_manifest(folder, manifests[-1])
    return manifests


def version_of(program):
    try:
        return subprocess.run([program, "--version"], stdout=subprocess.PIPE, check=True, encoding="ascii").stdout.strip()
    except (OSError, subprocess.CalledProcessError) as fault:
        raise PartsFault(f"the program isn't there: {fault}; --program names it") from None


def copy_plans(plans, folder):
    """Copies the flowcharts and range files that a script puts, and the script with their new names. Gives the SHA-256 of each by name."""
    os.mkdir(f"{folder}/plans")
    lines = []
    with open(plans, encoding="ascii", errors="surrogateescape") as script:
        for number, line in enumerate(script, 1):
            words = line.split()
            if words[:1] == ["plan"] and len(words) == 4:
                copies = [f"plans/{number:04d}{os.path.splitext(name)[1]}" for name in words[2:]]
                for name, copy in zip(words[2:], copies):
                    copy_plan(name, f"{folder}/{copy}", f"{plans}:{number}")
                lines.append(" ".join(words[:2] + copies) + "\n")
            elif words and words[0] != "drop" and not words[0].startswith("#"):
                raise PartsFault(f"{plans}:{number}: only lines `plan DAY PLAN LIMITS`, `drop DAY` and comments stand in a script of flowcharts")
            else:
                lines.append(line)
    with open(f"{folder}/{parts.PLANS}", "w", encoding="ascii", errors="surrogateescape") as script:
        script.writelines(lines)
    names = [parts.PLANS] + [f"plans/{name}" for name in sorted(os.listdir(f"{folder}/plans"))]
    return {name: parts.digest_of(f"{folder}/{name}") for name in names}


def copy_plan(name, copy, where):
    try:
        shutil.copyfile(name, copy)
    except OSError as fault:
        raise PartsFault(f"{where}: {name}: {fault.strerror}") from None
