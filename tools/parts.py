"""A folder of parts: a manifest for each part of a table, the part of an employee, and the checks by which the results of all parts are
known to be those of one table, its flowcharts and one program.

FOLDER/plans.script puts the flowcharts, which lie in FOLDER/plans. Of each part there are part-0001.csv (its table), part-0001.json (its
manifest), perhaps part-0001.edits (lines of a script that are carried out behind the table), and a result for each question that was
asked of it. A result begins with lines `# `, which say what was read (as sha256sum prints it), by which program, and what was asked."""
import bisect
import collections
import dataclasses
import hashlib
import json
import os
import re

FORMAT = 1
MOST_TOLD = 20
PLANS = "plans.script"
HEADER = b"employee,month,day,plan,state,name,value\n"
MONTH = re.compile(r"[0-9]{4}-[0-9]{2}")
EMPLOYEE = re.compile(r"[0-9A-Za-z_.-]{1,32}")
READ_FILE = re.compile(r"# ([0-9a-f]{64})  (.+)\n")
TAIL = 4096
COPIED = 1 << 20


class PartsFault(Exception):
    """What stands against the parts of a folder, in lines, each with the part's name."""

    def __init__(self, *lines):
        told = list(lines[:MOST_TOLD])
        if len(lines) > MOST_TOLD:
            told.append(f"and {len(lines) - MOST_TOLD} more")
        super().__init__("\n".join(told))


@dataclasses.dataclass(frozen=True)
class Manifest:
    """What is known of a part when the table was split: `files` has the SHA-256 of its table and of the flowcharts' files by name."""
    format: int
    part: int
    parts: int
    split: str
    rows: int
    first: str
    last: str
    files: dict
    program: str

    @property
    def name(self):
        return part_name(self.part)

    @property
    def plans(self):
        return {name: digest for name, digest in self.files.items() if name != f"{self.name}.csv"}


def part_name(number):
    return f"part-{number:04d}"


def digest_of(path):
    digest = hashlib.sha256()
    with open(path, "rb") as file:
        for block in iter(lambda: file.read(COPIED), b""):
            digest.update(block)
    return digest.hexdigest()


# ---- manifests

def write_manifest(folder, manifest):
    with open(f"{folder}/{manifest.name}.json", "w", encoding="ascii") as file:
        json.dump(dataclasses.asdict(manifest), file, indent=1)
        file.write("\n")


def read_manifest(path):
    try:
        with open(path, encoding="ascii") as file:
            held = json.load(file)
        manifest = Manifest(**held)
    except (ValueError, TypeError) as fault:
        raise PartsFault(f"{os.path.basename(path)} isn't the manifest of a part: {fault}") from None
    wrong = [field.name for field in dataclasses.fields(Manifest) if not isinstance(held[field.name], field.type)]
    if wrong or manifest.format != FORMAT:
        raise PartsFault(f"{os.path.basename(path)} isn't a manifest of format {FORMAT}: see {', '.join(wrong) or 'format'}")
    return manifest


def read_manifests(folder):
    """The manifests of a folder in order, which belong together and miss none."""
    names = sorted(name for name in os.listdir(folder) if re.fullmatch(r"part-.*\.json", name))
    if not names:
        raise PartsFault(f"{folder} has no parts: split_table.py split makes them")
    held = [(name, read_manifest(f"{folder}/{name}")) for name in names]
    faults = twice(held) or misnamed(held) or strangers(held) or gaps([manifest for _, manifest in held])
    if faults:
        raise PartsFault(*faults)
    manifests = sorted((manifest for _, manifest in held), key=lambda manifest: manifest.part)
    faults = overlaps([(manifest.name, manifest.first, manifest.last) for manifest in manifests])
    if faults:
        raise PartsFault(*faults)
    return manifests


def twice(held):
    by_number = collections.defaultdict(list)
    for name, manifest in held:
        by_number[manifest.part].append(name)
    return [f"{part_name(number)} is there twice: {', '.join(names)}" for number, names in sorted(by_number.items()) if len(names) > 1]


def misnamed(held):
    return [f"{name} says that it is {manifest.name} of {manifest.parts}" for name, manifest in held
            if name != f"{manifest.name}.json" or not 1 <= manifest.part <= manifest.parts]


def strangers(held):
    """The parts that aren't as most of them are: of another split, with other flowcharts or another program."""
    faults = []
    for what, of in [("is of another split of a table", lambda manifest: (manifest.split, manifest.parts)),
                     ("has other flowcharts or range files", lambda manifest: tuple(sorted(manifest.plans.items()))),
                     ("has another version of the program", lambda manifest: manifest.program)]:
        usual = collections.Counter(of(manifest) for _, manifest in held).most_common(1)[0][0]
        faults += [f"{manifest.name} {what} than most parts here" for _, manifest in held if of(manifest) != usual]
    return faults


def gaps(manifests):
    there = {manifest.part for manifest in manifests}
    return [f"{part_name(number)} is missing: it has no manifest" for number in range(1, manifests[0].parts + 1) if number not in there]


def overlaps(ranges):
    """Of named ranges of employees, those that don't lie behind the one before."""
    return [f"{name} and {next_name} may both have runs of {first}: the employees of {name} go to {last}, those of {next_name} begin with {first}"
            for (name, _, last), (next_name, first, _) in zip(ranges, ranges[1:]) if not last < first]


def part_of(manifests, employee):
    """The part of an employee: that whose range the name lies in, else the one before the gap, or the first."""
    at = bisect.bisect_right([manifest.first for manifest in manifests], employee) - 1
    return manifests[max(at, 0)]


# ---- questions and results

def result_end(question):
    """How the name of a result of this question ends."""
    return question.replace("file ", "filed-") if question.startswith("file ") else question


@dataclasses.dataclass(frozen=True)
class Result:
    """The bytes of a result that go into the joined answer, from `start` to `end`, how many lines they stand for where they are counted,
    and the first and the last employee in them, if there are any."""
    path: str
    start: int
    end: int
    count: int
    first: str
    last: str


def find_result(folder, manifest, question):
    """Where in a part's result the answer stands, once it is known to be of this part as it is now."""
    path = f"{folder}/{manifest.name}.{result_end(question)}"
    if not os.path.exists(path):
        raise PartsFault(f"{manifest.name} has no result of `{question}`: it wasn't run, or was refused")
    with open(path, "rb") as file:
        check_receipt(folder, manifest, question, file)
        found = find_report(file) if question == "report" else find_filing(file)
        if isinstance(found, str):
            raise PartsFault(f"{manifest.name}: {os.path.basename(path)} {found}")
        start, end, count, employee = found
        return Result(path, start, end, count, *employees_between(file, start, end, employee))


def check_receipt(folder, manifest, question, file):
    """The result says that it was made of the files of the manifest, and of the part's edits as they are now."""
    read, said = {}, set()
    at = file.tell()
    for line in iter(file.readline, b""):
        if not line.startswith(b"# "):
            break
        match = READ_FILE.fullmatch(line.decode("utf-8", "replace"))
        if match:
            read[match.group(2)] = match.group(1)
        else:
            said.add(line[2:-1].decode("utf-8", "replace"))
        at = file.tell()
    file.seek(at)
    wanted, edits = dict(manifest.files), f"{manifest.name}.edits"
    if os.path.exists(f"{folder}/{edits}"):
        wanted[edits] = digest_of(f"{folder}/{edits}")
    others = sorted(name for name in wanted.keys() | read.keys() if wanted.get(name) != read.get(name))
    if others:
        raise PartsFault(f"{manifest.name} was run with another {', '.join(others)} than is here, or without: run it again")
    if said != {manifest.program, question}:
        raise PartsFault(f"{manifest.name} was run as {', '.join(sorted(said))}, and not as {manifest.program}, {question}")


def last_bytes(file, end):
    start = max(end - TAIL, 0)
    file.seek(start)
    return file.read(end - start)


def find_report(file):
    """Where the rows of the report stand, or what is wrong with it."""
    for line in iter(file.readline, HEADER):
        if not line:
            return "has no report"
        if line.startswith(b"refused "):
            return f"has a refused line: {line.decode('utf-8', 'replace').strip()}"
    start, end = file.tell(), file.seek(0, os.SEEK_END)
    if end - start < 4 or not last_bytes(file, end).endswith(b"\nend\n"):
        return "has no whole report: its last line isn't `end`"
    return start, end - len(b"end\n"), 0, lambda row: row.split(b",", 1)[0]


def find_filing(file):
    """Where the last `due` lines stand, or what is wrong with them."""
    begin, size = file.tell(), file.seek(0, os.SEEK_END)
    filed = re.search(rb"(?:\A|\n)filed ([0-9]+)\n\Z", last_bytes(file, size))
    if filed is None:
        return "has no whole filing: its last line isn't `filed COUNT`"
    count, end = int(filed.group(1)), size - len(b"filed \n") - len(filed.group(1))
    start = lines_before(file, begin, end, count)
    file.seek(max(start, 0))
    if start < 0 or count and not file.readline().startswith(b"due "):
        return f"hasn't the {count} lines `due` that it counts"
    return start, end, count, lambda line: line.split(b" ", 2)[1]


def lines_before(file, begin, end, count):
    """Where the last `count` lines before `end` begin, or -1 where there aren't so many behind `begin`."""
    at = end
    while count >= 0 and at > begin:
        start = max(at - COPIED, begin)
        file.seek(start)
        block = file.read(at - start)
        feeds = block.count(b"\n")
        if feeds > count:
            return start + nth_last_feed(block, count + 1) + 1
        count, at = count - feeds, start
    return begin if count == 0 else -1


def nth_last_feed(block, number):
    at = len(block)
    for _ in range(number):
        at = block.rindex(b"\n", 0, at)
    return at


def employees_between(file, start, end, employee):
    """The first and the last employee of the lines between two places, or empty texts."""
    if start == end:
        return "", ""
    file.seek(start)
    first = file.readline()
    last = last_bytes(file, end)[:-1].rsplit(b"\n", 1)[-1]
    return employee(first).decode("ascii", "replace"), employee(last).decode("ascii", "replace")


# ---- joining

def join(folder, out, question):
    """Writes the answers of all parts to the question as one: where anything stands against it, nothing is written."""
    results, faults = [], []
    for manifest in read_manifests(folder):
        try:
            results.append((manifest.name, find_result(folder, manifest, question)))
        except PartsFault as fault:
            faults.append(str(fault))
    faults = faults or overlaps([(name, result.first, result.last) for name, result in results if result.last])
    if faults:
        raise PartsFault(*faults)
    made = f"{out}.{os.getpid()}.tmp"
    try:
        with open(made, "wb", buffering=0) as file:
            write_joined(file, results, question)
            os.fsync(file.fileno())
        os.replace(made, out)
    finally:
        if os.path.exists(made):
            os.remove(made)
    return len(results), os.path.getsize(out)


def write_joined(out, results, question):
    if question == "report":
        write_all(out, HEADER)
    for name, result in results:
        copy_answer(name, result, out)
    if question != "report":
        write_all(out, f"filed {sum(result.count for _, result in results)}\n".encode())


def write_all(out, data):
    data = memoryview(data)
    while data:
        data = data[out.write(data):]


def copy_answer(name, result, out):
    """Copies a part's lines; a second report among them is refused."""
    second, before = b"\n" + HEADER, b""
    with open(result.path, "rb", buffering=0) as file:
        file.seek(result.start)
        left = result.end - result.start
        while left:
            block = file.read(min(left, COPIED))
            if not block:
                raise PartsFault(f"{name}: {os.path.basename(result.path)} changed while it was read")
            if second in block or second in before + block[:len(second)]:
                raise PartsFault(f"{name}: {os.path.basename(result.path)} has a second report")
            write_all(out, block)
            before, left = block[-len(second):], left - len(block)
