"""Compares the ranges and the dead marks on the page of an accepted flowchart with its runs. Of check_chart.py.

Each EVAL to which runs may come has one line, its range; a statement that is dead has none but the words that say so, and is read aloud as
dead. On every input within the ranges no dead statement is executed, no exit that is never taken is taken, and each value that is put lies
in its range. In the table of declarations an internal has the hull of its first value and of the ranges at the EVALs that assign it. Pages
that are changed so that a range is too narrow, or a statement or an exit is dead that isn't, have to be refused."""
import html
import os
import random
import re
import subprocess
import tempfile
import xml.etree.ElementTree as ET
from decimal import Decimal

import chart_run
import chart_walk

GROUP = re.compile(r'<g id="(\w+:\d+)" role="group" aria-label="([^"]*)" class="s( dead)?">(.*?)</g>', re.S)
LINE = re.compile(r'<text class="v" x="\d+" y="\d+">(.*?)</text>')
BELOW = re.compile(r'<text class="p v" x="\d+" y="\d+">(.*?)</text>')
RANGE = re.compile(r"(-?\d+(?:\.\d+)?)(?: \.\. (-?\d+(?:\.\d+)?))?")
NEVER = re.compile(r'<text class="(?:y dead" x="\d+" y="\d+">(yes|no) never|e dead" x="\d+" y="\d+">(yes|no))</text>')
DEAD = "never executed within the ranges"
ROW = re.compile(r'<tr id="name-(\w+)"><th scope="row">\1<td>([^<]*)<td class="num">([^<]*)<td class="num">([^<]*)<td>')


def statements_of(text):
    """Each statement of a flowchart's text, by its place."""
    found = {}

    def take(method, statements):
        for statement in statements:
            found["%s:%d" % (method, sum(place.split(":")[0] == method for place in found))] = statement
            for branch in statement if statement.tag == "IF" else []:
                take(method, branch)

    for method in ET.fromstring(text).find("METHODS"):
        take(method.get("name", "MAIN"), method)
    return found


def ends_of(line):
    """The ends of a range as it is written, each with its places."""
    least, greatest = RANGE.fullmatch(line).groups()
    return [Decimal(least), Decimal(greatest or least)]


def hull_of(values):
    """The least range around values, as it is written: with the most places of any."""
    places = max(-value.as_tuple().exponent for value in values)
    least, greatest = (format(end, ".%df" % places) for end in (min(values), max(values)))
    return least if Decimal(least) == Decimal(greatest) else "%s .. %s" % (least, greatest)


def internal_faults(text, page, statements, told):
    """Faults of the ranges of the internals in the table of declarations."""
    rows = {name: [html.unescape(cell) for cell in cells] for name, *cells in ROW.findall(page)}
    for internal in ET.fromstring(text).iter("INTERNAL"):
        name = internal.get("name")
        kind, first, shown = rows.get(name, ["", "", "no row"])
        values = [Decimal(first or "0").quantize(Decimal("0.001")) if kind == "double" else Decimal(first or "0")]
        for place, statement in statements.items():
            if statement.tag == "EVAL" and statement.get("exec").split("=")[0].strip() == name and not told[place].is_dead:
                values += ends_of(told[place].lines[0])
        if shown != hull_of(values):
            yield "the internal %s has the range %s and not %s" % (name, shown, hull_of(values))


class Told:
    """What the drawing tells of a statement."""

    def __init__(self, caption, is_dead, drawn):
        self.is_dead, self.lines = is_dead, [html.unescape(line) for line in LINE.findall(drawn)]
        self.below = BELOW.findall(drawn)
        words = re.search(r"; (within the ranges|dead)((?:; .*)?)$", html.unescape(caption))
        self.words, rest = words.groups() if words else ("", "")
        ways = re.search(r"; ways? never taken: (yes, no|yes|no)$", rest)
        self.never = ways.group(1).split(", ") if ways else []
        self.spoken = [line for line in (rest[:ways.start()] if ways else rest).split("; ") if line]

    def faults(self, place, tag):
        if self.is_dead != (self.words == "dead"):
            yield "%s isn't read aloud as it is drawn" % place
        if self.below != ["unreachable"] * (self.is_dead and tag == "EXECUTE"):
            yield "%s says %s below its place" % (place, self.below)
        if self.is_dead:
            if self.spoken != [DEAD] or self.lines != [DEAD] * (tag != "EXECUTE") or self.never:
                yield "%s is dead, but says %s" % (place, self.lines)
        elif tag == "EVAL":
            if len(self.lines) != 1 or not RANGE.fullmatch(self.lines[0]) or self.spoken != self.lines:
                yield "%s has no range of its own: %s" % (place, self.lines)
        elif self.lines or self.spoken or (self.never and tag != "IF"):
            yield "%s has lines: %s" % (place, self.lines)

    def has(self, value):
        least, greatest = RANGE.fullmatch(self.lines[0]).groups()
        return Decimal(least) <= value <= Decimal(greatest or least)


def runs_of(binary, plan, limits, inputs):
    """The lines of the texts of runs on these inputs."""
    for values in inputs:
        words = ["%s=%s" % value for value in values]
        text = subprocess.run([binary, "text", "trace", plan, limits] + words, capture_output=True).stdout.decode("utf-8")
        yield from (line for line in text.splitlines() if re.match(r"\w+:\d+  ", line))


def range_faults(text, page, lines):
    """Faults of the page of an accepted flowchart beside the lines of its runs."""
    statements = statements_of(text)
    tags = {place: statement.tag for place, statement in statements.items()}
    told = {place: Told(caption, bool(dead), drawn) for place, caption, dead, drawn in GROUP.findall(page)}
    if set(told) != set(tags) or '<main class="ranged">' not in page:
        return ["the statements of the page aren't those of the flowchart, or it has no ranges"]
    faults = [fault for place, tag in tags.items() for fault in told[place].faults(place, tag)]
    if len(NEVER.findall(page)) != sum(len(one.never) for one in told.values()):
        faults.append("the words at the exits aren't those that are read aloud")
    if faults:
        return faults
    faults += internal_faults(text, page, statements, told)
    for line in lines:
        method, number, target, value, answer = chart_run.LINE.fullmatch(line).group(1, 2, 4, 5, 9)
        place = "%s:%s" % (method, number)
        if told[place].is_dead:
            faults.append("a run executes %s, which is dead" % place)
        elif target and not told[place].has(Decimal(value)):
            faults.append("a run puts %s at %s, beyond %s" % (value, place, told[place].lines[0]))
        elif answer and answer in told[place].never:
            faults.append("a run takes the exit %s of %s, which is never taken" % (answer, place))
    return faults


def with_ranges_changed(page, lines):
    """The page where a statement that a run executes is dead, for each, where its range is beyond its values, and where its exit is never
    taken; and where an internal's range has a value more."""
    for match in ROW.finditer(page):
        if ".." in match.group(4):
            yield page[:match.start(4)] + "-1" + page[match.start(4) + match.group(4).index(" "):]
    run = {line.split("  ")[0] for line in lines}
    for match in GROUP.finditer(page):
        if match.group(1) in run:
            at = page.index('class="s', match.start()) + len('class="s')
            yield page[:at] + " dead" + page[at:]
            found = LINE.search(match.group(4))
            if found:
                start = match.start(4) + found.start(1)
                changed = page[:start] + "-1" + page[match.start(4) + found.end(1):]
                yield changed.replace("; within the ranges; %s\"" % found.group(1), "; within the ranges; -1\"", 1)


def check_flowchart(binary, plan, limits, inputs):
    """Faults of the page of a flowchart, the page, and the lines of its runs."""
    done = subprocess.run([binary, "chart", plan, limits], capture_output=True)
    lines = list(runs_of(binary, plan, limits, inputs))
    page = done.stdout.decode("utf-8")
    with open(plan, "rb") as file:
        text = re.sub(rb"<!--.*?-->", b"", file.read(), flags=re.S)
    if done.returncode != 0:
        return ["status %d" % done.returncode], text, page, lines
    return range_faults(text, page, lines) + chart_walk.line_faults(chart_walk.plan_lines(text), page), text, page, lines


def check_ranges(binary, count, seed):
    """Faults of the pages of random flowcharts and of the examples, how many there were, how many statements were dead, and how many changed
    pages were refused of how many."""
    rng, faults, pages, dead, refused, changed = random.Random(seed), [], 0, 0, 0, 0
    with tempfile.TemporaryDirectory() as folder:
        plan, limits = os.path.join(folder, "plan.xml"), os.path.join(folder, "plan.toml")
        for case in range(count):
            for path, text in zip((plan, limits), chart_run.some_plan(rng)):
                with open(path, "w", encoding="utf-8") as file:
                    file.write(text)
            found, text, page, lines = check_flowchart(binary, plan, limits, [[("A", value)] for value in range(10)])
            faults += ["random flowchart %d: %s" % (case, fault) for fault in found[:2]]
            pages, dead = pages + 1, dead + page.count('class="s dead"')
            if case < 3 and not found:
                others = [bool(range_faults(text, other, lines)) for other in with_ranges_changed(page, lines)]
                refused, changed = refused + sum(others), changed + len(others)
    for name in ("wage_tax", "payroll_tax"):
        plan, limits = "examples/%s.xml" % name, "examples/%s.toml" % name
        inputs = [list(chart_run.some_values(rng, limits)) for _ in range(count)]
        found, _, page, _ = check_flowchart(binary, plan, limits, inputs)
        faults += ["%s: %s" % (name, fault) for fault in found[:2]]
        pages += 1
    return faults, pages, dead, refused, changed
