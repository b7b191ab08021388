"""Compares the page of what a table's runs cover with the text of the same, and with the texts of its runs. Of check_chart.py.

Above the drawings stand the counts and lists of the text, in its order. In the drawings each statement is missed or unreachable where the
text says so, and else says how many runs come there; each exit of a test with a line of its own says how many take it, or that it is missed.
These numbers are those of the texts of the runs. Each line leads where the file says. Pages that are changed so that a number, a list or a
mark is wrong have to be refused."""
import csv
import html
import os
import random
import re
import subprocess
import tempfile

import chart_run
import chart_walk

GROUP = re.compile(r'<g id="(\w+:\d+)" role="group" aria-label="([^"]*)" class="s( missed| dead)?">(.*?)</g>', re.S)
LINE = re.compile(r'<text class="v" x="\d+" y="\d+">(.*?)</text>')
BELOW = re.compile(r'<text class="p v" x="\d+" y="\d+">(.*?)</text>')
WAY = re.compile(r"; (yes|no): (\d+) runs?(?=;|$)")
TAKEN = re.compile(r'<text class="y" x="\d+" y="\d+">(?:yes |no )?(\d+)</text>')
LISTED = re.compile(r'<li><a href="#(\w+:\d+)"><code>(.*?)</code></a></li>\n')
ROW = re.compile(r'<tr><th scope="row"><a href="#method-(\w+)">\w+</a><td class="num">(\d+) of (\d+)<td class="num">(\d+) of (\d+)</tr>\n')
COUNTS = re.compile(r"<strong>(\d+) percent</strong> of what runs can come to: (\d+ of \d+ statements, \d+ of \d+ exits)\. "
                    r"Unreachable within the ranges: (\d+)\.</p>\n<p>Runs without amounts: (\d+ of \d+)\.</p>")


def numbered(count):
    return "%d run%s" % (count, "" if count == 1 else "s")


class Covered:
    """What the texts of runs come to: how many at each statement, and at each exit."""

    def __init__(self, traces):
        self.runs, self.ways = {}, {}
        for trace in traces:
            places, ways = set(), set()
            for line in trace:
                method, number, answer = chart_run.LINE.fullmatch(line).group(1, 2, 9)
                places.add("%s:%s" % (method, number))
                ways.add(("%s:%s" % (method, number), answer))
            for place in places:
                self.runs[place] = self.runs.get(place, 0) + 1
            for way in ways:
                self.ways[way] = self.ways.get(way, 0) + 1


def told_by(text, word):
    """The places of the text's lines that begin with a word, each with what stands behind the word."""
    return [(place, words) for words, place in re.findall(r"^%s ((\w+:\d+)  .*)$" % word, text, re.M)]


def head_faults(text, page):
    """Faults of what stands above the drawings."""
    lines = text.splitlines()
    share = re.fullmatch(r"covered (.*), (\d+) percent", lines[0])
    found = COUNTS.search(page)
    wanted = (share.group(2), share.group(1), lines[1].split()[-1], lines[2].split("amounts ")[1])
    if not found or found.groups() != wanted:
        yield "the counts aren't those of the text"
    rows = ["method %s  %s of %s statements, %s of %s exits" % row for row in ROW.findall(page)]
    if rows != [line for line in lines if line.startswith("method ")]:
        yield "the rows of the methods aren't those of the text"
    lists = page[page.index("<h3>Never reached</h3>"):page.index("</section>", page.index("<h3>Never reached</h3>"))]
    for part, word in zip(lists.split("<h3>")[1:], ("never", "unreachable")):
        entries = [(place, html.unescape(words)) for place, words in LISTED.findall(part)]
        wanted = list(told_by(text, word))
        if entries != wanted or ("<p>Nothing.</p>" in part) != (not wanted):
            yield "the list of what is %s isn't that of the text" % word


def unreachable_in(text):
    """The statements that the text says no run within the ranges reaches."""
    return {place for place, _ in told_by(text, "unreachable")}


def exit_faults(text, page, covered):
    """Faults of what is drawn at the exits of tests."""
    dead = unreachable_in(text)
    for _, svgs in chart_walk.svgs_of(page):
        for place, way, told in chart_walk.Drawing(svgs).told_of_exits():
            runs = covered.ways.get((place, way), 0)
            wanted = "" if place in dead else str(runs) if runs else "missed"
            if told != wanted:
                yield "the exit %s of %s says %r, and not %r" % (way, place, told, wanted)


def mark_faults(text, page, covered):
    """Faults of the statements in the drawings."""
    dead = unreachable_in(text)
    for place, caption, kind, drawn in GROUP.findall(page):
        runs = covered.runs.get(place, 0)
        wanted = (" dead", "unreachable") if place in dead else ("", numbered(runs)) if runs else (" missed", "never")
        lines = [html.unescape(line) for line in LINE.findall(drawn)] or BELOW.findall(drawn)
        if (kind, lines) != (wanted[0], [wanted[1]]):
            yield "%s is told as %s, and not as %s" % (place, lines, wanted[1])
        words = html.unescape(caption)
        said = re.search(r"; (covered|missed|dead); %s((?:; .*)?)$" % wanted[1], words)
        if not said or said.group(1) != {"": "covered", " missed": "missed", " dead": "dead"}[wanted[0]]:
            yield "%s isn't read aloud as it is drawn" % place
            continue
        for way, count in WAY.findall(said.group(2)):
            if covered.ways.get((place, way), 0) != int(count):
                yield "the exit %s of %s has %s runs" % (way, place, count)
        missed = re.search(r"; ways? missed: (yes, no|yes|no)", said.group(2))
        if any(covered.ways.get((place, way), 0) for way in (missed.group(1).split(", ") if missed else [])):
            yield "an exit of %s is missed that a run takes" % place


def cover_faults(text, page, covered):
    return list(head_faults(text, page)) + list(mark_faults(text, page, covered)) + list(exit_faults(text, page, covered))


def with_counts_changed(page):
    """The page with another number at each statement and exit, another class, another number of each row, and without each entry."""
    for match in GROUP.finditer(page):
        found = LINE.search(match.group(4))
        if found:
            at = match.start(4) + found.end(1)
            yield page[:at] + "0" + page[at:]
        start = page.index('class="s', match.start()) + len('class="s')
        yield page[:start] + ("" if match.group(3) else " missed") + page[start + len(match.group(3) or ""):]
    for match in TAKEN.finditer(page):
        yield page[:match.end(1)] + "0" + page[match.end(1):]
    for match in ROW.finditer(page):
        yield page[:match.start(2)] + "9" + page[match.start(2):]
    for match in LISTED.finditer(page):
        yield page[:match.start()] + page[match.end():]


def check_table(binary, folder, plan, limits, names, runs):
    """Faults of the page of a table with these runs, its page, its text, and what the texts of its runs come to."""
    table = os.path.join(folder, "table.csv")
    with open(table, "w", encoding="utf-8", newline="") as file:
        written = csv.writer(file, lineterminator="\n")
        written.writerow(["employee", "month", "day"] + names)
        for k, values in enumerate(runs):
            written.writerow(["E%d" % k, "2026-01", "2026-01-30"] + [dict(values).get(name, "") for name in names])
    pages = [subprocess.run([binary] + form + [plan, limits, table], capture_output=True) for form in (["cover"], ["text", "cover"])]
    page, text = (done.stdout.decode("utf-8") for done in pages)
    if any(done.returncode for done in pages):
        return ["status %d and %d" % tuple(done.returncode for done in pages)], page, text, None
    traces = []
    for values in runs:
        words = ["%s=%s" % value for value in values]
        told = subprocess.run([binary, "text", "trace", plan, limits] + words, capture_output=True).stdout.decode("utf-8")
        traces.append([line for line in told.splitlines() if re.match(r"\w+:\d+  ", line)])
    covered = Covered(traces)
    with open(plan, "rb") as file:
        wanted = chart_walk.plan_lines(file.read())
    return cover_faults(text, page, covered) + chart_walk.line_faults(wanted, page), page, text, covered


def check_covers(binary, count, seed):
    """Faults of the pages of random tables, how many there were, and how many changed pages were refused of how many."""
    rng, faults, pages, refused, changed = random.Random(seed), [], 0, 0, 0
    with tempfile.TemporaryDirectory() as folder:
        plan, limits = os.path.join(folder, "plan.xml"), os.path.join(folder, "plan.toml")
        for case in range(count):
            for path, text in zip((plan, limits), chart_run.some_plan(rng)):
                with open(path, "w", encoding="utf-8") as file:
                    file.write(text)
            runs = [[("A", "%d" % rng.randrange(10))] for _ in range(rng.randrange(4))]
            found, page, text, covered = check_table(binary, folder, plan, limits, ["A"], runs)
            faults += ["random flowchart %d: %s" % (case, fault) for fault in found[:2]]
            pages += 1
            if case < 3 and not found:
                others = [bool(cover_faults(text, other, covered)) for other in with_counts_changed(page)]
                refused, changed = refused + sum(others), changed + len(others)
        for name in ("wage_tax", "payroll_tax"):
            plan, limits = "examples/%s.xml" % name, "examples/%s.toml" % name
            runs = [list(chart_run.some_values(rng, limits)) for _ in range(4)]
            names = sorted({name for values in runs for name, _ in values})
            found, _, _, _ = check_table(binary, folder, plan, limits, names, runs)
            faults += ["%s: %s" % (name, fault) for fault in found[:2]]
            pages += 1
    return faults, pages, refused, changed
