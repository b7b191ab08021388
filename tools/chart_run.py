"""Compares the page of a traced run with the text of the same run. Of check_chart.py.

The list has each statement of the text in order, with its place, its line, its expression, what came of it, and the values that it read;
above it stand the inputs and outputs. In the drawings each statement of the text is marked, with its values or answers and a link to its
first entry, and no other statement is. Pages that are changed so that an entry or a mark is wrong have to be refused."""
import html
import os
import random
import re
import subprocess
import tempfile
import tomllib

LISTED = 500
TOLD = 3
GROUP = re.compile(r'<g id="(\w+:\d+)" role="group" aria-label="([^"]*)" class="s( ran)?">(.*?)</g>', re.S)
DONE = re.compile(r'<text class="v" x="\d+" y="\d+">(.*?)</text>')
ENTRY = re.compile(r'<li id="visit-(\d+)"><a href="#(\w+):(\d+)">(\w+):(\d+)</a> <span>(.*?)</span> <code>(.*?)</code> '
                   r'<em>(.*?)</em> <span>(.*?)</span></li>\n')
LINE = re.compile(r"(\w+):(\d+)  (?:line (\d+)  )?(?:set (\w+) = (\S+)  by (.*)|execute (\w+)|(.*) -> (yes|no)(.*))")


def traced(binary, plan, limits, values):
    """What the page and the text of a run are, with their statuses."""
    words = [plan, limits] + ["%s=%s" % value for value in values]
    page = subprocess.run([binary, "trace"] + words, capture_output=True)
    text = subprocess.run([binary, "text", "trace"] + words, capture_output=True)
    return page.returncode, page.stdout.decode("utf-8"), text.returncode, text.stdout.decode("utf-8")


class Step:
    """A statement of the text of a run."""

    def __init__(self, line):
        method, number, source, target, value, made, callee, test, answer, rest = LINE.fullmatch(line).groups()
        self.place, self.source = "%s:%s" % (method, number), source
        reads = re.search(r"(  \(\w+ = [^()]*\))?$", made if target else rest or "").group(0)
        if target:
            self.code, self.outcome = "%s = %s" % (target, made[:len(made) - len(reads)]), "= " + value
        elif callee:
            self.code, self.outcome = "EXECUTE " + callee, ""
        else:
            self.code, self.outcome = test, "\u2192 " + answer
        self.reads = reads
        self.is_set, self.is_test, self.answer = bool(target), bool(test), answer

    def told(self):
        """What the drawing tells of it."""
        if self.is_set:
            return self.outcome[2:]
        return (self.reads[3:-1] + " " if self.reads else "") + self.outcome


def same(one, other):
    return " ".join(one.split()) == " ".join(other.split())


def entry_faults(steps, page):
    """Faults of the list: of more than 1,000 statements it has the first and the last 500, and says how many it leaves out."""
    faults, left_out = [], max(0, len(steps) - 2 * LISTED)
    wanted = [(k, step) for k, step in enumerate(steps, 1) if k <= LISTED or k > len(steps) - LISTED]
    found = [tuple(html.unescape(part) for part in match) for match in ENTRY.findall(page)]
    if len(found) != len(wanted):
        faults.append("%d entries of %d" % (len(found), len(wanted)))
    if (("<p>%d statements of the run are left out" % left_out) in page) != (left_out > 0):
        faults.append("the list doesn't say that it leaves %d out" % left_out)
    for (k, step), (number, m, n, m2, n2, line, code, outcome, reads) in zip(wanted, found):
        is_same = (int(number) == k and m + ":" + n == step.place == m2 + ":" + n2 and code == step.code
                   and same(line, "line " + step.source if step.source else "") and same(outcome, step.outcome)
                   and same(reads, step.reads))
        if not is_same:
            faults.append("entry %d isn't that of %s" % (k, step.place))
    return faults


class Mark:
    """What the drawing has to tell of a statement, by its steps with their numbers: its lines, its entry, and the ways taken behind it."""

    def __init__(self, visits, total):
        first, step = visits[0]
        texts = [visit.told() for _, visit in visits[:TOLD]] + ["%d more" % (len(visits) - TOLD)] * (len(visits) > TOLD)
        self.lines = ["= " + " \u00b7 ".join(texts)] if step.is_set else texts if step.is_test else []
        self.entry = first if first <= LISTED or first > total - LISTED else LISTED
        ways = [way for way in ("yes", "no") if any(visit.answer == way for _, visit in visits)]
        self.words = "; ".join(["executed"] + self.lines) + ("; way%s taken: %s" % ("s" * (len(ways) - 1), ", ".join(ways)) if ways else "")


def mark_faults(steps, page):
    """Faults of the drawings: each statement of the run is marked, with its lines and the link to its entry, and no other is."""
    faults, places = [], {}
    for number, step in enumerate(steps, 1):
        places.setdefault(step.place, []).append((number, step))
    marks = {place: Mark(visits, len(steps)) for place, visits in places.items()}
    groups = GROUP.findall(page)
    if not set(marks) <= {place for place, _, _, _ in groups}:
        faults.append("a statement of the run isn't drawn")
    for place, caption, is_run, drawn in groups:
        mark = marks.get(place)
        lines, links = [html.unescape(line) for line in DONE.findall(drawn)], re.findall(r'href="#visit-(\d+)"', drawn)
        done = re.search(r"; (executed(?:; .*)?)$", html.unescape(caption))
        is_same = ((bool(is_run), lines, links, done and done.group(1)) ==
                   ((True, mark.lines, [str(mark.entry)], mark.words) if mark else (False, [], [], None)))
        if not is_same:
            faults.append("the mark of %s isn't that of its steps" % place)
    return faults


def run_faults(page, text):
    """Faults of the page of a run beside its text."""
    steps = [Step(line) for line in text.splitlines() if re.match(r"\w+:\d+  ", line)]
    faults = entry_faults(steps, page) + mark_faults(steps, page)
    for kind, name, value in re.findall(r"^(input|output) (\w+) = (\S+)", text, re.M):
        if not re.search(r'<th scope="row">%s<td class="num">%s(?:<td>|</tr>)' % (name, re.escape(value)), page):
            faults.append("no row of the %s %s" % (kind, name))
    return faults


def some_values(rng, limits):
    """Random inputs within the ranges of a range file."""
    with open(limits, "rb") as file:
        found = tomllib.load(file)
    for name, limit in found["input"].items():
        if name in found.get("bind", {}) or rng.random() < 0.8:
            scale = 10 ** int(limit.get("places", 0))
            low, high = float(limit["low"]) * scale, float(limit["high"]) * scale
            most = rng.choice([high, min(high, low + 100000), low])
            yield name, ("%d" % rng.randint(int(low), int(most))) if scale == 1 else "%.*f" % (
                int(limit["places"]), rng.randint(int(low), int(most)) / scale)


def with_entries_changed(page):
    """The page without an entry, with another place, and with another value or answer, for each entry."""
    for match in ENTRY.finditer(page):
        yield page[:match.start()] + page[match.end():]
        for group in (3, 5, 8):
            if match.group(group):
                yield page[:match.start(group)] + match.group(group) + "0" + page[match.end(group):]


def with_marks_changed(page):
    """The page with each mark of a statement taken away or put where none is, with another line, and with another entry."""
    for match in GROUP.finditer(page):
        start = page.index('class="s', match.start()) + len('class="s')
        yield page[:start] + ("" if match.group(3) else " ran") + page[start + len(match.group(3) or ""):]
        for found in (DONE.search(match.group(4)), re.search(r'href="#visit-(\d+)"', match.group(4))):
            if found:
                at = match.start(4) + found.end(1)
                yield page[:at] + "0" + page[at:]


def some_plan(rng):
    """A random flowchart that is accepted, whose methods are executed several times, and its range file."""
    names, methods, lines = ["A", "B", "C"], ["M%d" % k for k in range(rng.randrange(1, 5))], []

    def body(below, depth):
        for _ in range(rng.randrange(1, 4)):
            kind = rng.random()
            if kind < 0.4:
                lines.append('<EVAL exec="%s = %s"/>' % (rng.choice(names[1:]), rng.choice(names + ["%d" % rng.randrange(9)])))
            elif kind < 0.7 and below:
                lines.append('<EXECUTE method="%s"/>' % rng.choice(below))
            elif depth:
                lines.append('<IF expr="%s &lt; %s"><THEN>' % (rng.choice(names), rng.choice(names + ["%d" % rng.randrange(9)])))
                body(below, depth - 1)
                lines.append("</THEN>")
                if rng.random() < 0.5:
                    lines.append("<ELSE>")
                    body(below, depth - 1)
                    lines.append("</ELSE>")
                lines.append("</IF>")
        lines.append('<EVAL exec="C = %s"/>' % rng.choice(names))

    lines.append('<PAP name="random"><VARIABLES><INPUTS><INPUT name="A" type="int"/></INPUTS>')
    lines.append('<OUTPUTS><OUTPUT name="C" type="int"/></OUTPUTS></VARIABLES>')
    lines.append('<INTERNALS><INTERNAL name="B" type="int"/></INTERNALS><METHODS><MAIN>')
    body(methods, 2)
    lines.append("</MAIN>")
    for k, method in enumerate(methods):
        lines.append('<METHOD name="%s">' % method)
        body(methods[k + 1:], 2)
        lines.append("</METHOD>")
    lines.append("</METHODS></PAP>")
    return "\n".join(lines), "[input.A]\nlow = 0\nhigh = 9\nplaces = 0\n"


def check_random_runs(binary, count, rng):
    """Faults of the pages of runs of random flowcharts, and how many there were."""
    faults, pages = [], 0
    with tempfile.TemporaryDirectory() as folder:
        plan, limits = os.path.join(folder, "plan.xml"), os.path.join(folder, "plan.toml")
        for case in range(count):
            for path, text in zip((plan, limits), some_plan(rng)):
                with open(path, "w", encoding="utf-8") as file:
                    file.write(text)
            status, page, _, text = traced(binary, plan, limits, [("A", rng.randrange(10))])
            if status != 0:
                faults.append("random flowchart %d: status %d" % (case, status))
            else:
                pages += 1
                faults += ["random flowchart %d: %s" % (case, fault) for fault in run_faults(page, text)[:2]]
    return faults, pages


def check_runs(binary, count, seed):
    """Faults of the pages of random runs of the examples, how many there were, and how many changed pages were refused of how many."""
    rng, refused, changed = random.Random(seed), 0, 0
    faults, pages = check_random_runs(binary, count, rng)
    for name in ("wage_tax", "payroll_tax"):
        plan, limits = "examples/%s.xml" % name, "examples/%s.toml" % name
        for case in range(count):
            values = list(some_values(rng, limits))
            page_status, page, text_status, text = traced(binary, plan, limits, values)
            if page_status != text_status:
                faults.append("%s: status %d and %d" % (name, page_status, text_status))
            elif page_status == 1:
                if html.escape(text.strip()) not in page:
                    faults.append("%s: the page of %s doesn't say it" % (name, text.strip()))
            else:
                pages += 1
                faults += ["%s %s: %s" % (name, values, fault) for fault in run_faults(page, text)[:2]]
                if case == 0:
                    others = list(with_entries_changed(page)) + list(with_marks_changed(page))
                    found = [bool(run_faults(other, text)) for other in others]
                    refused, changed = refused + sum(found), changed + len(found)
    return faults, pages, refused, changed
