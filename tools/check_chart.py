#!/usr/bin/env python3
"""Draws random flowcharts with pap_author and checks the pages: python3 tools/check_chart.py BINARY [COUNT [SEED]].

Of each drawing: no line meets a symbol but where it enters or leaves it, no horizontal line crosses a vertical one, no two
vertical lines lie over one another, no two symbols share a height, all is inside the drawing, and no cut goes through a
symbol, a word or a comment. Each line, followed from symbol to symbol by the words at the ways of its test, leads where the file
says (`chart_walk.py`). Of each page: each row of its table of declarations has the name, the type, the default or value and the comments
of its declaration (`chart_table.py`); each statement and each comment is there once, a statement's caption has its place, on which
way of the nearest test it stands, and the characters of its lines; each link leads to a place of the page, each id stands once, and the drawings are well-formed XML; there
is no script, and nothing that is fetched; there is one verdict, and no element, attribute or comment that could hide it; what the
verdict of a refused plan links to is marked, and of another nothing is. Pages that are changed so that a word, a line, a caption or
the verdict is wrong have to be refused. The page of a run says what the text of the run does (`chart_run.py`); so do the page of a comparison
(`chart_compare.py`) and that of what a table covers (`chart_cover.py`). What the page of an accepted flowchart says of all runs holds of
its runs (`chart_ranges.py`); that of one whose walk over the ranges stops shows where, and what is known before (`chart_stopped.py`). Of a
range file that is begun for a plan of random inputs: the plan is accepted with it, and the page shows the range of each name."""
import os
import random
import re
import subprocess
import sys
import tempfile
import xml.etree.ElementTree as ET

import chart_compare
import chart_cover
import chart_ranges
import chart_run
import chart_stopped
import chart_table
import chart_walk

# Each change of the words or lines of its page makes a line lead elsewhere.
CHANGED_PLAN = b"""<PAP><VARIABLES><INPUTS><INPUT name="x" type="int"/></INPUTS><OUTPUTS><OUTPUT name="o" type="int"/></OUTPUTS></VARIABLES>
<INTERNALS><INTERNAL name="a" type="int"/></INTERNALS>
<METHODS><MAIN><EVAL exec="a = 1"/><EVAL exec="a = 2"/>
<IF expr="x == 1"><THEN><EVAL exec="a = 3"/></THEN></IF>
<IF expr="x == 2"><THEN></THEN><ELSE><EXECUTE method="M"/></ELSE></IF>
<IF expr="x == 3"><THEN><EVAL exec="a = 4"/></THEN><ELSE><EVAL exec="a = 5"/></ELSE></IF>
<EXECUTE method="M"/></MAIN>
<METHOD name="M"><IF expr="x == 1"><THEN><IF expr="x == 2"><THEN><EVAL exec="a = 1"/></THEN><ELSE><EVAL exec="a = 2"/></ELSE></IF></THEN>
<ELSE><IF expr="x == 3"><THEN><EVAL exec="a = 3"/></THEN><ELSE><EVAL exec="a = 4"/><IF expr="x == 4"><THEN><EVAL exec="a = 5"/></THEN></IF>
</ELSE></IF></ELSE></IF></METHOD></METHODS></PAP>"""

VERDICTS = ("<b>Accepted.</b>", "<b>In order</b>", "<b>Refused.</b>")
ELEMENTS = set("""a b body br caption code div em g h1 h2 h3 head header html i li main meta nav ol p path rect section small span strong
style svg table tbody td text th thead title tr tspan ul""".split())
ATTRIBUTES = set("""aria-hidden aria-label aria-labelledby charset class colspan content d height href id lang name role rx scope start
viewBox width x y""".split())

# Each change of the cells of its page makes a row wrong.
TABLE_PLAN = b"""<PAP><VARIABLES><INPUTS><!-- an --> <!-- amount --><INPUT name="x" type="int" default="1"/>
<INPUT name="y" type="BigDecimal" default="BigDecimal.valueOf(150, 2)"/><!-- a &lt; &amp; -->
<INPUT name="z" type="double" default="1.5"/></INPUTS><OUTPUTS><OUTPUT name="o" type="int"/></OUTPUTS></VARIABLES>
<INTERNALS><INTERNAL name="a" type="long"/></INTERNALS>
<CONSTANTS><CONSTANT name="C" type="BigDecimal" value="new BigDecimal(&quot;0.10&quot;)"/><!-- rates -->
<CONSTANT name="T" type="BigDecimal[]" value="{BigDecimal.ZERO, BigDecimal.valueOf(-0.25), new BigDecimal(7)}"/></CONSTANTS>
<METHODS><MAIN><EVAL exec="o = 1"/></MAIN></METHODS></PAP>"""

LETTERS = "ABCDEFGHIJKLMNOPQRSTUVWXYZ"
NUMBER = r"-?\d+"


def some_name(rng, most=32):
    return rng.choice(LETTERS) + "".join(rng.choice(LETTERS + "_0123456789") for _ in range(rng.randrange(most)))


class Plan:
    """A random plan: its text, and for each method the number of its statements."""

    def __init__(self, rng):
        self.rng = rng
        self.names = sorted({some_name(rng) for _ in range(8)})
        self.methods = sorted({some_name(rng) for _ in range(rng.randrange(4))} - {"MAIN"} - set(self.names))
        self.counts = {}
        self.lines = []
        self.comments = 0
        self.write()

    def comment(self, chance):
        if self.rng.random() < chance:
            words = ["pr\u00fcfen", "<&>", "'x'", '"y"', "tax", "a" * self.rng.randrange(1, 40), "--", "of the year"]
            text = " ".join(self.rng.choice(words) for _ in range(self.rng.randrange(1, 30)))
            self.lines.append("<!-- " + text.replace("-->", "") + " note%d. -->" % self.comments)
            self.comments += 1

    def tag(self, text, chance=0.2):
        self.comment(chance)
        self.lines.append(text)

    def term(self, depth):
        rng = self.rng
        if depth == 0 or rng.random() < 0.3:
            return rng.choice([rng.choice(self.names), "BigDecimal.ZERO", "BigDecimal.valueOf(%d)" % rng.randrange(1000)])
        call = rng.choice(["add", "subtract", "multiply", "max"])
        return "%s.%s(%s)" % (self.term(depth - 1), call, self.term(depth - 1))

    def default(self, kind):
        rng = self.rng
        number = {"BigDecimal": "BigDecimal.valueOf(%d, %d)" % (rng.randrange(-999, 999), rng.randrange(4)),
                  "double": "%d.%d" % (rng.randrange(9), rng.randrange(1, 9))}
        return ' default="%s"' % number.get(kind, rng.randrange(99)) if rng.random() < 0.6 else ""

    def test(self):
        rng = self.rng
        tests = ["%s.compareTo(%s) %s 0" % (self.term(2), self.term(2), rng.choice(["&lt;", "&gt;", "=="]))
                 for _ in range(rng.randrange(1, 4))]
        return rng.choice([" &amp;&amp; ", " || "]).join(tests)

    def body(self, method, depth, most):
        rng = self.rng
        for _ in range(rng.randrange(most)):
            self.comment(0.15)
            self.counts[method] += 1
            kind = rng.random()
            if kind < 0.45:
                text = "%s = %s" % (rng.choice(self.names), self.term(rng.randrange(4)))
                if rng.random() < 0.05:
                    text += " + &lt;&quot;%d" % rng.randrange(9)
                self.lines.append('<EVAL exec="%s"/>' % text)
            elif kind < 0.6 and self.methods:
                self.lines.append('<EXECUTE method="%s"/>' % rng.choice(self.methods + ["NOWHERE"]))
            elif depth > 0:
                self.lines.append('<IF expr="%s">' % self.test())
                self.comment(0.1)
                self.lines.append("<THEN>")
                self.body(method, depth - 1, 4)
                self.lines.append("</THEN>")
                if rng.random() < 0.6:
                    self.comment(0.1)
                    self.lines.append("<ELSE>")
                    self.body(method, depth - 1, rng.choice([1, 2, 2, 4]))
                    self.lines.append("</ELSE>")
                self.comment(0.05)
                self.lines.append("</IF>")
            else:
                self.lines.append('<EVAL exec="%s = 1"/>' % rng.choice(self.names))
        self.comment(0.1)

    def write(self):
        rng = self.rng
        self.tag('<PAP name="A &amp; &lt;b&gt; &quot;c&quot;" version="1">')
        self.tag("<VARIABLES>")
        self.tag("<INPUTS>")
        for name in self.names[:4]:
            kind = rng.choice(["int", "long", "BigDecimal", "double"])
            self.tag('<INPUT name="%s" type="%s"%s/>' % (name, kind, self.default(kind)), 0.5)
        if rng.random() < 0.2:
            self.tag('<INPUT name="%s" type="int"/>' % self.names[0])
        self.tag("</INPUTS>")
        for name in self.names[-1 - rng.randrange(2):]:
            self.tag("<OUTPUTS>")
            self.tag('<OUTPUT name="%s" type="BigDecimal">' % name)
            self.tag("</OUTPUT>")
            self.tag("</OUTPUTS>")
        self.tag("</VARIABLES>")
        if rng.random() < 0.3:
            self.tag("<INTERNALS>")
            self.tag("</INTERNALS>")
        self.tag("<METHODS>")
        for method in ["MAIN"] + self.methods:
            self.counts[method] = 0
            self.comment(0.3)
            self.lines.append("<MAIN>" if method == "MAIN" else '<METHOD name="%s">' % method)
            self.body(method, rng.randrange(7), rng.choice([3, 6, 12]))
            self.lines.append("</MAIN>" if method == "MAIN" else "</METHOD>")
        self.tag("</METHODS>")
        self.tag("</PAP>")
        self.comment(0.2)

    def text(self):
        return "\n".join(self.lines).encode("utf-8")


def number(element, key):
    return int(element.get(key))


class Part:
    """A part of a drawing: its frame, its lines, and the boxes of its symbols, words and comments."""

    def __init__(self, svg):
        _, self.top, self.width, self.height = [int(n) for n in svg.get("viewBox").split()]
        self.symbols, self.words, self.notes, self.verticals, self.horizontals, self.ids = [], [], [], [], [], []
        self.captions = []
        for element in svg.iter():
            if element.get("id") and not element.tag == "title":
                self.ids.append(element.get("id"))
            getattr(self, "take_" + element.tag, lambda _: None)(element)

    def take_rect(self, rect):
        if rect.get("class"):
            x, y = number(rect, "x"), number(rect, "y")
            self.symbols.append((x, y, x + number(rect, "width"), y + number(rect, "height")))

    def take_path(self, path):
        kind, data = path.get("class").split()[0], path.get("d")
        if kind == "l":
            for x, y, way, end in re.findall(r"M(%s) (%s)([VH])(%s)" % ((NUMBER,) * 3), data):
                where = self.verticals if way == "V" else self.horizontals
                where.append((int(x), int(y), int(end)))
        elif kind == "d":
            x, middle, half, flat = [int(n) for n in re.match(
                r"M(%s) (%s)l12 -(%s)h(%s)" % ((NUMBER,) * 4), data).groups()]
            self.symbols.append((x, middle - half, x + flat + 24, middle + half))
        elif kind == "k":
            right, top, height = [int(n) for n in re.search(r"M(%s) (%s)h-6v(%s)" % ((NUMBER,) * 3), data).groups()]
            self.notes.append((right - 6, top, right, top + height))

    def take_g(self, group):
        lines = [text for text in group.iter("text") if text.get("class") not in ("p", "v")]
        caption = re.sub(r"^\w+:\d+(?:, where \w+:\d+ (?:holds|does not hold))?: ", "", group.get("aria-label"))
        self.captions.append((caption, "".join("".join(line.itertext()) for line in lines)))

    def take_text(self, text):
        if (text.get("class") or "").split(" ")[0] in ("y", "e"):
            x, y = number(text, "x"), number(text, "y")
            self.words.append((x, y - 10, x, y + 3))


def check_drawing(parts):
    faults = []
    symbols = [s for part in parts for s in part.symbols]
    width, bottom = parts[0].width, parts[-1].top + parts[-1].height
    for one, other in zip(sorted(symbols, key=lambda s: s[1]), sorted(symbols, key=lambda s: s[1])[1:]):
        if other[1] < one[3]:
            faults.append("two symbols at one height %s %s" % (one, other))
    for left, top, right, low in symbols:
        if left < 0 or top < 0 or right > width or low > bottom:
            faults.append("outside %s" % ((left, top, right, low),))
    for part in parts:
        for caption, lines in part.captions:
            if "".join(caption.split()) != "".join(lines.split()):
                faults.append("the caption %r beside the lines %r" % (caption, lines))
        low = part.top + part.height
        for name, boxes in (("symbol", part.symbols), ("word", part.words), ("comment", part.notes)):
            for box in boxes:
                if box[1] < part.top or box[3] > low:
                    faults.append("a cut goes through a %s %s, part %d to %d" % (name, box, part.top, low))
        for x, y, end in part.verticals:
            if not (0 <= x <= width and part.top <= y <= end <= low):
                faults.append("a vertical line outside its part %s" % ((x, y, end),))
            for left, top, right, under in part.symbols:
                if left <= x <= right and y < under and end > top:
                    faults.append("a vertical line meets a symbol %s %s" % ((x, y, end), (left, top, right, under)))
        for x, y, end in part.horizontals:
            if not (0 <= x < end <= width and part.top <= y <= low):
                faults.append("a horizontal line outside %s" % ((x, y, end),))
            for left, top, right, under in part.symbols:
                if top <= y <= under:
                    faults.append("a horizontal line meets a symbol %s" % ((x, y, end),))
            for column, above, below in part.verticals:
                if x < column < end and above < y < below:
                    faults.append("lines cross at %d %d" % (column, y))
        ordered = sorted(part.verticals)
        for one, other in zip(ordered, ordered[1:]):
            if one[0] == other[0] and other[1] < one[2]:
                faults.append("two lines over one another %s %s" % (one, other))
    return faults


def check_marks(status, text):
    """Faults of what is marked in red: what the verdict of a refused plan links to, and nothing without one."""
    marks = re.findall(r'<[a-z]+ [^>]*class="(?:[a-z]+ )?bad"[^>]*>', text)
    if text.count("<b>Refused.</b>") != status:
        return ["status %d beside another verdict" % status]
    if status == 0:
        return ["marked in a plan that isn't refused: %s" % mark for mark in marks[:1]]
    return ["not marked: %s" % link for link in re.findall(r'<a href="#([^"]*)">Show it in the', text)
            if not any(' id="%s"' % link in mark for mark in marks)]


def check_verdict(text):
    """Faults of the verdict: that there is another beside it, or that something could hide one: a comment, another element than the page's
    own few, or another attribute than theirs."""
    faults = []
    if sum(text.count(verdict) for verdict in VERDICTS) != 1:
        faults.append("there isn't one verdict")
    if "<!--" in text or text.count('class="skip"') != 1:
        faults.append("a comment of HTML, or an element that the style sheet hides")
    for name, attributes in re.findall(r"<([a-zA-Z][a-zA-Z0-9]*)([^<>]*)>", text):
        names = set(re.findall(r"\s([^\s=\"]+)", re.sub(r'"[^"]*"', '""', attributes.rstrip("/"))))
        if name not in ELEMENTS or names - ATTRIBUTES:
            faults.append("<%s%s> isn't the page's own" % (name, attributes))
    if text.count("<") != len(re.findall(r"<(?:!DOCTYPE html|/?[a-zA-Z][a-zA-Z0-9]*)(?=[\s>/])", text)):
        faults.append("a mark of HTML that begins no tag")
    return faults


def check_page(plan, status, page):
    faults = []
    text = page.decode("utf-8")
    for part in re.findall(r"<(?:script|link|img|image|iframe|object|embed|base|use)\b|@import|url\(|<[^>]*\s(?:src|on[a-z]+)=", text):
        faults.append("a script, or what is fetched: %s" % part)
    faults += check_marks(status, text) + check_verdict(text)
    ids = re.findall(r'\sid="([^"]*)"', text)
    twice = {i for i in ids if ids.count(i) > 1 and not i.startswith("name-")}
    if twice:
        faults.append("ids twice: %s" % sorted(twice)[:3])
    for link in re.findall(r'href="#([^"]*)"', text):
        if link not in ids:
            faults.append("a link to nowhere: %s" % link)
    for method, count in plan.counts.items():
        for statement in range(count):
            if "%s:%d" % (method, statement) not in ids:
                faults.append("no statement %s:%d" % (method, statement))
    for number in range(plan.comments):
        if text.count(" note%d." % number) + text.count(">note%d." % number) != 1:
            faults.append("comment %d isn't there once" % number)
    for section in re.findall(r'<section class="m.*?</section>', text, re.S):
        parts = [Part(ET.fromstring(svg)) for svg in re.findall(r"<svg role.*?</svg>", section, re.S)]
        faults += check_drawing(parts)
    faults += chart_table.table_faults(plan.text(), text)
    faults += chart_walk.caption_faults(chart_walk.plan_captions(plan.text()), text)
    return faults + chart_walk.line_faults(chart_walk.plan_lines(plan.text()), text)


def draw(binary, folder, plan):
    """What `chart` answers for a plan without a range file."""
    path = os.path.join(folder, "plan.xml")
    with open(path, "wb") as file:
        file.write(plan)
    return subprocess.run([binary, "chart", path], capture_output=True)


def with_another_verdict(page):
    """The page with a second verdict, and with its own hidden."""
    paragraph = '<p class="ok">'
    for changed in (paragraph + VERDICTS[2], "<p hidden>", '<p class="skip">', "<!--" + paragraph, "<dialog>" + paragraph):
        yield page.replace(paragraph, changed, 1)


def check_changed_pages(binary, folder):
    """How many changed pages were refused, and how many there are."""
    page, wanted = draw(binary, folder, CHANGED_PLAN).stdout.decode("utf-8"), chart_walk.plan_lines(CHANGED_PLAN)
    if chart_walk.line_faults(wanted, page) or check_verdict(page):
        return 0, 1
    refused, pages = 0, 0
    for changed_pages in (chart_walk.with_words_changed, chart_walk.with_a_line_led_back, chart_walk.without_a_line):
        found = [bool(chart_walk.line_faults(wanted, changed)) for changed in changed_pages(page)]
        refused, pages = refused + sum(found), pages + max(1, len(found))
    captions = chart_walk.plan_captions(CHANGED_PLAN)
    if chart_walk.caption_faults(captions, page):
        return refused, pages + 1
    found = [bool(chart_walk.caption_faults(captions, changed)) for changed in chart_walk.with_a_condition_changed(page)]
    refused, pages = refused + sum(found), pages + max(1, len(found))
    found = [bool(check_verdict(changed)) for changed in with_another_verdict(page)]
    refused, pages = refused + sum(found), pages + len(found)
    page = draw(binary, folder, TABLE_PLAN).stdout.decode("utf-8")
    if chart_table.table_faults(TABLE_PLAN, page):
        return refused, pages + 1
    for changed_pages in (chart_table.with_cells_exchanged, chart_table.with_the_default_above, chart_table.without_a_row):
        found = [bool(chart_table.table_faults(TABLE_PLAN, changed)) for changed in changed_pages(page)]
        refused, pages = refused + sum(found), pages + max(1, len(found))
    return refused, pages


def plan_of_inputs(rng):
    """A plan with up to 256 random inputs and long comments, whose only statement is safe whatever the inputs are."""
    lines = ["<PAP><VARIABLES><INPUTS>"]
    for number in range(rng.choice([0, 1, 5, 256])):
        for _ in range(rng.randrange(3)):
            words = [rng.choice(["x", "\U0001f4b6" * 90, "\u00fc\u00e4", "\t\r\n\x7f\x01", "#", '"""', "=", "a" * 300])
                     for _ in range(rng.randrange(60))]
            lines.append("<!-- %s -->" % " ".join(words))
        kind = rng.choice(["int", "long", "BigDecimal", "double"])
        lines.append('<INPUT name="%s%d" type="%s"/>' % (some_name(rng, 20), number, kind))
    lines.append('</INPUTS><OUTPUTS><OUTPUT name="out" type="BigDecimal"/></OUTPUTS></VARIABLES>')
    lines.append('<METHODS><MAIN><EVAL exec="out = BigDecimal.ZERO"/></MAIN></METHODS></PAP>')
    return "\n".join(lines).encode("utf-8")


def check_ranges(binary, folder, plan):
    """Faults of the range file that is begun for a plan."""
    path, draft = os.path.join(folder, "inputs.xml"), os.path.join(folder, "draft.toml")
    with open(path, "wb") as file:
        file.write(plan)
    ranges = subprocess.run([binary, "ranges", path], capture_output=True)
    with open(draft, "wb") as file:
        file.write(ranges.stdout)
    done = subprocess.run([binary, "chart", path, draft], capture_output=True)
    if ranges.returncode != 0 or done.returncode != 0:
        return ["the range file is refused: %s %s" % (ranges.stderr, done.stderr)]
    page, faults = done.stdout.decode("utf-8"), []
    shown = [("out", "0 to 0")]
    for name, low, high, places in re.findall(r"\[input\.(\w+)\]\nlow = (\S+)\nhigh = (\S+)\nplaces = (\d)", ranges.stdout.decode("utf-8")):
        behind = "" if places == "0" else ", %s places" % places
        shown.append((name, "%s to %s%s" % (low.strip('"'), high.strip('"'), behind)))
    for name, text in shown:
        row = re.search('<tr id="name-%s".*?</tr>' % name, page, re.S)
        if row is None or ">%s<" % text not in row.group():
            faults.append("the range of %s isn't shown: %s" % (name, text))
    return faults


def main():
    binary = sys.argv[1]
    count = int(sys.argv[2]) if len(sys.argv) > 2 else 200
    rng = random.Random(int(sys.argv[3]) if len(sys.argv) > 3 else 1)
    failed, parts, lines = 0, 0, 0
    with tempfile.TemporaryDirectory() as folder:
        for case in range(count):
            plan = Plan(rng)
            done = draw(binary, folder, plan.text())
            faults = [] if done.returncode in (0, 1) else ["status %d %s" % (done.returncode, done.stderr)]
            faults += check_page(plan, done.returncode, done.stdout)
            parts += done.stdout.count(b", part ")
            lines += sum(len(wanted) for wanted in chart_walk.plan_lines(plan.text()).values())
            faults += check_ranges(binary, folder, plan_of_inputs(rng))
            if faults:
                failed += 1
                print("case %d: %s" % (case, "; ".join(faults[:3])))
        refused, changed = check_changed_pages(binary, folder)
    run_faults, runs, run_refused, run_changed = chart_run.check_runs(binary, max(2, count // 6), count)
    range_faults, ranged, dead, range_refused, range_changed = chart_ranges.check_ranges(binary, max(2, count // 3), count)
    stop_faults, stopped, stop_refused, stop_changed = chart_stopped.check_stopped(binary, max(2, count // 6), count)
    plans = [Plan(rng).text() for _ in range(count)]
    other_faults, others, other_refused, other_changed = chart_compare.check_comparisons(binary, plans, count)
    cover_faults, covers, cover_refused, cover_changed = chart_cover.check_covers(binary, max(2, count // 6), count)
    for fault in run_faults[:10] + range_faults[:10] + stop_faults[:10] + other_faults[:10] + cover_faults[:10]:
        print(fault)
    print("%d pages, %d with faults, %d lines followed, %d parts of cut drawings, %d of %d changed pages refused"
          % (count, failed, lines, parts, refused, changed))
    print("%d pages of runs, %d faults, %d of %d changed pages refused" % (runs, len(run_faults), run_refused, run_changed))
    print("%d pages with ranges, %d dead statements, %d faults, %d of %d changed pages refused"
          % (ranged, dead, len(range_faults), range_refused, range_changed))
    print("%d pages where the walk stops, %d faults, %d of %d changed pages refused"
          % (stopped, len(stop_faults), stop_refused, stop_changed))
    print("%d pages of comparisons, %d faults, %d of %d changed pages refused" % (others, len(other_faults), other_refused, other_changed))
    print("%d pages of tables, %d faults, %d of %d changed pages refused" % (covers, len(cover_faults), cover_refused, cover_changed))
    tried_nothing = 0 in (count, runs, ranged, dead, stopped, stop_changed, others, covers)
    let_through = (refused < changed or run_refused < run_changed or range_refused < range_changed or stop_refused < stop_changed
                   or other_refused < other_changed or cover_refused < cover_changed)
    any_faults = failed or run_faults or range_faults or stop_faults or other_faults or cover_faults
    sys.exit(1 if any_faults or tried_nothing or let_through else 0)


if __name__ == "__main__":
    main()
