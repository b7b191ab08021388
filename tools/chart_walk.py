"""Follows the lines of a drawing from symbol to symbol, and says where those of a plan's file have to lead. Of check_chart.py.

A line is a pair: what it leaves (`start`, a statement, or a statement's way `yes` or `no`) and what it leads to (a statement, or `end`).
Statements are the places that the page shows, as MAIN:2. Those of a box follow one another without a line between them."""
import bisect
import re
import xml.etree.ElementTree as ET

NUMBER = r"-?\d+"
STEP_TO_WORD = 6
WORD_BELOW = 16
STEP_TO_BRANCH = 44
TOLD = re.compile(r"never|missed|\d+")


class Lost(Exception):
    """A line that leads nowhere, or a symbol that isn't as it should be."""


def svgs_of(page):
    """The parts of each method's drawing."""
    for section in re.findall(r'<section class="m.*?</section>', page, re.S):
        method = re.search(r'id="method-(\w+)"', section).group(1)
        yield method, [ET.fromstring(svg) for svg in re.findall(r"<svg role.*?</svg>", section, re.S)]


class Symbol:
    """A symbol's frame, and the statements in it from the top to the bottom."""

    def __init__(self, kind, left, top, right, low):
        self.kind, self.left, self.top, self.right, self.low = kind, left, top, right, low
        self.statements = []

    def places(self):
        return [place for _, place in self.statements]

    def has(self, x, y):
        return self.left <= x <= self.right and self.top <= y <= self.low


class Drawing:
    """The symbols, words and lines of a method's drawing."""

    def __init__(self, svgs):
        self.symbols, self.words, self.told, self.verticals, self.horizontals, self.begins = [], {}, {}, {}, {}, {}
        heads = set()
        for svg in svgs:
            for element in svg.iter():
                getattr(self, "take_" + element.tag, lambda _: None)(element)
            for path in svg.iter("path"):
                if path.get("class").split()[0] == "l":
                    self.take_lines(path.get("d"))
                elif path.get("class").split()[0] == "a":
                    heads |= {(int(x), int(y)) for x, y in re.findall(r"M(%s) (%s)l7" % (NUMBER, NUMBER), path.get("d"))}
        self.heads = heads
        for lines in self.verticals.values():
            lines.sort()
        self.symbols.sort(key=lambda symbol: symbol.top)
        self.tops = [symbol.top for symbol in self.symbols]
        for svg in svgs:
            for group in svg.iter("g"):
                self.take_statement(group)

    def take_rect(self, rect):
        kind = {"b": "box", "t": "terminator", "x": "call"}.get((rect.get("class") or "").split(" ")[0])
        if kind:
            x, y, width, height = [int(rect.get(key)) for key in ("x", "y", "width", "height")]
            self.symbols.append(Symbol(kind, x, y, x + width, y + height))

    def take_path(self, path):
        if path.get("class").split()[0] == "d":
            x, middle, half, flat = [int(n) for n in re.match(
                r"M(%s) (%s)l12 -(%s)h(%s)" % ((NUMBER,) * 4), path.get("d")).groups()]
            self.symbols.append(Symbol("test", x, middle - half, x + flat + 24, middle + half))

    def take_text(self, text):
        kind = (text.get("class") or " ").split(" ")[0]
        if kind in ("y", "e"):
            away = STEP_TO_WORD if kind == "y" else -STEP_TO_WORD
            x, y, words = int(text.get("x")) - away, int(text.get("y")), text.text.split(" ")
            told = [word for word in words if TOLD.fullmatch(word)]
            if told:
                self.told.setdefault((x, y), []).extend(told)
            if len(told) < len(words):
                self.words.setdefault(y, []).append((x, " ".join(word for word in words if word not in told)))

    def take_lines(self, data):
        for x, y, way, end in re.findall(r"M(%s) (%s)([VH])(%s)" % ((NUMBER,) * 3), data):
            x, y, end = int(x), int(y), int(end)
            if way == "V":
                self.verticals.setdefault(x, []).append((y, end))
                self.begins.setdefault(y, []).append(x)
            else:
                self.horizontals.setdefault(y, []).append((x, end))

    def take_statement(self, group):
        place = next(text for text in group.iter("text") if text.get("class") == "p")
        x, y = int(place.get("x")), int(place.get("y"))
        symbol = self.symbols[bisect.bisect_right(self.tops, y) - 1]
        if not symbol.has(x, y) or place.text.split(" ")[-1] != group.get("id"):
            raise Lost("%s stands in no symbol" % group.get("id"))
        symbol.statements.append((y, group.get("id")))
        symbol.statements.sort()

    def below(self, x, y):
        """Where a vertical line at `x` that reaches below `y` ends, if there is one."""
        lines = self.verticals.get(x, [])
        number = bisect.bisect_right(lines, (y, float("inf"))) - 1
        return lines[number][1] if number >= 0 and lines[number][0] <= y < lines[number][1] else None

    def turn(self, x, y):
        """Where the end of a vertical line goes on sideways: to the left where that way has its arrowhead, else to the right."""
        for left, right in self.horizontals.get(y, []):
            if (left, y) in self.heads and left < x <= right:
                return left
            if (left, y) not in self.heads and left <= x < right:
                return right
        return None

    def entered(self, x, y):
        symbol = self.symbols[bisect.bisect_right(self.tops, y) - 1]
        return symbol if symbol.top == y and symbol.left <= x <= symbol.right else None

    def follow(self, x, y):
        """The symbol to which a line leads from here on."""
        for _ in range(100000):
            symbol, end = self.entered(x, y), self.below(x, y)
            if symbol:
                return symbol
            if end is not None:
                y = end
            elif self.turn(x, y) is not None:
                x = self.turn(x, y)
            else:
                break
        raise Lost("a line ends at %d %d" % (x, y))

    def ways(self, symbol):
        """The words of a test, each with where its line begins."""
        for x, text in self.words.get(symbol.low + WORD_BELOW, []):
            if symbol.left <= x <= symbol.right:
                for word in text.split(" or "):
                    yield word, x

    def told_of_exits(self):
        """What stands behind the word of each exit of a test that has a line of its own."""
        for symbol in self.symbols:
            ways = list(self.ways(symbol)) if symbol.kind == "test" else []
            if len({x for _, x in ways}) == 2:
                for word, x in ways:
                    yield symbol.places()[0], word, " ".join(self.told.get((x, symbol.low + WORD_BELOW), []))

    def exits(self, symbol):
        """What leaves a symbol, each with where its line begins."""
        begins = sorted(x for x in self.begins.get(symbol.low, []) if symbol.left <= x <= symbol.right)
        if symbol.kind == "test":
            ways = sorted(self.ways(symbol))
            if [word for word, _ in ways] != ["no", "yes"] or sorted({x for _, x in ways}) != begins:
                raise Lost("the ways of %s are %s, its lines begin at %s" % (symbol.places(), ways, begins))
            return [((symbol.places()[0], word), x) for word, x in ways]
        if len(begins) != 1:
            raise Lost("%d lines leave %s" % (len(begins), symbol.places() or "the start"))
        return [((symbol.places() or ["start"])[-1], begins[0])]

    def lines(self):
        """Where each line leads."""
        found = []
        start, end = [symbol for symbol in self.symbols if symbol.kind == "terminator"]
        for symbol in self.symbols:
            found += list(zip(symbol.places(), symbol.places()[1:]))
            if symbol is not end:
                for exit_of, x in self.exits(symbol):
                    entered = self.follow(x, symbol.low)
                    if entered is start:
                        raise Lost("a line leads to the start")
                    found.append((exit_of, "end" if entered is end else entered.places()[0]))
        return sorted(found, key=str)


def file_lines(method, body):
    """Where the lines of a method of the file have to lead."""
    found, number = [], 0

    def lead(exits, statements):
        """Leads these through some statements, and answers what leaves them."""
        nonlocal number
        for statement in statements:
            place = "%s:%d" % (method, number)
            number += 1
            found.extend((exit_of, place) for exit_of in exits)
            if statement.tag == "IF":
                branches = {branch.tag: list(branch) for branch in statement}
                exits = lead([(place, "yes")], branches.get("THEN", []))
                exits += lead([(place, "no")], branches.get("ELSE", []))
            else:
                exits = [place]
        return exits

    found.extend((exit_of, "end") for exit_of in lead(["start"], body))
    return sorted(found, key=str)


def plan_lines(text):
    """Where the lines of each method of a plan's file have to lead."""
    methods = ET.fromstring(re.sub(rb"<!--.*?-->", b"", text, flags=re.S)).find("METHODS")
    return {method.get("name", "MAIN"): file_lines(method.get("name", "MAIN"), list(method)) for method in methods}


def file_captions(method, body):
    """What is read aloud before the text of each statement of a method of the file: its place, and whether the nearest test holds."""
    found = []

    def take(statements, condition):
        for statement in statements:
            place = "%s:%d" % (method, len(found))
            found.append(place + condition + ": ")
            for branch in statement if statement.tag == "IF" else []:
                take(branch, ", where %s %s" % (place, "holds" if branch.tag == "THEN" else "does not hold"))

    take(body, "")
    return found


def plan_captions(text):
    """What is read aloud before the texts of all statements of a plan's file, in its order, but that MAIN comes first."""
    methods = list(ET.fromstring(re.sub(rb"<!--.*?-->", b"", text, flags=re.S)).find("METHODS"))
    methods.sort(key=lambda method: method.tag != "MAIN")
    return [caption for method in methods for caption in file_captions(method.get("name", "MAIN"), list(method))]


def caption_faults(wanted, page):
    """Faults of the captions of a page's statements: where one isn't as the file says."""
    captions = re.findall(r'<g id="[^"]*" role="group" aria-label="([^"]*)"', page)
    faults = ["the caption %r isn't that of %r" % (caption, begin) for caption, begin in zip(captions, wanted)
              if not caption.startswith(begin)]
    return faults + (["%d captions of %d statements" % (len(captions), len(wanted))] if len(captions) != len(wanted) else [])


def with_a_condition_changed(page):
    """The page where a statement's caption says the other way of its test, and where it says no way, for each that says one."""
    for match in re.finditer(r", where \w+:\d+ (holds|does not hold):", page):
        other = "does not hold" if match.group(1) == "holds" else "holds"
        yield page[:match.start(1)] + other + page[match.end(1):]
        yield page[:match.start()] + page[match.end() - 1:]


def line_faults(wanted, page):
    """Faults of a page's lines: where one leads elsewhere than the file says."""
    faults, drawn = [], dict(svgs_of(page))
    if set(drawn) != set(wanted):
        faults.append("drawn are the methods %s" % sorted(drawn))
    for method, svgs in drawn.items():
        try:
            found = Drawing(svgs).lines()
        except Lost as lost:
            faults.append("%s: %s" % (method, lost))
            continue
        if found != wanted.get(method):
            faults += ["%s: a line from %s to %s" % (method, *line) for line in set(found) ^ set(wanted.get(method, []))]
    return faults


def with_words_changed(page):
    """The page where the two words of a test have changed places, for each test: they stand at one height of its drawing."""
    for match in re.finditer(r'y="(%s)">yes</text>' % NUMBER, page):
        height, end = match.group(1), page.index("</section>", match.start())
        start = page.rindex("<section", 0, match.start())
        for other in re.finditer(r'y="%s">no</text>' % height, page[start:end]):
            first, last = sorted([(match.start(), match.end(), "no"), (start + other.start(), start + other.end(), "yes")])
            words = ['y="%s">%s</text>' % (height, word) for _, _, word in (first, last)]
            yield page[:first[0]] + words[0] + page[first[1]:last[0]] + words[1] + page[last[1]:]


def with_a_line_led_back(page):
    """The page where the end of a THEN comes back to the spine above the ELSE in place of below it, for each way to a rail."""
    for match in re.finditer(r"M(%s) (%s)H(%s)" % ((NUMBER,) * 3), page):
        x, y, _ = [int(n) for n in match.groups()]
        heads = page.index(' class="a" d="', match.end()) + len(' class="a" d="')
        if "M%d %dl7-4v8z" % (x, y) not in page[heads:page.index('"', heads)]:
            back = x - STEP_TO_BRANCH
            yield (page[:match.start()] + "M%d %dH%d" % (back, y, x) + page[match.end():heads]
                   + "M%d %dl7-4v8z" % (back, y) + page[heads:])


def without_a_line(page):
    """The page without one vertical line, for each of them."""
    for match in re.finditer(r"M%s %sV%s" % ((NUMBER,) * 3), page):
        yield page[:match.start()] + page[match.end():]
