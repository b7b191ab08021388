"""The page of a comparison against its text, on random flowcharts: part of check_chart.py.

The page has a row for each line of the text, in order, with the same sign and the same texts; what changed has both texts in one row. Its
contents count the rows of each part, and each link leads to a heading. There is no script, and nothing that is fetched. The comments that
are told are those that stand more often in one file than in the other, found anew here."""
import collections
import os
import random
import re
import subprocess
import tempfile
from html.parser import HTMLParser

SIGNS = {"same": "=", "changed": "~", "gone": "-", "new": "+"}


class Page(HTMLParser):
    """The headings of methods and the rows of a page, as lines of the text, with links and ids."""

    def __init__(self):
        super().__init__(convert_charrefs=True)
        self.lines, self.links, self.ids, self.elements, self.counts = [], [], [], [], {}
        self.row, self.cell, self.heading, self.link, self.part = None, None, None, None, None

    def handle_starttag(self, tag, attrs):
        attrs = dict(attrs)
        self.elements += [tag, *(name for name in attrs if name in ("src", "style", "onclick"))]
        if "id" in attrs:
            self.ids.append(attrs["id"])
        if tag == "a" and attrs["href"] not in ("#changes",):
            self.link = attrs["href"][1:]
            self.links.append(self.link)
        elif tag in ("h2", "h3"):
            self.heading, self.part = "", attrs.get("id", self.ids[-1])
        elif tag == "tr":
            self.row = attrs.get("class")
        elif tag in ("i", "del", "ins", "code", "span", "small"):
            self.cell = ""

    def handle_data(self, data):
        if self.cell is not None:
            self.cell += data
        elif self.heading is not None:
            self.heading += data

    def handle_endtag(self, tag):
        if tag == "i":
            self.lead, self.cell = self.cell.strip(), None
        elif tag in ("del", "ins", "code"):
            lead = "comment " + self.lead if self.part == "comments" else self.lead
            self.lines.append((self.part, SIGNS[self.row], (lead + " " + self.cell).strip()))
            self.cell = None
        elif tag == "span":
            self.counts[self.link], self.cell = self.cell, None
        elif tag == "small":
            if self.heading is not None and self.part.startswith(("method-", "gone-")):
                sign = SIGNS[re.match(r"\w+", self.cell).group()]
                self.lines.append(("", sign, "method " + self.heading.strip()))
            self.cell = None
        elif tag in ("h2", "h3"):
            self.heading = None


def text_lines(text):
    """The lines of a text, each put together again: sign and what stands behind it."""
    lines = []
    for line in text.split("\n")[:-1]:
        if line[1:7] == "      " and lines:
            lines[-1] = (lines[-1][0], lines[-1][1] + line[7:])
        else:
            lines.append((line[0], line[2:].rstrip(" ")))
    return lines


def count_words(lines):
    """How many rows of a part changed, are new and are gone."""
    signs = [sign for _, sign, _ in lines]
    return "%d changed, %d new, %d gone" % (signs.count("~") // 2, signs.count("+"), signs.count("-"))


def page_faults(text, page):
    """What the page of a comparison has otherwise than its text."""
    found, faults = Page(), []
    found.feed(page)
    wanted = text_lines(text)
    if [(sign, words) for _, sign, words in found.lines] != wanted:
        faults.append("the rows aren't the lines of the text")
    faults += ["an element or attribute %s" % name for name in {"script", "img", "iframe", "link", "src", "style", "onclick"} & set(found.elements)
               if name != "style" or found.elements.count("style") != 1]
    faults += ["the link to %s leads nowhere" % link for link in found.links if link not in found.ids]
    faults += ["the id %s stands twice" % name for name in set(found.ids) if found.ids.count(name) > 1]
    for link, words in found.counts.items():
        rows = [line for line in found.lines if line[0] == link]
        if link.startswith(("method-", "gone-")) and words != "same" and not words.endswith(": " + count_words(rows)):
            faults.append("the contents count otherwise for %s: %s" % (link, words))
        if link == "declarations" and words != count_words(rows):
            faults.append("the contents count otherwise for the declarations: %s" % words)
        if link == "comments" and words != count_words(rows).split(", ", 1)[1]:
            faults.append("the contents count otherwise for the comments: %s" % words)
    return faults


def comments_of(plan):
    """The comments of a plan, each with its line and its words."""
    tokens = re.finditer(rb"<!--(.*?)-->|<(?:\"[^\"]*\"|'[^']*'|[^>\"'])*>", plan, re.DOTALL)
    return [(plan.count(b"\n", 0, token.start()) + 1, " ".join(re.split("[\0-\x20\x7f-\xa0\u2028\u2029]+", token.group(1).decode("utf-8"))).strip(" "))
            for token in tokens if token.group(1) is not None]


def comment_faults(old, new, text):
    """What a text tells otherwise of the comments of two plans."""
    lines = [(line[0], *re.match("comment line ([0-9]+) (.*)", line[2:]).groups()) for line in text.split("\n") if line[2:].startswith("comment line ")]
    faults = []
    for sign, ours, others in (("-", comments_of(old), comments_of(new)), ("+", comments_of(new), comments_of(old))):
        told = [(int(number), words) for row, number, words in lines if row == sign]
        more = collections.Counter(words for _, words in ours) - collections.Counter(words for _, words in others)
        left = iter(ours)
        if collections.Counter(words for _, words in told) != more or not all(row in left for row in told):
            faults.append("the comments with %s are others" % sign)
    return faults


def changed_plan(rng, plan):
    """The plan with some of its statements and declarations changed, left out or doubled."""
    lines = plan.decode("utf-8").split("\n")
    for _ in range(rng.randrange(6)):
        found = [at for at, line in enumerate(lines) if re.search(r"<EVAL exec=.*/>", line)]
        if not found:
            break
        at = rng.choice(found)
        evals = re.findall(r"<EVAL exec=[^>]*/>", lines[at])
        one = rng.choice(evals)
        lines[at] = lines[at].replace(one, rng.choice(["", one + one, one.replace("=", "= 1 +", 2).replace("= 1 +", "=", 1)]), 1)
    return changed_comments(rng, "\n".join(lines)).encode("utf-8")


def changed_comments(rng, text):
    """The plan with some of its comments changed, left out, doubled or moved to its end."""
    for _ in range(rng.randrange(4)):
        found = re.findall("<!--.*?-->", text, re.DOTALL)
        if not found:
            break
        one = rng.choice(found)
        text = text.replace(one, rng.choice(["", one + one, "<!-- \u00dc & < " + one[4:], ""]), 1) + rng.choice(["", one])
    return text


def compared(binary, words):
    return subprocess.run([binary, *words], capture_output=True)


def check_comparisons(binary, plans, seed):
    """Faults of the pages of comparisons, how many pages there are, how many changed pages were refused, and how many there are."""
    rng, faults, pages, refused, changed = random.Random(seed), [], 0, 0, 0
    with tempfile.TemporaryDirectory() as folder:
        old, new = os.path.join(folder, "<old> & 'a'.xml"), os.path.join(folder, "new.xml")
        for plan in plans:
            for path, text in ((old, plan), (new, changed_plan(rng, plan))):
                with open(path, "wb") as file:
                    file.write(text)
            text, page = (compared(binary, [*words, old, new]) for words in (["text", "compare"], ["compare"]))
            if text.returncode != page.returncode or text.returncode > 1:
                faults.append("status %d and %d" % (text.returncode, page.returncode))
            if text.stdout.startswith(b"refused"):
                continue
            pages += 1
            text, page = text.stdout.decode("utf-8"), page.stdout.decode("utf-8")
            faults += page_faults(text, page)
            with open(new, "rb") as file:
                faults += comment_faults(plan, file.read(), text)
            for other in (page.replace("<ins>", "<ins>1", 1), page.replace('<tr class="new">', '<tr class="gone">', 1),
                          re.sub("<tr class.*?</tr>\n", "", page, count=1)):
                if other != page:
                    changed += 1
                    refused += bool(page_faults(text, other))
    return faults, pages, refused, changed
