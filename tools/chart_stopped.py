"""Compares what the page of a flowchart whose walk over the ranges stops shows with the page of the same flowchart without the statement at
which it stops. Of check_chart.py.

A statement that divides by zero for one input is put into an accepted flowchart, at the front or at the end of MAIN. The statement that
the verdict names is red, says why it may fail and which ranges its operands have, and the sentence above the drawings names it; no other is
red. Nothing is marked as dead or as never taken. Behind it no statement has a range; before it each has the range of the accepted page. The
ranges of internals stay empty. Pages that are changed so that another statement is red, or one is dead, have to be refused."""
import html
import os
import random
import re
import subprocess
import tempfile

import chart_ranges
import chart_run
import chart_walk

FAILING = '<EVAL exec="C = 9 / A"/>'
TOLD = ["the divisor may be zero", "first operand 9", "second operand 0 .. 9"]
GROUP = re.compile(r'<g id="(\w+:\d+)" role="group" aria-label="([^"]*)" class="s( \w+)?">(.*?)</g>', re.S)
LINE = re.compile(r'<text class="v" x="\d+" y="\d+">(.*?)</text>')
REFUSED = re.compile(r"<code>refused plan Divisor (\w+:\d+):2 9 / A</code>")
STOP = re.compile(r'<p class="blocked">The walk over the ranges stops at <a href="#(\w+:\d+)">(\w+:\d+)</a>. '
                  r"What stands behind it was not walked.</p>")
NEVER = re.compile(r'class="(?:s|b|d|y|e) dead"')


def told_of(page):
    """Each statement with its class, the lines below it, and what is read aloud behind its text."""
    for place, caption, kind, drawn in GROUP.findall(page):
        words = re.search(r"; (?:within the ranges|may fail|dead)(?:; .*)?$", html.unescape(caption))
        yield place, (kind.strip(), [html.unescape(line) for line in LINE.findall(drawn)], words.group(0)[2:] if words else "")


def moved(place, at):
    """The place of a statement of the accepted flowchart in that with one more, which stands at a number in MAIN."""
    method, number = place.split(":")
    return "%s:%d" % (method, int(number) + (method == "MAIN" and int(number) >= at))


def stopped_faults(page, accepted, at, is_last):
    """Faults of the page of a flowchart with a failing statement at a number in MAIN, beside the page without it."""
    told, stop = dict(told_of(page)), "MAIN:%d" % at
    if REFUSED.findall(page) != [stop] or STOP.findall(page) != [(stop, stop)]:
        return ["the verdict or the sentence doesn't name %s" % stop]
    faults = []
    if told.get(stop) != ("bad", TOLD, "; ".join(["may fail"] + TOLD)):
        faults.append("%s doesn't say why it may fail: %s" % (stop, told.get(stop)))
    if [place for place, (kind, _, _) in told.items() if kind] != [stop] or NEVER.search(page):
        faults.append("another statement or exit than %s is marked" % stop)
    known = {moved(place, at): [] if kind == "dead" or not is_last else lines for place, (kind, lines, _) in told_of(accepted)}
    for place, lines in known.items():
        words = "; ".join(["within the ranges"] + lines) if lines else ""
        if told.get(place) != ("", lines, words):
            faults.append("%s says %s and not %s" % (place, told.get(place), lines))
    if set(told) != set(known) | {stop}:
        faults.append("the statements aren't those of the flowchart")
    faults += ["the internal %s has a range" % name for name, _, _, shown in chart_ranges.ROW.findall(page) if name == "B" and shown]
    return faults


def with_marks_changed(page):
    """The page where another statement is red in place of the failing one, where the sentence names it, and where one is dead, for each."""
    stop = STOP.search(page).group(1)
    for match in GROUP.finditer(page):
        place, at = match.group(1), page.index('class="s', match.start()) + len('class="s')
        if place == stop:
            yield page[:at] + page[at + len(" bad"):]
            continue
        for kind in (" bad", " dead"):
            yield page[:at] + kind + page[at:]
        yield page.replace('stops at <a href="#%s">%s<' % (stop, stop), 'stops at <a href="#%s">%s<' % (place, place))
        without = page.replace('class="s bad"', 'class="s"')
        at = without.index('class="s', without.index('<g id="%s"' % place)) + len('class="s')
        yield without[:at] + " bad" + without[at:]


def drawn(binary, folder, text, limits):
    """The status and the page of a flowchart."""
    plan, ranges = os.path.join(folder, "plan.xml"), os.path.join(folder, "plan.toml")
    for path, content in ((plan, text), (ranges, limits)):
        with open(path, "w", encoding="utf-8") as file:
            file.write(content)
    done = subprocess.run([binary, "chart", plan, ranges], capture_output=True)
    return done.returncode, done.stdout.decode("utf-8")


def check_stopped(binary, count, seed):
    """Faults of the pages of random flowcharts with a failing statement, how many there were, and how many changed pages were refused of
    how many."""
    rng, faults, pages, refused, changed = random.Random(seed), [], 0, 0, 0
    with tempfile.TemporaryDirectory() as folder:
        for case in range(count):
            text, limits = chart_run.some_plan(rng)
            status, accepted = drawn(binary, folder, text, limits)
            numbers = [int(number) for number in re.findall(r'<g id="MAIN:(\d+)"', accepted)]
            for is_last in (False, True):
                at = max(numbers) + 1 if is_last else 0
                tag = "</MAIN>" if is_last else "<MAIN>"
                failing = text.replace(tag, FAILING + tag if is_last else tag + FAILING)
                stopped, page = drawn(binary, folder, failing, limits)
                found = stopped_faults(page, accepted, at, is_last) if (status, stopped) == (0, 1) else ["status %d" % stopped]
                found += chart_walk.line_faults(chart_walk.plan_lines(failing.encode()), page)
                faults += ["random flowchart %d that stops: %s" % (case, fault) for fault in found[:2]]
                pages += 1
                if case < 2 and not found:
                    others = [bool(stopped_faults(other, accepted, at, is_last)) for other in with_marks_changed(page)]
                    refused, changed = refused + sum(others), changed + len(others)
    return faults, pages, refused, changed
