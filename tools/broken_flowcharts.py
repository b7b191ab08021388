#!/usr/bin/env python3
"""Breaks flowcharts at random and tells how many of the refused ones are decided: broken_flowcharts.py PROGRAM [COUNT [SEED]].

PROGRAM is what looks for inputs that fail, as `"build/pap_author example"`. Each trial takes a flowchart of examples/ with its range file
and changes a few of its numbers, operators, comparisons and methods, or an end of a range. A flowchart that isn't one any more, or that the
walk passes whole, doesn't count. Of the others, which the walk refuses, it counts those on which the search finds an input that fails, those
of which it shows that every input is safe, and those that stay open."""
import collections
import glob
import os
import random
import re
import subprocess
import sys
import tempfile
import time

NUMBER = re.compile(r"(?<![\w.])\d+(?![\w.])")
SWAPS = [("+", "-"), ("-", "+"), ("*", "+"), ("&lt;", "&gt;"), ("&gt;", "&lt;"), ("==", "!="), ("&gt;=", "&lt;"),
         (".add(", ".subtract("), (".subtract(", ".multiply("), (".multiply(", ".add("), (".multiply(", ".multiply("), (".min(", ".max("),
         ("ROUND_DOWN", "ROUND_UP")]
TEXT = re.compile(r'(?:exec|expr)="([^"]*)"')
BOUND = re.compile(r'^(.*?\b(?:low|high|min|max) *= *"?)(-?\d+)(.*)$', re.M)


def changed_text(chance, text):
    """An expression with one change."""
    numbers = list(NUMBER.finditer(text))
    swaps = [pair for pair in SWAPS if pair[0] in text]
    if numbers and (not swaps or chance.random() < 0.5):
        found = chance.choice(numbers)
        value = chance.choice([0, 1, 2, int(found.group()) + 1, max(0, int(found.group()) - 1), 1000000, 2147483647])
        return text[:found.start()] + str(value) + text[found.end():]
    if swaps:
        old, new = chance.choice(swaps)
        places = [m.start() for m in re.finditer(re.escape(old), text)]
        at = chance.choice(places)
        return text[:at] + new + text[at + len(old):]
    return text


def broken(chance, plan, limits):
    """A flowchart and its range file with one to three changes."""
    for _ in range(chance.randint(1, 3)):
        bounds = list(BOUND.finditer(limits))
        if bounds and chance.random() < 0.25:
            found = chance.choice(bounds)
            value = chance.choice([0, -1, 1, int(found.group(2)) * 10, -int(found.group(2)), 10 ** 9, 10 ** 15])
            limits = limits[:found.start(2)] + str(value) + limits[found.end(2):]
            continue
        texts = list(TEXT.finditer(plan))
        if texts:
            found = chance.choice(texts)
            plan = plan[:found.start(1)] + changed_text(chance, found.group(1)) + plan[found.end(1):]
    return plan, limits


def answer_of(program, plan, limits):
    with tempfile.TemporaryDirectory() as folder:
        names = [os.path.join(folder, name) for name in ("plan.xml", "plan.toml")]
        for name, text in zip(names, (plan, limits)):
            open(name, "w", encoding="utf-8").write(text)
        began = time.monotonic()
        done = subprocess.run(program + names, capture_output=True, text=True, timeout=600)
        return done.stdout.strip(), time.monotonic() - began


def main():
    program, count, seed = sys.argv[1].split(), int(sys.argv[2]) if len(sys.argv) > 2 else 200, int(sys.argv[3]) if len(sys.argv) > 3 else 1
    chance = random.Random(seed)
    pairs = [(open(x, encoding="utf-8").read(), open(x[:-4] + ".toml", encoding="utf-8").read())
             for x in sorted(glob.glob("examples/*.xml")) if os.path.exists(x[:-4] + ".toml")]
    told, longest, left = collections.Counter(), 0, []
    while sum(told.values()) < count:
        plan, limits = broken(chance, *chance.choice(pairs))
        text, seconds = answer_of(program, plan, limits)
        first = text.split(" ")[0]
        if first not in ("fails", "safe", "not") or text.startswith(("safe in 1 part", "not a", "not well")):
            continue
        told[first] += 1
        longest = max(longest, seconds)
        if first == "not":
            left.append((plan, limits))
    decided = told["fails"] + told["safe"]
    print(f"{count} refused flowcharts: {told['fails']} fail on an input, {told['safe']} are safe, {told['not']} stay open;",
          f"{100 * decided // count} % are decided; the longest search took {longest:.1f} s")


if __name__ == "__main__":
    main()
