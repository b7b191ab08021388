#!/usr/bin/env python3
"""Random books on the built program: book_trials.py PROGRAM.

After a random script of edits, refused ones among them, the report is that of a book made anew from the runs and plans that are left.
The last values that a trace puts are the reported ones. What was filed and what is owed add up to the report. A trial of a plan tells what
differs between the reports before and after it is put, and its work."""
import itertools
import os
import random
import subprocess
import sys
import tempfile
from decimal import Decimal

PLAN = """<PAP><INTERFACE>
<INPUTS><INPUT name="PAY" type="BigDecimal"/><INPUT name="SO_FAR" type="BigDecimal"/></INPUTS>
<OUTPUTS><OUTPUT name="TAX" type="BigDecimal"/><OUTPUT name="TOTAL" type="BigDecimal"/><OUTPUT name="FREE" type="int"/></OUTPUTS>
</INTERFACE>
<METHODS><MAIN>
<EVAL exec="TAX= PAY.multiply(BigDecimal.valueOf(RATE)).setScale(PLACES, BigDecimal.ROUND_DOWN)"/>
<IF expr="TAX.compareTo(BigDecimal.valueOf(500)) == -1"><THEN><EVAL exec="TAX= BigDecimal.ZERO"/><EVAL exec="FREE= 1"/></THEN></IF>
<EVAL exec="TOTAL= SO_FAR.add(TAX)"/>
</MAIN></METHODS></PAP>
"""
LIMITS = """[input.PAY]
low = 0
high = 9000
places = 0
[input.SO_FAR]
low = 0
high = 1000000
places = 2
[bind.SO_FAR]
kind = "sum"
output = "TAX"
"""
EMPLOYEES = ["anna", "ben", "chris"]
PLANS = [("0.14", "0"), ("0.25", "2"), ("0.25", "0")]
TABLES = itertools.count()


class Book:
    """Runs by employee and day, and plans by day, as a script's answers say that they are."""

    def __init__(self):
        self.runs = {}
        self.plans = {}

    def in_month(self, employee, month):
        return [key for key in self.runs if key[0] == employee and key[1].startswith(month)]

    def source(self, employee, day):
        if (employee, day) in self.runs:
            return (employee, day)
        found = self.in_month(employee, day[:7])
        return found[0] if len(found) == 1 else None

    def script(self):
        plans = [f"plan {day} {name}.xml {name}.toml" for day, name in self.plans.items()]
        return plans + [f"add {employee} {day[:7]} {day} PAY={pay}" for (employee, day), pay in self.runs.items()]


def random_day(rng):
    return f"{rng.choice([2025, 2026])}-{rng.randint(1, 4):02d}-{rng.choice([10, 20, 28])}"


def random_load(rng, book):
    """The load of a table, which is written here; whether the book takes it, and what it then does to the book."""
    keys = {(rng.choice(EMPLOYEES), random_day(rng)) for _ in range(rng.randint(0, 3))}
    runs = {key: rng.choice([0, 1000, 4711, 8999]) for key in sorted(keys)}
    rows = [f"{employee},{day[:7]},{day},{pay}\n" for (employee, day), pay in runs.items()]
    rng.shuffle(rows)
    name = f"t{next(TABLES)}.csv"
    with open(name, "w") as table:
        table.write("employee,month,day,PAY\n" + "".join(rows))
    return f"load {name}", not keys & book.runs.keys(), lambda: book.runs.update(runs)


def random_line(rng, book):
    """A line, whether the book takes it, and what it then does to the book."""
    employee, day, pay = rng.choice(EMPLOYEES), random_day(rng), rng.choice([0, 1000, 4711, 8999, 9001])
    kind = rng.choice(["add", "add", "add", "change", "withdraw", "plan", "drop", "load"])
    if kind == "load":
        return random_load(rng, book)
    if kind == "add":
        return f"add {employee} {day[:7]} {day} PAY={pay}", (employee, day) not in book.runs, lambda: book.runs.update({(employee, day): pay})
    if kind == "change":
        source = book.source(employee, day)
        return f"change {employee} {day[:7]} {day} PAY={pay}", source is not None, lambda: (book.runs.pop(source), book.runs.update({(employee, day): pay}))
    if kind == "withdraw":
        found = book.in_month(employee, day[:7])
        return f"withdraw {employee} {day[:7]}", len(found) == 1, lambda: book.runs.pop(found[0])
    if kind == "plan":
        name = f"p{rng.randrange(len(PLANS))}"
        return f"plan {day} {name}.xml {name}.toml", True, lambda: book.plans.update({day: name})
    return f"drop {day}", day in book.plans, lambda: book.plans.pop(day)


def answers(script):
    done = subprocess.run([program, "run"], input="\n".join(script) + "\n", capture_output=True, text=True, timeout=60)
    return done.stdout.splitlines()


def random_book(rng, count):
    """A script of random lines, the book that it leaves, and for each line whether it is refused."""
    book, script, taken = Book(), [], []
    for _ in range(count):
        line, takes, edit = random_line(rng, book)
        script.append(line)
        taken.append(takes)
        if takes:
            edit()
    return book, script, taken


def report(lines):
    """The values of a report by run and name, and the runs that are ok."""
    first = lines.index("employee,month,day,plan,state,name,value") + 1
    rows = [line.split(",") for line in lines[first:lines.index("end", first)]]
    return {(row[0], row[2], row[5]): row[6] for row in rows if row[4] == "ok"}


def is_made_anew(rng):
    book, script, taken = random_book(rng, 60)
    said = answers(script + ["report"])
    refused = [line.startswith("refused edit") for line in said[:len(script)]]
    return refused == [not takes for takes in taken] and said[len(script):] == answers(book.script() + ["report"])[len(book.script()):]


def is_traced(rng):
    book, _, _ = random_book(rng, 30)
    values = report(answers(book.script() + ["report"]))
    for employee, day in {key[:2] for key in values}:
        lines = answers(book.script() + [f"trace {employee} {day}"])[len(book.script()):]
        last = {"TAX": "0", "TOTAL": "0", "FREE": "0"}
        for word, _, *rest in (line.split() for line in lines if line.startswith("set ")):
            last[rest[0]] = rest[1]
        if lines[-1] != "end" or any(values[employee, day, name] != last[name] for name in last):
            return False
    return True


def adds_up(rng):
    """Filings between random edits, and what is owed at last, against the report."""
    book, script, _ = random_book(rng, 25)
    script = [line.replace("PAY=9001", "PAY=8000") for line in script if not line.startswith("drop")]
    script = ["plan 2025-01-01 p0.xml p0.toml", "plan 2026-01-01 p1.xml p1.toml"] + script
    for month in ["2025-02", "2026-01", "2026-04"]:
        edits = [line.replace("PAY=9001", "PAY=7000") for line in random_book(rng, 10)[1] if not line.startswith("drop")]
        script += [f"file {month}"] + edits
    said = answers(script + ["owed", "report"])
    total = {}
    for word, *rest in (line.split() for line in said):
        if word in ("due", "owed"):
            key = tuple(rest[:3])
            total[key] = total.get(key, Decimal(0)) + Decimal(rest[3])
    values = {key: Decimal(value) for key, value in report(said).items() if key[1] <= "2026-04-31"}
    keys = set(total) | set(values)
    return "refused file" not in "\n".join(said) and all(total.get(key, 0) == values.get(key, 0) for key in keys)


def states(lines):
    """The runs of a report in order: what their state is, with its outputs or the name that it tells, whatever their plan."""
    first = lines.index("employee,month,day,plan,state,name,value") + 1
    found = {}
    for employee, _, day, _, state, name, value in (line.split(",") for line in lines[first:lines.index("end", first)]):
        found.setdefault((employee, day), []).append((state, name, value))
    return found


def is_tried(rng):
    """A trial against the reports before and after the same plan is put."""
    book, _, _ = random_book(rng, 30)
    day, name = random_day(rng), f"p{rng.randrange(len(PLANS))}"
    script = book.script()
    tried = answers(script + [f"try {day} {name}.xml {name}.toml"])[len(script):]
    before = states(answers(script + ["report"]))
    put = answers(script + [f"plan {day} {name}.xml {name}.toml", "work", "report"])[len(script):]
    after, wanted = states(put), [put[0]]
    for run in before:
        was, now = before[run], after[run]
        if was == now:
            continue
        wanted.append(f"changed {run[0]} {run[1]} {was[0][0]} {now[0][0]}")
        old, new = ({name: value for state, name, value in rows if state == "ok"} for rows in (was, now))
        wanted += [f"value {run[0]} {run[1]} {name} {old.get(name, '-')} {new.get(name, '-')}"
                   for name in sorted(old.keys() | new.keys()) if old.get(name) != new.get(name)]
    return tried == wanted + [put[1].replace("work", "would")]


program = os.path.abspath(sys.argv[1])
passed, failed = 0, 0
with tempfile.TemporaryDirectory() as folder:
    os.chdir(folder)
    for number, (rate, places) in enumerate(PLANS):
        with open(f"p{number}.xml", "w") as plan, open(f"p{number}.toml", "w") as limits:
            plan.write(PLAN.replace("RATE", rate).replace("PLACES", places))
            limits.write(LIMITS)
    for seed in range(40):
        for trial in (is_made_anew, is_traced, adds_up, is_tried):
            if trial(random.Random(seed)):
                passed += 1
            else:
                failed += 1
                print(f"book_trials: failed: {trial.__name__} of {seed}")
print(f"book_trials: {passed} passed, {failed} failed")
sys.exit(1 if failed else 0)
