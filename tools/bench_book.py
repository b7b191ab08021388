#!/usr/bin/env python3
"""What an edit of a book costs: bench_book.py PROGRAM, from the top of the repository (needs a JDK).

Books of 300 and of 49,992 runs (twelve months an employee), with the flowchart of examples/ and with one as large as the published ones
(tools/full_plan.py, 25 values a run). Each time is that from a line to the end of its answer, in milliseconds; `adds and report` are all
lines of a script, which a plain Java program (tools/BenchBook.java) carries out besides: its report has to be the same. `all runs anew` is a
`plan` line with another text of the same flowchart, and beside it the Java program's first and best of ten rounds of all runs, whose inputs
it has read before.

Where valgrind is there, a table follows for each flowchart: how many instructions a run takes, by subject, as its callgrind counts them; of a
script of `add` lines with its report, of a `load` with its report, of a report alone, and of a `plan` line that has all runs run anew. What
the same lines take where there are no runs is taken away. Times on a shared machine differ by half
from one hour to the next, which counts of instructions don't."""
import collections
import random
import re
import shutil
import subprocess
import sys
import tempfile
import time

PROGRAM = sys.argv[1]
EDITS = 20
ROUNDS = 10
# How many employees have the runs whose instructions are counted. valgrind makes a program some fifty times slower.
COUNTED = 100
# What a function's instructions are counted as, by its crate. A function that the compiler put into another counts as that one's.
SUBJECTS = {
    "the machine": ["pap_machine", "pap_plan", "pay_run"],
    "decimals": ["scaled_decimal"],
    "inputs filled": ["carry_bindings"],
    "the book": ["book_year", "book_edits", "recalc_engine", "rising_lists", "plan_calendar"],
    "lines and their values": ["script_lang", "payroll_records", "pap_tree"],
    "script and answers": ["script_run", "script_steps", "pap_cli", "papcalc", "outside"],
    "report rows": ["report_csv", "csv", "itoa"],
}
SUBJECT_OF = {crate: subject for subject, crates in SUBJECTS.items() for crate in crates}
MEMORY = re.compile(r"malloc|calloc|realloc|free|rattle_alloc|unlink_chunk|sysmalloc|systrim")
COPIES = re.compile(r"__mem(cpy|move|set|cmp)|__memmove|__memcpy")
COUNT = re.compile(r"^\s*([\d,]+)\s+\([^)]*\)\s+\S*?:(\S+)")


def small_values(rng):
    return {"PERIOD": 2, "PAY": rng.randint(150_000, 900_000), "TAX_CLASS": rng.randint(1, 6), "CHURCH_RATE": rng.choice([0, 8, 9])}


def full_values(rng):
    values = {f"AMOUNT_{number}": rng.randint(0, 900_000) for number in range(1, 22)}
    values |= {f"RATE_{number}": f"0.{rng.randint(0, 4_999):04d}" for number in range(1, 3)}
    return values | {"TAX_CLASS": rng.randint(1, 6), "PERIOD": rng.randint(1, 4)}


def records(employees, values):
    """Employee, month, day and values of each run, in order."""
    rng = random.Random(7)
    for employee in range(employees):
        for month in range(1, 13):
            yield f"E{employee:05d}", f"2026-{month:02d}", f"2026-{month:02d}-28", values(rng)


def line_of(verb, employee, month, day, values):
    return f"{verb} {employee} {month} {day} " + " ".join(f"{name}={value}" for name, value in values.items())


class Session:
    """A program that carries out a script line by line."""

    def __init__(self):
        self.process = subprocess.Popen([PROGRAM, "run"], stdin=subprocess.PIPE, stdout=subprocess.PIPE, bufsize=1 << 20)

    def answer(self, line):
        """The lines of an answer, and milliseconds."""
        began = time.perf_counter()
        self.process.stdin.write(line.encode() + b"\n")
        self.process.stdin.flush()
        lines = []
        is_whole = line in ("report", "owed") or line.startswith("trace")
        while True:
            lines.append(self.process.stdout.readline())
            if lines[-1].startswith(b"refused"):
                sys.exit(f"bench_book: {line[:80]}: {lines[-1].decode()}")
            if not is_whole or lines[-1] == b"end\n":
                return lines, 1000 * (time.perf_counter() - began)

    def plan(self, day, plan):
        return self.answer(f"plan {day} {plan}.xml {plan}.toml")[1]


def another_text(plan, folder):
    """The same flowchart and range file, with a line more."""
    for kind in ["xml", "toml"]:
        with open(f"{plan}.{kind}") as text, open(f"{folder}/another.{kind}", "w") as other:
            other.write(text.read() + "\n")
    return f"{folder}/another"


def table_file(values, employees, folder):
    """A table of the runs."""
    name = f"{folder}/table.csv"
    names = list(values(random.Random(7)))
    with open(name, "w") as file:
        file.write(",".join(["employee", "month", "day", *names]) + "\n")
        for employee, month, day, given in records(employees, values):
            file.write(",".join([employee, month, day, *[str(given[name]) for name in names]]) + "\n")
    return name


def edits(plan, values, employees, folder):
    """Milliseconds of each kind of edit."""
    rows = list(records(employees, values))
    table = table_file(values, employees, folder)
    session = Session()
    session.plan("2026-01-01", plan)
    told = {"load": session.answer(f"load {table}")[1], "report": session.answer("report")[1]}
    rng = random.Random(11)
    for name, month in [("change in January", 0), ("change in December", 11)]:
        spent = []
        for _ in range(EDITS):
            employee, at, day, _ = rows[12 * rng.randrange(employees) + month]
            spent.append(session.answer(line_of("change", employee, at, day, values(rng)))[1])
        told[name] = sum(spent) / EDITS
    told["plan, the same"] = session.plan("2026-01-01", plan)
    told["all runs anew"] = session.plan("2026-01-01", another_text(plan, folder))
    told["plan in mid-year"] = session.plan("2026-07-01", plan)
    told["drop"] = session.answer("drop 2026-07-01")[1]
    session.process.stdin.close()
    session.process.wait()
    return told


def script_file(plan, values, employees, folder):
    """A script of `add` lines with its report."""
    name = f"{folder}/adds.script"
    with open(name, "w") as file:
        file.write(f"plan 2026-01-01 {plan}.xml {plan}.toml\n")
        for row in records(employees, values):
            file.write(line_of("add", *row) + "\n")
        file.write("report\n")
    return name


def subject_of(function):
    """What the instructions of a function are counted as."""
    if "::" in function:
        crate = function.lstrip("<").split("::")[0]
        return SUBJECT_OF.get(crate, crate)
    if MEMORY.search(function):
        return "memory taken and freed"
    return "copies and comparisons" if COPIES.match(function) else "the rest"


def counted(lines, folder):
    """The instructions of a script, by subject."""
    kept = f"{folder}/callgrind.out"
    words = ["valgrind", "--tool=callgrind", f"--callgrind-out-file={kept}", PROGRAM, "run"]
    script = "".join(f"{line}\n" for line in lines).encode()
    subprocess.run(words, input=script, stdout=subprocess.DEVNULL, stderr=subprocess.DEVNULL, check=True)
    words = ["callgrind_annotate", "--threshold=100", "--auto=no", kept]
    told = subprocess.run(words, stdout=subprocess.PIPE, stderr=subprocess.DEVNULL, check=True, encoding="utf-8").stdout
    instructions = collections.Counter()
    for line in told.splitlines():
        if found := COUNT.match(line):
            instructions[subject_of(found[2])] += int(found[1].replace(",", ""))
    return instructions


def added(lines_for, folder):
    """The instructions that the lines for so many employees take more than those for none, by subject."""
    whole = counted(lines_for(COUNTED), folder)
    whole.subtract(counted(lines_for(0), folder))
    return whole


def instructions_a_run(plan, values, folder):
    """The instructions that a run takes of some scripts, each by subject, the most first."""
    first = f"plan 2026-01-01 {plan}.xml {plan}.toml"
    other = another_text(plan, folder)
    again = f"plan 2026-01-01 {other}.xml {other}.toml"

    def adds(employees):
        return [first, *[line_of("add", *row) for row in records(employees, values)], "report"]

    def loaded(*after):
        return lambda employees: [first, f"load {table_file(values, employees, folder)}", *after]

    loads = added(loaded(), folder)
    scripts = {"adds and report": added(adds, folder), "load and report": added(loaded("report"), folder)}
    scripts |= {name: added(loaded(line), folder) for name, line in [("report", "report"), ("all runs anew", again)]}
    for name in ["report", "all runs anew"]:
        scripts[name].subtract(loads)
    for name, taken in scripts.items():
        a_run = {subject: number / (12 * COUNTED) for subject, number in taken.most_common()}
        yield name, {"all": sum(a_run.values()), **{subject: number for subject, number in a_run.items() if number >= 1}}


def java_classes(plan, folder):
    """The Java program for a flowchart."""
    with open(f"{folder}/Plan.java", "w") as java:
        subprocess.run([sys.executable, "tools/java_of_plan.py", f"{plan}.xml", "Plan"], stdout=java, check=True)
    subprocess.run(["javac", "-nowarn", "-d", folder, f"{folder}/Plan.java", "tools/BenchBook.java"], check=True)


def whole_script(plan, values, employees, folder):
    """Milliseconds of a script of `add` lines with its report, and of the Java program on it."""
    name = script_file(plan, values, employees, folder)
    java_classes(plan, folder)
    told, reports = {}, []
    for who, words in [("adds and report", [PROGRAM, "run"]), ("the same in Java", ["java", "-cp", folder, "BenchBook", name])]:
        with open(name) as script:
            began = time.perf_counter()
            done = subprocess.run(words, stdin=script, stdout=subprocess.PIPE, check=True)
            told[who] = 1000 * (time.perf_counter() - began)
        reports.append([line for line in done.stdout.split(b"\n") if line.startswith(b"E")])
    if reports[0] != reports[1]:
        sys.exit("bench_book: the reports differ")
    rounds = subprocess.run(["java", "-cp", folder, "BenchBook", name, str(ROUNDS)], stdout=subprocess.PIPE, check=True, encoding="ascii")
    spent = [float(line) for line in rounds.stdout.split()]
    return {**told, "runs in Java, first": spent[0], "runs in Java, best": min(spent)}


def main():
    with tempfile.TemporaryDirectory(prefix="papcalc-bench-") as folder:
        subprocess.run([sys.executable, "tools/full_plan.py", folder], check=True)
        for plan, values in [("examples/payroll_tax", small_values), (f"{folder}/full", full_values)]:
            for employees in [25, 4_166]:
                print(f"{plan.rsplit('/', 1)[-1]}, {12 * employees} runs")
                for name, spent in {**whole_script(plan, values, employees, folder), **edits(plan, values, employees, folder)}.items():
                    print(f"    {name:20} {spent:9.2f} ms")
            if shutil.which("valgrind"):
                for script, a_run in instructions_a_run(plan, values, folder):
                    print(f"{plan.rsplit('/', 1)[-1]}, instructions a run, {script}")
                    for subject, taken in a_run.items():
                        print(f"    {subject:24} {taken:9.0f}")


main()
