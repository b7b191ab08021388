#!/usr/bin/env python3
"""A test table against a flowchart:

    compare_table.py [--german] [--columns FILE] [--runs OUT]
                     PROGRAM PLAN LIMITS TABLE [RUN]

The first row of the table names its columns: inputs of the flowchart, and
outputs that are expected of it. Each further row is one run. An empty cell
gives no input, and expects nothing. Each expected amount that isn't the
computed one is listed, with the line that shows the run's trace and the
statement that put the amount. With RUN, a row's number or the name that the
listing gives a run, the trace of that run is printed.

A table of another form is read with a file of columns, a line for each:
    Jahresbrutto = PAY * 100       the column is PAY, in hundredths
    III = WAGE_TAX if TAX_CLASS = 3  a run of its own with this input
    Nummer =                       the column is left out
    PERIOD = 1                     each run gets this value
With --german, semicolons stand between fields, points between thousands and
a comma before decimal places. With --runs, the runs without the amounts are
left in OUT, a table for the line `load`.

The status is 0 where all is as expected, 1 where it isn't, 2 where the
flowchart, its range file, the table or the file of columns is refused, no
amount is expected, or a file or the program can't be used."""
import argparse
import csv
import os
import shutil
import subprocess
import sys
import tempfile
import tomllib
from decimal import Decimal

sys.path.insert(0, os.path.join(os.path.dirname(os.path.abspath(__file__)), "..", "examples", "clients"))
from client import Payroll, Refused  # noqa: E402
from test_tables import Columns, TableFault, TestTable, read_columns  # noqa: E402
from tool_end import run_tool  # noqa: E402

DAY = "2026-01-01"
MOST_SHOWN = 20
GIVEN_UP = 2


def give_up(reason):
    print(f"compare_table: {reason}")
    sys.exit(GIVEN_UP)


def outputs_of(program, plan, limits):
    """The names of the flowchart's outputs, or an end with status 2."""
    try:
        done = subprocess.run([program, "check", plan, limits], stdout=subprocess.PIPE, encoding="utf-8", errors="replace")
    except OSError as fault:
        give_up(f"{program}: {fault.strerror}")
    lines = done.stdout.splitlines()
    if done.returncode:
        give_up(lines[0] if lines else "the flowchart can't be checked")
    return [line.split(" ")[0] for line in lines[1:]]


def inputs_of(limits):
    """The tables of a range file's inputs, by name."""
    try:
        with open(limits, encoding="utf-8-sig") as text:
            return tomllib.loads(text.read()).get("input", {})
    except tomllib.TOMLDecodeError as fault:
        give_up(f"{limits}: this tool reads TOML 1.0 alone: {fault}")
    except (OSError, UnicodeDecodeError) as fault:
        give_up(f"{limits}: {fault}")


def write_runs(name, runs):
    """Writes the runs as a table for the line `load`."""
    inputs = list(dict.fromkeys(name for run in runs for name in run.inputs))
    with open(name, "w", encoding="utf-8", newline="") as table:
        writer = csv.writer(table, lineterminator="\n")
        writer.writerow(["employee", "month", "day", *inputs])
        writer.writerows([run.employee, DAY[:7], DAY, *(run.inputs.get(name, "") for name in inputs)] for run in runs)


def difference(run, name, report):
    """What is wrong with an expected amount, or nothing."""
    expected, computed = run.expected[name], report.get((run.employee, DAY, name))
    if computed is None:
        return f"{run.place(name)}: {expected} is expected, and the run has no amounts: {report[run.employee, DAY, '']}"
    if Decimal(computed) == Decimal(expected):
        return None
    return f"{run.place(name)}: {expected} is expected, {computed} was computed ({Decimal(computed) - Decimal(expected):+})"


def put_by(payroll, run, name):
    """The line that shows the trace of a run, and its last statement that put the output."""
    line = f"trace {run.employee} {DAY}"
    sets = [step for step in payroll.ask(*line.split(" ")) if step.startswith("set ") and step.split(" ")[2] == name]
    return f"{line}: {sets[-1] if sets else 'no statement puts it'}"


def compared(payroll, runs):
    """The first of the expected amounts that aren't the computed ones, in lines, and the status that says whether there are such."""
    report = payroll.report()
    found = [(run, name, said) for run in runs for name in run.expected if (said := difference(run, name, report))]
    lines = []
    for run, name, said in found[:MOST_SHOWN]:
        lines.append(said)
        if (run.employee, DAY, name) in report:
            lines.append(f"    {put_by(payroll, run, name)}")
    if found[MOST_SHOWN:]:
        lines.append(f".. and {len(found) - MOST_SHOWN} more")
    amounts = sum(len(run.expected) for run in runs)
    return [*lines, f"{len(runs)} runs, {amounts} amounts, {len(found)} different"], 1 if found else 0


def run_named(word, runs):
    """The run that a word names, or an end with status 2."""
    for run in runs:
        if word == run.employee or word.isdecimal() and run.employee == f"row-{int(word):05d}":
            return run
    give_up(f"{word} is no run of the table: the first is {runs[0].employee}, the last {runs[-1].employee}")


def answer(words, runs, folder):
    """The lines of the comparison, or of the trace that is asked for, and the status."""
    shown = run_named(words.run, runs) if words.run else None
    table = f"{folder}/table.csv"
    write_runs(table, runs)
    if words.runs:
        shutil.copyfile(table, words.runs)
    with Payroll(words.program) as payroll:
        # A line of a script takes names without blanks, and no others than of ASCII.
        payroll.ask("plan", DAY, shutil.copy(words.plan, f"{folder}/plan.xml"), shutil.copy(words.limits, f"{folder}/limits.toml"))
        payroll.ask("load", table)
        return (payroll.ask("trace", shown.employee, DAY), 0) if shown else compared(payroll, runs)


def words_of(arguments):
    reader = argparse.ArgumentParser(prog="compare_table.py", description=__doc__, formatter_class=argparse.RawDescriptionHelpFormatter)
    for name in ["PROGRAM", "PLAN", "LIMITS", "TABLE"]:
        reader.add_argument(name.lower(), metavar=name)
    reader.add_argument("run", metavar="RUN", nargs="?")
    reader.add_argument("--german", action="store_true")
    reader.add_argument("--columns", metavar="FILE")
    reader.add_argument("--runs", metavar="OUT")
    return reader.parse_args(arguments)


def main(arguments):
    words = words_of(arguments)
    outputs = outputs_of(words.program, words.plan, words.limits)
    try:
        columns = read_columns(words.columns) if words.columns else Columns()
        runs = TestTable(words.table, columns, words.german, inputs_of(words.limits), outputs).runs()
        with tempfile.TemporaryDirectory() as folder:
            if " " in folder or not folder.isascii():
                give_up(f"the folder for temporary files has a blank or no ASCII name: set TMPDIR to another than {os.path.dirname(folder)}")
            lines, status = answer(words, runs, folder)
    except (TableFault, Refused, EOFError) as fault:
        give_up(fault)
    except BrokenPipeError:
        give_up(f"{words.program}: it ended too early")
    except OSError as fault:
        give_up(f"{fault.filename2 or fault.filename}: {fault.strerror}")
    print(*lines, sep="\n")
    return status


if __name__ == "__main__":
    run_tool("compare_table", lambda: main(sys.argv[1:]), GIVEN_UP)
