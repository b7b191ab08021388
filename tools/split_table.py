#!/usr/bin/env python3
"""A table of more pay runs than one book holds, in parts of whole employees:

    split_table.py split TABLE FOLDER --plans FILE [--rows N] [--like EARLIER]
                   [--program PAPCALC]
    split_table.py part FOLDER EMPLOYEE
    split_table.py join FOLDER OUT [--filing MONTH]

`split` makes FOLDER, with tables part-0001.csv, .. of at most N runs each
(50,000 where none is said), a manifest beside each, and the flowcharts that
the script FILE puts with its lines `plan`. All runs of an employee stand in
one part, in the table's order, and the employees of a part come before those
of the next in order of their bytes. With --like, an employee goes to the part
that has the employee in the folder EARLIER; a part that is there as it was
comes with its edits and results, and the others are told. `part` prints the
part to which an employee belongs. `join` makes OUT of the results of all
parts: one report, or with --filing one list of the amounts that are due with
the month. Where something stands against it, each part is named with what is
wrong, and there is no FOLDER or OUT."""
import argparse
import os
import shutil
import sys

import parts
import table_parts
import tool_end
from earlier_parts import Earlier
from parts import PartsFault
from table_rows import TableFault

UNWRITTEN = 5


def words_of(arguments):
    reader = argparse.ArgumentParser(prog="split_table.py", description=__doc__, formatter_class=argparse.RawDescriptionHelpFormatter)
    words = reader.add_subparsers(dest="word", metavar="WORD", required=True)
    split = words.add_parser("split", help="makes a folder of parts of a table")
    split.add_argument("table", metavar="TABLE", help="all pay runs")
    split.add_argument("folder", metavar="FOLDER", help="is made: it isn't there, or is empty")
    split.add_argument("--plans", metavar="FILE", required=True, help="a script whose lines `plan` put the flowcharts")
    split.add_argument("--rows", metavar="N", type=int, default=table_parts.MOST_RUNS, help=f"at most N runs a part ({table_parts.MOST_RUNS})")
    split.add_argument("--like", metavar="EARLIER", help="a folder of parts, or a manifest in it: each employee keeps the part")
    split.add_argument("--program", metavar="PAPCALC", default="papcalc", help="the program, of which the version is asked (papcalc)")
    part = words.add_parser("part", help="prints the part of an employee")
    part.add_argument("folder", metavar="FOLDER")
    part.add_argument("employee", metavar="EMPLOYEE")
    join = words.add_parser("join", help="makes one file of the results of all parts")
    join.add_argument("folder", metavar="FOLDER")
    join.add_argument("out", metavar="OUT")
    join.add_argument("--filing", metavar="MONTH", help="what is due with the month, in place of the report")
    return reader.parse_args(arguments)


def split(words):
    """Makes the folder beside its name, and gives it the name when all is there."""
    if os.path.exists(words.folder) and (not os.path.isdir(words.folder) or os.listdir(words.folder)):
        raise PartsFault(f"{words.folder} is there and not empty: name another folder, or take it away first")
    earlier = words.like and Earlier(words.like)
    made = f"{words.folder.rstrip('/')}.{os.getpid()}.tmp"
    os.makedirs(made)
    try:
        made_parts = table_parts.make_parts(words.table, made, words.plans, words.rows, words.program, earlier.manifests if earlier else None)
        told = earlier.take_over(made, made_parts) if earlier else []
        os.rename(made, words.folder)
    finally:
        shutil.rmtree(made, ignore_errors=True)
    runs, number = sum(part.rows for part in made_parts), len(made_parts)
    print(f"{number} part{'s' * (number > 1)}, {runs} runs: {made_parts[0].name} to {made_parts[-1].name}", *told, sep="\n")


def part(words):
    if not parts.EMPLOYEE.fullmatch(words.employee):
        raise PartsFault(f"{words.employee!r} isn't an employee, 1 to 32 letters of ASCII, digits, _, - and .")
    print(parts.part_of(parts.read_manifests(words.folder), words.employee).name)


def join(words):
    if words.filing is not None and not parts.MONTH.fullmatch(words.filing):
        raise PartsFault(f"{words.filing!r} isn't a month, as 2026-01")
    parts.join(words.folder, words.out, "report" if words.filing is None else f"file {words.filing}")


def main(arguments):
    words = words_of(arguments)
    try:
        {"split": split, "part": part, "join": join}[words.word](words)
    except TableFault as fault:
        sys.exit(f"split_table: {words.table}: {fault}")
    except PartsFault as fault:
        sys.exit("\n".join(f"split_table: {line}" for line in str(fault).splitlines()))
    except BrokenPipeError:
        raise
    except OSError as fault:
        sys.exit(f"split_table: {fault.filename2 or fault.filename or words.folder}: {fault.strerror}")


if __name__ == "__main__":
    tool_end.run_tool("split_table", lambda: main(sys.argv[1:]), UNWRITTEN)
