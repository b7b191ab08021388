#!/usr/bin/env python3
"""Each allocation of the built program refused in turn: refused_memory.py PROGRAM, from the top of the repository. It needs a C compiler.

For small scripts and for the other words, the program is run as often as it asks for memory, and each time another one of its requests is
refused, by a library that stands before malloc and realloc (refuse_memory.c). Each run ends with the status of lack of memory, and what it
wrote is a front of the whole answer; or with the whole answer and its status, where that piece of memory wasn't needed for it."""
import os
import subprocess
import sys
import tempfile
from concurrent.futures import ThreadPoolExecutor

NO_MEMORY = 6
SAID = b"an allocation was refused\n"
TABLE = "employee,month,day,GROSS,MONTHS,CHILDREN\nben,2026-01,2026-01-30,500000,1,2\nchris,2026-02,2026-02-27,910000,2,\n"
EDITS = """plan 2026-01-01 examples/wage_tax.xml examples/wage_tax.toml
load {folder}/table.csv
add anna 2026-01 2026-01-30 GROSS=1234567 MONTHS=4
change anna 2026-01 2026-01-30 GROSS=1300000 MONTHS=4
withdraw chris 2026-02
"""
SCRIPT = EDITS + """work
add anna 2026-01 2026-01-30
report
trace anna 2026-01
file 2026-01
change ben 2026-01 2026-01-30 GROSS=600000 MONTHS=1
owed
try 2026-01-15 examples/wage_tax.xml examples/wage_tax.toml
plan 2026-02-01 examples/wage_tax.xml examples/wage_tax.xml
drop 2026-01-01
report
"""
OPENED = "open {folder}/book\nreport\nwithdraw ben 2026-01\nwork\n"
TRIALS = [
    (["run"], SCRIPT),
    (["run"], OPENED),
    (["save"], EDITS),
    (["sample", "1"], ""),
    (["check", "examples/wage_tax.xml", "examples/wage_tax.toml"], ""),
    (["check", "examples/wage_tax.xml", "examples/wage_tax.xml"], ""),
    (["once", "examples/wage_tax.xml", "examples/wage_tax.toml", "GROSS=1234567", "MONTHS=4"], ""),
]


def run(words, script, number, library):
    """The status and the answer where the request of this number is refused, and whether there was one."""
    environment = {**os.environ, "LD_PRELOAD": library, "REFUSED": str(number)}
    done = subprocess.run([program, *words], input=script.encode(), capture_output=True, env=environment, timeout=60)
    return done.returncode, done.stdout, SAID in done.stderr


def is_fit(end, whole):
    """Whether the end of a run in which a request was refused is one of the two that may come."""
    (status, text, _), (whole_status, whole_text, _) = end, whole
    if status == NO_MEMORY:
        return whole_text.startswith(text)
    return (status, text) == (whole_status, whole_text)


def ends(words, script, library, side_by_side):
    """The ends of the runs in which the first request is refused, the second .., up to the last."""
    found, first = [], 1
    while not found or found[-1][2]:
        numbers = range(first, first + 64)
        found += side_by_side(lambda number: run(words, script, number, library), numbers)
        first += 64
    return [end for end in found if end[2]]


def main():
    failed = 0
    with tempfile.TemporaryDirectory() as folder, ThreadPoolExecutor(max_workers=os.cpu_count()) as pool:
        library = f"{folder}/refuse_memory.so"
        subprocess.run(["cc", "-O2", "-shared", "-fPIC", "-o", library, "tools/refuse_memory.c"], check=True)
        with open(f"{folder}/table.csv", "w") as table:
            table.write(TABLE)
        with open(f"{folder}/book", "wb") as book:
            book.write(run(["save"], EDITS.format(folder=folder), 0, library)[1])
        for words, script in TRIALS:
            script = script.format(folder=folder)
            whole = run(words, script, 0, library)
            found = ends(words, script, library, pool.map)
            unfit = [(number, end) for number, end in enumerate(found, 1) if not is_fit(end, whole)]
            for number, (status, text, _) in unfit:
                print(f"refused_memory: failed: {' '.join(words)}: request {number}: status {status}, {len(text)} bytes")
            stopped = sum(1 for end in found if end[0] == NO_MEMORY)
            print(f"refused_memory: {' '.join(words)}: {len(found)} requests, {stopped} ended with lack of memory, {len(unfit)} failed")
            failed += len(unfit)
    return 1 if failed else 0


program = os.path.abspath(sys.argv[1])
sys.exit(main())
