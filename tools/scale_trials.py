#!/usr/bin/env python3
"""Tables in parts on the built program: scale_trials.py PROGRAM, from the top of the repository.

Rows of random texts end where `csv` ends them. Random tables are split, counted and sampled, and the parts have the table's rows. Tables in
parts, run here and by Slurm and Dask where these are there, have the report and the filing of one book; so they have after a correction,
for which one part alone is run again, and after a corrected table was split as the one before. What doesn't belong together is refused by
the part's name, and nothing is joined. Then follow the trials of tool_trials.py."""
import contextlib
import csv
import io
import json
import os
import random
import shutil
import subprocess
import sys
import tempfile
from unittest import mock

import parts
import split_table
import table_parts
import table_rows
import tool_trials
import trial_clusters

TOOLS = os.path.dirname(os.path.abspath(__file__))
PLAN = os.path.abspath("examples/payroll_tax")
PLANS = "plan 2026-01-01 {0}.xml {0}.toml\n"
COLUMNS = "employee,month,day,PERIOD,PAY,TAX_CLASS,CHURCH_RATE"
passed = failed = 0


def count(name, holds):
    global passed, failed
    passed, failed = passed + bool(holds), failed + (not holds)
    if not holds:
        print(f"scale_trials: failed: {name}")


def tool(*words):
    """The status of split_table.py, what it prints, and what it says of a fault."""
    with contextlib.redirect_stdout(io.StringIO()) as out:
        try:
            split_table.main(list(words))
        except SystemExit as fault:
            return 1, out.getvalue(), str(fault)
    return 0, out.getvalue(), ""


def bytes_of(name):
    with open(name, "rb") as file:
        return file.read()


def put(name, text):
    with open(name, "wb") as file:
        file.write(text if isinstance(text, bytes) else text.encode())


# ---- rows and tables

def csv_records(text):
    return [row for row in csv.reader(io.StringIO(text.decode("ascii"), newline="")) if row]


def ends_rows_as_csv(rng):
    """Random texts in small blocks: the rows, one by one, are the records of `csv`, and together the text."""
    text = bytes(rng.choice(b'ab,,"\r\n\n') for _ in range(rng.randint(1, 60)))
    try:
        with mock.patch.object(table_rows, "BLOCK", rng.randint(1, 9)):
            rows = [row for some, _ in table_rows.raw_rows(io.BytesIO(text)) for row in some]
    except table_rows.TableFault:
        return not csv_records(text) or csv_records(text + b'"') == csv_records(text)
    records = [record for row in rows for record in csv_records(row)]
    filled = [row for row in rows if row.strip(b"\r\n")]
    return (b"".join(rows) in (text, text + b"\n") and records == csv_records(text)
            and [table_rows.first_field(row).decode() for row in filled] == [record[0] for record in records])


def random_table(rng, employees, quoted):
    end = rng.choice(["\n", "\r\n", "\r"])
    names = [f"{rng.choice('AaZz_.-9')}{rng.randint(0, 9999)}" for _ in range(employees)]
    rows = []
    for name in sorted(set(names), key=lambda _: rng.random()):
        for month in rng.sample(range(1, 13), rng.randint(1, 5)):
            fields = [name, f"2026-{month:02}", f"2026-{month:02}-28", "2", str(rng.randint(1, 999_999)), str(rng.randint(1, 6)), ""]
            rows.append(",".join(f'"{field}"' if quoted and rng.random() < 0.3 else field for field in fields))
    rng.shuffle(rows)
    rows = [row for some in rows for row in ([some, ""] if rng.random() < 0.05 else [some])]
    mark = rng.choice([b"", table_rows.BYTE_ORDER_MARK])
    return mark + end.join([COLUMNS, *rows]).encode() + rng.choice([b"", end.encode()])


def rows_in(text):
    return csv_records(text.removeprefix(table_rows.BYTE_ORDER_MARK))[1:]


def is_split_whole(rng):
    """The parts of a table, cut by counts or by samples, are small, in order, and have its rows in its order; their manifests say so."""
    table = random_table(rng, rng.randint(1, 300), rng.random() < 0.5)
    put("table.csv", table)
    shutil.rmtree("folder", ignore_errors=True)
    os.mkdir("folder")
    most = rng.randint(5, 60)
    with mock.patch.object(table_rows, "BLOCK", rng.randint(200, 4000)), \
            mock.patch.multiple(table_parts, MOST_WAITING=rng.randint(100, 9000), COUNTED=rng.choice([0, 300, 10 ** 6])):
        made = table_parts.make_parts("table.csv", "folder", "plans.script", most, program)
    read = parts.read_manifests("folder")
    held = [rows_in(bytes_of(f"folder/{manifest.name}.csv")) for manifest in read]
    wanted = rows_in(table)
    return (read == made
            and all(len(rows) == manifest.rows <= most for rows, manifest in zip(held, read))
            and all((min(row[0] for row in rows), max(row[0] for row in rows)) == (manifest.first, manifest.last) for rows, manifest in zip(held, read))
            and all(parts.digest_of(f"folder/{name}") == digest for manifest in read for name, digest in manifest.files.items())
            and all(rows == [row for row in wanted if manifest.first <= row[0] <= manifest.last] for rows, manifest in zip(held, read))
            and sum(map(len, held)) == len(wanted)
            and sorted(os.listdir("folder")) == sorted(["plans", "plans.script"] + [f"{m.name}.{end}" for m in read for end in ["csv", "json"]])
            and all(parts.part_of(read, row[0]) is manifest for rows, manifest in zip(held, read) for row in rows))


# ---- parts that are run

def small_table(employees=40, months=2):
    rng = random.Random(7)
    rows = [f"E{number},2026-{month:02},2026-{month:02}-28,2,{rng.randint(150_000, 900_000)},{rng.randint(1, 6)},{rng.choice(['', 8, 9])}\n"
            for month in range(1, months + 1) for number in rng.sample(range(employees), employees)]
    return "".join([COLUMNS + "\n", *rows])


def one_book(*lines):
    """The answers of one book to the lines, behind those to the flowcharts and the table."""
    script = PLANS.format(PLAN) + "load table.csv\n" + "".join(f"{line}\n" for line in lines)
    done = subprocess.run([program, "run"], input=script.encode(), stdout=subprocess.PIPE)
    return done.stdout


def report_of(answers):
    return answers[answers.index(parts.HEADER):].removesuffix(b"end\n")


def last_filing(answers):
    return b"".join(line for line in answers.splitlines(True)[answers.count(b"\n", 0, answers.rindex(b"ok\n")) + 1:])


def run_here(number, *question):
    return subprocess.run([f"{TOOLS}/run_part.sh", "folder", str(number), *question], env={**os.environ, "PAPCALC": program},
                          stderr=subprocess.PIPE).returncode


def split_small(rows=50):
    shutil.rmtree("folder", ignore_errors=True)
    put("table.csv", small_table())
    return tool("split", "table.csv", "folder", "--plans", "plans.script", "--rows", str(rows), "--program", program)


def joined(*words):
    """What `join` makes, or nothing, with what it says."""
    if os.path.exists("out"):
        os.remove("out")
    status, _, said = tool("join", "folder", "out", *words)
    there = [name for name in os.listdir(".") if name.startswith("out")]
    if there != (["out"] if status == 0 else []):
        return None, "a file is left"
    return (bytes_of("out"), said) if status == 0 else (None, said)


def run_in_parts():
    status, said, _ = split_small()
    count("a table of 80 runs is split", (status, said) == (0, "2 parts, 80 runs: part-0001 to part-0002\n"))
    count("parts are run", [run_here(1), run_here(2)] == [0, 0])
    count("the report in parts is that of one book", joined()[0] == report_of(one_book("report")))
    count("parts are filed", [run_here(1, "file", "2026-01"), run_here(2, "file", "2026-01")] == [0, 0])
    count("the filing in parts is that of one book", joined("--filing", "2026-01")[0] == last_filing(one_book("file 2026-01")))
    count("the report stays beside it", joined()[0] == report_of(one_book("report")))


def correct_one_part():
    """A correction is a line of the part of its employee, which alone is run again."""
    change = "change E7 2026-01 2026-01-28 PERIOD=2 PAY=480000 TAX_CLASS=1"
    part = tool("part", "folder", "E7")[1].strip()
    other = "part-0001" if part == "part-0002" else "part-0002"
    before = os.stat(f"folder/{other}.report")
    put(f"folder/{part}.edits", change)
    count("a correction that wasn't run is told by its part", joined() == (None, f"split_table: {part} was run with another {part}.edits than is here, or without: run it again"))
    count("the corrected part is run again", run_here(int(part[-4:])) == 0)
    count("the corrected report is that of one book", joined()[0] == report_of(one_book(change, "report")))
    count("the other part wasn't run", os.stat(f"folder/{other}.report") == before)
    put(f"folder/{part}.edits", f"file 2026-01\n{change}\n")
    put(f"folder/{other}.edits", "file 2026-01\n")
    count("both parts are filed", [run_here(1, "file", "2026-02"), run_here(2, "file", "2026-02")] == [0, 0])
    answers = one_book("file 2026-01", change, "file 2026-02")
    count("a later filing has what is owed of the month before", joined("--filing", "2026-02")[0] == last_filing(answers))
    count("a part can't file a month twice", run_here(1, "file", "2026-01") == 1)
    count("a refused filing leaves no result", joined("--filing", "2026-03")[1].count("has no result of `file 2026-03`") == 2)


# ---- split as an earlier table was

def split_alike(table, *words):
    """The table, split as that in the folder `earlier` was, is in `folder`."""
    put("table.csv", table)
    shutil.rmtree("folder", ignore_errors=True)
    return tool("split", "table.csv", "folder", "--plans", "plans.script", "--like", "earlier", "--program", program, *words)


def correct_table():
    """A corrected table is split as the one before: the part with what is new alone is run again."""
    split_small(rows=20)
    for number in range(1, 5):
        run_here(number)
    shutil.rmtree("earlier", ignore_errors=True)
    os.rename("folder", "earlier")
    part = tool("part", "earlier", "E7x")[1].strip()
    number = int(part[-4:])
    table = small_table() + "E7x,2026-02,2026-02-28,2,300000,1,\n"
    status, said, _ = split_alike(table)
    count("a corrected table is split as the one before", (status, said) == (0, f"4 parts, 81 runs: part-0001 to part-0004\n3 as in earlier, others: {number}\n"))
    count("each employee has the part of before", all(parts.part_of(parts.read_manifests("earlier"), row[0]).part == manifest.part
          for manifest in parts.read_manifests("folder") for row in rows_in(bytes_of(f"folder/{manifest.name}.csv"))))
    count("the other part's result is missing", joined() == (None, f"split_table: {part} has no result of `report`: it wasn't run, or was refused"))
    count("the other part is run", run_here(number) == 0)
    count("the report of the corrected table is that of one book", joined()[0] == report_of(one_book("report")))
    split_alike(small_table(), "--plans", "plans.script")
    count("a table that is the same needs no run", joined()[0] == report_of(one_book("report")))
    for manifest in parts.read_manifests("earlier"):
        put(f"earlier/{manifest.name}.edits", f"# of {manifest.name}\n")
    said = split_alike(table)[1]
    count("edits of the other part stay, which is told", said.splitlines()[2:] == [f"{part} is another than in earlier, whose {part}.edits stay there: "
                                                                                  "see which of them still hold"])
    kept = [f"part-{at:04d}.edits" for at in range(1, 5) if at != number]
    count("edits of the others come along", sorted(name for name in os.listdir("folder") if name.endswith(".edits")) == kept)
    with open(f"folder/{kept[0]}", "a") as edits:
        edits.write("# more\n")
    count("they are copies", bytes_of(f"earlier/{kept[0]}") == f"# of {kept[0][:9]}\n".encode())
    refused_alike(table, part)


def refused_alike(table, part):
    third = parts.read_manifests("earlier")[2]
    without = "".join(row for row in small_table().splitlines(True) if not third.first <= row.split(",")[0] <= third.last)
    status, _, why = split_alike(table, "--rows", "20")
    count("a part that has grown too large is refused", status == 1 and f"{part} would have 21 runs in " in why and not os.path.exists("folder"))
    status, _, why = split_alike(without)
    count("a part without a run is refused", status == 1 and "part-0003 would have no run" in why and not os.path.exists("folder"))
    os.remove("earlier/part-0003.json")
    status, _, why = split_alike(table)
    count("an earlier part that is missing is told", status == 1 and "earlier: part-0003 is missing" in why and not os.path.exists("folder"))


# ---- what is refused

def refused_splits():
    many = COLUMNS + "\n" + "".join(f"E1,2026-01,2026-01-{day:02},2,1,1,\n" for day in range(1, 29))
    for name, table, said in [
            ("semicolons", COLUMNS.replace(",", ";") + "\n", "table.csv: the first row isn't employee,month,day"),
            ("no row", "", "table.csv: the first row isn't employee,month,day"),
            ("no run", COLUMNS + "\n", "table.csv: there is no run in it"),
            ("an umlaut", COLUMNS + "\nE1,2026-01,2026-01-31,,,,\n\nBär,2026-01,2026-01-31,,,,\n", "table.csv: row 2: 'B\\xe4r' isn't an employee"),
            ("an open quote", COLUMNS + '\nE1,2026-01,2026-01-31,"2,,,\n', "table.csv: the last row has a quote that isn't closed"),
            ("an employee of 28 runs", many, "table.csv: the runs of E1 are more than one part holds: 28 runs")]:
        put("table.csv", table)
        shutil.rmtree("folder", ignore_errors=True)
        status, _, why = tool("split", "table.csv", "folder", "--plans", "plans.script", "--rows", "20", "--program", program)
        count(f"a table with {name} is refused", status == 1 and said in why and not any(at.startswith("folder") for at in os.listdir(".")))
    put("table.csv", small_table())
    put("report.script", "plan 2026-01-01 a b\n")
    put("more.script", PLANS.format(PLAN) + "report\n")
    for name, words, said in [
            ("a flowchart that isn't there", ["--plans", "report.script"], "report.script:1: a: No such file or directory"),
            ("a script that asks", ["--plans", "more.script"], "more.script:2: only lines `plan DAY PLAN LIMITS`"),
            ("a program that isn't there", ["--plans", "plans.script", "--program", "./none"], "the program isn't there"),
            ("50,001 runs a part", ["--plans", "plans.script", "--rows", "50001"], "50001 isn't a number of runs from 1 to 50000"),
            ("a table that isn't there", ["--plans", "plans.script"], "none.csv: No such file or directory")]:
        table = "none.csv" if "table" in name else "table.csv"
        status, _, why = tool("split", table, "folder", "--program", program, *words)
        count(f"{name} is refused", status == 1 and said in why and not any(at.startswith("folder") for at in os.listdir(".")))
    split_small()
    count("a folder that isn't empty is refused", "folder is there and not empty" in split_again())
    count("a word that is no employee has no part", tool("part", "folder", "a b")[0] == 1)


def split_again():
    return tool("split", "table.csv", "folder", "--plans", "plans.script", "--program", program)[2]


def changed_manifest(number, **fields):
    name = f"folder/part-{number:04d}.json"
    held = json.loads(bytes_of(name))
    put(name, json.dumps({**held, **fields}))


def changed_result(change):
    name = "folder/part-0003.report"
    put(name, change(bytes_of(name)))


def other_flowchart():
    files = json.loads(bytes_of("folder/part-0003.json"))["files"]
    changed_manifest(3, files={**files, "plans/0001.xml": "0" * 64})


def other_table():
    put("folder/part-0003.csv", bytes_of("folder/part-0003.csv").replace(b",2,", b",1,", 1))
    run_here(3)


def moved_employee():
    put("folder/part-0003.edits", "add A 2026-01 2026-01-28 PERIOD=2 PAY=1 TAX_CLASS=1\n")
    run_here(3)


def no_table():
    os.remove("folder/part-0003.report")
    put("folder/part-0003.csv", "a;b\n")
    run_here(3)


def run_with_other_flowchart():
    put("folder/plans/0001.xml", bytes_of("folder/plans/0001.xml") + b"\n")
    run_here(3)


def employee_in_two_tables():
    """A row of the part before stands in a part's table, also by the part's manifest."""
    row = bytes_of("folder/part-0002.csv").splitlines(True)[-1]
    put("folder/part-0003.csv", bytes_of("folder/part-0003.csv") + row)
    files = json.loads(bytes_of("folder/part-0003.json"))["files"]
    changed_manifest(3, files={**files, "part-0003.csv": parts.digest_of("folder/part-0003.csv")})
    run_here(3)


REFUSED_JOINS = [
    ("a manifest that isn't there", lambda: os.remove("folder/part-0003.json"), "part-0003 is missing: it has no manifest"),
    ("a part twice", lambda: shutil.copy("folder/part-0003.json", "folder/part-0003-b.json"), "part-0003 is there twice: part-0003-b.json, part-0003.json"),
    ("a manifest under another name", lambda: os.rename("folder/part-0003.json", "folder/part-0009.json"), "part-0009.json says that it is part-0003 of 4"),
    ("a manifest that is none", lambda: put("folder/part-0003.json", "{"), "part-0003.json isn't the manifest of a part"),
    ("a manifest with another field", lambda: changed_manifest(3, more=1), "part-0003.json isn't the manifest of a part"),
    ("a manifest of another form", lambda: changed_manifest(3, rows="many"), "part-0003.json isn't a manifest of format 1: see rows"),
    ("a manifest of another format", lambda: changed_manifest(3, format=2), "part-0003.json isn't a manifest of format 1: see format"),
    ("another split's part", lambda: changed_manifest(3, split="0" * 64), "part-0003 is of another split of a table"),
    ("another flowchart's part", other_flowchart, "part-0003 has other flowcharts or range files"),
    ("another program's part", lambda: changed_manifest(3, program="papcalc 0.0.9"), "part-0003 has another version of the program"),
    ("an employee in two manifests", lambda: changed_manifest(3, first=json.loads(bytes_of("folder/part-0002.json"))["last"]),
     "part-0002 and part-0003 may both have runs of"),
    ("an employee in two results", moved_employee, "part-0002 and part-0003 may both have runs of A"),
    ("a part that wasn't run", lambda: os.remove("folder/part-0003.report"), "part-0003 has no result of `report`"),
    ("a result that breaks off", lambda: changed_result(lambda text: text[:-9]), "part-0003: part-0003.report has no whole report"),
    ("a result without a report", lambda: changed_result(lambda text: text[:text.index(b"employee")]), "part-0003: part-0003.report has no report"),
    ("a result with a refusal", lambda: changed_result(lambda text: text.replace(b"\nok\n", b"\nrefused table Header\n")),
     "part-0003: part-0003.report has a refused line: refused table Header"),
    ("a result with two reports", lambda: changed_result(lambda text: text + text[text.index(b"employee"):]), "part-0003: part-0003.report has a second report"),
    ("a result of another part", lambda: shutil.copy("folder/part-0002.report", "folder/part-0003.report"),
     "part-0003 was run with another part-0002.csv, part-0003.csv than is here"),
    ("a result of another program", lambda: changed_result(lambda text: text.replace(b"# papcalc ", b"# papcalc 0.0.9 not ")), "part-0003 was run as papcalc 0.0.9"),
    ("a result of another question", lambda: changed_result(lambda text: text.replace(b"# report\n", b"# owed\n")), "part-0003 was run as owed, papcalc"),
    ("a part whose table is none", no_table, "part-0003 has no result of `report`: it wasn't run, or was refused"),
    ("a part that was run with another flowchart", run_with_other_flowchart, "part-0003 was run with another plans/0001.xml than is here"),
    ("an employee in two tables", employee_in_two_tables, "part-0002 and part-0003 may both have runs of E"),
    ("a table that changed", other_table, "part-0003 was run with another part-0003.csv than is here"),
]


def refused_joins():
    split_small(rows=20)
    for number in range(1, 5):
        run_here(number)
    shutil.copytree("folder", "whole")
    count("the parts are joined", joined()[0] is not None)
    for name, change, said in REFUSED_JOINS:
        shutil.rmtree("folder")
        shutil.copytree("whole", "folder")
        change()
        made, why = joined()
        count(f"{name} is refused", made is None and said in why)
    count("a folder without parts is refused", "has no parts" in tool("join", "whole/plans", "out")[2])


# ---- clusters

def run_by_slurm():
    split_small()
    with trial_clusters.Slurm(os.path.abspath("slurm"), 2, program) as slurm:
        slurm.wait(slurm.submit(2, os.path.abspath("folder")))
        slurm.wait(slurm.submit(2, os.path.abspath("folder"), "file", "2026-01"))
    count("the report by Slurm is that of one book", joined()[0] == report_of(one_book("report")))
    count("the filing by Slurm is that of one book", joined("--filing", "2026-01")[0] == last_filing(one_book("file 2026-01")))


def run_by_dask(python):
    folder = os.path.abspath("folder")
    with trial_clusters.Dask(os.path.abspath("dask"), 1, python) as dask:
        split_small()
        count("Dask runs all parts in a shared folder", dask.payroll(program, folder).wait(trial_clusters.MOST_SECONDS) == 0)
        count("the report by Dask is that of one book", joined()[0] == report_of(one_book("report")))
        count("Dask files all parts that it is sent", dask.payroll(program, "--send", folder, "file", "2026-01").wait(trial_clusters.MOST_SECONDS) == 0)
        count("the filing by Dask is that of one book", joined("--filing", "2026-01")[0] == last_filing(one_book("file 2026-01")))


def main():
    put("plans.script", PLANS.format(PLAN))
    count("rows end as csv ends them", all(ends_rows_as_csv(random.Random(seed)) for seed in range(10_000)))
    for seed in range(30):
        count(f"is_split_whole of {seed}", is_split_whole(random.Random(seed)))
    run_in_parts()
    correct_one_part()
    correct_table()
    refused_splits()
    refused_joins()
    if trial_clusters.has_slurm():
        run_by_slurm()
    else:
        print("scale_trials: Slurm isn't there (slurm-wlm of Debian): no part was run by it")
    python = trial_clusters.python_with_dask()
    if python:
        run_by_dask(python)
    else:
        print("scale_trials: Dask isn't there (python3-distributed of Debian): no part was run by it")
    tool_trials.run(count, program)


if __name__ == "__main__":
    program = os.path.abspath(sys.argv[1])
    with tempfile.TemporaryDirectory(prefix="papcalc-scale-") as scratch:
        os.chdir(scratch)
        main()
        os.chdir(TOOLS)
    print(f"scale_trials: {passed} passed, {failed} failed")
    sys.exit(1 if failed or not passed else 0)
