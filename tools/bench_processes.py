#!/usr/bin/env python3
"""Pay runs a second with 1, 2 and 4 processes side by side: bench_processes.py PROGRAM, from the top of the repository.

Each process loads a table of its own of 49,992 runs of examples/payroll_tax.xml (4,166 employees, twelve months) and writes their
report. The time is that of the wall, from the first start to the last end."""
import os
import random
import subprocess
import sys
import tempfile
import time

EMPLOYEES = 4_166
OUTPUTS = 5
ROWS = EMPLOYEES * 12 * OUTPUTS
PLAN = os.path.abspath("examples/payroll_tax")


def write_part(name, number):
    rng = random.Random(number)
    with open(name, "w") as table:
        table.write("employee,month,day,PERIOD,PAY,TAX_CLASS,CHURCH_RATE\n")
        for employee in range(EMPLOYEES):
            pay, tax_class, church_rate = rng.randint(150_000, 900_000), rng.randint(1, 6), rng.choice(["", 8, 9])
            for month in range(1, 13):
                table.write(f"E{number}-{employee},2026-{month:02d},2026-{month:02d}-28,2,{pay},{tax_class},{church_rate}\n")


def write_script(part):
    with open(f"{part}.script", "w") as script:
        script.write(f"plan 2026-01-01 {PLAN}.xml {PLAN}.toml\nload {part}\nreport\n")


def lines_in(name):
    with open(name) as text:
        return sum(1 for _ in text)


def run_side_by_side(program, parts):
    began = time.time()
    running = [subprocess.Popen([program, "run"], stdin=open(f"{part}.script"), stdout=open(f"{part}.answers", "w")) for part in parts]
    if any([process.wait() for process in running]):
        sys.exit("bench_processes: a script was refused")
    seconds = time.time() - began
    if any(lines_in(f"{part}.answers") < ROWS for part in parts):
        sys.exit("bench_processes: a report isn't whole")
    return seconds


def main():
    program = os.path.abspath(sys.argv[1])
    with tempfile.TemporaryDirectory() as folder:
        os.chdir(folder)
        parts = [f"part-{number}.csv" for number in range(4)]
        for number, part in enumerate(parts):
            write_part(part, number)
            write_script(part)
        print(f"load of the machine before: {os.getloadavg()[0]:.1f}, processors: {os.cpu_count()}")
        for count in (1, 2, 4):
            seconds = min(run_side_by_side(program, parts[:count]) for _ in range(3))
            runs = count * EMPLOYEES * 12
            print(f"{count} processes: {runs} runs in {seconds:.2f} s, {runs / seconds:.0f} runs a second")


if __name__ == "__main__":
    main()
