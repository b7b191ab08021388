#!/usr/bin/env python3
"""A correction runs nothing that it doesn't count: rerun_trial.py PROGRAM.

A book of 360 runs, each of 393,215 steps, has the same run corrected 600 times, with a report behind each correction. Counted are 960 runs
in all. No clause sees a run that goes past the counter, but time does: a program that ran the whole book again at each correction or
report would execute 85,000 million steps, and has 60 seconds."""
import os
import subprocess
import sys
import tempfile
import time

LEVELS, EMPLOYEES, CORRECTIONS, MOST_SECONDS = 16, 30, 600, 60
STEPS = 6 * 2 ** LEVELS - 1
CORRECTED = "E1,2025-12,2025-12-28,2025-01-01,ok,K,"


def plan():
    methods = [f'<METHOD name="A{level}">' + f'<EXECUTE method="A{level - 1}"/>' * 2 + "</METHOD>" for level in range(1, LEVELS + 1)]
    return ('<PAP><INTERFACE><INPUTS><INPUT name="N" type="int"/></INPUTS><OUTPUTS><OUTPUT name="K" type="int"/></OUTPUTS></INTERFACE>'
            f'<METHODS><MAIN><EXECUTE method="A{LEVELS}"/></MAIN><METHOD name="A0"><EVAL exec="K = N"/></METHOD>{"".join(methods)}'
            "</METHODS></PAP>\n")


def table():
    rows = [f"E{employee},2025-{month:02},2025-{month:02}-28,0\n" for employee in range(1, EMPLOYEES + 1) for month in range(1, 13)]
    return "employee,month,day,N\n" + "".join(rows)


def report(value):
    keys = sorted((f"E{employee}", month) for employee in range(1, EMPLOYEES + 1) for month in range(1, 13))
    rows = [f"{employee},2025-{month:02},2025-{month:02}-28,2025-01-01,ok,K," for employee, month in keys]
    return "".join(["employee,month,day,plan,state,name,value\n"] + [f"{row}{value if row == CORRECTED else 0}\n" for row in rows] + ["end\n"])


def answers(script, folder, program):
    done = subprocess.run([program, "run"], input=script, cwd=folder, capture_output=True, text=True, timeout=MOST_SECONDS)
    return done.returncode, done.stdout


def main(program):
    begin = f"plan 2025-01-01 plan.xml plan.toml\nload table.csv\n"
    corrections = [f"change E1 2025-12 2025-12-28 N={value}\nwork\nreport\n" for value in range(1, CORRECTIONS + 1)]
    wanted = [f"accepted steps {STEPS}\nok\n"] + [f"ok\nwork 1 {STEPS}\n{report(value)}" for value in range(1, CORRECTIONS + 1)]
    with tempfile.TemporaryDirectory() as folder:
        for name, text in [("plan.xml", plan()), ("plan.toml", "[input.N]\nlow = 0\nhigh = 1000000\nplaces = 0\n"), ("table.csv", table())]:
            with open(os.path.join(folder, name), "w") as file:
                file.write(text)
        started = time.monotonic()
        try:
            holds = answers(begin + "".join(corrections), folder, program) == (0, "".join(wanted))
        except subprocess.TimeoutExpired:
            holds = False
    print(f"rerun_trial: {'passed' if holds else 'failed'}, {CORRECTIONS} corrections in {time.monotonic() - started:.1f} s")
    return 0 if holds else 1


if __name__ == "__main__":
    sys.exit(main(os.path.abspath(sys.argv[1])))
