"""Picoseconds a step of a flowchart on the built program, and of the same flowchart as a Java class on java.math.BigDecimal:
bench_plan.py PROGRAM PLAN LIMITS NAME=VALUE .., from the top of the repository (needs a JDK).

A copy of the flowchart is made whose MAIN runs the whole flowchart as often as a flowchart may have statements, at most 1,536 times, by
methods that execute each other twice. `check` reads, proves and compiles it, `once` runs it besides: what `once` takes more is the run."""
import os
import re
import resource
import subprocess
import sys
import tempfile

PROGRAM, PLAN, LIMITS = sys.argv[1:4]
VALUES = sys.argv[4:]
MOST_DOUBLINGS = 10
ROUNDS, CALLS = 5, 20


def repeated(text, doublings):
    """The flowchart with its MAIN as a method R0, and a MAIN that runs it again and again."""
    main = re.search(r"<MAIN>(.*?)</MAIN>", text, re.S)
    call = '<EXECUTE method="R{}"/>'.format
    methods = f'<METHOD name="R0">{main.group(1)}</METHOD>'
    for i in range(1, doublings + 1):
        methods += f'<METHOD name="R{i}">{call(i - 1)}{call(i - 1)}</METHOD>'
    calls = call(doublings) + call(doublings - 1)
    return f"{text[:main.start()]}<MAIN>{calls}</MAIN>{methods}{text[main.end():]}"


def processor_time(words):
    """The least processor seconds of a call, of some."""
    least = float("inf")
    for _ in range(CALLS):
        before = resource.getrusage(resource.RUSAGE_CHILDREN)
        subprocess.run(words, stdout=subprocess.DEVNULL, check=True)
        after = resource.getrusage(resource.RUSAGE_CHILDREN)
        least = min(least, after.ru_utime + after.ru_stime - before.ru_utime - before.ru_stime)
    return least


def bench_java(steps, folder):
    with open(f"{folder}/Plan.java", "w", encoding="utf-8") as java:
        subprocess.run([sys.executable, "tools/java_of_plan.py", PLAN, "Plan"], stdout=java, check=True)
    subprocess.run(["javac", "-nowarn", "-d", folder, f"{folder}/Plan.java", "tools/BenchPlan.java"], check=True)
    subprocess.run(["java", "-cp", folder, "BenchPlan", str(steps), *VALUES], check=True)


def steps_of(plan):
    written = subprocess.run([PROGRAM, "once", plan, LIMITS, *VALUES], capture_output=True, text=True, check=True).stdout
    return int(written.rsplit("steps ", 1)[1])


def write_repeated(plan):
    """Writes the copy of the flowchart that repeats it most often and is accepted."""
    with open(PLAN, encoding="utf-8") as source:
        text = source.read()
    for doublings in range(MOST_DOUBLINGS, 0, -1):
        with open(plan, "w", encoding="utf-8") as copy:
            copy.write(repeated(text, doublings))
        if subprocess.run([PROGRAM, "check", plan, LIMITS], capture_output=True).returncode == 0:
            return
    sys.exit("bench_plan: the flowchart is too long to be repeated")


def main():
    with tempfile.TemporaryDirectory() as folder:
        plan = os.path.join(folder, "plan.xml")
        write_repeated(plan)
        steps = steps_of(plan)
        for _ in range(ROUNDS):
            run = processor_time([PROGRAM, "once", plan, LIMITS, *VALUES]) - processor_time([PROGRAM, "check", plan, LIMITS])
            print(f"papcalc: {run * 1e12 / steps:.0f} ps a step of {steps}")
        bench_java(steps_of(PLAN), folder)


main()
