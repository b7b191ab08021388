#!/usr/bin/env python3
"""Clusters on this machine that fail on the way: cluster_trials.py PROGRAM [RUNS [full]], from the top of the repository.

A table of RUNS pay runs (1,000,000 where nothing is said, and at least 480) of examples/payroll_tax.xml, or with `full` of a flowchart as
large as the published ones (tools/full_plan.py, 25 values a run), is run in parts by four processes, by Slurm on one, two and three nodes,
and by Dask on three workers. On the way a node of Slurm is killed with all that runs on it, the program of a task is killed, the disk of a
folder is full, and a worker of Dask is killed. Each joined report is byte for byte that of the four processes, and that of a table of at
most 48,000 runs is that of one book. Each measurement is made once, and is of this machine with what else it does."""
import os
import random
import resource
import shutil
import signal
import subprocess
import sys
import tempfile
import time

import full_plan
import parts
import split_table
import trial_clusters

TOOLS = os.path.dirname(os.path.abspath(__file__))
SMALL_PLAN = os.path.abspath("examples/payroll_tax")
MONTHS = 12
IN_ONE_BOOK = 48_000
SMALL_PARTS = 10
PARTS = 40
PAGE = 4096
MOST_SECONDS = 1_800
passed = failed = 0


def count(name, holds):
    global passed, failed
    passed, failed = passed + bool(holds), failed + (not holds)
    print(f"{'ok' if holds else 'failed'}: {name}", flush=True)


def small_values(rng):
    return {"PERIOD": 2, "PAY": rng.randint(150_000, 900_000), "TAX_CLASS": rng.randint(1, 6), "CHURCH_RATE": rng.choice(["", 8, 9])}


def full_values(rng):
    values = {"PERIOD": 2, "TAX_CLASS": rng.randint(1, 6)}
    values |= {f"AMOUNT_{number}": rng.randint(0, 900_000) for number in range(1, 22)}
    return values | {f"RATE_{number}": f"0.{rng.randint(0, 4_999):04d}" for number in range(1, 3)}


def write_table(name, runs, values):
    """Twelve months of employees that stand in another order in each."""
    rng = random.Random(11)
    employees = [(f"E{number:06d}", "," + ",".join(map(str, values(rng).values())) + "\n") for number in range(runs // MONTHS)]
    with open(name, "w", encoding="ascii") as table:
        table.write(",".join(["employee,month,day", *values(rng)]) + "\n")
        for month in range(1, MONTHS + 1):
            rng.shuffle(employees)
            table.writelines(f"{employee},2026-{month:02d},2026-{month:02d}-28{fields}" for employee, fields in employees)


def split(table, folder, rows):
    split_table.main(["split", table, folder, "--plans", "plans.script", "--rows", str(rows), "--program", program])
    return parts.read_manifests(folder)


def forget(folder):
    """Takes the results away."""
    for name in os.listdir(folder):
        if name.endswith(".report") or name.startswith("."):
            os.remove(f"{folder}/{name}")


def is_whole(folder, wanted):
    """Whether the joined report is the wanted one."""
    parts.join(folder, "joined.csv", "report")
    same = subprocess.run(["cmp", "-s", "joined.csv", wanted]).returncode == 0
    os.remove("joined.csv")
    return same


def processor_seconds():
    """What this process and those that ended under it took."""
    taken = [resource.getrusage(who) for who in (resource.RUSAGE_SELF, resource.RUSAGE_CHILDREN)]
    return sum(one.ru_utime + one.ru_stime for one in taken)


def timed(what, runs, work, has_processes=False):
    """Does the work, and prints how long it took; the processor's time too, where no daemon has the processes."""
    began, taken = time.monotonic(), processor_seconds()
    done = work()
    seconds, taken = time.monotonic() - began, processor_seconds() - taken
    own = f", {taken:.1f} s of processor" if has_processes else ""
    print(f"{what}: {runs} runs in {seconds:.1f} s{own}, {runs / seconds:.0f} runs a second; load of the machine {os.getloadavg()[0]:.0f}", flush=True)
    return done


def run_here(manifests, folder, processes):
    numbers = "".join(f"{manifest.part}\n" for manifest in manifests)
    subprocess.run(["xargs", "-P", str(processes), "-I{}", f"{TOOLS}/run_part.sh", folder, "{}"], input=numbers.encode(), check=True,
                   env={**os.environ, "PAPCALC": program})


def results_in(folder):
    return sum(name.endswith(".report") and not name.startswith(".") for name in os.listdir(folder))


# ---- one machine

def one_book(runs, values):
    """Parts of a table that one book holds."""
    write_table("small.csv", runs, values)
    manifests = split("small.csv", "small", -(-runs // SMALL_PARTS))
    run_here(manifests, "small", 4)
    script = "".join(open("plans.script", encoding="ascii")) + "load small.csv\nreport\n"
    answers = subprocess.run([program, "run"], input=script.encode(), stdout=subprocess.PIPE, check=True).stdout
    with open("book.csv", "wb") as book:
        book.write(answers[answers.index(parts.HEADER):].removesuffix(b"end\n"))
    count(f"{len(manifests)} parts have the report of one book of {runs} runs", is_whole("small", "book.csv"))


# ---- Slurm

def by_slurm(nodes, manifests, folder):
    runs = sum(manifest.rows for manifest in manifests)
    with trial_clusters.Slurm(os.path.abspath(f"slurm-{nodes}"), nodes, program) as slurm:
        timed(f"Slurm, nodes {nodes}", runs, lambda: slurm.wait(slurm.submit(len(manifests), os.path.abspath(folder)), MOST_SECONDS))
    count(f"Slurm with {nodes} node{'s' * (nodes > 1)} has the report of one machine", is_whole(folder, "here.csv"))
    forget(folder)


def killed_on_the_way(manifests, folder):
    """A node is killed when a quarter of the parts is done, a program when half is."""
    with trial_clusters.Slurm(os.path.abspath("slurm-killed"), 3, program) as slurm:
        job = slurm.submit(len(manifests), os.path.abspath(folder))
        wait_for_results(folder, len(manifests) // 4)
        lost, _ = a_program(folder, slurm.namespace("n3"))
        slurm.kill("n3")
        print(f"n3 was killed while it ran {lost}", flush=True)
        wait_for_results(folder, len(manifests) // 2)
        part, process = a_program(folder)
        os.kill(process, signal.SIGKILL)
        print(f"the program of {part} was killed", flush=True)
        slurm.wait(job, MOST_SECONDS)
        said = text_of(f"{slurm.folder}/task-{int(part[len('part-'):])}.log")
        controller = text_of(f"{slurm.folder}/slurmctld.log")
    count("the controller put back what ran on the killed node", "due to failure of node n3" in controller)
    count("the task of the killed program was put back", "status 137" in said and "JOB REQUEUE" in said)
    count("with a node and a program killed the report is that of one machine", is_whole(folder, "here.csv"))
    forget(folder)


def wait_for_results(folder, number):
    trial_clusters.wait_until(lambda: results_in(folder) >= number, f"{number} results are there", MOST_SECONDS)


def a_program(folder, namespace=None):
    """Waits for a program that runs a part of the folder, in this process namespace where one is said. Gives the part's name and the process."""
    held = []

    def is_found():
        held[:] = [(part, int(process)) for process in os.listdir("/proc") if process.isdecimal()
                   for part in [part_run_by(process, folder, namespace)] if part]
        return held
    trial_clusters.wait_until(is_found, "a program runs", pause=0.001)
    return held[0]


def part_run_by(process, folder, namespace):
    """The part whose result this process of the program writes, if it does."""
    try:
        if os.readlink(f"/proc/{process}/exe") != program or namespace and os.readlink(f"/proc/{process}/ns/pid") != namespace:
            return None
        written = os.readlink(f"/proc/{process}/fd/1")
    except OSError:
        return None
    start = os.path.abspath(folder) + "/.part-"
    return "part-" + written[len(start):].split(".")[0] if written.startswith(start) else None


def full_disk():
    """A folder lies on a disk that has room for some of its results; once it has more, the parts that are missing are run."""
    os.mkdir("disk")
    forget("small")
    room = size_of("small") // 1024 + os.path.getsize("book.csv") // 2048
    subprocess.run(["mount", "-t", "tmpfs", "-o", f"size={room}k", "none", "disk"], check=True)
    try:
        shutil.copytree("small", "disk/small")
        names = [manifest.name for manifest in parts.read_manifests("disk/small")]
        with trial_clusters.Slurm(os.path.abspath("slurm-disk"), 3, program) as slurm:
            slurm.wait(slurm.submit(len(names), os.path.abspath("disk/small"), options=["--export=ALL,RETRIES=1"]), MOST_SECONDS)
            missing = told_missing("disk/small", names)
            said = [text_of(f"{slurm.folder}/task-{int(name[len('part-'):])}.log") for name in missing]
            subprocess.run(["mount", "-o", f"remount,size={4 * room}k", "disk"], check=True)
            numbers = ",".join(str(int(name[len("part-"):])) for name in missing)
            slurm.wait(slurm.submit(numbers, os.path.abspath("disk/small")), MOST_SECONDS)
        print(f"the disk was full for {missing}", flush=True)
        count("on a full disk some parts have no result, and join names them", 0 < len(missing) < len(names))
        count("each of their logs says so twice", all(text.count("nothing is put") == 2 for text in said))
        count("run again with more room the report is that of one book", is_whole("disk/small", "book.csv"))
    finally:
        subprocess.run(["umount", "disk"], check=True)


def size_of(folder):
    """The bytes of the files, in whole pages, as a disk holds them."""
    return sum(-(-os.path.getsize(f"{at}/{name}") // PAGE) * PAGE for at, _, names in os.walk(folder) for name in names)


def told_missing(folder, names):
    """The parts that `join` names."""
    try:
        parts.join(folder, "joined.csv", "report")
    except parts.PartsFault as fault:
        return [name for name in names if f"{name} has no result" in str(fault)]
    return []


# ---- Dask

def by_dask(python, manifests, folder):
    runs = sum(manifest.rows for manifest in manifests)
    for how, more in [("a shared folder", []), ("sent tables", ["--send"])]:
        with trial_clusters.Dask(os.path.abspath("dask"), 3, python) as dask:
            timed(f"Dask, workers 3, {how}", runs, lambda: dask.payroll(program, *more, os.path.abspath(folder)).wait(MOST_SECONDS))
        count(f"Dask with 3 workers and {how} has the report of one machine", is_whole(folder, "here.csv"))
        forget(folder)
    with trial_clusters.Dask(os.path.abspath("dask"), 3, python) as dask:
        running = dask.payroll(program, "--send", os.path.abspath(folder))
        wait_for_results(folder, len(manifests) // 4)
        dask.kill("worker-3")
        count("Dask ends well though a worker was killed", running.wait(MOST_SECONDS) == 0)
    count("with a worker killed the report is that of one machine", is_whole(folder, "here.csv"))


def text_of(name):
    if not os.path.isfile(name):
        return ""
    with open(name, encoding="utf-8", errors="replace") as file:
        return file.read()


def put_plans(is_full):
    """The script that puts the flowchart. Gives what a run's values are."""
    plan = SMALL_PLAN
    if is_full:
        full_plan.main(".")
        plan = os.path.abspath("full")
    with open("plans.script", "w", encoding="ascii") as plans:
        plans.write(f"plan 2026-01-01 {plan}.xml {plan}.toml\n")
    return full_values if is_full else small_values


def on_this_machine(runs, values):
    """The table in parts, run by four processes: what the clusters' reports are compared with. Gives the manifests."""
    runs -= runs % MONTHS
    write_table("table.csv", runs, values)
    manifests = timed("split", runs, lambda: split("table.csv", "folder", runs // PARTS), True)
    timed("four processes", runs, lambda: run_here(manifests, "folder", 4), True)
    timed("join", runs, lambda: parts.join("folder", "here.csv", "report"), True)
    print(f"table of {os.path.getsize('table.csv') >> 20} MiB, report of {os.path.getsize('here.csv') >> 20} MiB, {len(manifests)} parts", flush=True)
    forget("folder")
    return manifests


def main(runs, is_full):
    values = put_plans(is_full)
    one_book(min(runs, IN_ONE_BOOK), values)
    manifests = on_this_machine(runs, values)
    if trial_clusters.has_slurm() and os.getuid() == 0:
        for nodes in 1, 2, 3:
            by_slurm(nodes, manifests, "folder")
        killed_on_the_way(manifests, "folder")
        full_disk()
    else:
        print("cluster_trials: Slurm isn't there (slurm-wlm of Debian), or this isn't root, who alone can kill a node and fill a disk")
    python = trial_clusters.python_with_dask()
    if python:
        by_dask(python, manifests, "folder")
    else:
        print("cluster_trials: Dask isn't there (python3-distributed of Debian)")


if __name__ == "__main__":
    program = os.path.realpath(sys.argv[1])
    with tempfile.TemporaryDirectory(prefix="papcalc-cluster-") as scratch:
        os.chdir(scratch)
        main(int(sys.argv[2]) if sys.argv[2:] else 1_000_000, sys.argv[3:] == ["full"])
        os.chdir(TOOLS)
    print(f"cluster_trials: {passed} passed, {failed} failed")
    sys.exit(1 if failed or not passed else 0)
