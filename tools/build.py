#!/usr/bin/env python3
"""Proves the libraries that a program stands on, several side by side: build.py [JOBS [PROGRAM]], from the top of the repository.

A crate begins once those that it stands on are proved, first the one with the longest chain of functions above it, in a room of its own,
build/rooms/NAME: `rt` has a crate and all below it to itself while it works there, so in one checkout it would prove one after the other.
There are twice as many jobs as processors, since a check also has parts that one job does alone; the head of the longest chain has as many
as a crate may, and where processors are short a crate goes before others by the length of its chain. The proved library then goes to
crates/NAME/out, where `rt run` finds it. A line for each that is done says how many are left. What a crate's check wrote is in
build/proofs/NAME; where one fails, its end is shown."""
import glob
import os
import re
import shutil
import subprocess
import sys
import time
from concurrent.futures import FIRST_COMPLETED, ThreadPoolExecutor, wait

RT = os.path.abspath(f"{os.path.dirname(__file__)}/rt.py")
GIGABYTES_A_JOB = 2
MOST_JOBS_A_CRATE = 4
MOST_PATIENCE = 19
CHECK_BEGINS = 10


def crates():
    """Each crate of the repository with the crates of the repository on which it stands."""
    lines = [line.split("#")[0].split(":") for line in open("crates.txt")]
    listed = {line[0].split()[0]: line[1].split() for line in lines if len(line) == 2}
    return {name: [below for below in stands_on if below in listed] for name, stands_on in listed.items()}


def below(name, stands_on, found):
    """The crates below one, lowest first."""
    for crate in stands_on[name]:
        if crate not in found:
            below(crate, stands_on, found)
            found.append(crate)
    return found


def jobs():
    """Twice as many as there are processors, or as memory has room for."""
    free = next(int(line.split()[1]) for line in open("/proc/meminfo") if line.startswith("MemAvailable"))
    return max(1, min(2 * (os.cpu_count() or 1), free // (GIGABYTES_A_JOB << 20)))


def furnish(room, name, proved):
    """Makes a room for a crate: links to its files and to those of the crates below it, with their libraries. Its own is there too, if an
    earlier call proved it: where nothing below it changed either, it is taken as it is."""
    os.makedirs(room)
    os.link("HANDLES", f"{room}/HANDLES")
    with open(f"{room}/crates.txt", "w") as listed:
        listed.writelines(line for line in open("crates.txt") if line.split(":")[0].split(" ")[0] in [*proved, name])
    for crate in [*proved, name]:
        for part in ("src", "specs", "proofs", "out/rlib"):
            if os.path.isdir(f"crates/{crate}/{part}"):
                shutil.copytree(f"crates/{crate}/{part}", f"{room}/crates/{crate}/{part}", copy_function=os.link)


def work(name):
    """What a crate's check takes, in functions: those that its sources have, and some for what each check begins with."""
    sources = glob.glob(f"crates/{name}/src/**/*.rt", recursive=True)
    return CHECK_BEGINS + sum(len(re.findall(r"\bfn \w", open(file).read())) for file in sources)


def chains(names, stands_on):
    """What the crates of these take that stand one on another from each on, its own with them; of crates listed lowest first."""
    longest = {name: work(name) for name in names}
    for name in reversed(names):
        for lower in stands_on[name]:
            longest[lower] = max(longest[lower], longest[name] + work(lower))
    return longest


def prove(name, proved, jobs, patience):
    """Proves a crate by so many jobs, as patiently as `nice` is told; gives its name, the status of its check and its seconds."""
    began, room, to = time.time(), f"build/rooms/{name}", f"crates/{name}/out/rlib"
    furnish(room, name, proved)
    with open(f"build/proofs/{name}", "w") as log:
        words = ["nice", "-n", str(patience), sys.executable, RT, "--statements", "lib", "--jobs", str(jobs)]
        done = subprocess.run(words, cwd=f"{room}/crates/{name}", stdin=subprocess.DEVNULL, stdout=log, stderr=log)
    if done.returncode == 0:
        shutil.rmtree(to, ignore_errors=True)
        os.makedirs(os.path.dirname(to), exist_ok=True)
        os.rename(f"{room}/{to}", to)
    shutil.rmtree(room)
    return name, done.returncode, time.time() - began


def begin(pool, waiting, longest, stands_on, proved, idle):
    """Begins crates that can begin while jobs are idle, and the first of all that are left in any case, with all jobs that a crate may have;
    the others the more patiently, the shorter their chain is beside its. Gives those that began with their jobs."""
    first = max((name for name in longest if name not in proved), key=longest.get)
    ready = [name for name in waiting if proved.issuperset(stands_on[name])]
    began = {}
    for at, name in enumerate(ready):
        if idle <= 0 and name != first:
            break
        share = MOST_JOBS_A_CRATE if name == first else max(1, min(MOST_JOBS_A_CRATE, idle // (len(ready) - at)))
        patience = round(MOST_PATIENCE * (1 - longest[name] / longest[first]))
        began[pool.submit(prove, name, below(name, stands_on, []), share, patience)] = (name, share)
        idle -= share
    return began


def main():
    os.makedirs("build/proofs", exist_ok=True)
    shutil.rmtree("build/rooms", ignore_errors=True)
    stands_on = crates()
    names = below(sys.argv[2] if sys.argv[2:] else "papcalc", stands_on, [])
    longest = chains(names, stands_on)
    waiting = sorted(names, key=lambda name: -longest[name])
    limit = int(sys.argv[1]) if sys.argv[1:] and sys.argv[1] else jobs()
    proved, running = set(), {}
    with ThreadPoolExecutor(len(names)) as pool:
        while waiting or running:
            idle = limit - sum(share for _, share in running.values())
            running.update(begin(pool, waiting, longest, stands_on, proved, idle))
            started = {name for name, _ in running.values()}
            waiting = [name for name in waiting if name not in started]
            done, _ = wait(running, return_when=FIRST_COMPLETED)
            for one in done:
                name, status, seconds = one.result()
                del running[one]
                if status:
                    print("".join(open(f"build/proofs/{name}").readlines()[-20:]), f"build: {name} isn't proved", sep="")
                    pool.shutdown(cancel_futures=True)
                    sys.exit(1)
                proved.add(name)
                print(f"build: {name} is proved ({seconds:.0f} s), {len(names) - len(proved)} of {len(names)} are left", flush=True)


if __name__ == "__main__":
    main()
