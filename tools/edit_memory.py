#!/usr/bin/env python3
"""Each request for memory during an edit of a book refused in turn: edit_memory.py, from the top of the repository. It needs a C compiler, and
the libraries that the bench stands on, proved (`make build`).

It proves and builds tools/benches/edit_memory, and runs it as often as it asks for memory; each time another request is refused, by
refuse_memory.c. The program makes an edit of each kind (add, change, withdraw, load, plan, drop) and writes the book before and after it: its
report, and its saved text, which has its runs, its plans and its last work. Where an edit answers that memory ran out, the book has to be as
it was before, and the same edit, made again, has to leave the book of the run in which nothing was refused; so have all later edits. Where
memory runs out beside an edit, the program ends there, and what it wrote has to be a prefix."""
import os
import re
import shutil
import subprocess
import sys
import tempfile
from concurrent.futures import ThreadPoolExecutor

sys.path.insert(0, os.path.dirname(os.path.abspath(__file__)))
import build  # noqa: E402

NAME = "edit_memory"
BENCH = f"tools/benches/{NAME}"
KINDS = ("add", "change", "withdraw", "load", "plan", "drop")
NO_MEMORY = 6
SAID = b"an allocation was refused\n"
BLOCK = re.compile(rb"^== (.*)\n((?:(?!== ).*\n)*)", re.M)


def furnish(room, stands_on):
    """Makes a room with the bench as a crate, over the libraries of this checkout."""
    asked = open(f"{BENCH}/stands_on", encoding="utf-8").read().split()
    low = build.below(NAME, {**stands_on, NAME: asked}, [])
    lacking = [crate for crate in low if not os.path.isdir(f"crates/{crate}/out/rlib")]
    if lacking:
        sys.exit(f"edit_memory: {', '.join(lacking)} must be proved first: make build")
    build.furnish(room, NAME, low)
    with open(f"{room}/crates.txt", "a", encoding="utf-8") as listed:
        listed.write(f"{NAME}: {' '.join(asked)}\n")
    for folder, _, files in os.walk(BENCH):
        to = os.path.normpath(f"{room}/crates/{NAME}/{os.path.relpath(folder, BENCH)}")
        os.makedirs(to, exist_ok=True)
        for file in files:
            if file.endswith(".txt"):
                shutil.copy(f"{folder}/{file}", f"{to}/{file[:-4]}")


def built(place):
    """Proves and builds the bench; gives the program and the library that refuses memory to it."""
    furnish(f"{place}/room", build.crates())
    crate, program, library = f"{place}/room/crates/{NAME}", f"{place}/{NAME}", f"{place}/refuse_memory.so"
    done = subprocess.run([sys.executable, build.RT, "run"], cwd=crate, stdin=subprocess.DEVNULL, stdout=subprocess.PIPE, stderr=subprocess.STDOUT)
    if not os.path.exists(f"{crate}/out/{NAME}"):
        sys.exit(done.stdout.decode(errors="replace") + "edit_memory: the bench isn't proved")
    shutil.copy(f"{crate}/out/{NAME}", program)
    subprocess.run(["cc", "-O2", "-shared", "-fPIC", "-o", library, "tools/refuse_memory.c"], check=True)
    return program, library


def run(program, library, number):
    """The status and what was written where the request of this number is refused, and whether there was one."""
    environment = {**os.environ, "LD_PRELOAD": library, "REFUSED": str(number)}
    done = subprocess.run([program], stdin=subprocess.DEVNULL, capture_output=True, env=environment, timeout=60)
    return done.returncode, done.stdout, SAID in done.stderr


def judged(end, whole):
    """The kind of edit at which memory ran out, `beside` where that was beside the edits, `none` where nothing came of it, or what is wrong."""
    status, text, _ = end
    if status == NO_MEMORY:
        return ("beside", None) if whole.startswith(text) else (None, "it ended early, and wrote something else before")
    if status:
        return None, f"it ended with status {status}"
    blocks, plain, kind, met = BLOCK.findall(text), [], None, None
    for at, (line, book) in enumerate(blocks):
        if line.decode() in KINDS:
            kind = line.decode()
        if line != b"out of memory":
            plain.append(b"== " + line + b"\n" + book)
        elif book != blocks[at - 1][1]:
            return None, f"{kind}: the book isn't as it was before"
        else:
            met = kind
    if b"".join(plain) != whole:
        return None, f"{met}: the books after it aren't those of the run in which nothing was refused"
    return met or "none", None


def main():
    with tempfile.TemporaryDirectory() as place, ThreadPoolExecutor(os.cpu_count()) as pool:
        program, library = built(place)
        status, whole, _ = run(program, library, 0)
        lines = [line.decode() for line, _ in BLOCK.findall(whole)]
        if status or lines != [line for kind in KINDS for line in (kind, "ok")]:
            sys.exit(f"edit_memory: with ample memory it ended with status {status} and answered {lines}")
        counts, faults, first = {}, 0, 1
        while True:
            numbers = range(first, first + 64)
            ends = list(pool.map(lambda number: run(program, library, number), numbers))
            for number, end in zip(numbers, ends):
                if end[2]:
                    met, fault = judged(end, whole)
                    counts[met] = counts.get(met, 0) + 1
                    if fault:
                        faults += 1
                        print(f"edit_memory: failed: request {number}: {fault}")
            if not all(end[2] for end in ends):
                break
            first += 64
    for kind in KINDS:
        print(f"edit_memory: {kind}: {counts.get(kind, 0)} requests refused, the book as before each time, and the same edit made again")
    print(f"edit_memory: {counts.get('beside', 0)} requests beside the edits, {counts.get('none', 0)} that did without, {faults} failed")
    return 1 if faults or not all(counts.get(kind) for kind in KINDS) else 0


if __name__ == "__main__":
    sys.exit(main())
