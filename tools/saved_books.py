#!/usr/bin/env python3
"""Saved books on the built program: saved_books.py PROGRAM.

A script that is saved on its way and goes on from the saved book answers its other lines as the whole script does. Of a small saved
text every byte is changed in turn: it is refused, or saved as the changed text again. Cut off anywhere it is refused."""
import os
import random
import subprocess
import sys
import tempfile

PLAN = """<PAP><INTERFACE>
<INPUTS><INPUT name="PAY" type="BigDecimal"/><INPUT name="SO_FAR" type="BigDecimal"/></INPUTS>
<OUTPUTS><OUTPUT name="TAX" type="BigDecimal"/></OUTPUTS>
</INTERFACE><METHODS><MAIN><EVAL exec="TAX= PAY.multiply(BigDecimal.valueOf(RATE)).add(SO_FAR)"/></MAIN></METHODS></PAP>
"""
LIMITS = """input.PAY = { low = 0, high = 9000, places = 2 }
input.SO_FAR = { low = 0, high = 100000000, places = 4 }
bind.SO_FAR = { kind = "last", output = "TAX" }
"""
RATES = ["0.1", "0.25"]
CHANGES = [b" ", b"\n", b"0", b"7", b"=", b"A"]


def run(word, script):
    return subprocess.run([program, word], input="\n".join(script) + "\n", capture_output=True, text=True, timeout=60).stdout


def opened(text):
    with open("book", "wb") as book:
        book.write(text)
    return run("run", ["open book"]).rstrip("\n")


def random_line(rng):
    employee, month = rng.choice(["anna", "ben", "c.h-r_is"]), rng.randint(1, 6)
    run_of = f"{employee} 2025-{month:02d} 2025-{month:02d}-{rng.choice([10, 28])}"
    values = rng.choice(["PAY=1000", "PAY=007.50", "PAY=8999.99", "PAY=9001", "OTHER=-1.0 PAY=3", ""])
    rate = rng.randrange(len(RATES))
    return rng.choice([
        f"add {run_of} {values}", f"add {run_of} {values}", f"add {run_of} {values}", f"change {run_of} {values}",
        f"withdraw {employee} 2025-{month:02d}", f"plan 2025-{month:02d}-01 p{rate} l", f"drop 2025-{month:02d}-01",
    ])


def goes_on(rng):
    """The answers after a saved book are those of the whole script."""
    lines = [random_line(rng) for _ in range(40)]
    first = []
    for line in lines[:20]:
        if "refused" not in run("run", first + [line]):
            first.append(line)
    more = ["work", "report"] + lines[20:] + ["work", "report"]
    with open("book", "w") as book:
        book.write(run("save", first))
    whole = run("run", first + more)
    return whole.endswith(run("run", ["open book"] + more).removeprefix("ok\n")) and run("run", ["open book"]) == "ok\n"


def is_spelled_once(text):
    """A text with one byte changed is refused, or is saved as it is; cut off it is refused."""
    for at in range(len(text)):
        if not opened(text[:at]).startswith("refused book Form"):
            return False
        for byte in CHANGES:
            changed = text[:at] + byte + text[at + 1:]
            said = opened(changed)
            if said != "ok" and not said.startswith("refused book"):
                return False
            if said == "ok" and run("save", ["open book"]).encode() != changed:
                return False
    return True


program = os.path.abspath(sys.argv[1])
passed, failed = 0, 0


def count(name, holds):
    global passed, failed
    passed, failed = passed + holds, failed + (not holds)
    if not holds:
        print(f"saved_books: failed: {name}")


with tempfile.TemporaryDirectory() as folder:
    os.chdir(folder)
    for number, rate in enumerate(RATES):
        with open(f"p{number}", "w") as plan:
            plan.write(PLAN.replace("RATE", rate))
    with open("l", "w") as limits:
        limits.write(LIMITS)
    for seed in range(40):
        count(f"goes_on of {seed}", goes_on(random.Random(seed)))
    for script in ([], ["add anna 2025-01 2025-01-31 PAY=7.50 A=-1", "add ben 2025-01 2025-01-31"], ["plan 2025-01-01 p0 l", "add anna 2025-01 2025-01-31 PAY=1"]):
        count(f"is_spelled_once of {script}", is_spelled_once(run("save", script).encode()))
print(f"saved_books: {passed} passed, {failed} failed")
sys.exit(1 if failed else 0)
