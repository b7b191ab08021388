#!/usr/bin/env python3
"""Drives `papcalc run` from another program: client.py [PROGRAM], from the top of the repository.

Loads a month's pay runs from a table, corrects one of them, and prints what the correction changed. Paste the classes Refused and
Payroll into a program of your own: it sends a line and reads its whole answer before it sends the next."""
import subprocess
import sys


class Refused(Exception):
    """The line was refused: it changed nothing, and the next line may be sent."""


class Payroll:
    # How the last line of an answer begins. Each other line is answered by one line; an empty line or a comment by none.
    LAST_WORD = {"report": "end", "trace": "end", "owed": "end", "file": "filed", "try": "would"}

    def __init__(self, program="papcalc"):
        self.process = subprocess.Popen(
            [program, "run"], stdin=subprocess.PIPE, stdout=subprocess.PIPE, encoding="ascii")

    def __enter__(self):
        return self

    def __exit__(self, *_):
        self.process.stdin.close()
        self.process.wait()

    def ask(self, *words):
        """Sends a line of these words, and gives the lines of its answer."""
        if any(not word or set(word) & set(" \t\r\n") for word in words) or words[0].startswith("#"):
            raise ValueError(f"these are no words of a line: {words}")
        self.process.stdin.write(" ".join(words) + "\n")
        self.process.stdin.flush()
        answer = []
        while True:
            line = self.process.stdout.readline()
            if not line.endswith("\n"):
                raise EOFError(f"papcalc ended with status {self.process.wait()} at {' '.join(words)}")
            line = line[:-1]
            if line.startswith("refused "):
                raise Refused(f"{line} (the line was: {' '.join(words)})")
            answer.append(line)
            last = self.LAST_WORD.get(words[0])
            if last is None or line.split(" ")[0] == last:
                return answer

    def report(self):
        """Each reported amount by employee, day and name; of a run without amounts its state by employee and day."""
        amounts = {}
        for row in self.ask("report")[1:-1]:
            employee, _, day, _, state, name, value = row.split(",")
            if state == "ok":
                amounts[employee, day, name] = value
            else:
                amounts[employee, day, ""] = f"{state} {name}".strip()
        return amounts


def print_changes(before, after):
    """What one report shows and the other doesn't, in order of employee, day and name."""
    for key in sorted(before.keys() | after.keys()):
        if before.get(key) != after.get(key):
            print(*filter(None, key), before.get(key, "nothing"), "->", after.get(key, "nothing"))


def main():
    with Payroll(*sys.argv[1:2]) as payroll:
        payroll.ask("plan", "2026-01-01", "examples/payroll_tax.xml", "examples/payroll_tax.toml")
        payroll.ask("load", "examples/january.csv")
        before = payroll.report()
        print(len(before), "amounts were reported")
        payroll.ask("change", "anna", "2026-01", "2026-01-30", "PERIOD=2", "PAY=465000", "TAX_CLASS=1", "CHURCH_RATE=9")
        runs = payroll.ask("work")[0].split(" ")[1]
        print("the correction made", runs, "run again")
        print_changes(before, payroll.report())
        try:
            payroll.ask("withdraw", "dora", "2026-01")
        except Refused as refused:
            print(refused)


if __name__ == "__main__":
    main()
