#!/usr/bin/env python3
"""Kills a program that keeps a year, at random moments: kill_trials.py PROGRAM [KILLS [SEED]], from the top of the repository.

Each trial sends a random script to a year, line by line or in batches, by a process that is killed (kill -9) again and again until the script
is through. After each kill the folder is opened: every line that was told done is there, nothing else but perhaps the line or the
whole batch in flight, and the report is that of papcalc alone on these lines. The status is 1 where one trial fails or none was made."""
import contextlib
import itertools
import multiprocessing
import os
import random
import shutil
import signal
import sys
import tempfile
import time
from pathlib import Path

PACKAGE = Path(__file__).resolve().parent.parent / "clients" / "python"
sys.path[:0] = [str(PACKAGE), str(PACKAGE / "src")]

from papledger import Busy, LedgerError, Refused, Year  # noqa: E402
from tests.support import are_kept, journal_lines, random_script, report_of, write_files  # noqa: E402

LINES = 30
# Seconds within which a year of so few lines is opened, and a line done.
OPENING, LINE = 0.3, 0.01
# Seconds after which a year is free again whose process was killed, on a busy machine.
LETTING_GO = 10
MOST_FAILED = 5
# Side by side for each processor: a trial waits for the disk and for its processes most of the time.
TRIALS = 4


class Lost(Exception):
    """A line is gone, or one is there that shouldn't be."""


def send(program, folder, lines, start, batch, tell):
    """What the killed process does: sends the lines from this one on, and tells after each batch how many are done."""
    os.chdir(folder)
    with Year("y", program=program) as year:
        tell(start)
        for at in range(start, len(lines), batch):
            with year.batch() if batch > 1 else contextlib.nullcontext():
                for line in lines[at:at + batch]:
                    try:
                        year.ask(line)
                    except Refused:
                        pass
            tell(min(at + batch, len(lines)))


class Trial:
    """A random script, and a year that it is sent to."""

    def __init__(self, program, folder, seed):
        self.program, self.folder, self.rng = program, folder, random.Random(seed)
        self.batch = self.rng.choice([1, 1, 4])
        self.kills = 0
        os.mkdir(folder)
        write_files(Path(folder))
        self.lines = random_script(self.rng, LINES)
        self.kept = are_kept(program, self.lines, folder)
        Year.new(f"{folder}/y", program=program).close()

    def run(self):
        """Kills the process again and again until the script is through."""
        done = 0
        while done < len(self.lines):
            done = self.check(done, self.killed(done))

    def started(self, start):
        """A process that sends the lines from this one on, and the end of a pipe by which it tells how many are done."""
        reader, writer = os.pipe()
        child = os.fork()
        if child == 0:
            try:
                os.setsid()
                os.close(reader)
                send(self.program, self.folder, self.lines, start, self.batch, lambda done: os.write(writer, f"{done}\n".encode()))
            finally:
                os._exit(0)
        os.close(writer)
        return child, reader

    def killed(self, start):
        """Starts the process at a line and kills it. Gives how many lines were told done."""
        child, reader = self.started(start)
        with open(reader, encoding="ascii") as told_lines:
            told = []
            if self.rng.random() < 0.2:
                time.sleep(self.rng.uniform(0, OPENING))
            else:
                told += itertools.islice(told_lines, self.rng.randint(1, 8))
                time.sleep(self.rng.choice([0, self.rng.uniform(0, LINE)]))
            if os.waitpid(child, os.WNOHANG) == (0, 0):
                self.kills += 1
                # In some trials papcalc is killed with it, if the process has come to be the first of a group of its own.
                with contextlib.suppress(ProcessLookupError):
                    if self.rng.random() < 0.3:
                        os.killpg(child, signal.SIGKILL)
                os.kill(child, signal.SIGKILL)
                os.waitpid(child, 0)
            told += told_lines
        return int(told[-1]) if told else start

    def check(self, start, done):
        """Opens the year after a kill, and gives the number of lines that are in it."""
        with self.freed() as year:
            report = year.report_text().decode("ascii")
        there = journal_lines(f"{self.folder}/y")
        in_flight = min(done + self.batch, len(self.lines))
        found = next((count for count in (done, in_flight) if self.kept_before(count) == there), None)
        if found is None:
            raise Lost(f"from line {start} on {done} lines were told done, and the journal has {there}")
        if report != report_of(self.program, there, self.folder):
            raise Lost(f"behind line {done} the report is not that of papcalc alone")
        return found

    def freed(self):
        """The year, once nothing of the killed process writes to it: a program that it is about to start has its lock until it runs."""
        latest = time.monotonic() + LETTING_GO
        while time.monotonic() < latest:
            with contextlib.suppress(Busy):
                return Year(f"{self.folder}/y", program=self.program)
            time.sleep(LINE)
        return Year(f"{self.folder}/y", program=self.program)

    def kept_before(self, count):
        """The accepted ones of the first so many lines."""
        return [line for line, is_kept in zip(self.lines[:count], self.kept[:count]) if is_kept]


def trial(asked):
    """How many processes a trial killed, and what failed."""
    program, folder, seed = asked
    made = Trial(program, f"{folder}/{seed}", seed)
    try:
        made.run()
    except (Lost, LedgerError) as fault:
        return made.kills, [f"seed {seed}: {fault}"]
    shutil.rmtree(made.folder)
    return made.kills, []


def main(program, kills=25, seed=1):
    """Makes trials until so many processes were killed, or several trials failed."""
    made, failed = 0, []
    with tempfile.TemporaryDirectory(prefix="papledger-") as folder, multiprocessing.Pool(TRIALS * (os.cpu_count() or 1)) as pool:
        asked = ((program, folder, number) for number in range(seed, seed + kills))
        for count, faults in pool.imap_unordered(trial, asked):
            made, failed = made + count, failed + faults
            if made >= kills or len(failed) >= MOST_FAILED:
                break
    for fault in failed:
        print(f"kill_trials: failed: {fault}")
    print(f"kill_trials: {made} kills, {len(failed)} failed")
    return 1 if failed or not made else 0


if __name__ == "__main__":
    sys.exit(main(os.path.abspath(sys.argv[1]), *map(int, sys.argv[2:4])))
