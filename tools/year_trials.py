#!/usr/bin/env python3
"""Everything that tests papledger: year_trials.py PROGRAM, from the top of the repository.

The tests of the package in clients/python, the year in examples/year, 25 kills (tools/kill_trials.py), and the types by mypy where it is
installed. The status is 1 where one fails or no test was found."""
import os
import shutil
import subprocess
import sys
import unittest
from pathlib import Path

TOP = Path(__file__).resolve().parent.parent
PACKAGE = TOP / "clients" / "python"
KILLS = "25"


def unit_tests(program):
    """The tests that passed and failed; those that can't be made here are neither."""
    os.environ["PAPCALC"] = program
    sys.path[:0] = [str(PACKAGE), str(PACKAGE / "src")]
    tests = unittest.defaultTestLoader.discover(str(PACKAGE / "tests"), top_level_dir=str(PACKAGE))
    done = unittest.TextTestRunner(verbosity=0).run(tests)
    failed = len(done.failures) + len(done.errors) + len(done.unexpectedSuccesses)
    return done.testsRun - failed - len(done.skipped), failed


def command(*words, folder=TOP):
    """Whether a command ends well; what it says is shown."""
    return subprocess.run(words, cwd=folder, check=False).returncode == 0


def main(program):
    passed, failed = unit_tests(program)
    if not passed:
        failed += 1
        print("year_trials: no test was found")
    others = [command(sys.executable, "tools/kill_trials.py", program, KILLS)]
    if shutil.which("mypy"):
        others.append(command("mypy", folder=PACKAGE))
    passed, failed = passed + others.count(True), failed + others.count(False)
    print(f"year_trials: {passed} passed, {failed} failed")
    return 1 if failed else 0


if __name__ == "__main__":
    if len(sys.argv) != 2:
        sys.exit(__doc__)
    sys.exit(main(os.path.abspath(sys.argv[1])))
