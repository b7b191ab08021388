"""What the tools say that users run, for scale_trials.py: help, misuse, output that nobody reads, interruption; and what a test table of
another form becomes."""
import glob
import os
import signal
import subprocess
import sys
import time

TOOLS = os.path.dirname(os.path.abspath(__file__))
PLAN = os.path.abspath("examples/payroll_tax")
PYTHON_TOOLS = [f"{TOOLS}/split_table.py", f"{TOOLS}/compare_table.py", f"{TOOLS}/cluster/dask_payroll.py",
                f"{TOOLS}/../clients/python/papledger"]
SHELL_TOOLS = [f"{TOOLS}/run_part.sh", f"{TOOLS}/cluster/papcalc.sbatch"]
COMMANDS = [[sys.executable, tool] for tool in PYTHON_TOOLS] + [["bash", tool] for tool in SHELL_TOOLS]
WIDTH = 80
UNWRITTEN = {"compare_table.py": 2}
# Python writes to a pipe by blocks, as where users run it.
ENVIRONMENT = {name: value for name, value in os.environ.items() if name not in ("PYTHONUNBUFFERED", "SLURM_ARRAY_TASK_ID")}


def said_by(words, out=subprocess.PIPE):
    """The status of a command, its output, and what it says on standard error."""
    done = subprocess.run(words, stdin=subprocess.DEVNULL, stdout=out, stderr=subprocess.PIPE, encoding="utf-8", env={**ENVIRONMENT, "COLUMNS": str(WIDTH)})
    return done.returncode, done.stdout, done.stderr


def unread(words):
    """The status of a command whose output nobody reads, and what it says on standard error."""
    reading, writing = os.pipe()
    os.close(reading)
    try:
        status, _, said = said_by(words, writing)
    finally:
        os.close(writing)
    return status, said


def try_ends(count):
    for words in COMMANDS:
        name = os.path.basename(words[1])
        status, out, said = said_by([*words, "--help"])
        count(f"{name} prints its help", status == 0 and out.lower().startswith("usage: ") and not said)
        count(f"the help of {name} is {WIDTH} columns wide", max(map(len, out.splitlines())) <= WIDTH)
        status, out, said = said_by(words)
        count(f"{name} without words says how it is used", status == 2 and not out and said.lower().startswith("usage: "))
        if words[0] == sys.executable:
            count(f"{name} ends quietly where nobody reads", unread([*words, "--help"]) == (UNWRITTEN.get(name, 5), ""))
        with open("/dev/full", "w") as full:
            count(f"{name} has no traceback on a full disk", "Traceback" not in said_by([*words, "--help"], full)[2])
        closed = said_by(["bash", "-c", '"$@" >&-', "closed", *words, "--help"])
        count(f"{name} has no traceback where standard output is closed", "Traceback" not in closed[2])


def interrupted(words, folder):
    """The status of a command that is interrupted at once, and what it says; it waits for a table. A command inherits that interrupts are
    ignored, as they are where the trials run in the background, so they aren't while it begins."""
    os.mkfifo("table.fifo")
    before = signal.signal(signal.SIGINT, signal.default_int_handler)
    running = subprocess.Popen(words, stdout=subprocess.PIPE, stderr=subprocess.PIPE, encoding="utf-8", env=ENVIRONMENT)
    signal.signal(signal.SIGINT, before)
    while not glob.glob(f"{folder}.*.tmp") and running.poll() is None:
        time.sleep(0.05)
    running.send_signal(signal.SIGINT)
    out, said = running.communicate()
    os.remove("table.fifo")
    return running.returncode, out + said


def try_interruption(count, program):
    words = [sys.executable, PYTHON_TOOLS[0], "split", "table.fifo", "stopped", "--plans", "plans.script", "--program", program]
    count("a split that is interrupted says nothing", interrupted(words, "stopped") == (130, ""))
    count("a split that is interrupted leaves nothing", not glob.glob("stopped*"))


# ---- test tables

def compared(program, table, columns=None, *more):
    """The status and the output of a comparison."""
    with open("tested.csv", "w", encoding="utf-8") as file:
        file.write(table)
    if columns is not None:
        with open("tested.columns", "w", encoding="utf-8") as file:
            file.write(columns)
        more = ["--columns", "tested.columns", *more]
    status, out, said = said_by([sys.executable, PYTHON_TOOLS[1], *more, program, f"{PLAN}.xml", f"{PLAN}.toml", "tested.csv"])
    return status, out + said


WHOLE = "PERIOD,PAY,TAX_CLASS,WAGE_TAX\n" + "1,6000000,1,{}\n1,6000000,3,{}\n"
CLASSES = "PERIOD = 1\nJahreslohn = PAY * 100\nNummer =\nI = WAGE_TAX * 100 if TAX_CLASS = 1\nIII = WAGE_TAX * 100 if TAX_CLASS = 3\n"


def tax_of(program, *values):
    """The wage tax of a run on these values."""
    out = said_by([program, "once", f"{PLAN}.xml", f"{PLAN}.toml", *values])[1]
    return next(line.split(" ")[1] for line in out.splitlines() if line.startswith("WAGE_TAX "))


def try_tables(count, program):
    first, third = (tax_of(program, "PERIOD=1", "PAY=6000000", f"TAX_CLASS={number}") for number in (1, 3))
    count("the trials compare whole euros", first.endswith("00") and third.endswith("00"))
    euros = [f"{int(cents) // 100:,}".replace(",", ".") for cents in (first, third)]
    same = (0, "2 runs, 2 amounts, 0 different\n")
    count("a table in the flowchart's names is compared", compared(program, WHOLE.format(first, third)) == same)
    german = "Nummer;Jahreslohn;I;III\n7;60.000,00;{};{}\n"
    count("a published table is compared", compared(program, german.format(*euros), CLASSES, "--german", "--runs", "runs.csv") == same)
    with open("runs.csv", encoding="utf-8") as table:
        count("its runs are a table for load", table.read() == "employee,month,day,PERIOD,TAX_CLASS,PAY\nrow-00001-1,2026-01,2026-01-01,1,1,6000000\n"
              "row-00001-2,2026-01,2026-01-01,1,3,6000000\n")
    status, said = compared(program, german.format(euros[0], "5"), CLASSES, "--german")
    count("a wrong amount is told by row and column", status == 1 and said.startswith(f"row 1, III (WAGE_TAX): 500 is expected, {third} was computed")
          and "trace row-00001-2 2026-01-01: set MAIN:" in said)
    status, said = compared(program, german.format(euros[0], ""), CLASSES, "--german")
    count("an empty cell asks for no run", said == "1 runs, 1 amounts, 0 different\n")
    for name, table, columns, said in [
            ("a number with a point before its places", german.format("1.5", ""), CLASSES, "row 1, I: 1.5 is no number (points between thousands"),
            ("an amount that is none", german.format("none", ""), CLASSES, "row 1, I: none is no number"),
            ("a column that the file doesn't name", "Nummer;Other;Jahreslohn;I;III\n", CLASSES, "the column Other is neither an input nor an output"),
            ("a column that the table hasn't", "Jahreslohn;I;III\n", CLASSES, "there is no column Nummer"),
            ("a line of another form", german, CLASSES + "IV is WAGE_TAX\n", "tested.columns, line 6: `IV is WAGE_TAX` isn't as `Brutto = PAY`"),
            ("a column that is said twice", german, CLASSES + "I = WAGE_TAX\n", "tested.columns, line 6: I stands twice"),
            ("a case that is no input", german, CLASSES.replace("if TAX_CLASS = 3", "if CLASS = 3"), "CLASS isn't an input of the flowchart"),
            ("two columns of one run", german, CLASSES.replace("if TAX_CLASS = 3", "if TAX_CLASS = 1"), "the column WAGE_TAX stands twice"),
            ("a value that is a column besides", german, CLASSES + "PAY = 5\n", "the column PAY stands twice")]:
        status, why = compared(program, table, columns, "--german")
        count(f"{name} is refused", status == 2 and said in why)
    status, why = compared(program, german)
    count("semicolons are told", status == 2 and "--german reads semicolons" in why)


def run(count, program):
    """All trials, in the folder where this is."""
    with open("plans.script", "w", encoding="utf-8") as plans:
        plans.write(f"plan 2026-01-01 {PLAN}.xml {PLAN}.toml\n")
    try_ends(count)
    try_interruption(count, program)
    try_tables(count, program)
