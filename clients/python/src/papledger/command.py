"""The command `papledger DIR WORD ..`: a line of a script, or what is made of such lines, on the year in a folder."""
from __future__ import annotations

import argparse
import os
import sys
from itertools import islice
from typing import IO, Callable, Iterator, Optional, Sequence, TextIO, Union

from . import __version__
from .answers import amounts_of
from .errors import FileMissing, LedgerError, Misuse, NotReady, Refused
from .german import make_table
from .page import page_of
from .parts import MOST_EMPLOYEES, Parts, is_of_parts
from .tables import rows_to_set
from .views import Run, Status
from .year import Year, plain

# The lines of a script that are sent as they stand: their words, and what they do.
PLAIN = {
    "plan": ("DAY PLAN LIMITS", "from this day on this flowchart holds"),
    "drop": ("DAY", "the flowchart that was put on this day is taken away"),
    "add": ("EMP MONTH DAY NAME=VALUE ..", "one more pay run"),
    "change": ("EMP MONTH DAY NAME=VALUE ..", "this pay run in place of the one that is there; no value of the old one stays"),
    "withdraw": ("EMP WHEN", "the pay run of a day, or the only one of a month, is taken away"),
    "report": ("", "all runs with their amounts"),
    "work": ("", "how many runs the last accepted edit ran, and their steps"),
    "owed": ("", "what differs now from what was filed"),
    "try": ("DAY PLAN LIMITS", "what this flowchart would change"),
    "file": ("MONTH", "the month is closed; nothing is filed where a run up to its end isn't ok"),
}
AnyYear = Union[Year, Parts]
READING = {"report", "work", "owed", "trace", "show", "status", "totals", "export"}
GROUP = 1000


def parser() -> argparse.ArgumentParser:
    """The words of the command."""
    top = argparse.ArgumentParser(prog="papledger", description="Keeps a year of pay runs in a folder.",
                                  epilog="WHEN is a day as 2026-01-30, or a month with one run as 2026-01. docs/YEAR.md has the whole.")
    top.add_argument("--version", action="version", version=f"papledger {__version__}")
    top.add_argument("--program", help="the program papcalc, where it isn't on the path and not named by PAPCALC in the environment")
    top.add_argument("folder", metavar="DIR", help="the year's folder")
    words = top.add_subparsers(dest="word", metavar="WORD", required=True)
    new = words.add_parser("new", help="begins a year in a folder that isn't there or is empty")
    new.add_argument("--split", metavar="TABLE", help="of several parts, among which the employees of this table are split")
    new.add_argument("--employees", metavar="N", type=int, default=MOST_EMPLOYEES, help=f"the employees of a part ({MOST_EMPLOYEES})")
    for word, (form, text) in PLAIN.items():
        usage = f"papledger DIR {word} {form}".rstrip()
        plain_word = words.add_parser(word, help=f"{form}: {text}" if form else text, usage=usage)
        plain_word.add_argument("rest", nargs=argparse.REMAINDER, help=argparse.SUPPRESS)
    add_lines(words)
    add_views(words)
    return top


def add_lines(words: "argparse._SubParsersAction[argparse.ArgumentParser]") -> None:
    """The words that send lines, with options of their own."""
    load = words.add_parser("load", help="FILE: all pay runs of a table")
    load.add_argument("file", metavar="FILE")
    load.add_argument("--german", action="store_true", help="semicolons, decimal commas, Latin-1, dates as 31.01.2026")
    load.add_argument("--columns", metavar="NAMES", help="a file with a line `THEIRS = OURS` for each column that has another name")
    saved = words.add_parser("open", help="BOOK: begins the year with a saved book")
    saved.add_argument("book", metavar="BOOK")
    filed = saved.add_mutually_exclusive_group(required=True)
    filed.add_argument("--filed", metavar="MONTH", help="the last month that was filed before the book was saved")
    filed.add_argument("--nothing-filed", action="store_true", help="no month was filed before the book was saved")
    sets = words.add_parser("set", help="EMP WHEN NAME=VALUE ..: the run with these values changed, the others kept")
    sets.add_argument("--table", metavar="FILE", help="values of many runs: employee,when,NAME .. with commas")
    sets.add_argument("rest", nargs="*", metavar="EMP WHEN NAME=VALUE")
    script = words.add_parser("script", help="FILE: the lines of a script, - for standard input")
    script.add_argument("file", metavar="FILE")
    script.add_argument("--batch", metavar="N", type=int, nargs="?", const=GROUP, default=1,
                        help=f"brings N lines to the disk together ({GROUP} where no N is said), and answers them then")


def add_views(words: "argparse._SubParsersAction[argparse.ArgumentParser]") -> None:
    """The words that only read."""
    trace = words.add_parser("trace", help="EMP WHEN: each executed statement of a run")
    trace.add_argument("employee", metavar="EMP")
    trace.add_argument("when", metavar="WHEN")
    trace.add_argument("--page", action="store_true", help="as a page with the drawing of the flowchart, by pap_author")
    show = words.add_parser("show", help="EMP [WHEN]: values, amounts, flowchart, what was filed, what is owed")
    show.add_argument("employee", metavar="EMP")
    show.add_argument("when", metavar="WHEN", nargs="?")
    words.add_parser("status", help="runs, those that aren't ok by cause, months filed, last work, flowcharts by day")
    totals = words.add_parser("totals", help="[MONTH]: sums by month and output, as they are now and as they were filed")
    totals.add_argument("month", metavar="MONTH", nargs="?")
    words.add_parser("export", help="[FILE]: the report as CSV").add_argument("file", metavar="FILE", nargs="?")


def put(answer: bytes) -> None:
    sys.stdout.buffer.write(answer)
    sys.stdout.buffer.flush()


def put_lines(lines: Sequence[str]) -> None:
    put("".join(f"{line}\n" for line in lines).encode("utf-8", "surrogateescape"))


def note(text: str) -> None:
    sys.stdout.flush()
    print(f"papledger: {text}", file=sys.stderr, flush=True)


def tell_refusal(refused: Refused) -> None:
    """The refusal as papcalc answers it, and what it says of it in plain words."""
    if isinstance(refused, NotReady):
        put_lines([f"waiting {run.employee} {run.day} {run.state} {run.name}".rstrip() for run in refused.waiting])
    put_lines([refused.reason])
    if refused.message:
        note(refused.message)


def assigned(words: Sequence[str]) -> dict[str, str]:
    """The values of words NAME=VALUE."""
    values = {}
    for word in words:
        name, mark, value = word.partition("=")
        if not mark or not name or name in values:
            raise Misuse(f"{word} isn't NAME=VALUE" if not mark or not name else f"{name} stands twice")
        values[name] = value
    return values


def do_set(year: AnyYear, asked: argparse.Namespace) -> int:
    if (asked.table is not None) == bool(asked.rest):
        raise Misuse("set takes EMP WHEN NAME=VALUE .., or --table FILE")
    if asked.table is not None:
        count = year.set_all(rows_to_set(asked.table))
        put_lines([f"set {count}"])
        return 0
    if len(asked.rest) < 3:
        raise Misuse("set takes an employee, a month or a day, and at least one NAME=VALUE")
    year.set(asked.rest[0], asked.rest[1], assigned(asked.rest[2:]))
    put_lines(["ok"])
    return 0


def do_open(year: AnyYear, asked: argparse.Namespace) -> int:
    filing = year.open_book(asked.book, asked.filed)
    put_lines(["ok"])
    if filing is not None:
        put(filing.answer)
        note(f"the amounts above were filed before, with {filing.month} or earlier: they are known, and not to be paid over again")
    return 0


def lines_of_run(run: Run) -> Iterator[str]:
    yield f"run {run.employee} {run.day} {run.state} {run.name}".rstrip()
    if run.flowchart is not None:
        yield f"plan {run.flowchart.day} {run.flowchart.plan or '-'} {run.flowchart.limits or '-'}"
    for word, values in (("amount", run.amounts), ("filed", run.filed), ("owed", run.owed)):
        if word == "amount":
            yield from (f"given {name} {value}" for name, value in run.values.items())
        yield from (f"{word} {name} {plain(value)}" for name, value in values.items())


def do_show(year: AnyYear, asked: argparse.Namespace) -> int:
    runs = year.show(asked.employee, asked.when)
    if not runs:
        raise Misuse(f"{asked.employee} has no run" + (f" in or on {asked.when}" if asked.when else ""))
    put_lines([line for run in runs for line in lines_of_run(run)])
    return 0


def lines_of_status(status: Status) -> Iterator[str]:
    yield f"lines {status.lines}"
    yield f"runs {status.runs}"
    yield from (f"waiting {cause.runs} {cause.state} {cause.name} first {cause.employee} {cause.day}" for cause in status.causes)
    yield from (f"filed {month}" for month in status.filed)
    yield f"work {status.work.runs} {status.work.steps}"
    yield from (f"plan {put.day} {put.plan or '-'} {put.limits or '-'}" for put in status.flowcharts)


def do_status(year: AnyYear, _: argparse.Namespace) -> int:
    put_lines(list(lines_of_status(year.status())))
    return 0


def do_totals(year: AnyYear, asked: argparse.Namespace) -> int:
    put_lines(["month,name,reported,filed"])
    put_lines([f"{total.month},{total.name},{plain(total.reported)},{'' if total.filed is None else plain(total.filed)}"
               for total in year.totals(asked.month)])
    return 0


def do_export(year: AnyYear, asked: argparse.Namespace) -> int:
    if asked.file is None:
        put(year.report_text()[:-len(b"end\n")])
    else:
        put_lines([f"rows {year.export(asked.file)}"])
    return 0


def do_trace(year: AnyYear, asked: argparse.Namespace) -> int:
    put(page_of(year.year_of(asked.employee), asked.employee, asked.when) if asked.page else year.ask_words(["trace", asked.employee, asked.when]))
    return 0


def do_load(year: AnyYear, asked: argparse.Namespace) -> int:
    table = asked.file
    if asked.german or asked.columns:
        table, changes = make_table(asked.file, asked.german, asked.columns)
        note(f"{table} was made of {asked.file}:")
        for change in changes:
            note(change)
    put(year.ask_words(["load", table]))
    return 0


def do_script(year: AnyYear, asked: argparse.Namespace) -> int:
    """Sends the lines one by one. A refused line is told, and the next one sent."""
    if asked.batch < 1:
        raise Misuse("a batch has at least one line")
    status = 0
    with script_lines(asked.file) as lines:
        numbered = enumerate(lines, 1)
        while group := list(islice(numbered, asked.batch)):
            status = max(status, send_group(year, group))
    return status


def script_lines(path: str) -> IO[str]:
    """The lines of a file, or of standard input."""
    source: Union[str, int] = sys.stdin.fileno() if path == "-" else path
    try:
        return open(source, encoding="utf-8", errors="surrogateescape", newline="\n", closefd=path != "-")
    except OSError as fault:
        raise FileMissing(f"the file {path}: {fault.strerror}") from fault


def send_group(year: AnyYear, group: Sequence[tuple[int, str]]) -> int:
    """Sends lines that are brought to the disk together, and then tells their answers."""
    found: list[Union[bytes, Refused]] = []
    with year.batch():
        for number, line in group:
            try:
                found.append(year.ask(line))
            except Refused as refused:
                found.append(refused)
            except LedgerError as fault:
                raise type(fault)(f"line {number}: {fault}; the lines before it that were answered are kept") from fault
    for answer in found:
        if isinstance(answer, Refused):
            tell_refusal(answer)
        else:
            put(answer)
    return int(any(isinstance(answer, Refused) for answer in found))


def do_plain(year: AnyYear, asked: argparse.Namespace) -> int:
    before = year.last_filed() if asked.word == "file" else None
    answer = year.ask_words([asked.word, *asked.rest])
    put(answer)
    if asked.word == "file":
        for month in left_out(answer, before, asked.rest[0]):
            note(f"{month} wasn't filed by itself: its amounts are among those of {asked.rest[0]}")
    return 0


def left_out(answer: bytes, before: Optional[str], month: str) -> list[str]:
    """The months between the last filed one and this one of which amounts are filed with it."""
    return sorted({amount.day[:7] for amount in amounts_of(answer) if (before or "") < amount.day[:7] < month})


def do_new(asked: argparse.Namespace) -> int:
    if asked.split is None:
        Year.new(asked.folder, program=asked.program).close()
    elif asked.employees < 1:
        raise Misuse("a part has at least one employee")
    else:
        Parts.new(asked.folder, asked.split, asked.employees, program=asked.program).close()
    return 0


WORDS: dict[str, Callable[[AnyYear, argparse.Namespace], int]] = {
    "set": do_set, "open": do_open, "show": do_show, "status": do_status, "totals": do_totals, "export": do_export, "trace": do_trace,
    "load": do_load, "script": do_script,
}


def opened(asked: argparse.Namespace) -> AnyYear:
    read_only = asked.word in READING
    if is_of_parts(asked.folder):
        return Parts(asked.folder, program=asked.program, read_only=read_only)
    return Year(asked.folder, program=asked.program, read_only=read_only)


def carry_out(asked: argparse.Namespace) -> int:
    if asked.word == "new":
        return do_new(asked)
    with opened(asked) as year:
        try:
            return WORDS.get(asked.word, do_plain)(year, asked)
        finally:
            for notice in year.notices:
                note(notice)


def status_of(words: Optional[Sequence[str]]) -> int:
    """Carries out the words of the command, and gives its status."""
    asked = parser().parse_args(words)
    try:
        return carry_out(asked)
    except Refused as refused:
        tell_refusal(refused)
        return refused.status
    except BrokenPipeError:
        raise
    except LedgerError as fault:
        note(str(fault))
        return fault.status
    except OSError as fault:
        note(str(fault))
        return 5
    except KeyboardInterrupt:
        note("interrupted; what was answered is done")
        return 130


def main(words: Optional[Sequence[str]] = None) -> int:
    """Carries out the words of the command, and gives its status. Where nobody reads its output any more it says nothing: what was done stays
    done."""
    if sys.stdout is None or sys.stderr is None:
        return 5
    try:
        try:
            status = status_of(words)
        except SystemExit as end:
            status = end.code if isinstance(end.code, int) else 0
        sys.stdout.flush()
        return status
    except OSError as fault:
        for stream in (sys.stdout, sys.stderr):
            silence(stream)
        if not isinstance(fault, BrokenPipeError):
            note(f"standard output: {fault.strerror}")
        return 5


def silence(stream: TextIO) -> None:
    """Leaves out what of a stream can't be written."""
    try:
        stream.flush()
    except OSError:
        os.dup2(os.open(os.devnull, os.O_WRONLY), stream.fileno())


if __name__ == "__main__":
    sys.exit(main())
