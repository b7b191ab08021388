"""A year of more pay runs than one book holds: a folder of years, each with the employees of a range, and each a process of its own.

The file `year.parts` has a line `FOLDER FIRST` for each part, in order of employees by bytes: FIRST is the first employee who belongs there, and
is missing for the first part. A line that concerns several parts is done in all of them or in none: what each part is to keep stands in
the file `year.intent` while they are written, and is completed when the year is next opened."""
from __future__ import annotations

import csv
import io
import json
import os
from bisect import bisect_right
from concurrent.futures import ThreadPoolExecutor
from contextlib import ExitStack, contextmanager
from types import TracebackType
from typing import Callable, Iterable, Iterator, Mapping, Optional, Sequence, TypeVar, Union

from . import disk, views
from .answers import Filing, Work, work_of
from .book import table_rows
from .copies import read_named
from .errors import Busy, Damaged, LedgerError, Misuse, NotReady, NotSaved, Refused
from .journal import INTENT, Lock, begin_folder
from .script import words_of
from .tables import employees_of
from .year import Value, Year

PARTS = "year.parts"
# Of these the second word is the employee, whose part does the line.
OF_EMPLOYEE = frozenset({"add", "change", "withdraw", "trace"})
OF_ALL = frozenset({"plan", "drop", "try", "file", "report", "owed"})
# With twelve monthly runs a year an employee, a part so has room for the whole year.
MOST_EMPLOYEES = 4_166
Found = TypeVar("Found")


def is_of_parts(folder: str) -> bool:
    """Whether a folder is a year of several parts."""
    return os.path.exists(os.path.join(folder, PARTS))


class Parts:
    """A year in several folders. What it offers is that of `Year`; a part is opened when it is first needed."""

    def __init__(self, folder: str, *, program: Optional[str] = None, read_only: bool = False) -> None:
        self.folder = os.path.abspath(folder)
        self._program = program
        self._read_only = read_only
        self._years: dict[str, Year] = {}
        lines = read_named(os.path.join(self.folder, PARTS)).decode("ascii").splitlines()
        self._names = [line.split()[0] for line in lines]
        self._firsts = [line.split()[1] for line in lines[1:]]
        # Of each part that is yet to keep lines the size of its journal before, and the lines.
        self._intent: dict[str, tuple[int, str]] = {}
        self._is_in_batch = False
        self._is_closed = False
        self._lock: Optional[Lock] = None
        try:
            self._begin()
        except BaseException:
            self.close()
            raise

    @classmethod
    def new(cls, folder: str, table: str, most_employees: int = MOST_EMPLOYEES, *, program: Optional[str] = None) -> "Parts":
        """Begins a year whose parts have so many of the employees of a table each. An employee who comes later belongs to the part where
        the name has its place in order of bytes."""
        firsts = employees_of(table)[::most_employees]
        names = [f"part-{number:04d}" for number in range(1, max(len(firsts), 1) + 1)]
        begin_folder(os.path.abspath(folder))
        for name in names:
            Year.new(os.path.join(folder, name), program=program).close()
        text = "\n".join(" ".join(line).rstrip() for line in zip(names, ["", *firsts[1:]])) + "\n"
        try:
            disk.put_file(os.path.join(os.path.abspath(folder), PARTS), text.encode("ascii"))
        except OSError as fault:
            raise NotSaved(f"{folder} can't be written: {fault.strerror}") from fault
        return cls(folder, program=program)

    def __enter__(self) -> "Parts":
        return self

    def __exit__(self, kind: Optional[type[BaseException]], error: Optional[BaseException], trace: Optional[TracebackType]) -> None:
        self.close()

    def close(self) -> None:
        """Lets another process write to the year."""
        self._is_closed = True
        for year in self._years.values():
            year.close()
        self._years.clear()
        if self._lock is not None:
            self._lock.close()
            self._lock = None

    @property
    def notices(self) -> Sequence[str]:
        """What was found and mended when parts were opened."""
        return [f"{name}: {notice}" for name, year in self._years.items() for notice in year.notices]

    def _begin(self) -> None:
        if not self._read_only:
            self._lock = Lock(self.folder)
            self._complete()
        elif os.path.exists(os.path.join(self.folder, INTENT)):
            try:
                Parts(self.folder, program=self._program).close()
            except Busy:
                # A line is being written at this moment.
                pass

    # The parts.

    def _year(self, name: str) -> Year:
        if self._is_closed:
            raise LedgerError(f"the year {self.folder} is closed")
        if name not in self._years:
            awaited = self._intent.get(name, (0, ""))[1].encode("ascii")
            self._years[name] = Year(os.path.join(self.folder, name), program=self._program, read_only=self._read_only, awaited=awaited)
        return self._years[name]

    def year_of(self, employee: str) -> Year:
        """The part in which an employee's runs stand."""
        return self._year(self._name_of(employee))

    def _name_of(self, employee: str) -> str:
        return self._names[bisect_right(self._firsts, employee)]

    def _each(self, work: Callable[[Year], Found], names: Optional[Iterable[str]] = None) -> list[Found]:
        """What the work on each part gives, in their order; the parts work side by side."""
        wanted = self._names if names is None else [name for name in self._names if name in set(names)]
        with ThreadPoolExecutor(os.cpu_count()) as pool:
            years = list(pool.map(self._year, wanted))
            return list(pool.map(work, years))

    # Lines that are done in all parts or in none.

    @contextmanager
    def batch(self) -> Iterator[None]:
        """The lines within are kept together at its end, in all parts, or in none."""
        if self._is_in_batch:
            yield
            return
        years = self._each(lambda year: year)
        self._is_in_batch = True
        is_intended = False
        try:
            with ExitStack() as stack:
                for year in years:
                    stack.enter_context(year.batch())
                yield
                is_intended = self._intend(years)
            self._forget_intent(is_intended)
        except BaseException as fault:
            if is_intended:
                self.close()
                raise NotSaved(f"{self.folder}: {fault}; the line is on the disk, and will be done in all parts when the year is next "
                               "opened") from fault
            raise
        finally:
            self._is_in_batch = False

    def _intend(self, years: Sequence[Year]) -> bool:
        """Brings to the disk what each part is to keep, where several are."""
        held = {name: (year.journal_size, year.held.decode("ascii")) for name, year in zip(self._names, years) if year.held}
        if len(held) < 2:
            return False
        try:
            disk.put_file(os.path.join(self.folder, INTENT), json.dumps(held).encode("ascii"))
        except OSError as fault:
            raise NotSaved(f"{self.folder} can't be written: {fault.strerror}; the year is as it was before") from fault
        return True

    def _forget_intent(self, is_intended: bool) -> None:
        self._intent = {}
        if is_intended:
            disk.forget(os.path.join(self.folder, INTENT))
            disk.sync_folder(self.folder)

    def _complete(self) -> None:
        """Does a line in the parts in which it isn't done yet."""
        path = os.path.join(self.folder, INTENT)
        if not os.path.exists(path):
            return
        self._intent = {name: (size, lines) for name, (size, lines) in json.loads(read_named(path)).items()}
        for name, (size, lines) in self._intent.items():
            year = self._year(name)
            if year.journal_size == size:
                year.send_again(lines.encode("ascii"))
            elif year.journal_size != size + len(lines):
                raise Damaged(f"{self.folder}/{name} isn't as it was when the last line was sent to all parts; put the folder back from a backup")
        self._forget_intent(True)

    # The lines of a script.

    def ask(self, line: str) -> bytes:
        """Sends a line of a script as it stands, and gives its answer."""
        words = words_of(line)
        return self.ask_words(words) if words else b""

    def ask_words(self, words: Sequence[str]) -> bytes:
        """Sends a line of these words to the part of its employee or to all parts, and gives their answers as one."""
        word = words[0]
        if word in OF_EMPLOYEE and len(words) > 1:
            return self.year_of(words[1]).ask_words(words)
        if word == "work":
            return b"".join(f"work {name} {work.runs} {work.steps}\n".encode() for name, work in self.works().items())
        if word == "open":
            raise Misuse("a saved book can't be split into the parts of a year: open it in a part, as DIR/part-0001")
        if word == "load" and len(words) == 2:
            return self._load(words[1])
        if word not in OF_ALL:
            return self._year(self._names[0]).ask_words(words)
        if word in ("plan", "drop", "file"):
            with self.batch():
                return merged(word, self._sent(words))
        return merged(word, self._sent(words))

    def _sent(self, words: Sequence[str]) -> list[bytes]:
        """The answers of all parts. Where a month can't be filed the runs of all parts that stand in the way are named."""
        def sent(year: Year) -> Union[bytes, Refused]:
            try:
                return year.ask_words(words)
            except Refused as refused:
                return refused

        answers = self._each(sent)
        faults = [answer for answer in answers if isinstance(answer, Refused)]
        waiting = [run for fault in faults if isinstance(fault, NotReady) for run in fault.waiting]
        if waiting:
            raise NotReady(faults[0], waiting)
        if faults:
            raise faults[0]
        return [answer for answer in answers if isinstance(answer, bytes)]

    def _load(self, table: str) -> bytes:
        """Splits a table by employee, and loads each piece into its part."""
        content = read_named(table)
        try:
            rows = list(table_rows(content))
        except (UnicodeDecodeError, csv.Error):
            rows = []
        pieces: dict[str, list[list[str]]] = {}
        for row in rows[1:]:
            pieces.setdefault(self._name_of(row[0]), [rows[0]]).append(row)
        with self.batch():
            if not pieces or rows[0][:3] != ["employee", "month", "day"]:
                self._year(self._names[0]).load_content(table, content)
                raise Misuse(f"{table} has no row that could be split by employee; nothing was loaded")
            for name, piece in pieces.items():
                self._year(name).load_content(table, csv_text(piece))
        return b"ok\n"

    def last_filed(self) -> Optional[str]:
        """The last month that was filed, in all parts."""
        return self._year(self._names[0]).last_filed()

    def works(self) -> Mapping[str, Work]:
        """Of each part how many runs its last accepted edit ran, and their steps."""
        return dict(zip(self._names, self._each(lambda year: year.work())))

    def report_text(self) -> bytes:
        """The report of all parts, in order of employee and day."""
        return self.ask_words(["report"])

    def open_book(self, saved: str, filed: Optional[str]) -> Optional[Filing]:
        self.ask_words(["open", saved])
        return None

    # What is made of these lines.

    def set(self, employee: str, when: str, values: Mapping[str, Optional[Value]]) -> None:
        """The run with these values changed and the others kept."""
        self.year_of(employee).set(employee, when, values)

    def set_all(self, rows: Iterable[tuple[str, str, Mapping[str, Optional[Value]]]]) -> int:
        """Sets the values of many runs, all of them or none."""
        count = 0
        with self.batch():
            for count, (employee, when, values) in enumerate(rows, 1):
                self.year_of(employee).set(employee, when, values)
        return count

    def show(self, employee: str, when: Optional[str] = None) -> list[views.Run]:
        """What there is of an employee's runs."""
        return self.year_of(employee).show(employee, when)

    def status(self) -> views.Status:
        """Where the parts stand together: lines, runs and work are added up, months and flowcharts are those of the first part."""
        return views.status_of(self._each(lambda year: year.status()))

    def totals(self, month: Optional[str] = None) -> list[views.Total]:
        """The sums by month and output over all parts."""
        return views.sum_totals(self._each(lambda year: year.totals(month)))

    def export(self, path: str) -> int:
        """Writes the report of all parts as a CSV file, whole or not at all, and gives the number of its rows."""
        return views.export(self.report_text(), path)


def merged(word: str, answers: Sequence[bytes]) -> bytes:
    """The answers of parts to one line as one answer."""
    if word == "report":
        return answers[0].split(b"\n", 1)[0] + b"\n" + b"".join(inner(answer, 1) for answer in answers) + b"end\n"
    if word == "owed":
        return b"".join(inner(answer, 0) for answer in answers) + b"end\n"
    if word == "file":
        count = sum(int(last_line(answer).split()[1]) for answer in answers)
        return b"".join(inner(answer, 0) for answer in answers) + f"filed {count}\n".encode()
    if word == "try":
        works = [work_of(last_line(answer)) for answer in answers]
        last = f"would {sum(work.runs for work in works)} {sum(work.steps for work in works)}\n"
        return answers[0].split(b"\n", 1)[0] + b"\n" + b"".join(inner(answer, 1) for answer in answers) + last.encode()
    return answers[0]


def last_line(answer: bytes) -> bytes:
    return answer[answer.rfind(b"\n", 0, -1) + 1:]


def inner(answer: bytes, first: int) -> bytes:
    """The lines of an answer without so many of its first, and without the last."""
    begin = answer.find(b"\n") + 1 if first else 0
    return answer[begin:answer.rfind(b"\n", 0, -1) + 1]


def csv_text(rows: Iterable[Sequence[str]]) -> bytes:
    text = io.StringIO()
    csv.writer(text, lineterminator="\n").writerows(rows)
    return text.getvalue().encode("utf-8")
