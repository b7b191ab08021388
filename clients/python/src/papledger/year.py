"""A year of pay runs in a folder, as a library: a method for each line of a script, and what is made of these lines."""
from __future__ import annotations

import os
from contextlib import AbstractContextManager
from decimal import Decimal
from types import TracebackType
from typing import Iterable, Mapping, Optional, Sequence, Union

from . import answers, views
from .book import Flowchart, Values
from .errors import Misuse, NotReady, Refused
from .journal import begin
from .script import words_of
from .store import Store

Value = Union[int, Decimal, str]


class Year:
    """A year. Each method that changes it returns when its line is on the disk; `Refused` is raised where papcalc refuses the line.

    `notices` are what was found and mended when the folder was opened. A year that is opened `read_only` can be read while another
    process writes to it. `awaited` is for `Parts`: the lines that this part of a year is about to keep."""

    def __init__(self, folder: str, *, program: Optional[str] = None, read_only: bool = False, awaited: Optional[bytes] = None) -> None:
        self.folder = folder
        self._store = Store(folder, program, read_only, awaited)
        self.notices: Sequence[str] = self._store.notices

    @classmethod
    def new(cls, folder: str, *, program: Optional[str] = None) -> "Year":
        """Begins a year in a folder that isn't there yet, or is empty."""
        begin(os.path.abspath(folder))
        return cls(folder, program=program)

    def __enter__(self) -> "Year":
        return self

    def __exit__(self, kind: Optional[type[BaseException]], error: Optional[BaseException], trace: Optional[TracebackType]) -> None:
        self.close()

    def close(self) -> None:
        """Lets another process write to the year."""
        self._store.close()

    def batch(self) -> AbstractContextManager[None]:
        """Lines within `with year.batch():` are brought to the disk together at its end, all of them or none."""
        return self._store.batch()

    # The lines of a script.

    def ask(self, line: str) -> bytes:
        """Sends a line of a script as it stands, and gives its answer as it comes; nothing for an empty line or a comment. The files that
        it names are looked for from the folder in which the caller runs."""
        words = words_of(line)
        return self.ask_words(words) if words else b""

    def ask_words(self, words: Sequence[str]) -> bytes:
        """Sends a line of these words."""
        if words[0] == "open":
            raise Misuse("a saved book doesn't say which months were filed, so `open` needs to be told: open BOOK --filed MONTH, with the "
                         "last month that was filed, or open BOOK --nothing-filed")
        if words[0] == "file" and len(words) == 2:
            return self._file(words[1])
        return self._store.ask(words)

    def plan(self, day: str, flowchart: str, limits: str) -> int:
        """From this day on the flowchart holds; gives the most steps of a run."""
        return answers.most_steps_of(self._store.ask(["plan", day, flowchart, limits]))

    def drop(self, day: str) -> None:
        """Takes away the flowchart that was put on this day."""
        self._store.ask(["drop", day])

    def add(self, employee: str, day: str, values: Mapping[str, Value]) -> None:
        """A pay run of the employee on this day."""
        self._store.ask(["add", employee, day[:7], day, *value_words(values)])

    def change(self, employee: str, day: str, values: Mapping[str, Value]) -> None:
        """This run in place of the one on this day, or else of the only one in its month. No value of the old run stays."""
        self._store.ask(["change", employee, day[:7], day, *value_words(values)])

    def withdraw(self, employee: str, when: str) -> None:
        """Takes away the run of a day, or the only one of a month."""
        self._store.ask(["withdraw", employee, when])

    def load(self, table: str) -> None:
        """Adds all pay runs of a table."""
        self._store.ask(["load", table])

    def load_content(self, name: str, content: bytes) -> None:
        """Adds all pay runs of a table that isn't a file; its copy has this name."""
        self._store.ask(["load", name], content)

    def open_book(self, saved: str, filed: Optional[str]) -> Optional[answers.Filing]:
        """Begins the year with a saved book. `filed` is the last month that was filed before it was saved, None where none was: the
        months up to it are filed here too, and their amounts, which are known already, given back."""
        with self._store.batch():
            self._store.ask(["open", saved])
            return answers.Filing(filed, self._file(filed)) if filed is not None else None

    def report(self) -> list[answers.Row]:
        """What each run came to."""
        return list(answers.rows_of(self.report_text()))

    def report_text(self) -> bytes:
        """The report as it comes, with its first line, and `end` behind its last row."""
        return self._store.ask(["report"])

    def work(self) -> answers.Work:
        """How many runs the last accepted edit ran, and their steps."""
        return answers.work_of(self._store.ask(["work"]))

    def trace(self, employee: str, when: str) -> list[answers.Step]:
        """Each executed statement of a run, with its value."""
        return answers.steps_of(self._store.ask(["trace", employee, when]))

    def file(self, month: str) -> answers.Filing:
        """Closes a month. `NotReady` names all runs that stand in the way, where there are any."""
        return answers.Filing(month, self._file(month))

    def _file(self, month: str) -> bytes:
        try:
            return self._store.ask(["file", month])
        except Refused as refused:
            if not refused.reason.startswith("refused file Open "):
                raise
            raise NotReady(refused, views.waiting_of(self.report_text(), month)) from refused

    def owed(self) -> list[answers.Amount]:
        """The amounts of the filed months that differ now from what was filed; none before the first filing."""
        if not self.filings:
            return []
        return list(answers.amounts_of(self._store.ask(["owed"])))

    def try_plan(self, day: str, flowchart: str, limits: str) -> answers.Trial:
        """What `plan` of the same words would change. Nothing changes."""
        return answers.trial_of(self._store.ask(["try", day, flowchart, limits]))

    # For a year of several parts.

    def year_of(self, employee: str) -> "Year":
        """The part in which an employee's runs stand: the year itself."""
        return self

    @property
    def journal_size(self) -> int:
        """How many bytes the journal has."""
        return self._store.size

    @property
    def held(self) -> bytes:
        """The lines of a batch that were accepted so far, as the journal will have them."""
        return self._store.held

    def send_again(self, lines: bytes) -> None:
        """Keeps lines that this year accepted before, as they stand."""
        self._store.send_again(lines)

    # What is made of these lines.

    @property
    def filings(self) -> Sequence[answers.Filing]:
        """The months that were filed, in their order, with the amounts that were filed with each."""
        return self._store.filings

    def last_filed(self) -> Optional[str]:
        """The last month that was filed."""
        return self.filings[-1].month if self.filings else None

    def day(self, employee: str, when: str) -> str:
        """The day of the employee's run that is meant by a day or a month."""
        return self._store.book.find(employee, when)

    def values(self, employee: str, when: str) -> Values:
        """The values that a run was given."""
        return self._store.book.values(employee, self.day(employee, when))

    def flowchart(self, day: str) -> Optional[Flowchart]:
        """The flowchart that holds on a day."""
        return self._store.book.flowchart_of(day)

    def set(self, employee: str, when: str, values: Mapping[str, Optional[Value]]) -> None:
        """The run with these values changed and the others kept. None, or an empty text, takes a value away."""
        self._store.ask(self._set_words(employee, when, values))

    def _set_words(self, employee: str, when: str, values: Mapping[str, Optional[Value]]) -> list[str]:
        day = self.day(employee, when)
        merged: dict[str, Value] = dict(self._store.book.values(employee, day))
        for name, value in values.items():
            if value is None or value == "":
                merged.pop(name, None)
            else:
                merged[name] = value
        return ["change", employee, day[:7], day, *value_words(merged)]

    def set_all(self, rows: Iterable[tuple[str, str, Mapping[str, Optional[Value]]]]) -> int:
        """Sets the values of many runs, each row an employee, a month or a day, and values: all of them, or none where one is refused.
        Gives their number."""
        count = 0
        with self._store.batch():
            for count, (employee, when, values) in enumerate(rows, 1):
                try:
                    self.set(employee, when, values)
                except Misuse as fault:
                    raise Misuse(f"row {count}: {fault}; nothing was set") from fault
        return count

    def show(self, employee: str, when: Optional[str] = None) -> list[views.Run]:
        """What there is of an employee's runs, or of those of a month or a day."""
        start = employee.encode("ascii", "replace") + b","
        rows: dict[str, list[answers.Row]] = {}
        for line in views.report_lines(self.report_text()):
            if line.startswith(start):
                row = answers.row_of(line.decode("ascii"))
                rows.setdefault(row.day, []).append(row)
        filed = views.sums_of((amount for filing in self.filings for amount in filing.amounts()), employee)
        owed = views.sums_of(self.owed(), employee)
        days = sorted(day for day in rows.keys() | owed.keys() if when in (None, day, day[:7]))
        return [self._shown(employee, day, rows.get(day, []), filed.get(day, {}), owed.get(day, {})) for day in days]

    def _shown(self, employee: str, day: str, rows: Sequence[answers.Row], filed: dict[str, Decimal], owed: dict[str, Decimal]) -> views.Run:
        if not rows:
            return views.Run(employee, day, "gone", "", None, {}, {}, filed, owed)
        amounts = {row.name: row.value for row in rows if row.value is not None}
        state, name = rows[0].state, "" if amounts else rows[0].name
        return views.Run(employee, day, state, name, self.flowchart(day), self.values(employee, day), amounts, filed, owed)

    def waiting(self, month: Optional[str] = None) -> list[answers.Waiting]:
        """The runs that aren't ok, up to the end of a month where one is said: a filing of that month is refused while there are any."""
        return views.waiting_of(self.report_text(), month)

    def status(self) -> views.Status:
        """Where the year stands."""
        report = self.report_text()
        flowcharts = tuple(put for _, put in sorted(self._store.book.flowcharts.items()))
        return views.Status(self._store.count, views.count_runs(report), views.causes_of(views.waiting_of(report)),
                            tuple(filing.month for filing in self.filings), self.work(), flowcharts)

    def totals(self, month: Optional[str] = None) -> list[views.Total]:
        """The sums by month and output, as a monthly return needs them."""
        return views.totals_of(self.report_text(), self.filings, month)

    def export(self, path: str) -> int:
        """Writes the report as a CSV file, whole or not at all, and gives the number of its rows."""
        return views.export(self.report_text(), path)


def value_words(values: Mapping[str, Value]) -> list[str]:
    """The words NAME=VALUE of a line."""
    return [f"{name}={plain(value)}" for name, value in values.items()]


def plain(value: Value) -> str:
    """A value in plain digits. A binary fraction is none: it rarely is the amount that it shows."""
    if isinstance(value, Decimal):
        return format(value, "f")
    if isinstance(value, (int, str)) and not isinstance(value, bool):
        return str(value)
    raise Misuse(f"{value!r} is not an int, a Decimal or a text")
