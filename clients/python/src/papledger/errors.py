"""What can go wrong with a year. Each error says whether the year changed: it never did, unless the text says otherwise.

`status` is what the command `papledger` ends with."""
from __future__ import annotations

from typing import Callable, Optional, Sequence

from .answers import Waiting


class LedgerError(Exception):
    """Any error of this package."""

    status = 4


class Misuse(LedgerError, ValueError):
    """The words can't be a line of a script, or ask for what a year doesn't do."""

    status = 2


class FileMissing(LedgerError):
    """A file that a line names isn't there or can't be read. Nothing was sent."""

    status = 3


class Busy(LedgerError):
    """Another process writes to this year."""


class Damaged(LedgerError):
    """The folder is not a year, or its journal, its digest or a copied file isn't what was written."""


class NotSaved(LedgerError):
    """The folder can't be written, as of a full disk. The year is as it was before the line."""

    status = 5


class ProgramFailed(LedgerError):
    """`papcalc` isn't there, or ended in the midst of its work. The year is as it was before the line."""

    status = 6


class Refused(LedgerError):
    """papcalc refused the line: it changed nothing, and the next line may be sent.

    `reason` is its answer, `refused GROUP NAME DETAIL`; `message` is what it says of it in plain words on standard error."""

    status = 1

    def __init__(self, line: str, reason: str, explain: Callable[[], str]) -> None:
        super().__init__(f"{reason} (the line was: {line})")
        self.line = line
        self.reason = reason
        self._explain = explain
        self._message: Optional[str] = None

    @property
    def message(self) -> str:
        """Found when it is first read: papcalc reads the year again with this line at its end, and says what is wrong with it."""
        if self._message is None:
            self._message = self._explain()
        return self._message


class NotReady(Refused):
    """A month isn't filed, since not all runs up to its end are ok. `waiting` names them."""

    def __init__(self, refused: Refused, waiting: Sequence[Waiting]) -> None:
        super().__init__(refused.line, refused.reason, lambda: refused.message)
        self.waiting = tuple(waiting)
