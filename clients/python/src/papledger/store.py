"""The lines of a year, kept: the journal in a folder, and the program that has carried it out.

What is in memory is always what the journal says. Where that might not be so, as after an error, the program is ended, and the next line
begins with the journal anew."""
from __future__ import annotations

import os
import re
from contextlib import contextmanager
from typing import Iterator, Optional, Sequence

from .answers import Filing
from .book import Book
from .copies import Copies, read_named
from .errors import Damaged, LedgerError, Misuse, NotSaved, Refused
from .journal import INTENT, JOURNAL, Chain, Journal, Lock, together
from .program import Program, explain, find_program
from .script import FILES, KEPT, LONGEST_SCRIPT, asks, files_of, line_of

RECORDS = re.compile(rb"(?:[0-9a-f]{16}\n)*")


class _Session:
    """A program that has carried out the journal, and what its answers left."""

    def __init__(self, program: Program) -> None:
        self.program = program
        self.chain = Chain()
        self.filings: list[Filing] = []
        self.book: Optional[Book] = None
        # How many lines of the journal are answered; then those that were accepted and aren't in it yet, with their records, and how many
        # bytes they have.
        self.count = 0
        self.lines: list[bytes] = []
        self.waiting = 0
        self.records: list[bytes] = []

    def note(self, line: bytes, answer: bytes) -> bytes:
        """Notes an accepted line, and gives its record."""
        word, *rest = line.split(None, 2)
        if word == b"file":
            self.filings.append(Filing(rest[0].decode("ascii"), answer))
        return self.chain.next(line, answer)


class Store:
    """A year's folder, opened. `notices` are what was found and mended at the opening. `awaited` are the lines that a part of a year is
    about to keep, where the year opens it."""

    def __init__(self, folder: str, program: Optional[str] = None, read_only: bool = False, awaited: Optional[bytes] = None) -> None:
        self.folder = os.path.abspath(folder)
        self._awaited = awaited
        self.notices: list[str] = []
        self._read_only = read_only
        self._is_closed = False
        self._program = find_program(program)
        self._session: Optional[_Session] = None
        self._batch: Optional[_Session] = None
        self._copies = Copies(self.folder)
        self._lock = None if read_only else self._locked()
        try:
            self._journal = Journal(self.folder, read_only)
        except BaseException:
            self._unlock()
            raise
        try:
            self._begin()
        except BaseException:
            self.close()
            raise

    def _locked(self) -> Lock:
        if not os.path.exists(os.path.join(self.folder, JOURNAL)):
            raise Damaged(f"{self.folder} is not a year: it has no file {JOURNAL}; `papledger {self.folder} new` begins one")
        above = os.path.dirname(self.folder)
        if self._awaited is None and os.path.exists(os.path.join(above, INTENT)):
            raise Damaged(f"{self.folder} is a part of the year {above}, which was left in the midst of a line; send a line to {above} first")
        try:
            return Lock(self.folder)
        except OSError as fault:
            raise NotSaved(f"{self.folder} can't be written: {fault.strerror}") from fault

    def _unlock(self) -> None:
        if self._lock is not None:
            self._lock.close()
            self._lock = None

    def _begin(self) -> None:
        if self._journal.torn and not self._read_only:
            torn = " / ".join(self._journal.torn[:80].decode("ascii", "replace").splitlines())
            self.notices.append(f"the journal ended in the midst of what was never told done; that was cut off: {torn}")
        self._opened()
        if not self._read_only:
            self._copies.sweep(set(self._named(self._journal.text() + (self._awaited or b""))))

    def _named(self, text: bytes) -> Iterator[str]:
        """The copied files that the lines of the journal name."""
        for line in text.split(b"\n"):
            if line.lstrip()[:5] in (b"plan ", b"load ", b"open "):
                words = line.decode("ascii", "replace").split()
                yield from (words[at] for at in files_of(words))

    def _opened(self) -> _Session:
        """The session; where there is none, the program is started and carries out the journal."""
        if self._is_closed:
            raise LedgerError(f"the year {self.folder} is closed")
        if self._session is None:
            text = self._journal.text()
            for name in sorted(set(self._named(text))):
                self._copies.check(name)
            session = _Session(Program(self._program, self.folder))
            try:
                self._carry_out(session, text)
            except BaseException:
                session.program.close()
                raise
            self._session = session
        return self._session

    def _carry_out(self, session: _Session, text: bytes) -> None:
        """Sends the journal, and compares the digest of the answers with the records that are there."""
        numbers, found = [], []
        for number, line, answer in session.program.ask_all(text):
            if answer.startswith(b"refused "):
                raise self._differs(number, line, f"is answered `{answer.decode('ascii', 'replace').strip()}`, and was accepted once")
            found.append(session.note(line, answer))
            numbers.append((number, line))
        session.count = len(found)
        content = self._journal.records()
        match = RECORDS.match(content)
        known = (match.group() if match else b"").splitlines(keepends=True)
        for (number, line), old, new in zip(numbers, known, found):
            if old != new:
                raise self._differs(number, line, "has another answer than when it was written")
        if len(known) > len(found) and not self._read_only:
            raise Damaged(f"{self.folder}/{JOURNAL} has {len(found)} lines that are answered, and the digest beside it {len(known)}: "
                          "lines are missing; put the folder back from a backup")
        if len(known) < len(found) and not self._read_only:
            self._journal.put_records(len(known), b"".join(found[len(known):]))
            self.notices.append(f"the digest lacked the last {len(found) - len(known)} of {len(found)} lines, and was completed")

    def _differs(self, number: int, line: bytes, how: str) -> Damaged:
        text = line[:80].decode("ascii", "replace").strip()
        return Damaged(f"{self.folder}/{JOURNAL}: line {number} {how}: `{text}`. Either the journal was changed, or this papcalc "
                       "computes otherwise; nothing was changed now")

    def ask(self, words: Sequence[str], content: Optional[bytes] = None) -> bytes:
        """Sends a line of these words, and gives its answer. A line that changes the year is on the disk by then; within `batch` that is
        so at the batch's end. Where a content is given, it is that of the one file which the line names."""
        if self._read_only and (words[0] in KEPT or words[0] in FILES):
            raise Misuse(f"the year is open for reading only: no line `{words[0]}` can be sent")
        line = line_of(self._copied(words, content))
        return self._send(line, words[0] in KEPT)

    def _copied(self, words: Sequence[str], content: Optional[bytes]) -> list[str]:
        """The words with the names of copies in place of files. All files are read before the first is copied."""
        places = files_of(words)
        line_of([word for at, word in enumerate(words) if at not in places])
        contents = [(at, read_named(words[at]) if content is None else content) for at in places]
        sent = list(words)
        for at, text in contents:
            sent[at] = self._copies.put(FILES[words[0]].folder, words[at], text)
        return sent

    def _send(self, line: bytes, is_kept: bool) -> bytes:
        """Sends a line, and keeps it where it is to be kept and is accepted."""
        session = self._with_room(line, is_kept)
        try:
            answer = session.program.ask(line)
            if answer.startswith(b"refused "):
                raise self._refused(session, line, answer)
            if is_kept:
                session.records.append(session.note(line, answer))
                session.lines.append(line)
                session.waiting += len(line)
                if session.book is not None:
                    session.book.apply(line)
                if self._batch is None:
                    self._commit(session)
        except Refused:
            raise
        except BaseException:
            self._discard()
            raise
        return answer

    @property
    def size(self) -> int:
        """How many bytes the journal has."""
        return self._journal.size

    @property
    def held(self) -> bytes:
        """The lines of a batch that were accepted so far, as the journal will have them."""
        return together(self._opened().lines)

    def send_again(self, lines: bytes) -> None:
        """Keeps lines that this year accepted before, as they stand."""
        with self.batch():
            for line in lines.splitlines(keepends=True):
                if asks(line):
                    self._send(line, is_kept=True)

    def _with_room(self, line: bytes, is_kept: bool) -> _Session:
        """The session, whose program can still take the line."""
        if self._batch is not None and self._batch is not self._session:
            raise LedgerError("the batch was broken off by an error before: none of its lines is kept")
        session = self._opened()
        size = self._journal.size + session.waiting
        if is_kept and size + len(line) > LONGEST_SCRIPT:
            raise NotSaved(f"the journal would have more than {LONGEST_SCRIPT:,} bytes, which papcalc doesn't read: begin another year, "
                           "or split it by employee")
        if not session.program.has_room(line) and self._batch is None:
            self._discard()
            session = self._opened()
        return session

    def _refused(self, session: _Session, line: bytes, answer: bytes) -> Refused:
        size, behind, path = self._journal.size, b"".join(session.lines), os.path.join(self.folder, JOURNAL)

        def message() -> str:
            with open(path, "rb") as journal:
                return explain(self._program, self.folder, journal.read(size) + behind, line)

        return Refused(line.decode("utf-8", "replace").strip(), answer.decode("ascii", "replace").strip(), message)

    def _commit(self, session: _Session) -> None:
        """Brings the accepted lines to the disk, and then their records into the digest."""
        if session.lines:
            self._journal.append(together(session.lines))
            self._journal.record(session.count, b"".join(session.records))
            session.count += len(session.lines)
            session.lines, session.records, session.waiting = [], [], 0

    @contextmanager
    def batch(self) -> Iterator[None]:
        """The lines within are brought to the disk together at its end. After an error within none of them is kept. A batch in another is
        part of it."""
        is_inner = self._batch is not None
        session = self._opened() if self._batch is None else self._batch
        self._batch = session
        try:
            yield
            if self._session is not session:
                raise LedgerError("the batch was broken off by an error before: none of its lines is kept")
            if not is_inner:
                self._commit(session)
        except BaseException:
            if session.lines and self._session is session:
                self._discard()
            raise
        finally:
            if not is_inner:
                self._batch = None

    def _discard(self) -> None:
        """Ends the program. The next line begins with the journal anew."""
        if self._session is not None:
            self._session.program.close()
            self._session = None

    @property
    def filings(self) -> Sequence[Filing]:
        """The months that were filed, each with its answer."""
        return self._opened().filings

    @property
    def count(self) -> int:
        """How many lines were accepted."""
        session = self._opened()
        return session.count + len(session.lines)

    @property
    def book(self) -> Book:
        """The values of the runs, and the flowcharts."""
        session = self._opened()
        if session.book is None:
            book = Book(lambda name: read_named(os.path.join(self.folder, name)))
            for line in [*self._journal.text().split(b"\n"), *session.lines]:
                book.apply(line)
            session.book = book
        return session.book

    def close(self) -> None:
        """Ends the program, and lets another process write to the year."""
        if not self._is_closed:
            self._is_closed = True
            self._discard()
            self._journal.close()
            self._unlock()
