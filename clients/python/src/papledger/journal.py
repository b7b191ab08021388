"""The durable files of a year: the journal of accepted lines, and beside it the digest of their answers.

The journal `year.script` is a script: `papcalc run < year.script`, begun in the year's folder, carries out the whole year. A line is in
it when it stands there with its line end; what stands behind the last line end was never handed on as done. Lines that were brought to the disk
together stand behind a comment with their number, and are in it when all of them stand there.

The digest `year.digest` has a record of 16 hexadecimal digits and a line end for each line that is answered: the beginning of a SHA-256 sum
over the line, its answer and the sum before. It is written behind the journal, and may lack the last records."""
from __future__ import annotations

import fcntl
import hashlib
import os
import re
from typing import Optional, Sequence

from . import disk
from .errors import Busy, Damaged, NotSaved

JOURNAL = "year.script"
DIGEST = "year.digest"
LOCK = "year.lock"
# In the folder above a part of a year: what several parts are to keep together.
INTENT = "year.intent"
HEAD = b"# A year of pay runs: each line below was accepted by papcalc, and is on the disk since. papledger appends to it.\n"
TOGETHER = re.compile(rb"\n# together (\d+)\n")
RECORD = 17


class Chain:
    """The running sum over lines and their answers."""

    def __init__(self) -> None:
        self._sum = b""

    def next(self, line: bytes, answer: bytes) -> bytes:
        """The record of this line."""
        self._sum = hashlib.sha256(self._sum + line + answer).digest()
        return self._sum[:8].hex().encode() + b"\n"


class Lock:
    """Held by the one process that writes to a year; the system lets go of it when the process ends, however that comes."""

    def __init__(self, folder: str) -> None:
        self._handle = disk.open_file(os.path.join(folder, LOCK), is_new=True)
        try:
            fcntl.flock(self._handle, fcntl.LOCK_EX | fcntl.LOCK_NB)
        except OSError as fault:
            holder = os.pread(self._handle, 32, 0).decode("ascii", "replace").strip()
            os.close(self._handle)
            raise Busy(f"{folder}: another process{f' ({holder})' if holder else ''} writes to this year; wait for its end") from fault
        self._tell()

    def _tell(self) -> None:
        """Writes who holds the lock. It only serves the message to a second one, so it needs no room on a full disk."""
        try:
            os.ftruncate(self._handle, 0)
            os.pwrite(self._handle, f"process {os.getpid()}\n".encode(), 0)
        except OSError:
            pass

    def close(self) -> None:
        os.close(self._handle)


class Journal:
    """The two files, opened. `size` is how many bytes of whole lines the journal has, `torn` what was cut off behind them."""

    def __init__(self, folder: str, read_only: bool) -> None:
        self._folder = folder
        self._is_torn = False
        self._digest: Optional[int] = None
        try:
            self._lines = disk.open_file(os.path.join(folder, JOURNAL), read_only=read_only)
        except (FileNotFoundError, NotADirectoryError) as fault:
            raise Damaged(f"{folder} is not a year: it has no file {JOURNAL}; `papledger {folder} new` begins one") from fault
        except OSError as fault:
            raise NotSaved(f"{os.path.join(folder, JOURNAL)} can't be opened: {fault.strerror}") from fault
        try:
            content = read_from(self._lines)
            self.size = whole_size(content)
            self.torn = content[self.size:]
            if not read_only:
                self._begin_writing()
        except OSError as fault:
            self.close()
            raise self._failed(fault) from fault

    def _begin_writing(self) -> None:
        if self.torn:
            disk.cut(self._lines, self.size)
        path = os.path.join(self._folder, DIGEST)
        is_new = not os.path.exists(path)
        self._digest = disk.open_file(path, is_new=True)
        if is_new:
            disk.sync_folder(self._folder)

    def _failed(self, fault: OSError) -> NotSaved:
        return NotSaved(f"{self._folder} can't be written: {fault.strerror}; the year is as it was before")

    def text(self) -> bytes:
        """The whole lines of the journal."""
        return read_from(self._lines)[:self.size]

    def records(self) -> bytes:
        """The whole records of the digest; nothing where there is no such file."""
        try:
            with open(os.path.join(self._folder, DIGEST), "rb") as file:
                content = file.read()
        except FileNotFoundError:
            return b""
        return content[:len(content) // RECORD * RECORD]

    def append(self, lines: bytes) -> None:
        """Returns when these lines are on the disk, behind all that were before. After an error none of them is in the journal; where
        the system doesn't let them be cut off again, that comes before the next lines, or when the year is next opened."""
        try:
            if self._is_torn:
                disk.cut(self._lines, self.size)
            self._is_torn = True
            disk.write_at(self._lines, lines, self.size)
            disk.sync(self._lines)
        except BaseException as fault:
            self._mend()
            if isinstance(fault, OSError):
                raise self._failed(fault) from fault
            raise
        self._is_torn = False
        self.size += len(lines)

    def _mend(self) -> None:
        try:
            disk.cut(self._lines, self.size)
            self._is_torn = False
        except OSError:
            pass

    def record(self, count: int, records: bytes) -> None:
        """Writes these records behind the first `count`. The lines are done already, so an error here is not theirs: the records
        that lack are written when the year is next opened."""
        if self._digest is None:
            return
        try:
            disk.write_at(self._digest, records, count * RECORD)
        except OSError:
            os.close(self._digest)
            self._digest = None

    def put_records(self, count: int, records: bytes) -> None:
        """Puts these records in place of those behind the first `count`, and brings them to the disk."""
        if self._digest is None:
            return
        try:
            disk.cut(self._digest, count * RECORD)
            disk.write_at(self._digest, records, count * RECORD)
            disk.sync(self._digest)
        except OSError as fault:
            raise self._failed(fault) from fault

    def close(self) -> None:
        for handle in (self._lines, self._digest):
            if handle is not None:
                os.close(handle)


def together(lines: Sequence[bytes]) -> bytes:
    """The text of lines that are to be kept all or none."""
    return (b"# together %d\n" % len(lines) if len(lines) > 1 else b"") + b"".join(lines)


def whole_size(content: bytes) -> int:
    """How many bytes at the beginning of a journal are whole lines, without the last ones where some that belong to them aren't there."""
    size = content.rfind(b"\n") + 1
    at = content.rfind(b"\n# together ", 0, size)
    found = TOGETHER.match(content, at) if at >= 0 else None
    if found and content.count(b"\n", found.end(), size) < int(found[1]):
        return at + 1
    return size


def read_from(handle: int) -> bytes:
    """The whole content of an open file."""
    with os.fdopen(os.dup(handle), "rb") as file:
        file.seek(0)
        return file.read()


def begin_folder(folder: str) -> None:
    """Makes a folder for a year; it may be there where it is empty."""
    try:
        disk.make_folder(folder)
        others = sorted(name for name in os.listdir(folder) if name != LOCK and not name.endswith(".new"))
    except OSError as fault:
        raise NotSaved(f"{folder} can't be made: {fault.strerror}") from fault
    if others:
        raise Damaged(f"{folder} isn't empty: it has {others[0]}; a year begins in a folder of its own")


def begin(folder: str) -> None:
    """Makes an empty year of a folder that isn't there or is empty."""
    begin_folder(folder)
    try:
        disk.put_file(os.path.join(folder, JOURNAL), HEAD)
    except OSError as fault:
        raise NotSaved(f"{folder} can't be written: {fault.strerror}") from fault
