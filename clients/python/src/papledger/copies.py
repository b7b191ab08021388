"""Copies of the files that lines name, under names by their content: `flowcharts/` and `tables/` of a year's folder.

A name is the beginning of the SHA-256 sum of the content and the name that the file had. So a file that changes later changes nothing, and
a copy that isn't what was copied is found."""
from __future__ import annotations

import hashlib
import os
import re
import stat

from . import disk
from .errors import Damaged, FileMissing, NotSaved

# No file of a line may be longer: a saved book is the longest that papcalc reads.
MOST_BYTES = 268_435_456
SUM_DIGITS = 20
MOST_NAME = 80
COPY = re.compile(rf"[0-9a-f]{{{SUM_DIGITS}}}-[A-Za-z0-9._-]+")


def sum_of(content: bytes) -> str:
    return hashlib.sha256(content).hexdigest()[:SUM_DIGITS]


def read_named(path: str) -> bytes:
    """The content of a file that a line names."""
    try:
        with open(path, "rb") as file:
            if stat.S_ISDIR(os.fstat(file.fileno()).st_mode):
                raise IsADirectoryError(0, "it is a folder")
            content = file.read(MOST_BYTES + 1)
    except OSError as fault:
        reason = {"FileNotFoundError": "there is no such file", "IsADirectoryError": "it is a folder"}.get(type(fault).__name__)
        raise FileMissing(f"the file {path}: {reason or fault.strerror}") from fault
    except ValueError as fault:
        raise FileMissing(f"the file {path!r}: {fault}") from fault
    if len(content) > MOST_BYTES:
        raise FileMissing(f"the file {path}: it has more than {MOST_BYTES:,} bytes, which papcalc doesn't read")
    return content


class Copies:
    """The copied files of a year."""

    def __init__(self, folder: str) -> None:
        self._folder = folder

    def put(self, part: str, path: str, content: bytes) -> str:
        """The name of the copy in the year's folder. It is on the disk when this returns."""
        plain = re.sub(r"[^A-Za-z0-9._-]", "_", os.path.basename(path))[-MOST_NAME:]
        name = f"{part}/{sum_of(content)}-{plain}"
        target = os.path.join(self._folder, name)
        try:
            disk.make_folder(os.path.join(self._folder, part))
            if os.path.exists(target):
                self.check(name)
                disk.sync_folder(os.path.dirname(target))
            else:
                disk.put_file(target, content)
        except OSError as fault:
            raise NotSaved(f"{target} can't be written: {fault.strerror}; the year is as it was before") from fault
        return name

    def check(self, name: str) -> None:
        """Fails where the copy isn't there, or isn't what was copied."""
        path = os.path.join(self._folder, name)
        try:
            content = read_named(path)
        except FileMissing as fault:
            raise Damaged(f"{fault}; a line of the journal needs it: put it back from a backup") from fault
        if not os.path.basename(name).startswith(f"{sum_of(content)}-"):
            raise Damaged(f"{path} was changed since it was copied: put it back from a backup")

    def sweep(self, named: set[str]) -> None:
        """Takes away the copies that no line of the journal names: those of refused lines, and of a line that a crash cut off."""
        for part in ("flowcharts", "tables"):
            folder = os.path.join(self._folder, part)
            for name in os.listdir(folder) if os.path.isdir(folder) else []:
                if COPY.fullmatch(name) and f"{part}/{name}" not in named:
                    disk.forget(os.path.join(folder, name))
