"""The system's calls with a fault: a stand-in for the module `os` in `papledger.disk`."""
from __future__ import annotations

import errno
import os
from typing import Any, Iterator, Optional
from contextlib import contextmanager
from unittest import mock

CALLS = ["open", "pwrite", "fsync", "ftruncate", "replace", "mkdir", "unlink"]


class FailingOs:
    """`os`, whose call of this name fails when it is called for the n-th time, and each later call of any name too where the fault `stays`.
    A write that fails has written half before where it is `short`."""

    def __init__(self, call: str, number: int, stays: bool = False, short: bool = False) -> None:
        self._call, self._number, self._stays, self._short = call, number, stays, short
        self.has_failed = False

    def __getattr__(self, name: str) -> Any:
        found = getattr(os, name)
        if name not in CALLS:
            return found

        def called(*words: Any, **named: Any) -> Any:
            if self._fails(name):
                if name == "pwrite" and self._short:
                    os.pwrite(words[0], bytes(words[1])[:len(words[1]) // 2], words[2])
                raise OSError(errno.ENOSPC, os.strerror(errno.ENOSPC))
            return found(*words, **named)
        return called

    def _fails(self, name: str) -> bool:
        if self.has_failed:
            return self._stays
        if name == self._call:
            self._number -= 1
            self.has_failed = self._number == 0
        return self.has_failed


@contextmanager
def fault(call: str, number: int, stays: bool = False, short: bool = False) -> Iterator[FailingOs]:
    failing = FailingOs(call, number, stays, short)
    with mock.patch("papledger.disk.os", failing):
        yield failing


def describe(call: str, number: int, stays: bool, short: bool) -> Optional[str]:
    return f"{call} {number}{' and all later calls' if stays else ''}{' after half' if short else ''}"
