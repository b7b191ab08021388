"""A power cut: a stand-in for the module `os` in `papledger.disk` that knows what was brought to the disk.

Of a file only the content of its last fsync is sure to be there afterwards, and of a folder only the names of its last fsync. Of all that
came later, each name and a piece of each file may be there or not; which, is drawn."""
from __future__ import annotations

import os
import random
import stat
from pathlib import Path
from typing import Any, Optional


class PowerCut(BaseException):
    """No call comes through any more."""


class Node:
    """A file: its path now, and its content at the last fsync."""

    def __init__(self, path: str) -> None:
        self.path = path
        self.durable = b""


class LossyOs:
    """`os`, which ends at the n-th call that changes something below a folder."""

    def __init__(self, folder: str, number: int) -> None:
        self._root = os.path.abspath(folder)
        self._left = number
        self._handles: dict[int, str] = {}
        self._nodes: dict[str, Node] = {}
        # The names that a power cut leaves, with their files; None is a folder.
        self._durable: dict[str, Optional[Node]] = {}
        self._content: dict[Node, bytes] = {}
        for name in os.listdir(folder) if os.path.isdir(folder) else []:
            raise AssertionError(f"{name}: the folder has to be new")

    def __getattr__(self, name: str) -> Any:
        return getattr(os, name)

    def _step(self) -> None:
        self._left -= 1
        if self._left < 0:
            self.freeze()
            raise PowerCut

    @property
    def is_cut(self) -> bool:
        return self._left < 0

    def freeze(self) -> None:
        """Keeps what the files have now: what might be there after the cut."""
        if not self._content:
            self._content = {node: Path(path).read_bytes() for path, node in self._nodes.items() if os.path.exists(path)}
            self._now = {path: self._nodes.get(path) for path in self._paths()}

    def _paths(self) -> list[str]:
        return [os.path.join(at, name) for at, folders, files in os.walk(self._root) for name in [*folders, *files]]

    def _is_below(self, path: str) -> bool:
        return os.path.commonpath([path, self._root]) == self._root

    def open(self, path: str, flags: int, mode: int = 0o777) -> int:
        self._step()
        handle = os.open(path, flags, mode)
        path = os.path.abspath(path)
        self._handles[handle] = path
        if not os.path.isdir(path) and self._is_below(path):
            if path not in self._nodes or flags & os.O_TRUNC:
                self._nodes[path] = Node(path)
        return handle

    def close(self, handle: int) -> None:
        self._handles.pop(handle, None)
        os.close(handle)

    def pwrite(self, handle: int, data: bytes, offset: int) -> int:
        self._step()
        return os.pwrite(handle, data, offset)

    def ftruncate(self, handle: int, size: int) -> None:
        self._step()
        os.ftruncate(handle, size)

    def fsync(self, handle: int) -> None:
        self._step()
        path = self._handles[handle]
        if stat.S_ISDIR(os.fstat(handle).st_mode):
            for name in [name for name in self._durable if os.path.dirname(name) == path]:
                del self._durable[name]
            for name in os.listdir(path) if self._is_below(path) else []:
                child = os.path.join(path, name)
                self._durable[child] = self._nodes.get(child)
        elif path in self._nodes:
            self._nodes[path].durable = Path(path).read_bytes()

    def replace(self, source: str, target: str) -> None:
        self._step()
        os.replace(source, target)
        node = self._nodes.pop(os.path.abspath(source))
        self._nodes[os.path.abspath(target)] = node

    def mkdir(self, path: str) -> None:
        self._step()
        os.mkdir(path)

    def unlink(self, path: str) -> None:
        self._step()
        os.unlink(path)
        self._nodes.pop(os.path.abspath(path), None)

    def leave(self, folder: str, rng: random.Random) -> None:
        """Makes the folder as a power cut leaves it."""
        names = dict(self._durable)
        for path in self._now.keys() | self._durable.keys():
            if rng.random() < 0.5 and self._now.get(path, 0) is not self._durable.get(path, 0):
                if path in self._now:
                    names[path] = self._now[path]
                else:
                    del names[path]
        os.mkdir(folder)
        for path in sorted(names):
            target = os.path.join(folder, os.path.relpath(path, self._root))
            node = names[path]
            if not os.path.isdir(os.path.dirname(target)):
                continue
            if node is None:
                os.mkdir(target)
            else:
                Path(target).write_bytes(self._drawn(node, rng))

    def _drawn(self, node: Node, rng: random.Random) -> bytes:
        """The content at the last fsync, or what may have come to the disk since."""
        now, sure = self._content.get(node, node.durable), node.durable
        if rng.random() < 0.3:
            return sure
        if now.startswith(sure) and rng.random() < 0.7:
            return now[:rng.randint(len(sure), len(now))]
        if now.startswith(sure) and rng.random() < 0.5:
            return sure + b"\0" * (len(now) - len(sure))
        return now
