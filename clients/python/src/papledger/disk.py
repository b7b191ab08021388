"""The calls of the operating system that change a year's folder. They stand in one module, so that a test can make each of them fail.

A file is whole under its name or isn't there: it is written under another name, brought to the disk, and renamed."""
from __future__ import annotations

import errno
import os



def open_file(path: str, is_new: bool = False, read_only: bool = False) -> int:
    """Opens a file, and makes it where it isn't there and may be new."""
    how = os.O_RDONLY if read_only else os.O_RDWR
    return os.open(path, how | os.O_CLOEXEC | (os.O_CREAT if is_new else 0), 0o666)


def write_at(handle: int, data: bytes, offset: int) -> None:
    """Writes all of `data` from this byte of the file on."""
    rest = memoryview(data)
    while rest:
        count = os.pwrite(handle, rest, offset)
        if count == 0:
            raise OSError(errno.EIO, "nothing was written")
        rest, offset = rest[count:], offset + count


def sync(handle: int) -> None:
    """Returns when what was written to the file is on the disk."""
    os.fsync(handle)


def cut(handle: int, size: int) -> None:
    """Takes away what stands behind this byte, and brings that to the disk."""
    os.ftruncate(handle, size)
    os.fsync(handle)


def sync_folder(folder: str) -> None:
    """Brings the names in a folder to the disk."""
    handle = os.open(folder, os.O_RDONLY | os.O_DIRECTORY | os.O_CLOEXEC)
    try:
        os.fsync(handle)
    finally:
        os.close(handle)


def make_folder(folder: str) -> None:
    """Makes a folder where there is none, and brings its name to the disk."""
    try:
        os.mkdir(folder)
    except FileExistsError:
        return
    sync_folder(os.path.dirname(folder))


def put_file(path: str, content: bytes) -> None:
    """Puts a whole file under this name and brings it to the disk; after an error or a crash the name has what it had before."""
    draft = f"{path}.{os.getpid()}.new"
    handle = os.open(draft, os.O_WRONLY | os.O_CREAT | os.O_TRUNC | os.O_CLOEXEC, 0o666)
    try:
        try:
            write_at(handle, content, 0)
            os.fsync(handle)
        finally:
            os.close(handle)
        os.replace(draft, path)
    except BaseException:
        forget(draft)
        raise
    sync_folder(os.path.dirname(path))


def forget(path: str) -> None:
    """Takes a file away where that is possible; what is left of it is taken away at the next opening."""
    try:
        os.unlink(path)
    except OSError:
        pass
