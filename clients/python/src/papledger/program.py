"""`papcalc run` as a process: lines go in by one pipe, and their answers come by another."""
from __future__ import annotations

import os
import shutil
import subprocess
import tempfile
import threading
from typing import IO, Iterator, Optional, cast

from .errors import ProgramFailed
from .script import LAST, LONGEST_SCRIPT, asks

PIECE = 1 << 20
STATUSES = {3: "a file can't be read", 4: "its input can't be read", 5: "its output can't be written", 6: "out of memory",
            7: "the script is too long"}


def find_program(name: Optional[str]) -> str:
    """The file of the program: what is said, else what PAPCALC says in the environment, else `papcalc` on the path."""
    wanted = name or os.environ.get("PAPCALC") or "papcalc"
    found = shutil.which(wanted)
    if found is None:
        raise ProgramFailed(f"there is no program {wanted}; install papcalc, or name it by --program or by PAPCALC in the environment")
    return os.path.abspath(found)


class Program:
    """A process that carries out lines, one after another. After an error it is of no further use."""

    def __init__(self, path: str, folder: str) -> None:
        self.sent = 0
        self._said: IO[bytes] = tempfile.TemporaryFile()
        try:
            self._process = subprocess.Popen([path, "run"], cwd=folder, stdin=subprocess.PIPE, stdout=subprocess.PIPE, stderr=self._said,
                                             bufsize=PIECE)
        except OSError as fault:
            self._said.close()
            raise ProgramFailed(f"{path} can't be started: {fault.strerror}") from fault
        self._lines = cast(IO[bytes], self._process.stdin)
        self._answers = cast(IO[bytes], self._process.stdout)

    def has_room(self, line: bytes) -> bool:
        """Whether the line still fits into the one script that a process reads."""
        return self.sent + len(line) <= LONGEST_SCRIPT

    def ask(self, line: bytes) -> bytes:
        """Sends a line, and gives the lines of its answer."""
        try:
            self._lines.write(line)
            self._lines.flush()
        except OSError as fault:
            raise self._ended() from fault
        self.sent += len(line)
        return self._answer(line)

    def ask_all(self, script: bytes) -> Iterator[tuple[int, bytes, bytes]]:
        """Sends the lines of a script while it reads their answers, and gives each line that is answered: its number from 1, itself and
        its answer."""
        self.sent += len(script)
        writer = threading.Thread(target=self._send, args=(script,), daemon=True)
        writer.start()
        for number, text in enumerate(script.split(b"\n"), 1):
            if asks(text):
                line = text + b"\n"
                yield number, line, self._answer(line)
        writer.join()

    def _send(self, script: bytes) -> None:
        try:
            rest = memoryview(script)
            while rest:
                self._lines.write(rest[:PIECE])
                rest = rest[PIECE:]
            self._lines.flush()
        except (OSError, ValueError):
            # The program has ended, which the reader of its answers sees; or it was thrown away.
            return

    def _answer(self, line: bytes) -> bytes:
        first = self._answers.readline()
        last = LAST.get(line.split(None, 1)[0])
        lines = [first]
        if last and not first.startswith(b"refused "):
            while lines[-1] and not lines[-1].startswith(last):
                lines.append(self._answers.readline())
        if not lines[-1].endswith(b"\n"):
            raise self._ended()
        return b"".join(lines) if len(lines) > 1 else first

    def _ended(self) -> ProgramFailed:
        """The error that tells how the program ended. It has let go of its pipes, so it ends at once."""
        try:
            self._process.wait(timeout=10)
        except subprocess.TimeoutExpired:
            self.stop()
        status = self._process.returncode
        cause = f"was ended by signal {-status}" if status < 0 else f"ended with status {status} ({STATUSES.get(status, 'before its time')})"
        said = self.said()
        return ProgramFailed(f"papcalc {cause}" + (f"; it said: {said}" if said else ""))

    def said(self) -> str:
        """What stands on standard error, as one text."""
        self._said.seek(0)
        return self._said.read().decode("utf-8", "replace").strip()

    def stop(self) -> None:
        """Ends the process, whatever it is doing. Nothing is lost: what it holds is made anew from the journal."""
        if self._process.poll() is None:
            self._process.kill()
        self._process.wait()

    def close(self) -> None:
        """Ends the process and lets go of its pipes."""
        self.stop()
        for stream in (self._lines, self._answers, self._said):
            try:
                stream.close()
            except OSError:
                pass


def explain(path: str, folder: str, before: bytes, line: bytes) -> str:
    """What papcalc says on standard error of a line that it refuses behind these others, without the line's number."""
    done = subprocess.run([path, "run"], cwd=folder, input=before + line, stdout=subprocess.DEVNULL, stderr=subprocess.PIPE, check=False,
                          env={**os.environ, "PAPCALC_MESSAGES": "words"})
    number = before.count(b"\n") + 1
    mark = f"stdin:{number}: "
    said = done.stderr.decode("utf-8", "replace").splitlines()
    return "\n".join(text[len(mark):] for text in said if text.startswith(mark))
