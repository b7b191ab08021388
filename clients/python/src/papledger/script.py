"""What papledger knows of the lines of a script: which of them change a book, which name files, and where their answers end."""
from __future__ import annotations

import re
from typing import NamedTuple, Sequence

from .errors import Misuse

# A line of this word changes the book or what was filed: it stands in the journal once it was accepted.
KEPT = frozenset({"plan", "drop", "add", "change", "withdraw", "load", "open", "file"})
# How the last line of an answer of several lines begins. Each other line is answered by one line.
LAST = {b"report": b"end\n", b"trace": b"end\n", b"owed": b"end\n", b"file": b"filed ", b"try": b"would "}
# Without the line end.
LONGEST_LINE = 65_536
LONGEST_SCRIPT = 67_108_864


class FileWords(NamedTuple):
    """Which words of a line are names of files, and the folder that takes their copies."""

    words: int
    places: tuple[int, ...]
    folder: str


FILES = {
    "plan": FileWords(4, (2, 3), "flowcharts"),
    "try": FileWords(4, (2, 3), "flowcharts"),
    "load": FileWords(2, (1,), "tables"),
    "open": FileWords(2, (1,), "tables"),
}


def files_of(words: Sequence[str]) -> tuple[int, ...]:
    """The places of the words that are names of files. A line with too many or too few words is refused before its files are read."""
    named = FILES.get(words[0])
    return named.places if named and named.words == len(words) else ()


def line_of(words: Sequence[str]) -> bytes:
    """The line of these words, with its line end."""
    for word in words:
        if not word or re.search(r"[ \t\r\n]", word):
            raise Misuse(f"{word!r} can't be a word of a line: a word isn't empty, and has no blank and no line end")
    if words[0].startswith("#"):
        raise Misuse("a comment isn't a line that can be answered")
    return " ".join(words).encode("utf-8", "surrogateescape") + b"\n"


def words_of(line: str) -> list[str]:
    """The words of a line; none where it is empty or a comment."""
    words = [word for word in re.split(r"[ \t]+", line.rstrip("\r\n")) if word]
    return [] if words and words[0].startswith("#") else words


def asks(line: bytes) -> bool:
    """Whether papcalc answers the line: it isn't empty, and isn't a comment."""
    text = line.strip(b" \t\r\n")
    return bool(text) and not text.startswith(b"#")
