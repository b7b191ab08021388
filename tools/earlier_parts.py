"""A table that is split as an earlier one was: what of the earlier parts still holds."""
import collections
import os
import re
import shutil

import parts
from parts import MOST_TOLD, PartsFault

KEPT = re.compile(rf"(part-[0-9]+)\.(?:edits|report|filed-{parts.MONTH.pattern})")


class Earlier:
    """The folder of an earlier split: its manifests, and each part's edits and results by the part's name."""

    def __init__(self, path):
        self.folder = path if os.path.isdir(path) else os.path.dirname(path) or "."
        try:
            self.manifests = parts.read_manifests(self.folder)
        except PartsFault as fault:
            raise PartsFault(*(f"{self.folder}: {line}" for line in str(fault).splitlines())) from None
        self.kept = collections.defaultdict(list)
        for name in os.listdir(self.folder):
            if of_part := KEPT.fullmatch(name):
                self.kept[of_part[1]].append(name)

    def take_over(self, folder, manifests):
        """A part that is there as it was gets its edits and results. Gives lines that tell of the others: their numbers, as the array of a
        job names them, and which of them had edits."""
        others, with_edits = [], []
        for old, new in zip(self.manifests, manifests):
            if (old.files, old.program) == (new.files, new.program):
                for name in self.kept[old.name]:
                    copy_or_link(f"{self.folder}/{name}", f"{folder}/{name}")
                continue
            others.append(new.part)
            if f"{old.name}.edits" in self.kept[old.name]:
                with_edits.append(old.name)
        told = [f"{name} is another than in {self.folder}, whose {name}.edits stay there: see which of them still hold" for name in with_edits]
        count = len(manifests) - len(others)
        more = [f"and {len(told) - MOST_TOLD} more"] if len(told) > MOST_TOLD else []
        return [f"{count} as in {self.folder}, others: {ranges_of(others) or 'none'}", *told[:MOST_TOLD], *more]


def copy_or_link(path, copy):
    """Edits are appended to in their file, so they are copied; a result is only ever replaced by another file, so it needs no copy."""
    if not path.endswith(".edits"):
        try:
            os.link(path, copy)
            return
        except OSError:
            pass
    shutil.copyfile(path, copy)


def ranges_of(numbers):
    """Rising numbers, as 1-3,7."""
    ranges = []
    for number in numbers:
        if ranges and number == ranges[-1][1] + 1:
            ranges[-1][1] = number
        else:
            ranges.append([number, number])
    return ",".join(str(first) if first == last else f"{first}-{last}" for first, last in ranges)
