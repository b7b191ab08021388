"""A run as a page: the drawing of its flowchart with the way that the run took, by the companion program `pap_author`."""
from __future__ import annotations

import os
import shutil
import subprocess
from decimal import Decimal
from typing import Mapping, Sequence

from .answers import Row
from .book import Flowchart
from .copies import read_named
from .errors import LedgerError, Misuse, ProgramFailed
from .year import Year, plain


def page_of(year: Year, employee: str, when: str) -> bytes:
    """The page of a run of the year."""
    day = year.day(employee, when)
    flowchart = year.flowchart(day)
    if flowchart is None or flowchart.plan is None or flowchart.limits is None:
        raise Misuse(f"no flowchart is drawn for {day}: " + ("none holds there" if flowchart is None else
                     "the one that holds came with a saved book, so its file isn't there; put it by a line `plan` first"))
    plan, limits = (os.path.join(year.folder, name) for name in (flowchart.plan, flowchart.limits))
    values = {**year.values(employee, day), **carried(limits, employee, day, year)}
    return drawn([plan, limits, *(f"{name}={value}" for name, value in values.items())])


def drawn(words: Sequence[str]) -> bytes:
    """What `pap_author trace` writes."""
    program = shutil.which(os.environ.get("PAP_AUTHOR") or "pap_author")
    if program is None:
        raise ProgramFailed("there is no program pap_author, which draws the page; install it (make author, make install), or name it by "
                            "PAP_AUTHOR in the environment")
    done = subprocess.run([program, "trace", *words], stdout=subprocess.PIPE, stderr=subprocess.PIPE, check=False)
    if done.returncode != 0:
        said = done.stderr.decode("utf-8", "replace").strip() or done.stdout.decode("utf-8", "replace").strip()
        old = "; this pap_author has no word `trace`: a newer one is needed" if done.returncode == 2 else ""
        raise ProgramFailed(f"pap_author trace ended with status {done.returncode}{old}" + (f": {said}" if said else ""))
    return done.stdout


def carried(limits: str, employee: str, day: str, year: Year) -> Mapping[str, str]:
    """The values of the inputs that the range file takes from the employee's earlier runs of the year."""
    binds = binds_of(read_named(limits).decode("utf-8-sig"))
    if not binds:
        return {}
    earlier = [row for row in year.report() if row.employee == employee and row.day[:4] == day[:4] and row.day < day]
    return {name: plain(carried_value(kind, output, earlier)) for name, (kind, output) in binds.items()}


def carried_value(kind: str, output: str, earlier: Sequence[Row]) -> Decimal:
    values = [row.value for row in earlier if row.name == output and row.value is not None]
    if kind == "count":
        return Decimal(len({row.day for row in earlier}))
    if kind == "sum":
        return sum(values, Decimal(0))
    return values[-1] if values else Decimal(0)


def binds_of(limits: str) -> Mapping[str, tuple[str, str]]:
    """The inputs that a range file binds, with the kind and the output of each."""
    if "bind" not in limits:
        return {}
    try:
        import tomllib
    except ImportError as fault:
        raise LedgerError("the range file binds inputs to earlier runs; to read that, --page needs Python 3.11 or later") from fault
    return {name: (bind["kind"], bind.get("output", "")) for name, bind in tomllib.loads(limits).get("bind", {}).items()}
