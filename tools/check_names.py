#!/usr/bin/env python3
"""One word, one thing: check_names.py, from the top of the repository.

No name of a definition of specs/ stands in a second file there, but for those of MAY, where both mean the same of another thing. The constructors of a `data` and the fields of a
record are read with their type and aren't asked; nor are specs/private/ and specs/laws/, which no public contract reaches."""
import glob
import re
import sys
from collections import defaultdict

DEFINED = re.compile(r"^\s*(?:unfoldable )?(?:abbrev pub|pub record|pub data) (\S+)", re.M)

# Why a name may stand in several files.
MAY = {
    "two programs make the same promises of their own words and objects":
        "Carries Form HasForm HaveOneForm Headline IsBad Leaves Outside outside_of texts",
    "how a program ends, or what it says of a refusal, each in its own way":
        "Answer IsAnswered stop_of stop_of_file words_of",
    "the same is said of another text":
        "Earns HasOneAnswer IsAccepted IsFaultOrMemory IsFirstFault IsReadable IsToken Token fault_text place_text",
    "of the bytes of a text, and of its tokens":
        "begins_number begins_point sign_text signed",
    "of the elements that are read, and of the tree":
        "declared_as kind_of methods_nesting methods_written",
    "of decimals, and of intervals":
        "greater_scale",
    "of one year, and of all":
        "edit_cost replan_cost",
    "of the slots of inputs, and of their flowchart":
        "ReadsNothing",
    "of code, and that there is code":
        "body_code",
}


def names():
    """Each name of a definition of specs/, with the files in which it stands."""
    found = defaultdict(set)
    for path in sorted(glob.glob("crates/*/specs/**/*.antt", recursive=True)):
        if not re.search("/specs/(?:private|laws)/", path):
            for name in DEFINED.findall(open(path, encoding="utf-8").read()):
                found[name].add(path)
    return found


def main():
    found = names()
    listed = sum((line.split() for line in MAY.values()), [])
    faults = [f"{name} is listed twice" for name in sorted({name for name in listed if listed.count(name) > 1})]
    faults += [f"{name} stands in {' and '.join(sorted(found[name]))}" for name in sorted(found) if len(found[name]) > 1 and name not in listed]
    faults += [f"{name} stands in one file alone: take it off the list" for name in sorted(set(listed)) if len(found[name]) < 2]
    for fault in faults:
        print(f"check_names: {fault}")
    print(f"check_names: {len(found)} names, {len(listed)} of them in several files, {len(faults)} faults")
    return 1 if faults or not found else 0


if __name__ == "__main__":
    sys.exit(main())
