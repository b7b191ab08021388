#!/usr/bin/env python3
"""The ways from a word to its definition and its code: check_index.py, from the top of the repository.

In the index of printed words at the head of docs/DEFINITIONS.md each text that the definitions of answers print (`codes ".."` in the specs/
of these crates) has a row; each row's words are printed by its definition, which stands in its file. In the tables of docs/GLOSSARY.md each
file and folder that is named is there, and each name of a row with such a place stands in one of these."""
import glob
import os
import re
import sys

ANSWERS = ["plan_answers", "script_steps", "script_run", "report_csv", "open_runs", "pap_cli", "saved_items", "book_file", "what_if",
           "run_trace", "coverage_text", "coverage_page", "failing_input", "flowchart_findings", "flowchart_comparison", "comparison_page", "author_cli"]
# What these files say is what a program takes, the files and the script of a sample, or the markup of a page, and not a printed line.
TAKEN = [f"crates/{file}.antt" for file in
         ["pap_cli/specs/Words", "author_cli/specs/Words", "script_run/specs/SampleFiles", "script_run/specs/Samples",
          "run_trace/specs/RunPages", "run_trace/specs/RunMarks", "author_cli/specs/Drawn"]]
PRINTED = re.compile(r'codes "([^"]*)"')


def printed_of(text):
    """The texts that a part of a definition prints, without blanks and line ends round them, and but for mere signs between others."""
    words = {word.replace(r"\n", "").strip() for word in PRINTED.findall(text)}
    return {word for word in words if word == "-" or re.search(r"\w", word)}


def definition_in(text, name):
    """All lines of the definition of this name: its type, and its cases."""
    return "\n".join(re.findall(rf"^(?:abbrev |pub |data |record )*{re.escape(name)}(?=\s|$).*(?:\n[ \t]+\S.*)*", text, re.M))


def rows():
    text = open("docs/DEFINITIONS.md", encoding="utf-8").read()
    section = text[text.index("## Printed words"):]
    section = section[:section.index("\n## ", 3)]
    for line in section.splitlines():
        cells = [cell.strip() for cell in re.split(r"(?<!\\)\|", line)[1:-1]]
        if len(cells) >= 4 and cells[0].startswith("`"):
            words, names = ([span.replace("\\|", "|") for span in re.findall(r"`([^`]*)`", cell)] for cell in (cells[0], cells[2]))
            yield words, names, re.search(r"`([^`]*)`", cells[3]).group(1)


def sources_of(place):
    """The sources that a place of the glossary names: a crate, a folder of it, or a file with its ending or without."""
    if not re.fullmatch(r"[a-z_]+(?:/(?:specs|src)(?:/[\w.]+)*)?", place):
        return None
    at = f"crates/{place}"
    found = [path for path in (at, at + ".antt", at + ".rt") if os.path.isfile(path)]
    for path in glob.glob(at + "/**/*", recursive=True) if os.path.isdir(at) else []:
        if re.search(r"/(?:specs|src)/.*\.(?:antt|rt)$", path):
            found.append(path)
    return found if found or "/" in place else None


def glossary():
    """The faults of the glossary's tables of refusals and of the field's words."""
    text = open("docs/GLOSSARY.md", encoding="utf-8").read()
    for line in "".join(re.findall(r"^## (?:Refusals|The field's words)\n(.*?)(?=^## |\Z)", text, re.M | re.S)).splitlines():
        cells = [cell.strip() for cell in line.strip("|").split("|")]
        if len(cells) != 3 or set(cells[0]) <= {"-"}:
            continue
        folder, named, places = None, [], []
        for span in [span for cell in cells[1:] for span in re.findall(r"`([^`]+)`", cell)]:
            beside = f"{folder}/{span}"
            place = beside if folder and sources_of(beside) else span
            found = sources_of(place)
            if found is None:
                named.append(span)
            elif not found:
                yield f"GLOSSARY names {span}, which isn't there"
            else:
                places += found
                folder = place.rpartition("/")[0]
        words = {word for path in places for word in re.findall(r"[\w-]+", open(path, encoding="utf-8").read())}
        if places:
            yield from (f"{name} isn't where GLOSSARY says" for name in named if re.fullmatch(r"\w+", name) and name not in words)


def main():
    wrong, indexed = [], set()
    for words, names, path in rows():
        files = glob.glob(f"crates/{path}.antt")
        if not files:
            wrong.append(f"there is no file {path}")
            continue
        text = open(files[0], encoding="utf-8").read()
        printed = printed_of("\n".join(definition_in(text, name) for name in names))
        wrong += [f"{word} isn't printed by {' or '.join(names)} of {path}" for word in words if word not in printed]
        indexed |= {(path, word) for word in words}
    for path in (path for crate in ANSWERS for path in glob.glob(f"crates/{crate}/specs/*.antt") if path not in TAKEN):
        place = path[len("crates/"):-len(".antt")]
        for word in printed_of(open(path, encoding="utf-8").read()):
            if (place, word) not in indexed:
                wrong.append(f"{word} of {place} has no row")
    wrong += glossary()
    for line in sorted(wrong):
        print(f"check_index: {line}")
    print(f"check_index: {len(indexed)} printed words are indexed, {len(wrong)} faults")
    return 1 if wrong else 0


if __name__ == "__main__":
    sys.exit(main())
