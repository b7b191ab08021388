#!/usr/bin/env python3
"""docs/DEFINITIONS.md and docs/CONTRACTS.md: definitions.py [--check], from the top of the repository.

Both pages are made of what stands in the crates and are never edited by hand. DEFINITIONS has each definition of `crates/*/specs/*.antt` with
the comment above it, by crate and file, and before them the printed words of the answers with the definitions that print them. CONTRACTS has
each public function with the first sentence of its doc comment, and the labels and definitions of its clauses. With --check nothing is
written, and a page that isn't what the sources say is a fault; so is a definition without a comment."""
import glob
import re
import sys

import check_rooms as rooms
from check_index import ANSWERS, TAKEN, printed_of

DEFINED = re.compile(r"(?P<indent>\s*)(?P<marks>(?:abbrev |unfoldable |pub )*)(?:(?P<kind>data|record) (?P<named>[^\s:()]+)|(?P<name>[^\s:(){}]+) :(?=\s|$))")
FUNCTION = re.compile(r"\s*(?P<public>pub )?(?:unsafe |const )*fn (?P<name>\w+)")
CLAUSE = re.compile(r"\b(requires|ensures)\b(?: (\w+))?\s*\{")
CLAUSES = "requires|ensures|ghost|decreases|also_owns|also_shares|captures"
WRITTEN = "This page is made by `tools/definitions.py` of the comments in the sources. Change those, and run it."


def sentence(text):
    """A comment as Markdown: what would be a mark of Markdown outside of code is escaped, and a full stop ends it."""
    parts = text.split("`")
    parts[::2] = [re.sub(r"([<*|\[])", r"\\\1", part) for part in parts[::2]]
    return "`".join(parts) + ("" if text.endswith((".", ":", "?")) else ".")


def shown_number(number):
    """A number as the pages show it: with commas between thousands, and a power as such."""
    return f"{int(number):,}" if number.isdigit() else number.replace(" ", "")


def crates():
    """The crates that are listed, from the lowest on."""
    lines = [line for line in open("crates.txt", encoding="utf-8") if ":" in line and not line.startswith("#")]
    return [line.split(":")[0].strip() for line in lines]


def root_of(crate):
    return glob.glob(f"crates/{crate}/src/lib.rt") + glob.glob(f"crates/{crate}/src/main.rt")


def head_of(path, mark):
    """The first paragraph of the comment at the top of a file, in one line."""
    lines = []
    for line in open(path, encoding="utf-8"):
        if not line.startswith(mark) or not line[len(mark):].strip():
            break
        lines.append(line[len(mark):].strip())
    return " ".join(lines)


class Specs:
    """A file of specs/: its head, its definitions with their comments in the order of the file, and the numbers that some stand for."""

    def __init__(self, path):
        text = open(path, encoding="utf-8").read()
        self.path = path
        self.name = path.split("/")[-1][:-len(".antt")]
        self.head = head_of(path, "--")
        self.definitions = list(self.found(text.split("\n")))
        self.numbers = dict(re.findall(r"^(\w+) = (\d+(?: \^ \d+)?)$", text, re.M))

    @staticmethod
    def found(lines):
        """The definitions: at the top, or in a `module` or a `mutual`, but no field, no constructor and no lemma."""
        blocks, comment = [], []
        for line in lines:
            if line.strip().startswith("--"):
                comment.append(line.strip()[2:].strip())
                continue
            indent = len(line) - len(line.lstrip())
            while line.strip() and blocks and blocks[-1][0] >= indent:
                blocks.pop()
            around = [begun for _, begun in blocks]
            found = DEFINED.match(line)
            if found and all(re.search(r"\b(?:module|mutual)$", begun) for begun in around):
                is_lemma = not (found["kind"] or re.search("abbrev|unfoldable", found["marks"] + " ".join(around)))
                if not is_lemma or "pub" in found["marks"] and comment:
                    yield found["named"] or found["name"], " ".join(comment)
            if line.strip():
                blocks.append((indent, line.split(" _")[0].rstrip()))
            comment = []


def specs_of(crate):
    paths = sorted(glob.glob(f"crates/{crate}/specs/*.antt"))
    files = [Specs(path) for path in paths if path.split("/")[-1] not in ("Lib.antt", "private.antt", "laws.antt")]
    return [file for file in files if file.definitions]


def code_of(crate, file, name):
    """The sources of a crate whose contracts cite a definition, or else those of the nearest definitions of the crate that do."""
    sources = [(path, rooms.imports(open(path, encoding="utf-8").read())) for path in sorted(glob.glob(f"crates/{crate}/src/**/*.rt", recursive=True))]
    files = {rooms.module_of(path): rooms.File(path) for path in sorted(glob.glob(f"crates/{crate}/specs/**/*.antt", recursive=True))}
    citing = {(rooms.module_of(file.path), name)}
    seen = set(citing)
    while citing:
        found = [path for path, brought in sources if citing & set(brought.values())]
        if found:
            return found
        citing = {(module, one) for module, other in files.items() for item in other.definitions for one in item.names
                  if any((other.imports.get(word, (module, word))) in citing for word in item.words)} - seen
        seen |= citing
    return []


def printed_rows():
    """A row for each definition that prints words, with these words and the sources that write them."""
    for crate in ANSWERS:
        for file in specs_of(crate):
            if file.path in TAKEN:
                continue
            text = open(file.path, encoding="utf-8").read()
            for part in rooms.paragraphs(text):
                words = sorted(printed_of("\n".join(line for line in part.split("\n") if not line.strip().startswith("--"))))
                names = [name for name, _ in Specs.found(part.split("\n"))]
                if words and names:
                    comment = dict(file.definitions).get(names[0], "")
                    shown = ", ".join("`" + word.replace("|", "\\|") + "`" for word in words)
                    code = ", ".join(f"[`{path.split('/src/')[1]}`](../{path})" for path in code_of(crate, file, names[0]))
                    yield f"| {shown} | {sentence(comment)} | `{names[0]}` | [`{crate}/specs/{file.name}`](../{file.path}) | {code} |"


def definitions_page(faults):
    """docs/DEFINITIONS.md."""
    yield "# Definitions\n"
    yield f"{WRITTEN} [READING.md](READING.md) says how a definition is read, and where to begin.\n"
    yield ("What a reader has to believe: each definition that the contract of a public item cites, directly or through another one. A name "
           "stands with the comment above it. Whole numbers are unbounded in all of them. Where the head of a file names no source, the "
           "definitions are this project's own.\n")
    yield "## Crates\n\nFrom the lowest on.\n\n| crate | what it is |\n|---|---|"
    listed = [(crate, specs_of(crate)) for crate in crates()]
    for crate, files in listed:
        shown = f"[`{crate}`](#{crate})" if files else f"`{crate}`"
        yield f"| {shown} | {sentence(head_of(root_of(crate)[0], '//!'))} |"
    yield "\n## Printed words\n"
    yield ("Each text that an answer prints, with the definition that says so and the sources in the crate's `src/` that write it. "
           "[PROFILE.md](PROFILE.md) says when each comes, and [GLOSSARY.md](GLOSSARY.md#refusals) where that is defined and found.\n")
    yield "| printed | is | definition | file | code |\n|---|---|---|---|---|"
    yield from printed_rows()
    for crate, files in listed:
        if files:
            yield f"\n## {crate}\n"
            yield sentence(head_of(root_of(crate)[0], "//!"))
        for file in files:
            yield f"\n### [{crate}/specs/{file.name}](../{file.path})\n\n{sentence(file.head)}\n"
            for name, comment in file.definitions:
                if not comment:
                    faults.append(f"{file.path}: {name} has no comment")
                number = f" ({shown_number(file.numbers[name])})" if name in file.numbers else ""
                yield f"- `{name}`{number}: {sentence(comment)}"


def parameters(signature):
    """The names of a function's parameters, and what it returns."""
    flat = " ".join(signature.split())
    depth, inside, end = 0, "", len(flat)
    start = flat.index("(", re.search(r"fn \w+(?:<(?:[^<>]|<[^<>]*>)*>)?", flat).end())
    for place in range(start, len(flat)):
        depth += {"(": 1, "<": 1, "[": 1, ")": -1, "]": -1, ">": -(flat[place - 1] != "-")}.get(flat[place], 0)
        if not depth:
            end = place
            break
    depth = 0
    for sign in flat[start + 1:end]:
        depth += {"(": 1, "<": 1, "[": 1, ")": -1, "]": -1, ">": -1}.get(sign, 0)
        inside += "\0" if sign == "," and not depth else sign
    names = [part.split(":")[0].strip().lstrip("&").replace("mut ", "") for part in inside.split("\0") if part.strip()]
    result = re.search(r"->\s*(.*)$", flat[end:])
    return ", ".join(names), result.group(1).strip() if result else ""


def clauses_of(contract, brought):
    """The clauses of a contract: the label of each, and the names that it cites of those that were brought in from the project's specs."""
    for found in CLAUSE.finditer(contract):
        stop = rooms.closed(contract, found.end() - 1)
        used = rooms.words(contract[found.end():stop - 1])
        names = sorted(name for name, (module, _) in brought.items() if not module.startswith("std.") and rooms.is_named(name, used))
        label = ("needs " if found.group(1) == "requires" else "") + (found.group(2) or "")
        yield " ".join(filter(None, [label.strip(), f"({', '.join(f'`{name}`' for name in names)})" if names else ""]))


def functions_of(crate):
    """Each public function of a crate: its name behind that of its type or trait, its parameters, its result, its comment and its clauses."""
    exported = rooms.exported(crate)
    for path in sorted(glob.glob(f"crates/{crate}/src/**/*.rt", recursive=True)):
        text = open(path, encoding="utf-8").read()
        lines, brought = text.split("\n"), rooms.imports(text)
        owner, is_trait, doc = None, False, []
        for at, line in enumerate(lines):
            block = re.match(r"(?:pub )?(impl|trait)\b.*\{$", line)
            if block:
                is_trait = block.group(1) == "trait"
                owner = re.search(r"trait (\w+)", line).group(1) if is_trait else rooms.type_of(line)[1]
            elif line.startswith("}"):
                owner, is_trait = None, False
            found = FUNCTION.match(line)
            if found and (found["public"] or is_trait) and (owner or found["name"]) in exported:
                contract = rooms.contract(rooms.bare("\n".join(lines[at:])), 0)
                signature = re.split(rf"\b(?:{CLAUSES})\b|where ", contract)[0]
                name = f"{owner}::{found['name']}" if owner else found["name"]
                yield name, *parameters(signature), " ".join(doc), list(clauses_of(contract, brought))
            if line.strip().startswith("///"):
                doc.append(line.strip()[3:].strip())
            elif not line.strip().startswith("#["):
                doc = []


def first_sentence(doc):
    return re.split(r"(?<=[a-z0-9`)\]])\. (?=[A-Z`])", doc.split("  ")[0])[0].rstrip(".") + "." if doc else ""


def contracts_page(faults):
    """docs/CONTRACTS.md."""
    yield "# Contracts\n"
    yield f"{WRITTEN}\n"
    yield ("Each public function with its first sentence, and the clauses of its contract: the label of a clause, if it has one, and the "
           "definitions that it cites ([DEFINITIONS.md](DEFINITIONS.md)). `needs` stands before what a caller has to show; all else is what "
           "the function promises. Each of them ends, and none panics.\n")
    for crate in crates():
        rows = list(functions_of(crate))
        if not rows or not glob.glob(f"crates/{crate}/src/lib.rt"):
            continue
        yield f"## {crate}\n\n{sentence(head_of(f'crates/{crate}/src/lib.rt', '//!'))}\n"
        for name, names, result, doc, clauses in rows:
            if not doc:
                faults.append(f"crates/{crate}: {name} has no doc comment")
            arrow = f" -> {result}" if result else ""
            shown = re.sub(r"\[(`[^`]+`)\](?:\([^)]*\))?", r"\1", first_sentence(doc))
            yield f"- `{name}({names}){arrow}`: {sentence(shown)} Clauses: {'; '.join(filter(None, clauses)) or 'one without a name'}."
        yield ""


def main():
    faults, listed = [], []
    for path, page in [("docs/DEFINITIONS.md", definitions_page), ("docs/CONTRACTS.md", contracts_page)]:
        text = "\n".join(page(faults)).rstrip("\n") + "\n"
        listed.append(len(re.findall(r"^- `", text, re.M)))
        if "--check" not in sys.argv:
            open(path, "w", encoding="utf-8").write(text)
        elif not glob.glob(path) or open(path, encoding="utf-8").read() != text:
            faults.append(f"{path} isn't what the sources say: python3 tools/definitions.py writes it")
    for fault in faults:
        print(f"definitions: {fault}")
    print(f"definitions: {listed[0]} definitions and {listed[1]} functions are listed, {len(faults)} faults")
    return 1 if faults else 0


if __name__ == "__main__":
    sys.exit(main())
