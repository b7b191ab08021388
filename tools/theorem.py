#!/usr/bin/env python3
"""The statements that documents show of the sources: theorem.py [--check], from the top of the repository.

A comment `<!-- source: PATH NAME .. -->` in a page of docs/ stands before a block, which has the definitions of these names as they stand in
crates/PATH, without their comments; of a function it has the head and the contract. The blocks are written anew; with --check nothing is
written, and a block that differs is a fault."""
import glob
import re
import sys

MARKED = re.compile(r"(<!-- source: (\S+) ([^>]*?) -->\n\n)```[^\n]*\n.*?```\n", re.S)


def definition(lines, name):
    """The lines of a definition of specs/, up to the blank line behind it."""
    head = re.compile(rf"(?:abbrev |unfoldable |pub |data |record )+{re.escape(name)}(?=[\s:]|$)")
    start = next((at for at, line in enumerate(lines) if head.match(line)), None)
    if start is None:
        return None
    end = next((at for at in range(start, len(lines)) if not lines[at].strip()), len(lines))
    return lines[start:end]


def contract(lines, name):
    """The lines of a function, up to its body."""
    head = re.compile(rf"\s*pub fn {re.escape(name)}\b")
    start = next((at for at, line in enumerate(lines) if head.match(line)), None)
    if start is None:
        return None
    end = next(at for at in range(start, len(lines)) if lines[at].strip() in ("{", "{}"))
    return lines[start:end]


def block(path, names):
    """The block of these names."""
    lines = open(f"crates/{path}", encoding="utf-8").read().split("\n")
    parts = [(contract if path.endswith(".rt") else definition)(lines, name) for name in names]
    missing = [name for name, part in zip(names, parts) if part is None]
    if missing:
        raise SystemExit(f"theorem: crates/{path} has no {', '.join(missing)}")
    return "```text\n" + "\n\n".join("\n".join(part) for part in parts) + "\n```\n"


def main():
    faults, count = [], 0
    for page in sorted(glob.glob("docs/*.md")):
        text = open(page, encoding="utf-8").read()
        made = MARKED.sub(lambda found: found.group(1) + block(found.group(2), found.group(3).split()), text)
        count += len(MARKED.findall(text))
        if made != text and "--check" in sys.argv:
            faults.append(f"{page} doesn't show what stands in the sources: python3 tools/theorem.py writes it")
        elif made != text:
            open(page, "w", encoding="utf-8").write(made)
    for fault in faults:
        print(f"theorem: {fault}")
    print(f"theorem: {count} statements, {len(faults)} faults")
    return 1 if faults or not count else 0


if __name__ == "__main__":
    sys.exit(main())
