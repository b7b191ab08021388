#!/usr/bin/env python3
"""What has to be believed is seen from the path: check_rooms.py [--list], from the top of the repository.

A definition that the contract of a public item cites, directly or through another definition, stands in specs/; one that only private
contracts cite stands in specs/private/. Lemmas that a trait's laws force into specs/ stand in specs/laws/, of which no contract's meaning
depends. A public item is a function, a trait, or a type with its model, its invariant and its ghost fields, that a crate's root exports; the
`main` of a program is one too. A lemma that stands beside a definition, whose body it has to see, isn't a definition. With --list each file of specs/ stands with the definitions in it that no public contract reaches."""
import glob
import re
import sys
from collections import defaultdict

USE = re.compile(r"^\s*(?:pub |ghost )*use Rattle\.([\w.]+?)(?:\.\{([^}]*)\})?(?: as (\w+))?;?\s*$", re.M)
WORD = re.compile(r"[^\s(){}\[\],;.]+")
HEAD = re.compile(r"^\s*(?:abbrev |unfoldable |pub |data |record )*([^\s:()=|]+)(?=\s|$)")
ITEM = re.compile(r"^\s*pub (?:unsafe |const )*(fn|struct|enum|trait|type|const) (\w+)", re.M)


def words(text):
    """The words of a text of specs, without its comments and the content of its texts."""
    return set(WORD.findall(re.sub(r"(?:--|//).*", "", re.sub(r'"[^"\n]*"', '""', text))))


def imports(text):
    """The names that a file brings in, each with the module that it comes from and its name there."""
    found = {}
    for module, names, alias in USE.findall(text):
        if alias:
            found[alias] = (module, None)
        for name in filter(None, (name.strip() for name in names.split(","))):
            there, _, here = name.partition(" as ")
            found[here or there] = (module, there)
    return found


def is_named(name, used):
    """Whether a name stands among words; an operator is named by its parts."""
    parts = [part for part in re.split("◌", name) if part]
    return bool(parts) and all(part in used for part in parts)


class Definition:
    """A paragraph of a file of specs/, or a `module` or `mutual` block of several: its comment and its lines, and the names that it brings."""

    def __init__(self, text):
        self.text = text
        lines = [line for line in text.split("\n") if line.strip() and not line.strip().startswith("--")]
        is_module, is_data = (any(re.match(rf"(?:pub )?{kind}\b", line) for line in lines) for kind in ("(?:module|mutual)", "data"))
        heads = [line for line in lines if is_module or not line[0].isspace()]
        self.names = {found.group(1) for line in heads if (found := HEAD.match(line))} - {"module", "mod", "mutual", "unfolding", "}"}
        if is_data:
            self.names |= {found.group(1) for line in lines if (found := re.match(r"\s+(?:pub )?([^\s:()]+) :", line))}
        self.is_lemma = bool(lines) and not is_module and not re.match(r"(?:pub |unfoldable )*(?:abbrev|record|data)\b|unfoldable", lines[0])
        self.words = words(text)


def paragraphs(body):
    """The paragraphs of a file, those inside a `module` as one."""
    found = []
    for part in filter(str.strip, re.split(r"\n{2,}", body.strip("\n"))):
        if found and part[0].isspace():
            found[-1] += "\n\n" + part
        else:
            found.append(part)
    return found


class File:
    """A file of specs/: its head, what it brings in, and its definitions."""

    def __init__(self, path):
        self.path = path
        text = open(path, encoding="utf-8").read()
        self.imports = imports(text)
        body = "\n".join(line for line in text.split("\n") if not re.match(r"(?:pub )?use ", line))
        self.definitions = [item for item in map(Definition, paragraphs(body)) if item.names and not item.is_lemma]

    def of(self, name):
        return next((item for item in self.definitions if name in item.names), None)


def module_of(path):
    crate, rest = re.match(r"crates/(\w+)/(specs/.*)\.antt$", path).groups()
    return f"{crate}.{rest.replace('/', '.')}"


def closed(text, at):
    """The place behind the brace that closes the one at a place."""
    depth = 0
    for place in range(at, len(text)):
        depth += {"{": 1, "}": -1}.get(text[place], 0)
        if not depth:
            return place + 1
    return len(text)


def bare(text):
    """A source without comments and the content of its string literals."""
    text = re.sub(r'"(?:\\.|[^"\\])*"', lambda found: '"' + " " * (len(found.group(0)) - 2) + '"', text)
    return re.sub(r"//[^\n]*", "", re.sub(r"'(?:\\.|[^'\\])'", "' '", text))


def contract(text, at):
    """What stands between a function's name and its body, its clauses among it."""
    place = at
    while place < len(text):
        found = re.compile(r"\b(requires|ensures|ghost|decreases|also_owns|also_shares|captures)\b|[{;]").search(text, place)
        if not found:
            return text[at:]
        if found.group(0) in "{;":
            return text[at:found.start()]
        brace = text.index("{", found.end())
        place = closed(text, brace)
    return text[at:]


def blocks(text):
    """The blocks of a source at its top: the line that begins each, its place and its end."""
    for found in re.finditer(r"^(?:pub(?:\([a-z]+\))? )?(?:unsafe )?(impl|trait|struct|enum|fn|mod)\b[^\n]*", text, re.M):
        if found.group(1) == "fn":
            yield "fn", found.group(0), found.start(), found.end(), len(text)
            continue
        brace, stop = text.find("{", found.start()), text.find(";", found.start())
        if brace >= 0 and (stop < 0 or brace < stop):
            yield found.group(1), found.group(0), found.start(), brace, closed(text, brace)


def type_of(head):
    """The type of an `impl` block, and its trait if it has one."""
    words_ = re.sub(r"<[^<>]*>", "", re.sub(r"<[^<>]*>", "", head))
    found = re.match(r"(?:unsafe )?impl\s*(?:(\S+) for )?([&\w:]+)", words_)
    return (found.group(1), found.group(2).lstrip("&")) if found else (None, "")


def exported(crate):
    """The names that a crate's root exports."""
    roots = glob.glob(f"crates/{crate}/src/lib.rt")
    if not roots:
        return {"main"}
    text = bare(open(roots[0], encoding="utf-8").read())
    names = {name for _, name in ITEM.findall(text)}
    for group in re.findall(r"^pub use [\w:]*?(?:::)?(\{[^}]*\}|\w+(?: as \w+)?);", text, re.M):
        names |= {name.split(" as ")[0].strip() for name in group.strip("{}").split(",")}
    for module in re.findall(r"^pub mod (\w+);", text, re.M):
        names |= {name for _, name in ITEM.findall(bare(open(f"crates/{crate}/src/{module}.rt", encoding="utf-8").read()))}
    return names


def public_texts(text, names):
    """The texts of a source that a caller sees: contracts, traits, models and ghost fields of what is exported."""
    for kind, head, start, brace, end in blocks(text):
        if kind == "fn":
            name = re.search(r"fn (\w+)", head).group(1)
            if name in names and (head.startswith("pub fn") or name == "main"):
                yield contract(text, start)
        elif kind == "trait" and re.search(r"trait (\w+)", head).group(1) in names and head.startswith("pub "):
            yield text[start:end]
        elif kind in ("struct", "enum") and re.search(r"(?:struct|enum) (\w+)", head).group(1) in names:
            yield from re.findall(r"ghost \w+: \{[^}]*\}", text[start:end])
        elif kind == "impl":
            trait, of = type_of(head)
            if of not in names and not (trait and re.match(r"\w+", of) is None):
                continue
            if trait and re.sub(r"<.*", "", trait) in ("Model", "marker::Model"):
                yield text[start:end]
                continue
            inside = text[brace:end]
            yield from re.findall(r"ghost (?!use)\w+ = \{[^}]*\}", inside)
            for found in re.finditer(r"^\s*(pub )?(?:unsafe |const )*fn \w+", inside, re.M):
                if found.group(1) or trait:
                    yield contract(inside, found.start())


def seeds():
    """The definitions that public contracts cite: module and name."""
    for path in sorted(glob.glob("crates/*/src/**/*.rt", recursive=True)):
        crate = path.split("/")[1]
        source = open(path, encoding="utf-8").read()
        brought, names = imports(source), exported(crate)
        for text in public_texts(bare(source), names):
            used = words(text)
            for name, (module, there) in brought.items():
                if is_named(name, used):
                    yield module, there


def reached(files):
    """Each definition that a public contract cites, directly or through another."""
    found, waiting = set(), list(seeds())
    while waiting:
        module, name = waiting.pop()
        if module not in files or (module, name) in found:
            continue
        found.add((module, name))
        file = files[module]
        definitions = file.definitions if name is None else [item for item in [file.of(name)] if item]
        if name is not None and not definitions and name in file.imports:
            waiting.append(file.imports[name])
        for item in definitions:
            for other, source in file.imports.items():
                if is_named(other, item.words):
                    waiting.append(source)
            for other in file.definitions:
                if other is not item and any(is_named(one, item.words) for one in other.names):
                    waiting.extend((module, one) for one in other.names)
            waiting.extend((module, one) for one in item.names)
    return found


def judged(files):
    """Each file with its definitions that a public contract reaches, and those that none does."""
    found = reached(files)
    parts = defaultdict(lambda: ([], []))
    for module, file in files.items():
        for item in file.definitions:
            parts[module][not any((module, name) in found for name in item.names)].append(item)
    return parts


def main():
    paths = [path for path in sorted(glob.glob("crates/*/specs/**/*.antt", recursive=True)) if not path.endswith("/Lib.antt")]
    files = {module_of(path): File(path) for path in paths}
    faults, counts = [], defaultdict(int)
    for module, (public, private) in judged(files).items():
        path = files[module].path
        room = "laws" if "/laws/" in path else "private" if "/private/" in path else "specs"
        counts[room] += 1
        if room == "specs" and private:
            names = sorted(min(item.names, key=len) for item in private)
            faults.append(f"{path}: no public contract cites {', '.join(names)}: to specs/private/")
        if room == "private" and public:
            names = sorted(min(item.names, key=len) for item in public)
            faults.append(f"{path}: a public contract cites {', '.join(names)}: to specs/")
    for fault in faults:
        print(f"check_rooms: {fault}")
    rooms = ", ".join(f"{counts[room]} of {name}" for room, name in [("specs", "specs/"), ("private", "specs/private/"), ("laws", "specs/laws/")])
    print(f"check_rooms: {sum(counts.values())} files ({rooms}), {len(faults)} faults")
    return 1 if faults or not counts else 0


if __name__ == "__main__":
    sys.exit(main())
