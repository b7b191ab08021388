#!/usr/bin/env python3
"""The program's words, the lines of a script, statuses and limits, each said once: check_commands.py, from the top of the repository.

docs/USE.md has the words, the lines and the statuses, and docs/PROFILE.md ("Limits") the limits. The help of `papcalc`, its manual page and the
definitions have to say the same: the same forms, the same numbers."""
import glob
import re
import sys

USE, PROFILE, MANUAL, HELP = "docs/USE.md", "docs/PROFILE.md", "docs/papcalc.1", "crates/papcalc/src/main.rt"
VALUES = "Op Ar name Ns Cm = Ns Ar value ..."


def read(path):
    return open(path, encoding="utf-8").read()


def form(text):
    """A form in the spelling of USE: the first word, and then capitals."""
    words = text.replace("< SCRIPT", "").replace("EMPLOYEE", "EMP").split()
    return " ".join(words[:1] + [word.upper() for word in words[1:]]).replace("EMPLOYEE", "EMP")


def table(path, heading):
    """The rows of the first table behind a heading, as lists of cells."""
    text = read(path)
    lines = text[text.index(heading):].split("\n")
    start = next(at for at, line in enumerate(lines) if line.startswith("|"))
    end = next(at for at in range(start, len(lines)) if not lines[at].startswith("|"))
    return [[cell.strip() for cell in re.split(r"(?<!\\)\|", line)[1:-1]] for line in lines[start + 2:end]]


def forms_of_use(heading, lead=""):
    return [form(row[0].strip("`").removeprefix(lead)) for row in table(USE, heading)]


def help_text():
    text = read(HELP)
    return re.search(r"const HELP: &str =\s*\"(.*?)\";", text, re.S).group(1)


def forms_of_help(heading):
    """The forms of a list in the help: two alike, of a day and of a month, are one of a WHEN."""
    lines = help_text()
    lines = lines[lines.index(heading):].split("\n")[1:]
    for line in lines:
        if not line.startswith("  "):
            return
        found = re.match(r"  (\S.*?)(?:  +\S.*)?$", line)
        if found and not line.startswith("   "):
            spelled = found.group(1).removeprefix("papcalc ")
            first = spelled.split(", ")[0]
            yield form(first[:first.rindex(" ")] + " WHEN" if ", " in spelled else first)


def forms_of_manual(section):
    text = read(MANUAL)
    text = text[text.index(f".Sh {section}\n"):]
    text = text[:text.index("\n.Sh ", 1)]
    for line in re.findall(r"^\.It (.*)$", text, re.M):
        for part in line.replace(VALUES, "NAME=VALUE ..").split(" , "):
            yield form(re.sub(r"\b(?:Cm|Ar|Fl) ?", "", part).replace("...", "..").replace("-help", "--help").replace("-version", "--version"))


def defined_verbs():
    return re.findall(r'^text_of \S+ = codes "(\w+)"', read("crates/script_lang/specs/Lines.antt"), re.M)


def defined_words():
    """The first words of the program's forms, and those that `main` answers itself."""
    defined = re.findall(r'codes "(\w+)"', read("crates/pap_cli/specs/Words.antt"))
    return list(dict.fromkeys(defined)) + re.findall(r'"(--\w+)" [|=]', read(HELP))


def forms():
    """The forms have the same spelling in all three, and the first words are those that are defined."""
    for kind, heading, lead, in_help, section, defined in [
            ("word", "# Using the program", "papcalc ", "usage:", "DESCRIPTION", defined_words()),
            ("line", "## Scripts", "", "lines of a script", "LINES OF A SCRIPT", defined_verbs() + ["#"])]:
        wanted = forms_of_use(heading, lead)
        for path, found in [(HELP, list(forms_of_help(in_help))), (MANUAL, list(forms_of_manual(section)))]:
            for one in sorted(set(wanted) ^ set(found)):
                yield f"the {kind} `{one}` stands in {USE if one in wanted else path} and not in {path if one in wanted else USE}"
        for one in sorted(set(defined) ^ {each.split()[0] for each in wanted}):
            yield f"the {kind} `{one}` is defined or in {USE}, and not both"


def statuses():
    """The numbers of statuses are those of the definitions."""
    wanted = re.findall(r"^status_number \w+ = (\d+)$", read("crates/pap_cli/specs/Statuses.antt"), re.M)
    manual = read(MANUAL)
    manual = manual[manual.index(".Sh EXIT STATUS"):manual.index(".Sh EXAMPLES")]
    ends = help_text()[help_text().index("It ends with 0"):]
    for path, found in [(USE, [row[0] for row in table(USE, "| status |")]), (MANUAL, re.findall(r"^\.It (\d+)$", manual, re.M)),
                        (HELP, re.findall(r"\b(\d) where", " ".join(ends.split())))]:
        if found != wanted:
            yield f"{path} has the statuses {', '.join(found)}, and not {', '.join(wanted)}"


def value(number):
    base, _, power = number.replace(",", "").partition("^")
    return int(base) ** int(power or 1)


def limits():
    """Each row of the table has the numbers of its definitions, each limit of the definitions has a row, and help and manual page have no other."""
    paths = sorted(glob.glob("crates/*/specs/*.antt"))
    defined = {name: value(number.replace(" ", "")) for path in paths
               for name, number in re.findall(r"^(\w+) = (\d+(?: \^ \d+)?)$", read(path), re.M)}
    bytes_of_plan = re.search(r"^most which\.Bytes = (\d+)$", read("crates/pap_reader/specs/Limits.antt"), re.M).group(1)
    defined["most"] = value(bytes_of_plan)
    shown, numbers = set(), set()
    for row in table(PROFILE, "## Limits"):
        names = re.findall(r"`(\w+)`", row[3])
        said = [value(number) for number in re.findall(r"\d[\d,]*\d(?:\^\d+)?|\d", row[1])]
        if said != [defined.get(name) for name in names]:
            yield f"{PROFILE}: the limit of {row[0]} isn't what {', '.join(names)} says"
        shown |= set(names)
        numbers |= set(said)
    for path in glob.glob("crates/*/specs/Limits.antt"):
        for name in re.findall(r"^(\w+) = \d", read(path), re.M):
            if name not in shown:
                yield f"{PROFILE} has no row for {name} of {path}"
    for path, text in [(HELP, help_text()), (MANUAL, read(MANUAL))]:
        for number in re.findall(r"(?<![=\d.,-])\d[\d,]*\d\d\d\d\b|(?<![=\d.,-])\d+(?:,\d\d\d)+", text):
            if value(number) not in numbers:
                yield f"{path} says {number}, which isn't a limit of {PROFILE}"


def main():
    faults = [*forms(), *statuses(), *limits()]
    for fault in faults:
        print(f"check_commands: {fault}")
    print(f"check_commands: {len(defined_words())} words and {len(defined_verbs())} lines, {len(faults)} faults")
    return 1 if faults else 0


if __name__ == "__main__":
    sys.exit(main())
