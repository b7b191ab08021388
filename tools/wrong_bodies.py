#!/usr/bin/env python3
"""Tries wrong bodies, and says by which goals the prover refuses each: wrong_bodies.py [CRATE ..] [--anew] [--jobs N], from the top of the
repository. A word CRATE/EDIT is one edit of a crate.

An edit of crates/NAME/must-fail/ or crates/NAME/wrong-bodies/ changes what a function means, and has to be refused by a goal of a contract:
what a function ensures (`returns..`), what a callee requires (`..-requires..`), an invariant (`..-init`, `..-preserved`, `invariant_of..`),
what the language itself demands (an index within its bounds, a sum that fits ..), or, where the edit is of a definition, the law that gets
false. It doesn't count where the check only fails at an answer of a proof that names what the edit took away: a harmless edit fails so too.
Where an answer has another type than its goal, the edit is tried once more without that answer: only a goal that then stays open counts.
An edit of crates/NAME/harmless/ meets every clause: it stays proved, or fails by names alone.

What an edit came to is kept in build/wrong-bodies/ by the sums of all that it was tried on, so that a run that was cut off is gone on with;
--anew tries all. `wrong_bodies.py --read LOG` tries nothing: it judges the lines that `rt ci` wrote of the edits of must-fail/, and looks at
where the edits of all folders stand, as `wrong_bodies.py --places` does alone: each `old:` text has to stand once in its file, a crate has
at most eight edits that are to be refused, and beside them a harmless one.

The crates below must be proved (`make build`, `make author`). Where a crate itself is, and an edit changes the bodies of functions alone, these
functions are checked: no other proof rests on a body. So one check tries edits of different functions together; an edit of which it doesn't
say enough is tried by itself. For an edit of a constant the functions that name it are checked. Else, and where these aren't refused, the
crate is proved first, and then once more with the edit. Each result comes, and is kept, as soon as it is there; --jobs N makes so many checks
side by side. The last line counts the edits that are as they must be."""
import argparse
import difflib
import glob
import hashlib
import importlib.util
import os
import re
import shutil
import subprocess
import sys
import tempfile
import time
from concurrent.futures import FIRST_COMPLETED, ThreadPoolExecutor, wait

sys.path.insert(0, os.path.dirname(os.path.abspath(__file__)))
import build  # noqa: E402

FOLDERS = ("must-fail", "wrong-bodies", "harmless")
KEPT = "build/wrong-bodies"
GIGABYTES_A_LANE = 3
MOST_REFUSED = 8

CONTRACT = re.compile(r"(?:.*-)?returns\b|.*-requires\b|.*-(?:init|preserved|smaller)\b|invariant_of-|(?:overflow|bounds|slice_bounds|nonzero|offset_bounds)_?\w*-")
GONE = re.compile(r"has no field|is not in scope|has no `|was not admitted|was rejected|is no name|no longer has a goal|there is no goal|names no goal")
OPEN = re.compile(r"`search` did not prove ((?:`[^`]+`(?:, | and )?)+)")
ANSWER = re.compile(r"(?:\./)?(proofs/\S+?\.antt):(\d+):\d+: error: (?:`([^`]+)`: )?(.*)")
NOTE = re.compile(r"note: (src/\S+?):(\d+):\d+: .*\(`([^`]+)`\)")
UNPROVED = re.compile(r"note: src/\S+: it is not proved that")
FUNCTION = re.compile(r"fn (\S+): no proof")
PROVED = re.compile(r"^fn (\S+): proved$", re.M)
BY_MACHINE = re.compile(r"^`(?:grind|search|omega|simp|cc|arith)`|does not follow|did not prove|is not proved")


class Verdict:
    """What a try of an edit came to."""

    def __init__(self, kind, goals):
        self.kind, self.goals = kind, goals

    def counts(self, harmless):
        return self.kind in ("proved", "names") if harmless else self.kind in ("contract", "law")

    def text(self):
        said = {
            "contract": "refused by the contract",
            "law": "refused: a law is false",
            "names": "refused by names alone, which says nothing of the contract",
            "answer": "refused by an answer that no longer fits",
            "proved": "still proved",
            "bad": "can't be applied or read",
            "limit": "refused by a limit of the prover",
        }[self.kind]
        return said + (": " + "; ".join(self.goals[:4]) + (f"; and {len(self.goals) - 4} more" if len(self.goals) > 4 else "") if self.goals else "")


def edited(edit, folder, before=()):
    """The texts of the files that an edit changes, by their path in the crate, or why it can't be; other edits left those `before`."""
    texts, path, old = dict(before), None, None
    for line in open(edit, encoding="utf-8").read().split("\n"):
        if line.startswith("file: "):
            path = line[6:].strip()
        elif line.startswith("old: "):
            old = line[5:]
        elif line.startswith("new:") and path and old:
            if path not in texts:
                texts[path] = open(f"{folder}/{path}", encoding="utf-8").read()
            if texts[path].count(old) != 1:
                return None, f"its `old:` text stands in {path} {texts[path].count(old)} times"
            texts[path] = texts[path].replace(old, line[4:].removeprefix(" "))
            old = None
    return (texts, None) if texts else (None, "it has no `old:` and `new:` text")


def told(output):
    """The failures of a check: the goal or lemma, what is said of it, and the proof's file and line where an answer by hand fails."""
    found = []
    for line in output.split("\n"):
        function, opened = FUNCTION.match(line), OPEN.search(line)
        if answer := ANSWER.match(line):
            found.append((answer.group(3), answer.group(4), answer.group(1), int(answer.group(2))))
        elif function and opened:
            found += [(goal, "did not prove", None, function.group(1)) for goal in re.findall(r"`([^`]+)`", opened.group(1))]
    if not found:
        notes = filter(None, map(NOTE.match, output.split("\n")))
        found = [(note.group(3), "is not proved", None, f"{note.group(1)}:{note.group(2)}") for note in notes]
    return found


def judged(failures, of_specs):
    """What failures of a check come to, and the answers by hand that don't fit, by their files."""
    contract, laws, names, misfits = [], [], [], []
    for goal, said, file, where in failures:
        place = f"{file[len('proofs/'):]} `{goal}`" if file else f"{where} `{goal}`"
        is_answer = file is None or os.path.basename(file) in ("Answers.antt", "Invariants.antt", "Proof.antt")
        if GONE.search(said):
            names.append(place)
        elif not is_answer:
            laws.append(place)
        elif goal and CONTRACT.match(goal) and (file is None or BY_MACHINE.search(said)):
            contract.append(place)
        elif goal:
            misfits.append((file, goal, place))
    if contract:
        return Verdict("contract", list(dict.fromkeys(contract))), []
    if laws and of_specs:
        return Verdict("law", list(dict.fromkeys(laws))), []
    if misfits:
        return Verdict("answer", [place for _, _, place in misfits]), misfits
    return Verdict("names", list(dict.fromkeys(names or laws))), []


def without(text, goal):
    """A file of answers without that of a goal."""
    return re.sub(rf"^(?:--[^\n]*\n)*pub {re.escape(goal)} :.*?(?=^(?:--[^\n]*\n)*pub |\Z)", "", text, flags=re.M | re.S)


def copied(folder, to):
    """Copies a room, what was proved by links: a check replaces such a file, and changes none."""

    def copy(one, other):
        if one.endswith(".oantt") or "/out/rlib/" in one:
            return os.link(one, other)
        return shutil.copy2(one, other)

    shutil.copytree(folder, to, copy_function=copy, symlinks=True)


def module_of(path):
    """The module of a source file, by its path below src/; nothing for the crate's root."""
    module = path[: -len(".rt")].replace("/", "::")
    return "" if module in ("lib", "main") else module


def home(crate, owner, module):
    """The module in which a crate declares a type; this one, if it declares none of that name."""
    root = f"crates/{crate}/src"
    for path in sorted(glob.glob(f"{root}/**/*.rt", recursive=True)):
        with open(path, encoding="utf-8") as file:
            if re.search(rf"^(?:pub(?:\([^)]*\))? )?(?:struct|enum) {owner}\b", file.read(), re.M):
                return module_of(os.path.relpath(path, root))
    return module


def body_of(lines, at, crate, module):
    """The path of the function in whose body a line of a module stands, if it stands in one; a method's begins with its type's module."""
    for first in range(at, -1, -1):
        if head := re.match(r"( *)(?:pub(?:\([^)]*\))? )?fn (\w+)", lines[first]):
            break
    else:
        return None
    indent, name = head.groups()
    begins = next((i for i in range(first, len(lines)) if lines[i].endswith("{") and re.match(rf"{indent}(?! )(?!ensures|requires)", lines[i])), len(lines))
    ends = next((i for i in range(begins, len(lines)) if lines[i] == f"{indent}}}"), 0)
    if not begins < at < ends:
        return None
    if not indent:
        return f"{module}::{name}".removeprefix("::")
    owner = next((found for i in range(first, -1, -1) if (found := re.match(r"impl(?:<.*?>)? (?:([\w:]+)(?:<.*?>)? for )?(\w+)", lines[i]))), None)
    if owner is None:
        return None
    kind = f"{owner.group(2)}{(owner.group(1) or '').split('::')[-1]}"
    return f"{home(crate, owner.group(2), module)}::{kind}::{name}".removeprefix("::")


def bodies(texts, crate):
    """The paths of the functions whose bodies an edit changes; none where it changes anything else."""
    found = []
    for path, text in texts.items():
        if not path.startswith("src/"):
            return []
        with open(f"crates/{crate}/{path}", encoding="utf-8") as file:
            lines = file.read().split("\n")
        module = module_of(path[len("src/") :])
        for kind, begins, ends, _, _ in difflib.SequenceMatcher(None, lines, text.split("\n"), False).get_opcodes():
            for at in range(begins, ends) if kind != "equal" else ():
                if lines[at].startswith("use "):
                    continue
                body = body_of(lines, at, crate, module)
                if body is None:
                    return []
                found.append(body)
    return sorted(set(found))


def users(texts, crate):
    """The paths of the functions whose bodies name a constant that an edit changes; none where it changes anything but constants."""
    names = set()
    for path, text in texts.items():
        with open(f"crates/{crate}/{path}", encoding="utf-8") as file:
            lines = file.read().split("\n")
        for old, new in zip(lines, text.split("\n")):
            found = re.match(r"(?:pub(?:\([^)]*\))? )?const (\w+):", old)
            if old != new and not (found and path.startswith("src/")):
                return []
            if old != new:
                names.add(found.group(1))
    paths = set()
    for path in glob.glob(f"crates/{crate}/src/**/*.rt", recursive=True) if names else ():
        with open(path, encoding="utf-8") as file:
            lines = file.read().split("\n")
        module = module_of(os.path.relpath(path, f"crates/{crate}/src"))
        for at, line in enumerate(lines):
            if names.intersection(re.findall(r"\w+", line.split("//")[0])) and (body := body_of(lines, at, crate, module)):
                paths.add(body)
    return sorted(paths)


def unit(path, crate):
    """What a function is checked as: by itself, or as one of those of its module or type that call each other."""
    over = path.rpartition("::")[0]
    return f"{over}::+" if glob.glob(f"crates/{crate}/proofs/{over.replace('::', '/')}/+*") else path


def unit_of(failure, crate):
    """What was being checked where a check failed."""
    _, _, file, where = failure
    path = "::".join(file.split("/")[1:-1]) if file else where.removeprefix(f"{crate}::")
    return path[: path.index("+") + 1] if "+" in path else unit(path, crate)


def apart(edits, crate):
    """Groups of edits of which no two change the same function."""
    groups = []
    for edit in edits:
        units = {unit(path, crate) for path in bodies(edited(edit, f"crates/{crate}")[0] or {}, crate)}
        for group, taken in groups:
            if units and not units & taken:
                group.append(edit)
                taken |= units
                break
        else:
            groups.append(([edit], units))
    return [group for group, _ in groups]


def checked(room, crate, only=()):
    """Checks a crate in its room, or these functions of it; gives whether that is proved, and what was said."""
    words = [sys.executable, build.RT, "check", "--jobs", "2" if only[1:] else "1", *[f"--only={path}" for path in only]]
    ran = subprocess.run(words, cwd=f"{room}/crates/{crate}", stdin=subprocess.DEVNULL, stdout=subprocess.PIPE, stderr=subprocess.STDOUT, errors="replace")
    return ran.returncode == 0, ran.stdout


def change(room, crate, texts):
    for path, text in texts.items():
        file = f"{room}/crates/{crate}/{path}"
        os.unlink(file)
        with open(file, "w", encoding="utf-8") as out:
            out.write(text)


def tried(crate, edit, below, seed):
    """Tries one edit in a room of its own: the functions whose bodies it changes, or without such the crate, over what was proved in the room
    `seed`."""
    texts, why = edited(edit, f"crates/{crate}")
    if why:
        return Verdict("bad", [why])
    only = bodies(texts, crate) or users(texts, crate) if seed is None else []
    with tempfile.TemporaryDirectory(prefix="wrong-body-") as place:
        room = f"{place}/room"
        if seed is None:
            build.furnish(room, crate, below)
        else:
            copied(seed, room)
        change(room, crate, texts)
        proved, output = checked(room, crate, only)
        if proved:
            return Verdict("proved", [])
        if not is_readable(output):
            return Verdict("bad", [line for line in output.split("\n") if re.search(r"\berror[:\[]", line)][:1])
        of_specs = any(path.startswith("specs/") for path in texts)
        verdict, misfits = judged(told(output), of_specs)
        if not misfits:
            return verdict
        without_answers(room, crate, misfits)
        proved, output = checked(room, crate, only)
        if proved:
            return Verdict("answer", verdict.goals)
        again, _ = judged(told(output), of_specs)
        return again if again.kind in ("contract", "law") else verdict


def sum_of(crate, below, edit):
    """The sum of all that a try of an edit stands on."""
    total = hashlib.sha256(open(edit, "rb").read())
    for name in [*below, crate]:
        for path in sorted(glob.glob(f"crates/{name}/s*/**/*.*t", recursive=True) + glob.glob(f"crates/{name}/proofs/**/*.antt", recursive=True)):
            total.update(path.encode() + open(path, "rb").read())
    total.update(open(os.path.abspath(__file__), "rb").read())
    return total.hexdigest()


def kept(crate, edit, total):
    """What an earlier run found of the same, if it did."""
    path = f"{KEPT}/{crate}.{os.path.basename(edit)}"
    if os.path.exists(path):
        was, kind, *goals = open(path, encoding="utf-8").read().rstrip("\n").split("\n")
        if was == total:
            return Verdict(kind, goals)
    return None


def keep(crate, edit, total, verdict):
    os.makedirs(KEPT, exist_ok=True)
    with open(f"{KEPT}/{crate}.{os.path.basename(edit)}", "w", encoding="utf-8") as out:
        out.write("\n".join([total, verdict.kind, *verdict.goals]) + "\n")


def judged_apart(crate, paths, output):
    """What edits came to that one check tried together, of those of which it says so, each with its answers by hand that don't fit; `paths`
    are the functions that each changes."""
    failures, told_of = told(output), {}
    proved = {path.removeprefix(f"{crate}::") for path in PROVED.findall(output)}
    for edit, changed in paths.items():
        units = {unit(path, crate) for path in changed}
        own = [failure for failure in failures if unit_of(failure, crate) in units]
        if own:
            told_of[edit] = judged(own, False)
        elif proved.issuperset(changed):
            told_of[edit] = Verdict("proved", []), []
    return told_of


def without_answers(room, crate, misfits):
    """Takes answers that don't fit out of a room."""
    answers = {}
    for file, goal, _ in misfits:
        answers[file] = without(answers.get(file) or open(f"{room}/crates/{crate}/{file}", encoding="utf-8").read(), goal)
    change(room, crate, answers)


def is_readable(output):
    """Whether a check came as far as the proofs."""
    return not re.search(r"\berror\[[\w-]+\]", output) and bool(re.search(r"^(?:logic|only)=", output, re.M))


def tried_together(crate, edits, below):
    """Tries edits of different functions in one room and by one check, and by one more without the answers that don't fit; gives what those
    came to of which that is told."""
    texts, paths = {}, {}
    for edit in edits:
        paths[edit] = bodies(edited(edit, f"crates/{crate}")[0], crate)
        texts, why = edited(edit, f"crates/{crate}", texts)
        if why:
            return {}
    with tempfile.TemporaryDirectory(prefix="wrong-body-") as place:
        room = f"{place}/room"
        build.furnish(room, crate, below)
        change(room, crate, texts)
        proved, output = checked(room, crate, sorted(set().union(*paths.values())))
        if proved:
            return {edit: Verdict("proved", []) for edit in edits}
        if not is_readable(output):
            return {}
        told_of = judged_apart(crate, paths, output)
        left = {edit: paths[edit] for edit, (_, misfits) in told_of.items() if misfits}
        if left:
            without_answers(room, crate, [misfit for edit in left for misfit in told_of[edit][1]])
            _, output = checked(room, crate, sorted(set().union(*left.values())))
            again = judged_apart(crate, left, output) if is_readable(output) else {}
            told_of.update({edit: found for edit, found in again.items() if found[0].kind == "contract"})
    return {edit: verdict for edit, (verdict, _) in told_of.items()}


def timed(crate, edits, below, seed):
    """Tries edits: several together, or one; gives each with what it came to, if that is told, and the seconds that it took."""
    began = time.time()
    found = tried_together(crate, edits, below) if edits[1:] else {edits[0]: tried(crate, edits[0], below, seed)}
    return [(edit, found.get(edit), (time.time() - began) / len(edits)) for edit in edits]


def report(crate, edit, verdict, took="kept"):
    """Says what an edit came to; gives whether that is as it must be."""
    folder = os.path.basename(os.path.dirname(edit))
    well = verdict.counts(folder == "harmless")
    print(f"{'ok   ' if well else 'FAULT'} {crate}/{folder}/{os.path.basename(edit)[:-5]} ({took}): {verdict.text()}", flush=True)
    return well


def edits_of(asked):
    """The edits of a crate, or the one that is asked for, as CRATE or CRATE/EDIT."""
    crate, _, name = asked.partition("/")
    return sorted(edit for folder in FOLDERS for edit in glob.glob(f"crates/{crate}/{folder}/{name or '*'}.edit"))


def try_crate(pool, crate, edits, stands_on, proved, anew):
    """Tries these edits of a crate, `proved` being the crates that are; gives whether each edit is as it must be."""
    below = build.below(crate, stands_on, [])
    sums = {edit: sum_of(crate, below, edit) for edit in edits}
    known = {} if anew else {edit: verdict for edit in edits if (verdict := kept(crate, edit, sums[edit]))}
    results = [report(crate, edit, verdict) for edit, verdict in known.items()]
    left = [edit for edit in edits if edit not in known]
    if lacking := [name for name in below if left and name not in proved]:
        print(f"FAULT {crate}: {', '.join(lacking)} below it must be proved first: make build, make author", flush=True)
        return [*results, *[False for _ in left]]
    changed = {edit: edited(edit, f"crates/{crate}")[0] or {} for edit in left}
    single = [edit for edit in left if crate in proved and bodies(changed[edit], crate)]
    constant = [edit for edit in left if crate in proved and edit not in single and users(changed[edit], crate)]
    with tempfile.TemporaryDirectory(prefix="wrong-bodies-") as place:
        begun = {pool.submit(timed, crate, group, below, None): None for group in [*apart(single, crate), *[[edit] for edit in constant]]}
        whole = [edit for edit in left if edit not in single and edit not in constant]
        seed = f"{place}/room"
        while begun or whole:
            if not begun:
                if not os.path.isdir(seed):
                    build.furnish(seed, crate, below)
                    is_proved, output = checked(seed, crate)
                    if not is_proved:
                        print(f"FAULT {crate}: it isn't proved as it stands", *output.split("\n")[-12:], sep="\n  ", flush=True)
                        return results + [False for _ in whole]
                begun.update({pool.submit(timed, crate, [edit], below, seed): seed for edit in whole})
                whole = []
            for one in wait(begun, return_when=FIRST_COMPLETED).done:
                by = begun.pop(one)
                for edit, verdict, seconds in one.result():
                    if verdict is None:
                        begun[pool.submit(timed, crate, [edit], below, None)] = None
                    elif by is None and edit in constant and verdict.kind != "contract":
                        whole.append(edit)
                    else:
                        if verdict.kind != "bad":
                            keep(crate, edit, sums[edit], verdict)
                        results.append(report(crate, edit, verdict, f"{seconds:.0f} s"))
    return results


def places():
    """Looks at where the edits of all crates stand, and tries none; gives how many there are and whether all is as it must be."""
    faults, count = [], 0
    for folder in sorted(glob.glob("crates/*")):
        crate = os.path.basename(folder)
        edits = edits_of(crate)
        count += len(edits)
        faults += [f"{edit[len('crates/'):-5]}: {why}" for edit in edits if (why := edited(edit, folder)[1])]
        harmless = sum("/harmless/" in edit for edit in edits)
        if len(edits) - harmless > MOST_REFUSED:
            faults.append(f"{crate}: {len(edits) - harmless} edits are to be refused, and a crate has at most {MOST_REFUSED}")
        if edits and not harmless:
            faults.append(f"{crate}: it has no harmless edit")
    for fault in faults:
        print(f"FAULT {fault}")
    return count, not faults


def read(log):
    """Judges what `rt ci` wrote of the edits of must-fail/: each line's first failure has to be that of a contract's goal or of a law."""
    results = []
    for crate, edit, said in re.findall(r"^(?:rt: )?must-fail (\w+)/(\S+)\.edit: (.*)$", open(log, encoding="utf-8").read(), re.M):
        failure = re.search(r"refused, as it must be: (.*)", said)
        first = failure.group(1) if failure else ""
        answer = ANSWER.match(first)
        well = not GONE.search(first) and bool(answer and answer.group(3) and CONTRACT.match(answer.group(3)) or UNPROVED.match(first))
        if first and not well and "Answers.antt" not in first:
            well = any(line.startswith("file: specs/") for line in open(f"crates/{crate}/must-fail/{edit}.edit", encoding="utf-8"))
        if not well:
            print(f"FAULT {crate}/must-fail/{edit}: {said}")
        results.append(well)
    wanted = len(glob.glob("crates/*/must-fail/*.edit"))
    if len(results) != wanted:
        print(f"FAULT {wanted} edits stand in must-fail/, and the log has {len(results)}")
    well = places()[1]
    return summed(results) or len(results) != wanted or not well


def proved_crates():
    """The crates whose libraries are proved from their sources as they stand."""
    spec = importlib.util.spec_from_file_location("rt_once", build.RT)
    rt = importlib.util.module_from_spec(spec)
    spec.loader.exec_module(rt)
    return {crate.name for crate in rt.command(True).rtlib.crates_below(os.getcwd()) if crate.is_built()}


def summed(results):
    print(f"wrong_bodies: {sum(results)} of {len(results)} edits are as they must be", flush=True)
    return 0 if results and all(results) else 1


def lanes():
    free = next(int(line.split()[1]) for line in open("/proc/meminfo") if line.startswith("MemAvailable"))
    return max(1, min(os.cpu_count() or 1, free // (GIGABYTES_A_LANE << 20)))


def main(words):
    if words[:1] == ["--read"]:
        return read(words[1])
    if words == ["--places"]:
        count, well = places()
        print(f"wrong_bodies: {count} edits were looked at")
        return 0 if well else 1
    asked = argparse.ArgumentParser(prog="wrong_bodies")
    asked.add_argument("crates", nargs="*")
    asked.add_argument("--anew", action="store_true")
    asked.add_argument("--jobs", type=int)
    asked = asked.parse_args(words)
    stands_on = build.crates()
    have = [crate for crate in stands_on if edits_of(crate)]
    if strange := [word for word in asked.crates if not edits_of(word)]:
        print(f"wrong_bodies: no wrong bodies in {', '.join(strange)}", file=sys.stderr)
        return 2
    wanted = {}
    for word in asked.crates or have:
        wanted.setdefault(word.partition("/")[0], set()).update(edits_of(word))
    results, proved = [], proved_crates()
    with ThreadPoolExecutor(asked.jobs or lanes()) as pool:
        try:
            for crate, edits in wanted.items():
                results += try_crate(pool, crate, sorted(edits), stands_on, proved, asked.anew)
        except KeyboardInterrupt:
            pool.shutdown(wait=False, cancel_futures=True)
            print("wrong_bodies: cut off; the same command goes on from what is kept", file=sys.stderr)
            return 130
    return summed(results)


if __name__ == "__main__":
    sys.exit(main(sys.argv[1:]))
