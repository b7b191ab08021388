#!/usr/bin/env python3
"""What README.md and docs/ show is what comes: run_shown.py [--write] PROGRAM [AUTHOR], from the top of the repository.

A block that begins with ```console has commands behind `$ ` with what they write on standard output; its commands run one after the
other, and those of one document in one scratch copy of the examples, with the program as build/papcalc, and papcalc and papledger on the
path, and AUTHOR as pap_author; where there is none, blocks that call it are left as they are. A block that begins with ```session has
lines of one script behind `> ` with their answers. Each is compared byte for byte. With --write the documents get what comes."""
import glob
import os
import shutil
import subprocess
import sys
import tempfile


def scratch_copy(program, author):
    """A folder with the examples, the tools and the programs."""
    folder = tempfile.mkdtemp(prefix="papcalc-shown-")
    for name in ["examples", "tools", "docs", "clients"]:
        shutil.copytree(name, f"{folder}/{name}", ignore=shutil.ignore_patterns("__pycache__"))
    os.mkdir(f"{folder}/build")
    os.symlink(program, f"{folder}/build/papcalc")
    if author:
        os.symlink(author, f"{folder}/build/pap_author")
    os.symlink(f"{folder}/clients/python/papledger", f"{folder}/build/papledger")
    return folder


def console(lines, folder):
    """The commands of a block, with what they write."""
    path = f"{folder}/build:{os.environ['PATH']}"
    shown, command = [], None
    for line in lines:
        if line.startswith("$ "):
            command = line[2:]
        elif command is not None and command.endswith("\\") and line.startswith("> "):
            command = f"{command[:-1]}{line[2:]}"
        else:
            continue
        shown.append(line)
        if not command.endswith("\\"):
            done = subprocess.run(["bash", "-c", command], cwd=folder, stdin=subprocess.DEVNULL, stdout=subprocess.PIPE,
                                  stderr=subprocess.DEVNULL, env={**os.environ, "PATH": path}, timeout=120)
            shown += done.stdout.decode().splitlines()
    return shown


def session(lines, folder):
    """The lines of a script, each with its answer: what is written after it and not before it."""
    script, shown, before = "", [], []
    for line in lines:
        if line.startswith("> "):
            script += line[2:] + "\n"
            done = subprocess.run([f"{folder}/build/papcalc", "run"], input=script.encode(), cwd=folder, stdout=subprocess.PIPE,
                                  stderr=subprocess.DEVNULL, timeout=120)
            after = done.stdout.decode().splitlines()
            shown += [line, *after[len(before):]]
            before = after
    return shown


KINDS = {"```console": console, "```session": session}


def calls_author(lines):
    """Whether a command of the block calls pap_author."""
    return any(line.startswith("$ ") and "pap_author" in line for line in lines)


def document_as_run(name, program, author):
    """The document with what comes in place of what it shows, and the number of its blocks that were run."""
    folder = scratch_copy(program, author)
    lines = open(name, encoding="utf-8").read().split("\n")
    shown, count, at = [], 0, 0
    while at < len(lines):
        shown.append(lines[at])
        kind, at = KINDS.get(lines[at].strip()), at + 1
        if kind:
            end = lines.index("```", at)
            block, at = lines[at:end], end
            if author or not calls_author(block):
                block, count = kind(block, folder), count + 1
            shown += block
    shutil.rmtree(folder)
    return lines, shown, count


def main(words):
    program, author = ([os.path.abspath(word) for word in words if word != "--write"] + [None])[:2]
    author = author if author and os.access(author, os.X_OK) else None
    failed = count = 0
    for name in ["README.md", "CONTRIBUTING.md", *sorted(glob.glob("docs/*.md"))]:
        lines, shown, blocks = document_as_run(name, program, author)
        count += blocks
        if lines != shown:
            at = next((at for at, pair in enumerate(zip(lines, shown)) if pair[0] != pair[1]), min(len(lines), len(shown)))
            print(f"run_shown: {name}, line {at + 1}, shows another answer than comes:", *lines[at:at + 1], *shown[at:at + 1], sep="\n    ")
            failed += 1
            if words[0] == "--write":
                open(name, "w", encoding="utf-8").write("\n".join(shown))
    print(f"run_shown: {count} blocks of {len(glob.glob('docs/*.md')) + 2} documents were run, {failed} documents differ")
    return 1 if failed else 0


if __name__ == "__main__":
    sys.exit(main(sys.argv[1:]))
