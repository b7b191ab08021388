#!/usr/bin/env python3
"""Runs `rt` with the words that it is given, and has it sum up the crates below only once: rt.py [--statements] WORD ..

By a sum over a crate's files and over the sums of the crates below it `rt` knows whether a library is as it was built. It takes these sums
anew on each way down through `crates.txt`, and from the upper crates there are tens of thousands of ways: that takes it many minutes before
it begins to prove. Here a crate below is summed up once a run; the files of a crate that is asked for itself are read each time, as `rt`
does to see that they stayed as they are. What is proved, and by which rules, is the kit's own affair. Where its command isn't as this
program knows it, it is run as it is.

With `--statements` a library that is built holds what other crates can cite of it, and not the proofs, as it is in the kit's own gate: the
crates above load it faster. Nothing of the check is kept."""
import functools
import importlib.machinery
import importlib.util
import os
import shutil
import sys

sys.dont_write_bytecode = True

STATEMENTS = "--statements"


def summed_once(stamp):
    """A crate's sum, by the kept sums of the crates below it."""
    kept, asked = {}, []

    def summed(crate):
        if not asked or crate not in kept:
            asked.append(crate)
            try:
                kept[crate] = stamp(crate)
            finally:
                asked.pop()
        return kept[crate]

    return summed


def builds_statements(rtlib):
    """Has the build of a library keep its statements alone."""

    def build(crate, flags, anew):
        if crate.is_built():
            return 0
        stamp, folder = crate.stamp(), os.path.dirname(crate.rlib)
        shutil.rmtree(folder, ignore_errors=True)
        os.makedirs(folder)
        words = crate.words(flags, keeps=False)
        status = crate.call(rtlib.RATTLE, "build", *words, STATEMENTS, "-o", crate.rlib)
        if status == 0 and stamp == crate.stamp():
            with open(f"{folder}/stamp", "w", encoding="utf-8") as kept:
                kept.write(stamp)
        return status

    rtlib.Crate.build_rlib = build


def command(keeps_proofs):
    """The kit's command as a module, which sums up each crate once, and whose libraries keep their proofs or not."""
    loader = importlib.machinery.SourceFileLoader("rt_of_the_kit", os.path.realpath(shutil.which("rt")))
    rt = importlib.util.module_from_spec(importlib.util.spec_from_loader(loader.name, loader))
    loader.exec_module(rt)
    crate = rt.rtlib.Crate
    crate.stamp, crate.below = summed_once(crate.stamp), functools.cache(crate.below)
    if not keeps_proofs:
        builds_statements(rt.rtlib)
    return rt


def main():
    words = [word for word in sys.argv[1:] if word != STATEMENTS]
    try:
        rt = command(words == sys.argv[1:])
    except (AttributeError, SyntaxError, UnicodeDecodeError):
        os.execvp("rt", ["rt", *words])
    return rt.main(words)


if __name__ == "__main__":
    sys.exit(main())
