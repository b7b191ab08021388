#!/usr/bin/env python3
"""The deepest flowchart on a small stack: deep_trials.py PROGRAM.

64 methods, each of which executes the next within 32 IFs, and in the last one an expression of 64 open levels. With half of the usual
stack (4 MiB) the program checks it, runs it once, traces it, and explains a refusal at its bottom."""
import os
import resource
import subprocess
import sys
import tempfile

STACK = 4 << 20
METHODS, IFS, LEVELS = 64, 32, 64
HEAD = """<PAP><INTERFACE><INPUTS><INPUT name="N" type="int"/></INPUTS><OUTPUTS><OUTPUT name="K" type="int"/></OUTPUTS></INTERFACE>
<METHODS><MAIN><EXECUTE method="M0"/></MAIN>
"""
LIMITS = "[input.N]\nlow = 0\nhigh = 9\nplaces = 0\n"


def nested(statement):
    return '<IF expr="N &lt; 10"><THEN>' * IFS + statement + "</THEN></IF>" * IFS


def flowchart(innermost):
    """The deepest flowchart, with this at the bottom of its last expression."""
    expression = "-(" * (LEVELS // 2) + innermost + ")" * (LEVELS // 2)
    bodies = [f'<EXECUTE method="M{number + 1}"/>' for number in range(METHODS - 1)] + [f'<EVAL exec="K = {expression}"/>']
    methods = (f'<METHOD name="M{number}">{nested(body)}</METHOD>\n' for number, body in enumerate(bodies))
    return HEAD + "".join(methods) + "</METHODS></PAP>\n"


def run(*words, script=""):
    done = subprocess.run([program, *words], input=script, capture_output=True, text=True, timeout=60,
                          preexec_fn=lambda: resource.setrlimit(resource.RLIMIT_STACK, (STACK, STACK)))
    return done.returncode, done.stdout, done.stderr


def trials():
    status, out, _ = run("check", "deep.xml", "deep.toml")
    yield "check", status == 0 and out.startswith("accepted steps ") and out.endswith("\nK 5 14 0 0\n")
    status, out, _ = run("once", "deep.xml", "deep.toml", "N=3")
    yield "once", status == 0 and out.startswith("K 8\nsteps ")
    status, out, _ = run("run", script="plan 2026-01-01 deep.xml deep.toml\nadd E1 2026-01 2026-01-31 N=3\ntrace E1 2026-01\n")
    yield "trace", status == 0 and out.endswith(f"set M{METHODS - 1}:{IFS} K 8\nend\n")
    status, out, err = run("check", "refused.xml", "deep.toml")
    yield "a refusal", status == 1 and out.startswith(f"refused plan Divisor M{METHODS - 1}:{IFS}:2 ")
    yield "its reason", "divisor may be zero" in err and err.endswith("\npapcalc: there the divisor lies from 0 to 9\n") and err.count("\n") == 2


program = os.path.abspath(sys.argv[1])
with tempfile.TemporaryDirectory() as folder:
    os.chdir(folder)
    for name, text in [("deep.xml", flowchart("N + 5")), ("refused.xml", flowchart("5 / N")), ("deep.toml", LIMITS)]:
        with open(name, "w") as file:
            file.write(text)
    results = list(trials())
for name, holds in results:
    if not holds:
        print(f"deep_trials: failed: {name}")
failed = sum(1 for _, holds in results if not holds)
print(f"deep_trials: {len(results) - failed} passed, {failed} failed")
sys.exit(1 if failed else 0)
