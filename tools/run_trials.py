#!/usr/bin/env python3
"""What `papcalc run` does with real streams: run_trials.py PROGRAM, from the top of the repository.

A script in pieces of any size has the same answers; an answer comes before the next line is there; and each fault of the outside has
its status, with exactly the answers that it leaves."""
import os
import subprocess
import sys
import tempfile

SCRIPT = open("examples/month.script", "rb").read()
failed = []
passed = 0


def check(name, holds):
    global passed
    if holds:
        passed += 1
    else:
        failed.append(name)


def run(script, **streams):
    done = subprocess.run([program, "run"], input=script, capture_output=True, timeout=300, **streams)
    return done.returncode, done.stdout


def run_in_pieces(script, size):
    with subprocess.Popen([program, "run"], stdin=subprocess.PIPE, stdout=subprocess.PIPE, bufsize=0) as process:
        reader = os.dup(process.stdout.fileno())
        for at in range(0, len(script), size):
            process.stdin.write(script[at:at + size])
        process.stdin.close()
        out = b""
        while piece := os.read(reader, 65536):
            out += piece
        return process.wait(), out


def answers_before_the_next_line():
    """Each answer, and the reason of a refused line, comes before the next line is sent."""
    with subprocess.Popen([program, "run"], stdin=subprocess.PIPE, stdout=subprocess.PIPE, stderr=subprocess.PIPE, bufsize=0) as process:
        for line, answer, reason in [(b"work\n", b"work 0 0\n", None), (b"owed\n", b"refused file NothingFiled\n", b"stdin:2: no month was filed\n"),
                                     (b"work\n", b"work 0 0\n", None)]:
            process.stdin.write(line)
            if process.stdout.readline() != answer or (reason and process.stderr.readline() != reason):
                process.kill()
                return False
        process.stdin.close()
        return process.wait() == 1 and process.stderr.read() == b""


program = os.path.abspath(sys.argv[1])
whole = run(SCRIPT)
check("the month's script ends well", whole[0] == 0)
check("the month's last edit ran one run", b"\nwork 1 " in whole[1])
check("pieces of 1 byte", run_in_pieces(SCRIPT, 1) == whole)
check("pieces of 7 bytes", run_in_pieces(SCRIPT, 7) == whole)
check("an answer and its reason come before the next line", answers_before_the_next_line())
check("no script", run(b"") == (0, b""))
check("a last line without LF", run(b"work") == (0, b"work 0 0\n"))
check("a CR before LF", run(b"work\r\nwork") == (0, b"work 0 0\nwork 0 0\n"))
check("a file that isn't there", run(b"work\nload nofile\nwork\n") == (3, b"work 0 0\n"))
check("a folder in place of a file", run(b"work\nload examples\nwork\n") == (3, b"work 0 0\n"))
for name, why in [("nofile", "there is no such file"), ("examples/nofile/nofile", "there is no such file"), ("examples", "it is a folder")]:
    done = subprocess.run([program, "run"], input=f"load {name}\n".encode(), capture_output=True, timeout=300)
    check(f"why {name} can't be read", done.stderr.decode() == f"stdin:1: the file `{name}`: {why}; the script ends here\n")
UNWRITTEN = "papcalc: standard output can't be written: "
for word in ["run", "--help"]:
    with open("/dev/full", "wb") as full:
        done = subprocess.run([program, word], input=b"work\n", stdout=full, stderr=subprocess.PIPE, timeout=300)
        check(f"a full output of {word}", (done.returncode, done.stderr.decode()) == (5, UNWRITTEN + "there is no room left on the device\n"))
    reader, writer = os.pipe()
    os.close(reader)
    done = subprocess.run([program, word], input=b"work\n", stdout=writer, stderr=subprocess.PIPE, timeout=300)
    os.close(writer)
    check(f"a closed pipe for {word}", (done.returncode, done.stderr.decode()) == (5, UNWRITTEN + "its reader has closed the pipe\n"))
folder = os.open("examples", os.O_RDONLY)
done = subprocess.run([program, "run"], stdin=folder, capture_output=True, timeout=300)
check("an input that can't be read", (done.returncode, done.stdout) == (4, b""))
UNREAD = "papcalc: standard input can't be read: it is {}; give it a script, as papcalc run < SCRIPT\n"
check("why a folder can't be read", done.stderr.decode() == UNREAD.format("a folder"))
done = subprocess.run([program, "run"], preexec_fn=lambda: os.close(0), capture_output=True, timeout=300)
check("a closed input", (done.returncode, done.stdout, done.stderr.decode()) == (4, b"", UNREAD.format("closed")))
check("a script of the greatest length", run(b"work\n" + b"\n" * 67_108_859) == (0, b"work 0 0\n"))
check("a script of one byte more", run(b"work\n" + b"\n" * 67_108_860) == (7, b"work 0 0\n"))
check("a line that is too long is answered once", run(b"#" * 65_537 + b"\nwork\n") == (1, b"refused line LineLong\nwork 0 0\n"))
TOLD = "stdin:{}: `ab` is not a command; there are plan, drop, add, change, withdraw, load, report, work, trace, file, owed, open and try\n"
for word in ["run", "save"]:
    done = subprocess.run([program, word], input=b"# ab\n\n" + b"ab\nwork\n" * 30, capture_output=True, text=False, timeout=300)
    said = "".join(TOLD.format(3 + 2 * number) for number in range(30))
    check(f"the refused lines of {word} are told",
          done.returncode == 1 and done.stderr.decode().startswith(said + "papcalc: 30 lines were refused\n"))
    done = subprocess.run([program, word], input=b"# ab\n\n" + b"ab\nwork\n" * 30 + b"load nofile\nab\n", capture_output=True, timeout=300)
    said += "stdin:63: the file `nofile`: there is no such file; the script ends here\n"
    check(f"the refused lines of {word} before a file that isn't there are told", done.returncode == 3 and done.stderr.decode() == said)
with tempfile.TemporaryDirectory() as folder:
    TABLES = [
        ("employee;month;day;PAY\nanna;2026-01;2026-01-30;1\n", "1:1", "semicolons"),
        ("employee,month,day,PAY\nanna,2026-01,2026-01-30,\"2500,55\"\n", "2:25", "2500.55"),
    ]
    for text, place, helps in TABLES:
        table = os.path.join(folder, "table.csv")
        with open(table, "w", encoding="utf-8") as file:
            file.write(text)
        done = subprocess.run([program, "run"], input=f"load {table}\n".encode(), capture_output=True, timeout=300)
        first = done.stderr.decode().splitlines()[0]
        check(f"a table with {text!r}", done.returncode == 1 and first.startswith(f"stdin:1: {table}:{place}: ") and helps in first)
    with open("examples/payroll_tax.xml", encoding="utf-8") as plan, open("examples/payroll_tax.toml", encoding="utf-8") as limits:
        FILES = {"plan.xml": plan.read(), "limits.toml": limits.read()}
    WRONG_FILES = [
        ("a flowchart in UTF-16", "plan.xml", "limits.toml", "utf-16", "utf-8", "the file is written in UTF-16"),
        ("a range file in UTF-16", "plan.xml", "limits.toml", "utf-8", "utf-16", "since it is written in UTF-16"),
        ("the two files in each other's place", "limits.toml", "plan.xml", "utf-8", "utf-8", "this is a range file"),
    ]
    for what, first, second, first_code, second_code, helps in WRONG_FILES:
        for name, code in [(first, first_code), (second, second_code)]:
            with open(os.path.join(folder, name), "w", encoding=code) as file:
                file.write(FILES[name])
        done = subprocess.run([program, "check", first, second], cwd=folder, capture_output=True, timeout=300)
        check(what, done.returncode == 1 and helps in done.stderr.decode())
check("a longest line", run(b"#" * 65_536 + b"\r\nwork\n") == (0, b"work 0 0\n"))
for name in failed:
    print(f"run_trials: failed: {name}")
print(f"run_trials: {passed} passed, {len(failed)} failed")
sys.exit(1 if failed else 0)
