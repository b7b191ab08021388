#!/usr/bin/env python3
"""Runs the parts of a folder that split_table.py made on a Dask cluster, one
future a part:

    dask_payroll.py --scheduler ADDRESS FOLDER [QUESTION ..] [--send]
                    [--program PAPCALC] [--retries N]

The question is a line of a script, `report` where none is said, or
`file MONTH`. The workers see FOLDER under the same name and put each result
there, by a rename once it is whole. With --send they share no files: tables
and flowcharts go to them by the scheduler, and the results come back. PAPCALC
is the program's name on the workers. A refused part isn't tried again; any
other fault is, N times (3 where nothing is said), and Dask does again what was
lost with a worker. The status is 0 where each part has a result, else 1."""
import argparse
import asyncio
import itertools
import os
import sys

sys.path.insert(0, os.path.join(os.path.dirname(os.path.abspath(__file__)), os.pardir))
import parts  # noqa: E402
import tool_end  # noqa: E402

UNWRITTEN = 5
WIDTH = 40
WAIT_SECONDS = 60


# ---- on the workers, which have the standard library alone

def run_part(program, folder, names, question, out):
    """Writes what was read, and what the program answers to a part, into a file. Gives what the program says of a refusal, or an empty text."""
    import hashlib
    import subprocess
    texts = {}
    for name in names:
        with open(f"{folder}/{name}", "rb") as file:
            texts[name] = file.read()
        out.write(f"# {hashlib.sha256(texts[name]).hexdigest()}  {name}\n".encode())
    version = subprocess.run([program, "--version"], stdout=subprocess.PIPE, check=True).stdout
    out.write(b"# " + version + f"# {question}\n".encode())
    out.flush()
    table, plans, edits = names[0], "plans.script", names[0].replace(".csv", ".edits")
    script = texts[plans] + f"\nload {table}\n".encode() + texts.get(edits, b"") + f"\n{question}\n".encode()
    done = subprocess.run([program, "run"], input=script, stdout=out, stderr=subprocess.PIPE, cwd=folder)
    said = f"{table}: status {done.returncode}: {done.stderr.decode('utf-8', 'replace').strip()}"
    if done.returncode not in (0, 1):
        raise RuntimeError(said)
    return said if done.returncode else ""


def run_shared(program, folder, names, question, result):
    """Runs a part in the shared folder, and puts its result there."""
    import os
    import tempfile
    descriptor, made = tempfile.mkstemp(prefix=f".{result}.", dir=folder)
    try:
        with open(descriptor, "wb") as out:
            refused = run_part(program, folder, names, question, out)
            out.flush()
            os.fsync(out.fileno())
        if not refused:
            os.chmod(made, 0o644)
            os.replace(made, f"{folder}/{result}")
        return refused
    finally:
        if os.path.exists(made):
            os.remove(made)


def run_sent(program, texts, names, question):
    """Runs a part whose files were sent. Gives what is said of a refusal, or an empty text, and the result."""
    import os
    import tempfile
    with tempfile.TemporaryDirectory(prefix="papcalc-") as folder:
        os.mkdir(f"{folder}/plans")
        for name, text in texts.items():
            with open(f"{folder}/{name}", "wb") as file:
                file.write(text)
        with open(f"{folder}/result", "w+b") as out:
            refused = run_part(program, folder, names, question, out)
            out.seek(0)
            return refused, b"" if refused else out.read()


# ---- on the side of the client

def names_of(folder, manifest):
    """The files that a part reads, its table first."""
    edits = f"{manifest.name}.edits"
    return list(manifest.files) + [edits] * os.path.exists(f"{folder}/{edits}")


def read_texts(folder, names):
    texts = {}
    for name in names:
        with open(f"{folder}/{name}", "rb") as file:
            texts[name] = file.read()
    return texts


def put_result(path, text):
    made = f"{path}.{os.getpid()}.tmp"
    with open(made, "wb") as file:
        file.write(text)
        file.flush()
        os.fsync(file.fileno())
    os.replace(made, path)


class Payroll:
    """The parts of a folder on their way: as many futures at a time as keep the workers busy, since a sent table waits in the scheduler."""

    def __init__(self, client, words, manifests):
        self.client, self.words, self.manifests = client, words, manifests
        self.folder, self.question = os.path.abspath(words.folder), " ".join(words.question) or "report"
        self.by_future, self.faults = {}, []

    def result(self, manifest):
        return f"{manifest.name}.{parts.result_end(self.question)}"

    def submit(self, manifest):
        names = names_of(self.folder, manifest)
        if self.words.send:
            of_part = (run_sent, self.words.program, read_texts(self.folder, names), names, self.question)
        else:
            of_part = (run_shared, self.words.program, self.folder, names, self.question, self.result(manifest))
        future = self.client.submit(*of_part, retries=self.words.retries, pure=False, key=f"{manifest.name}-{os.urandom(4).hex()}")
        self.by_future[future] = manifest
        return future

    def take(self, future):
        """Takes the end of a part's future."""
        manifest = self.by_future.pop(future)
        try:
            refused = future.result()
            if self.words.send:
                refused, text = refused
                if not refused:
                    put_result(f"{self.folder}/{self.result(manifest)}", text)
        except Exception as fault:  # whatever a worker raised, or the loss of workers
            refused = f"{type(fault).__name__}: {fault}"
        if refused:
            self.faults.append(f"{manifest.name}: {refused}")

    def run(self, as_completed):
        waiting = iter(self.manifests)
        at_once = 2 * max(sum(self.client.nthreads().values()), 1)
        ended = as_completed([self.submit(manifest) for manifest in itertools.islice(waiting, at_once)])
        for done, future in enumerate(ended, 1):
            self.take(future)
            show(done, len(self.manifests), len(self.faults))
            for manifest in itertools.islice(waiting, 1):
                ended.add(self.submit(manifest))
        print(file=sys.stderr)


def show(done, count, faults):
    bar = "#" * (WIDTH * done // count)
    print(f"\r[{bar:{WIDTH}}] {done} of {count} parts, {faults} without a result", end="", file=sys.stderr, flush=True)


def words_of(arguments):
    reader = argparse.ArgumentParser(prog="dask_payroll.py", description=__doc__, formatter_class=argparse.RawDescriptionHelpFormatter)
    reader.add_argument("--scheduler", required=True, metavar="ADDRESS")
    reader.add_argument("--send", action="store_true")
    reader.add_argument("--program", metavar="PAPCALC", default="papcalc")
    reader.add_argument("--retries", metavar="N", type=int, default=3)
    reader.add_argument("folder", metavar="FOLDER")
    reader.add_argument("question", metavar="QUESTION", nargs="*")
    return reader.parse_args(arguments)


def connected(client, address):
    """A client of the scheduler at an address, or the end where there is none; what is raised then depends on the kind of address."""
    try:
        return client(address)
    except Exception as fault:
        sys.exit(f"dask_payroll: {address}: {fault}")


def main(arguments):
    words = words_of(arguments)
    try:
        from distributed import Client, as_completed
    except ImportError as fault:
        sys.exit(f"dask_payroll: {fault} in {sys.executable}: Debian's python3-distributed is for /usr/bin/python3")
    try:
        manifests = parts.read_manifests(words.folder)
        with connected(Client, words.scheduler) as client:
            payroll = Payroll(client, words, manifests)
            client.wait_for_workers(1, timeout=WAIT_SECONDS)
            payroll.run(as_completed)
    except parts.PartsFault as fault:
        sys.exit("\n".join(f"dask_payroll: {line}" for line in str(fault).splitlines()))
    except BrokenPipeError:
        raise
    except asyncio.TimeoutError:
        sys.exit(f"dask_payroll: {words.scheduler} has no worker within {WAIT_SECONDS} s")
    except OSError as fault:
        sys.exit(f"dask_payroll: {fault.filename2 or fault.filename or words.scheduler}: {fault.strerror or fault}")
    if payroll.faults:
        sys.exit("\n".join(f"dask_payroll: {fault}" for fault in sorted(payroll.faults)))


if __name__ == "__main__":
    tool_end.run_tool("dask_payroll", lambda: main(sys.argv[1:]), UNWRITTEN)
