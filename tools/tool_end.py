"""How the tools end: without a traceback where they are interrupted or a file fails, and quietly where nobody reads on."""
import os
import sys

INTERRUPTED = 130


def run_tool(name, work, unwritten):
    """Does the work of a tool, a call without arguments that gives a status, and ends with that. Where its output can't be written the
    status is `unwritten`; the cause is told, unless it is that nobody reads on. Nothing is done where a standard stream is closed, since a
    file would be opened in its place."""
    if sys.stdout is None or sys.stderr is None:
        sys.exit(unwritten)
    try:
        status = status_of(work)
    except OSError as fault:
        status = unwritten
        tell(name, fault)
    for stream in sys.stdout, sys.stderr:
        try:
            stream.flush()
        except OSError as fault:
            status = unwritten
            os.dup2(os.open(os.devnull, os.O_WRONLY), stream.fileno())
            tell(name, fault)
    sys.exit(status)


def status_of(work):
    try:
        return work() or 0
    except KeyboardInterrupt:
        return INTERRUPTED
    except SystemExit as end:
        if isinstance(end.code, str):
            print(end.code, file=sys.stderr)
            return 1
        return end.code or 0


def tell(name, fault):
    if isinstance(fault, BrokenPipeError):
        return
    try:
        print(f"{name}: {fault.filename or 'standard output'}: {fault.strerror}", file=sys.stderr)
    except OSError:
        pass
