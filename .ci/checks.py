"""What the scripts here share: they run the built programs, compare what these write with what they should, and count."""
import os
import pathlib
import resource
import signal
import subprocess
import sys
from functools import partial

ROOT = pathlib.Path(__file__).resolve().parent.parent
SECONDS = 60
SHOWN = 2000


def text_of(file):
    """The text of a file, empty if there is none."""
    return file.read_text(encoding="utf-8") if file.is_file() else ""


def built(name):
    """The path of a program that rt ci or bin/build built. The script ends where it is not there."""
    program = f"{ROOT}/crates/{name}/out/{name}"
    if not os.access(program, os.X_OK):
        sys.exit(f"there is no program {program}: rt ci builds it, as bin/build does with lockreplay and lockexplore")
    return program


def run(command, given=b"", processor_seconds=None):
    """What a program writes to both its streams on this input, bytes or a text as the input is, and its status.

    The program may use so many seconds of the processor, whatever else the machine runs, and SECONDS of the clock.
    """
    encoding = "utf-8" if isinstance(given, str) else None
    limit = processor_seconds and partial(resource.setrlimit, resource.RLIMIT_CPU, (processor_seconds, processor_seconds))
    try:
        ran = subprocess.run(command, input=given, capture_output=True, encoding=encoding, timeout=SECONDS, preexec_fn=limit, check=False)
    except subprocess.TimeoutExpired:
        return None, f"no end in {SECONDS} seconds", None
    if limit and ran.returncode == -signal.SIGKILL:
        return None, f"no end in {processor_seconds} seconds of the processor", None
    return ran.stdout, ran.stderr, ran.returncode


def difference(name, found, wanted):
    """How what was found differs from what is wanted, or None. Of long texts it has the beginnings."""
    return None if found == wanted else f"{name}: found {found!r:.{SHOWN}}, wanted {wanted!r:.{SHOWN}}"


def report(checks, skipped=None):
    """Prints what each check found wrong, if not None, and then the last line, with what was skipped. Returns the status."""
    passed = failed = 0
    for wrong in checks:
        passed, failed = passed + (wrong is None), failed + (wrong is not None)
        if wrong is not None:
            print(wrong, flush=True)
    print(f"{passed} passed, {failed} failed{'' if skipped is None else f', {skipped} skipped'}")
    return failed > 0
