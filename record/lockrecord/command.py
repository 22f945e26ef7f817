"""The command bin/lockrecord."""

from __future__ import annotations

import argparse
import json
import os
import sys
import tempfile
from typing import NoReturn

from .answers import tell_answer
from .confirming import can_confirm, confirm
from .explorer import Explorer
from .grades import FAILED, STATUS, WORDS, Finding, Grade, Judged
from .hang import tell_hang
from .judging import Options, judge_record, present_of
from .library import library
from .plan_files import remove_old
from .process import CannotRead
from .program import CannotRecord, check_program
from .record_file import BadRecord, executable_of
from .report import be_silent, held, hold, say, tell, to
from .running import CannotAsk, Recorder, Run, ask_for_record, is_recorded, number_of, pid_of
from .suppressions import NO_SUPPRESSIONS, BadSuppressions, read_suppressions

ROOT = os.path.dirname(os.path.dirname(os.path.dirname(os.path.realpath(__file__))))
USAGE = """lockrecord [run] [OPTIONS] PROGRAM ARGS..
       lockrecord confirm [OPTIONS] PROGRAM ARGS..   as run --confirm
       lockrecord report [OPTIONS] FILE              as --record FILE or --plan FILE
       lockrecord hang [OPTIONS] PID                 as --hang PID or -p PID"""


class _Parser(argparse.ArgumentParser):
    def error(self, message: str) -> NoReturn:
        tell(f"lockrecord: {message}\nusage: {USAGE}")
        sys.exit(FAILED)


def count(text: str) -> int:
    value = int(text)
    if not 0 < value < 1_000_000:
        raise ValueError
    return value


def pid(text: str) -> int:
    value = int(text)
    if not 0 < value < 1 << 31:
        raise ValueError
    return value


def exit_code(text: str) -> int:
    value = int(text)
    if not 0 <= value < 256:
        raise ValueError
    return value


def _version() -> str:
    with open(os.path.join(ROOT, "VERSION"), encoding="utf-8") as file:
        return f"lockrecord {file.read().strip()}"


def _parser() -> _Parser:
    p = _Parser(
        prog="lockrecord",
        usage=USAGE,
        description="Records the lock calls of a run of PROGRAM, which need not hang, and asks lockexplore whether another interleaving of them deadlocks. "
        "Of a process that hangs, it tells which threads wait for each other.",
        epilog="The report is on standard error. The status is that of the program; 3 for a deadlock, 4 for a possible one, 5 for one that lockexplore could not "
        "check, and 125 where lockrecord fails or has no answer. docs/RECORD.md says what an answer means.",
        allow_abbrev=False,
    )
    p.add_argument("-o", metavar="NAME", dest="name", help="writes NAME.plan and keeps the records, NAME.PID.rec; otherwise the name is that of the program")
    p.add_argument("--confirm", action="store_true", help="after a deadlock runs the program again, with pauses before the waits of the answer; the default for programs that end within ten seconds")
    p.add_argument("--no-confirm", action="store_true", help="never runs the program again")
    p.add_argument("--pause", metavar="MS", type=count, help="the length of these pauses; 200 at first, and then 1000")
    p.add_argument("--for", metavar="SECONDS", type=count, dest="run_seconds", help="ends the program by SIGTERM after this time, as a server")
    p.add_argument("--hang", "-p", metavar="PID", type=pid, help="tells which threads of a running process wait, and for whom")
    p.add_argument("--record", metavar="FILE", help="reduces a record that -o kept, and runs nothing")
    p.add_argument("--plan", metavar="FILE", help="asks about a plan that was changed, and tells the comments of its lines")
    p.add_argument("--sem", action="store_true", help="semaphores of one permit are mutexes, as CPython's locks")
    p.add_argument("--bar", action="store_true", help="waiting writers keep readers out of every reader-writer lock")
    p.add_argument("--tries-wait", action="store_true", help="each try counts as an acquisition that may wait, as jemalloc and CPython need")
    p.add_argument("--suppressions", metavar="FILE", help="lines deadlock:NAME; acquisitions below a function or file of that name count as tries")
    p.add_argument("--seconds", metavar="N", type=count, default=20, help="the time for each question to lockexplore and each search, 20 at first")
    p.add_argument("--copies", metavar="N", type=count, default=6, help="most threads of a kind in a plan, 6 at first")
    p.add_argument("--frames", metavar="N", type=int, choices=range(1, 5), help="stack frames that tell locks of different places apart, 1 to 4, 3 at first; with 1 no stack is read")
    p.add_argument("--error-exitcode", metavar="N", type=exit_code, default=STATUS[Grade.DEADLOCK], help="the status for a deadlock, 3 at first; 0 keeps that of the program")
    p.add_argument("--report", metavar="FILE", help="writes the report there")
    p.add_argument("--json", action="store_true", help="prints the report as JSON")
    p.add_argument("--svg", metavar="FILE", help="draws the first deadlock there")
    p.add_argument("-q", "--quiet", action="store_true", help="tells the answer alone, and nothing if there is no deadlock")
    p.add_argument("--version", action="version", version=_version())
    p.add_argument("words", nargs=argparse.REMAINDER, metavar="PROGRAM ARGS..")
    return p


def _parsed() -> argparse.Namespace:
    """The options. A first word names what is done; without one, `run`."""
    args = _parser().parse_args()
    verb = args.words.pop(0) if args.words[:1] and args.words[0] in ("run", "confirm", "report", "hang") else "run"
    if verb != "run" or args.words[:1] and args.words[0].startswith("-"):
        args = _parser().parse_args(args.words, args)  # options may also come after the word
    args.words = args.words[args.words[:1] == ["--"] :]
    args.confirm |= verb == "confirm"
    if verb in ("report", "hang"):
        if len(args.words) != 1:
            _parser().error("which file?" if verb == "report" else "which process?")
        _take_word(args, verb)
    return args


def _take_word(args: argparse.Namespace, verb: str) -> None:
    if verb == "hang":
        try:
            args.hang = pid(args.words[0])
        except ValueError:
            _parser().error(f"'{args.words[0]}' is no process number")
        return
    try:
        with open(args.words[0], "rb") as file:
            is_record = file.read(10) == b"lockrecord"
    except OSError:
        is_record = False
    args.record, args.plan = (args.words[0], None) if is_record else (None, args.words[0])


def _explorer(seconds: int) -> Explorer:
    """The explorer of this repository, unless LOCKEXPLORE names another program."""
    return Explorer(os.environ.get("LOCKEXPLORE") or os.path.join(ROOT, "bin", "lockexplore"), seconds, 1024)


def _fault(text: object) -> int:
    tell(f"lockrecord: {text}")
    return FAILED


def _lacks_record(run: Run, prefix: str, program: str) -> str:
    """Why there is no record of the program itself, or nothing if there is one."""
    if any(pid_of(it, prefix) == run.pid for it in run.records):
        return ""
    if run.signal:
        return f"{program} was ended by signal {run.signal} and left no record"
    return f"{program} left no record: the recorder was not loaded, or could not write there, as with a full disk or as another user"


def _name_of(path: str, prefix: str, name: str, run: Run) -> str:
    """The name of the program's own record is that of the plan. Other processes add theirs, and a program after exec its count."""
    number, again = pid_of(path, prefix), number_of(path, prefix)
    if number == run.pid and again == 1:
        return name
    program = executable_of(path)
    own = f"{name}.{program}" if program and program != os.path.basename(name) else name
    return f"{own}.{number}" + (f".{again}" if again > 1 else "")


def _judge(run: Run, prefix: str, name: str, options: Options) -> list[Judged]:
    found = []
    for path in sorted(run.records, key=lambda it: (pid_of(it, prefix) != run.pid, number_of(it, prefix))):
        called = _name_of(path, prefix, name, run)
        try:
            found.append(judge_record(path, called, options))
        except BadRecord as fault:
            found.append(Judged(os.path.basename(called), Grade.NO_ANSWER, str(fault)))
    return found


def _prefix(args: argparse.Namespace, folder: str) -> str:
    """Where the records go: beside NAME, or if that cannot be written, into a folder that goes at the end."""
    base = os.path.basename(args.words[0])
    kept = os.path.dirname(os.path.abspath(args.name)) if args.name else ""
    if kept and os.path.isdir(kept) and os.access(kept, os.W_OK | os.X_OK):
        return str(args.name)
    if kept:
        say(f"{kept} cannot be written, so that no record is kept")
    return os.path.join(folder, base)


def _run(args: argparse.Namespace, options: Options) -> int:
    check_program(args.words[0])
    recorder = Recorder(library(ROOT), args.frames, args.sem)
    name = args.name or os.path.basename(args.words[0])
    remove_old(name)
    with tempfile.TemporaryDirectory(prefix="lockrecord-") as folder:
        if os.getuid() == 0:
            os.chmod(folder, 0o1777)  # a server that root starts may go on as another user
        prefix = _prefix(args, folder)
        run = recorder.run(args.words, prefix, args.run_seconds)
        judged = _judge(run, prefix, name, options)
        lacks = _lacks_record(run, prefix, args.words[0])
        if lacks:
            judged.insert(0, Judged(os.path.basename(name), Grade.NO_ANSWER, lacks))
        if run.is_ended:
            judged[0].lines.insert(0, f"the program was ended after {args.run_seconds} seconds")
        elif run.status:
            judged[0].lines.insert(0, f"the program ended with {f'signal {run.signal}' if run.signal else f'status {run.status}'}")
        if can_confirm(args.confirm, args.no_confirm, run, judged):
            confirm(recorder, args.words, os.path.join(folder, "again"), options, [args.pause] if args.pause else [200, 1000], run.seconds, judged)
    return _report(args, options, judged, 0 if run.is_ended else run.status)


def _report(args: argparse.Namespace, options: Options, judged: list[Judged], status: int) -> int:
    """Tells the answers, the worst first line last, and returns the status."""
    worst = max((it.grade for it in judged), default=Grade.NONE)
    if worst != Grade.NONE:
        is_deadlock = worst in (Grade.DEADLOCK, Grade.CONFIRMED)
        keeps = args.error_exitcode == 0 and worst != Grade.NO_ANSWER
        status = status if keeps else args.error_exitcode if is_deadlock else STATUS[worst]
    if args.json:
        tell(json.dumps({"version": _version(), "answer": WORDS[worst], "status": status, "records": [it.as_json() for it in judged]}, indent=1))
    else:
        for it in judged:
            if not args.quiet or it.grade != Grade.NONE:
                tell(f"lockrecord: {it.head}")
            for line in [] if args.quiet else it.lines:
                tell(line)
    if args.svg:
        _draw(args.svg, options, judged)
    return status


def _draw(path: str, options: Options, judged: list[Judged]) -> None:
    plan = next((f.plan for it in judged for f in it.findings if f.plan), "")
    picture = options.explorer.picture(plan) if plan else ""
    if not picture:
        tell(f"lockrecord: {path}: there is no deadlock to draw")
        return
    with open(path, "w", encoding="utf-8") as file:
        file.write(picture)


def _judged_plan(path: str, options: Options) -> Judged:
    with open(path, encoding="utf-8", errors="replace") as file:
        text = file.read()
    answer = options.explorer.ask(path, "*" in " ".join(it.partition("#")[0] for it in text.split("\n")))
    judged = Judged(path, Grade.NONE if answer.is_free else Grade.NO_ANSWER, answer.fault)
    hold()
    steps = tell_answer(path, text, answer)
    judged.lines = held()
    if answer.is_stop:
        judged.findings = [Finding(path, Grade.DEADLOCK, steps=steps)]
        judged.settle()
    return judged


def _hang_of_record(args: argparse.Namespace) -> bool:
    record = ask_for_record(args.hang)
    hold()
    is_hung = present_of(record, args.bar)
    lines = held()
    tell(f"lockrecord: {args.hang}: {'deadlock' if is_hung else 'no circle'}")
    for line in lines:
        say(line)
    return is_hung


def _hang(args: argparse.Namespace) -> int:
    """A process that runs under the recorder tells more: where its threads acquired what they hold."""
    is_hung = None
    if is_recorded(args.hang) and not args.json:
        try:
            is_hung = _hang_of_record(args)
        except CannotAsk as fault:
            tell(f"lockrecord: {fault}")
    if is_hung is None:
        is_hung = tell_hang(args.hang, args.json)
    return int(args.error_exitcode) if is_hung else 0


def _main() -> int:
    args = _parsed()
    if args.report:
        to(open(args.report, "w", encoding="utf-8"))  # noqa: SIM115
    if args.json or args.quiet:
        be_silent()
    suppressions = read_suppressions(args.suppressions) if args.suppressions else NO_SUPPRESSIONS
    options = Options(_explorer(args.seconds), args.bar, args.tries_wait, args.copies, suppressions=suppressions)
    if args.plan:
        return _report(args, options, [_judged_plan(args.plan, options)], 0)
    if args.hang:
        return _hang(args)
    if args.record:
        name = args.name or args.record.removesuffix(".rec")
        return _report(args, options, [judge_record(args.record, name, options)], 0)
    if not args.words:
        _parser().error("which program?")
    return _run(args, options)


def main() -> int:
    try:
        return _main()
    except (CannotRecord, CannotAsk, CannotRead, BadRecord, BadSuppressions) as fault:
        return _fault(fault)
    except OSError as fault:
        return _fault(f"{fault.filename}: {fault.strerror}" if fault.filename else fault.strerror)
    except KeyboardInterrupt:
        return _fault("interrupted")
