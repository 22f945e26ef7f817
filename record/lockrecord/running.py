"""Runs the program with the recorder, and finds its records."""

from __future__ import annotations

import glob
import os
import re
import signal
import subprocess
import time
from typing import NamedTuple, Optional

FORWARDED = (signal.SIGTERM, signal.SIGUSR1, signal.SIGHUP)
ENDLESS = re.compile(r"202 \w+ \w+ \w+ 0x0 ")  # in /proc: a wait for a futex without a time limit
SOON = 0.1  # seconds after which nothing moves any more if all threads wait so


class Run(NamedTuple):
    pid: int
    status: int  # 128 and the number of the signal, if one ended it
    signal: int  # 0 if it ended by itself
    seconds: float
    is_ended: bool  # after the time that it had
    records: list[str]  # the oldest first


class Recorder:
    """How the program is run: the library, and what its environment says."""

    def __init__(self, library: str, frames: Optional[int], semaphores: bool) -> None:
        self._env = dict(os.environ)
        self._env["LD_PRELOAD"] = " ".join([library, *self._env.get("LD_PRELOAD", "").split()])
        self._env["LOCKRECORD_PARENT"] = str(os.getpid())
        if frames:
            self._env["LOCKRECORD_FRAMES"] = str(frames)
        if semaphores:
            self._env["LOCKRECORD_SEM"] = "1"
        self._offset = 0  # of standard input, if it is a file

    def run(self, words: list[str], prefix: str, seconds: Optional[float], still: float = 0, **more: str) -> Run:
        """Runs the program to its end. After so many seconds, it gets SIGTERM, and 5 seconds later SIGKILL. A second run ends when nothing moves for a
        time, reads the same file again, or nothing, and its output is discarded."""
        prefix = os.path.abspath(prefix)
        for old in records_of(prefix):
            os.remove(old)
        began = time.monotonic()
        env = {**self._env, "LOCKRECORD_OUT": prefix, **more}
        quiet = subprocess.DEVNULL if still else None
        child = subprocess.Popen(words, env=env, stdin=self._input(still > 0), stdout=quiet, stderr=quiet, start_new_session=still > 0)
        before = [(it, signal.signal(it, lambda number, _: child.send_signal(number))) for it in FORWARDED]
        if not still:
            before.append((signal.SIGINT, signal.signal(signal.SIGINT, lambda *_: None)))  # the terminal sends it to the program too
        try:
            is_ended = _wait(child, _moves(child, seconds or 0, still) if still else seconds)
        finally:
            if still:
                _end_session(child)
            for number, handler in before:
                signal.signal(number, handler)
        code = child.returncode
        return Run(child.pid, code if code >= 0 else 128 - code, max(-code, 0), time.monotonic() - began, is_ended, records_of(prefix))


    def _input(self, is_again: bool) -> Optional[int]:
        try:
            if is_again:
                os.lseek(0, self._offset, os.SEEK_SET)
            else:
                self._offset = os.lseek(0, 0, os.SEEK_CUR)
            return None
        except OSError:  # no file
            return subprocess.DEVNULL if is_again else None


def _session_of(pid: int) -> list[int]:
    """The processes of the session that a process has begun."""
    found = []
    for it in os.listdir("/proc"):
        try:
            if it.isdigit() and os.getsid(int(it)) == pid:
                found.append(int(it))
        except OSError:
            pass
    return found


def _end_session(child: subprocess.Popen[bytes]) -> None:
    """Ends what a second run has left: first by SIGTERM, at which records are written."""
    for number, seconds in ((signal.SIGTERM, 2.0), (signal.SIGKILL, 2.0)):
        end = time.monotonic() + seconds
        for pid in _session_of(child.pid):
            try:
                os.kill(pid, number)
            except OSError:
                pass
        while time.monotonic() < end and (child.poll() is None or _session_of(child.pid)):
            time.sleep(0.02)


def _calls_of(pid: int) -> list[str]:
    """What each thread of the session does, or nothing where /proc does not say."""
    found = []
    for path in sorted(path for it in _session_of(pid) for path in glob.glob(f"/proc/{it}/task/*/syscall")):
        try:
            with open(path, encoding="utf-8") as file:
                found.append(file.read())
        except OSError:
            return []
    return found


def _moves(child: subprocess.Popen[bytes], seconds: float, still: float) -> float:
    """Waits until the program has ended, or nothing in it moves for a time, or it had all its time. Returns 0. If each thread waits for
    a futex without a time limit, no thread is left that could wake one."""
    end = time.monotonic() + seconds
    last, since = [""], time.monotonic()
    while child.poll() is None and time.monotonic() < end:
        now = _calls_of(child.pid)
        if now != last or not now or any(it.startswith("running") for it in now):
            last, since = now, time.monotonic()
        elif time.monotonic() - since > (SOON if all(map(ENDLESS.match, now)) else still):
            break
        time.sleep(0.02)
    return 0


def _wait(child: subprocess.Popen[bytes], seconds: Optional[float]) -> bool:
    """Returns whether the program was ended."""
    try:
        child.wait(seconds)
        return False
    except subprocess.TimeoutExpired:
        child.terminate()
        try:
            child.wait(5)
        except subprocess.TimeoutExpired:
            child.kill()
            child.wait()
        return True


def records_of(prefix: str) -> list[str]:
    """The files PREFIX.PID.rec and PREFIX.PID.K.rec, the oldest first."""
    found = glob.glob(glob.escape(prefix) + ".*.rec")
    found = [it for it in found if re.fullmatch(r"\.\d+(\.\d+)?\.rec", it[len(prefix) :])]
    return sorted(found, key=lambda it: (os.stat(it).st_mtime_ns, it))


def pid_of(record: str, prefix: str) -> int:
    """The number of the process that wrote PREFIX.PID.rec or PREFIX.PID.K.rec."""
    return int(record[len(os.path.abspath(prefix)) + 1 :].split(".")[0])


def number_of(record: str, prefix: str) -> int:
    """K of PREFIX.PID.K.rec, and 1 of PREFIX.PID.rec."""
    words = record[len(os.path.abspath(prefix)) + 1 :].split(".")
    return int(words[1]) if len(words) > 2 else 1


def is_recorded(pid: int) -> bool:
    """Whether the process runs under the recorder."""
    try:
        with open(f"/proc/{pid}/maps", encoding="utf-8", errors="replace") as maps:
            return "liblockrecord.so" in maps.read()
    except OSError:
        return False


class CannotAsk(Exception):
    """The process writes no record."""


def ask_for_record(pid: int, seconds: float = 5.0) -> str:
    """Has a process that runs under the recorder write its record, and returns the path."""
    try:
        with open(f"/proc/{pid}/environ", "rb") as file:
            env = file.read().split(b"\0")
        prefix = next((it.partition(b"=")[2].decode() for it in env if it.startswith(b"LOCKRECORD_OUT=")), "")
        if not prefix:
            raise CannotAsk(f"process {pid} was not started by lockrecord")
        asked = time.time_ns() - 20_000_000  # the clock of files is coarser
        os.kill(pid, signal.SIGUSR1)
    except OSError as fault:
        raise CannotAsk(f"process {pid}: {fault.strerror}") from fault
    end = time.monotonic() + seconds
    while time.monotonic() < end:
        for path in records_of(prefix):
            if pid_of(path, prefix) == pid and os.stat(path).st_mtime_ns >= asked and _is_whole(path):
                return path
        time.sleep(0.05)
    raise CannotAsk(f"process {pid} has written no record in {seconds:.0f} seconds: perhaps it has a handler of its own for SIGUSR1")


def _is_whole(path: str) -> bool:
    with open(path, "rb") as file:
        return file.read().endswith(b"\nend\n")
