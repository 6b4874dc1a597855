"""A run of a program: its seconds, the most memory that it held, how it ended and what it wrote.

The program is started by a small process of its own. What Linux tells of a child counts what the process held from which
it was started, so a script that holds large texts would be told of them in place of the program.
"""

import os
import signal
import subprocess
import sys
import threading
from dataclasses import dataclass
from typing import BinaryIO, List, Optional

# Runs the words behind the first, and writes seconds, memory and status to the file with the number that is the first.
STARTER = """
import os, subprocess, sys, time
start = time.perf_counter()
child = subprocess.Popen(sys.argv[2:])
_, status, usage = os.wait4(child.pid, 0)
seconds = time.perf_counter() - start
told = f"{seconds} {usage.ru_maxrss} {os.waitstatus_to_exitcode(status)}"
os.write(int(sys.argv[1]), told.encode())
"""


@dataclass(frozen=True)
class Run:
    """How a run went. The status is below 0 where a signal ended it."""

    seconds: float
    bytes_held: int
    status: int
    output: bytes


def end_all(group: int) -> None:
    """Kills the processes of a group, if there are some."""
    try:
        os.killpg(group, signal.SIGKILL)
    except ProcessLookupError:
        pass


def measured(words: List[str], sink: BinaryIO, source: Optional[BinaryIO] = None, limit: Optional[float] = None) -> Run:
    """Runs a program on an input, none if none is given, and kills it where it takes longer than the limit."""
    reading, writing = os.pipe()
    command = [sys.executable, "-S", "-c", STARTER, str(writing), *words]
    given = subprocess.DEVNULL if source is None else source
    child = subprocess.Popen(command, stdin=given, stdout=sink, pass_fds=(writing,), start_new_session=True)
    os.close(writing)
    timer = threading.Timer(limit, end_all, (child.pid,)) if limit is not None else None
    if timer is not None:
        timer.start()
    with os.fdopen(reading, "rb") as told:
        words_told = told.read().split()
    child.wait()
    if timer is not None:
        timer.cancel()
    sink.seek(0)
    if len(words_told) != 3:
        return Run(limit or 0.0, 0, -signal.SIGKILL, sink.read())
    unit = 1 if sys.platform == "darwin" else 1024
    return Run(float(words_told[0]), int(words_told[1]) * unit, int(words_told[2]), sink.read())
