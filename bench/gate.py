"""Where the time of the gate goes: minutes of proof, of tests and of must-fail edits by crate, and seconds by edit.

    python3 bench/gate.py --record LOG       runs `rt ci` in this repository and keeps what it prints in LOG, each line
                                             behind the second in which it came, and each second which checks ran
    python3 bench/gate.py --watch PID LOG    keeps in LOG which checks run, each second, of an `rt ci` that runs already
    python3 bench/gate.py LOG                prints the tables of such a log

A minute in the table is one check that ran for a minute, so checks that run side by side count each; the last line has
the time on the clock. The crates and the edits stand in the order of what they cost. An edit is known by its text; `(as
it stands)` is the check of the crate without an edit with which its edits begin and end. Linux alone, since it looks at
/proc. What `rt ci` prints has no seconds in it, so of a log of that alone only what came of each crate and edit is told.
"""

import argparse
import collections
import functools
import glob
import os
import re
import signal
import subprocess
import sys
import threading
import time
from typing import Callable, Counter, Dict, Iterator, List, Optional, TextIO, Tuple

KINDS = ("proof", "tests", "edits")
HERE = os.path.dirname(os.path.abspath(__file__))


def text_of(path: str) -> str:
    """The text of a file, empty where there is none."""
    try:
        with open(path, encoding="utf-8") as it:
            return it.read()
    except OSError:
        return ""


def applied(edit: str, crate: str) -> Dict[str, str]:
    """The files that an edit changes, with their texts then."""
    texts: Dict[str, str] = {}
    path, old = "", ""
    for line in text_of(edit).split("\n"):
        word, _, rest = line.partition(":")
        rest = rest[1:]
        if word == "file":
            path = rest
            texts.setdefault(path, text_of(f"{crate}/{path}"))
        elif word == "old":
            old = rest
        elif word == "new" and path:
            texts[path] = texts[path].replace(old, rest, 1)
    return texts


@functools.lru_cache(maxsize=None)
def edit_of(folder: str, crate: str) -> str:
    """The name of the edit that is tried in this folder, a copy of the crate."""
    own = os.path.join(HERE, os.pardir, "crates", crate)
    for edit in sorted(glob.glob(f"{own}/must-fail/*.edit")):
        texts = applied(edit, own)
        if texts and all(text == text_of(f"{folder}/{path}") for path, text in texts.items()):
            return os.path.basename(edit)[: -len(".edit")]
    return "(as it stands)"


def check_of(pid: str, session: int) -> Optional[Tuple[str, ...]]:
    """The crate that this process checks, what for and, of an edit, its name, if it is a check of the session."""
    try:
        if os.getsid(int(pid)) != session:
            return None
        with open(f"/proc/{pid}/cmdline", "rb") as it:
            words = it.read().decode(errors="replace").split("\0")
        folder = os.readlink(f"/proc/{pid}/cwd")
    except OSError:
        return None
    if not words[0].endswith("/rattle") or "--crate-name" not in words:
        return None
    crate = words[words.index("--crate-name") + 1]
    if "/rt-edit-" in folder:
        return crate, "edits", edit_of(folder, crate)
    return crate, "tests" if "--test" in words else "proof"


def checks_of(session: int) -> List[Tuple[str, ...]]:
    """The checks that run now: a check that shares its work among processes counts once."""
    found = (check_of(pid, session) for pid in os.listdir("/proc") if pid.isdigit())
    return sorted({it for it in found if it is not None})


def keeper(kept: TextIO) -> Callable[[str], None]:
    """What keeps a line in a log, behind the second in which it comes."""
    start, lock = time.monotonic(), threading.Lock()

    def keep(line: str) -> None:
        with lock:
            kept.write(f"{time.monotonic() - start:.0f}\t{line}\n")
            kept.flush()

    return keep


def sample(keep: Callable[[str], None], session: int, runs: Callable[[], bool]) -> None:
    """Keeps each second which checks of the session run, as long as it runs."""
    while runs():
        for check in checks_of(session):
            keep("\t".join(("@", *check)))
        time.sleep(1)


def record(log: str) -> int:
    """Runs the gate, and keeps its lines and its checks."""
    gate = subprocess.Popen(["rt", "ci"], cwd=os.path.join(HERE, os.pardir), stdout=subprocess.PIPE, stderr=subprocess.STDOUT, text=True, errors="replace", start_new_session=True)
    with open(log, "w", encoding="utf-8") as kept:
        keep = keeper(kept)
        threading.Thread(target=sample, args=(keep, gate.pid, lambda: gate.poll() is None), daemon=True).start()
        try:
            for line in gate.stdout or []:
                print(line, end="", flush=True)
                keep(line.rstrip("\n"))
        except KeyboardInterrupt:
            os.killpg(gate.pid, signal.SIGTERM)
        return gate.wait()


def watch(pid: int, log: str) -> int:
    """Keeps the checks of a gate that runs already."""
    with open(log, "w", encoding="utf-8") as kept:
        sample(keeper(kept), os.getsid(pid), lambda: os.path.isdir(f"/proc/{pid}"))
    return 0


def lines_of(log: str) -> Iterator[Tuple[int, List[str]]]:
    """The lines of a log, each with its second."""
    with open(log, encoding="utf-8") as kept:
        for line in kept:
            second, *parts = line.rstrip("\n").split("\t")
            if second.isdigit():
                yield int(second), parts


def plain(log: str) -> int:
    """Prints what a log without seconds tells: the crates that are proved, and what came of each edit."""
    crates, edits, verdict = [], [], "no verdict"
    for line in text_of(log).split("\n"):
        if found := re.match(r"rt: (\S+) (?:(proved)$|is (kept): )", line):
            crates.append(f"{found[1]} {found[2] or found[3]}")
        elif found := re.match(r"rt: must-fail (\S+)\.edit: ([^:(]*)", line):
            edits.append(f"{found[1]}: {found[2].strip()}")
        elif " passed, " in line and " failed" in line:
            verdict = line
    print("\n".join([*crates, *edits]))
    print(f"{len(crates)} crates proved, {len(edits)} edits tried; {verdict}. This log has no seconds: --record or --watch keeps them")
    return 0 if crates or edits else 1


def row(name: str, spent: Counter[str]) -> str:
    """A line of the table of crates, in minutes."""
    return f"{name:<18}" + "".join(f"{spent[kind] / 60:8.1f}" for kind in KINDS) + f"{sum(spent.values()) / 60:8.1f}"


def table(log: str) -> int:
    """Prints the minutes by crate, the seconds by edit, and when the last check of each kind was seen."""
    seconds: Dict[str, Counter[str]] = collections.defaultdict(collections.Counter)
    edits: Counter[str] = collections.Counter()
    last: Dict[str, int] = {}
    end, verdict = 0, "no verdict"
    for second, parts in lines_of(log):
        end = max(end, second)
        if len(parts) > 2 and parts[0] == "@" and parts[2] in KINDS:
            # (edits of one crate that are tried side by side count each)
            seconds[parts[1]][parts[2]] += 1
            edits.update(f"{parts[1]}/{name}" for name in parts[3:])
            last[parts[2]] = second
        elif parts and parts[-1].endswith(" failed") and " passed, " in parts[-1]:
            verdict = parts[-1]
    if not seconds:
        return plain(log)
    print(f"{'crate':<18}" + "".join(f"{kind:>8}" for kind in (*KINDS, "all")))
    for crate, spent in sorted(seconds.items(), key=lambda it: -sum(it[1].values())):
        print(row(crate, spent))
    print(row("all", sum(seconds.values(), collections.Counter())))
    if edits:
        print(f"\n{'edit':<56} seconds")
        for name, spent_on in edits.most_common():
            print(f"{name:<56}{spent_on:8}")
        print()
    ends = ", ".join(f"{kind} until {last[kind] / 60:.0f}" for kind in KINDS if kind in last)
    print(f"minutes on the clock: {end / 60:.0f} ({ends}); {verdict}")
    return 0


def main() -> int:
    words = argparse.ArgumentParser(description="Minutes of the gate by crate, and seconds by edit.")
    words.add_argument("--record", action="store_true", help="run the gate and keep its log")
    words.add_argument("--watch", type=int, metavar="PID", help="keep the log of the gate with this process id")
    words.add_argument("log", help="the log")
    given = words.parse_args()
    if given.watch is not None:
        return watch(given.watch, given.log)
    return record(given.log) if given.record else table(given.log)


if __name__ == "__main__":
    sys.exit(main())
