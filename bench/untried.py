"""Tries the wrong bodies that the gate doesn't try: the edits `crates/NAME/must-fail/*.md`.

    python3 bench/untried.py               tries those of all crates
    python3 bench/untried.py NAME..        tries those of these crates

They are tried on a copy of the repository as its files now are, in which they end in `.edit` and those that the gate tries
are left out, by `rt must-fail`, which begins with what `rt check` kept on this machine. Each of its lines is printed, and
then the edits of which it doesn't say that the prover refuses them, with how many there are of each kind. The status is 0
only where all are refused. Nothing of the repository is changed.
"""

import argparse
import collections
import glob
import os
import re
import shutil
import subprocess
import sys
import tempfile
from typing import Counter, Dict, List

ROOT = os.path.join(os.path.dirname(os.path.abspath(__file__)), os.pardir)
# What `rt must-fail` says of an edit.
TOLD = re.compile(r"rt: must-fail (\S+)/(\S+)\.edit: (refused, as it must be|NOT REFUSED|BAD EDIT|NOT TRIED)")
REFUSED = "refused, as it must be"


def edits_of(crate: str) -> List[str]:
    """The names of the edits of a crate that the gate passes over, without their ending."""
    found = sorted(glob.glob(os.path.join(ROOT, "crates", crate, "must-fail", "*.md")))
    return [os.path.basename(path)[: -len(".md")] for path in found]


def crates_with_edits(named: List[str]) -> Dict[str, List[str]]:
    """The edits by crate: those of the crates that are named, or of all if none is."""
    crates = named or sorted(os.listdir(os.path.join(ROOT, "crates")))
    return {crate: edits for crate in crates if (edits := edits_of(crate))}


def copy_into(room: str, edits: Dict[str, List[str]]) -> None:
    """Copies the repository without what checks made, each edit under the ending that `rt must-fail` reads."""
    for name in ("crates.txt", "HANDLES"):
        shutil.copy(os.path.join(ROOT, name), room)
    shutil.copytree(os.path.join(ROOT, "crates"), os.path.join(room, "crates"), ignore=shutil.ignore_patterns("out", "must-fail"))
    for crate, names in edits.items():
        folder = os.path.join(room, "crates", crate, "must-fail")
        os.mkdir(folder)
        for name in names:
            shutil.copy(os.path.join(ROOT, "crates", crate, "must-fail", f"{name}.md"), os.path.join(folder, f"{name}.edit"))


def told_by(room: str, crates: List[str]) -> Dict[str, str]:
    """Runs `rt must-fail` on the copy, prints what it says, and gives what it says of each edit."""
    told: Dict[str, str] = {}
    tries = subprocess.Popen(["rt", "must-fail", *crates], cwd=room, stdout=subprocess.PIPE, stderr=subprocess.STDOUT, text=True, errors="replace")
    for line in tries.stdout or []:
        print(line, end="", flush=True)
        if found := TOLD.match(line):
            told[f"{found[1]}/{found[2]}"] = found[3]
    tries.wait()
    return told


def summary(edits: Dict[str, List[str]], told: Dict[str, str]) -> int:
    """Prints which edits aren't refused, and how many are, and gives how many aren't."""
    kinds: Counter[str] = collections.Counter()
    for edit in (f"{crate}/{name}" for crate, names in edits.items() for name in names):
        kind = told.get(edit, "not told of")
        kinds[kind] += 1
        if kind != REFUSED:
            print(f"{edit}: {kind}")
    print("; ".join(f"{count} {kind}" for kind, count in kinds.most_common()) or "no edits")
    return sum(kinds.values()) - kinds[REFUSED]


def main() -> int:
    words = argparse.ArgumentParser(description="Tries the wrong bodies that the gate passes over.")
    words.add_argument("crates", nargs="*", metavar="NAME", help="the crates whose edits are tried, all if none is named")
    edits = crates_with_edits(words.parse_args().crates)
    if not edits:
        print("no edits")
        return 0
    with tempfile.TemporaryDirectory(prefix="untried-") as room:
        copy_into(room, edits)
        told = told_by(room, list(edits))
    return 1 if summary(edits, told) else 0


if __name__ == "__main__":
    sys.exit(main())
