"""Programs that the scripts of this folder build of a text, in a repository of their own, and measure."""

import argparse
import os
import shutil
import subprocess
import sys
import tempfile
import time
from typing import Callable, Dict, List, Optional, Set, Tuple

from check import Sizes

HERE = os.path.dirname(os.path.abspath(__file__))
CRATES = os.path.join(HERE, os.pardir, "crates")
CRATES_LIST = os.path.join(HERE, os.pardir, "crates.txt")


def with_those_below(crate: str) -> Dict[str, str]:
    """A crate of this repository and those that it stands on, each with what it stands on itself, by crates.txt."""
    listed: Dict[str, str] = {}
    with open(CRATES_LIST, encoding="utf-8") as lines:
        for line in lines:
            name, colon, stands_on = line.partition(":")
            if colon and not line.startswith("#"):
                listed[name.strip()] = stands_on.strip()
    waiting: List[str] = [crate]
    wanted: Set[str] = set()
    while waiting:
        name = waiting.pop()
        if name in listed and name not in wanted:
            wanted.add(name)
            waiting += listed[name].split()
    return {name: stands_on for name, stands_on in listed.items() if name in wanted}


def built(folder: str, name: str, crate: str, words: List[str]) -> Optional[str]:
    """The path of the program of bench/NAME/main.txt over a crate and those below it, which is built in a folder and run once
    with these words; nothing where that fails."""
    crates = os.path.join(folder, "crates")
    below = with_those_below(crate)
    for it in below:
        shutil.copytree(os.path.join(CRATES, it), os.path.join(crates, it), dirs_exist_ok=True, ignore=shutil.ignore_patterns("out"))
    source = os.path.join(crates, name, "src")
    os.makedirs(source, exist_ok=True)
    shutil.copyfile(os.path.join(HERE, name, "main.txt"), os.path.join(source, "main.rt"))
    with open(os.path.join(folder, "crates.txt"), "w", encoding="utf-8") as lines:
        for it, stands_on in below.items():
            lines.write(f"{it}: {stands_on}".rstrip() + "\n")
        lines.write(f"{name}: {' '.join(below)}\n")
    run = subprocess.run(["rt", "run", "--", *words], cwd=os.path.join(crates, name), capture_output=True, text=True)
    program = os.path.join(crates, name, "out", name)
    if run.returncode != 0 or not os.path.isfile(program):
        sys.stderr.write(run.stdout + run.stderr)
        return None
    return program


def seconds(program: str, words: List[str], runs: int) -> Tuple[float, str]:
    """The seconds of the fastest of some runs, and what the last of them wrote."""
    fastest, written = float("inf"), ""
    for _ in range(runs):
        start = time.perf_counter()
        run = subprocess.run([program, *words], capture_output=True, text=True)
        fastest = min(fastest, time.perf_counter() - start)
        written = run.stdout.strip() if run.returncode == 0 else f"status {run.returncode}"
    return fastest, written


def answer(program: str, words: List[str], alone: float, enough: float, each: int, runs: int) -> Tuple[float, bool]:
    """The seconds of one answer to the question of these words, and whether it counts as it should: `each` times as many
    times as it is asked. It is asked until that takes `enough` seconds more than `alone`."""
    times = 1
    while True:
        whole, written = seconds(program, [*words, str(times)], runs)
        if written != str(each * times):
            return 0.0, False
        if whole - alone >= enough or times >= 100_000_000:
            return max(0.0, whole - alone) / times, True
        times *= 4


def measured_in(folder: str, name: str, crate: str, words: List[str], families: Tuple[Sizes, ...], measure: Callable[[str, Sizes, float, int], bool], runs: int) -> int:
    """Builds the program in a folder and measures each family; the status of the script."""
    program = built(folder, name, crate, words)
    if program is None:
        return 1
    empty, _ = seconds(program, [], 5)
    print(f"a program that does nothing: {empty * 1e3:.2f} milliseconds")
    right = [measure(program, family, empty, runs) for family in families]
    return 0 if all(right) else 1


def main(about: str, name: str, crate: str, words: List[str], families: Tuple[Sizes, ...], measure: Callable[[str, Sizes, float, int], bool]) -> int:
    """Reads the words of a script and measures the families of its program, which stands on a crate; `words` are a first run."""
    options = argparse.ArgumentParser(description=about.split("\n")[0], epilog="The head of the script says how to read the tables.")
    options.add_argument("--keep", metavar="FOLDER", help="where the program is built; else a folder that is removed at the end")
    options.add_argument("--runs", type=int, default=3, metavar="N", help="runs a figure, of which the fastest counts")
    given = options.parse_args()
    if given.runs < 1:
        options.error("no runs")
    if given.keep is not None:
        return measured_in(given.keep, name, crate, words, families, measure, given.runs)
    with tempfile.TemporaryDirectory() as folder:
        return measured_in(folder, name, crate, words, families, measure, given.runs)
