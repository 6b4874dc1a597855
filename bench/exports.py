#!/usr/bin/env python3
"""How long it takes to find what libraries export, by how many libraries there are.

    make bench            builds everything and measures it
    bench/exports.py      builds the program of bench/exports/main.txt, and measures it
    options: --keep FOLDER where the program is built and stays built, --runs N (3), of which the fastest counts

The program stands on `namespaces` and the crates below it, and is built in a repository of its own. It forms libraries that
export each other, and finds some times what they export. There is a table for each family, and a line in it for each size:

    size    how many libraries there are, or how many names one of them declares
    pairs   how many names they export, counted once for each library
    forms   milliseconds of forming the libraries
    each    milliseconds of finding what they export
    ratio   how many times as long that takes as at the size before, and, behind a slash, how many times as many pairs it finds

The times are less those of a program that does nothing. The size doubles from line to line. Where all libraries export each
other, twice as many have four times as many exports, each of which is looked at once; and twice as many names, each of which
is found in twice as many libraries. So a ratio near that of the pairs is time in proportion to what is found.

Nothing fails on time. The status is 1 where the program isn't built or an answer is wrong, 2 where the words are wrong, and
else 0.
"""

import sys
from typing import Callable, Dict, Optional, Tuple

from check import Sizes
from programs import answer, main, seconds

# What the program stands on, with the crates below it.
CRATE = "namespaces"

# How long what is done in one run is to take, in seconds.
LONG_ENOUGH = 0.2

FAMILIES = (
    Sizes("chain", "each exports the next, and all declare one name", "libraries", (5_000, 10_000)),
    Sizes("deep", "each exports the next and declares a name of its own", "libraries", (1_000, 2_000)),
    Sizes("whole", "each but the first exports all others, and declares a name of its own", "libraries", (500, 1_000)),
    Sizes("same", "the same, where all declare one name too", "libraries", (500, 1_000)),
    Sizes("names", "one declares so many names, and another exports it", "names", (10_000, 20_000)),
)

# How many pairs so many libraries of a family export.
PAIRS: Dict[str, Callable[[int], int]] = {
    "chain": lambda size: size,
    "deep": lambda size: size * (size + 1) // 2,
    "whole": lambda size: 1 + (size - 1) ** 2,
    "same": lambda size: 2 + (size - 1) * size,
    "names": lambda size: 2 * size,
}


def measure(program: str, family: Sizes, empty: float, runs: int) -> bool:
    """Prints the table of a family; false where an answer was wrong."""
    print(f"\n{family.name}: {family.about}")
    print(f"{family.counts:>12} {'pairs':>10} {'forms':>10} {'each':>10} {'ratio':>14}")
    before: Optional[Tuple[int, float]] = None
    right = True
    for size in family.sizes:
        words = [family.name, str(size)]
        pairs = PAIRS[family.name](size)
        alone, _ = seconds(program, [*words, "0"], runs)
        one, is_right = answer(program, words, alone, LONG_ENOUGH, pairs, runs)
        right = right and is_right
        ratio = f"{one / before[1]:.1f} / {pairs / before[0]:.1f}" if before and before[1] > 0 else ""
        before = (pairs, one)
        wrong = "" if is_right else " WRONG"
        print(f"{size:>12} {pairs:>10} {max(0.0, alone - empty) * 1e3:>10.2f} {one * 1e3:>10.2f} {ratio:>14}{wrong}", flush=True)
    return right


if __name__ == "__main__":
    sys.exit(main(__doc__, "exports", CRATE, ["whole", "4", "1"], FAMILIES, measure))
