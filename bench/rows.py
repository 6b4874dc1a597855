#!/usr/bin/env python3
"""How long unions of rows, look-ups of classes and joins of flow models take, by how many libraries and locals there are.

    make bench            builds everything and measures it
    bench/rows.py         builds the program of bench/rows/main.txt, and measures it
    options: --keep FOLDER where the program is built and stays built, --runs N (3), of which the fastest counts

The program stands on `flow_model` and the crates below it, and is built in a repository of its own. It forms rows of many
libraries, of ten classes each, or a model of many locals, and does the same some thousand times. There is a table for each
family, and a line in it for each size:

    size    what the family counts
    forms   milliseconds of forming rows and models
    each    microseconds of doing it once

The times are less those of a program that does nothing. Under each table stand the slopes, as bench/check.py has them: 1 is
time in proportion to the size, 0 is time that doesn't depend on it. A union copies a pointer for each library and puts those
that only the second rows have between those of the first; a look-up is a binary search and a look at a place; and a join
goes through all locals, and shares what is known of those in which the models don't differ.

Nothing fails on time. The status is 1 where the program isn't built or an answer is wrong, 2 where the words are wrong, and
else 0.
"""

import sys
from typing import List, Tuple

from check import Sizes, slope
from programs import answer, main, seconds

# What the program stands on, with the crates below it.
CRATE = "flow_model"

# How long what is done in one run is to take, in seconds.
LONG_ENOUGH = 0.2

FAMILIES = (
    Sizes("union", "the union of rows of every other library and rows of all", "libraries", (125, 250, 500, 1_000)),
    Sizes("class", "a look-up of a class of one library after another", "libraries", (125, 250, 500, 1_000)),
    Sizes("join", "the join of two models that differ in three locals", "locals", (125, 250, 500, 1_000)),
)


def measure(program: str, family: Sizes, empty: float, runs: int) -> bool:
    """Prints the table of a family; false where an answer was wrong."""
    print(f"\n{family.name}: {family.about}")
    print(f"{family.counts:>12} {'forms':>10} {'each':>10}")
    points: Tuple[List[Tuple[int, float]], ...] = ([], [])
    right = True
    for size in family.sizes:
        words = [family.name, str(size)]
        alone, _ = seconds(program, [*words, "0"], runs)
        one, is_right = answer(program, words, alone, LONG_ENOUGH, 1, runs)
        right = right and is_right
        forming = max(0.0, alone - empty)
        for kept, value in zip(points, (forming, one * 1e6)):
            kept.append((size, value))
        wrong = "" if is_right else " WRONG"
        print(f"{size:>12} {forming * 1e3:>10.2f} {one * 1e6:>10.3f}{wrong}", flush=True)
    print(f"{'slope':>12} {slope(points[0]):>10} {slope(points[1]):>10}", flush=True)
    return right


if __name__ == "__main__":
    sys.exit(main(__doc__, "rows", CRATE, ["union", "4", "1"], FAMILIES, measure))
