#!/usr/bin/env python3
"""How long the test of subtyping takes, by the size of the types and of the rows.

    make bench            builds everything and measures it
    bench/subtypes.py     builds the program of bench/subtypes/main.txt, and measures it
    options: --keep FOLDER where the program is built and stays built, --runs N (3), of which the fastest counts

The program stands on `dart_types` alone, and is built in a repository of its own. It forms rows and two types, and asks
some thousand times whether the one is a subtype of the other. There is a table for each family, and a line in it for each
size:

    size    what the family counts
    rows    milliseconds of forming rows and types, with the superinterfaces of each class
    yes     microseconds of an answer that is yes
    no      microseconds of an answer that is no

The times are less those of a program that does nothing. Under each table stand the slopes, as bench/check.py has them: 1 is
time in proportion to the size, 0 is time that doesn't depend on it.

Nothing fails on time. The status is 1 where the program isn't built or an answer is wrong, 2 where the words are wrong, and
else 0.
"""

import sys
from typing import List, Tuple

from check import Sizes, slope
from programs import answer, main, seconds

# What the program stands on, with the crates below it.
CRATE = "dart_types"

# How long the questions of one run are to take, in seconds.
LONG_ENOUGH = 0.2


FAMILIES = (
    Sizes("diamonds", "diamonds of classes, one above another: the lowest class and the highest", "diamonds", (10, 20, 40, 80)),
    Sizes("rows", "classes beside each other: one in the middle, and the one above it", "classes", (1_000, 2_000, 4_000, 8_000)),
    Sizes("nesting", "a class of a class of a class .., as deep as a type may be at last", "classes", (250, 500, 1_000, 4_000)),
    Sizes("results", "a function type whose result is a function type whose result ..", "function types", (250, 500, 1_000, 4_000)),
    Sizes("bounds", "a type variable whose bound is a variable whose bound ..", "variables", (1_000, 2_000, 4_000)),
    Sizes("parameters", "function types of many parameters", "parameters", (250, 500, 1_000)),
)


def measure(program: str, family: Sizes, empty: float, runs: int) -> bool:
    """Prints the table of a family; false where an answer was wrong."""
    print(f"\n{family.name}: {family.about}")
    print(f"{family.counts:>12} {'rows':>10} {'yes':>10} {'no':>10}")
    points: Tuple[List[Tuple[int, float]], ...] = ([], [], [])
    right = True
    for size in family.sizes:
        alone, _ = seconds(program, [family.name, str(size), "yes", "0"], runs)
        yes, is_yes = answer(program, [family.name, str(size), "yes"], alone, LONG_ENOUGH, 1, runs)
        no, is_no = answer(program, [family.name, str(size), "no"], alone, LONG_ENOUGH, 0, runs)
        right = right and is_yes and is_no
        forming = max(0.0, alone - empty)
        for kept, value in zip(points, (forming, yes * 1e6, no * 1e6)):
            kept.append((size, value))
        wrong = "" if is_yes and is_no else " WRONG"
        print(f"{size:>12} {forming * 1e3:>10.2f} {yes * 1e6:>10.3f} {no * 1e6:>10.3f}{wrong}", flush=True)
    print(f"{'slope':>12} {slope(points[0]):>10} {slope(points[1]):>10} {slope(points[2]):>10}", flush=True)
    return right


if __name__ == "__main__":
    sys.exit(main(__doc__, "subtypes", CRATE, ["nesting", "1", "yes", "1"], FAMILIES, measure))
