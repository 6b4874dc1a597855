#!/usr/bin/env python3
"""How long upper bounds and the inference of type arguments take, by the size of the types.

    make bench            builds everything and measures it
    bench/bounds.py       builds the program of bench/bounds/main.txt, and measures it
    options: --keep FOLDER where the program is built and stays built, --runs N (3), of which the fastest counts

The program stands on `type_infer` and the crates below it, and is built in a repository of its own. It forms rows and types,
and asks some thousand times for the upper bound of two types, or for the type argument of a call. There is a table for each
family, and a line in it for each size:

    size    what the family counts
    forms   milliseconds of forming rows and types
    answer  microseconds of an answer

The times are less those of a program that does nothing. Under each table stand the slopes, as bench/check.py has them: 1 is
time in proportion to the size. A bound of two types in which classes or function types are nested asks at each level
whether the one is a subtype of the other, so its slope is 2.

Nothing fails on time. The status is 1 where the program isn't built or an answer is missing, 2 where the words are wrong, and
else 0.
"""

import sys
from typing import List, Tuple

from check import Sizes, slope
from programs import answer, main, seconds

# What the program stands on, with the crates below it.
CRATE = "type_infer"

# How long the questions of one run are to take, in seconds.
LONG_ENOUGH = 0.2

FAMILIES = (
    Sizes("nesting", "upper bound: a class of a class of a class .., as deep as a type may be at last", "classes", (250, 500, 1_000, 4_000)),
    Sizes("parameters", "upper bound: function types of many parameters", "parameters", (250, 500, 1_000, 2_000)),
    Sizes("results", "upper bound: function types whose result is a function type whose result ..", "function types", (250, 500, 1_000, 4_000)),
    Sizes("callbacks", "upper bound: function types whose parameter is a function type whose parameter ..", "function types", (250, 500, 1_000, 2_000)),
    Sizes("diamonds", "upper bound: two classes above diamonds, one above another", "diamonds", (10, 20, 40, 80)),
    Sizes("chain", "upper bound: a variable whose bound is a variable whose bound .., and a class", "variables", (5_000, 10_000, 20_000, 40_000)),
    Sizes("marks", "upper bound: the same, where each bound has a `?`", "variables", (5_000, 10_000, 20_000, 40_000)),
    Sizes("formal", "inference: one argument whose formal is a class of a class of a class .. of the parameter", "classes", (250, 500, 1_000, 4_000)),
    Sizes("arguments", "inference: many arguments of one type parameter", "arguments", (250, 500, 1_000, 2_000)),
)


def measure(program: str, family: Sizes, empty: float, runs: int) -> bool:
    """Prints the table of a family; false where an answer was missing."""
    print(f"\n{family.name}: {family.about}")
    print(f"{family.counts:>12} {'forms':>10} {'answer':>10}")
    points: Tuple[List[Tuple[int, float]], ...] = ([], [])
    right = True
    for size in family.sizes:
        words = [family.name, str(size)]
        alone, _ = seconds(program, [*words, "0"], runs)
        one, is_given = answer(program, words, alone, LONG_ENOUGH, 1, runs)
        right = right and is_given
        forming = max(0.0, alone - empty)
        for kept, value in zip(points, (forming, one * 1e6)):
            kept.append((size, value))
        missing = "" if is_given else " MISSING"
        print(f"{size:>12} {forming * 1e3:>10.2f} {one * 1e6:>10.3f}{missing}", flush=True)
    print(f"{'slope':>12} {slope(points[0]):>10} {slope(points[1]):>10}", flush=True)
    return right


if __name__ == "__main__":
    sys.exit(main(__doc__, "bounds", CRATE, ["nesting", "1", "1"], FAMILIES, measure))
