#!/usr/bin/env python3
"""How long the tree of a text takes, with what is wrong in it, by the size of the text.

    make bench                  builds the programs and measures everything
    bench/units.py              measures the program that is built
    bench/units.py ordinary ..  some of the families alone
    options: --binary PATH of another program, --runs N (3), of which the fastest counts

Each run is one of `unit_lines`, which is fed one line and prints what is wrong with the tree of its text. There is a
table for each family of texts, and a line in it for each size:

    size    what the family counts
    bytes   of the text
    seconds of the run, less those of a run without a line
    ratio   of the seconds to those of the size before: where sizes double, 2 is time in proportion
    held    the most memory that the run held, in bytes for each byte of the text

Under each table stands the slope, as bench/check.py has it. Nothing fails on time. The status is 1 where a run doesn't end
with status 0 or finds another number of faults than the text has, and else 0.
"""

import os
import sys
import tempfile
from dataclasses import dataclass
from typing import Callable, List, Tuple

from check import ORDINARY, Sizes, numbered, shared_words, slope, with_program
from measured import Run, measured

# Where `rt run` builds the program.
BINARY = os.path.join(os.path.dirname(os.path.abspath(__file__)), os.pardir, "crates", "unit_lines", "out", "unit_lines")

# What `ORDINARY` has in as few bytes as can be, without line feeds, comments or long names: some two and a half bytes a
# token. `N` is a number that no other has.
DENSE = (
    "int fN(int a, List<String> b) { var x = a + b.length * 2; "
    "if (x > 3 && a != null) { print('$x of ${b[0]}'); } else { x = g(a, b)?.h[1] ?? 0; } "
    "for (var i = 0; i < x; i++) { b.add(i.toString()); } return x; } "
    "class CN<T extends Object> extends B with M implements I<T> { final int p, q; T? value; "
    "CN(this.p, this.q, {required this.value}) : super(p); T get v => value!; "
    "bool operator ==(Object o) => o is CN && o.p == p; static Map<String, int> m = {'a': 1, 'b': 2}; } "
)


def rightly(code: str) -> Callable[[int], Tuple[str, int]]:
    """So many times this code, in which nothing derives nothing."""
    return lambda count: (numbered(code, count), 0)


def of_many(text: str) -> Callable[[int], Tuple[str, int]]:
    """So many of a text that derives nothing, each an error."""
    return lambda count: (text * count, count)


def nested(opening: str, closing: str, faults: int) -> Callable[[int], Tuple[str, int]]:
    """So many groups in one another, behind the head of a function."""
    return lambda count: ("void f()" + opening * count + closing * count, faults)


@dataclass(frozen=True)
class Family(Sizes):
    """Texts of one form, and how many faults each has."""

    text: Callable[[int], Tuple[str, int]]


FAMILIES = (
    Family("ordinary", "classes and functions as people write them: 1, 2 and 4 MB", "of them", (780, 1_560, 3_100), rightly(ORDINARY)),
    Family("dense", "functions and classes in few bytes: 0.8, 1.6 and 3.3 MB", "of them", (1_700, 3_400, 6_800), rightly(DENSE)),
    Family("items", "items that derive nothing", "items", (140_000, 280_000, 560_000), of_many("x y z; ")),
    Family("members", "members that derive nothing, in classes of one", "classes", (50_000, 100_000, 200_000), of_many("class A{x y z;} ")),
    Family("semicolons", "items of one byte that derive nothing", "items", (1_000_000, 2_000_000, 4_000_000), of_many(";")),
    Family("parentheses", "parentheses in one another", "groups", (500_000, 1_000_000, 2_000_000), nested("(", ")", 1)),
    Family("braces", "braces in one another", "groups", (500_000, 1_000_000, 2_000_000), nested("{", "}", 1)),
)


def run_once(binary: str, lines: bytes) -> Run:
    """The program over these lines."""
    with tempfile.TemporaryFile() as source, tempfile.TemporaryFile() as sink:
        source.write(lines)
        source.seek(0)
        return measured([binary], sink, source)


def best(binary: str, lines: bytes, runs: int) -> Run:
    """The fastest of some runs, or the first that doesn't end as it should."""
    made: List[Run] = []
    for _ in range(runs):
        made.append(run_once(binary, lines))
        if made[-1].status != 0:
            return made[-1]
    return min(made, key=lambda run: run.seconds)


def measure(binary: str, family: Family, start_up: float, runs: int) -> bool:
    """Prints the table of a family; false where a run went wrong."""
    print(f"\n{family.name}: {family.about}")
    print(f"{family.counts:>12} {'bytes':>10} {'seconds':>9} {'ratio':>7} {'held':>7}")
    points: List[Tuple[int, float]] = []
    right = True
    for size in family.sizes:
        text, faults = family.text(size)
        run = best(binary, b"faults " + text.replace("\n", "¶").encode() + b"\n", runs)
        found = run.output.count(b"@")
        if run.status != 0 or found != faults:
            right = False
            print(f"{size:>12} {len(text):>10} WRONG: status {run.status}, {found} faults, not {faults}", flush=True)
            continue
        seconds = max(1e-9, run.seconds - start_up)
        ratio = f"{seconds / points[-1][1]:.1f}" if points else ""
        points.append((size, seconds))
        print(f"{size:>12} {len(text):>10} {seconds:>9.4f} {ratio:>7} {run.bytes_held / len(text):>7.0f}", flush=True)
    print(f"{'slope':>12} {'':>10} {slope(points):>9}", flush=True)
    return right


def main() -> int:
    words = shared_words(__doc__)
    words.set_defaults(binary=BINARY)
    words.add_argument("families", nargs="*", metavar="FAMILY", help="which texts; all, if none are named")
    given = words.parse_intermixed_args()
    unknown = [name for name in given.families if name not in [family.name for family in FAMILIES]]
    if unknown:
        words.error(f"no such family: {' '.join(unknown)}")
    with_program(words, given)
    empty = best(given.binary, b"", 5)
    print(f"no line: {empty.seconds:.4f} seconds, status {empty.status}")
    chosen = [family for family in FAMILIES if not given.families or family.name in given.families]
    right = [measure(given.binary, family, empty.seconds, given.runs) for family in chosen]
    return 0 if all(right) and empty.status == 0 else 1


if __name__ == "__main__":
    sys.exit(main())
