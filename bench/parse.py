#!/usr/bin/env python3
"""How long hostile texts take to parse, by their size.

    make bench                  builds the programs and measures everything
    bench/parse.py              measures the program that is built
    bench/parse.py closures ..  some of the families alone
    bench/parse.py --list       the families
    options: --binary PATH of another program, --runs N (3), of which the fastest counts, --limit SECONDS (300) of a run

Each run is one of `unit_lines`, which is fed one line and prints what it reads as. There is a table for each family of
texts, and a line in it for each size:

    size    what the family counts
    bytes   of the text
    seconds of the run, less those of a run without a line
    ratio   of the seconds to those of the size before: where sizes double, 2 is time in proportion

Under each table stands the slope, as bench/check.py has it. Where the depth of a text grows and its parts are read more
than once at each level, the ratio grows with the size.

Nothing fails on time. The status is 1 where a run doesn't end with status 0 or prints another notation than the one that
is expected of the text, 2 where the words are wrong, and else 0.
"""

import os
import subprocess
import sys
import time
from dataclasses import dataclass
from typing import Callable, List, Optional, Tuple

from check import Sizes, shared_words, slope, with_program

# Where `rt run` builds the program.
BINARY = os.path.join(os.path.dirname(os.path.abspath(__file__)), os.pardir, "crates", "unit_lines", "out", "unit_lines")

# Texts, each with its notation.


def nested_closures(depth: int) -> Tuple[str, str]:
    """Closures that derive no statement, in one another: only the outermost are looked at."""
    text = "b;"
    for _ in range(depth):
        text = "a-(){" + text + "}-(){c;}@;"
    return "{" + text + "}", "(block {(error) (error) (error)})"


def nested_functions(depth: int) -> Tuple[str, str]:
    """Functions in one another, each behind closures that derive no statement."""
    text, notation = "b;", "b;"
    for _ in range(depth):
        text = "a-(){b;}-(){c;}@;f(){" + text + "}"
        notation = "(error) (error) (error) (function f {" + notation + "})"
    return "{" + text + "}", "(block {" + notation + "})"


def rows_of_closures(count: int) -> Tuple[str, str]:
    """So many closures in a row, with operators between them, that derive no statement: an error for each, and one for the rest."""
    return "{a" + "-(){b;}" * count + "@;}", "(block {" + " ".join(["(error)"] * (count + 1)) + "})"


def levels_of_closures(count: int) -> Tuple[str, str]:
    """The same, with operators of four levels, so that no level stands so often in a row as a tree may be deep."""
    text = "(){b;}"
    for place in range(1, count):
        text += "||" if place % 2744 == 0 else "&&" if place % 196 == 0 else "|" if place % 14 == 0 else "-"
        text += "(){b;}"
    return "{" + text + "@;}", "(block {" + " ".join(["(error)"] * (count + 1)) + "})"


def choices_of_closures(count: int) -> Tuple[str, str]:
    """The same, with conditionals between the closures, each in the last branch of the one before as far as a tree may be deep."""
    text = "(){b;}" + "".join("?a:(){b;}" if place % 14 == 0 else "-(){b;}" for place in range(1, count))
    return "{" + text + "@;}", "(block {" + " ".join(["(error)"] * (count + 1)) + "})"


def sections_of_closures(count: int) -> Tuple[str, str]:
    """The same, in sections of cascades."""
    text = "(){b;}"
    for place in range(1, count):
        text += "..c=-(){b;}" if place % 196 == 0 else "|(){b;}" if place % 14 == 0 else "-(){b;}"
    return "{" + text + "@;}", "(block {" + " ".join(["(error)"] * (count + 1)) + "})"


def blocks(depth: int) -> Tuple[str, str]:
    """So many blocks in one another, each of which ends in what derives nothing."""
    inner = "(block {(error)})"
    return "{" * depth + "@;}" * depth, "(block {" * (depth - 1) + inner + " (error)})" * (depth - 1)


def failing_items(count: int) -> Tuple[str, str]:
    """So many items of a block that derive nothing."""
    return "{" + "else;" * count + "}", "(block {" + " ".join(["(error)"] * count) + "})"


def lexemes(lexeme: str) -> Callable[[int], Tuple[str, str]]:
    """A line of so many of a lexeme, and of nothing else."""
    return lambda count: (" ".join([lexeme] * count), "none")


def names_before(lexeme: str, notation: str) -> Callable[[int], Tuple[str, str]]:
    """A line of so many names, each with a lexeme behind it."""
    return lambda count: (f"a{lexeme}" * count, notation)


def parentheses(depth: int) -> Tuple[str, str]:
    """An expression in so many parentheses."""
    return "(" * depth + "a" + ")" * depth + ";", "(parenthesis " * depth + "a" + ")" * depth + ";"


def calls_or_comparisons(depth: int) -> Tuple[str, str]:
    """Comparisons with a closure, each in a default value of the one around it; they look like calls up to their arrows."""
    text, notation = "x", "x"
    for _ in range(depth):
        text = f"f(a.b<c,d>(e={text})=>x)"
        notation = f"(call f (< (. a b) c) (> d (closure (e = {notation}) => x)))"
    return text + ";", notation + ";"


def types_or_comparisons(depth: int) -> Tuple[str, str]:
    """Comparisons in lists in one another, which look like types of functions with default values up to their last names."""
    text, notation = "x", "x"
    for _ in range(depth):
        text = f"f(b<Function([a={text}]),c>d)"
        notation = f"(call f (< b (call Function (list (= a {notation})))) (> c d))"
    return text + ";", notation + ";"


def calls_that_fail(depth: int) -> Tuple[str, str]:
    """Calls with type arguments in the arguments of one another, of which the innermost derives nothing."""
    text = "%"
    for _ in range(depth):
        text = f"f(a.b<c,d>(e,{text}))"
    return text + ";", "f .."


def arrows_that_fail(depth: int) -> Tuple[str, str]:
    """Calls in the bodies of closures with an arrow, in one another, of which the innermost derives nothing."""
    return "()=>f(" * depth + ";", "(closure => f) .."


def sections_that_fail(depth: int) -> Tuple[str, str]:
    """Conditionals in the indices of sections behind their else branches, in one another, of which the innermost derives nothing."""
    return "a?b:c..[" * depth + "@" + "]" * depth + ";", "(? a b c) .."


def branches_that_fail(depth: int) -> Tuple[str, str]:
    """An `else` behind two `if`s, in one another, each before a loop that doesn't end."""
    return "if(a)if(b);else do " * depth + ";", "(if a (if b ;)) .."


def comparisons(count: int) -> Tuple[str, str]:
    """So many comparisons in a list, each of which looks as if type arguments began."""
    return "[" + "a<b," * count + "];", "(list" + " (< a b)" * count + ");"


@dataclass(frozen=True)
class Family(Sizes):
    """Texts of one form."""

    text: Callable[[int], Tuple[str, str]]


MANY = (25_000, 50_000, 100_000)

FAMILIES = (
    Family("nested", "closures in what derives nothing, in one another", "levels", (10, 20, 40), nested_closures),
    Family("lists", "functions in one another, behind closures in what derives nothing", "levels", (10, 20, 40), nested_functions),
    Family("closures", "closures in a row that derive nothing", "closures", MANY, rows_of_closures),
    Family("levels", "closures in a row that derive nothing, with operators of four levels", "closures", (9_604, 19_208, 38_416), levels_of_closures),
    Family("branched", "closures in a row that derive nothing, in branches of conditionals", "closures", (9_604, 19_208, 38_416), choices_of_closures),
    Family("cascades", "closures in a row that derive nothing, in sections of cascades", "closures", (9_604, 19_208, 38_416), sections_of_closures),
    Family("blocks", "blocks in one another, each ending in what derives nothing", "blocks", (48, 96, 192), blocks),
    Family("items", "items that derive nothing", "items", MANY, failing_items),
    Family("less", "a line of `<`", "lexemes", MANY, lexemes("<")),
    Family("open", "a line of `(`", "lexemes", MANY, lexemes("(")),
    Family("question", "a line of `?`", "lexemes", MANY, lexemes("?")),
    Family("types", "names with `<` behind them", "names", MANY, names_before("<", "(< a a) ..")),
    Family("choices", "names with `?` behind them", "names", MANY, names_before("?", "a ..")),
    Family("parentheses", "an expression in parentheses", "parentheses", (48, 96, 192), parentheses),
    Family("calls", "comparisons that look like calls, in one another", "levels", (4, 8, 16), calls_or_comparisons),
    Family("functions", "comparisons that look like types, in one another", "levels", (4, 8, 16), types_or_comparisons),
    Family("failing", "calls in one another, of which the innermost derives nothing", "levels", (10, 20, 40), calls_that_fail),
    Family("arrows", "calls in closures with `=>` in one another, of which the innermost derives nothing", "levels", (24, 48, 96), arrows_that_fail),
    Family("sections", "conditionals with sections in one another, of which the innermost derives nothing", "levels", (16, 32, 64), sections_that_fail),
    Family("branches", "an `else` that derives nothing behind two `if`s, in one another", "levels", (10, 20, 40), branches_that_fail),
    Family("comparisons", "comparisons in a list, each with `<`", "comparisons", MANY, comparisons),
)


@dataclass(frozen=True)
class Run:
    """How a run went."""

    seconds: float
    status: Optional[int]
    output: bytes


def run_once(binary: str, lines: bytes, limit: float) -> Run:
    """The program over these lines; without a status where it takes longer than the limit."""
    start = time.perf_counter()
    try:
        run = subprocess.run([binary], input=lines, capture_output=True, timeout=limit)
    except subprocess.TimeoutExpired:
        return Run(limit, None, b"")
    return Run(time.perf_counter() - start, run.returncode, run.stdout)


def best(binary: str, lines: bytes, runs: int, limit: float) -> Run:
    """The fastest of some runs, or the first that doesn't end as it should."""
    made: List[Run] = []
    for _ in range(runs):
        made.append(run_once(binary, lines, limit))
        if made[-1].status != 0:
            return made[-1]
    return min(made, key=lambda run: run.seconds)


def measure(binary: str, family: Family, start_up: float, runs: int, limit: float) -> bool:
    """Prints the table of a family; false where a run went wrong."""
    print(f"\n{family.name}: {family.about}")
    print(f"{family.counts:>12} {'bytes':>10} {'seconds':>9} {'ratio':>7}")
    points: List[Tuple[int, float]] = []
    right = True
    for size in family.sizes:
        text, notation = family.text(size)
        run = best(binary, b"read " + text.encode() + b"\n", runs, limit)
        if run.status is None:
            print(f"{size:>12} {len(text):>10} not done in {limit:g} seconds", flush=True)
            break
        if run.status != 0 or run.output != notation.encode() + b"\n":
            right = False
            print(f"{size:>12} {len(text):>10} WRONG: status {run.status}, {run.output[:200]!r}", flush=True)
            continue
        seconds = max(1e-9, run.seconds - start_up)
        ratio = f"{seconds / points[-1][1]:.1f}" if points else ""
        points.append((size, seconds))
        print(f"{size:>12} {len(text):>10} {seconds:>9.4f} {ratio:>7}", flush=True)
    print(f"{'slope':>12} {'':>10} {slope(points):>9}", flush=True)
    return right


def main() -> int:
    words = shared_words(__doc__)
    words.set_defaults(binary=BINARY)
    words.add_argument("families", nargs="*", metavar="FAMILY", help="which texts; all, if none are named")
    words.add_argument("--limit", type=float, default=300.0, metavar="SECONDS", help="after which a run is cut off")
    words.add_argument("--list", action="store_true", help="the families, and nothing else")
    given = words.parse_intermixed_args()
    unknown = [name for name in given.families if name not in [family.name for family in FAMILIES]]
    if unknown:
        words.error(f"no such family: {' '.join(unknown)}")
    if given.list:
        print("\n".join(f"{family.name}: {family.about}" for family in FAMILIES))
        return 0
    with_program(words, given)
    empty = best(given.binary, b"", 5, given.limit)
    print(f"no line: {empty.seconds:.4f} seconds, status {empty.status}")
    chosen = [family for family in FAMILIES if not given.families or family.name in given.families]
    right = [measure(given.binary, family, empty.seconds, given.runs, given.limit) for family in chosen]
    return 0 if all(right) and empty.status == 0 else 1


if __name__ == "__main__":
    sys.exit(main())
