#!/usr/bin/env python3
"""How long runs take, and how much memory the core program of a text.

    make bench                     builds the program and measures everything
    bench/run.py [--binary PATH] [--runs N]

There are two kinds of tables, with a line for each size and the slope under it, as in bench/check.py.

    making  a text is checked and its core program made, and its steps are spent before the first (`--steps 0`):
            statements, bytes of the text, seconds, the most memory that the program held, in MB
    steps   a loop is run: steps, seconds, and steps a second

Each figure is the fastest of some runs. Nothing fails on time. The status is 1 where a run doesn't end as it should.
"""

import os
import sys
import tempfile
from typing import Callable, List, Tuple

from check import body, locals_in_a_block, loop_of_writes, mixed, shared_words, slope, with_program
from measured import Run, measured


def run_once(binary: str, text: str, steps: int) -> Run:
    """Runs a text for at most so many steps."""
    with tempfile.TemporaryDirectory() as folder, tempfile.TemporaryFile() as sink:
        path = os.path.join(os.path.realpath(folder), "main.dart")
        with open(path, "w", encoding="utf-8") as file:
            file.write(text)
        return measured([binary, "run", path, "--steps", str(steps)], sink)


def best(binary: str, text: str, steps: int, runs: int) -> Run:
    """The fastest of some runs."""
    return min((run_once(binary, text, steps) for _ in range(runs)), key=lambda ended: ended.seconds)


def changes(statements: int) -> str:
    """Assignments to 20 locals in turn, of which each changes what is known of its local."""
    declared = [f"int? x{i};" for i in range(20)]
    return body(declared + [f"x{i % 20} = {'null' if (i // 20) % 2 else i};" for i in range(statements - 20)])


def counting(passes: int) -> str:
    """A loop of so many passes, with seven steps each."""
    return body(["int i = 0;", f"while (i < {passes}) {{ i = i + 1; }}"])


def steps_of(passes: int) -> int:
    """How many steps that loop takes. A pass takes seven: the head, the read of i, `<` and its branch, and the
    read, the sum and the write of the body. Seven more are the beginning, the declaration, the four steps with
    which the loop ends, and the end."""
    return 7 * passes + 7


MAKING: Tuple[Tuple[str, str, Tuple[int, ...], Callable[[int], str]], ...] = (
    ("mixed", "ifs, whiles, assignments and prints over 20 locals", (25_000, 50_000, 100_000), mixed),
    ("changes", "assignments to 20 locals, each of which changes what is known", (25_000, 50_000, 100_000), changes),
    ("loop", "one loop of writes to 20 locals", (25_000, 50_000, 100_000), loop_of_writes),
    ("locals", "one block of locals, each declared, assigned and read", (500, 1_000, 2_000), locals_in_a_block),
)

PASSES = (200_000, 400_000, 800_000)

SPENT = b"steps spent\n"


def making(binary: str, runs: int) -> bool:
    """Prints the tables of core programs that are made; false where a run went wrong."""
    right = True
    for name, about, sizes, text_of in MAKING:
        print(f"\nmaking, {name}: {about}\n{'statements':>12} {'bytes':>10} {'seconds':>9} {'MB':>7}")
        points: List[Tuple[int, float]] = []
        for size in sizes:
            text = text_of(size)
            ended = best(binary, text, 0, runs)
            if (ended.status, ended.output) == (5, SPENT):
                points.append((size, ended.seconds))
                print(f"{size:>12} {len(text):>10} {ended.seconds:>9.3f} {ended.bytes_held / 1e6:>7.0f}", flush=True)
            else:
                right = False
                print(f"{size:>12} {len(text):>10} WRONG: status {ended.status}, {ended.output[:80]!r}", flush=True)
        print(f"{'slope':>12} {'':>10} {slope(points):>9}", flush=True)
    return right


def stepping(binary: str, runs: int) -> bool:
    """Prints the table of steps; false where a run went wrong."""
    right = True
    print(f"\nsteps: a loop that counts\n{'steps':>12} {'seconds':>9} {'a second':>12}")
    points: List[Tuple[int, float]] = []
    for passes in PASSES:
        steps = steps_of(passes)
        ended = best(binary, counting(passes), steps, runs)
        if ended.status == 0:
            points.append((steps, ended.seconds))
            print(f"{steps:>12} {ended.seconds:>9.3f} {steps / ended.seconds:>12.0f}", flush=True)
        else:
            right = False
            print(f"{steps:>12} WRONG: status {ended.status}, {ended.output[:80]!r}", flush=True)
    print(f"{'slope':>12} {slope(points):>9}", flush=True)
    return right


def main() -> int:
    words = shared_words(__doc__)
    given = with_program(words, words.parse_args())
    right = [making(given.binary, given.runs), stepping(given.binary, given.runs)]
    return 0 if all(right) else 1


if __name__ == "__main__":
    sys.exit(main())
