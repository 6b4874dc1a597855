#!/usr/bin/env python3
"""How long edits take, by their number and by the size of the text.

    make bench          builds the program and measures everything
    bench/edit.py       measures the program that is built
    options: --binary PATH of another program, --runs N (3), of which the fastest counts

Each run is a session of its own that adds a text and then edits it. There is a table for each family, and a line in it
for each size: the bytes of the text, the edits, and the seconds that the edits add to a session that only adds the text.
Under each table stands the slope of the seconds over what the family counts, as bench/check.py has it.

Nothing fails on time. The status is 1 where a request is refused, and else 0.
"""

import sys
from dataclasses import dataclass
from typing import Callable, List, Tuple

from check import PATH, added, best, line, shared_words, slope, with_program

LIMIT = 300.0


def text_of(size: int) -> str:
    """A text of so many bytes."""
    return "/" * size


def edit(offset: int) -> dict:
    """An edit in the middle of a text, which stays as long as it is."""
    return {"offset": offset, "length": 1, "replacement": "*"}


def changes(edits: List[dict]) -> bytes:
    """The line that edits the text."""
    files = {PATH: {"type": "change", "edits": edits}}
    return line({"id": "2", "method": "analysis.updateContent", "params": {"files": files}})


@dataclass(frozen=True)
class Family:
    """Texts and edits of them, by what the family counts."""

    about: str
    counts: str
    sizes: Tuple[int, ...]
    session: Callable[[int], Tuple[int, int, bytes]]


def by_size(size: int) -> Tuple[int, int, bytes]:
    return size, 100, changes([edit(size // 2)]) * 100


def in_one_request(count: int) -> Tuple[int, int, bytes]:
    return 100_000, count, changes([edit(i % 100_000) for i in range(count)])


def at_both_ends(count: int) -> Tuple[int, int, bytes]:
    return 4_000_000, count, changes([edit(i % 2 * 3_999_999) for i in range(count)])


def anywhere(count: int) -> Tuple[int, int, bytes]:
    return 4_000_000, count, changes([edit(i * 506_816 % 4_000_000) for i in range(count)])


def one_by_one(count: int) -> Tuple[int, int, bytes]:
    return 100_000, count, b"".join(changes([edit(i % 100_000)]) for i in range(count))


FAMILIES = (
    Family("100 requests of one edit each, by the size of the text", "bytes", (1_000_000, 2_000_000, 4_000_000), by_size),
    Family("edits of one request, on a text of 100,000 bytes", "edits", (1_000, 2_000, 4_000), in_one_request),
    Family("edits of one request at the two ends of a text in turn; the last ones fill a line", "edits", (90_000, 180_000, 360_000), at_both_ends),
    Family("edits of one request all over a text; the last ones fill a line", "edits", (85_000, 170_000, 340_000), anywhere),
    Family("requests of one edit each, on a text of 100,000 bytes", "edits", (1_000, 2_000, 4_000), one_by_one),
)


def measure(binary: str, family: Family, runs: int) -> bool:
    """Prints the table of a family; false where a session went wrong."""
    print(f"\n{family.about}")
    print(f"{'bytes':>10} {'edits':>7} {'seconds':>9}")
    points: List[Tuple[int, float]] = []
    right = True
    for size in family.sizes:
        length, count, lines = family.session(size)
        alone = best(binary, added(text_of(length)), runs, LIMIT)
        run = best(binary, added(text_of(length)) + lines, runs, LIMIT)
        seconds = max(0.0, run.seconds - alone.seconds)
        points.append((size, seconds))
        done = run.status == 0 and b"error" not in run.output
        right = right and done
        print(f"{length:>10} {count:>7} {seconds:>9.3f}{'' if done else ' WRONG'}", flush=True)
    print(f"{'slope over ' + family.counts:>18} {slope(points):>9}", flush=True)
    return right


def main() -> int:
    words = shared_words(__doc__)
    given = with_program(words, words.parse_args())
    right = [measure(given.binary, family, given.runs) for family in FAMILIES]
    return 0 if all(right) else 1


if __name__ == "__main__":
    sys.exit(main())
