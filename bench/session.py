#!/usr/bin/env python3
"""How long sessions over many files take, by the number of the files.

    make bench             builds the program and measures everything
    bench/session.py       measures the program that is built
    bench/session.py disk  some of the families alone: order, edits, disk
    options: --binary PATH of another program, --runs N (3), of which the fastest counts, --limit SECONDS (300) of a session

A client asks line by line, as an editor does: it waits for each reply, and a time goes from the first line that it sends to
the last reply that it has. Each file is a function of statements in which nothing is wrong. There is a table for each
family, and a line in it for each number of files:

    order   files of 400 bytes are added one by one, each with a question for its errors, in rising and in falling order of
            their paths: seconds of both, and how many times the first the second takes
    edits   files of 4 KB, of which each imports the next, are given at once and asked for; then the one in the middle is
            edited again and again: milliseconds of an edit with its question
    disk    files of 4 KB on disk, of which each imports the next, are the files of a root and asked for; then the root is
            read again, with a question behind it: milliseconds where nothing has changed, where a file has come whose path
            stands before all others, and how many times the first the second takes

Under each table stand the slopes of the times over the number of files, as bench/check.py has them. The questions of all
files in `order` take the square of their number at least, since each compares all texts and links all files.

Nothing fails on time. The status is 1 where a reply is an error or lists one, and else 0.
"""

import os
import subprocess
import sys
import tempfile
import threading
import time
from dataclasses import dataclass
from typing import Callable, Dict, Iterable, List, Optional, Tuple

from check import line, shared_words, slope, with_program

# Where the text of a file has the number that is edited.
HEAD = "void main() {\n  int total = "

# So many edits are made of a file.
EDITS = 10

NUMBERS = (250, 500, 1_000, 2_000)


class Ended(Exception):
    """The program has ended, or was cut off."""


class Client:
    """A session with the program, line by line."""

    def __init__(self, binary: str, limit: float) -> None:
        self.child = subprocess.Popen([binary, "serve"], stdin=subprocess.PIPE, stdout=subprocess.PIPE)
        self.timer = threading.Timer(limit, self.child.kill)
        self.timer.start()
        self.right = True

    def ask(self, *lines: bytes) -> float:
        """Sends these lines one after another, each when the one before has its reply; the seconds that this takes."""
        start = time.perf_counter()
        for request in lines:
            self.child.stdin.write(request)
            self.child.stdin.flush()
            reply = self.child.stdout.readline()
            if not reply:
                raise Ended
            self.right = self.right and b'"error":' not in reply and (b'"errors":' not in reply or b'"errors":[]' in reply)
        return time.perf_counter() - start

    def __enter__(self) -> "Client":
        return self

    def __exit__(self, *_: object) -> None:
        self.timer.cancel()
        self.child.kill()
        self.child.communicate()


# Requests.


def path(folder: str, number: int) -> str:
    """The path of a file: a greater number stands behind."""
    return f"{folder}/{number:05}.dart"


def text(size: int, imported: Optional[int] = None) -> str:
    """A function of statements, in so many bytes at least, in a file that may import another."""
    head = "" if imported is None else f"import '{imported:05}.dart';\n"
    statement = "  if (total < 7) { total = total + 1; }\n"
    count = 1 + (size - len(head + HEAD)) // len(statement)
    return f"{head}{HEAD}0;\n{statement * count}}}\n"


def chain(count: int) -> Dict[int, str]:
    """The texts of files from 1, each of which imports the next."""
    return {number: text(4_000, number + 1 if number < count else None) for number in range(1, count + 1)}


def update(files: Dict[str, dict]) -> bytes:
    """The line that updates these files."""
    return line({"id": "1", "method": "analysis.updateContent", "params": {"files": files}})


def added(content: str) -> dict:
    """A text for a file."""
    return {"type": "add", "content": content}


def edited(offset: int, digit: int) -> dict:
    """A digit at an offset."""
    return {"type": "change", "edits": [{"offset": offset, "length": 1, "replacement": str(digit)}]}


def asked(file: str) -> bytes:
    """The line that asks for the errors of a file."""
    return line({"id": "2", "method": "analysis.getErrors", "params": {"file": file}})


def rooted(folder: str) -> bytes:
    """The line that has a folder read."""
    return line({"id": "1", "method": "analysis.setAnalysisRoots", "params": {"included": [folder], "excluded": []}})


AGAIN = line({"id": "1", "method": "analysis.reanalyze"})


# Sessions: the times of each.


def one_by_one(client: Client, numbers: Iterable[int]) -> float:
    """Adds files in this order, and asks for each."""
    content = added(text(400))
    files = [path("", number) for number in numbers]
    return sum(client.ask(update({file: content}), asked(file)) for file in files)


def rising(client: Client, count: int) -> List[float]:
    return [one_by_one(client, range(count))]


def falling(client: Client, count: int) -> List[float]:
    return [one_by_one(client, reversed(range(count)))]


def edits(client: Client, count: int) -> List[float]:
    """Gives files at once and asks for them, and then edits the one in the middle."""
    texts = chain(count)
    middle = path("", count // 2)
    offset = texts[count // 2].index(HEAD) + len(HEAD)
    client.ask(update({path("", number): added(content) for number, content in texts.items()}), asked(middle))
    seconds = [client.ask(update({middle: edited(offset, 1 + turn % 9)}), asked(middle)) for turn in range(EDITS)]
    return [sum(seconds) / EDITS]


def disk(client: Client, count: int) -> List[float]:
    """Reads files, and reads them again without a change and with a file before them."""
    with tempfile.TemporaryDirectory() as made:
        folder = os.path.realpath(made)
        for number, content in chain(count).items():
            write(path(folder, number), content)
        question = asked(path(folder, count))
        client.ask(rooted(folder), question)
        unchanged = client.ask(AGAIN, question)
        write(path(folder, 0), text(4_000, 1))
        return [unchanged, client.ask(AGAIN, question)]


def write(file: str, content: str) -> None:
    """Puts a text into a file."""
    with open(file, "w", encoding="utf-8") as opened:
        opened.write(content)


# Tables.


@dataclass(frozen=True)
class Family:
    """Sessions, each with the times that it gives; what the times are called, and how many of their unit a second has."""

    name: str
    about: str
    sessions: Tuple[Callable[[Client, int], List[float]], ...]
    times: Tuple[str, ...]
    unit: int


FAMILIES = (
    Family("order", "files added one by one, each with a question: seconds", (rising, falling), ("rising", "falling"), 1),
    Family("edits", "an edit with its question, in a chain of files of 4 KB: milliseconds", (edits,), ("edit",), 1_000),
    Family("disk", "a chain of files of 4 KB read again with a question: milliseconds", (disk,), ("unchanged", "one more"), 1_000),
)


def fastest(binary: str, session: Callable[[Client, int], List[float]], count: int, runs: int, limit: float) -> Tuple[List[float], bool]:
    """The least of each time of a session; infinite where it was cut off. And whether all replies are as they should be."""
    best: List[float] = []
    right = True
    for _ in range(runs):
        with Client(binary, limit) as client:
            try:
                seconds = session(client, count)
            except (Ended, BrokenPipeError):
                return [float("inf")], client.child.wait() < 0
            right = right and client.right
            best = [min(pair) for pair in zip(best, seconds)] if best else seconds
    return best, right


def shown(seconds: float, unit: int) -> str:
    """A time in its unit."""
    return f"{seconds * unit:>10.3f}" if unit == 1 else f"{seconds * unit:>10.1f}"


def measure(binary: str, family: Family, runs: int, limit: float) -> bool:
    """Prints the table of a family; false where a session went wrong."""
    print(f"\n{family.name}: {family.about}")
    pair = len(family.times) == 2
    print(f"{'files':>10}" + "".join(f"{name:>10}" for name in family.times) + (f"{'ratio':>8}" if pair else ""))
    points: List[List[Tuple[int, float]]] = [[] for _ in family.times]
    all_right = True
    for count in NUMBERS:
        results = [fastest(binary, session, count, runs, limit) for session in family.sessions]
        seconds = [each for times, _ in results for each in times]
        right = all(is_right for _, is_right in results)
        all_right = all_right and right
        for place, each in zip(points, seconds):
            place.extend([(count, each)] if each < float("inf") else [])
        ratio = f"{seconds[1] / seconds[0]:>8.2f}" if len(seconds) == 2 else ""
        print(f"{count:>10}" + "".join(shown(each, family.unit) for each in seconds) + ratio + ("" if right else " WRONG"), flush=True)
    print(f"{'slope':>10}" + "".join(f"{slope(place):>10}" for place in points), flush=True)
    return all_right


def main() -> int:
    words = shared_words(__doc__)
    words.add_argument("families", nargs="*", metavar="FAMILY", help="which sessions; all, if none are named")
    words.add_argument("--limit", type=float, default=300.0, metavar="SECONDS", help="after which a session is cut off")
    given = words.parse_intermixed_args()
    unknown = [name for name in given.families if name not in [family.name for family in FAMILIES]]
    if unknown:
        words.error(f"no such family: {' '.join(unknown)}")
    with_program(words, given)
    chosen = [family for family in FAMILIES if not given.families or family.name in given.families]
    right = [measure(given.binary, family, given.runs, given.limit) for family in chosen]
    return 0 if all(right) else 1


if __name__ == "__main__":
    sys.exit(main())
