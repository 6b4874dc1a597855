#!/usr/bin/env python3
"""How long a check takes, by the size of the text.

    make bench                     builds the program and measures everything
    bench/check.py                 measures the program that is built
    bench/check.py mixed ..        some of the families alone
    bench/check.py --list          the families
    options: --binary PATH of another program, --runs N (3), of which the fastest counts, --limit SECONDS (300) of a run

Each run is a session of its own: `dart_serve serve` is fed one line that adds a text (analysis.updateContent) and one that
asks for its errors (analysis.getErrors). There is a table for each family of texts, and a line in it for each size:

    size    what the family counts, as statements or locals
    bytes   of the text
    errors  in the reply
    read    seconds of a session that only adds the text
    check   seconds that asking for its errors adds to it: checking it, and writing the reply
    whole   seconds of the whole session
    MB      the most memory that the program held

The seconds are less those of an empty session, which are printed first. Under each table stands the slope of `check`
and `whole`: the least-squares slope of the logarithm of the time over that of the size. 1 is time in proportion to the
size, 2 in proportion to its square. Where times are too short to tell, a `-` stands for the slope.

Nothing fails on time. The status is 1 where a session doesn't end with status 0 or a reply isn't the one that is
expected of the text, 2 where the words are wrong, and else 0.
"""

import argparse
import json
import math
import os
import sys
import tempfile
from dataclasses import dataclass
from typing import Callable, List, Optional, Tuple

from measured import Run, measured

# Where `rt run` builds the program.
BINARY = os.path.join(os.path.dirname(os.path.abspath(__file__)), os.pardir, "crates", "dart_serve", "out", "dart_serve")

# The file that each session adds.
PATH = "/a.dart"

# A class and two functions as people write them: laid out in lines, with comments and names in whole words, some five
# bytes for each token. `N` is a number that no other has.
ORDINARY = """\
/// How the hours of a station are kept, from the first reading of a day
/// to the last one before midnight.
class StationN<T extends Object> extends Recorder with Counted implements Comparable<StationN> {
  /// The name by which the station is known.
  final String name;
  final int capacity, opened;
  T? latest;

  StationN(this.name, this.capacity, {required this.opened}) : super(capacity);

  /// The reading that was taken last. There has to be one.
  T get present => latest!;

  bool operator ==(Object other) => other is StationN && other.name == name;

  static Map<String, int> limits = {'wind': 130, 'rainfall': 400};
}

// Readings are taken from the oldest to the newest.
int collectN(int limit, List<String> readings) {
  var total = limit + readings.length * 2;
  if (total > 3 && readings != null) {
    print('$total of ${readings[0]}');
  } else {
    total = forecast(limit, readings)?.values[1] ?? 0;
  }
  for (var index = 0; index < total; index++) {
    readings.add(index.toString());
  }
  return total;
}

String describeN(StationN<String> station) {
  // A station that was never read has no name to be shown.
  while (station.name.isEmpty) {
    station = station.neighbours.firstWhere((other) => other.capacity > 0);
  }
  return station.name + ' since ' + station.opened.toString();
}

"""

# Identifiers that begin so, with eight characters more, all have one hash: its seed is fixed, and the number by which it
# multiplies those eight is 0.
CHOSEN = "tGKSSYZhYYSyVQFn2TNohU1X"

# A time below this many seconds tells nothing of a slope.
SHORTEST = 0.005

# How many loops nest, with an assignment in the innermost: a tree is at most 200 deep.
DEEPEST_LOOPS = 97


# Texts.


def numbered(code: str, count: int) -> str:
    """So many times this code, each with its number in the place of `N`."""
    return "".join(code.replace("N", str(number)) for number in range(count))


def ordinary(count: int) -> str:
    """So many times a class and two functions, of which none is checked yet."""
    return numbered(ORDINARY, count)


def body(statements: List[str]) -> str:
    """A program of these statements, one on a line."""
    return "void main() {\n" + "\n".join(statements) + "\n}\n"


def mixed_group(turn: int) -> List[str]:
    """Ten statements, with those in blocks, on the locals a0 to a13, c0 to c2 and b0 to b2."""
    a, b, c = turn % 14, (turn + 5) % 14, turn % 3
    return [
        f"a{a} = a{b} + {turn};",
        f"print(a{a} < a{b});",
        f"if (a{a} < {turn}) {{ a{b} = {turn}; }} else {{ print(a{b}); }}",
        f"if (c{c} != null) {{ a{a} = c{c} + 1; }}",
        f"while (b{c}) {{ b{c} = a{a} < a{b}; }}",
        f"print(b{c});",
    ]


def mixed(statements: int) -> str:
    """Assignments, prints, branches and loops over 20 locals, in lines of 40 bytes a statement."""
    declared = [f"int a{i} = {i};" for i in range(14)]
    declared += [f"int? c{i};" for i in range(3)] + [f"bool b{i} = true;" for i in range(3)]
    lines = list(declared)
    for turn in range((statements - len(declared)) // 10):
        lines += mixed_group(turn)
    text = body(lines)
    blanks = max(0, 40 * statements - len(text))
    share, rest = divmod(blanks, len(lines))
    padded = [line + " " * (share + (i < rest)) for i, line in enumerate(lines)]
    return body(padded)


def locals_in_a_block(count: int) -> str:
    """So many locals, each declared, assigned and read."""
    return body([f"int x{i}; x{i} = {i}; print(x{i});" for i in range(count)])


def nested(form: str, count: int) -> str:
    """A form with a block, in itself so many times."""
    return "void main() {" + form * count + "}" * count + "}\n"


def nested_blocks(count: int) -> str:
    """Blocks in one another, more than a tree may hold."""
    return nested("{", count)


def nested_ifs(count: int) -> str:
    """Branches in one another, more than a tree may hold."""
    return nested("if (true) {", count)


def writes(count: int) -> List[str]:
    """So many assignments, to ten locals in turn."""
    return [f"x{i % 10} = {i};" for i in range(count)]


def twenty_locals() -> List[str]:
    """Twenty locals that may be null and aren't, of which `writes` writes ten."""
    return [f"int? x{i} = {i};" for i in range(20)]


def loop_of_writes(count: int) -> str:
    """A loop with so many assignments in its body."""
    return body(twenty_locals() + ["while (1 < 2) {"] + writes(count) + ["}"])


def loops_around_writes(count: int) -> str:
    """As many loops in one another as a tree holds, and so many assignments in the innermost."""
    loops = ["while (1 < 2) {"] * DEEPEST_LOOPS
    return body(twenty_locals() + loops + writes(count) + ["}"] * DEEPEST_LOOPS)


def loops_with_writes(depth: int) -> str:
    """So many loops in one another, each with a hundred assignments in front of the next."""
    lines = twenty_locals()
    for _ in range(depth):
        lines += ["while (1 < 2) {"] + writes(100)
    return body(lines + ["}"] * depth)


def errors_in_lines(count: int) -> str:
    """So many names that mean nothing, each in ten lines."""
    return body((["print(1);"] * 9 + ["nothing;"]) * count)


def backticks(count: int) -> str:
    """So many characters that begin no lexeme, behind a program."""
    return "void main() {}\n" + "`" * count


def chosen(count: int) -> str:
    """So many variables, whose names are chosen so that all have one hash."""
    return "void main() {}\n" + "".join(f"int {CHOSEN}{number:08};" for number in range(count))


@dataclass(frozen=True)
class Sizes:
    """What a table is of: its name, a line about it, what it counts, and the sizes that are measured."""

    name: str
    about: str
    counts: str
    sizes: Tuple[int, ...]


@dataclass(frozen=True)
class Family(Sizes):
    """Texts of one form, and the codes of the errors that each has: these, and others for each that it counts."""

    text: Callable[[int], str]
    codes: Tuple[str, ...] = ()
    for_each: Tuple[str, ...] = ()


TOO_DEEP = ("profile_nesting",)

FAMILIES = (
    Family("ordinary", "classes and functions as people write them, not built yet: 1, 2 and 4 MB", "of them",
           (780, 1_560, 3_100), ordinary, for_each=("not_built",) * 3),
    Family("mixed", "ifs, whiles, assignments and prints over 20 locals: 1, 2 and 4 MB", "statements",
           (25_000, 50_000, 100_000), mixed),
    Family("locals", "one block of locals, each declared, assigned and read", "locals",
           (1_250, 2_500, 5_000), locals_in_a_block),
    Family("blocks", "nested blocks, deeper than a tree may be", "blocks", (2_500, 5_000, 10_000), nested_blocks, TOO_DEEP),
    Family("ifs", "nested ifs, deeper than a tree may be", "ifs", (2_500, 5_000, 10_000), nested_ifs, TOO_DEEP),
    Family("loop", "one loop of writes", "writes", (25_000, 50_000, 100_000), loop_of_writes),
    Family("loops", f"{DEEPEST_LOOPS} nested loops, the most that are read, around writes", "writes",
           (5_000, 10_000, 20_000), loops_around_writes),
    Family("levels", "nested loops with 100 writes each", "loops", (24, 48, 97), loops_with_writes),
    Family("errors", "an error in every tenth line", "errors", (2_500, 5_000, 10_000), errors_in_lines, for_each=("undefined_name",)),
    Family("backticks", "characters that begin no lexeme, each an error", "errors", (100_000, 200_000, 400_000), backticks,
           for_each=("illegal_character",)),
    Family("chosen", "variables whose names have one hash: 0.25, 0.5 and 1 MB", "of them", (6_750, 13_500, 27_000), chosen,
           for_each=("not_built",)),
)


# Sessions.


def line(request: dict) -> bytes:
    """A request as its line."""
    return json.dumps(request, separators=(",", ":")).encode() + b"\n"


def added(text: str) -> bytes:
    """The line that adds a text."""
    files = {PATH: {"type": "add", "content": text}}
    return line({"id": "1", "method": "analysis.updateContent", "params": {"files": files}})


ASKED = line({"id": "2", "method": "analysis.getErrors", "params": {"file": PATH}})


def session(binary: str, lines: bytes, limit: float) -> Run:
    """Serves these lines, and kills the program where it takes longer than the limit."""
    with tempfile.TemporaryFile() as source, tempfile.TemporaryFile() as sink:
        source.write(lines)
        source.seek(0)
        return measured([binary, "serve"], sink, source, limit)


def best(binary: str, lines: bytes, runs: int, limit: float) -> Run:
    """The fastest of some sessions, or the first that doesn't end as it should."""
    fastest: Optional[Run] = None
    for _ in range(runs):
        run = session(binary, lines, limit)
        if run.status != 0:
            return run
        if fastest is None or run.seconds < fastest.seconds:
            fastest = run
    assert fastest is not None
    return fastest


def codes_in(output: bytes) -> Optional[List[str]]:
    """The codes of the errors that the reply to the second line lists, if there is one."""
    replies = output.splitlines()
    if len(replies) != 2:
        return None
    result = json.loads(replies[1]).get("result")
    return None if result is None else [error["code"] for error in result["errors"]]


# Tables.


@dataclass(frozen=True)
class Row:
    """One size of a family, as it was measured."""

    size: int
    check: float
    whole: float


def slope(points: List[Tuple[int, float]]) -> str:
    """The least-squares slope of the logarithms, of the times that are long enough to tell."""
    logs = [(math.log(size), math.log(seconds)) for size, seconds in points if seconds >= SHORTEST]
    if len(logs) < 2:
        return "-"
    mean_x = sum(x for x, _ in logs) / len(logs)
    mean_y = sum(y for _, y in logs) / len(logs)
    rise = sum((x - mean_x) * (y - mean_y) for x, y in logs)
    return f"{rise / sum((x - mean_x) ** 2 for x, _ in logs):.2f}"


def what_is_wrong(run: Run, codes: Optional[List[str]], expected: List[str], limit: float) -> Optional[str]:
    """What is wrong with a session beside its time, if something is."""
    if run.status < 0 and run.seconds >= limit:
        return None
    if run.status != 0:
        return f"status {run.status}"
    if codes is None:
        return "no reply to the request for errors"
    return None if codes == expected else f"{len(codes)} errors: {' '.join(codes[:5])}"


def measure(binary: str, family: Family, start_up: float, runs: int, limit: float) -> bool:
    """Prints the table of a family; false where a session went wrong."""
    print(f"\n{family.name}: {family.about}")
    print(f"{family.counts:>12} {'bytes':>10} {'errors':>7} {'read':>9} {'check':>9} {'whole':>9} {'MB':>7}")
    rows: List[Row] = []
    right = True
    for size in family.sizes:
        text = family.text(size)
        alone = best(binary, added(text), runs, limit)
        run = best(binary, added(text) + ASKED, runs, limit)
        codes = codes_in(run.output) if run.status == 0 else None
        wrong = what_is_wrong(run, codes, list(family.codes + family.for_each * size), limit)
        if wrong is not None:
            right = False
            print(f"{size:>12} {len(text.encode()):>10} WRONG: {wrong}", flush=True)
        elif run.status != 0:
            print(f"{size:>12} {len(text.encode()):>10} not done in {limit:g} seconds", flush=True)
        else:
            row = Row(size, max(0.0, run.seconds - alone.seconds), max(0.0, run.seconds - start_up))
            rows.append(row)
            errors, read, held = len(codes or []), max(0.0, alone.seconds - start_up), run.bytes_held / 1e6
            print(f"{size:>12} {len(text.encode()):>10} {errors:>7} {read:>9.3f} {row.check:>9.3f} {row.whole:>9.3f} {held:>7.0f}",
                  flush=True)
    checks, wholes = [(r.size, r.check) for r in rows], [(r.size, r.whole) for r in rows]
    print(f"{'slope':>12} {'':>10} {'':>7} {'':>9} {slope(checks):>9} {slope(wholes):>9}", flush=True)
    return right


def shared_words(about: str) -> argparse.ArgumentParser:
    """The words that each script over the program takes, which says about itself what stands in its head."""
    words = argparse.ArgumentParser(description=about.split("\n")[0], epilog="The head of the script says how to read the tables.")
    words.add_argument("--binary", default=BINARY, metavar="PATH", help="the program; else the one that `make bench` builds")
    words.add_argument("--runs", type=int, default=3, metavar="N", help="runs a figure, of which the fastest counts")
    return words


def with_program(words: argparse.ArgumentParser, given: argparse.Namespace) -> argparse.Namespace:
    """The words that are given, where there is a program and a run."""
    if given.runs < 1:
        words.error("no runs")
    if not os.path.isfile(given.binary):
        words.error(f"no program at {given.binary}: `make bench` builds it")
    return given


def arguments() -> argparse.Namespace:
    """The words of the command line."""
    words = shared_words(__doc__)
    words.add_argument("families", nargs="*", metavar="FAMILY", help="which texts; all, if none are named")
    words.add_argument("--limit", type=float, default=300.0, metavar="SECONDS", help="after which a session is cut off")
    words.add_argument("--list", action="store_true", help="the families, and nothing else")
    given = words.parse_intermixed_args()
    unknown = [name for name in given.families if name not in [family.name for family in FAMILIES]]
    if unknown:
        words.error(f"no such family: {' '.join(unknown)}")
    return given if given.list else with_program(words, given)


def main() -> int:
    given = arguments()
    if given.list:
        print("\n".join(f"{family.name}: {family.about}" for family in FAMILIES))
        return 0
    empty = best(given.binary, b"", 5, given.limit)
    print(f"an empty session: {empty.seconds:.4f} seconds, {empty.bytes_held / 1e6:.0f} MB, status {empty.status}")
    chosen = [family for family in FAMILIES if not given.families or family.name in given.families]
    right = [measure(given.binary, family, empty.seconds, given.runs, given.limit) for family in chosen]
    return 0 if all(right) and empty.status == 0 else 1


if __name__ == "__main__":
    sys.exit(main())
