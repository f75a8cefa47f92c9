#!/usr/bin/env python3
"""Times the built program on generated files, and prints wall time and peak memory.

usage: bench/bench.py [--instructions [--against OTHER]] [--effort EFFORT] PROGRAM [CASE ..]
       (no case: all; else those that begin so)

The files are written to bench/data by fixed seeds, once. Each case runs three
times and the best wall time counts; the peak is the largest resident set of one
more run, where GNU time is installed. The third column is the time that the case
is meant to stay within. Some cases also run berkeley-abc's `cec` or minisat on the
same question, where these are installed. With --instructions, callgrind counts the
instructions of one more run of each case, where valgrind is installed, and with --against
those of OTHER too: how many times as many they are, and whether both write the same. With --effort,
EFFORT, which `bench/as_rust.py FOLDER effort` builds of bench/effort.rs, prints for each case of `exact` what its search did: primes, rows and live
columns of the reduced table, tables that were looked at (the nodes of the search),
questions, rounds of steps, and products of the answer.
"""
import argparse
import functools
import os
import random
import re
import shutil
import subprocess
import sys
import tempfile
import time

from arithmetic import (CLASSICS, adder, arithmetic_unit, comparison, function_rows, leading_noughts, multiplier, ones_within, parity,
                        sensor_display, square)
from control import (DECODED, KNOWN, WIDE, control, first_request, grants, joined_rings, operation_lines, samples, selector,
                     shifter)
from rows import (consensus_cubes, contained_rows, partition, pla, random_points, random_rows, rings, rings_side_by_side, short_cubes,
                  shuffled, sparse_rows, split_rows, split_twice, two_of, with_literal_dropped, write)

# Functions that the literature on two-level minimisation is measured by, and larger ones of their kind: inputs, outputs, value.
FUNCTIONS = {
    **{classic.name: classic.function for classic in CLASSICS},
    "maj9": ones_within(9, 5, 9),
    "adr5": adder(5),
    "adr6": adder(6),
    "mlp5": multiplier(5),
    "sqr7": square(7),
    "sqr8": square(8),
    "sym11": ones_within(11, 4, 7),
    "sym12": ones_within(12, 4, 8),
}


def function(name):
    """The path of a file that lists the points of a known function."""
    inputs, outputs, value = FUNCTIONS[name]
    return write(f"known-{name}.pla", pla(inputs, outputs, function_rows(inputs, outputs, value)))


def ran(words, feed=None):
    """The status of one run; its output is thrown away."""
    with open(os.devnull, "w") as nowhere:
        child = subprocess.Popen(words, stdin=subprocess.PIPE if feed else subprocess.DEVNULL,
                                 stdout=nowhere, stderr=nowhere)
        if feed:
            feed(child.stdin)
            child.stdin.close()
        return child.wait()


@functools.cache
def peak(words, feed=None):
    """Peak kilobytes of a run, where GNU time is installed. (What the system tells of a child of this process counts
    this process too.)"""
    if not shutil.which("time"):
        return 0
    with tempfile.NamedTemporaryFile("r") as told:
        ran(("time", "-f", "%M", "-o", told.name, *words), feed)
        return int(told.read().split()[-1])


def instructions(words):
    """How many instructions a run takes, as callgrind counts them, and what it writes."""
    told = subprocess.run(["valgrind", "--tool=callgrind", "--callgrind-out-file=/dev/null", *words],
                          stdin=subprocess.DEVNULL, stdout=subprocess.PIPE, stderr=subprocess.PIPE)
    return int(re.search(rb"Collected : (\d+)", told.stderr).group(1)), told.stdout


def measured(program, words, feed=None):
    """Wall seconds, peak kilobytes and status of one run."""
    begin = time.perf_counter()
    status = ran((program, *words), feed)
    seconds = time.perf_counter() - begin
    return seconds, peak((program, *words), feed), status


def comment_stream(pipe):
    """Two gigabytes of comment lines, and then an empty description."""
    block = (b"# a comment that is thrown away" + b"." * 168 + b"\n") * 5243
    for _ in range(2 * 2 ** 30 // len(block) // 32):
        for _ in range(32):
            pipe.write(block)
    pipe.write(b".i 1\n.o 1\n.e\n")


OPTIONS = argparse.Namespace(instructions=False, against=None, effort=None)


@functools.cache
def count(words):
    """Prints the instructions of a run, once, where that is asked for, beside those of the other program."""
    if not OPTIONS.instructions:
        return
    if not shutil.which("valgrind"):
        print("  valgrind is not installed")
        return
    own, written = instructions(words)
    print(f"  {own:,} instructions")
    if OPTIONS.against:
        other, written_there = instructions((OPTIONS.against, *words[1:]))
        print(f"  {own / other:.3f} times those of {OPTIONS.against}")
        if written != written_there:
            print("  the two write different answers")


@functools.cache
def tell_effort(words, path):
    """Prints what the search of `exact` under these words does on the file, once, where that is asked for."""
    if OPTIONS.effort:
        with open(path) as file:
            told = subprocess.run([OPTIONS.effort, *words], stdin=file, stdout=subprocess.PIPE, text=True, check=True)
        print("  " + ", ".join(told.stdout.splitlines()))


def file_case(words, path, goal):
    return pair_case(words, lambda: (path(),), goal)


def pair_case(words, paths, goal):
    def run(program):
        count((program, *words, *paths()))
        if words[0] == "-Dexact":
            tell_effort(tuple(words[1:]), *paths())
        return (*measured(program, [*words, *paths()]), goal)
    return run


def beside(words, paths, goal, name, other):
    """A case, and the least time of another program at the same question, where that is installed."""
    def run(program):
        own = pair_case(words, paths, goal)(program)
        compare(name, other())
        return own
    return run


@functools.cache
def compare(name, words):
    """Prints the least time of the other program, once."""
    if not shutil.which(words[0]):
        print(f"  {words[0]} is not installed")
        return
    print(f"  {name} takes {min(measured(words[0], words[1:])[0] for _ in range(3)):.3f} s")


def beside_cec(paths, goal=None):
    """`verify`, and berkeley-abc's `cec` on the same files."""
    return beside(["-Dverify"], paths, goal, "cec", lambda: ("berkeley-abc", "-c", "cec {} {}".format(*paths())))


def clauses(name, inputs, cubes):
    """A formula that has no model exactly where the cubes hold all points: each point is outside each of them."""
    return write(name, [f"p cnf {inputs} {len(cubes)}"] + [
        " ".join(str(i + 1 if symbol == "0" else -i - 1) for i, symbol in enumerate(cube) if symbol != "-") + " 0"
        for cube in cubes])


def beside_minisat(name, inputs, cubes, goal):
    """`tautology`, and minisat on the same cubes."""
    return beside(["-Dtautology"], lambda: (write(f"{name}.pla", pla(inputs, 1, [c + " 1" for c in cubes()])),), goal,
                  "minisat", lambda: ("minisat", clauses(f"{name}.cnf", inputs, cubes())))


def wide_tautologies():
    for inputs, cubes in ((40, 240), (60, 330), (80, 416), (100, 500), (120, 600)):
        yield f"tautology-short-cubes-{inputs}", beside_minisat(
            f"short-{inputs}-{cubes}", inputs,
            lambda inputs=inputs, cubes=cubes: list(short_cubes(cubes, inputs, 3, inputs)), 0.2)


def written_pair(name, inputs, cubes, seed, more, dropped):
    """Two files of one function: the cubes, and each of them split twice with so many consensus cubes more, shuffled. The
    second may lack a literal of one cube."""
    chance = random.Random(seed)
    cubes = list(cubes)
    others = split_twice(cubes, chance) + consensus_cubes(cubes, more, chance)
    chance.shuffle(others)
    if dropped:
        others = with_literal_dropped(others, chance)
    return (write(f"{name}.pla", pla(inputs, 1, [c + " 1" for c in cubes])),
            write(f"{name}-{dropped:d}.pla", pla(inputs, 1, [c + " 1" for c in others])))


def wide_verifies():
    for dropped in (False, True):
        end = "-dropped" if dropped else ""
        for inputs, cubes, literals in ((40, 160, 3), (60, 240, 3), (80, 320, 3), (100, 380, 3), (60, 200, 4), (100, 600, 4)):
            name = f"short-{inputs}-{cubes}-{literals}"
            yield f"verify-{name}{end}", beside_cec(functools.cache(
                lambda name=name, inputs=inputs, cubes=cubes, literals=literals, dropped=dropped: written_pair(
                    name, inputs, short_cubes(cubes, inputs, literals, inputs + cubes), inputs * cubes, cubes, dropped)))
        for inputs in (40, 80):
            yield f"verify-two-of-{inputs}{end}", beside_cec(functools.cache(
                lambda inputs=inputs, dropped=dropped: written_pair(
                    f"two-of-{inputs}", inputs, two_of(inputs), inputs, 0, dropped)))


def prime_cases():
    goals = {"9sym": 0.0042, "sym12": 0.060, "adr6": 0.027}
    for name in ("9sym", "sym10", "sym11", "sym12", "adr5", "adr6"):
        yield f"primes-{name}", file_case(["-Dprimes"], lambda name=name: function(name), goals.get(name))
    for rows in (60, 120, 240):
        yield f"primes-random-{rows}", file_case(
            ["-Dprimes"],
            lambda rows=rows: write(f"random-16-8-{rows}.pla", pla(16, 8, sparse_rows(rows, 16, 8, 0.45, rows))), None)


def sum_cases():
    """Complete sums of parts that share no input, in one output or two, and of many points."""
    for count in (2, 8, 16, 100, 300):
        yield f"primes-rings-{count}", file_case(
            ["-Dprimes"],
            lambda count=count: write(f"rings-apart-{count}.pla", pla(3 * count, 1, rings_side_by_side(count))),
            0.2)
    for count in (10, 40):
        yield f"exact-rings-twice-{count}", file_case(
            ["-Dexact"],
            lambda count=count: write(
                f"rings-twice-{count}.pla", pla(3 * count, 2, (row + "1" for row in rings_side_by_side(count)))), 1)
    yield "primes-mlp5", file_case(["-Dprimes"], lambda: function("mlp5"), None)
    yield "primes-random-points-12", file_case(
        ["-Dprimes"], lambda: write("random-points-12.pla", pla(12, 1, random_points(12, 0.4, 0.3, 1))), None)


def exact_cases():
    goals = {"rd53": 0.06, "rd73": 0.06, "rd84": 0.06, "adr4": 0.06, "life": 0.06, "xor5": 0.06, "maj9": 0.06,
             "sqr6": 0.12, "mlp4": 0.66, "adr6": 0.6}
    for name in (*goals, "sqr7"):
        yield f"exact-{name}", file_case(["-Dexact"], lambda name=name: function(name), goals.get(name))
    for count, goal in ((8, None), (300, 0.1)):
        yield f"exact-rings-{count}", file_case(
            ["-Dexact"],
            lambda count=count: write(f"rings-{count}.pla", pla(rings(count)[0], 1, rings(count)[1])), goal)
    for name in ("adr4", "rd84", "adr6", "sym12"):
        yield f"essen-{name}", file_case(["-Dessen"], lambda name=name: function(name), None)
    yield "essen-random-240", file_case(
        ["-Dessen"], lambda: write("random-16-8-240.pla", pla(16, 8, sparse_rows(240, 16, 8, 0.45, 240))), None)


def points_file(inputs, outputs, on, dc, seed):
    """A file of type fd: each place of each output is in the ON-set or the DC-set by these chances in a hundred."""
    draw = random.Random(seed)
    rows = []
    for place in range(2 ** inputs):
        drawn = [draw.random() * 100 for _ in range(outputs)]
        symbols = "".join("1" if d < on else "-" if d < on + dc else "0" for d in drawn)
        if symbols.strip("0"):
            rows.append(f"{place:0{inputs}b} {symbols}")
    name = f"points-{inputs}-{outputs}-{on}-{dc}-{seed}.pla"
    return write(name, [f".i {inputs}", f".o {outputs}", ".type fd", *rows, ".e"])


def large_exact_cases():
    """Least covers whose first one is hard to come by, and those of random points, over five seeds."""
    for name, goal in (("9sym", 5), ("sqr6", 0.06), ("mlp4", 0.33), ("adr5", None), ("adr6", 0.3), ("sqr7", 2), ("sym10", 60)):
        yield f"least-{name}", file_case(["-Dexact"], lambda name=name: function(name), goal)
    for name, goal in (("mlp4", 2), ("sqr7", 5)):
        yield f"least-literals-{name}", file_case(["-Dexact", "--literals"], lambda name=name: function(name), goal)
    for shape, goal in (((9, 3, 30, 20), 2), ((10, 1, 40, 20), 2), ((10, 2, 30, 30), 10), ((12, 1, 30, 10), 3)):
        for seed in range(1, 6):
            yield "least-points-" + "-".join(map(str, (*shape, seed))), file_case(
                ["-Dexact"], lambda shape=shape, seed=seed: points_file(*shape, seed), goal)


def same_function(inputs, kept, count):
    """Two files of one function: the first leaves of a partition, and the same places cut into more cubes."""
    leaves = partition(5000, inputs, inputs)[:kept]
    return (write(f"leaves-{inputs}-{kept}.pla", pla(inputs, 1, [c + " 1" for c in leaves])),
            write(f"leaves-{inputs}-{kept}-split.pla", pla(inputs, 1, [c + " 1" for c in split_rows(leaves, count, 7)])))


def pair_cases():
    for inputs in (64, 256):
        half = functools.cache(lambda inputs=inputs: same_function(inputs, 2500, 5000))
        whole = functools.cache(lambda inputs=inputs: same_function(inputs, 5000, 10000))
        yield f"verify-{inputs}-inputs-half", pair_case(["-Dverify"], half, 0.27)
        yield f"verify-{inputs}-inputs", pair_case(["-Dverify"], whole, 0.27)
        yield f"verify-{inputs}-inputs-beside-cec", beside_cec(whole)
    for count, goal in ((10 ** 4, None), (10 ** 6, 2)):
        yield f"verify-shuffled-{count}", pair_case(
            ["-Dverify"],
            lambda count=count: (
                write(f"rows-30-{count}.pla", pla(30, 4, random_rows(count, 30, 4, 3))),
                write(f"rows-30-{count}-shuffled.pla", pla(30, 4, shuffled(random_rows(count, 30, 4, 3), 9)))),
            goal)
    for command in ("sharp", "intersect"):
        yield f"{command}-random", pair_case(
            [f"-D{command}"],
            lambda: (write("random-20-a.pla", pla(20, 1, sparse_rows(60, 20, 1, 0.6, 1))),
                     write("random-20-b.pla", pla(20, 1, sparse_rows(60, 20, 1, 0.6, 2)))),
            None)


def drawn(name, goals, **how):
    """Control logic of some shapes: name, listing, and the seconds for `exact`, of either choice, and for `essen`."""
    for shape, *seconds in goals:
        yield "-".join(map(str, (name, *shape))), functools.partial(control, *shape, **how), *seconds


# Functions of many outputs, as `drawn` gives them; without seconds for `exact`, that is not run.
LOGIC = [
    *drawn("control", [((24, 16, 80), 0.1, 0.1), ((36, 24, 110), 0.1, 0.1), ((48, 17, 120), 0.1, 0.1),
                       ((60, 30, 160), 0.1, 0.1), ((83, 60, 250), 0.2, 0.13), ((94, 43, 200), 0.13, 0.1),
                       ((128, 60, 400), 3, 0.9), ((83, 60, 500), 8, 1), ((83, 60, 600), 16, 1)]),
    *drawn("control-free", [((36, 24, 110), 0.15, 0.1), ((60, 30, 160), 0.16, 0.1), ((83, 60, 250), 0.13, 0.11),
                            ((94, 43, 200), 0.4, 0.1)], free=0.15),
    *drawn("control-decoded", [((47, 40, 220), 0.1, 0.1), ((83, 60, 400), 0.2, 0.2), ((128, 60, 600), 0.3, 0.25)],
           style=DECODED),
    *drawn("control-known", [((56, 23, 75), 1, 1), ((94, 43, 91), 1, 1), ((82, 56, 112), 1, 1), ((36, 57, 166), 1, 1),
                             ((47, 72, 241), 1, 1), ((48, 17, 173), 1, 1), ((83, 94, 529), 1, 1), ((128, 28, 620), 10, 1)],
           seed=11, style=KNOWN),
    *drawn("control-wide", [((24, 16, 120), 0.5, 0.1), ((47, 40, 220), 30, 1), ((83, 60, 400), None, 1), ((128, 60, 600), None, 1)],
           style=WIDE),
    ("rotator-16", functools.partial(shifter, 16, 3, rotate=True), 0.1, 0.1),
    ("rotator-32", functools.partial(shifter, 32, 5, rotate=True), 0.14, 0.17),
    ("shifter-32", functools.partial(shifter, 32, 5), 0.1, 0.1),
    ("selector-35", functools.partial(selector, 3, 4), 0.1, 0.1),
    ("selector-99", functools.partial(selector, 3, 12), 0.1, 0.1),
    ("grants-12-8", functools.partial(grants, 12, 8), 0.1, 0.1),
    ("first-request-20", functools.partial(first_request, 20), 0.1, 0.1),
    ("operation-lines-16", functools.partial(operation_lines, 6, 8, 32, 2), 0.1, 0.1),
    *((f"joined-rings-{count}", functools.partial(joined_rings, count), 0.5, 0.5) for count in (8, 16, 64, 300)),
]


def listing_file(name, listing, end="", order=lambda rows: rows):
    return write(f"{name}{end}.pla", pla(listing.inputs, listing.outputs, [*listing.head(), *order(listing.rows)]))


def logic_cases():
    """Functions of many outputs, most of which have more primes than can be listed."""
    for name, listing, covers, essential in LOGIC:
        for label, words, goal in (("exact", ("-Dexact",), covers), ("exact-literals", ("-Dexact", "--literals"), covers),
                                   ("essen", ("-Dessen",), essential)):
            if goal is not None:
                yield f"{label}-{name}", file_case(
                    list(words), lambda name=name, listing=listing: listing_file(name, listing()), goal)


def sample_cases():
    """Samples of type fr: the same in another order, and their essential primes."""
    for shape in ((20, 10, 60), (36, 24, 110), (60, 30, 160), (94, 43, 200), (128, 60, 400)):
        name = "samples-{}-{}-{}".format(*shape)

        def both(name=name, shape=shape):
            listing = samples(*shape)
            return listing_file(name, listing), listing_file(name, listing, "-shuffled", lambda rows: shuffled(rows, 9))
        yield f"verify-{name}", pair_case(["-Dverify"], both, 0.3)
        yield f"essen-{name}", file_case(["-Dessen"], lambda both=both: both()[0], 0.1)


# Functions whose tables of truth are read, with the goals for `exact` and `essen`, if there are any.
TABLES = [
    ("sum-8", adder(4), 0.1, 0.1), ("sum-12", adder(6), 0.3, 0.2), ("sum-14", adder(7), 1, 0.3), ("sum-16", adder(8), 3, 0.5),
    ("product-8", multiplier(4), 0.5, 0.1),
    ("comparison-14", comparison(7), 0.2, 0.2), ("comparison-16", comparison(8), 0.4, 0.4),
    ("leading-12", leading_noughts(12), 0.1, 0.1), ("leading-16", leading_noughts(16), 0.2, 0.2),
    ("ones-11", (11, 4, sum), 0.5, 0.5), ("ones-13", (13, 4, sum), 1, 5),
    ("parity-12", parity(12), 0.2, 0.2),
    ("arithmetic-unit-14", arithmetic_unit(6), 0.5, 0.5), ("display-14", sensor_display(7), 0.5, 0.2),
]


def table_cases():
    """Tables of truth of arithmetic: a row for each point."""
    for name, points, least, essential in TABLES:
        for label, words, goal in (("exact", ("-Dexact",), least), ("essen", ("-Dessen",), essential),
                                   ("tautology", ("-Dtautology",), 0.1)):
            yield f"{label}-table-{name}", file_case(
                list(words), lambda name=name, points=points: write(
                    f"table-{name}.pla", pla(points[0], points[1], function_rows(*points))), goal)


def cases():
    yield "echo-million-rows", file_case(
        ["-Decho"], lambda: write("rows-1000000.pla", pla(20, 4, random_rows(10 ** 6, 20, 4, 1))), 0.30)
    yield "echo-200000-rows", file_case(
        ["-Decho"], lambda: write("rows-200000.pla", pla(20, 4, random_rows(200000, 20, 4, 1))), 0.06)
    yield "echo-nothing-but-comments", lambda program: (
        *measured(program, ["-Decho", "-eeat"], comment_stream), None)
    for inputs in (40, 64, 128, 256):
        for missing in (0, 1):
            yield f"tautology-{inputs}-inputs" + ("-one-missing" if missing else ""), file_case(
                ["-Dtautology"],
                lambda inputs=inputs, missing=missing: write(
                    f"partition-{inputs}-{missing}.pla",
                    pla(inputs, 1, [c + " 1" for c in partition(5000, inputs, inputs)[missing:]])),
                0.036)
    for inputs in (128, 256):
        yield f"tautology-{inputs}-inputs-2000", file_case(
            ["-Dtautology"],
            lambda inputs=inputs: write(
                f"partition-{inputs}-2000.pla", pla(inputs, 1, [c + " 1" for c in partition(2000, inputs, inputs)])),
            None)
    for rows in (10 ** 4, 3 * 10 ** 4, 10 ** 5):
        yield f"contain-{rows}-rows", file_case(
            ["-Dcontain"],
            lambda rows=rows: write(f"contain-{rows}.pla", pla(40, 1, contained_rows(rows, 40, rows))),
            9.9 if rows == 10 ** 5 else None)
    yield from wide_tautologies()
    yield from prime_cases()
    yield from sum_cases()
    yield from exact_cases()
    yield from large_exact_cases()
    yield from logic_cases()
    yield from table_cases()
    yield from pair_cases()
    yield from sample_cases()
    yield from wide_verifies()


def read_words():
    reader = argparse.ArgumentParser(usage=argparse.SUPPRESS)
    reader.add_argument("--instructions", action="store_true")
    reader.add_argument("--against")
    reader.add_argument("--effort")
    reader.add_argument("program")
    reader.add_argument("cases", nargs="*")
    reader.parse_intermixed_args(namespace=OPTIONS)


def main():
    if len(sys.argv) < 2:
        sys.exit(__doc__)
    read_words()
    for name, run in cases():
        if OPTIONS.cases and not any(name.startswith(word) for word in OPTIONS.cases):
            continue
        times, kilobytes, status, goal = [], 0, 0, None
        for _ in range(3):
            seconds, kilobytes, status, goal = run(OPTIONS.program)
            times.append(seconds)
        within = "" if goal is None else f"within {goal:.3f} s"
        print(f"{name:32} {min(times):9.3f} s {kilobytes / 1024:8.1f} MB  {within}  status {status}", flush=True)


if __name__ == "__main__":
    main()
