"""Families of functions that grow, for `verify`, `tautology` and functions of one output; those for `exact` are in exact_families.py.

Every file is made by a fixed seed. Generators are in rows.py, arithmetic.py, users.py and control.py.
"""
import itertools
import random
from dataclasses import dataclass

from arithmetic import adder, function_rows, joined, middle_ones, multiplier, output_of, parity, square
from rows import (consensus_cubes, one_output, partition, pla, products, random_function, rings, short_cubes, shuffled, sparse_rows,
                  split_rows, split_twice, two_of, with_literal_dropped, write)

DRAWS = 5                          # functions a size, where one that is drawn may be much harder than the next
PROOF = "the proof that no cover is shorter"         # what stops larger ones
BRANCHES = "the branches of the search"


@dataclass(frozen=True)
class Size:
    """One size of a family: what it is called, and for each of its functions what makes the files (their paths, when they
    are asked for)."""
    label: str
    files: list
    shape: str = ""                # inputs and outputs of functions of many outputs, whose second file is the first in another order
    primes: float = None           # of the first of them, where they are known
    least: int = None              # rows of a least cover, where they are printed elsewhere


@dataclass(frozen=True)
class Family:
    name: str
    told: str                      # what its members are
    sizes: list
    stops: str = ""                # what larger ones than those that are answered fail of, for `exact`
    ends: str = "no larger one was tried"      # why there is no larger one
    minute: bool = True            # asked of `exact` for a minute too
    grows: bool = True             # each size is larger than the last, so that a tool is asked up to the first that it does not answer


def file_of(name, inputs, outputs, rows, head=()):
    plain = name.replace(" ", "-").replace(",", "").replace("'", "")
    return write(f"{plain}.pla", pla(inputs, outputs, itertools.chain(head, rows)))


# Their files.

def rewritten(name, inputs, cubes, more=0, dropped=False, draw=0):
    """Files of these cubes and of the same places: each cube in four, and so many consensus cubes, shuffled. Where a
    literal is dropped, one cube of the second file lacks one, and the places may be others."""
    chance = random.Random(len(cubes) + 1000 * draw)
    second = split_twice(cubes, chance) + consensus_cubes(cubes, more, chance)
    chance.shuffle(second)
    if dropped:
        second = with_literal_dropped(second, chance)
    return (file_of(name, inputs, 1, one_output(cubes)),
            file_of(f"{name}-{'dropped' if dropped else 'rewritten'}", inputs, 1, one_output(second)))


def cover_rewritten(inputs, draw, dropped=False):
    """Four cubes of three literals an input, and the same in other cubes."""
    cubes = list(short_cubes(4 * inputs, inputs, 3, inputs + 1000 * draw))
    return rewritten(f"peers-cover-{inputs}-{4 * inputs}-{draw}", inputs, cubes, len(cubes), dropped, draw)


def cover(inputs, tenths, draw):
    """So many tenths of cubes of three literals an input."""
    count = inputs * tenths // 10
    return file_of(f"peers-cover-{inputs}-{count}-{draw}", inputs, 1, one_output(short_cubes(count, inputs, 3, inputs + 1000 * draw)))


def leaves(inputs, count, draw, missing=0):
    """The leaves of a random decision tree; without the first ones of them, where some are missing."""
    return file_of(f"peers-leaves-{inputs}-{count}-{missing}-{draw}", inputs, 1,
                   one_output(partition(count, inputs, count + draw)[missing:]))


def leaves_cut(inputs, count, draw):
    """Half of the leaves of a decision tree, and the same cut into twice as many cubes."""
    kept = partition(count, inputs, count + draw)[:count // 2]
    return (file_of(f"peers-half-{inputs}-{count}-{draw}", inputs, 1, one_output(kept)),
            file_of(f"peers-half-{inputs}-{count}-{draw}-cut", inputs, 1, one_output(split_rows(kept, count, 7))))


def symmetric_halves(inputs):
    """At least half of the inputs are 1, or fewer: the products of ones, and of noughts. A tautology."""
    ones = products(inputs, inputs // 2)
    noughts = products(inputs, inputs - inputs // 2 + 1, "0")
    return file_of(f"peers-halves-{inputs}", inputs, 1, one_output(itertools.chain(ones, noughts)))


def pigeonholes(holes):
    """One pigeon more than there are holes: a pigeon in none, or two in one. A tautology."""
    def rows():
        inputs = range((holes + 1) * holes)          # input pigeon * holes + hole
        for pigeon in range(holes + 1):
            yield "".join("0" if i // holes == pigeon else "-" for i in inputs) + " 1"
        for hole in range(holes):
            for pair in itertools.combinations(range(holes + 1), 2):
                yield "".join("1" if i % holes == hole and i // holes in pair else "-" for i in inputs) + " 1"
    return file_of(f"peers-pigeons-{holes}", (holes + 1) * holes, 1, rows())


# Functions that are listed point by point.

def points_of(name, function):
    inputs, outputs, value = function
    return file_of(f"peers-{name}", inputs, outputs, function_rows(inputs, outputs, value))


def points_and_joined(name, function):
    """The points of a function, and the same places in larger cubes of one output each."""
    inputs, outputs, _ = function
    return points_of(name, function), file_of(f"peers-{name}-joined", inputs, outputs, joined(*function))


def random_points(inputs, outputs, ones, dashes, draw):
    """Each output of each point is 1 or a don't-care, in these shares."""
    return file_of(f"peers-points-{inputs}-{outputs}-{ones}-{dashes}-{draw}", inputs, outputs,
                   random_function(inputs, outputs, ones, dashes, inputs + 1000 * draw), (".type fd",))


def random_cubes(inputs, rows, draw):
    """Random cubes of two outputs, of which four symbols in ten are dashes."""
    return file_of(f"peers-cubes-{inputs}-{rows}-{draw}", inputs, 2, sparse_rows(rows, inputs, 2, 0.4, rows + 1000 * draw))


def ring_file(count):
    inputs, rows = rings(count)
    return file_of(f"peers-rings-{count}", inputs, 1, rows)


def shuffled_cubes(rows, draw):
    """Random cubes of 30 inputs and four outputs, and the same in another order."""
    cubes = list(sparse_rows(rows, 30, 4, 0.33, rows + draw))
    return (file_of(f"peers-rows-{rows}-{draw}", 30, 4, cubes),
            file_of(f"peers-rows-{rows}-{draw}-shuffled", 30, 4, shuffled(cubes, 9)))


def family(name, told, sizes, label, files, stops="", **how):
    return Family(name, told, [Size(label(size), [lambda size=size: files(size)]) for size in sizes], stops, **how)


def drawn_family(name, told, sizes, label, files, stops="", **how):
    """A family of some functions a size: `files` has the number of the draw too."""
    return Family(name, f"{told}; {DRAWS} functions a size",
                  [Size(label(size), [lambda size=size, draw=draw: files(size, draw) for draw in range(DRAWS)])
                   for size in sizes], stops, **how)


def inputs_label(inputs):
    return f"{inputs} inputs"


def width_label(sign):
    return lambda width: f"{width} {sign} {width} bits"


def leaves_label(count):
    return f"{count} leaves"


def cubes_label(count):
    return f"{count} cubes"


def ring_label(count):
    return f"{count} ring{'s' if count > 1 else ''}"


def for_verify():
    """Each size is a pair of files."""
    points = [
        ("adders", "the points of a sum", range(2, 9), width_label("+"), adder),
        ("multipliers", "the points of a product", range(2, 9), width_label("×"), multiplier),
        ("squares", "the points of a square", range(4, 15, 2), inputs_label, square),
        ("symmetric functions", "the points with about a third to two thirds ones", range(6, 17, 2), inputs_label,
         middle_ones),
    ]
    covers = (20, 40, 60, 80, 100, 140, 200, 300)
    return [
        drawn_family("random 3-literal covers",
                     "four cubes an input; against each cube cut in four and as many consensus cubes, shuffled",
                     covers, inputs_label, cover_rewritten, BRANCHES),
        drawn_family("random covers, a literal dropped",
                     "the same, where one cube of the second file lacks a literal: the answer may be no",
                     covers, inputs_label, lambda n, draw: cover_rewritten(n, draw, dropped=True), BRANCHES),
        family("two ones of n", "the products of two inputs each; against each product cut in four, shuffled",
               (6, 10, 20, 30, 40, 60, 80, 120), inputs_label,
               lambda n: rewritten(f"peers-two-of-{n}", n, list(two_of(n))), BRANCHES),
        family("three ones of n", "the products of three inputs each; against each product cut in four, shuffled",
               (12, 18, 24, 30), inputs_label,
               lambda n: rewritten(f"peers-three-of-{n}", n, list(products(n, 3))), BRANCHES),
        drawn_family("partitions",
                     "half of the leaves of a random decision tree of 64 inputs; against the same cut into twice as many",
                     (250, 500, 1000, 2000, 4000, 8000, 16000, 32000), leaves_label, lambda n, draw: leaves_cut(64, n, draw), BRANCHES),
        drawn_family("random cubes", "30 inputs and four outputs; against the same in another order",
                     (100, 300, 1000, 3000, 10000, 30000, 100000), cubes_label, shuffled_cubes, BRANCHES),
        *(family(name, f"{told}; against the same in larger cubes of one output each", sizes, label,
                 lambda n, name=name, make=make: points_and_joined(f"{name}-{n}", make(n)), BRANCHES)
          for name, told, sizes, label, make in points),
    ]


def for_tautology():
    """Each size is a file of one output."""
    counts = (250, 500, 1000, 2000, 4000, 8000, 16000, 32000)
    return [
        drawn_family("random covers, 5.2 cubes an input", "cubes of three literals; most covers are tautologies",
                     (20, 40, 60, 80, 100, 120, 160, 200, 250, 300, 350, 400), inputs_label, lambda n, draw: (cover(n, 52, draw),), BRANCHES),
        drawn_family("random covers, 4 cubes an input", "cubes of three literals; most covers are no tautologies",
                     (20, 40, 80, 120, 160, 200, 250, 300, 350, 400, 600, 1000), inputs_label, lambda n, draw: (cover(n, 40, draw),), BRANCHES),
        drawn_family("partitions", "all leaves of a random decision tree of 64 inputs", counts, leaves_label,
                     lambda n, draw: (leaves(64, n, draw),), BRANCHES),
        drawn_family("partitions, one missing", "the same without one of the leaves", counts, leaves_label,
                     lambda n, draw: (leaves(64, n, draw, 1),), BRANCHES),
        family("symmetric functions",
               "the products of half of the inputs, and of so many inputs negated that always one of both holds",
               range(4, 21, 2), inputs_label, lambda n: (symmetric_halves(n),), BRANCHES),
        family("pigeonholes",
               "one pigeon more than holes: one is in none, or two are in one; known to be hard for resolution",
               range(2, 13), lambda n: f"{n} holes", lambda n: (pigeonholes(n),), BRANCHES),
    ]


def for_single_outputs():
    """Each size is a file of one output whose points are listed."""
    points = [
        ("symmetric functions", "the points with about a third to two thirds ones", range(4, 13), inputs_label,
         middle_ones),
        ("carries", "the highest output of a sum", range(1, 7), width_label("+"), lambda n: output_of(adder(n), n)),
        ("products", "the middle output of a product", range(2, 7), width_label("×"),
         lambda n: output_of(multiplier(n), n)),
        ("parity", "1 where the number of ones is odd", range(3, 13), inputs_label, parity),
    ]
    return [
        *(family(name, told, sizes, label, lambda n, name=name, make=make: (points_of(f"one-{name}-{n}", make(n)),), PROOF)
          for name, told, sizes, label, make in points),
        drawn_family("random points", "40 % are 1 and 20 % don't-cares", range(4, 13), inputs_label,
                     lambda n, draw: (random_points(n, 1, 0.4, 0.2, draw),), PROOF),
        family("rings", "six points of three inputs, side by side: six primes each, none essential",
               (1, 2, 4, 8, 16, 32, 64, 128), ring_label, lambda n: (ring_file(n),), PROOF),
    ]
