#!/usr/bin/env python3
"""Compares programs with the definitions, on random tables of truth and long lists of small cubes, through every command.

usage: tests/random_tables.py [--count N] [--seed S] [--processes P] PROGRAM ..

The files have up to eight inputs and four outputs, and the types fd, fr and fdr. The answers are made from the
definitions (least.py); a least cover that takes too many steps there is not asked for. Each difference is printed; the
last line counts answers and differences.
"""
import os
import random
import sys

sys.dont_write_bytecode = True
sys.path.insert(0, os.path.dirname(os.path.abspath(__file__)))

import batches  # noqa: E402
import least  # noqa: E402
from definition import Description  # noqa: E402
from support import printed  # noqa: E402
from worked import (DC_OFF, DIFFERENT, EQUAL, GAPS, NO_TAUTOLOGY, ON_DC, ON_OFF, PARTITION, TAUTOLOGY)  # noqa: E402


def number(bits):
    return int(bits or "0", 2)


def sum_of_parts(point):
    half = len(point) // 2
    return number(point[:half]) + number(point[half:])


def product_of_parts(point):
    half = len(point) // 2
    return number(point[:half]) * number(point[half:])


def leading(point):
    return len(point) - len(point.lstrip("0"))


# What the outputs of a table are, as a number of the point's bits.
VALUES = (sum_of_parts, product_of_parts, leading, lambda point: point.count("1"), lambda point: number(point) ** 2,
          lambda point: 2 * (number(point[:2]) > number(point[-2:])) + (number(point[:2]) == number(point[-2:])))


def table(chance, inputs, outputs):
    """A row for each point, or for most; some symbols are left open, or drawn."""
    value, shift = chance.choice(VALUES), chance.choice((0, 0, 1, 2))
    open_share, drawn_share, row_share = chance.choice((0, 0, 0.1, 0.4)), chance.choice((0, 0, 0.02, 1)), chance.choice((1, 1, 0.9))

    def symbol(point, j):
        if chance.random() < open_share:
            return "-"
        return chance.choice("01") if chance.random() < drawn_share else str(value(point) >> j + shift & 1)
    rows = [(point, "".join(symbol(point, j) for j in range(outputs)))
            for point in (f"{k:0{inputs}b}" for k in range(2 ** inputs)) if chance.random() < row_share]
    return rows


def cut_cubes(chance, inputs, outputs):
    """Random cubes, cut in halves again and again."""
    marks = chance.choice(("01", "01-", "0011-", "01~"))
    rows = [("".join(chance.choice("01---") for _ in range(inputs)), "".join(chance.choice(marks) for _ in range(outputs)))
            for _ in range(chance.randrange(1, 12))]
    for _ in range(chance.choice((20, 100, 300))):
        k = chance.randrange(len(rows))
        cube, out = rows[k]
        dashes = [i for i, symbol in enumerate(cube) if symbol == "-"]
        if dashes:
            i = chance.choice(dashes)
            rows[k] = (cube[:i] + "0" + cube[i + 1:], out)
            rows.append((cube[:i] + "1" + cube[i + 1:], out))
    return rows


def drawn(chance, inputs, outputs):
    rows = chance.choice((table, cut_cubes))(chance, inputs, outputs)
    if chance.random() < 0.4:
        chance.shuffle(rows)
    return Description(inputs, outputs, chance.choice(("fd", "fr", "fdr")), tuple(rows or [("0" * inputs, "0" * outputs)]))


def relative(chance, function):
    """A second file of the same shape: the same in another order or type, with some rows changed, or another function."""
    if chance.random() < 0.3:
        return drawn(chance, function.inputs, function.outputs)
    rows = list(function.rows)
    chance.shuffle(rows)
    for k in range(chance.choice((0, 0, 1, 3))):
        cube, out = rows[k % len(rows)]
        rows[k % len(rows)] = (cube, "".join(chance.choice("01-") for _ in out))
    return Description(function.inputs, function.outputs, chance.choice((function.kind, "fd", "fr", "fdr")), tuple(rows))


class File:
    """A file, its sets, and what commands print of it."""

    def __init__(self, function):
        self.function, (self.on, self.dc, self.off) = function, least.sets(function)
        self.whole = (1 << (1 << function.inputs)) - 1

    def listed(self, mark):
        """The cubes of a given list."""
        return [(cube, "".join("01"[symbol == mark] for symbol in out)) for cube, out in self.function.rows if mark in out]

    def lists(self, on):
        """The three lists with these cubes for the ON-set; those that are not given are complete sums."""
        kind, inputs = self.function.kind, self.function.inputs
        return (("1", on), ("-", least.complete_sum(inputs, self.dc) if kind == "fr" else self.listed("-")),
                ("0", self.listed("0") if kind in ("fr", "fdr") else least.complete_sum(inputs, self.off)))

    def printed(self, on, out="f"):
        inputs, outputs = self.function.inputs, self.function.outputs
        if out == "f":
            return printed(inputs, outputs, *(f"{cube} {bits}" for cube, bits in on)), 0
        shown = {"fd": "1-", "fr": "10", "fdr": "1-0"}[out]
        rows = [f"{cube} {''.join(mark if bit == '1' else '~' for bit in bits)}"
                for mark, cubes in self.lists(on) if mark in shown for cube, bits in cubes]
        return printed(inputs, outputs, *rows, head=[f".type {out}"]), 0

    def contained(self):
        """The ON list without cubes that lie in others; of equal cubes the first stays."""
        points, cubes = dict(least.cubes(self.function.inputs)), self.listed("1")

        def within(one, other):
            return points[one[0]] & ~points[other[0]] == 0 and number(one[1]) & ~number(other[1]) == 0
        return [cube for k, cube in enumerate(cubes) if not any(within(cube, other) for other in cubes[:k])
                and not any(within(cube, other) and cube != other for other in cubes[k + 1:])]

    def flaws(self):
        meets = [(ON_DC, self.on, self.dc), (ON_OFF, self.on, self.off), (DC_OFF, self.dc, self.off)]
        text = b"".join(line for line, one, other in meets if any(a & b for a, b in zip(one, other)))
        if any(a | b | c != self.whole for a, b, c in zip(self.on, self.dc, self.off)):
            text += GAPS
        return (text, 1) if text else (PARTITION, 0)

    def tautology(self):
        return (TAUTOLOGY, 0) if all(places == self.whole for places in self.on) else (NO_TAUTOLOGY, 1)

    def agrees(self, other):
        same = all((a ^ b) & ~(c | d) == 0 for a, b, c, d in zip(self.on, other.on, self.dc, other.dc))
        return (EQUAL, 0) if same else (DIFFERENT, 1)

    def sum_with(self, other, meet):
        return self.printed(least.complete_sum(self.function.inputs, [meet(a, b) for a, b in zip(self.on, other.on)]))


def of_one(chance, file):
    """Commands on one file, and the answers that are due."""
    def out():
        return chance.choice(("f", "f", "fd", "fr", "fdr"))
    answers, outs = least.Answers(file.function), [out() for _ in range(6)]
    yield f"-Decho -o{outs[0]}", file.printed(file.listed("1"), outs[0])
    yield f"-Dcontain -o{outs[1]}", file.printed(file.contained(), outs[1])
    yield f"-Dprimes -o{outs[2]}", file.printed(answers.primes, outs[2])
    yield f"-Dessen -o{outs[3]}", file.printed(answers.essential(), outs[3])
    yield "-Dcheck", file.flaws()
    yield "-Dtautology", file.tautology()
    try:
        yield f"-Dexact -o{outs[4]}", file.printed(answers.exact(False), outs[4])
        yield f"-Dexact --literals -o{outs[5]}", file.printed(answers.exact(True), outs[5])
    except least.GaveUp:
        pass


def of_two(one, other):
    """Commands on two files."""
    yield "-Dverify a b", one.agrees(other)
    yield "-Dverify b a", one.agrees(other)
    yield "-Dintersect a b", one.sum_with(other, lambda a, b: a & b)
    yield "-Dsharp a b", one.sum_with(other, lambda a, b: a & ~b)
    yield "-Dsharp b a", other.sum_with(one, lambda a, b: a & ~b)


def compare(programs, seed, which):
    chance = random.Random(f"tables {seed} {which}")
    function = drawn(chance, chance.randrange(3, 9), chance.randrange(1, 5))
    file, other = File(function), File(relative(chance, function))
    text = function.text()
    cases = [(command, {"-": text}, due) for command, due in of_one(chance, file)]
    cases += [(command, {"a": text, "b": other.function.text()}, due) for command, due in of_two(file, other)]
    told = []
    for program in programs:
        for command, files, due in cases:
            found = batches.answer(program, command, files)
            if found != due:
                told.append(batches.told(f"table {which}", program, command, files, due, found))
    return len(programs) * len(cases), told


if __name__ == "__main__":
    batches.main(__doc__, compare)
