#!/usr/bin/env python3
"""Compares programs with the definitions, on random functions of up to seven inputs and five outputs.

usage: tests/random_functions.py [--count N] [--seed S] [--processes P] PROGRAM ..

Each function has one of the four types, and now and then places in several lists; one in three is set among 13 to 40
inputs, with dashes there or in cubes that are cut. Its primes, its essential primes and its least covers, of either
choice, are made here from the definitions (least.py). Functions whose least covers take too many steps are drawn anew.
Each difference is printed with as few rows as still show it; the last line counts answers and differences.

The programs of bench/low_budgets.py take ways that the product takes for much larger functions alone.
"""
import os
import random
import sys
from dataclasses import dataclass

sys.dont_write_bytecode = True
sys.path.insert(0, os.path.dirname(os.path.abspath(__file__)))

import batches  # noqa: E402
from definition import Description  # noqa: E402
from least import Answers, GaveUp  # noqa: E402
from support import printed  # noqa: E402

COMMANDS = ("-Dprimes", "-Dessen", "-Dexact", "-Dexact --literals")


def table(chance, inputs, outputs):
    """A row for each point, or for most."""
    symbols = chance.choice(("01", "011", "0111-", "01-", "001-", "01--", "0-----1"))
    share = chance.choice((1, 1, 0.8, 0.4))
    return [(f"{point:0{inputs}b}", "".join(chance.choice(symbols) for _ in range(outputs)))
            for point in range(2 ** inputs) if chance.random() < share]


def cubes(chance, inputs, outputs):
    """Random cubes, with fewer literals or more."""
    symbols, marks = chance.choice(("01-", "01----", "0011-")), chance.choice(("01", "0011-", "01-", "0001-", "0001"))
    return [("".join(chance.choice(symbols) for _ in range(inputs)), "".join(chance.choice(marks) for _ in range(outputs)))
            for _ in range(chance.randrange(1, chance.choice((8, 3 * inputs + 3, 40))))]


def samples(chance, inputs, outputs):
    """Some points, each with a symbol of its own at each output, mostly without contradictions."""
    points = [chance.randrange(2 ** inputs) for _ in range(chance.randrange(2, 4 * inputs))]
    values = {point: "".join(chance.choice("01") for _ in range(outputs)) for point in points}
    return [(f"{point:0{inputs}b}", value) for point, value in values.items()]


def rings(chance, inputs, outputs):
    """Rings of six points in some outputs, of which no prime is essential, beside other cubes."""
    rows = cubes(chance, inputs, outputs)[:3]
    for j in range(outputs):
        front = "".join(chance.choice("01-") for _ in range(inputs - 3))
        rows += [(front + point, "~" * j + "1" + "~" * (outputs - 1 - j)) for point in ("000", "001", "010", "101", "110", "111")]
    return rows


def lines(chance, inputs, outputs, kind):
    """Rows with few literals, each of which marks one or two of many outputs."""
    marks, rest = ("01", "~") if kind in ("fr", "fdr") else ("111-", "0")
    rows = []
    for _ in range(chance.randrange(outputs, 4 * outputs)):
        raised, mark = chance.sample(range(outputs), chance.choice((1, 1, 2))), chance.choice(marks)
        rows.append(("".join(chance.choice("01--") for _ in range(inputs)), "".join(mark if j in raised else rest for j in range(outputs))))
    return rows


def drawn(chance):
    """A function."""
    kind = chance.choice(("f", "fd", "fr", "fdr"))
    if chance.random() < 0.3:
        inputs, outputs = chance.randrange(3, 7), chance.randrange(8, 15)
        return Description(inputs, outputs, kind, tuple(lines(chance, inputs, outputs, kind)))
    inputs, outputs = chance.randrange(1, 8), chance.randrange(1, 6)
    forms = [cubes, cubes, samples, table]
    if inputs > 2:
        forms.append(rings)
    rows = chance.choice(forms)(chance, inputs, outputs)
    chance.shuffle(rows)
    return Description(inputs, outputs, kind, tuple(rows or [("-" * inputs, "0" * outputs)]))


def cut(chance, cube, free):
    """Cubes of the same places: the cube is cut at some of its free inputs."""
    pieces = [cube]
    for i in chance.sample(free, min(len(free), chance.choice((0, 0, 1, 2)))):
        at = chance.randrange(len(pieces))
        piece = pieces.pop(at)
        pieces += [piece[:i] + bit + piece[i + 1:] for bit in "01"]
    return pieces


@dataclass(frozen=True)
class Setting:
    """Where the inputs of a function stand among others."""
    inputs: int
    at: tuple

    def place(self, cube):
        symbols = ["-"] * self.inputs
        for i, symbol in zip(self.at, cube):
            symbols[i] = symbol
        return "".join(symbols)

    def free(self):
        return [i for i in range(self.inputs) if i not in self.at]


def setting(chance, number, inputs):
    if number % 3:
        return Setting(inputs, tuple(range(inputs)))
    wide = chance.randrange(13, 41)
    return Setting(wide, tuple(sorted(chance.sample(range(wide), inputs))))


def text_of(chance, function, place):
    rows = [(piece, out) for cube, out in function.rows for piece in cut(chance, place.place(cube), place.free())]
    return Description(place.inputs, function.outputs, function.kind, tuple(rows)).text()


def due(function, place):
    """The answers that are due, by command."""
    answers = Answers(function)
    lists = (answers.primes, answers.essential(), answers.exact(False), answers.exact(True))
    return {command: (printed(place.inputs, function.outputs, *(f"{place.place(cube)} {out}" for cube, out in rows)), 0)
            for command, rows in zip(COMMANDS, lists)}


def differs(program, command, cuts, function, place):
    """What is told where the program's answer is not the one that is due."""
    try:
        wanted = due(function, place)[command]
    except GaveUp:
        return None
    files = {"-": text_of(random.Random(cuts), function, place)}
    found = batches.answer(program, command, files)
    return None if found == wanted else batches.told("with fewer rows", program, command, files, wanted, found)


def with_fewer_rows(program, command, cuts, function, place, shown):
    """The difference with as few rows as still show it."""
    k = 0
    while k < len(function.rows) > 1:
        rows = function.rows[:k] + function.rows[k + 1:]
        fewer = Description(function.inputs, function.outputs, function.kind, rows)
        if told := differs(program, command, cuts, fewer, place):
            function, shown = fewer, told
        else:
            k += 1
    return shown


def drawn_with_answers(chance, number):
    """A function, where its inputs stand, and the answers that are due."""
    while True:
        function = drawn(chance)
        place = setting(chance, number, function.inputs)
        try:
            return function, place, due(function, place)
        except GaveUp:
            pass


def compared(programs, seed, number):
    """How many answers were compared, and texts that tell of differences."""
    chance = random.Random(f"{seed} {number}")
    function, place, wanted = drawn_with_answers(chance, number)
    cuts = chance.random()
    files, told = {"-": text_of(random.Random(cuts), function, place)}, []
    for program in programs:
        for command, output in wanted.items():
            found = batches.answer(program, command, files)
            if found != output:
                shown = batches.told(f"function {number}", program, command, files, output, found)
                told.append(shown if found[1] < 0 else with_fewer_rows(program, command, cuts, function, place, shown))
    return len(programs) * len(wanted), told


if __name__ == "__main__":
    batches.main(__doc__, compared)
