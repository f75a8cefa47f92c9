"""Tables of truth, with a row for each point or nearly so, and cubes cut in halves: long lists of small cubes, whose rows
the program may merge before it answers. The answers are made by the definitions."""
import random
from dataclasses import replace

from definition import Description, agree
from support import Case, ProgramTest, on_input
from worked import DIFFERENT, EQUAL, NO_TAUTOLOGY, TAUTOLOGY


def cut_in_halves(rows, chance, count):
    """Rows of the same places: so many times a row with a dash is cut at it."""
    rows = list(rows)
    for _ in range(count):
        k = chance.randrange(len(rows))
        cube, out = rows[k]
        dashes = [i for i, symbol in enumerate(cube) if symbol == "-"]
        if dashes:
            i = chance.choice(dashes)
            rows[k] = (cube[:i] + "0" + cube[i + 1:], out)
            rows.append((cube[:i] + "1" + cube[i + 1:], out))
    return tuple(rows)


def table(number):
    """Points of six or seven inputs, where each output is a comparison of some inputs, now and then turned, or left open."""
    chance = random.Random(number)
    inputs, outputs, kind = 6 + number % 2, 1 + number % 3, ("fd", "fr", "fdr")[number // 3 % 3]
    masks = [chance.randrange(1, 2 ** inputs) for _ in range(outputs)]
    bounds = [chance.randrange(2 ** inputs) & mask for mask in masks]
    open_share = chance.choice((0, 0.05, 0.3))

    def symbol(point, j):
        return "-" if chance.random() < open_share else str(int(point & masks[j] >= bounds[j]))
    rows = [(f"{point:0{inputs}b}", "".join(symbol(point, j) for j in range(outputs))) for point in range(2 ** inputs)]
    if number % 4 == 1:
        chance.shuffle(rows)
    return Description(inputs, outputs, kind, tuple(rows))


def cut_cubes(number):
    """Random cubes of six inputs, cut into seventy rows or more."""
    chance = random.Random(number)
    outputs, kind = 1 + number % 4, ("fd", "fr", "fdr")[number % 3]
    rows = [("".join(chance.choice("01---") for _ in range(6)), "".join(chance.choice("01-") for _ in range(outputs)))
            for _ in range(8)]
    return Description(6, outputs, kind, cut_in_halves(rows, chance, 110))


class Tables(ProgramTest):
    def answered(self, name, function):
        primes, (on, _, _) = function.primes(), function.sets()
        text = function.text()
        whole = len(on) == function.outputs * 2 ** function.inputs
        self.check(on_input(f"{name}, primes", "-Dprimes", text, function.printed(primes)),
                   on_input(f"{name}, essential", "-Dessen", text, function.printed(function.essential())),
                   on_input(f"{name}, tautology", "-Dtautology", text, TAUTOLOGY if whole else NO_TAUTOLOGY, status=0 if whole else 1),
                   on_input(f"{name}, primes and all lists", "-Dprimes -o fdr", text, function.printed_lists(primes)))

    def least(self, name, function):
        self.check(on_input(f"{name}, exact", "-Dexact", function.text(), function.printed(function.exact())),
                   on_input(f"{name}, literals", "-Dexact --literals", function.text(), function.printed(function.exact(True))))

    def test_tables_of_comparisons(self):
        for number in range(48):
            function = table(number)
            self.answered(f"table {number}", function)
            if len(function.primes()) < 20:
                self.least(f"table {number}", function)

    def test_cubes_cut_in_halves(self):
        for number in range(36):
            self.answered(f"cubes {number}", cut_cubes(number))

    def test_two_tables(self):
        """A table and the same with its rows in another order, or with one of them turned."""
        for number in range(24):
            one, chance = table(number), random.Random(number)
            rows = list(one.rows)
            chance.shuffle(rows)
            if number % 2:
                cube, out = rows[0]
                rows[0] = (cube, "".join({"0": "1", "1": "0"}.get(symbol, symbol) for symbol in out))
            other = replace(one, rows=tuple(rows))
            answer = (EQUAL, b"", 0) if agree(one, other) else (DIFFERENT, b"", 1)
            self.check(Case(f"tables {number}", "-Dverify a b", {"a": one.text(), "b": other.text()}, *answer))
