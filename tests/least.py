"""The answers of definition.py for larger functions: places are bits of whole numbers, and a least cover is searched for.

Cubes go through all combinations of symbols, in row order. No step is the program's."""
from functools import lru_cache
from itertools import product

STEPS = 2000                       # that a search may take


class GaveUp(Exception):
    """More steps would be needed."""


@lru_cache(maxsize=None)
def cubes(inputs):
    """All cubes in row order, each with its points as a set of bits."""
    found = [("", 1)]
    for _ in range(inputs):
        found = [(cube + symbol, points) for cube, points in found for symbol in "-01"]
    return [(cube, sum(1 << int("".join(point), 2) for point in product(*("01" if s == "-" else s for s in cube))) if inputs else 1)
            for cube, _ in found]


def given(function, mark):
    """For each output the points of the rows that have this symbol there."""
    points, found = dict(cubes(function.inputs)), [0] * function.outputs
    for cube, out in function.rows:
        for j, symbol in enumerate(out):
            if symbol == mark:
                found[j] |= points[cube]
    return found


def sets(function):
    """For each output the points of the ON-set, of the DC-set and of the OFF-set."""
    whole, none = (1 << (1 << function.inputs)) - 1, [0] * function.outputs
    on = given(function, "1")
    dc = given(function, "-") if function.kind in ("fd", "fdr") else none
    off = given(function, "0") if function.kind in ("fr", "fdr") else [whole & ~(a | b) for a, b in zip(on, dc)]
    if function.kind == "fr":
        dc = [whole & ~(a | b) for a, b in zip(on, off)]
    return on, dc, off


def complete_sum(inputs, places):
    """In row order: all cubes of these places that lie in no larger one, as symbols and outputs. A cube goes with all outputs
    at which it may stand; it is the largest of its kind where no literal can be left out at these outputs."""
    standing = {cube: tuple(points & ~at == 0 for at in places) for cube, points in cubes(inputs)}
    return [(cube, "".join("01"[stands] for stands in outputs)) for cube, outputs in standing.items()
            if any(outputs) and all(standing[cube[:i] + "-" + cube[i + 1:]] != outputs
                                    for i in range(inputs) if cube[i] != "-")]


def demands(function, primes):
    """For each wanted place the primes that hold it, as a set of bits."""
    on, dc, _ = sets(function)
    points = dict(cubes(function.inputs))
    rows = set()
    for j in range(function.outputs):
        holding = [(points[cube], 1 << k) for k, (cube, out) in enumerate(primes) if out[j] == "1"]
        wanted = on[j] & ~dc[j]
        while wanted:
            point = wanted & -wanted
            wanted ^= point
            rows.add(sum(bit for at, bit in holding if at & point))
    return rows


def least_sets(rows):
    """The rows that contain no other one."""
    kept = []
    for row in sorted(rows, key=int.bit_count):
        if not any(other & row == other for other in kept):
            kept.append(row)
    return kept


def bits(row):
    while row:
        yield (row & -row).bit_length() - 1
        row &= row - 1


class Search:
    """Covers of rows by columns that cost something."""

    def __init__(self, costs):
        self.costs, self.steps = costs, STEPS

    def bound(self, rows):
        """What rows that share no column cost at least."""
        total = seen = 0
        for row in rows:
            if not row & seen:
                total += min(self.costs[k] for k in bits(row))
                seen |= row
        return total

    def without_dominated(self, rows):
        """The rows without columns that are in no more of them than another one that costs no more."""
        held = {}
        for r, row in enumerate(rows):
            for k in bits(row):
                held[k] = held.get(k, 0) | 1 << r
        dropped = 0
        order = sorted(held, key=lambda k: (-held[k].bit_count(), self.costs[k], k))
        for at, k in enumerate(order):
            if any(held[k] & ~held[d] == 0 and self.costs[d] <= self.costs[k] and not dropped >> d & 1 for d in order[:at]):
                dropped |= 1 << k
        return [row & ~dropped for row in rows] if dropped else rows

    def least(self, rows, below):
        """The least cost of a cover of the rows, or `below` where none costs less."""
        self.steps -= 1
        if not self.steps:
            raise GaveUp
        while True:
            rows = least_sets(rows)
            if rows and not rows[0]:
                return below
            fewer = self.without_dominated(rows)
            if fewer is rows:
                break
            rows = fewer
        if not rows:
            return min(0, below)
        if self.bound(rows) >= below:
            return below
        taken = rows[0]
        for k in sorted(bits(taken), key=lambda k: -sum(row >> k & 1 for row in rows)):
            rest = self.least([row for row in rows if not row >> k & 1], below - self.costs[k])
            below = min(below, rest + self.costs[k])
            rows = [row & ~(1 << k) for row in rows]
        return below


def first_cover(rows, costs):
    """The numbers of the first of the covers that cost least."""
    search, chosen, left = Search(costs), [], sum(costs) + 1
    left = search.least(rows, left)
    for k in range(len(costs)):
        rest = [row for row in rows if not row >> k & 1]
        if len(rest) < len(rows) and costs[k] <= left and search.least(rest, left - costs[k] + 1) == left - costs[k]:
            chosen.append(k)
            rows, left = rest, left - costs[k]
        else:
            rows = [row & ~(1 << k) for row in rows]
    return chosen


def literals(cube):
    return len(cube) - cube.count("-")


class Answers:
    """The primes of a function, the essential ones, and its least covers."""

    def __init__(self, function):
        on, dc, _ = sets(function)
        self.primes = complete_sum(function.inputs, [a | b for a, b in zip(on, dc)])
        self.rows = demands(function, self.primes)

    def essential(self):
        return [prime for k, prime in enumerate(self.primes) if 1 << k in self.rows]

    def exact(self, fewest_literals):
        """The first of the shortest covers; of those with the fewest literals, where that is asked for."""
        costs = [1000 + literals(cube) if fewest_literals else 1 for cube, _ in self.primes]
        return [self.primes[k] for k in first_cover(least_sets(self.rows), costs)]
