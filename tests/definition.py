"""Answers by the definitions, for functions of few inputs: every cube is looked at, and every cover that can be the least.

No step is the program's. Places are pairs of a point and an output; a prime is found by its symbols among all cubes, and
a least cover among all choices of primes."""
from dataclasses import dataclass
from itertools import product

from support import pla, printed


def points_in(cube):
    """The points of a cube, as texts of bits."""
    return {"".join(point) for point in product(*("01" if symbol == "-" else symbol for symbol in cube))}


@dataclass(frozen=True)
class Description:
    """A file: its rows are pairs of symbols of inputs and of outputs."""
    inputs: int
    outputs: int
    kind: str
    rows: tuple

    def text(self, rows=None):
        return pla(self.inputs, self.outputs, *(" ".join(row) for row in rows or self.rows), head=[f".type {self.kind}"])

    def given(self, mark):
        """The places of the rows that have this symbol at the output."""
        return {(point, j) for cube, out in self.rows for j in range(self.outputs) if out[j] == mark
                for point in points_in(cube)}

    def sets(self):
        """The ON-set, the DC-set and the OFF-set."""
        everything = {(point, j) for point in points_in("-" * self.inputs) for j in range(self.outputs)}
        on = self.given("1")
        dc = self.given("-") if self.kind in ("fd", "fdr") else set()
        off = self.given("0") if self.kind in ("fr", "fdr") else everything - on - dc
        return on, everything - on - off if self.kind == "fr" else dc, off

    def complete_sum(self, places):
        """In row order: all cubes of these places that lie in no larger one. A cube goes with all outputs at which it may
        stand; it is the largest of its kind where no literal can be left out at these outputs."""
        standing = {}
        for symbols in product("-01", repeat=self.inputs):
            cube = "".join(symbols)
            points = points_in(cube)
            standing[cube] = {j for j in range(self.outputs) if all((point, j) in places for point in points)}
        return [(cube, "".join("01"[j in outputs] for j in range(self.outputs))) for cube, outputs in standing.items()
                if outputs and all(standing[cube[:i] + "-" + cube[i + 1:]] != outputs
                                   for i in range(self.inputs) if cube[i] != "-")]

    def primes(self):
        on, dc, _ = self.sets()
        return self.complete_sum(on | dc)

    def demands(self, primes):
        """For each place of the ON-set outside the DC-set the numbers of the primes that hold it; not what others imply."""
        on, dc, _ = self.sets()
        held = [{(point, j) for point in points_in(cube) for j in range(self.outputs) if out[j] == "1"}
                for cube, out in primes]
        rows = {frozenset(k for k, places in enumerate(held) if place in places) for place in on - dc}
        return [row for row in rows if not any(other < row for other in rows)]

    def essential(self):
        primes = self.primes()
        return [primes[k] for k in sorted({k for row in self.demands(primes) if len(row) == 1 for k in row})]

    def exact(self, fewest_literals=False):
        """The first of the shortest covers; of those with the fewest literals, where that is asked for."""
        primes = self.primes()

        def order(cover):
            literals = sum(primes[k][0].count(bit) for k in cover for bit in "01") if fewest_literals else 0
            return len(cover), literals, cover
        best = min(covers(self.demands(primes), len(primes)), key=order)
        return [primes[k] for k in best]

    def printed(self, rows):
        return printed(self.inputs, self.outputs, *(" ".join(row) for row in rows))

    def printed_lists(self, rows):
        """As with `-o fdr`: these rows, and the lists that are not given as complete sums."""
        _, dc, off = self.sets()
        lists = [("1", rows),
                 ("-", self.complete_sum(dc) if self.kind == "fr" else self.listed("-") if self.kind != "f" else []),
                 ("0", self.complete_sum(off) if self.kind in ("f", "fd") else self.listed("0"))]
        shown = [f"{cube} {''.join(mark if bit == '1' else '~' for bit in out)}"
                 for mark, cubes in lists for cube, out in cubes]
        return printed(self.inputs, self.outputs, *shown, head=[".type fdr"])

    def listed(self, mark):
        """The cubes of a given list."""
        return [(cube, "".join("01"[symbol == mark] for symbol in out)) for cube, out in self.rows if mark in out]


def disjoint(rows):
    """How many rows share no column, taken greedily: no cover is shorter."""
    count, seen = 0, set()
    for row in sorted(rows, key=len):
        if seen.isdisjoint(row):
            count += 1
            seen |= row
    return count


def covers(rows, bound):
    """All covers of these rows that are no longer than the bound or one found before, but for those with a column too many."""
    if not rows:
        yield []
        return
    shortest = min(rows, key=len)
    for column in sorted(shortest):
        rest = [row for row in rows if column not in row]
        if 1 + disjoint(rest) > bound:
            continue
        for cover in covers(rest, bound - 1):
            bound = min(bound, 1 + len(cover))
            yield sorted([column, *cover])


def agree(one, other):
    """Whether two descriptions are the same at each place that is a don't-care of neither."""
    (on, dc, _), (other_on, other_dc, _) = one.sets(), other.sets()
    return (on ^ other_on) <= dc | other_dc
