"""Questions about a region that splits alone do not answer soon: one pigeon more than there are holes.

A pigeon is in no hole, or two are in one hole: together these hold every point. Without the row of one pigeon they lack the
points at which that pigeon is in none, and each other in a hole of its own."""
from itertools import combinations

from support import Case, ProgramTest, on_input, pla
from worked import DIFFERENT, EQUAL, NO_TAUTOLOGY, TAUTOLOGY

HOLES = 7
PIGEONS = HOLES + 1
INPUTS = PIGEONS * HOLES           # input pigeon * HOLES + hole: the pigeon is in the hole


def row(symbol, chosen):
    return "".join(symbol if i in chosen else "-" for i in range(INPUTS))


NOWHERE = [row("0", range(pigeon * HOLES, (pigeon + 1) * HOLES)) for pigeon in range(PIGEONS)]
TOGETHER = [row("1", [one * HOLES + hole, other * HOLES + hole])
            for hole in range(HOLES) for one, other in combinations(range(PIGEONS), 2)]
ALL = NOWHERE + TOGETHER
FEWER = NOWHERE[1:] + TOGETHER
QUARTERS = [first + second + "-" * (INPUTS - 2) for first in "01" for second in "01"]


def listed(rows, outputs="1"):
    return [f"{cube} {outputs}" for cube in rows]


def file_of(*rows, outputs=1):
    return pla(INPUTS, outputs, *rows)


class HardRegions(ProgramTest):
    def test_tautology(self):
        missing = file_of(*listed(ALL, "10"), *listed(FEWER, "01"), outputs=2)
        both = file_of(*listed(NOWHERE, "11"), *listed(TOGETHER, "10"), *listed(TOGETHER, "01"), outputs=2)
        self.check(
            on_input("a row for each pigeon", "-Dtautology", file_of(*listed(ALL)), TAUTOLOGY),
            on_input("a row too few", "-Dtautology", file_of(*listed(FEWER)), NO_TAUTOLOGY, status=1),
            on_input("two outputs", "-Dtautology", both, TAUTOLOGY),
            on_input("a row too few for the second output", "-Dtautology", missing, NO_TAUTOLOGY, status=1))

    def test_verify(self):
        quarters = file_of(*listed(QUARTERS))
        self.check(
            Case("all points in four cubes", "-Dverify a b", {"a": file_of(*listed(ALL)), "b": quarters}, EQUAL),
            Case("a row too few", "-Dverify a b", {"a": quarters, "b": file_of(*listed(FEWER))}, DIFFERENT, status=1))
