"""Small worked functions with their answers: what each command prints, and what reading passes on.

Each answer is worked out by hand from the format's page and the commands' meaning, none by the program."""
from dataclasses import dataclass
from typing import NamedTuple

from support import Case, USAGE, closed, fault, lines, pla, printed, slashed

TAUTOLOGY = b"ON-set is a tautology\n"
NO_TAUTOLOGY = b"ON-set is not a tautology\n"
EQUAL = b"PLAs compared equal\n"
DIFFERENT = b"PLA comparison failed; the PLAs are not equivalent\n"
ON_DC = b"ON-set and DC-set intersect\n"
ON_OFF = b"ON-set and OFF-set intersect\n"
DC_OFF = b"DC-set and OFF-set intersect\n"
GAPS = b"ON-set, OFF-set and DC-set do not cover the space\n"
PARTITION = b"ON-set, OFF-set and DC-set partition the space\n"
SIZES_DIFFER = b"espresso: sizes differ\n"


class Reading(NamedTuple):
    """How a source is read: its name in messages, its text, the lines that it passes on (by their numbers), and
    the line after which nothing more is asked for: that of `.e`, or one with a fault. None: it is read to its end."""
    name: str
    text: bytes
    passed: dict
    over: int


@dataclass(frozen=True)
class Worked(Case):
    """A case, and how its sources are read, in order."""
    readings: tuple = ()


def reading(name, text, passed=None, over=None):
    if over is None and text.endswith(b"\n.e\n"):
        over = text.count(b"\n")
    return Reading(name, text, passed or {}, over)


def one(name, words, text, output=b"", message=b"", status=0, passed=None, over=None):
    """The words on standard input with this text."""
    source = reading("(stdin)", text, passed, over)
    return Worked(name, words, {"-": text}, output, message, status, (source,))


def two(name, words, first, second, output=b"", message=b"", status=0, passed=None):
    """The words on two files, a and b."""
    sources = (reading("a", first, passed), reading("b", second))
    return Worked(name, words, {"a": first, "b": second}, output, message, status, sources)


ROW = pla(2, 1, "11 1")
ONE = pla(1, 1, "1 1")
FAULTY = slashed("# a / .i 1 / .o 1 / .foo x / # b / z 1")
RING = pla(3, 1, "000 1", "001 1", "010 1", "101 1", "110 1", "111 1")
EARLIER = pla(3, 1, "000 1", "001 1", "011 1", "100 -")
SHARED = pla(2, 2, "11 10", "1- 01")
OVERLAP = slashed(".i 2 / .o 1 / .type fr / 1- 1 / -1 0 / .e")
BOTH = pla(1, 1, "1 1", "1 -")
NAMED = slashed(".i 2 / .o 2 / .ilb a b / .ob f g / .type fdr / 11 1- / 0- 0~ / .e")
HALF_OPEN = pla(2, 1, "11 1", "01 -")
NOTED = b"# x\n" + ONE
CRLF = b".i 1\r\n.o 1\r\n1 1\r\n.e\r\n"
CUBES = pla(2, 1, "11 1", "1- 1", "1- 1", "0- 1")
HALVES = pla(40, 1, "0" + "-" * 39 + " 1", "1" + "-" * 39 + " 1")
STEPS = pla(40, 1, "1" + "-" * 39 + " 1", "01" + "-" * 38 + " 1")
GATES = lines("# two gates", ".i 2", ".o 2", ".ilb a b", ".ob f g", ".unknown x # y", "11 1-", "0- 0", "0 # last",
              ".e # end", "junk")
FEWER = pla(3, 1, "100 1", "000 -", "101 -", "11- -")

WORKED = [
    one("echo of a row", "-Decho", ROW, printed(2, 1, "11 1")),
    one("echo of a row after a comment", "-Decho", b"# a\n" + ROW, b"# a\n" + printed(2, 1, "11 1"), passed={1: b"# a\n"}),
    one("echo of nothing", "-Decho", b"", b"", fault(0, ".i or .o missing"), 2),
    one("echo up to a fault", "-Decho", FAULTY, slashed("# a / .foo x / # b"), fault(6, "bad symbol"), 2,
        passed={1: b"# a\n", 4: b".foo x\n", 5: b"# b\n"}, over=6),
    one("echo without comments up to a fault", "-Decho -e eat", FAULTY, slashed(".foo x"), fault(6, "bad symbol"), 2,
        passed={4: b".foo x\n"}, over=6),
    one("a row over three lines", "-Decho", slashed(".i 3 / .o 2 / 1- / 0 1 / 1"), printed(3, 2, "1-0 11")),
    one("a keyword inside a row", "-Decho", slashed(".i 2 / .o 1 / 1 / .p 1"), b"",
        fault(4, "keyword inside a row"), 2, over=4),
    one("a row that the end cuts", "-Decho", slashed(".i 2 / .o 1 / 1 / .e"), b"", fault(4, "unfinished row"), 2),
    one("two gates", "-Decho -o fd", GATES, slashed("# two gates / .unknown x # y / # last / # end") +
        printed(2, 2, "11 1~", "11 ~-", head=[".ilb a b", ".ob f g", ".type fd"]),
        passed={1: b"# two gates\n", 6: b".unknown x # y\n", 9: b"# last\n"}, over=10),
    one("primes of a ring", "-Dprimes", RING, printed(3, 1, "-01 1", "-10 1", "0-0 1", "00- 1", "1-1 1", "11- 1")),
    one("essential primes of a ring", "-Dessen", RING, printed(3, 1)),
    one("least cover of a ring", "-Dexact", RING, printed(3, 1, "-01 1", "0-0 1", "11- 1")),
    one("least cover of a ring by literals", "-Dexact --literals", RING, printed(3, 1, "-01 1", "0-0 1", "11- 1")),
    one("either of two primes", "-Dexact", pla(2, 1, "11 1", "01 -", "10 -"), printed(2, 1, "-1 1")),
    *(one(f"{command} of a shared prime", f"-D{command}", SHARED, printed(2, 2, "1- 01", "11 11"))
      for command in ("primes", "exact", "essen")),
    one("check of an overlap", "-Dcheck", OVERLAP, ON_OFF, status=1),
    one("primes of an overlap", "-Dprimes", OVERLAP, printed(2, 1, "-0 1", "1- 1")),
    one("least cover of an overlap", "-Dexact", OVERLAP, printed(2, 1, "1- 1")),
    one("the OFF list", "-Decho -o fr", ROW, printed(2, 1, "11 1", "-0 0", "0- 0", head=[".type fr"])),
    two("files that agree", "-Dverify a b", HALF_OPEN, pla(2, 1, "-1 1"), EQUAL),
    two("files that differ", "-Dverify a b", HALF_OPEN, pla(2, 1, "-- 1"), DIFFERENT, status=1),
    two("the first alone", "-Dsharp a b", pla(2, 1, "-- 1"), ROW, printed(2, 1, "-0 1", "0- 1")),
    two("what both hold", "-Dintersect a b", pla(2, 1, "1- 1"), pla(2, 1, "-1 1"), printed(2, 1, "11 1")),
    one("primes without inputs", "-Dprimes", slashed(".i 0 / .o 2 / 10 / .e"), slashed(".i 0 / .o 2 / .p 1 /  10 / .e")),
    one("tautology of two halves", "-Dtautology", HALVES, TAUTOLOGY),
    one("primes of a chain", "-Dprimes", EARLIER, printed(3, 1, "-00 1", "0-1 1", "00- 1")),
    one("an earlier prime with fewer rows", "-Dexact", EARLIER, printed(3, 1, "-00 1", "0-1 1")),
    one("an essential prime", "-Dessen", EARLIER, printed(3, 1, "0-1 1")),
    one("all three lists, with names", "-Decho -o fdr", NAMED,
        slashed(".i 2 / .o 2 / .ilb a b / .ob f g / .type fdr / .p 3 / 11 1~ / 11 ~- / 0- 0~ / .e")),
    Worked("words that say nothing", "-Dexact -o r", {"-": ONE}, b"", USAGE, 2),
    one("carriage returns", "-Decho", CRLF, printed(1, 1, "1 1"), over=4),
    one("contained cubes", "-Dcontain", CUBES, printed(2, 1, "1- 1", "0- 1")),
    one("check of a row in both lists", "-Dcheck", BOTH, ON_DC, status=1),
    one("primes of a row in both lists", "-Dprimes", BOTH, printed(1, 1, "1 1")),
    one("nothing to cover", "-Dexact", BOTH, printed(1, 1)),
    one("check of a gap", "-Dcheck", slashed(".i 1 / .o 1 / .type fdr / 1 1 / .e"), GAPS, status=1),
    one("check of a partition", "-Dcheck", ONE, PARTITION),
    two("files of other sizes", "-Dverify a b", ONE, ROW, b"", SIZES_DIFFER, 2),
    Worked("a second file that is missing", "-Dverify a b", {"a": NOTED}, b"# x\n", closed("b"), 2,
           (reading("a", NOTED, {1: b"# x\n"}),)),
    Worked("a file that is missing", "-Decho b", {}, b"", closed("b"), 2),
    one("the largest numbers", "-Decho", slashed(".i 1024 / .o 1024 / .e"), printed(1024, 1024)),
    one("a number too large", "-Decho", slashed(".i 1025"), b"", fault(1, "bad number"), 2, over=1),
    one("no tautology without rows", "-Dtautology", pla(2, 1), NO_TAUTOLOGY, status=1),
    one("least cover in two steps", "-Dexact", STEPS,
        printed(40, 1, "-1" + "-" * 38 + " 1", "1" + "-" * 39 + " 1")),
    one("the first prime", "-Dexact", FEWER, printed(3, 1, "-00 1")),
    one("the prime of fewest literals", "-Dexact --literals", FEWER, printed(3, 1, "1-- 1")),
]

# Cubes of 200 inputs and 3 outputs take more than the four words that lie in a cube itself.
FIRST = "1" + "-" * 199
LAST = "-" * 199 + "0"
ENDS = "1" + "-" * 198 + "1"
WIDE = pla(200, 3, FIRST + " 111", LAST + " 010", ENDS + " 100")
WIDE_PRIMES = (LAST + " 010", FIRST + " 111")
WIDE_TYPED = pla(200, 3, FIRST + " 1-0", LAST + " ~1~", head=[".type fdr"])

WIDE_CASES = [
    one("echo of wide cubes", "-Decho", WIDE, printed(200, 3, FIRST + " 111", LAST + " 010", ENDS + " 100")),
    one("the OFF list of wide cubes", "-Decho -o fr", WIDE,
        printed(200, 3, FIRST + " 111", LAST + " ~1~", ENDS + " 1~~",
                "0" + "-" * 199 + " 0~0", "0" + "-" * 198 + "1 000", head=[".type fr"])),
    one("contained wide cubes", "-Dcontain", WIDE, printed(200, 3, FIRST + " 111", LAST + " 010")),
    *(one(f"{command} of wide cubes", f"-D{command}", WIDE, printed(200, 3, *WIDE_PRIMES))
      for command in ("primes", "essen", "exact", "exact --literals")),
    one("check of wide cubes", "-Dcheck", WIDE_TYPED, ON_DC + GAPS, status=1),
    one("check of wide cubes that part the space", "-Dcheck", WIDE, PARTITION),
    one("no tautology of wide cubes", "-Dtautology", WIDE, NO_TAUTOLOGY, status=1),
    one("tautology of wide cubes", "-Dtautology",
        pla(200, 3, FIRST + " 111", "0" + "-" * 199 + " 011", LAST + " 100", "0" + "-" * 198 + "1 100"), TAUTOLOGY),
    two("wide files that agree", "-Dverify a b", WIDE, pla(200, 3, *WIDE_PRIMES), EQUAL),
    two("wide files that differ", "-Dverify a b", WIDE, pla(200, 3, FIRST + " 111"), DIFFERENT, status=1),
    two("what both wide files hold", "-Dintersect a b", WIDE, pla(200, 3, LAST + " 110"),
        printed(200, 3, LAST + " 010", "1" + "-" * 198 + "0 110")),
    two("what the first wide file alone holds", "-Dsharp a b", WIDE, pla(200, 3, FIRST + " 111"),
        printed(200, 3, "0" + "-" * 198 + "0 010")),
    two("nothing is left of a wide file", "-Dsharp a b", WIDE, WIDE, printed(200, 3)),
]
