"""Contained cubes, primes, essential primes and least covers. The cases of worked.py are not repeated here."""
from support import ProgramTest, on_input, pla, printed, slashed
from worked import EARLIER, FEWER, RING, WORKED

THREE = pla(2, 2, "00 10", "01 11", "11 01")
EITHER = pla(2, 1, "11 1", "01 -", "10 -")


def answers(words, *of):
    """Each case on standard input: its name, its text, and the size and the rows that are printed."""
    return [on_input(f"{words}: {name}", words, text, printed(*due)) for name, text, due in of]


CONTAIN = [
    *answers("-Dcontain",
             ("by their outputs", pla(1, 2, "1 10", "1 11", "- 01"), (1, 2, "1 11", "- 01")),
             ("a later cube holds an earlier one", pla(2, 1, "00 1", "0- 1", "-- 1"), (2, 1, "-- 1")),
             ("together they hold it, and it stays", pla(2, 1, "-1 1", "11 1", "01 1", "-- 1"), (2, 1, "-- 1")),
             ("held by two and by none alone", pla(2, 1, "1- 1", "-1 1", "-0 1"), (2, 1, "1- 1", "-1 1", "-0 1")),
             ("the don't-cares are not looked at", pla(2, 1, "11 1", "1- -"), (2, 1, "11 1")),
             ("no row", pla(2, 1), (2, 1)),
             ("each row of three symbols, and at last the row that holds them all, by the inputs",
              pla(3, 2, "000 10", "001 10", "010 10", "011 10", "100 10", "101 01", "110 10", "111 10", "00- 10", "0-1 01",
                  "-11 10", "1-- 11", "-00 11", "01- 10", "--- 01"),
              (3, 2, "00- 10", "-11 10", "1-- 11", "-00 11", "01- 10", "--- 01"))),
    on_input("after a comment", "-Dcontain", slashed("# rows / .i 2 / .o 1 / 11 1 / 1- 1 / 1- 1 / 0- 1 / .e"),
             b"# rows\n" + printed(2, 1, "1- 1", "0- 1")),
]

PRIMES = answers(
    "-Dprimes",
    ("three outputs' parts", THREE, (2, 2, "-1 01", "0- 10", "01 11")),
    ("apart", pla(2, 1, "11 1", "00 -"), (2, 1, "00 1", "11 1")),
    ("no row", pla(2, 1), (2, 1)),
    ("everything", pla(3, 2, "--- 11"), (3, 2, "--- 11")),
    ("with don't-cares", pla(2, 1, "11 1", "01 -"), (2, 1, "-1 1")),
    ("don't-cares alone", pla(2, 1, "01 -"), (2, 1, "01 1")),
    ("one or two ones among four inputs",
     pla(4, 1, "0001 1", "0010 1", "0011 1", "0100 1", "0101 1", "0110 1", "1000 1", "1001 1", "1010 1", "1100 1"),
     (4, 1, "-001 1", "-010 1", "-100 1", "0-01 1", "0-10 1", "00-1 1", "001- 1", "01-0 1", "010- 1", "1-00 1", "10-0 1", "100- 1")))

ESSENTIAL = answers(
    "-Dessen",
    ("two of three", THREE, (2, 2, "-1 01", "0- 10")),
    ("none of either", EITHER, (2, 1)),
    ("a place that is a don't-care too makes none", pla(1, 1, "1 1", "1 -"), (1, 1)),
    ("by one place alone", pla(2, 1, "1- 1", "11 -"), (2, 1, "1- 1")),
    ("no row", pla(2, 1), (2, 1)))

# The first of the shortest covers, by the primes' numbers.
LEAST = answers(
    "-Dexact",
    ("two of three", THREE, (2, 2, "-1 01", "0- 10")),
    ("no row", pla(2, 1), (2, 1)),
    *((f"a row of {n} inputs", pla(n, 1, "1" * n + " 1"), (n, 1, "1" * n + " 1")) for n in (256, 1024)))

# The same covers by literals, and those that worked.py has without.
BY_LITERALS = [on_input(f"by literals: {case.name}", "-Dexact --literals", case.files["-"], case.output)
               for case in LEAST + [case for case in WORKED if case.words == "-Dexact" and case.files["-"] not in (RING, FEWER)]]
BY_LITERALS += answers("--literals -Dexact", ("a chain", EARLIER, (3, 1, "-00 1", "0-1 1")))
BY_LITERALS += answers("--literals -D exact -", ("the one of fewest literals", FEWER, (3, 1, "1-- 1")))

# Rings of six after words of four with an even number of ones: two least covers each, 256 together.
EVEN = "0000 0011 0101 0110 1001 1010 1100 1111".split()
RINGS = pla(7, 1, *(word + point + " 1" for word in EVEN for point in "000 001 010 101 110 111".split()))
RINGS_LEAST = (7, 1, *(word + row + " 1" for word in EVEN for row in ("-01", "0-0", "11-")))
EIGHT_RINGS = [case for words in ("-Dexact", "-Dexact --literals", "--literals -Dexact")
               for case in answers(words, ("rings", RINGS, RINGS_LEAST))] + answers("-Dessen", ("rings", RINGS, (7, 1)))

CASES = [*CONTAIN, *PRIMES, *ESSENTIAL, *LEAST, *BY_LITERALS, *EIGHT_RINGS]


class Answers(ProgramTest):
    def test_contained_cubes_are_left_out(self):
        self.check(*CONTAIN)

    def test_primes(self):
        self.check(*PRIMES)

    def test_essential_primes(self):
        self.check(*ESSENTIAL)

    def test_least_covers(self):
        self.check(*LEAST)

    def test_fewest_literals(self):
        self.check(*BY_LITERALS)

    def test_eight_rings(self):
        self.check(*EIGHT_RINGS)

    def test_commands_keep_names_and_comments(self):
        head = [".ilb p", ".ob q"]
        text = slashed("# a / .i 1 / .o 1 / .ilb p / .foo b / .ob q / 1 1 / .e")
        for command in "echo contain primes essen exact".split():
            self.check(on_input(command, f"-D{command}", text, slashed("# a / .foo b") + printed(1, 1, "1 1", head=head)))
