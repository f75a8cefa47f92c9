"""The three sets of a file: given and computed lists in each output type, check and tautology. The cases of worked.py are
not repeated here."""
from support import ProgramTest, lines, on_input, pla, printed, slashed
from worked import DC_OFF, GAPS, NO_TAUTOLOGY, ON_DC, ON_OFF, PARTITION, TAUTOLOGY


def typed(inputs, outputs, kind, *rows):
    """A printed file of this output type."""
    return printed(inputs, outputs, *rows, head=[f".type {kind}"])


THREE = slashed(".i 2 / .o 2 / .ilb a bb / .ob f g#1 / .type fdr / 11 1- / 0- 00 / .e")
THREE_HEAD = [".ilb a bb", ".ob f g#1"]

GIVEN = [
    on_input("the ON list of three", "-Decho", THREE, printed(2, 2, "11 10", head=THREE_HEAD)),
    on_input("ON and DC of three", "-Decho -o fd", THREE, printed(2, 2, "11 1~", "11 ~-", head=[*THREE_HEAD, ".type fd"])),
    on_input("ON and OFF of three", "-Decho -o fr", THREE, printed(2, 2, "11 1~", "0- 00", head=[*THREE_HEAD, ".type fr"])),
    on_input("all of three", "-Decho -o fdr", THREE,
             printed(2, 2, "11 1~", "11 ~-", "0- 00", head=[*THREE_HEAD, ".type fdr"])),
    on_input("rows of a given list stay, and repeat", "-Decho -o fdr", slashed(".i 1 / .o 1 / .type fdr / 1 1 / 1 1 / 1 - / 0 0"),
             typed(1, 1, "fdr", "1 1", "1 1", "1 -", "0 0")),
    on_input("fd without a type", "-Decho -o fd", pla(2, 1, "11 1", "01 -"), typed(2, 1, "fd", "11 1", "01 -")),
    on_input("no DC list under f", "-Decho -o fd", slashed(".i 1 / .o 1 / .type f / 1 1 / 0 - / .e"), typed(1, 1, "fd", "1 1")),
    on_input("type f as fd", "-Decho -o fd", slashed(".i 1 / .o 1 / .type f / 1 1 / .e"), typed(1, 1, "fd", "1 1")),
    on_input("2 is a dash, 3 is none", "-Decho -o fd", slashed(".i 1 / .o 1 / 1 2 / 0 3"), typed(1, 1, "fd", "1 -")),
    on_input("all symbols of outputs", "-Decho -o fd", slashed(".i 1 / .o 4 / 1 0132 / 0 4~-- / .e"),
             typed(1, 4, "fd", "1 ~1~~", "0 1~~~", "1 ~~~-", "0 ~~--")),
    on_input("one symbol for each list", "-Decho -o fdr", slashed(".i 0 / .o 7 / .type fdr / 01-~234"),
             lines(".i 0", ".o 7", ".type fdr", ".p 3", " ~1~~~~1", " ~~-~-~~", " 0~~~~~~", ".e")),
    on_input("under fr a dash says nothing", "-Decho -o fr", slashed(".i 1 / .o 3 / .type fr / 1 1-0 / 0 0~-"),
             typed(1, 3, "fr", "1 1~~", "1 ~~0", "0 0~~")),
]

COMPUTED = [
    on_input("OFF of two outputs, two words", "-Decho -o fr", pla(1, 2, "1 10"), typed(1, 2, "fr", "1 1~", "- ~0", "0 00")),
    on_input("OFF of nothing, two words", "-Decho -o fr", pla(2, 1), typed(2, 1, "fr", "-- 0")),
    on_input("OFF of two outputs", "-Decho -ofr", pla(1, 2, "1 10"), typed(1, 2, "fr", "1 1~", "- ~0", "0 00")),
    on_input("OFF of nothing", "-o=fr -Decho", pla(2, 1), typed(2, 1, "fr", "-- 0")),
    on_input("OFF under f", "-Decho -o fdr", slashed(".i 2 / .o 1 / .type f / 11 1"), typed(2, 1, "fdr", "11 1", "-0 0", "0- 0")),
    on_input("OFF under f beside a dash", "-Decho -o fdr", slashed(".i 1 / .o 1 / .type f / 1 1 / 0 - / .e"),
             typed(1, 1, "fdr", "1 1", "0 0")),
    on_input("OFF beside don't-cares", "-Decho -o fdr", slashed(".i 2 / .o 1 / 11 1 / 0- -"),
             typed(2, 1, "fdr", "11 1", "0- -", "10 0")),
    on_input("DC under fr", "-Decho -o fdr", slashed(".i 2 / .o 2 / .type fr / 11 1- / 0- 01"),
             typed(2, 2, "fdr", "11 1~", "0- ~1", "1- ~-", "10 --", "0- 0~")),
    on_input("DC under fr of one input", "-Decho -o fdr", slashed(".i 1 / .o 1 / .type fr / 1 1 / .e"),
             typed(1, 1, "fdr", "1 1", "0 -")),
    on_input("OFF beside contained cubes", "-Dcontain -o fdr", pla(2, 1, "1- 1", "11 1", "00 -"),
             typed(2, 1, "fdr", "1- 1", "00 -", "01 0")),
    on_input("primes beside the DC list", "-Dprimes -o fd", pla(2, 1, "11 1", "01 -"), typed(2, 1, "fd", "-1 1", "01 -")),
    on_input("primes beside computed lists", "-Dprimes -ofdr", slashed(".i 2 / .o 1 / .type fr / 1- 1 / -1 0 / .e"),
             typed(2, 1, "fdr", "-0 1", "1- 1", "00 -", "-1 0")),
    on_input("an essential prime beside the DC list", "-Dessen -ofd", pla(3, 1, "000 1", "001 1", "011 1", "100 -"),
             typed(3, 1, "fd", "0-1 1", "100 -")),
    on_input("a least cover beside all lists", "-Dexact -o fdr", pla(2, 1, "11 1", "01 -", "10 -"),
             typed(2, 1, "fdr", "-1 1", "01 -", "10 -", "00 0")),
]

# A text of type fdr as it is printed.
PRINTED_FDR = slashed(".i 2 / .o 2 / .ilb a b / .ob f g#1 / .type fdr / .p 4 / 11 1~ / 0- ~1 / 11 ~- / 0- 0~ / .e")

READ_AGAIN = [
    on_input("the text that it is printed of", "-Decho -o fdr -eeat",
             slashed(".o 2 / .i 2 / .type fdr / .ob f g#1 / .ilb a b # inputs / 11|1- / 0- 0 / 1 / .end"), PRINTED_FDR),
    *(on_input(f"the printed text and {more!r}", "-Decho -o fdr", PRINTED_FDR + more, PRINTED_FDR) for more in (b"", b".i 3\n?")),
]

CHECKS = [on_input(name, "-Dcheck", text, output, status=0 if PARTITION in output else 1) for name, text, output in (
    ("f has no don't-cares", slashed(".i 1 / .o 1 / .type f / 1 1 / - 1 / .e"), PARTITION),
    ("fr leaves the rest open", slashed(".i 1 / .o 1 / .type fr / 1 1 / .e"), PARTITION),
    ("three lists that part the space", slashed(".i 1 / .o 2 / .type fdr / 1 1- / 0 -0 / .e"), PARTITION),
    ("no row", pla(3, 2), PARTITION),
    ("ON is everything and meets OFF", slashed(".i 1 / .o 1 / .type fr / - 1 / 0 0 / .e"), ON_OFF),
    ("DC meets OFF", slashed(".i 1 / .o 2 / .type fdr / 1 1- / 0 -0 / 1 ~0 / 0 ~- / .e"), DC_OFF),
    ("each meets each", slashed(".i 1 / .o 1 / .type fdr / - 1 / 0 - / 0 0 / .e"), ON_DC + ON_OFF + DC_OFF),
    ("each meets each, and a gap", slashed(".i 1 / .o 2 / .type fdr / 1 1~ / 1 -~ / 1 0~"), ON_DC + ON_OFF + DC_OFF + GAPS),
    ("a gap at one output", slashed(".i 1 / .o 2 / .type fdr / - 1~ / 1 ~0"), GAPS),
    ("lists at other outputs do not meet", pla(1, 2, "1 1-", "1 1~"), PARTITION),
    ("comments come before", b"# a\n" + pla(1, 1, "1 1"), b"# a\n" + PARTITION),
)]

TAUTOLOGIES = [on_input(name, "-Dtautology", text, TAUTOLOGY if yes else NO_TAUTOLOGY, status=0 if yes else 1) for yes, name, text in (
    (True, "each output by a row", pla(1, 2, "- 10", "- 01")),
    (True, "without an end line", slashed(".i 1 / .o 2 / - 10 / - 01")),
    (False, "one output, without an end line", slashed(".i 1 / .o 2 / - 10")),
    (True, "no inputs, two rows", slashed(".i 0 / .o 2 / 10 / 01 / .e")),
    (True, "no inputs, one output", slashed(".i 0 / .o 1 / 1")),
    (True, "a don't-care too", pla(1, 1, "1 1", "0 1", "0 -")),
    (True, "five rows that overlap", pla(3, 1, "11- 1", "-00 1", "0-1 1", "10- 1", "01- 1")),
    (False, "four of them", pla(3, 1, "11- 1", "-00 1", "0-1 1", "10- 1")),
    (False, "one output of two", pla(1, 2, "- 10")),
    (False, "a don't-care is not ON", pla(1, 1, "1 1", "0 -")),
    (False, "one place is missing", pla(3, 1, "1-- 1", "-1- 1", "--1 1")),
    (False, "no inputs, one output of two", slashed(".i 0 / .o 2 / 10 / .e")),
)]

# The OFF-set of these rows is a complete sum of 2^100 cubes, which is not computed where it is not printed.
PAIRS = ["-" * (2 * k) + "11" + "-" * (198 - 2 * k) + " 1" for k in range(100)]
NOT_COMPUTED = [
    *(on_input(f"{command} of pairs", f"-D{command}", pla(200, 1, *PAIRS), printed(200, 1, *rows))
      for command, rows in (("echo", PAIRS), ("contain", PAIRS), ("primes", PAIRS[::-1]), ("exact", PAIRS[::-1]), ("essen", PAIRS[::-1]))),
    on_input("check of pairs", "-Dcheck", pla(200, 1, *PAIRS), PARTITION),
]

CASES = [*GIVEN, *COMPUTED, *READ_AGAIN, *CHECKS, *TAUTOLOGIES, *NOT_COMPUTED]


class Sets(ProgramTest):
    def test_given_lists(self):
        self.check(*GIVEN)

    def test_computed_lists(self):
        self.check(*COMPUTED)

    def test_a_printed_text_is_read_again(self):
        self.check(*READ_AGAIN)

    def test_a_list_that_is_not_asked_for_is_not_computed(self):
        self.check(*NOT_COMPUTED)

    def test_check(self):
        self.check(*CHECKS)

    def test_tautology(self):
        self.check(*TAUTOLOGIES)
