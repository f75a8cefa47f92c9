"""Commands on two files: their answers, and in which order things happen. The cases of worked.py are not repeated here."""
from support import Case, ProgramTest, closed, fault, pla, printed, slashed
from worked import DIFFERENT, EQUAL, SIZES_DIFFER, WORKED

ONE = pla(1, 1, "1 1")
ALL = pla(1, 1, "- 1")
SPLIT = slashed(".i 1 / .o 1 / .type fr / 1 1 / 0 0 / .e")
LOOSE = slashed(".i 1 / .o 1 / .type fr / 1 1 / .e")
X = b"# x\n" + ONE
COMMANDS = ("verify", "intersect", "sharp")


def pair(name, words, first, second, output=b"", message=b"", status=0):
    """The words on two files a and b."""
    return Case(name, words, {"a": first, "b": second}, output, message, status)


SHARP = [
    ("an output of a corner", (2, 2), ["1- 11"], ["11 01"], ["1- 10", "10 11"]),
    ("nothing is left", (2, 2), ["11 10"], ["1- 11"], []),
    ("other outputs", (2, 2), ["1- 10"], ["1- 01"], ["1- 10"]),
    ("no inputs", (0, 2), [" 11"], [" 10"], [" 01"]),
    ("nothing is taken away", (2, 1), ["11 1", "1- 1"], [], ["1- 1"]),
]

INTERSECT = [
    ("other outputs", (2, 2), ["1- 10"], ["-1 01"], []),
    ("one output", (2, 2), ["1- 11"], ["-1 01"], ["11 01"]),
    ("two rows become one", (2, 1), ["0- 1", "1- 1"], ["-- 1"], ["-- 1"]),
]


def verify(name, first, second, equal):
    """Equal exactly where neither has a don't-care."""
    return pair(name, "-Dverify a b", first, second, EQUAL if equal else DIFFERENT, b"", 0 if equal else 1)


VERIFY = [verify(*of) for of in (
    ("all places are given", SPLIT, ONE, True),
    ("the rest is open", LOOSE, ALL, True),
    ("the rest is off", SPLIT, ALL, False),
    ("rows of other forms", pla(2, 2, "1- 11", "01 10"), pla(2, 2, "-1 10", "1- 01", "10 10"), True),
    ("one output differs", pla(1, 2, "1 11"), pla(1, 2, "1 10"), False),
    ("no rows", pla(3, 2), pla(3, 2), True),
    ("one is empty", pla(3, 2), pla(3, 2, "000 01"), False),
    ("ON and DC at once is a don't-care", pla(1, 1, "1 1", "1 -"), pla(1, 1), True),
    ("a don't-care of the second alone", ONE, pla(1, 1, "- -"), True),
    ("names do not count", slashed(".i 1 / .o 1 / .ob p / 1 1 / .e"), ONE, True),
)]

COMBINED = [pair(f"{command}: {name}", f"-D{command} a b", pla(*size, *first), pla(*size, *second), printed(*size, *rows))
            for command, cases in (("sharp", SHARP), ("intersect", INTERSECT)) for name, size, first, second, rows in cases]


def with_words(case, words, first="a", second="b"):
    """The same answer by other words, for which the two files have other names."""
    return Case(f"{words}: {case.name}", words, {first: case.files["a"], second: case.files["b"]}, case.output, case.message, case.status)


WORKED_PAIRS = [case for case in WORKED if set(case.files) == {"a", "b"} and not case.message]

# The second file is standard input; and verify with its files exchanged.
ON_INPUT = [with_words(case, case.words.replace(" b", " -"), second="-") for case in [*VERIFY, *COMBINED, *WORKED_PAIRS]]
EXCHANGED = [with_words(case, words, *names) for case in [*VERIFY, *WORKED_PAIRS] if "-Dverify" in case.words
             for words, *names in (("-Dverify b a", "a", "b"), ("-Dverify a -", "-", "a"))]

WIDE = pla(2, 2, "1- 11")
ITSELF = [
    Case("sharp of a file with itself", "-Dsharp a a", {"a": WIDE}, printed(2, 2)),
    Case("sharp of two equal files", "-Dsharp a -", {"a": WIDE, "-": WIDE}, printed(2, 2)),
    Case("intersect of a file with itself", "-Dintersect a a", {"a": WIDE}, printed(2, 2, "1- 11")),
    Case("verify of a file with itself", "-Dverify a a", {"a": WIDE}, EQUAL),
]

# Don't-cares are not in what is printed.
PARTLY_OPEN = pla(1, 2, "1 1-", "1 -1")
ON_ALONE = [
    pair("intersect beside don't-cares", "-Dintersect a b", PARTLY_OPEN, pla(1, 2, "- 11"), printed(1, 2, "1 11")),
    pair("sharp beside don't-cares", "-Dsharp a b", PARTLY_OPEN, pla(1, 2, "1 1-"), printed(1, 2, "1 01")),
]

# Each file is read where its word stands: contents, comments and names.
P = slashed("# p / .i 1 / .o 1 / .ilb p / 1 1 / .e")
Q = slashed("# q / .i 1 / .o 1 / .ilb q / - 1 / .e")
NAMED_P = slashed(".i 1 / .o 1 / .ilb p / .p 1 / 1 1 / .e")
NAMED_Q = slashed(".i 1 / .o 1 / .ilb q / .p 1 / 0 1 / .e")
NOTHING = slashed("# p / # q / .i 1 / .o 1 / .ilb p / .p 0 / .e")
IN_ORDER = [
    Case("intersect", "-Dintersect a b", {"a": P, "b": Q}, b"# p\n# q\n" + NAMED_P),
    Case("without comments", "-Dintersect a b -e eat", {"a": P, "b": Q}, NAMED_P),
    Case("the second is standard input", "-Dintersect a -", {"a": P, "-": Q}, b"# p\n# q\n" + NAMED_P),
    Case("files without comments", "-Dintersect a b", {"a": P[4:], "b": Q[4:]}, NAMED_P),
    Case("comments of both", "-Dverify a -", {"a": X, "-": b"# y\n" + ONE}, b"# x\n# y\n" + EQUAL),
    Case("nothing is left", "-Dsharp a b", {"a": P, "b": Q}, NOTHING),
    Case("exchanged", "-Dsharp b a", {"a": P, "b": Q}, b"# q\n# p\n" + NAMED_Q),
    Case("verify", "-Dverify a b", {"a": P, "b": Q}, b"# p\n# q\n" + DIFFERENT, b"", 1),
    Case("a file and standard input", "-Dsharp b -", {"-": P, "b": Q}, b"# q\n# p\n" + NAMED_Q),
    Case("standard input and a file", "-Dsharp - b", {"-": P, "b": Q}, NOTHING),
    Case("standard input that holds more", "-Dsharp - a", {"-": Q, "a": P}, b"# q\n# p\n" + NAMED_Q),
]

OTHER_SIZES = [pair(f"{command}: {name}", f"-D{command} a b", X, b"# y\n" + second, b"# x\n# y\n", SIZES_DIFFER, 2)
               for command in COMMANDS for name, second in (("inputs", pla(2, 1, "11 1")), ("outputs", pla(1, 2, "1 11")))]


def second_at_fault(command):
    bad = slashed("# y / .i 2 / .o 1 / 1? 1")
    return [
        pair(f"{command}: a symbol", f"-D{command} a b", X, bad, b"# x\n# y\n", fault(4, "bad symbol", "b"), 2),
        pair(f"{command}: empty", f"-D{command} a b", X, b"", b"# x\n", fault(0, ".i or .o missing", "b"), 2),
        Case(f"{command}: standard input", f"-D{command} a -", {"a": X, "-": bad}, b"# x\n# y\n", fault(4, "bad symbol"), 2),
        Case(f"{command}: no numbers", f"-D{command} a -", {"a": X, "-": b"# y\n? 1\n"}, b"# x\n# y\n",
             fault(2, "row before .i and .o"), 2),
        Case(f"{command}: missing", f"-D{command} a none", {"a": X}, b"# x\n", closed("none"), 2),
    ]


def first_at_fault(command):
    """The second is not looked at: neither its comments, nor its faults, nor whether it is there."""
    bad, message = slashed("# x / .mv"), fault(2, "keyword outside the profile", "a")
    return [
        pair(f"{command}: a keyword", f"-D{command} a b", bad, b"# y\n?\n", b"# x\n", message, 2),
        Case(f"{command}: a keyword, and none", f"-D{command} a b", {"a": bad}, b"# x\n", message, 2),
        Case(f"{command}: missing", f"-D{command} b a", {"a": X}, b"", closed("b"), 2),
        Case(f"{command}: both missing", f"-D{command} b c", {}, b"", closed("b"), 2),
        Case(f"{command}: empty standard input", f"-D{command} - b", {"-": b"", "b": X}, b"", fault(0, ".i or .o missing"), 2),
        Case(f"{command}: empty", f"-D{command} a -", {"a": b""}, b"", fault(0, ".i or .o missing", "a"), 2),
    ]


SECOND_AT_FAULT = [case for command in COMMANDS for case in second_at_fault(command)]
FIRST_AT_FAULT = [case for command in COMMANDS for case in first_at_fault(command)]

CASES = [*VERIFY, *COMBINED, *ON_INPUT, *EXCHANGED, *ITSELF, *ON_ALONE, *IN_ORDER, *OTHER_SIZES, *SECOND_AT_FAULT, *FIRST_AT_FAULT]


class TwoFiles(ProgramTest):
    def test_verify(self):
        self.check(*VERIFY)

    def test_sharp_and_intersect(self):
        self.check(*COMBINED)

    def test_the_second_is_standard_input(self):
        self.check(*ON_INPUT)

    def test_verify_does_not_look_at_the_order(self):
        self.check(*EXCHANGED)

    def test_a_file_with_itself(self):
        self.check(*ITSELF)

    def test_don_t_cares_are_not_in_what_is_printed(self):
        self.check(*ON_ALONE)

    def test_the_first_is_the_first(self):
        self.check(*IN_ORDER)

    def test_files_of_other_sizes(self):
        self.check(*OTHER_SIZES)

    def test_the_second_at_fault(self):
        self.check(*SECOND_AT_FAULT)

    def test_the_first_at_fault(self):
        self.check(*FIRST_AT_FAULT)

    def test_sizes_are_compared_after_faults(self):
        self.check(pair("a fault in the larger", "-Dverify a b", ONE, slashed(".i 2 / .o 1 / 1? 1"), b"",
                        fault(3, "bad symbol", "b"), 2))
