"""The largest files, the longest line, the most lines, and one more of each."""
import support
from support import Case, ProgramTest, answer_in, fault, folder_of, lines, on_input, pla, printed, refused
from worked import EQUAL, PARTITION, TAUTOLOGY

LONGEST = 131072
TOO_LONG = f"line longer than {LONGEST} bytes"
MOST_LINES = 16777216
TOO_MANY = f"more than {MOST_LINES} lines"
NUMBERS = [".i 1", ".o 1"]
EMPTY = printed(1, 1)


def universal(inputs, outputs):
    """The row that holds every place."""
    return "-" * inputs + " " + "1" * outputs


def on_one_line(inputs, outputs, count):
    """A file whose rows stand on one line, each the one that holds every place."""
    row = "-" * inputs + "1" * outputs
    return lines(f".i {inputs}", f".o {outputs}", row * count, ".e")


def longest_lines():
    """Lines of as many bytes as a line may have and of one more, each with its line feed and as the end of the file."""
    for name, start, fill, passes in (("a comment", "#", "x", True), ("an unknown keyword", ".", "x", True),
                                      ("blanks", " ", " ", False), ("a keyword", ".p", " ", False)):
        longest = start + fill * (LONGEST - len(start))
        passed = lines(longest) if passes else b""
        yield on_input(name, "-Decho", lines(*NUMBERS, longest, ".e"), passed + EMPTY)
        yield on_input(f"{name} at the end", "-Decho", lines(*NUMBERS, longest)[:-1], passed + EMPTY)
        yield refused(f"{name} of one byte more", "-Decho", lines(*NUMBERS, longest + fill, ".e"), 3, TOO_LONG)
        yield refused(f"{name} of one byte more at the end", "-Decho", lines(*NUMBERS, longest + fill)[:-1], 3, TOO_LONG)


WIDEST_ROW = universal(1024, 1024)
WIDEST = [
    *(on_input(f"echo of {size} by {size}", "-Decho", on_one_line(size, size, count), printed(size, size, *[universal(size, size)] * count))
      for size, count in ((1024, 64), (256, 128))),
    on_input("a text that is longer than what is written at once", "-Decho", printed(1024, 1024, *[WIDEST_ROW] * 40),
             printed(1024, 1024, *[WIDEST_ROW] * 40)),
    refused("rows on a line that is too long", "-Decho", on_one_line(1024, 1024, 64).replace(b"1\n.e", b"1 \n.e"), 3, TOO_LONG),
]
LONGEST_LINES = [
    *longest_lines(),
    refused("the first line", "-Decho", b"#" * (LONGEST + 1), 1, TOO_LONG),
    refused("the first line, which is far too long", "-Decho", b"x" * 1000000, 1, TOO_LONG),
]

CASES = [*WIDEST, *LONGEST_LINES]


class Limits(ProgramTest):
    def test_the_widest_rows(self):
        self.check(*WIDEST)

    def test_the_longest_lines(self):
        self.check(*LONGEST_LINES)

    def test_the_largest_sizes(self):
        for size, count in ((1024, 64), (256, 128)):
            text = on_one_line(size, size, count)
            row = universal(size, size)
            self.check(
                *(on_input(f"{command} of {size} by {size}", f"-D{command}", text, printed(size, size, row))
                  for command in ("contain", "primes", "essen", "exact")),
                on_input(f"tautology of {size} by {size}", "-Dtautology", text, TAUTOLOGY),
                on_input(f"check of {size} by {size}", "-Dcheck", text, PARTITION),
                on_input(f"no OFF list of {size} by {size}", "-Decho -o fdr", text,
                         printed(size, size, *[row] * count, head=[".type fdr"])),
                Case(f"verify of {size} by {size}", "-Dverify a b", {"a": text, "b": pla(size, size, row)}, EQUAL),
                Case(f"sharp of {size} by {size}", "-Dsharp a b", {"a": text, "b": text}, printed(size, size)),
                Case(f"intersect of {size} by {size}", "-Dintersect a -", {"a": text, "-": text}, printed(size, size, row)))

    def test_a_row_on_more_than_one_line(self):
        self.check(on_input("a symbol a line", "-Decho", lines(".i 1024", ".o 1024", *WIDEST_ROW.replace(" ", ""), ".e"),
                            printed(1024, 1024, WIDEST_ROW)))

    def test_the_largest_numbers(self):
        """Of an older profile. Those of this one are in worked.py, and one more in test_format.py."""
        self.check(on_input("256 and 256", "-Decho", lines(".i 256", ".o 256", ".e"), printed(256, 256)))

    def test_the_most_names(self):
        names = [f"n{k}" for k in range(1024)]
        self.check(on_input("names", "-Decho", lines(".i 1024", ".o 1024", ".ilb " + "  ".join(names), ".ob " + "\t".join(names)),
                            printed(1024, 1024, head=[".ilb " + " ".join(names), ".ob " + " ".join(names)])),
                   refused("one more", "-Decho", lines(".i 1024", ".o 1024", ".ilb x " + " ".join(names)), 3,
                           "wrong number of names"))

    def test_what_counts_in_a_line(self):
        half = "#" + "x" * (LONGEST // 2 - 1)
        self.check(on_input("half as long", "-Decho", lines(*NUMBERS, half, ".e"), lines(half) + EMPTY),
                   on_input("a line feed is not counted, a carriage return is", "-Decho",
                            lines(*NUMBERS, "#" + "x" * (LONGEST - 2) + "\r"), lines("#" + "x" * (LONGEST - 2) + "\r") + EMPTY),
                   refused("a carriage return more", "-Decho", lines(*NUMBERS, "#" + "x" * (LONGEST - 1) + "\r"), 3, TOO_LONG))

    def test_a_long_line_before_any_other_fault(self):
        blanks = " " * LONGEST
        for start in (".mv", ".i x", ".type", "?", ".e"):
            self.check(refused(f"{start} and blanks", "-Decho", lines(start + blanks), 1, TOO_LONG))

    def test_a_line_without_end(self):
        """It is reported before its end comes: here that waits for the program."""
        with folder_of({}) as folder:
            found = support.fed(["-Decho"], folder, [b"x" * (LONGEST + 1)], lambda process: process.wait())
            self.same(found, support.Answer(b"", fault(1, TOO_LONG), 2))

    def test_what_is_read_after_the_end(self):
        """At most 4,096 bytes are asked for beyond the line that ends the file, or the byte that is one too many."""
        whole = lines(*NUMBERS, "1 1", ".e")
        for name, text, needed, due in (
                ("the end", whole + b"x" * 1000000, len(whole), (printed(1, 1, "1 1"), b"", 0)),
                ("a fault", lines("# a", ".i x") + b"#\n" * 500000, 9, (b"# a\n", fault(2, "bad number"), 2)),
                ("a line too long", b"x" * 1000000, LONGEST + 1, (b"", fault(1, TOO_LONG), 2))):
            with self.subTest(name), folder_of({}) as folder:
                found, taken = answer_in(folder, ["-Decho"], text)
                self.same(found, support.Answer(*due))
                self.assertGreaterEqual(taken, needed)
                self.assertLessEqual(taken, needed + 4096)

    def test_the_most_lines(self):
        feeds = b"\n" * MOST_LINES
        missing = ".i or .o missing"
        self.check(
            refused("line feeds alone", "-Decho", feeds, MOST_LINES, missing),
            refused("the end on the last line", "-Decho", feeds[1:] + b".e\n", MOST_LINES, missing),
            refused("the end without its line feed", "-Decho", feeds[1:] + b".e", MOST_LINES, missing),
            refused("the end one line later", "-Decho", feeds + b".e\n", MOST_LINES + 1, TOO_MANY),
            refused("the end one line later, without its line feed", "-Decho", feeds + b".e", MOST_LINES + 1, TOO_MANY),
            refused("one byte more", "-Decho", feeds + b"#", MOST_LINES + 1, TOO_MANY),
            refused("a line too many before one too long", "-Decho", feeds + b"x" * (LONGEST + 1), MOST_LINES + 1, TOO_MANY),
            refused("a fault on the last line", "-Decho", feeds[1:] + b".mv", MOST_LINES, "keyword outside the profile"),
            on_input("a file on the last lines", "-Decho", feeds[3:] + lines(*NUMBERS, "1 1"), printed(1, 1, "1 1")))
