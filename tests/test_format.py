"""How a file is read: lines, keywords, comments, rows, each fault with its line, and texts that are cut. The cases of
worked.py are not repeated here."""
from support import Case, ProgramTest, fault, lines, on_input, pla, printed, refused, slashed
from worked import ROW, WORKED

MISSING = ".i or .o missing"


def echo(name, text, output, words="-Decho"):
    return on_input(name, words, text, output)


PRINTED = [
    echo("a row over three lines, the last without its line feed", b".i 3\n.o 2\n1-\n0 1\n1", printed(3, 2, "1-0 11")),
    echo("two rows on a line", slashed(".i 02 / .o 1 / 2-4 11 1 / .e / junk"), printed(2, 1, "-- 1", "11 1")),
    echo("nothing is read after the end", b".i 02\n.o 1\n2-4 11 1\n.e\njunk", printed(2, 1, "-- 1", "11 1")),
    echo("a row of no inputs", slashed(".i 0 / .o 2 / 10 / .e"), lines(".i 0", ".o 2", ".p 1", " 10", ".e")),
    echo("no input has no name", slashed(".i 0 / .o 1 / .ilb / .e"), lines(".i 0", ".o 1", ".ilb", ".p 0", ".e")),
    echo("outputs first, bars, .end", slashed(".o 1 / .p 7 / .i 1 / 1|1 0|- -~ / .end"), printed(1, 1, "1 1")),
    echo("outputs first, bars, .end, without the last line feed", b".o 1\n.p 7\n.i 1\n1|1 0|- -~\n.end", printed(1, 1, "1 1")),
    echo("a row and a comment without a line feed", b".i 1\n.o 1\n1 1 # a", b"# a\n" + printed(1, 1, "1 1")),
    echo("bars and a comment", slashed(".i 2 / .o 1 / |1|1|1|#c|d / .e"), b"#c|d\n" + printed(2, 1, "11 1")),
    echo("names and a type", slashed(".i 2 / .o 2 / .ilb a b / .ob f g / .type fdr / 11 1- / 0- 03 / .e"),
         printed(2, 2, "11 10", head=[".ilb a b", ".ob f g"])),
    echo("names after rows", slashed(".o 1 / .i 1 / 1 1 / .ob q / .ilb q / .e"), printed(1, 1, "1 1", head=[".ilb q", ".ob q"])),
    echo("a name with a sharp", slashed(".i 1 # one / .o 1 / .ob f#1 / .e"), b"# one\n" + printed(1, 1, head=[".ob f#1"])),
    echo("a name with a bar", slashed(".i 1 / .o 1 / .ob a|b"), printed(1, 1, head=[".ob a|b"])),
    echo("names that are no text", b".i 1\n.o 1\n.ilb \xff\x00\n.ob \xc3\n", b".i 1\n.o 1\n.ilb \xff\x00\n.ob \xc3\n.p 0\n.e\n"),
    echo("zeros lead twenty times", slashed(".i 0000000000000000000000000000000000001 / .o 1"), printed(1, 1)),
    echo("zeros lead both", slashed(".i 0000000000000000000000000000000000001 / .o 01"), printed(1, 1)),
    echo("all blanks between symbols", b".i\t2\n.o\x0b1\n1\x0c1\t1\x0b\r\n.e\n", printed(2, 1, "11 1")),
    echo("all blanks in front", b"\t.i 1\n\x0b.o\x0c1\n1\t\x0b\x0c1\n", printed(1, 1, "1 1")),
    echo("a line that begins with a bar", slashed(".i 1 / .o 1 / | 1 1"), printed(1, 1, "1 1")),
    echo("a row line before the numbers", slashed("| # c / .i 1 / .o 1"), b"# c\n" + printed(1, 1)),
    echo("rows of the known tool", slashed(".i 2 / .o 2 / .p 2 / 1- 14 / 2|0|4 3 / .end"), printed(2, 2, "1- 11", "-0 10")),
    echo("words after .end", slashed(".i 1 / .o 1 / .end x / .mv"), printed(1, 1)),
    echo("words after .p and .end", slashed(".p / .i 1 / .o 1 / .p a b / .end x / .mv"), printed(1, 1)),
    echo("comments inside a row", slashed(".i 2 / .o 1 / 1 # a /  / # b / 1 1 # c"),
         slashed("# a / # b / # c") + printed(2, 1, "11 1")),
]

PASSED_ON = [
    echo("comments and an unknown keyword", b"# a\r\n .foo # x\n.i 1\n.o 1\n1 1# row\n.e # end\n# never\n",
         b"# a\r\n .foo # x\n# row\n# end\n" + printed(1, 1, "1 1")),
    echo("without comments", b"# a\r\n .foo # x\n.i 1\n.o 1\n1 1# row\n.e # end\n# never\n",
         b" .foo # x\n" + printed(1, 1, "1 1"), "-Decho -e eat"),
    echo("unknown keywords as they stand", b" \t.foo a # b\r\n.i 1\n.o 1\n.i#x\n",
         b" \t.foo a # b\r\n.i#x\n" + printed(1, 1), "-Decho -eeat"),
    echo("a longer word than a refused one", slashed(".symbolics a / .i 1 / .o 1"), slashed(".symbolics a") + printed(1, 1)),
    echo("keywords in capitals", slashed(".I 1 / .E / .i 1 / .o 1"), slashed(".I 1 / .E") + printed(1, 1)),
    echo("a dot alone", slashed(". / .i 1 / .o 1"), slashed(".") + printed(1, 1)),
    echo("a comment ends with a carriage return", b".i 1\n.o 1\n1 1 # c\r\n.e\n", b"# c\r\n" + printed(1, 1, "1 1")),
    echo("comments of lines that say nothing else", slashed(".p 3 # c / .i 1 / .o 1 / .type f # t / .e"),
         slashed("# c / # t") + printed(1, 1)),
    echo("comments of all keywords", slashed(".i 1 # i / .o 1 # o / .ilb a # n / .ob b # m / .p # p / .end # e"),
         slashed("# i / # o / # n / # m / # p / # e") + printed(1, 1, head=[".ilb a", ".ob b"])),
    echo("sharps in a comment", slashed("## a # b / .i 1 # c # d / .o 1"), slashed("## a # b / # c # d") + printed(1, 1)),
    echo("bytes of any value in a comment", b"#\x00\xff\x80|~\n.i 1\n.o 1\n", b"#\x00\xff\x80|~\n" + printed(1, 1)),
    refused("comments up to a fault", "-Decho", slashed("# a / .i 1 / .o 1 / .foo x / # b / z 1 # c / # d"), 6,
            "bad symbol", slashed("# a / .foo x / # b")),
    refused("no comments after a fault", "-Decho", slashed("# a / .i 1 / .o 1 / .foo x / # b / z 1 / # c"), 6,
            "bad symbol", slashed("# a / .foo x / # b")),
    refused("comments where a number is missing", "-Decho", slashed("# a / .e # b"), 2, MISSING, slashed("# a / # b")),
    refused("comments where a row is cut", "-Decho", slashed(".i 1 / .o 1 / 1 # a / # b"), 4, "unfinished row",
            slashed("# a / # b")),
]


def faulty(text, line, kind):
    return refused(f"{text[:60]}: {kind}", "-Decho", slashed(text), line, kind)


FAULTS = [
    faulty(".i 2 / .o 1 / 1 / .foo", 4, "keyword inside a row"),
    faulty(".i 1 / .o 1 / 1 / .foo", 4, "keyword inside a row"),
    faulty(".i 1 / .o 1 / 1 1 / .type fr", 4, "type after a row"),
    faulty(".i 2 / .i 3", 2, "keyword repeated"),
    faulty(".o 2 / .o 2", 2, "keyword repeated"),
    faulty(".i 1 / .o 1 / .ob a / .ob a", 4, "keyword repeated"),
    faulty(".i 2 .o 1", 1, "bad number"),
    faulty(".i", 1, "bad number"),
    faulty(".i x", 1, "bad number"),
    faulty(".i 1x", 1, "bad number"),
    faulty(".i +1", 1, "bad number"),
    faulty(".i -1", 1, "bad number"),
    faulty(".o 0", 1, "bad number"),
    faulty(".o 000", 1, "bad number"),
    faulty(".o 1025", 1, "bad number"),
    faulty(".i 99999999999999999999999999999999999999", 1, "bad number"),
    faulty(".i 18446744073709551617", 1, "bad number"),
    faulty(".mv 3 2 2", 1, "keyword outside the profile"),
    *(faulty(f"{word} a", 1, "keyword outside the profile") for word in (
        ".mv", ".label", ".phase", ".pair", ".symbolic", ".symbolic-output", ".kiss")),
    faulty(".kiss", 1, "keyword outside the profile"),
    faulty(".i 1 / .ilb a", 2, "names before .i and .o"),
    faulty(".o 1 / .ob a", 2, "names before .i and .o"),
    faulty(".i 2 / .o 1 / .ilb a", 3, "wrong number of names"),
    faulty(".i 2 / .o 1 / .ilb a b c", 3, "wrong number of names"),
    faulty(".i 2 / .o 2 / .ob a", 3, "wrong number of names"),
    faulty(".i 0 / .o 1 / .ilb a", 3, "wrong number of names"),
    faulty(".type dr", 1, "bad type"),
    faulty(".type r", 1, "bad type"),
    faulty(".type", 1, "bad type"),
    faulty(".type f d", 1, "bad type"),
    faulty(".type F", 1, "bad type"),
    faulty(".i 1 / 1 1", 2, "row before .i and .o"),
    faulty(".o 1 / 1 1", 2, "row before .i and .o"),
    faulty("z", 1, "row before .i and .o"),
    faulty(".i 1 / .o 1 / ? 1", 3, "bad symbol"),
    faulty(".i 1 / .o 1 / 1 1 .e", 3, "bad symbol"),
    faulty(".i 1 / .o 1 / 1 / 5", 4, "bad symbol"),
    faulty(".i 1 / .o 1 / 1 a", 3, "bad symbol"),
    faulty(".i 1 / .o 1 / ~ 1", 3, "bad symbol"),
    faulty(".i 1 / .o 1 / 3 1", 3, "bad symbol"),
    faulty(".i 1 / .o 1 / 4 1", 3, "bad symbol"),
    faulty(".o 2", 1, MISSING),
]

# Where several faults stand on one line, or on several, the order of the format's table decides.
ORDERS = [
    faulty(".i 1 / .o 1 / 1 / .mv", 4, "keyword outside the profile"),
    faulty(".i 2 / .o 1 / 1 / .mv", 4, "keyword outside the profile"),
    faulty(".i 1 / .o 1 / 1 / .type fr", 4, "keyword inside a row"),
    faulty(".i 1 / .o 1 / 1 / .i 2", 4, "keyword inside a row"),
    faulty(".i 2 / .i x", 2, "keyword repeated"),
    faulty(".i 1 / .o 1 / .ilb a / .ilb a b", 4, "keyword repeated"),
    faulty(".i 1 / .o 1 / .ilb a / .ilb", 4, "keyword repeated"),
    faulty(".type fd / .i 1 / .o 1 / 1 1 / .type fd", 5, "keyword repeated"),
    faulty(".type f / .type x", 2, "keyword repeated"),
    faulty(".type f / .type q", 2, "keyword repeated"),
    faulty(".i 1 / .ilb a b", 2, "names before .i and .o"),
    faulty(".i 1 / .o 1 / 1 1 / .type x", 4, "type after a row"),
    faulty(".i 1 / .o 1 / 1 / .end", 4, "unfinished row"),
    faulty(".i 1 / 1 / .e", 2, "row before .i and .o"),
    faulty(".mv / .kiss / .i x", 1, "keyword outside the profile"),
    faulty(".i 1 / ? / .mv", 2, "row before .i and .o"),
]

# The first bytes of the text of a row, so many of them; none and all are in worked.py.
CUT = [
    *(refused(f"{count} bytes", "-Decho", ROW[:count], line, kind, output) for count, output, line, kind in (
        (1, b".\n", 1, MISSING), (2, b"", 1, "bad number"), (3, b"", 1, "bad number"), (4, b"", 1, MISSING),
        (5, b"", 1, MISSING), (6, b".\n", 2, MISSING), (7, b"", 2, "bad number"), (8, b"", 2, "bad number"),
        (11, b"", 3, "unfinished row"), (12, b"", 3, "unfinished row"), (13, b"", 3, "unfinished row"))),
    *(echo(f"{count} bytes", ROW[:count], output) for count, output in (
        (9, printed(2, 1)), (10, printed(2, 1)), (14, printed(2, 1, "11 1")), (15, printed(2, 1, "11 1")),
        (16, b".\n" + printed(2, 1, "11 1")), (17, printed(2, 1, "11 1")))),
]

CASES = [*PRINTED, *PASSED_ON, *FAULTS, *ORDERS, *CUT]


class Format(ProgramTest):
    def test_one_printed_form(self):
        self.check(*PRINTED)

    def test_what_is_passed_on(self):
        self.check(*PASSED_ON)

    def test_each_fault_with_its_line(self):
        self.check(*FAULTS)

    def test_faults_without_a_last_line_feed(self):
        worked = [case for case in WORKED if case.words == "-Decho" and case.message and case.files.get("-")]
        for case in FAULTS + ORDERS + worked:
            self.check(on_input(case.name, "-Decho", case.files["-"][:-1], case.output, case.message, 2))

    def test_the_first_of_several_faults(self):
        self.check(*ORDERS)

    def test_a_text_that_is_cut(self):
        self.check(*CUT)

    def test_faults_of_named_files(self):
        """A fault carries the name of its file as the word gave it."""
        text = slashed("# a / .i 1 / .o 1 / 1? 1")
        self.check(*(Case(f"a file {name}", ["-Decho", "--", name], {name: text}, b"# a\n", fault(4, "bad symbol", name), 2)
                     for name in ("f", "-x", "a b", "(stdin)", "a:1")))

    def test_every_command_reads_alike(self):
        """A fault, and what is passed on before it, are the same for every command."""
        text = slashed("# a / .i 1 / .o 1 / .foo # b / 1 1 / 0 ?")
        for command in "echo contain primes essen exact check tautology".split():
            self.check(refused(command, f"-D{command}", text, 6, "bad symbol", slashed("# a / .foo # b")))
        for command in "verify intersect sharp".split():
            self.check(Case(command, f"-D{command} - b", {"-": text}, slashed("# a / .foo # b"), fault(6, "bad symbol"), 2))
