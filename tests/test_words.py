"""The words of a command line: which say a line, and which are refused by the usage line with status 2."""
from support import Case, ProgramTest, USAGE, lines, pla, printed, slashed
from worked import EQUAL, NO_TAUTOLOGY, PARTITION

ONE = pla(1, 1, "1 1")
PRINTED = printed(1, 1, "1 1")
NOTED = slashed("# c / .i 1 # d / .o 1 / 1 1 / .e")
NOTES = slashed("# c / # d")
EMPTY = printed(1, 1)

# Files of many names, so that a word taken for the wrong thing is seen.
FILES = {"f": NOTED, "a": ONE, "b": ONE, "-": ONE}


def echoes(words, output, files=None):
    return Case(f"{words}", words, files or {"f": NOTED}, output)


TAKEN = [
    *(echoes(words, NOTES + PRINTED) for words in (
        "-Decho f", "-D echo f", "-D=echo f", "f -Decho", "-o f -Decho f", "-of -Decho f", "-o=f f -Decho",
        "-Decho -o=f f", "-Decho -- f", "-o f -D echo -- f", "-D echo f -o f", "f -o=f -D=echo")),
    *(echoes(words, PRINTED) for words in (
        "-Decho -e eat f", "-eeat -Decho f", "-e=eat f -D=echo", "-D echo -eeat f", "f -e=eat -D=echo",
        "-Decho f -e eat", "-eeat -of -Decho -- f", "-eeat -D=echo -o=f f")),
    Case("no file", "-Decho", {"-": ONE}, PRINTED),
    Case("no file and no comments", "-Decho -e eat", {"-": NOTED}, PRINTED),
    Case("a dash alone", "-Decho -", {"-": ONE}, PRINTED),
    Case("a dash alone, no rows", "-Decho -", {"-": pla(1, 1)}, EMPTY),
    Case("a dash before the command", "- -Decho", {"-": ONE}, PRINTED),
    Case("a dash after --", "-Decho -- -", {"-": ONE}, PRINTED),
    Case("options and a dash after --", "-o f -Decho -e eat -- -", {"-": NOTED}, PRINTED),
    Case("all options and a dash", "-eeat -of -Decho -", {"-": NOTED}, PRINTED),
    Case("a file -x, and no comments", "-Decho -eeat -- -x", {"-x": NOTED}, PRINTED),
    Case("a file --, and no comments", "-Decho -eeat -- --", {"--": NOTED}, PRINTED),
    Case("nothing after --", "-Decho --", {"-": ONE}, PRINTED),
    Case("a file -x", "-Decho -- -x", {"-x": NOTED}, NOTES + PRINTED),
    Case("a file -Decho", "-Dexact -- -Decho", {"-Decho": ONE}, PRINTED),
    Case("a file --", "-Decho -- --", {"--": ONE}, PRINTED),
    Case("a file --literals", "-Dexact -- --literals", {"--literals": ONE}, PRINTED),
    Case("a file --help", "-Decho -- --help", {"--help": ONE}, PRINTED),
    Case("a file with a space", ["-Decho", "a b"], {"a b": ONE}, PRINTED),
    Case("a file with letters that are not English", ["-Decho", "\u00fc\u2228\u2227"], {"\u00fc\u2228\u2227": ONE}, PRINTED),
    Case("two files", "-Dverify a b", {"a": ONE, "b": ONE}, EQUAL),
    Case("files around the command", "a -Dverify b", {"a": ONE, "b": ONE}, EQUAL),
    Case("files after --", "-Dverify -- a b", {"a": ONE, "b": ONE}, EQUAL),
    Case("a file before and one after --", "-Dverify a -- b", {"a": ONE, "b": ONE}, EQUAL),
    Case("two files -x and --", "-Dverify -- -x --", {"-x": ONE, "--": ONE}, EQUAL),
    Case("a file and a dash", "-Dverify -ofr a -", {"a": ONE, "-": ONE}, EQUAL),
    Case("a dash and a file", "-Dsharp -of - b", {"-": ONE, "b": ONE}, EMPTY),
    Case("an output type for check", "-Dcheck -o fdr", {"-": ONE}, PARTITION),
    Case("an output type for verify", "-Dverify -o fr a b", {"a": ONE, "b": ONE}, EQUAL),
    Case("an output type for tautology", "-Dtautology -o fr", {"-": ONE}, NO_TAUTOLOGY, b"", 1),
    Case("type f for sharp", "-Dsharp -o f a b", {"a": ONE, "b": ONE}, EMPTY),
    Case("type f for intersect", "-Dintersect -of a b", {"a": ONE, "b": ONE}, PRINTED),
    Case("literals after the file", "-Dexact f --literals", {"f": ONE}, PRINTED),
    Case("literals in front", "--literals -D exact -", {"-": ONE}, PRINTED),
]

CASES = TAKEN

REFUSED = [
    # no command, or none of the ten
    "f", "-", "--", "--help", "-h", "-D", "-D=", "-D==echo", "-Dfoo", "-DEcho", "-DECHO", "-Dechoo", "-Dech",
    "-Dminimise", "-D -o f", "-decho", "echo", "--D=echo", "-o f", "-e eat", "-e eat f", "-- -Decho", "-Decho, f",
    # an option twice, one without its value, one that is none
    "-Decho -Decho", "-Decho -D echo", "-Decho -o f -o f", "-Decho -of -of", "-Decho -e eat -e eat", "-Decho -eeat -eeat",
    "-Decho -o", "-Decho -e", "-Decho -x", "-Decho -s", "-Decho -h", "-Decho --help", "-Decho -V", "-Decho --version",
    "-Decho --e eat", "-Decho -q", "-Decho --lit", "-Decho -t f", "-Decho -S1", "-Decho -help",
    # a value that is none
    "-Decho -o x", "-Decho -o r", "-Decho -o d", "-Decho -o dr", "-Decho -oF", "-Decho -o=", "-Decho -o fdd",
    "-Dexact -o r", "-Dcheck -o x", "-Decho -e x", "-Decho -e fast", "-Decho -eEat", "-Decho -e=", "-Decho -o -- f",
    # too few files, too many, standard input twice
    "-Dverify", "-Dverify a", "-Dverify -", "-Dverify -- a", "-Dintersect a", "-Dsharp", "-Dverify a b f", "-Dverify a b c",
    "-Dverify a b -- f", "-Decho a b", "-Decho a -- b", "-Decho - -", "-Decho -- - -", "-Decho -- -x f",
    "-Dprimes a b", "-Dcheck a b", "-Dtautology a b", "-Dexact a b", "-Dessen a b", "-Dcontain a b",
    "-Dverify - -", "-Dverify -- - -", "-Dverify - -- -", "-Dverify a -- - -", "-Dsharp - -", "-Dintersect - -",
    # type f alone where two files give one
    "-Dsharp -o fd a b", "-Dsharp -o fr a b", "-Dintersect -ofr a b", "-Dintersect -o fdr a b",
    # literals with exact alone, once, without a value, by its whole name
    "-Dprimes --literals", "-Decho --literals", "-Dessen --literals", "-Dverify --literals a b", "--literals",
    "-Dexact --literals --literals", "-Dexact --literals=1", "-Dexact --literals=", "-Dexact --lit", "-Dexact -literals",
    "-Dexact --Literals",
]

# Words that no text between spaces can say.
ODD = [
    Case("no words", [], FILES, b"", USAGE, 2),
    Case("an empty word alone", [""], FILES, b"", USAGE, 2),
    Case("an empty command", ["-D", ""], FILES, b"", USAGE, 2),
    Case("an empty output type", ["-Decho", "-o", ""], FILES, b"", USAGE, 2),
    Case("an empty word to eat", ["-Decho", "-e", ""], FILES, b"", USAGE, 2),
    Case("an empty word and a file", ["-Decho", "", "f"], FILES, b"", USAGE, 2),
    Case("a command with a blank", ["-D echo", "f"], FILES, b"", USAGE, 2),
    Case("a command with a line feed", ["-Decho\n", "f"], FILES, b"", USAGE, 2),
    Case("a thousand files", ["-Decho", *["f"] * 1000], FILES, b"", USAGE, 2),
    Case("a word of 100,000 letters", ["-Decho", "-" + "x" * 100000], FILES, b"", USAGE, 2),
]

NO_TEXT = [b"\xff", b"f\xff", b"\xc3", b"\x80", b"\xc0\xaf", b"\xed\xa0\x80", b"\xf5\x80\x80\x80"]


class Words(ProgramTest):
    def test_words_that_say_a_line(self):
        self.check(*TAKEN)

    def test_words_that_are_refused(self):
        """Whether or not there are files of the names that they have."""
        self.check(*(Case(f"refused: {words}", words, files, b"", USAGE, 2) for words in REFUSED for files in (FILES, {})))

    def test_odd_words_that_are_refused(self):
        self.check(*ODD)

    def test_words_that_are_no_text(self):
        """A word that isn't UTF-8 is refused wherever it stands, also where a file has that name."""
        for word in NO_TEXT:
            for words in ([b"-Decho", word], [word, b"-Decho"], [b"-Decho", b"--", word], [b"-Dverify", b"a", word],
                          [b"-D" + word], [b"-Decho", b"-o", word]):
                self.check(Case(f"no text: {words}", words, {"a": ONE, word: ONE}, b"", USAGE, 2))

    def test_words_are_read_before_any_file(self):
        """Nothing is passed on, and no missing file is reported, where the words are refused."""
        self.check(Case("a missing file", "-Decho -x nofile", {}, b"", USAGE, 2),
                   Case("comments of a file", "-Decho f -e x", {"f": slashed("# a / .mv")}, b"", USAGE, 2),
                   Case("a fault in a file", "-Dverify f", {"f": lines("?")}, b"", USAGE, 2))
