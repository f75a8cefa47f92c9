"""The numbers that pages name are those of the code.

CONSTANTS says where the code has a number, and SENTENCES where a page names it; in both `#` stands for the number. White space counts
as one blank. A page's number may be a word (`eight`), and has commas or none; the code's may be `1 << 18`.
To add one: a line in CONSTANTS, unless it is there, and a line in SENTENCES for each page. A number of a page in COVERED that no sentence
matches, and that is not in MEASURED, fails too.
"""
import glob
import os
import re
import sys
import unittest

TOP = os.path.dirname(os.path.dirname(os.path.abspath(__file__)))
sys.path.append(os.path.join(TOP, "bench"))

from page import README_HEAD, README_ROWS  # noqa: E402
WORDS = {word: n for n, word in enumerate("zero one two three four five six seven eight nine ten eleven twelve thirteen fourteen "
                                            "fifteen sixteen seventeen eighteen nineteen twenty".split())}

# A name; a file or a folder, from the top; the text there, which stands in it once. Without a text it is how many files there are.
CONSTANTS = {
    "inputs": ("crates/cube/src", "const INPUTS: usize = #;"),
    "outputs": ("crates/cube/src", "const OUTPUTS: usize = #;"),
    "line bytes": ("crates/cube/src", "const LINE_BYTES: usize = #;"),
    "lines": ("crates/cube/src", "const LINES: u64 = #;"),
    "older inputs": ("crates/pla/specs", "older_limits = record { inputs = #; outputs"),
    "older line bytes": ("crates/pla/specs", "older_limits = record { inputs = 256; outputs = 256; line_bytes = #;"),
    "piece": ("crates/pla/specs", "piece_bytes = #"),
    "print buffer": ("crates/pla/src", "const BUFFER_BYTES: usize = #;"),
    "many inputs": ("crates/minimum/src", "fn uses_points(shape: Shape) -> bool { shape.inputs() > #"),
    "very many inputs": ("crates/minimum/src", "fn uses_points_of_primes(on: &Cover) -> bool { on.shape().inputs() > #"),
    "outside of an output": ("crates/minimum/src", "const MOST_OF_AN_OUTPUT: usize = #;"),
    "outside": ("crates/minimum/src", "const MOST_OUTSIDE: usize = #;"),
    "outside of a row": ("crates/minimum/src", "const MOST_OF_OFF: usize = #;"),
    "rounds": ("crates/minimum/src/points/rounds.rt", "const MOST_ROUNDS: usize = #;"),
    "rounds as needed": ("crates/minimum/src/as_needed.rt", "const MOST_ROUNDS: usize = #;"),
    "words as needed": ("crates/minimum/src/as_needed.rt", "const MOST_WORDS: usize = #;"),
    "few inputs": ("crates/minimum/src/way_hints.rt", "const FEW_INPUTS: usize = #;"),
    "looks of few inputs": ("crates/minimum/src/way_hints.rt", "const MOST_LOOKS_OF_FEW_INPUTS: usize = #;"),
    "few looks": ("crates/minimum/src/points.rt", "const MOST_LOOKS: [usize; 4] = [#, 1_600_000, 200_000_000, 4_000_000_000];"),
    "first looks": ("crates/minimum/src/points.rt", "const MOST_LOOKS_AT_FIRST: [usize; 2] = [#, 4_000_000_000];"),
    "primes by literals": ("crates/minimum/src/points/source.rt", "const MOST_PRIMES: usize = #;"),
    "most looks": ("crates/minimum/src/points.rt", "const MOST_LOOKS: [usize; 4] = [200_000, 1_600_000, 200_000_000, #];"),
    "inputs of a list": ("crates/minimum/src", "if inputs <= # { return Ok(rows < 100);"),
    "rows of a list": ("crates/minimum/src", "if inputs <= 12 { return Ok(rows < #);"),
    "rows of growth": ("crates/minimum/src", "if inputs > 40 { 100_000 } else { # }"),
    "rows of wide growth": ("crates/minimum/src", "if inputs > 40 { # } else"),
    "wide": ("crates/minimum/src", "if inputs > # { 100_000 }"),
    "batch": ("crates/covering/src", "const BATCH_TABLES: u64 = #;"),
    "hard length": ("crates/covering/src", "const HARD_LENGTH: u64 = #;"),
    "quick tables": ("crates/warm_start/src/warm_start", "const QUICK_TABLES: u64 = #;"),
    "few quick tables": ("crates/warm_start/src/warm_start", "const QUICK_TABLES_ONCE_HARD: u64 = #;"),
    "tables to reduce": ("crates/covering/src", "const TABLES_TO_REDUCE: u64 = #;"),
    "many rows": ("crates/warm_start/src/warm_start.rt", "const MANY_ROWS: usize = #;"),
    "relaxed rows": ("crates/relaxation/src/relaxation.rt", "const MOST_ROWS: usize = #;"),
    "simplex steps": ("crates/relaxation/src/relaxation.rt", "const MOST_STEPS: u32 = #;"),
    "exchanges": ("crates/relaxation/src/simplex.rt", "const MOST_EXCHANGES: usize = #;"),
    "relaxed columns": ("crates/relaxation/src/relaxation.rt", "const MOST_COLUMNS: usize = #;"),
    "relaxed places": ("crates/relaxation/src/relaxation.rt", "const MOST_PLACES: usize = #;"),
    "many points": ("crates/minimum/src/points/round_hints.rt", "const MOST_POINTS_FOR_LEAST: usize = #;"),
    "merged rows": ("crates/minimum/src/fewer_rows.rt", "const LONG_LIST: usize = #;"),
    "compared rows": ("crates/minimum/src/fewer_rows.rt", "const MOST_ROWS_TO_COMPARE: usize = #;"),
    "kept numbers": ("crates", "const SIZE: usize = #;"),
    "proof memory": ("tools/build", "MEMORY = # * 10 ** 9"),
    "gate": (".ci/run", "minutes=$((# - SECONDS / 60))"),
    "wrong searches": ("tests/wrong_searches/*.edit", ""),
    "stack": ("tests/test_costs.py", "limit(resource.RLIMIT_STACK, # << 20)"),
}

# A page; a sentence; for each number the constant that it is.
SENTENCES = (
    ("README.md", "A file has up to # inputs and # outputs", "inputs", "outputs"),
    ("docs/espresso.1", "up to # binary inputs and # outputs", "inputs", "outputs"),
    ("docs/espresso.1", ".It # inputs, at least 0", "inputs"),
    ("docs/espresso.1", ".It # outputs, at least 1", "outputs"),
    ("docs/espresso.1", ".It # bytes of a line", "line bytes"),
    ("docs/espresso.1", ".It # lines of a file", "lines"),
    ("docs/espresso.1", "-width # -compact", "lines"),
    ("docs/espresso.1", "made with up to # inputs and at least # rows of the ON list", "inputs of a list", "rows of a list"),
    ("docs/espresso.1", "more than # rows (# with more than # inputs)", "rows of growth", "rows of wide growth", "wide"),
    ("docs/espresso.1", "With more than # inputs not all primes are listed", "many inputs"),
    ("docs/espresso.1", "With up to # inputs, if the count takes long too", "many inputs"),
    ("docs/espresso.1", "Other rows are dropped if they lie in others, in lists of up to #. What is left of them is merged with more than # inputs",
     "compared rows", "many inputs"),
    ("docs/espresso.1", "So they are with up to # inputs", "many inputs"),
    ("docs/espresso.1", "several outputs and more than # inputs all primes are listed only past", "many inputs"),
    ("docs/espresso.1", "with more than # inputs, unless rows are very many, places", "very many inputs"),
    ("docs/espresso.1", "those that take more than # looks at a cube or a picked place (# while none is picked) wait until there are no others, "
     "and none that take more than # are", "few looks", "first looks", "most looks"),
    ("docs/espresso.1", "on the second way # words of cubes for the columns of all rounds, and with up to # inputs # cubes", "words as needed",
     "few inputs", "looks of few inputs"),
    ("docs/espresso.1", "a place with more than # waits", "primes by literals"),
    ("docs/espresso.1", "the rounds: at most # on the first way, # on the second", "rounds", "rounds as needed"),
    ("docs/espresso.1", "at most # cubes of one row", "outside of a row"),
    ("docs/espresso.1", "at most # an output on average and # in all are made", "outside of an output", "outside"),
    ("docs/espresso.1", "in tables of up to # rows and # columns", "relaxed rows", "relaxed columns"),
    ("docs/espresso.1", "rows times columns are at most #", "relaxed places"),
    ("docs/espresso.1", "From # rows on primal-dual steps", "many rows"),
    ("docs/espresso.1", "two of three hold: more than # inputs, several outputs, # rows or more", "many inputs", "merged rows"),
    ("docs/espresso.1", "a SAT search, which may need # GB more", "kept numbers"),
    ("docs/FORMAT.md", "| inputs | 0 to # |", "inputs"),
    ("docs/FORMAT.md", "| outputs | 1 to # |", "outputs"),
    ("docs/FORMAT.md", "| bytes of a line, without its line feed | # |", "line bytes"),
    ("docs/FORMAT.md", "| lines up to the end | # |", "lines"),
    ("docs/FORMAT.md", "| `.i` | one number, 0 to # |", "inputs"),
    ("docs/FORMAT.md", "| `.o` | one number, 1 to # |", "outputs"),
    ("docs/FORMAT.md", "`more than # lines`", "lines"),
    ("docs/FORMAT.md", "`line longer than # bytes`", "line bytes"),
    ("docs/ARCHITECTURE.md", "several outputs and more than # inputs, `outside`", "many inputs"),
    ("docs/ARCHITECTURE.md", "(# cubes an output on average and # in all)", "outside of an output", "outside"),
    ("docs/ARCHITECTURE.md", "listed with up to # inputs", "many inputs"),
    ("docs/ARCHITECTURE.md", "(# looks for the columns of a point on the first way; # and # rounds; with up to # inputs sooner)", "most looks", "rounds",
     "rounds as needed", "few inputs"),
    ("docs/ARCHITECTURE.md", "With more than # inputs points are picked by these", "very many inputs"),
    ("docs/ARCHITECTURE.md", "from # rows on primal-dual ones", "many rows"),
    ("docs/DECISIONS.md", "From # rows on primal-dual steps bound", "many rows"),
    ("docs/DECISIONS.md", "puts its text together in # bytes", "print buffer"),
    ("docs/DECISIONS.md", "a round of more than # points takes a short cover", "many points"),
    ("docs/DECISIONS.md", "two of three hold: more than # inputs, several outputs, # rows or more", "many inputs", "merged rows"),
    ("docs/DECISIONS.md", "after # tables of the search by subgradient steps, and after # once", "quick tables", "few quick tables"),
    ("docs/DECISIONS.md", "reduced as the order goes on**, after # tables", "tables to reduce"),
    ("docs/DECISIONS.md", "is given up after # tables", "batch"),
    ("docs/DECISIONS.md", "Where the size took #, columns are asked for alone", "hard length"),
    ("docs/DECISIONS.md", "Each gets # GB", "proof memory"),
    ("docs/DECISIONS.md", "a chain of # inputs did not end", "inputs"),
    ("docs/DECISIONS.md", "gives tests and wrong bodies # minutes together", "gate"),
    ("docs/TRUSTED.md", "tries # on the program as plain Rust", "wrong searches"),
    ("docs/TRUSTED.md", "of a piece of at most # bytes", "piece"),
    ("docs/TRUSTED.md", "A chain of # inputs and # outputs runs in # MB of stack", "inputs", "outputs", "stack"),
    ("docs/statement.py", "at most # bytes are delivered beyond the line that ends the description", "piece"),
    ("docs/statement.py", "at most # bytes are delivered beyond the line that ends a description", "piece"),
    ("docs/statement.py", "a text has at most # lines", "lines"),
    ("docs/statement.py", "# inputs and outputs and lines of # bytes", "older inputs", "older line bytes"),
    ("mutants/run", "processors and # GB of memory for each", "proof memory"),
    ("crates/cover/src/lib.rt", "before it takes # GB", "kept numbers"),
    ("crates/relaxation/src/lib.rt", "//! A table of up to # rows takes up to # steps", "relaxed rows", "simplex steps"),
    ("crates/relaxation/src/lib.rt", "after # steps factors are made anew", "exchanges"),
)

# What a page names where the code has another unit: a list that grows takes its old and its new place, of four bytes a number.
UNITS = {"kept numbers": lambda numbers: 3 * 4 * numbers / 2 ** 30}

# The pages of which each number of two digits or more is looked for, and what is measured there, or is no number of the code.
COVERED = {
    "docs/espresso.1": ("November 30, 2026", "(166 to 170 rows)", "Sangiovanni-Vincentelli 1993)", ".%D 1984", ".%D 1993"),
    "docs/TRUSTED.md": (),
    "docs/FORMAT.md": (),
    "docs/ARCHITECTURE.md": (),
    "README.md": ("10 to 30 minutes on four processors", "25 to 70 minutes on two processors", "Python 3.9", "x86-64", "`rattle-kit-13f`"),
}


def read(path):
    with open(os.path.join(TOP, path), encoding="utf-8") as file:
        return " ".join(file.read().split())


def sizes():
    """The rows of README's table of sizes."""
    with open(os.path.join(TOP, "README.md"), encoding="utf-8") as file:
        return re.search(re.escape(README_HEAD) + r"\n\|[-|]+\|\n((?:\|.*\n)+)", file.read())[1].splitlines()


def prose(page):
    """A page's text without its examples, which are indented, and without the table of sizes."""
    rows = sizes()
    with open(os.path.join(TOP, page), encoding="utf-8") as file:
        return " ".join(" ".join(line for line in file if not line.startswith("    ") and line.rstrip() not in rows).split())


def code(place):
    """The text of a file, or of the files of a folder of the crates."""
    if os.path.isfile(os.path.join(TOP, place)):
        return read(place)
    paths = glob.glob(os.path.join(TOP, place, "**", "*"), recursive=True)
    return " ".join(read(path) for path in sorted(paths) if path.endswith((".rt", ".antt")))


def pattern(text, number):
    return number.join(re.escape(part) for part in " ".join(text.split()).split("#"))


def constant(name):
    """The number of a constant, in the pages' unit."""
    place, text = CONSTANTS[name]
    if not text:
        return float(len(glob.glob(os.path.join(TOP, place))))
    found = re.findall(pattern(text, r"(\d[\d_]*(?: << \d+)?)"), code(place))
    assert len(found) == 1, f"{name}: {place} has `{text}` {len(found)} times"
    base, _, shift = found[0].replace("_", "").partition(" << ")
    return UNITS.get(name, float)(int(base) << int(shift or 0))


SHOWN = r"(?<![\w.,])(\d[\d,]*(?:\.\d+)?|" + "|".join(WORDS) + r")(?!\w)"


def shown(number):
    return WORDS[number] if number in WORDS else float(number.replace(",", "").rstrip("."))


class Numbers(unittest.TestCase):
    def test_each_number_of_a_page_is_that_of_the_code(self):
        for page, text, *names in SENTENCES:
            with self.subTest(page=page, text=text):
                self.assertEqual(text.count("#"), len(names))
                found = re.findall(pattern(text, SHOWN), read(page))
                self.assertTrue(found, f"{page} has no such sentence")
                for numbers in found:
                    numbers = [numbers] if len(names) == 1 else numbers
                    self.assertEqual([shown(number) for number in numbers], [constant(name) for name in names])

    def test_each_number_of_a_covered_page_has_a_sentence(self):
        for page, measured in COVERED.items():
            with self.subTest(page):
                rest = prose(page)
                for text in measured:
                    self.assertIn(text, rest)
                    rest = rest.replace(text, "")
                for sentence in (sentence for of, sentence, *_ in SENTENCES if of == page):
                    rest = re.sub(pattern(sentence, SHOWN), " ", rest)
                self.assertEqual(re.findall(r"(?<![\w.,])[1-9][\d,.]*\d", rest), [])

    def test_each_constant_is_named(self):
        self.assertEqual(set(CONSTANTS) - {name for _, _, *names in SENTENCES for name in names}, set())


class Readme(unittest.TestCase):
    def test_its_decoder_is_the_example_with_its_answer(self):
        with open(os.path.join(TOP, "README.md"), encoding="utf-8") as file:
            rows = [line[4:].rstrip().split("   ") for line in file if re.match(r"    [01-]{4} [01-]{7}", line)]
        for name, column in (("bcd7seg.pla", [row[0] for row in rows]), ("bcd7seg.exact.out", [row[-1].strip() for row in rows if len(row) > 1])):
            with open(os.path.join(TOP, "examples", name), encoding="utf-8") as file:
                self.assertEqual(column, re.findall(r"^[01-]+ [01-]+$", file.read(), re.M))

    def test_its_sizes_are_those_of_the_page_of_times(self):
        with open(os.path.join(TOP, "docs/PERFORMANCE.md"), encoding="utf-8") as file:
            page = file.read()
        rows = [row.strip("|").strip().split(" | ") for row in sizes()]
        self.assertEqual([row[0] for row in rows], list(README_ROWS))
        for told, second, minute in rows:
            comparison, family = README_ROWS[told]
            with self.subTest(told):
                section = page.split(f"| **{comparison[0].upper()}{comparison[1:]}** |")[1]
                self.assertIn(f"\n| {family[0].upper()}{family[1:]} | {second} | {minute} |", section)

    def test_it_is_short(self):
        with open(os.path.join(TOP, "README.md"), encoding="utf-8") as file:
            self.assertLessEqual(len(file.readlines()), 90)


if __name__ == "__main__":
    unittest.main()
