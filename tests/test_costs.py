"""What a run may cost: time, stack, memory, and calls of the system.

No contract speaks of these. Each limit is far above what a run takes, and far below what one takes whose heuristics choose
the worst, whose sums are found anew each time, or which holds its lists twice."""
import os
import resource
import sys
from itertools import product

from faults import Fault, answer_under
from support import Case, ProgramTest, answer_in, folder_of, on_input, pla, printed
from test_large import by_count, listed, marked, points, shuffled
from worked import EQUAL, NO_TAUTOLOGY, PARTITION, TAUTOLOGY

TOP = os.path.dirname(os.path.dirname(os.path.abspath(__file__)))
sys.path.append(os.path.join(TOP, "bench"))

from bench import FUNCTIONS, function_rows, partition, split_rows  # noqa: E402
from users import ruled_samples  # noqa: E402

SECONDS = 30                       # each of these runs takes a fraction of one


def limit(kind, most):
    """What is done in a new process before the program runs, so that it has no more of this."""
    return lambda: resource.setrlimit(kind, (most, most))


def chain(inputs, outputs, more):
    """All places, such that a search for them goes through each input and then each output: ones, then a zero; behind all
    ones an output each. More rows, which the first symbol leaves behind, make the list so long that the search goes on."""
    return [*("1" * i + "0" + "-" * (inputs - i - 1) + " " + "1" * outputs for i in range(inputs)),
            *("1" * inputs + " " + "0" * j + "1" + "0" * (outputs - j - 1) for j in range(outputs)),
            *(f"0{k:013b}" + "-" * (inputs - 14) + " " + "1" * outputs for k in range(more))]


class Stack(ProgramTest):
    """Eight megabytes of stack are enough for the most inputs and outputs."""

    def within(self, *cases):
        """Each case answers, as ever, with so much stack."""
        self.check(*cases, preexec_fn=limit(resource.RLIMIT_STACK, 8 << 20))

    def test_a_chain_of_the_most_inputs_and_outputs(self):
        rows, whole = chain(1024, 1024, 6144), "-" * 1024 + " " + "1" * 1024
        text, one = pla(1024, 1024, *rows), pla(1024, 1024, whole)
        self.within(
            on_input("tautology", "-Dtautology", text, TAUTOLOGY),
            on_input("check", "-Dcheck", text, PARTITION),
            on_input("contain", "-Dcontain", text, printed(1024, 1024, *rows[:2048])),
            on_input("essen", "-Dessen", text, printed(1024, 1024, whole)),
            Case("verify", "-Dverify a b", {"a": text, "b": one}, EQUAL),
            Case("verify, the other way", "-Dverify b a", {"a": text, "b": one}, EQUAL))

    def test_a_chain_of_the_most_inputs(self):
        rows, whole = chain(1024, 2, 0), "-" * 1024 + " 11"
        text = pla(1024, 2, *rows)
        self.within(*(on_input(command, f"-D{command}", text, printed(1024, 2, whole)) for command in ("primes", "exact")),
                    Case("intersect", "-Dintersect a b", {"a": text, "b": text}, printed(1024, 2, whole)),
                    Case("sharp", "-Dsharp b a", {"a": text, "b": pla(1024, 2, whole)}, printed(1024, 2)))

    def test_a_search_that_drops_many_columns(self):
        """It drops them one after the other: with a call inside the other for each it ran out."""
        samples = ruled_samples(64, 1, 80, 0.0, 1)
        literals = ({35: "0", 49: "1", 50: "0", 55: "1"}, {26: "0", 48: "1", 60: "0"}, {8: "1", 17: "0", 32: "1"}, {3: "0", 13: "0", 40: "0"})
        terms = ("".join(each.get(i, "-") for i in range(64)) + " 1" for each in literals)
        self.within(on_input("samples", "-Dexact", pla(64, 1, *samples.rows, head=samples.head()), printed(64, 1, *terms)))


class Room(ProgramTest):
    """Memory: each case answers, as ever, within so many megabytes, of which the program itself takes four."""

    def within(self, most, *cases):
        self.check(*cases, preexec_fn=limit(resource.RLIMIT_AS, most << 20))

    def test_rows_that_take_no_cube(self):
        self.within(32, on_input("a million rows", "-Dexact", pla(1, 1, *["1 ~"] * 10 ** 6, head=[".type f"]), printed(1, 1)))

    def test_an_echo_holds_its_rows_once(self):
        """They take 64 megabytes."""
        rows = listed(points(20))
        self.within(100, on_input("a million rows", "-Decho", pla(20, 1, *rows), printed(20, 1, *rows)))

    def test_sums_that_were_found_are_forgotten(self):
        """Where all were kept, these would take 930 megabytes, and else they take 370."""
        text = pla(224, 9, *first_requests(224, 8))
        self.within(600, on_input("primes of first requests", "-Dprimes", text, printed(224, 9, *sorted(primes_of_first_requests(224, 8)))))


def first_requests(inputs, bits):
    """The number of the first input that is one, and whether there is one."""
    return [f"{'0' * k}1{'-' * (inputs - k - 1)} {k:0{bits}b}1" for k in range(inputs)]


def primes_of_first_requests(inputs, bits):
    """Each has some bits of a number: its input is one, and those before it are zero whose numbers lack one of these bits."""
    for k in range(inputs):
        for held in (held for held in range(k + 1) if held & k == held):
            before = "".join("-" if i & held == held else "0" for i in range(k))
            yield f"{before}1{'-' * (inputs - k - 1)} {held:0{bits}b}1"


def selector(width):
    """Where a word of data has a one at the address: a product for each address."""
    size = 1 << width
    return [f"{k:0{width}b}" + "-" * k + "1" + "-" * (size - k - 1) for k in range(size)]


def primes_of_selector(width):
    """Those of a selector: some addresses that make a cube, and ones at all words of them."""
    for face in product("-01", repeat=width):
        held = ("".join(bits) for bits in product("01", repeat=width))
        yield "".join(face) + "".join("1" if all(f in ("-", b) for f, b in zip(face, bits)) else "-" for bits in held)


class Time(ProgramTest):
    """A case for each command, whose time grows without bound where something is chosen badly."""

    def soon(self, *cases):
        self.check(*cases, timeout=SECONDS)

    def test_lists_of_a_decision_tree(self):
        """3,000 leaves of 80 inputs, and some of them cut in two."""
        leaves = partition(3000, 80, 7)
        some, rest = leaves[:1500], leaves[1500:]
        cut = pla(80, 1, *listed(split_rows(some, 3000, 8)))
        parts = [leaf.replace("-", bit, 1) for leaf in leaves for bit in "01"]
        self.soon(
            on_input("tautology", "-Dtautology", pla(80, 1, *listed(leaves)), TAUTOLOGY),
            on_input("check", "-Dcheck", pla(80, 1, *listed(some), *listed(rest[:700], "-"), *listed(rest[700:], "0"),
                                             head=[".type fdr"]), PARTITION),
            on_input("contain", "-Dcontain", pla(80, 1, *listed(parts + leaves)), printed(80, 1, *listed(leaves))),
            Case("verify", "-Dverify a b", {"a": pla(80, 1, *listed(some)), "b": cut}, EQUAL),
            Case("intersect", "-Dintersect a b", {"a": pla(80, 1, *listed(rest)), "b": cut}, printed(80, 1)))

    def test_a_list_of_many_that_are_alike(self):
        """The places at which outputs that count 15 inputs in binary are zero: the steps to them are few where what was found
        is found again."""
        rows = [(point, [j for j, bit in enumerate(f"{point.count('1'):04b}") if bit == "1"]) for point in points(15)[1:]]
        off, text = by_count(15, 4, 0), pla(15, 4, *(f"{point} {marked(4, held)}" for point, held in rows))
        self.soon(on_input("the OFF list of a count", "-Decho -o fr", text,
                           printed(15, 4, *(f"{point} {marked(4, held, '1', '~')}" for point, held in rows),
                                   *(f"{cube} {marked(4, held, '0', '~')}" for cube, held in off), head=[".type fr"])),
                  Case("sharp", "-Dsharp a b", {"a": pla(15, 4, "-" * 15 + " 1111"), "b": text},
                       printed(15, 4, *(f"{cube} {marked(4, held)}" for cube, held in off))))

    def test_a_chain_of_the_most_inputs_and_outputs(self):
        """One literal after the other follows, for all outputs at once, where searches for an output each would read half a
        million literals, a thousand times."""
        rows, whole = chain(1024, 1024, 0), "-" * 1024 + " " + "1" * 1024
        text = pla(1024, 1024, *rows)
        self.soon(
            on_input("tautology", "-Dtautology", text, TAUTOLOGY),
            on_input("tautology, shuffled", "-Dtautology", pla(1024, 1024, *shuffled(rows)), TAUTOLOGY),
            on_input("a row too few", "-Dtautology", pla(1024, 1024, *rows[:-1]), NO_TAUTOLOGY, status=1),
            on_input("essen", "-Dessen", text, printed(1024, 1024, whole)))

    def test_chains_side_by_side(self):
        """Each has inputs and outputs of its own."""
        rows, free, none = map(str.split, chain(512, 512, 0)), "-" * 512, "0" * 512
        both = [side for cube, held in rows for side in (f"{cube}{free} {held}{none}", f"{free}{cube} {none}{held}")]
        self.soon(on_input("tautology", "-Dtautology", pla(1024, 1024, *both), TAUTOLOGY),
                  on_input("a row too few", "-Dtautology", pla(1024, 1024, *both[:-1]), NO_TAUTOLOGY, status=1))

    def test_many_questions_about_a_chain(self):
        """A search goes through the chain once, where splits would do so for each."""
        halves = [f"{'-' * i}{bit}{'-' * (1023 - i)} {'1' * 8}" for i in range(1023, 123, -3) for bit in "01"]
        self.soon(Case("verify", "-Dverify a b", {"a": pla(1024, 8, *chain(1024, 8, 0)), "b": pla(1024, 8, *halves)}, EQUAL))

    def test_a_chain_of_few_outputs(self):
        """Each search would take half a second."""
        text = pla(1024, 32, *chain(1024, 32, 0))
        self.soon(on_input("tautology", "-Dtautology", text, TAUTOLOGY),
                  on_input("essen", "-Dessen", text, printed(1024, 32, "-" * 1024 + " " + "1" * 32)))

    def test_a_selector(self):
        """64 words and six inputs that pick one."""
        products = selector(6)
        text, primes = pla(70, 1, *listed(products)), listed(sorted(primes_of_selector(6)))
        self.soon(on_input("primes", "-Dprimes", text, printed(70, 1, *primes)),
                  *(on_input(command, f"-D{command}", text, printed(70, 1, *listed(sorted(products))))
                    for command in ("essen", "exact")))

    def test_a_least_cover_of_known_length(self):
        """Two numbers of four bits multiplied, in 121 products; nine inputs of which three to six are one, in 84."""
        for name, least in (("mlp4", 121), ("9sym", 84)):
            inputs, outputs, value = FUNCTIONS[name]
            text = pla(inputs, outputs, *function_rows(inputs, outputs, value))
            with self.subTest(name), folder_of({}) as folder:
                found, _ = answer_in(folder, ["-Dexact"], text, timeout=SECONDS)
                self.assertEqual((found.message, found.status), (b"", 0))
                self.assertIn(f".p {least}\n".encode(), found.output)
            self.soon(Case(f"{name} again", "-Dverify a b", {"a": text, "b": found.output}, EQUAL))


class Calls(ProgramTest):
    def counted(self, case):
        """How many reads, and how many writes of the output, the system was asked for."""
        with folder_of(case.files) as folder:
            found, log = answer_under(Fault(), case, folder)
        self.same(found, case.due, case.word_list)
        return log.count("r"), log.count("w")

    def test_reads_and_writes_of_large_pieces(self):
        """Files are read in pieces of 4,096 bytes, and what is printed is written in pieces of 32,768 or lines of a longer one."""
        rows = listed(points(16))
        text, output = pla(16, 1, *rows), printed(16, 1, *rows)
        for name, words, file in (("a file", "-Decho a", "a"), ("standard input", "-Decho", "-")):
            with self.subTest(name):
                reads, writes = self.counted(Case(name, words, {file: text}, output))
                self.assertLessEqual(reads, len(text) // 4096 + 3)
                self.assertLessEqual(writes, len(output) // 8192)

    def test_writes_of_comments(self):
        """Those of a piece that was read are written together."""
        notes = b"# a note\n" * 50000
        reads, writes = self.counted(Case("comments", "-Decho a", {"a": notes + pla(1, 1, "1 1")},
                                          notes + printed(1, 1, "1 1")))
        self.assertLessEqual(reads, len(notes) // 4096 + 3)
        self.assertLessEqual(writes, 3 * (len(notes) // 4096 + 3))
