"""Functions of many outputs, as control parts have them: few products, and often more primes than can be listed.

No answer here is the program's. Those of small functions are made by the definitions; those of parts of a data path and of
joined rings are known by hand; those in the folder were found by another program, which takes least covers from maximal
signature cubes (McGeer et al. 1993) and was compared with the definitions on many thousand functions."""
import hashlib
import os
import random
import sys
from dataclasses import replace

from definition import Description, agree
from support import Case, ProgramTest, answer_in, folder_of, lines, on_input, pla, printed, slashed
from worked import DIFFERENT, EQUAL

TOP = os.path.dirname(os.path.dirname(os.path.abspath(__file__)))
FOLDER = os.path.join(TOP, "tests", "many_outputs")
sys.path.append(os.path.join(TOP, "bench"))

from control import grants, joined_rings, samples, selector, shifter  # noqa: E402
from users import Machine, state_machine  # noqa: E402

EXACT, LITERALS, ESSEN = "-Dexact", "-Dexact --literals", "-Dessen"
COVERS = (EXACT, LITERALS)
ALL = (*COVERS, ESSEN)
NAMES = ("clusters-10", "clusters-24", "clusters-36", "clusters-60", "free-14", "free-36", "decoded-47", "operations",
         "samples-10", "samples-14")


def read(name):
    """The lines of a file of the folder."""
    with open(os.path.join(FOLDER, name), encoding="ascii") as file:
        return file.read().splitlines()


def rows_of(name):
    """The rows of a function of the folder."""
    return [line for line in read(f"{name}.pla") if line[0] in "01-"]


def file_of(name, rows):
    """The function of the folder with other rows."""
    head = [line for line in read(f"{name}.pla")[:3] if line[0] == "."]
    return lines(*head, *rows, ".e")


def answers_of(name):
    """The rows that are due under each command. In the file stands before each row in which of the three it is."""
    marked = [line.split(" ", 1) for line in read(f"{name}.rows")]
    return {words: [row for marks, row in marked if mark in marks] for words, mark in zip(ALL, "xle")}


def shape_of(rows):
    return tuple(map(len, rows[0].split()))


def listing_text(listing, rows=None):
    return pla(listing.inputs, listing.outputs, *(rows or listing.rows), head=listing.head())


def shuffled(rows, seed=1):
    return random.Random(seed).sample(list(rows), len(rows))


def cut_up(rows, count, seed=1):
    """The same places in so many rows: rows are cut in two at an input that they leave open."""
    chance, rows = random.Random(seed), list(rows)
    while len(rows) < count:
        at = chance.randrange(len(rows))
        cube, out = rows[at].split()
        i = chance.choice([i for i, symbol in enumerate(cube) if symbol == "-"] or [None])
        if i is not None:
            rows[at] = f"{cube[:i]}0{cube[i + 1:]} {out}"
            rows.append(f"{cube[:i]}1{cube[i + 1:]} {out}")
    return shuffled(rows)


def meet(one, other):
    """Whether two cubes have a point in common."""
    return all(a == b or "-" in (a, b) for a, b in zip(one, other))


def with_an_answer_turned(rows):
    """Samples in which one output of a row is said to be 0 and not 1, where no other row says 1 of such a place."""
    for k, row in enumerate(rows):
        cube, out = row.split()
        j = out.find("1")
        others = [other.split() for other in rows[:k] + rows[k + 1:]]
        if j >= 0 and not any(symbols[j] == "1" and meet(cube, points) for points, symbols in others):
            return [*rows[:k], f"{cube} {out[:j]}0{out[j + 1:]}", *rows[k + 1:]]
    raise AssertionError("no sample can be turned")


def drawn(number):
    """A random function of few inputs, of each type in turn. Its lists may share places, and its rows may repeat."""
    chance = random.Random(number)
    inputs, outputs = (0, 1, 2, 3, 3, 4, 4, 5)[number % 8], 1 + number % 3
    kind = ("f", "fd", "fr", "fdr")[number // 2 % 4]
    rows = [("".join(chance.choices("01-", (3, 3, 4), k=inputs)), "".join(chance.choices("10-~", (4, 3, 2, 2), k=outputs)))
            for _ in range(chance.randrange(1, 2 ** inputs + 2))]
    return Description(inputs, outputs, kind, (*rows, *chance.sample(rows, len(rows) // 4)))


def sampled(number):
    """Samples of a random function, of type fr: at an output a row says whether its cube lies in the products, or outside them."""
    chance, inputs, outputs = random.Random(number), 7, 2 + number % 5
    products = [[{i: chance.choice("01") for i in chance.sample(range(inputs), chance.randint(2, 4))} for _ in range(2)]
                for _ in range(outputs)]
    rows = []
    for _ in range(60):
        row = {i: chance.choice("01") for i in chance.sample(range(inputs), chance.randint(5, inputs))}
        parted = [[any(row.get(i, bit) != bit for i, bit in product.items()) for product in some] for some in products]
        inside = [any(product.items() <= row.items() for product in some) for some in products]
        rows.append(("".join(row.get(i, "-") for i in range(inputs)),
                     "".join("1" if held else "0" if all(apart) else "~" for held, apart in zip(inside, parted))))
    return Description(inputs, outputs, "fr", tuple(rows))


class ManyOutputs(ProgramTest):
    def due(self, name, text, shape, rows, commands=ALL):
        """These commands print these rows."""
        self.check(*(on_input(f"{name}, {words}", words, text, printed(*shape, *rows)) for words in commands))

    def compared(self, name, one, other, equal=True):
        files, answer = {"a": one, "b": other}, (EQUAL, b"", 0) if equal else (DIFFERENT, b"", 1)
        self.check(*(Case(f"{name}, {words}", words, files, *answer) for words in ("-Dverify a b", "-Dverify b a")))


class DataPaths(ManyOutputs):
    def test_each_product_is_the_only_prime_at_some_place(self):
        """Where one bit of the data is set, and what picks it."""
        parts = [("a rotator of 4 bits", shifter(4, 2, rotate=True)), ("of 16", shifter(16, 4, rotate=True)),
                 ("of 32", shifter(32, 5, rotate=True)), ("a shifter of 16 bits", shifter(16, 3)),
                 ("a selector of 35 inputs", selector(3, 4)), ("of 99", selector(3, 12)), ("of 260", selector(4, 16)),
                 ("grants of six groups", grants(6, 6)), ("of twelve", grants(12, 8))]
        for name, part in parts:
            self.due(name, listing_text(part), (part.inputs, part.outputs), sorted(part.rows))

    def test_primes_of_small_parts(self):
        """Those of a selector: a face of the addresses and some bits of all words that it has. Those of grants: in each of some
        groups the first request."""
        for name, part in (("a selector", selector(1, 3)), ("grants", grants(2, 3))):
            by_definition = Description(part.inputs, part.outputs, "f", tuple(tuple(row.split()) for row in part.rows))
            primes = by_definition.primes()
            self.assertEqual(len(primes), part.primes)
            self.check(on_input(name, "-Dprimes", listing_text(part), by_definition.printed(primes)))

    def test_outputs_that_are_inputs(self):
        """2^256 - 1 primes, one for each choice of outputs."""
        for count in (64, 256):
            rows = [f"{'-' * i}1{'-' * (count - 1 - i)} {'0' * i}1{'0' * (count - 1 - i)}" for i in range(count)]
            self.due(f"{count} of them", pla(count, count, *rows), (count, count), sorted(rows))

    def test_a_decoder_among_a_thousand_inputs(self):
        """All but the last six inputs and the first, which is asked for, play no part."""
        rows = [f"1{'-' * 1017}{word:06b} {1 << word:064b}" for word in range(64)]
        self.due("64 words", pla(1024, 64, *shuffled(rows)), (1024, 64), sorted(rows))


class JoinedRings(ManyOutputs):
    RING = ("-01", "-10", "0-0", "00-", "1-1", "11-")

    def ring_rows(self, count, cubes):
        """In row order: rings of later inputs come first."""
        return [f"{'---' * k}{cube}{'---' * (count - 1 - k)} 1" for k in reversed(range(count)) for cube in cubes]

    def test_joined_rings(self):
        """Each has two least covers, the first with the ring's first prime in it, and no essential prime."""
        for count in (1, 2, 8, 16, 64, 300):
            text, shape = listing_text(joined_rings(count)), (3 * count, 1)
            self.due(f"{count} rings", text, shape, self.ring_rows(count, ("-01", "0-0", "11-")), COVERS)
            self.due(f"{count} rings", text, shape, [], (ESSEN,))
            self.due(f"{count} rings", text, shape, self.ring_rows(count, self.RING), ("-Dprimes",))


class ControlLogic(ManyOutputs):
    def test_covers_and_essential_primes(self):
        for name in NAMES:
            text = file_of(name, rows_of(name))
            for words, rows in answers_of(name).items():
                self.due(name, text, shape_of(rows_of(name)), rows, (words,))

    def test_other_rows_of_one_function(self):
        """Rows that stand twice or in another order, and rows cut in many."""
        for name in ("clusters-24", "free-14", "samples-10"):
            rows = rows_of(name)
            for change, other in (("twice", shuffled(rows * 2)), ("cut", cut_up(rows, 300))):
                for words, due in answers_of(name).items():
                    self.due(f"{name}, {change}", file_of(name, other), shape_of(rows), due, (words,))

    def test_twenty_thousand_rows(self):
        """The rows of one function, again and again."""
        name = "clusters-24"
        rows = rows_of(name)
        for words, due in answers_of(name).items():
            self.due(name, file_of(name, (rows * 250)[:20000]), shape_of(rows), due, (words,))

    def test_where_all_are_dont_cares(self):
        """Nothing is wanted."""
        for name in ("clusters-10", "clusters-60"):
            rows = rows_of(name)
            both = [*rows, *(f"{cube} {out.replace('1', '-')}" for cube, out in map(str.split, rows))]
            self.due(name, pla(*shape_of(rows), *shuffled(both)), shape_of(rows), [])


class Samples(ManyOutputs):
    """Files of type fr, whose don't-cares are nearly all places."""

    def test_samples_are_the_same_function(self):
        """As they stand, in another order, and as the rows of their least cover."""
        for name in ("samples-10", "samples-14"):
            rows = rows_of(name)
            text = file_of(name, rows)
            self.compared(f"{name} and its own rows", text, text)
            self.compared(f"{name} in another order", text, file_of(name, shuffled(rows)))
            for words in COVERS:
                self.compared(f"{name} and {words}", text, printed(*shape_of(rows), *answers_of(name)[words]))

    def test_wide_samples(self):
        for shape in ((36, 24, 110), (60, 30, 160), (128, 60, 400)):
            listing = samples(*shape)
            text = listing_text(listing)
            self.compared(f"{shape} and itself", text, text)
            turned = with_an_answer_turned(listing.rows)
            self.compared(f"{shape} in another order", text, listing_text(listing, shuffled(listing.rows)))
            self.compared(f"{shape} with a sample turned", text, listing_text(listing, turned), False)

    def test_a_place_in_both_lists(self):
        """It is wanted, and what neither list has is free."""
        text = slashed(".i 2 / .o 1 / .type fr / 11 1 / 11 0 / 00 0 / .e")
        self.due("two points", text, (2, 1), ["-1 1"], COVERS)
        self.due("two points", text, (2, 1), [], (ESSEN,))
        self.due("two points", text, (2, 1), ["-1 1", "1- 1"], ("-Dprimes",))
        self.compared("and as rows of type f", text, pla(2, 1, "1- 1", head=[".type f"]))


class ByDefinition(ManyOutputs):
    def test_no_inputs(self):
        for kind, out, due, essential in (("f", "1-0", ["100"], ["100"]), ("fd", "1-0", ["110"], ["110"]),
                                          ("fr", "1-0", ["110"], ["110"]), ("fdr", "1-0", ["110"], ["110"]),
                                          ("fd", "--0", [], []), ("fr", "0~~", [], [])):
            text = pla(0, 3, f" {out}", head=[f".type {kind}"])
            self.due(f"{kind} {out}", text, (0, 3), [" " + row for row in due], COVERS)
            self.due(f"{kind} {out}", text, (0, 3), [" " + row for row in essential], (ESSEN,))

    def test_wanted_places_that_are_dont_cares_or_off_too(self):
        text = slashed(".i 2 / .o 1 / .type fdr / 1- 1 / 11 - / 11 0 / .e")
        self.due("one place is left", text, (2, 1), ["1- 1"])

    def test_random_functions(self):
        for number in range(32):
            function = drawn(number)
            answers = {"-Dprimes": function.primes(), EXACT: function.exact(), LITERALS: function.exact(fewest_literals=True),
                       ESSEN: function.essential()}
            self.check(*(on_input(f"{number}, {words}", words, function.text(), function.printed(rows))
                         for words, rows in answers.items()),
                       on_input(f"{number}, all lists", "-Dexact -o fdr", function.text(),
                                function.printed_lists(function.exact())))

    def test_essential_primes_of_samples(self):
        for number in range(60):
            function = sampled(number)
            self.check(on_input(f"samples {number}", ESSEN, function.text(), function.printed(function.essential())))

    def test_random_functions_compared(self):
        """With the same rows in another order, under another type, without one, and with the least cover."""
        for number in range(32):
            function = drawn(number)
            retyped = [replace(function, kind=kind) for kind in ("f", "fd", "fr", "fdr")]
            shorter = replace(function, rows=function.rows[1:])
            self.compared(f"{number} in another order", function.text(), function.text(shuffled(function.rows)))
            self.compared(f"{number} and its least cover", function.text(), function.printed(function.exact()))
            for other in (*retyped, shorter):
                self.compared(f"{number} and another", function.text(), other.text(), agree(function, other))


class Machines(ManyOutputs):
    def test_codes_that_no_state_has(self):
        """A hundred states in seven bits: columns of points are made as they are needed until that takes long, and then all primes. The
        answer is one of the places alone, and agrees with the machine where that is told."""
        machine = state_machine(Machine("hundred", 6, 5, 100, 8), 3, "fd")
        text, turned = listing_text(machine), listing_text(machine, shuffled(machine.rows))
        with folder_of({}) as folder:
            (least, _), (again, _) = (answer_in(folder, ["-Dexact"], given) for given in (text, turned))
        self.assertEqual((least.status, least.output), (0, again.output), least.message)
        self.compared("a machine and its least cover", text, least.output)

    def test_a_table_of_many_rows(self):
        """A machine of 190 states leaves a table of 5,412 rows and 10,549 columns, of which HiGHS too takes 745."""
        text = listing_text(state_machine(Machine("large", 3, 10, 190, 5), 61, "fd"))
        with folder_of({}) as folder:
            answer, _ = answer_in(folder, ["-Dexact"], text)
        self.assertEqual(answer.status, 0, answer.message)
        self.assertIn(b"\n.p 863\n", answer.output)
        self.compared("a large machine and its least cover", text, answer.output)

    def test_a_table_that_needs_cuts(self):
        """A machine of 90 states leaves a table of 1,973 rows and 3,256 columns, of which HiGHS too takes 329. Its linear relaxation
        bounds it poorly: without cuts the same answer takes seven times as long."""
        text = listing_text(state_machine(Machine("s298", 3, 6, 90, 5), 3, "fd"))
        with folder_of({}) as folder:
            answer, _ = answer_in(folder, ["-Dexact"], text)
        self.assertEqual(answer.status, 0, answer.message)
        self.assertIn(b"\n.p 392\n", answer.output)
        self.assertEqual(hashlib.sha256(answer.output).hexdigest(), "6ed503718ca246a123e63f403233a56fe704ce95fe82b089c7c6d45c5a966be5")
        self.compared("a machine and its least cover by cuts", text, answer.output)


class RandomTables(ManyOutputs):
    def test_an_order_that_needs_cuts(self):
        """Half of the places of eight inputs and seven outputs: a table of 678 rows and 939 columns, of which HiGHS too takes 180. The
        length is soon known, and then the columns take four times as long without cuts in the linear relaxation."""
        chance = random.Random(14)
        text = pla(8, 7, *(f"{point:08b} {chance.getrandbits(7):07b}" for point in range(256)))
        with folder_of({}) as folder:
            answer, _ = answer_in(folder, ["-Dexact"], text)
        self.assertEqual(answer.status, 0, answer.message)
        self.assertIn(b"\n.p 197\n", answer.output)
        self.assertEqual(hashlib.sha256(answer.output).hexdigest(), "0d2036ac5caebef531fa72883037f4ee0b18c43ae89b6e8ca4d24a863e90cd4c")
        self.compared("random points and their least cover", text, answer.output)
