"""Large lists and wide rows on each command, with answers that are known from how the lists are made.

A program may give up for want of memory at any time, and would still be proved. So each command is asked here for more
rows, inputs, outputs, primes and columns than a list that it would be tempted to keep short has."""
from itertools import combinations, product
from random import Random

from definition import Description
from least import Answers
from support import Case, ProgramTest, answer_in, closed, fault, folder_of, lines, on_input, pla, printed
from worked import DIFFERENT, EQUAL, GAPS, NO_TAUTOLOGY, ON_OFF, PARTITION, TAUTOLOGY


def points(inputs, numbers=None):
    """The points of these numbers, or all."""
    return [f"{k:0{inputs}b}" for k in (range(1 << inputs) if numbers is None else numbers)]


def listed(cubes, outputs="1"):
    return [f"{cube} {outputs}" for cube in cubes]


def shuffled(rows):
    """The same rows in another order."""
    return sorted(rows, key=lambda row: row[::-1])


def odd(inputs):
    """The points with an odd number of ones. No two are neighbours, so each is a prime of a function of them."""
    return [point for point in points(inputs) if point.count("1") % 2]


def less(bits):
    """The primes of two numbers of so many bits of which the first is less: at one bit it is 0 and the other 1, and at each bit before
    that the first is 0 or the other 1."""
    found = []
    for at in range(bits):
        for choice in product((True, False), repeat=at):
            zeros, ones = [i for i in range(at) if choice[i]], [bits + i for i in range(at) if not choice[i]]
            found.append(cube_of(2 * bits, (*ones, bits + at), (*zeros, at)))
    return found


def below(inputs, bound):
    """The primes of the numbers below the bound: at a one of the bound a zero, and zeros where it has zeros before."""
    bits = f"{bound:0{inputs}b}"
    return sorted(bits[:i].replace("1", "-") + "0" + "-" * (inputs - i - 1) for i in range(inputs) if bits[i] == "1")


def from_bound(inputs, bound):
    """The primes of the numbers from the bound on: those above the one before it."""
    bits = f"{bound - 1:0{inputs}b}"
    return sorted(bits[:i].replace("0", "-") + "1" + "-" * (inputs - i - 1) for i in range(inputs) if bits[i] == "0")


def cube_of(inputs, ones, zeros):
    return "".join("1" if i in ones else "0" if i in zeros else "-" for i in range(inputs))


def primes_by_weight(inputs, fewest, most):
    """The primes of the points that have so many ones: as many ones as the fewest, and as many zeros as leave the most."""
    return sorted(cube_of(inputs, ones, zeros) for ones in combinations(range(inputs), fewest)
                  for zeros in combinations([i for i in range(inputs) if i not in ones], inputs - most))


def by_count(inputs, outputs, bit):
    """For outputs that say how many ones there are: the largest cubes at which outputs have this bit, with these outputs."""
    def held(fewest, most):
        return [j for j in range(outputs) if all(count >> (outputs - 1 - j) & 1 == bit for count in range(fewest, most + 1))]

    found = []
    for fewest in range(inputs + 1):
        for most in range(fewest, inputs + 1):
            here = held(fewest, most)
            is_largest = (fewest == 0 or held(fewest - 1, most) != here) and (most == inputs or held(fewest, most + 1) != here)
            if here and is_largest:
                found += [(cube, here) for cube in primes_by_weight(inputs, fewest, most)]
    return sorted(found)


def by_weight(inputs, fewest, most):
    return [point for point in points(inputs) if fewest <= point.count("1") <= most]


def marked(outputs, chosen, mark="1", other="0"):
    """The output part of a row: a mark at these outputs."""
    return "".join(mark if j in chosen else other for j in range(outputs))


def triples(third):
    """Triples of the numbers below three times an odd one, such that each two numbers are in one of them (Bose, On the
    construction of balanced incomplete block designs, 1939)."""
    half = (third + 1) // 2
    yield from ((x, third + x, 2 * third + x) for x in range(third))
    for x, y in combinations(range(third), 2):
        yield from ((i * third + x, i * third + y, (i + 1) % 3 * third + (x + y) * half % third) for i in range(3))


class Large(ProgramTest):
    def each(self, name, shape, rows, due, commands):
        """Each command prints these rows for the list."""
        self.check(*(on_input(f"{command} of {name}", f"-D{command}", pla(*shape, *rows), printed(*shape, *due))
                     for command in commands))

    def both(self, name, words, first, second, output, status=0):
        self.check(Case(f"{words} of {name}", f"{words} a b", {"a": first, "b": second}, output, b"", status))


class Points(Large):
    def test_all_points(self):
        """4,096 of 12 inputs: one prime holds them, and in a list of all but one that one is missing."""
        rows, name = listed(points(12)), "all points"
        text, fewer, whole = pla(12, 1, *rows), pla(12, 1, *rows[:1234], *rows[1235:]), ["-" * 12 + " 1"]
        self.each(name, (12, 1), rows, rows, ("echo", "contain"))
        self.each(name, (12, 1), rows, whole, ("primes", "essen", "exact", "exact --literals"))
        self.check(
            on_input("tautology of all points", "-Dtautology", text, TAUTOLOGY),
            on_input("tautology of all but one", "-Dtautology", fewer, NO_TAUTOLOGY, status=1),
            on_input("check of all points", "-Dcheck", text, PARTITION),
            on_input("the OFF list of all but one", "-Decho -o fr", fewer,
                     printed(12, 1, *rows[:1234], *rows[1235:], rows[1234][:-1] + "0", head=[".type fr"])))
        other = pla(12, 1, *shuffled(rows))
        self.both("all points", "-Dverify", text, other, EQUAL)
        self.both("all points and all but one", "-Dverify", other, fewer, DIFFERENT, 1)
        self.both("all points", "-Dintersect", text, other, printed(12, 1, *whole))
        self.both("all points without all but one", "-Dsharp", text, fewer, printed(12, 1, rows[1234]))

    def test_points_below_a_bound(self):
        """20,000 of 15 inputs."""
        rows, name = listed(points(15, range(20000))), "20,000 points"
        text, other = pla(15, 1, *rows), pla(15, 1, *shuffled(rows))
        primes, off = below(15, 20000), from_bound(15, 20000)
        self.each(name, (15, 1), rows, rows, ("echo", "contain"))
        self.each(name, (15, 1), shuffled(rows), listed(primes), ("primes", "essen", "exact", "exact --literals"))
        self.check(
            on_input("tautology of 20,000 points", "-Dtautology", text, NO_TAUTOLOGY, status=1),
            on_input("check of 20,000 points", "-Dcheck", text, PARTITION),
            on_input("the OFF list of 20,000 points", "-Decho -o fr", text,
                     printed(15, 1, *rows, *listed(off, "0"), head=[".type fr"])))
        self.both("20,000 points", "-Dverify", text, other, EQUAL)
        self.both("20,000 points and one fewer", "-Dverify", text, pla(15, 1, *rows[1:]), DIFFERENT, 1)
        self.both("20,000 points", "-Dintersect", other, text, printed(15, 1, *listed(primes)))
        self.both("20,000 points without 10,000", "-Dsharp", text, pla(15, 1, *rows[10000:]),
                  printed(15, 1, *listed(below(15, 10000))))

    def test_samples(self):
        """Points of both lists: those below a bound and those from it on, and then one of both."""
        on, off = listed(points(12, range(1500))), listed(points(12, range(1500, 4096)), "0")
        primes = listed(below(12, 1500))
        text = pla(12, 1, *on, *off, head=[".type fr"])
        both = pla(12, 1, *on, *off, on[7][:-1] + "0", head=[".type fr"])
        self.check(*(on_input(f"{command} of samples", f"-D{command}", text, printed(12, 1, *primes))
                     for command in ("primes", "essen", "exact")))
        self.check(on_input("check of samples", "-Dcheck", text, PARTITION),
                   on_input("check of samples with a point of both", "-Dcheck", both, ON_OFF, status=1))
        self.both("samples and primes", "-Dverify", text, pla(12, 1, *primes), EQUAL)
        self.both("samples", "-Dverify", text, pla(12, 1, *shuffled(on), *off, head=[".type fr"]), EQUAL)

    def test_over_250000_points(self):
        """All points of 18 inputs."""
        rows, whole = listed(points(18)), ["-" * 18 + " 1"]
        self.each("262,144 points", (18, 1), rows, rows, ("echo", "contain"))
        self.each("262,144 points", (18, 1), rows, whole, ("primes", "essen", "exact"))
        self.check(on_input("tautology of 262,144 points", "-Dtautology", pla(18, 1, *rows), TAUTOLOGY))
        self.both("262,144 points", "-Dverify", pla(18, 1, *shuffled(rows)), pla(18, 1, *rows), EQUAL)


class ManyPrimes(Large):
    def test_primes_that_are_essential(self):
        rows = listed(odd(13))
        self.each("4,096 points apart", (13, 1), shuffled(rows), rows, ("primes", "essen", "exact", "exact --literals"))
        both = [f"{row}1" for row in rows]
        self.each("4,096 points apart of two outputs", (13, 2), shuffled(both), both, ("primes", "essen", "exact"))
        rows = listed(odd(17))
        self.each("65,536 points apart", (17, 1), rows, rows, ("essen", "exact"))

    def test_two_numbers_compared(self):
        """Two numbers of nine bits, in 262,144 rows, of which each 513th has equal numbers: whether the first is less, equal, greater."""
        rows = [f"{k:018b} {marked(3, [(k >> 9 > k % 512) + (k >> 9 >= k % 512)])}" for k in range(1 << 18)]
        greater = [cube[9:] + cube[:9] for cube in less(9)]
        equal = [number + number for number in points(9)]
        due = sorted(listed(less(9), "100") + listed(equal, "010") + listed(greater, "001"))
        self.each("two numbers", (18, 3), rows, due, ("essen", "exact"))

    def test_primes_by_weight(self):
        """2,970 primes of the points of 12 inputs with two to four ones; none is essential."""
        rows, primes = listed(by_weight(12, 2, 4)), listed(primes_by_weight(12, 2, 4))
        self.each("two to four ones", (12, 1), rows, primes, ("primes",))
        self.each("two to four ones", (12, 1), rows, [], ("essen",))
        self.each("two to four ones", (12, 1), shuffled(primes), shuffled(primes), ("contain",))

    def test_primes_of_a_count(self):
        """36,600 of the outputs that say in binary how many of 12 inputs are one."""
        rows = [f"{point} {point.count('1'):04b}" for point in points(12)[1:]]
        primes = [f"{cube} {marked(4, held)}" for cube, held in by_count(12, 4, 1)]
        self.each("a count of ones", (12, 4), rows, primes, ("primes",))

    def test_primes_of_rows_cut_in_two(self):
        """Rows of four inputs, each cut in two at one input more of its own, on which nothing depends: 36 of these inputs."""
        chance = Random(1)
        rows = [("".join(chance.choice("01-") for _ in range(4)), chance.choice(("001", "010", "011", "100", "110"))) for _ in range(36)]
        cut = [f"{cube}{'-' * k}{bit}{'-' * (35 - k)} {out}" for k, (cube, out) in enumerate(rows) for bit in "01"]
        primes = Answers(Description(4, 3, "f", tuple(rows))).primes
        self.each("cut rows", (40, 3), cut, [f"{cube}{'-' * 36} {out}" for cube, out in primes], ("primes",))

    def test_a_table_of_many_columns(self):
        """A ring of six primes for each of 256 points that are apart: 1,536 columns, of which none is taken and none dropped."""
        ring, least, places = ("00-", "-01", "1-1", "11-", "-10", "0-0"), ("-01", "0-0", "11-"), odd(9)
        rows = listed(place + cube for place in places for cube in ring)
        due = listed(place + cube for place in places for cube in least)
        self.each("256 rings", (12, 1), rows, sorted(rows), ("primes",))
        self.each("256 rings", (12, 1), rows, due, ("exact", "exact --literals"))
        self.each("256 rings", (12, 1), rows, [], ("essen",))

    def test_far_more_primes_than_rows(self):
        """A product of 30 negated inputs, and for each of these one of the input itself and of another one, which the first may
        have in its place: 2^30 + 30 primes, of which the rows are needed and no other one is."""
        rows = [cube_of(60, (k, 30 + k), ()) for k in range(30)] + [cube_of(60, (), range(30))]
        self.each("products", (60, 1), listed(rows), sorted(listed(rows)), ("essen", "exact", "exact --literals"))

    def test_many_functions_joined_in_one_output(self):
        """Fifteen functions of ten rows, each of nine inputs, some of them in common. Their primes are too many to list; a least cover is
        found, and is its own least cover."""
        chance, rows = Random(4), []
        for k in range(150):
            inputs = chance.sample(range(k % 15 * 2, k % 15 * 2 + 8), chance.randint(2, 6)) + [36 + k % 3]
            bits = [i for i in inputs if chance.random() < 0.5]
            rows.append(cube_of(39, bits, [i for i in inputs if i not in bits]))
        text = pla(39, 1, *listed(rows))
        with folder_of({}) as folder:
            least, _ = answer_in(folder, ["-Dexact"], text)
            again, _ = answer_in(folder, ["-Dexact"], least.output)
        self.assertEqual(least.status, 0, least.message)
        self.same(again, least)
        self.both("a least cover", "-Dverify", text, least.output, EQUAL)

    def test_a_search_of_many_tables(self):
        """A sample for each triple of 51 numbers, with zeros at these, against ones alone: the primes are the single zeros,
        and a cover has one of each triple. The search for a least one looks at some 50,000 tables."""
        samples = ["".join("0" if i in triple else "1" for i in range(51)) for triple in triples(17)]
        text = pla(51, 1, *listed(samples), "1" * 51 + " 0", head=(".type fr",))
        with folder_of({}) as folder:
            found, _ = answer_in(folder, ["-Dexact"], text)
        cubes = [row.split()[0].decode() for row in found.output.split(b"\n") if row.startswith((b"0", b"-"))]
        zeros = {cube.index("0") for cube in cubes}
        self.assertEqual((found.status, len(cubes), len(zeros)), (0, 33, 33), found.message)
        self.assertEqual({cube.count("-") for cube in cubes}, {50})
        self.assertTrue(all(zeros.intersection(triple) for triple in triples(17)))


def pieces(cube, cuts, chance):
    """The cube in pieces: this many times a piece is cut in two at an input where it has no literal."""
    found = [cube]
    for _ in range(cuts):
        piece = found.pop(chance.randrange(len(found)))
        at = chance.choice([i for i, symbol in enumerate(piece) if symbol == "-"])
        found += [piece[:at] + bit + piece[at + 1:] for bit in "01"]
    return found


class Pieces(Large):
    """Rows that were cut in pieces, at inputs on which they do not depend."""

    def test_joined_rings(self):
        """Twelve rings of six primes, each of inputs of its own: every row in four pieces, and fifteen points that lie in rows."""
        ring, least, chance = ("00-", "-01", "1-1", "11-", "-10", "0-0"), ("-01", "0-0", "11-"), Random(2)

        def joined(cubes):
            return sorted("---" * k + cube + "---" * (11 - k) for k in range(12) for cube in cubes)

        cut = [piece for cube in joined(ring) for piece in pieces(cube, 3, chance)]
        inside = [format(chance.getrandbits(33), "033b") + "011" for _ in range(15)]
        rows = listed(chance.sample(cut + inside, len(cut + inside)))
        self.each("joined rings in pieces", (36, 1), rows, listed(joined(ring)), ("primes",))
        self.each("joined rings in pieces", (36, 1), rows, listed(joined(least)), ("exact", "exact --literals"))
        self.each("joined rings in pieces", (36, 1), rows, [], ("essen",))

    def test_joined_rings_under_fr(self):
        """Four rings in pieces, with the sixteen points of no ring as the OFF list: the table of all primes is made by the ON rows alone."""
        ring, least, chance = ("00-", "-01", "1-1", "11-", "-10", "0-0"), ("-01", "0-0", "11-"), Random(4)

        def joined(cubes):
            return sorted("---" * k + cube + "---" * (3 - k) for k in range(4) for cube in cubes)

        rows = listed(piece for cube in joined(ring) for piece in pieces(cube, 3, chance))
        text = pla(12, 1, *chance.sample(rows, len(rows)), *listed(map("".join, product(("011", "100"), repeat=4)), "0"), head=[".type fr"])
        self.check(*(on_input(f"{command} of joined rings under fr", f"-D{command}", text, printed(12, 1, *listed(joined(due))))
                     for command, due in (("primes", ring), ("exact", least), ("exact --literals", least), ("essen", ()))))

    def test_two_versions(self):
        """What one version has beside the other, whose rows are those of the first in two pieces: nothing, or the one row more."""
        chance = Random(3)
        rows = [(cube_of(47, chosen[:3], chosen[3:]), marked(30, chance.sample(range(29), 2)))
                for chosen in (chance.sample(range(47), 5) for _ in range(150))]
        first = [f"{cube} {outputs}" for cube, outputs in rows]
        second = [f"{piece} {outputs}" for cube, outputs in rows for piece in pieces(cube, 1, chance)]
        more = f"{'01' * 23}0 {marked(30, [29])}"
        self.both("two versions", "-Dsharp", pla(47, 30, *first), pla(47, 30, *second), printed(47, 30))
        self.both("two versions, turned round", "-Dsharp", pla(47, 30, *second), pla(47, 30, *first), printed(47, 30))
        self.both("one row more", "-Dsharp", pla(47, 30, *first, more), pla(47, 30, *second), printed(47, 30, more))


class Apart(Large):
    """Rows that are apart by their first symbols, which have an odd number of ones, with a literal after them and two outputs."""

    def rows(self, count, inputs, outputs):
        """Pairs of a cube and the numbers of its outputs."""
        width = count.bit_length()
        for k, place in enumerate(odd(width)):
            at = 5 * k % (inputs - width)
            tail = "-" * at + "01"[k // 2 % 2] + "-" * (inputs - width - at - 1)
            yield place + tail, [k % outputs, (3 * k + 1) % outputs]

    def written(self, outputs, cube, chosen):
        return f"{cube} {marked(outputs, chosen)}"

    def compare(self, name, inputs, outputs, rows):
        """Each row in two parts, one part fewer, and the outputs apart."""
        def text(rows):
            return pla(inputs, outputs, *(self.written(outputs, *row) for row in rows))

        def due(rows):
            return printed(inputs, outputs, *sorted(self.written(outputs, *row) for row in rows))

        parts = [(cube[::-1].replace("-", bit, 1)[::-1], chosen) for bit in "10" for cube, chosen in rows]
        first = [(cube, chosen[:1]) for cube, chosen in rows]
        second = [(cube, chosen[1:]) for cube, chosen in rows if chosen[1] != chosen[0]]
        self.both(name, "-Dverify", text(rows), text(parts), EQUAL)
        self.both(f"{name}, one part fewer", "-Dverify", text(parts[1:]), text(rows), DIFFERENT, 1)
        self.both(name, "-Dintersect", text(parts), text(first), due(first))
        self.both(name, "-Dsharp", text(parts), text(first), due(second))

    def ask(self, count, inputs, outputs):
        pairs = list(self.rows(count, inputs, outputs))[::-1]
        rows = [self.written(outputs, *pair) for pair in pairs]
        name, shape = f"{count} rows of {inputs} by {outputs}", (inputs, outputs)
        text = pla(*shape, *rows)
        self.each(name, shape, rows, rows, ("echo", "contain"))
        self.each(name, shape, rows, sorted(rows), ("primes", "essen", "exact"))
        met = pla(*shape, *rows, self.written(outputs, pairs[5][0], []), head=[".type fr"])
        self.check(
            on_input(f"tautology of {name}", "-Dtautology", text, NO_TAUTOLOGY, status=1),
            on_input(f"check of {name}", "-Dcheck", text, PARTITION),
            on_input(f"check of {name}, and one of them OFF", "-Dcheck", met, ON_OFF, status=1))
        self.compare(name, inputs, outputs, pairs)

    def test_many_inputs_and_outputs(self):
        self.ask(1024, 128, 100)

    def test_the_most_inputs(self):
        self.ask(512, 1024, 3)

    def test_the_most_outputs(self):
        self.ask(512, 12, 1024)


class Names(Large):
    def test_long_names(self):
        """One of 60,000 bytes for the input and the output, and 1,024 names of 100 bytes for each."""
        for size, letters in ((1, 60000), (1024, 100)):
            inputs, outputs = ([f"{kind}{k:0{letters - 1}}" for k in range(size)] for kind in "io")
            head = [".ilb " + " ".join(inputs), ".ob " + " ".join(outputs)]
            row = "1" * size + " " + "1" * size
            text, due = pla(size, size, row, head=head), printed(size, size, row, head=head)
            self.check(*(on_input(f"{command}, names of {letters} bytes", f"-D{command}", text, due)
                         for command in ("echo", "contain", "primes", "essen", "exact")))
            self.both(f"names of {letters} bytes", "-Dintersect", text, text, due)
            self.both(f"names of {letters} bytes", "-Dsharp", text, pla(size, size), due)

    def test_long_names_of_files(self):
        """As long as the system has them: 255 bytes, and 4,095 with the folders; and longer ones, which none has."""
        one, bad = pla(1, 1, "1 1"), lines("# x", ".mv")
        for name, path in (("n" * 255, "n" * 255), ("n", "./" * 2047 + "n")):
            self.check(
                Case(f"{len(path)} bytes", ["-Decho", path], {name: one}, printed(1, 1, "1 1")),
                Case(f"the second of {len(path)} bytes", ["-Dverify", "a", path], {"a": one, name: one}, EQUAL),
                Case(f"a fault in one of {len(path)} bytes", ["-Decho", path], {name: bad}, b"# x\n",
                     fault(2, "keyword outside the profile", path), 2))
        self.check(*(Case(f"missing, {len(path)} bytes", ["-Decho", path], {"n": one}, b"", closed(path), 2)
                     for path in ("n" * 256, "./" * 2048 + "n", "n" * 60000)))


class LargeFiles(Large):
    def test_64_megabytes_by_name(self):
        """Comments and rows, as the first file and as the second."""
        text = pla(10, 1, *listed(points(10)))[:-3] + (b"#" + b"x" * 1022 + b"\n") * 65536 + b".e\n"
        whole = pla(10, 1, "-" * 10 + " 1")
        self.check(Case("the first", "-Dexact -eeat a", {"a": text}, printed(10, 1, "-" * 10 + " 1")),
                   Case("the second", "-Dverify -eeat b a", {"a": text, "b": whole}, EQUAL))

    def test_64_megabytes_of_rows(self):
        row = "0" * 1023 + "- 1"
        text = pla(1024, 1, *[row] * 65536)
        self.check(Case("rows", "-Dcontain a", {"a": text}, printed(1024, 1, row)))
