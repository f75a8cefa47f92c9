"""Questions of this program put to solvers: as clauses for SAT solvers, and as integer programmes."""
import functools
import itertools
import os

from rows import put, rows_of

MOST_ENTRIES = 1_000_000           # of a covering table before equal rows become one; solvers are not asked of larger ones


def beside(path, end):
    """The path of a file of another kind, beside one of rows."""
    return path[:-len(".pla")] + end


# Tautology.

def negation(path):
    """The file of clauses of which a cover is the negation: a clause for each cube. Written once."""
    target = beside(path, ".cnf")
    if not os.path.exists(target):
        cubes = [row.split()[0] for row in rows_of(path)]
        clauses = ([-i if symbol == "1" else i for i, symbol in enumerate(cube, 1) if symbol != "-"] for cube in cubes)
        put(target, [f"p cnf {len(cubes[0])} {len(cubes)}", *map(clause_line, clauses)])
    return target


def clause_line(clause):
    return " ".join(map(str, clause)) + " 0"


# The covering table.

def points_in(cube):
    """The points of a cube, as numbers."""
    points = [0]
    for symbol in cube:
        points = [2 * point + bit for point in points for bit in ((0, 1) if symbol == "-" else (int(symbol),))]
    return points


def places_in(row, wanted="1"):
    """The places of the outputs of a row that have this symbol."""
    cube, bits = row.split()
    outputs = [j for j, bit in enumerate(bits) if bit == wanted]
    return ((j, point) for point in points_in(cube) for j in outputs)


def entries(rows):
    """How many places the rows hold, each counted as often as it is held."""
    return sum(row.split()[1].count("1") << row.split()[0].count("-") for row in rows)


def table(path, primes):
    """The rows of the covering table: for each place of the ON-set outside the DC-set the numbers of its primes. Of equal rows
    one is kept. None where the table is too large to be made here."""
    if entries(primes) > MOST_ENTRIES:
        return None
    holders = {place: [] for row in rows_of(path) for place in places_in(row)}
    for row in rows_of(path):
        for place in places_in(row, "-"):
            holders.pop(place, None)
    for number, prime in enumerate(primes):
        for place in places_in(prime):
            if place in holders:
                holders[place].append(number)
    return sorted(set(map(tuple, holders.values())))


def programme(rows, count):
    """The lines of the table as an integer programme of so many columns, in MPS."""
    columns = [[] for _ in range(count)]
    for number, row in enumerate(rows):
        for column in row:
            columns[column].append(number)
    yield from ("NAME cover FREE", "ROWS", " N size")
    yield from (f" G r{number}" for number in range(len(rows)))
    yield from ("COLUMNS", " M1 'MARKER' 'INTORG'")
    for column, numbers in enumerate(columns):
        yield f" x{column} size 1"
        yield from (f" x{column} r{number} 1" for number in numbers)
    yield from (" M2 'MARKER' 'INTEND'", "RHS")
    yield from (f" rhs r{number} 1" for number in range(len(rows)))
    yield "BOUNDS"
    yield from (f" BV bnd x{column}" for column in range(count))
    yield "ENDATA"


@functools.cache
def table_files(path, primes):
    """The files of the table of these primes, as an integer programme and as plain rows of numbers; None if it is too large."""
    rows = table(path, primes)
    if rows is None:
        return None
    return (put(beside(path, ".mps"), programme(rows, len(primes))),
            put(beside(path, ".table"), [str(len(primes)), *(" ".join(map(str, row)) for row in rows)]))


# Whether so many products are enough for samples.

class Products:
    """Clauses that hold of so many products where they agree with samples: which literals a product has, which outputs it
    serves, and which product is chosen for each place that has to be 1."""

    def __init__(self, inputs, outputs, count):
        self.inputs, self.outputs, self.count = inputs, outputs, count
        self.variables = count * (2 * inputs + outputs)
        self.clauses = []

    def literal(self, product, i, symbol):
        """The product has this literal."""
        return 1 + product * (2 * self.inputs + self.outputs) + 2 * i + int(symbol)

    def serves(self, product, output):
        return 1 + product * (2 * self.inputs + self.outputs) + 2 * self.inputs + output

    def add_zero(self, point, output):
        """No product that serves the output contains the point: it has a literal that the point has not."""
        for product in range(self.count):
            others = [self.literal(product, i, "10"[int(symbol)]) for i, symbol in enumerate(point)]
            self.clauses.append([-self.serves(product, output), *others])

    def add_one(self, point, output, first):
        """One of the products contains the point and serves the output, for the place of this number. The places put the products
        in order: the first one chooses the first product, the second one of the first two, and so on."""
        chosen = [self.variables + 1 + k for k in range(min(self.count, first + 1))]
        self.variables += len(chosen)
        self.clauses.append(chosen)
        for product, choice in enumerate(chosen):
            self.clauses.append([-choice, self.serves(product, output)])
            self.clauses += [[-choice, -self.literal(product, i, "10"[int(symbol)])] for i, symbol in enumerate(point)]


def apart_first(samples):
    """The places that have to be 1, as points and outputs; at first some of which no product holds two, as a product that holds
    two points holds all between them."""
    zeros = [[int(point, 2) for point, bits in samples if bits[j] == "0"] for j in range(len(samples[0][1]))]

    def are_apart(one, other):
        (x, j), (y, k) = ((int(point, 2), output) for point, output in (one, other))
        return any(not (zero ^ x) & ~(x ^ y) for output in {j, k} for zero in zeros[output])
    apart, rest = [], []
    for place in ((point, j) for point, bits in samples for j, bit in enumerate(bits) if bit == "1"):
        (apart if all(are_apart(place, other) for other in apart) else rest).append(place)
    return apart + rest


def enough(path, count):
    """The file of clauses that have a solution if so many products agree with the samples of a file of type fr."""
    samples = [row.split() for row in rows_of(path)]
    products = Products(*map(len, samples[0]), count)
    for number, (point, j) in enumerate(apart_first(samples)):
        products.add_one(point, j, number)
    for point, bits in samples:
        for j, bit in enumerate(bits):
            if bit == "0":
                products.add_zero(point, j)
    head = f"p cnf {products.variables} {len(products.clauses)}"
    return put(beside(path, f".{count}.cnf"), itertools.chain([head], map(clause_line, products.clauses)))
