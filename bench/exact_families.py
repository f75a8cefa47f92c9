"""Families of functions that grow, for `exact`: what users write, and functions that are known or drawn.

Every file is made by a fixed seed. Each family says what stops `exact` where it has no answer.
"""
from dataclasses import replace

from arithmetic import (CLASSICS, adder, arithmetic_unit, comparison, count_of_ones, leading_noughts, middle_ones, multiplier, parity,
                        sensor_display, square)
from control import (DECODED, KNOWN, SHARED, WIDE, control, first_request, grants, joined_rings, operation_lines, samples, selector, shifter)
from families import (DRAWS, PROOF, Family, Size, drawn_family, family, file_of, inputs_label, points_of, random_cubes, random_points, ring_file,
                      ring_label, width_label)
from rows import shuffled
from users import MACHINES, decoder, ruled_samples, state_machine, wide_rows


# What stops larger ones, and what ends a family whose largest is answered.
NEEDED = "asking of each row whether it is needed"
TABLE = "making the rows of the covering table"
PLACES = "finding enough places for the covering table"
COLUMNS = "the many columns of the covering table"
MERGING = "reading the file and merging its rows"
FULL_INPUTS = "the limit of 1,024 inputs"
FULL_OUTPUTS = "the limit of 1,024 outputs"
FULL_LINES = "the limit of 16,777,216 lines"


def listing_file(name, listing, end="", order=lambda rows: rows):
    return file_of(f"{name}{end}", listing.inputs, listing.outputs, order(listing.rows), listing.head())


# Tables of truth.

def for_tables():
    """Each size is a file with a row for each point."""
    found = [
        ("sums", "two numbers added", (2, 3, 4, 5, 6, 7, 8, 9, 10, 11), width_label("+"), adder, NEEDED),
        ("products", "two numbers multiplied", (2, 3, 4, 5), width_label("×"), multiplier, PROOF),
        ("squares", "a number squared", (4, 5, 6, 7, 8), inputs_label, square, PROOF),
        ("comparisons", "whether a number is above another, equal to it, or below it", (4, 5, 6, 7, 8, 9, 10), width_label("and"),
         comparison, NEEDED),
        ("leading noughts", "how many of the first inputs are 0", (8, 10, 12, 14, 16, 18, 20, 22, 24), inputs_label, leading_noughts, MERGING,
         ("ends", FULL_LINES)),
        ("ones counted", "how many inputs are 1", (6, 8, 10, 12, 14, 16), inputs_label, count_of_ones, TABLE),
        ("parity", "whether the number of ones is odd", (8, 10, 12, 14, 16, 18, 20, 22), inputs_label, parity, TABLE),
        ("middle ones", "whether about a third to two thirds of the inputs are 1", (6, 7, 8, 9, 10, 11, 12, 13), inputs_label,
         middle_ones, PROOF),
        ("arithmetic units", "by two bits: sum, difference, and, exclusive or of two numbers", (3, 4, 5, 6, 7, 8, 9),
         lambda width: f"{2 + 2 * width} inputs", arithmetic_unit, NEEDED),
        ("displays", "two sensors, each shown as a digit of seven segments", (4, 5, 6, 7, 8, 9),
         lambda width: f"{2 * width} inputs", sensor_display, TABLE),
    ]
    return [family(name, told, sizes, label,
                   lambda n, name=name, make=make: (points_of(f"truth-{name}-{n}", make(n)),), stops, **dict(ends))
            for name, told, sizes, label, make, stops, *ends in found]


def for_classics():
    """One family, of which each member has a least cover whose size is printed in the literature."""
    sizes = [Size(f"{it.name}: {it.told}", [lambda it=it: (points_of(f"classic-{it.name}-{it.least}", it.function),)], least=it.least)
             for it in CLASSICS]
    return [Family("classic functions", "those that arithmetic defines, by the sizes of their least covers", sizes, PROOF, grows=False)]


# Random functions.

SHARES = (                         # outputs, shares of ones and of don't-cares, inputs, and what stops larger ones
    (1, 0.1, 0.0, range(8, 23, 2), PROOF), (1, 0.4, 0.2, range(7, 14), PROOF), (2, 0.3, 0.3, range(6, 13), PROOF),
    (6, 0.25, 0.0, range(6, 14), PROOF), (10, 0.15, 0.7, range(4, 10), PROOF), (10, 0.5, 0.0, range(5, 11), PROOF),
    (20, 0.2, 0.6, range(4, 9), PROOF), (35, 0.05, 0.9, range(4, 11), PROOF), (40, 0.5, 0.0, range(5, 12), PROOF))


def shares(ones, dashes):
    return f"{100 * ones:.0f} % ones" + (f", {100 * dashes:.0f} % free" if dashes else "")


def for_random():
    """Each size is some functions that are drawn."""
    points = [
        drawn_family(f"{outputs} output{'s' if outputs > 1 else ''}, {shares(ones, dashes)}", "the places of each output are drawn", sizes,
                     inputs_label, lambda n, draw, how=(outputs, ones, dashes): (random_points(n, *how, draw),), stops)
        for outputs, ones, dashes, sizes, stops in SHARES]
    return [
        *points,
        drawn_family("random cubes", "two outputs, four symbols in ten are dashes",
                     ((6, 20), (7, 40), (8, 60), (9, 100), (10, 160), (11, 240), (12, 360), (13, 540)),
                     lambda size: f"{size[0]} inputs, {size[1]} cubes", lambda size, draw: (random_cubes(*size, draw),), PROOF),
        family("rings", "six points of three inputs, side by side: six primes each, none essential",
               (4, 16, 64, 256, 1024, 4096, 16384, 65536),
               ring_label, lambda n: (ring_file(n),), TABLE),
    ]


# State machines and samples.

def machine_file(machine, seed, kind):
    return listing_file(f"machine-{machine.name}-{seed}-{kind}", state_machine(machine, seed, kind))


def for_machines():
    """Machines of the shapes of known ones, in two types."""
    told = "drawn with the inputs, outputs and states of known machines"
    return [Family(f"state machines, type {kind}", f"{told}; {DRAWS} functions a size",
                   [Size(machine.label(), [lambda machine=machine, seed=seed, kind=kind: (machine_file(machine, seed, kind),)
                                           for seed in range(1, DRAWS + 1)]) for machine in MACHINES], PROOF, grows=False)
            for kind in ("fd", "fr")]


def sample_file(inputs, outputs, count, noise, draw):
    return listing_file(f"ruled-{inputs}-{outputs}-{count}-{100 * noise:.0f}-{draw}",
                        ruled_samples(inputs, outputs, count, noise, draw))


def sample_family(name, shapes, label, stops, noise=0.0):
    rule = "points, and what four hidden products of three literals say of them"
    return drawn_family(name, rule if not noise else f"{rule}; one value in twenty is wrong", shapes, label,
                        lambda shape, draw: (sample_file(*shape, noise, draw),), stops)


def for_samples():
    """Each size is some files of type fr."""
    def inputs(shape):
        return f"{shape[0]} inputs"

    def rows(shape):
        return f"{shape[2]} rows"
    return [
        sample_family("one output, 100 rows", [(n, 1, 100) for n in (8, 12, 16, 20, 30, 48, 64, 96, 128)], inputs, COLUMNS),
        sample_family("one output, 20 inputs", [(20, 1, count) for count in (50, 100, 200, 400, 800, 1600, 3200)], rows, COLUMNS),
        sample_family("one output, 12 inputs, noise", [(12, 1, count) for count in (50, 100, 200, 400, 800, 1200, 1600, 2400)], rows, PROOF,
                      0.05),
        sample_family("one output, 20 inputs, noise", [(20, 1, count) for count in (50, 100, 150, 200, 300, 400)], rows, PROOF, 0.05),
        sample_family("four outputs, 100 rows", [(n, 4, 100) for n in (8, 10, 12, 16, 20, 30, 48)], inputs, PLACES),
        sample_family("four outputs, 12 inputs, noise", [(12, 4, count) for count in (25, 50, 75, 100, 150, 200)], rows, PROOF, 0.05),
        sample_family("ten outputs, 60 rows", [(n, 10, 60) for n in (8, 10, 12, 14, 16, 20)], inputs, PROOF),
    ]


# Functions of many outputs.

def listed(name, listing):
    """A file of these rows, and one of the same rows in another order."""
    name = f"{name}-{listing.inputs}-{listing.outputs}-{len(listing.rows)}"
    return tuple(listing_file(name, listing, end, order)
                 for end, order in (("", list), ("-shuffled", lambda rows: shuffled(rows, 9))))


def listing_size(name, shape, makers, primes=None):
    """A size of these inputs, outputs and rows; each function is a pair of files."""
    inputs, outputs, rows = shape
    return Size(f"{inputs} / {outputs}, {rows} rows",
                [lambda make=make, draw=draw: listed(f"{name}-{draw}", make()) for draw, make in enumerate(makers)], f"{inputs} / {outputs}", primes)


def drawn_listings(name, told, shapes, make, stops, first=1, **how):
    """A family of some functions a size, by the shape and a seed; `shapes` has the primes of the first function too."""
    sizes = [listing_size(name, shape, [lambda shape=shape, seed=seed: make(*shape, seed=seed) for seed in range(first, first + DRAWS)], primes)
             for shape, primes in shapes]
    return Family(name, f"{told}; {DRAWS} functions a size", sizes, stops, **how)


def uncounted(*shapes):
    """Shapes of functions whose primes were not counted."""
    return [(shape, None) for shape in shapes]


# Inputs, outputs and rows of control logic, and how many primes the first function has; with don't-cares, and how many it has then.
CONTROL = [
    ((10, 5, 30), 51, 79), ((14, 8, 50), 355, 307), ((20, 10, 60), 1083, 866), ((24, 16, 80), 9304, 11316),
    ((36, 24, 110), 115790, 77776), ((48, 17, 120), 779034, 1766589), ((60, 30, 160), 6896262, 27308719),
    ((94, 43, 200), 1.4e11, 6.7e11), ((83, 60, 250), 3.2e11, 8.3e11), ((128, 60, 400), 2.8e17, 1.5e17)]
DECODED_CONTROL = [((24, 16, 120), None), ((47, 40, 220), None), ((83, 60, 400), 3.6e10), ((128, 60, 600), 4.1e15)]
WIDE_CONTROL = [((24, 16, 120), 118000), ((47, 40, 220), None)]
LARGE_CONTROL = uncounted((83, 60, 500), (83, 60, 600), (128, 100, 1000), (256, 200, 2000), (512, 400, 4000), (1024, 800, 8000))

# Those of known files that are hard to minimise: misg, ibm, mish, x2dn, ti, jbp, soar and ex4.
KNOWN_CONTROL = [
    ((56, 23, 75), 263327), ((48, 17, 173), 4726571), ((94, 43, 91), 12567076), ((82, 56, 112), 20909756),
    ((47, 72, 241), 6.9e9), ((36, 57, 166), None), ((83, 94, 529), 3.1e17), ((128, 28, 620), 9.9e15)]


def of_style(style, **how):
    return lambda *shape, seed: control(*shape, seed=seed, style=style, **how)


def for_control():
    """Control logic. Each function is a pair of files: of many outputs, and the same rows in another order."""
    return [
        drawn_listings("control logic", "clusters of outputs, each with a window of the inputs and an opcode that most rows decode",
                       [*((shape, primes) for shape, primes, _ in CONTROL), *LARGE_CONTROL], of_style(SHARED), PLACES),
        drawn_listings("control logic with don't-cares", "the same, and three rows in twenty are of don't-cares",
                       [*((shape, primes) for shape, _, primes in CONTROL), *LARGE_CONTROL], of_style(SHARED, free=0.15), PLACES),
        drawn_listings("decoded control logic", "wider opcodes, fewer outputs a row",
                       [*DECODED_CONTROL, *uncounted((256, 100, 1200), (512, 200, 2400), (1024, 400, 4800))], of_style(DECODED), PLACES,
                       ends=FULL_INPUTS),
        drawn_listings("shapes of known files",
                       "as many inputs, outputs and rows as misg, ibm, mish, x2dn, ti, jbp, soar and ex4; the rows are drawn",
                       KNOWN_CONTROL, of_style(KNOWN), PLACES, first=11, grows=False),
        drawn_listings("widely shared control logic", "more inputs in common and few literals a row: many ways to meet",
                       [*WIDE_CONTROL, *uncounted((60, 50, 300), (83, 60, 400))], of_style(WIDE), PLACES),
        drawn_listings("samples of control logic", "type fr: rows of control logic that fix the inputs of a cluster; all else is free",
                       uncounted(*(shape for shape, *_ in CONTROL), (128, 60, 800)), samples, PROOF),
    ]


def part(name, told, sizes, make, shape, stops=NEEDED, **how):
    """A family of one function a size: `shape` tells inputs, outputs and rows, and `sizes` has the primes too, where they are known."""
    return Family(name, told, [listing_size(name, shape(*size), [lambda size=size: make(*size)], primes) for size, primes in sizes], stops, **how)


def for_parts():
    """Parts of data paths and wide tables, as pairs of files as well."""
    return [
        part("decoders", "a line for each number", [((bits,), 2 ** bits) for bits in range(3, 11)], decoder,
             lambda bits: (bits, 2 ** bits, 2 ** bits), ends=FULL_OUTPUTS),
        part("priority encoders", "the number of the first request, and whether there is one",
             [((4,), 9), ((8,), 27), ((16,), 81), ((32,), 243), ((64,), 729), ((128,), 2187), *uncounted((256,), (512,), (1024,))],
             first_request, lambda n: (n, (n - 1).bit_length() + 1, n), ends=FULL_INPUTS),
        part("grants", "groups of requests with an enable each: the first request of a group",
             [(size, (size[1] + 1) ** size[0] - 1) for size in ((2, 3), (4, 4), (6, 6), (8, 8), (12, 8), (16, 12), (24, 16), (32, 20), (40, 24))],
             grants, lambda n, size: (n * (size + 1), n * size, n * size), ends=FULL_INPUTS),
        part("selectors", "one of some words, by its address",
             [(size, 3 ** size[0] * (2 ** size[1] - 1)) for size in (
                 (1, 2), (2, 4), (3, 4), (4, 4), (3, 12), (2, 24), (4, 16), (5, 16), (6, 12), (6, 15))],
             selector, lambda address, bits: (2 ** address * bits + address, bits, 2 ** address * bits), ends=FULL_INPUTS),
        part("rotators", "a word, rotated by a number",
             [((4, 2), 69), ((8, 3), 2757), ((16, 3), 636357), ((16, 4), 1269957), *uncounted((32, 5), (64, 6), (128, 7), (256, 8))],
             lambda *size: shifter(*size, rotate=True), lambda bits, amount: (bits + amount, bits, bits * 2 ** amount)),
        drawn_operations(),
        part("joined rings", "rings of six points, each over three inputs of its own, in one output",
             [((count,), 6 * count) for count in (1, 2, 4, 8, 16, 32, 64, 128, 300, 341)], joined_rings,
             lambda count: (3 * count, 1, 6 * count), ends=FULL_INPUTS),
        *wide_families(),
    ]


def drawn_operations():
    """By bits of an opcode, status bits and lines; the primes are those of the first function."""
    sizes = (((3, 4, 16), 70), ((4, 6, 24), 139), ((5, 6, 28), 329), ((6, 8, 32), None), ((7, 8, 40), 1520), ((8, 8, 48), 2880),
             ((9, 8, 64), None), ((10, 8, 64), None), ((11, 8, 64), None), ((12, 8, 64), None))
    found = [listing_size("operation lines", (opcode + status + 2, lines, 3 * 2 ** opcode),
                          [lambda size=(opcode, status, lines), seed=seed: operation_lines(*size, seed=seed) for seed in range(1, DRAWS + 1)], primes)
             for (opcode, status, lines), primes in sizes]
    return Family("operation lines", f"decoded lines of an arithmetic unit, three steps an operation; {DRAWS} functions a size", found, NEEDED)


def wide_families():
    def rows_of(literals):
        return lambda *shape, seed: wide_rows(*shape, literals, seed)
    return [
        drawn_listings(f"wide rows, {literals} literals", "random literals, one to three outputs a row", uncounted(*shapes), rows_of(literals),
                       NEEDED)
        for literals, shapes in (
            (8, [(40, 30, 250), (40, 30, 500), (40, 30, 1000), (100, 50, 1000), (100, 50, 2000), (500, 100, 2000), (500, 100, 4000)]),
            (16, [(100, 50, 1000), (100, 50, 2000), (500, 100, 2000), (500, 100, 4000), (500, 100, 8000)]))
    ] + [
        drawn_listings(f"products of {inputs} inputs", "six random literals a product, one output",
                       uncounted(*((inputs, 1, count) for count in (50, 100, 200, 400, 800, 1600, 3200))), rows_of(6), stops)
        for inputs, stops in ((30, COLUMNS), (60, NEEDED))]


# Minimised files, beside their source.

# By their makers, the families whose answers are read again, and what they are called there.
MINIMISED = [
    (for_tables, {name: name for name in ("sums", "ones counted", "arithmetic units", "displays")}),
    (for_machines, {"state machines, type fd": "state machines, type fd"}),
    (for_samples, {"one output, 20 inputs, noise": "samples of 20 inputs, noise"}),
    (for_control, {"control logic with don't-cares": "control logic with don't-cares"}),
    (for_random, {"10 outputs, 15 % ones, 70 % free": "10 outputs, 15 % ones, 70 % free", "random cubes": "random cubes"}),
    (for_classics, {"classic functions": "classic functions"}),
]

# Those of them that are asked for a minute, which takes two at each size.
FOR_A_MINUTE = ("sums", "displays", "classic functions")


def source_alone(size):
    """The same size, each function as one file."""
    return Size(size.label, [lambda make=make: make()[:1] for make in size.files])


def for_minimised():
    """Some of the families above, each function as one file, whose answer is read again."""
    for makers, names in MINIMISED:
        for found in makers():
            if found.name in names:
                yield replace(found, name=names[found.name], sizes=[source_alone(size) for size in found.sizes],
                              minute=found.name in FOR_A_MINUTE)
