"""Rows that are drawn by fixed seeds (random cubes, decision trees, points), the same places in other cubes, and files of rows."""
import itertools
import os
import random

DATA = os.path.join(os.path.dirname(os.path.abspath(__file__)), "data")


def put(path, lines):
    """Writes a file of these lines, which stands there only once it is whole."""
    part = f"{path}.{os.getpid()}.part"
    with open(part, "w") as out:
        out.writelines(line + "\n" for line in lines)
    os.rename(part, path)
    return path


def write(name, lines):
    """The path of a file of these lines, written once."""
    os.makedirs(DATA, exist_ok=True)
    path = os.path.join(DATA, name)
    return path if os.path.exists(path) else put(path, lines)


def rows_of(path):
    """The rows of a file."""
    with open(path) as file:
        return [line for line in file.read().splitlines() if line and line[0] in "01-"]


def count_rows(path):
    with open(path) as file:
        return sum(line[0] in "01-" for line in file)


def pla(inputs, outputs, rows):
    yield f".i {inputs}"
    yield f".o {outputs}"
    yield from rows
    yield ".e"


def random_rows(count, inputs, outputs, seed):
    """Rows of random symbols, each with an output."""
    chance = random.Random(seed)
    for _ in range(count):
        symbols = "".join(chance.choices("01-", k=inputs))
        bits = chance.randrange(1, 2 ** outputs)
        yield f"{symbols} {bits:0{outputs}b}"


def split_rows(cubes, count, seed):
    """The same places in more cubes: they are cut in two until there are so many."""
    chance = random.Random(seed)
    cubes = list(cubes)
    while len(cubes) < count:
        at = chance.randrange(len(cubes))
        free = [i for i, symbol in enumerate(cubes[at]) if symbol == "-"]
        if free:
            i = chance.choice(free)
            cube = cubes[at]
            cubes[at] = cube[:i] + "0" + cube[i + 1:]
            cubes.append(cube[:i] + "1" + cube[i + 1:])
    chance.shuffle(cubes)
    return cubes


def partition(leaves, inputs, seed):
    """The leaves of a random decision tree: cubes that split the whole space among them."""
    return split_rows(["-" * inputs], leaves, seed)


def short_cubes(count, inputs, literals, seed):
    """Random cubes of so many literals each."""
    chance = random.Random(seed)
    for _ in range(count):
        cube = ["-"] * inputs
        for i in chance.sample(range(inputs), literals):
            cube[i] = chance.choice("01")
        yield "".join(cube)


def halves(cube, chance):
    """The cube cut in two at a random input."""
    i = chance.choice([i for i, symbol in enumerate(cube) if symbol == "-"])
    return [cube[:i] + "0" + cube[i + 1:], cube[:i] + "1" + cube[i + 1:]]


def split_twice(cubes, chance):
    """Each cube cut into four."""
    return [part for cube in cubes for half in halves(cube, chance) for part in halves(half, chance)]


def consensus(one, other):
    """The consensus of two cubes with opposite literals at one input alone, or nothing."""
    if sum(a != b and "-" not in (a, b) for a, b in zip(one, other)) != 1:
        return []
    return ["".join(b if a == "-" else a if b in ("-", a) else "-" for a, b in zip(one, other))]


def consensus_cubes(cubes, count, chance):
    """So many consensus cubes of random pairs."""
    found = []
    while len(found) < count:
        found += consensus(*chance.sample(cubes, 2))
    return found


def with_literal_dropped(cubes, chance):
    """The cubes, one of them without one of its literals."""
    at = chance.randrange(len(cubes))
    i = chance.choice([i for i, symbol in enumerate(cubes[at]) if symbol != "-"])
    return cubes[:at] + [cubes[at][:i] + "-" + cubes[at][i + 1:]] + cubes[at + 1:]


def contained_rows(count, inputs, seed):
    """Random cubes, one in four of them cut out of an earlier one."""
    chance = random.Random(seed)
    cubes = []
    for _ in range(count):
        if cubes and chance.random() < 0.25:
            cube = list(chance.choice(cubes))
            for i in range(inputs):
                if cube[i] == "-" and chance.random() < 0.2:
                    cube[i] = chance.choice("01")
            cubes.append("".join(cube))
        else:
            cubes.append("".join(chance.choices("01-", weights=(3, 3, 4), k=inputs)))
    chance.shuffle(cubes)
    return [cube + " 1" for cube in cubes]


def products(inputs, count, symbol="1"):
    """All products of so many inputs, or of their negations."""
    for chosen in itertools.combinations(range(inputs), count):
        yield "".join(symbol if i in chosen else "-" for i in range(inputs))


def one_output(cubes):
    return (cube + " 1" for cube in cubes)


def rings(count):
    """Rings of six points side by side, each of six primes and no essential one: a selector of even parity picks the ring."""
    width = (count - 1).bit_length() + 1
    words = [f"{word:0{width}b}" for word in range(2 ** width) if bin(word).count("1") % 2 == 0]
    ring = ("000", "001", "010", "101", "110", "111")
    return width + 3, [f"{word}{point} 1" for word in words[:count] for point in ring]


def rings_side_by_side(count):
    """Rings of six points in one output, each over three inputs of its own, with six primes each."""
    ring = ("000", "001", "010", "101", "110", "111")
    for k in range(count):
        for point in ring:
            yield "-" * 3 * k + point + "-" * 3 * (count - 1 - k) + " 1"


def random_function(inputs, outputs, ones, dashes, seed):
    """Each output of each point is 1 or a don't-care, in these shares."""
    chance = random.Random(seed)
    for point in range(2 ** inputs):
        symbols = "".join("1" if share < ones else "-" if share < ones + dashes else "0"
                          for share in (chance.random() for _ in range(outputs)))
        if symbols.strip("0"):
            yield f"{point:0{inputs}b} {symbols}"


def random_points(inputs, on, free, seed):
    """Each point, with this chance to be in the ON-set and this chance to be in the DC-set."""
    chance = random.Random(seed)
    for point in range(2 ** inputs):
        drawn = chance.random()
        if drawn < on + free:
            yield f"{point:0{inputs}b} {'1' if drawn < on else '-'}"


def sparse_rows(count, inputs, outputs, dashes, seed):
    """Random cubes, of whose symbols this share are dashes."""
    chance = random.Random(seed)
    for _ in range(count):
        symbols = "".join("-" if chance.random() < dashes else chance.choice("01") for _ in range(inputs))
        bits = chance.randrange(1, 2 ** outputs)
        yield f"{symbols} {bits:0{outputs}b}"


def shuffled(rows, seed):
    rows = list(rows)
    random.Random(seed).shuffle(rows)
    return rows


def two_of(inputs):
    """At least two of the inputs are 1."""
    for i in range(inputs):
        for k in range(i):
            yield "".join("1" if at in (i, k) else "-" for at in range(inputs))
