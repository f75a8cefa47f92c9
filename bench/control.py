"""Functions as they stand in control parts: many outputs, few products, and more primes than can be listed.

Where products of several outputs meet, each way to meet is a prime of its own. So primes multiply with the outputs, while
those that a least cover can have stay few. Each generator answers a Listing, the rows of a file, by a fixed seed; the
number of primes is given where it is known: by a formula, or counted with decision diagrams as by Coudert and Madre.
"""
import itertools
import random
from dataclasses import dataclass


@dataclass(frozen=True)
class Listing:
    """The rows of a file, its type, and how many primes the function has, where that is known."""
    inputs: int
    outputs: int
    rows: list
    kind: str = "f"
    primes: float = None

    @property
    def shape(self):
        return f"{self.inputs} / {self.outputs}"

    def head(self):
        return (f".type {self.kind}",)


def marks(count, marked, mark="1", other="0"):
    """The output part of a row: a mark at these outputs."""
    return "".join(mark if j in marked else other for j in range(count))


def cube(inputs, literals):
    """The input part of a row: these literals, by their inputs."""
    return "".join(literals.get(i, "-") for i in range(inputs))


# Control logic: clusters of outputs, each of which looks at a window of the inputs.

@dataclass(frozen=True)
class Style:
    """How control logic is drawn."""
    literals: tuple = (2, 6)       # of a row, beside its opcode: the least and the most
    raised: int = 3                # the most outputs that a row raises
    window: tuple = (5, 12)        # inputs that a cluster looks at: the least and the most
    group: int = 4                 # outputs of a cluster
    common: int = 2                # inputs that every cluster looks at
    opcode: int = 3                # inputs of a cluster that are decoded together
    decoded: float = 0.8           # the share of rows that have the whole opcode


SHARED = Style()
DECODED = Style(literals=(3, 7), raised=2, window=(8, 15), group=3, common=3, opcode=4, decoded=0.9)
KNOWN = Style(window=(8, 14), group=3, common=3, decoded=0.9)
WIDE = Style(literals=(1, 5), raised=4, window=(8, 15), group=5, common=4, opcode=2, decoded=0.7)


@dataclass(frozen=True)
class Cluster:
    inputs: list                   # those that it looks at
    opcode: list                   # those of them that are decoded together
    outputs: list

    def literals(self, style, chance):
        """The literals of a row: mostly the whole opcode, and some others."""
        decoded = self.opcode if chance.random() < style.decoded else []
        literals = {i: chance.choice("01") for i in decoded}
        others = [i for i in self.inputs if i not in literals]
        for i in chance.sample(others, min(len(others), chance.randint(*style.literals))):
            literals[i] = chance.choice("01")
        return literals

    def some_outputs(self, style, chance):
        return chance.sample(self.outputs, min(len(self.outputs), chance.randint(1, style.raised)))


def window(inputs, width, place, chance):
    """So many inputs, near a place that goes from 0, at the first ones, to 1, at the last."""
    start = int(place * max(0, inputs - width))
    near = list(range(max(0, start - 2), min(inputs, start + width + 2)))
    chance.shuffle(near)
    return near


def clusters(inputs, outputs, style, chance):
    """Neighbours share inputs, and some an output."""
    common = chance.sample(range(inputs), min(style.common, inputs))
    firsts = range(0, outputs, style.group)
    for k, first in enumerate(firsts):
        raised = list(range(first, min(outputs, first + style.group)))
        if k and chance.random() < 0.3:
            raised.append(first - 1)
        width = min(inputs, chance.randint(*style.window))
        near = window(inputs, width, k / max(1, len(firsts) - 1), chance)
        seen = sorted({*near[:max(1, width - len(common))], *common})
        yield Cluster(seen, chance.sample(seen, min(style.opcode, len(seen))), raised)


def control(inputs, outputs, count, seed=1, style=SHARED, free=0.0, primes=None):
    """Rows of control logic; this share of them is of don't-cares."""
    chance = random.Random(seed)
    found = list(clusters(inputs, outputs, style, chance))
    rows = []
    for cluster in itertools.islice(itertools.cycle(found), count):
        literals = cluster.literals(style, chance)
        mark = "-" if free and chance.random() < free else "1"
        rows.append(f"{cube(inputs, literals)} {marks(outputs, cluster.some_outputs(style, chance), mark)}")
    return Listing(inputs, outputs, rows, "fd" if free else "f", primes)


def hidden(cluster, chance):
    """For each output of a cluster some products, as literals."""
    def product():
        chosen = chance.sample(cluster.inputs, min(len(cluster.inputs), chance.randint(2, 4)))
        return {i: chance.choice("01") for i in chosen}
    return {j: [product() for _ in range(chance.randint(1, 4))] for j in cluster.outputs}


def samples(inputs, outputs, count, seed=1, style=SHARED):
    """Samples of control logic, of type fr: each row gives a cluster's inputs and what its outputs are there. Neighbours that
    share an output may say both of it."""
    chance = random.Random(seed)
    found = list(clusters(inputs, outputs, style, chance))
    known = [(cluster, hidden(cluster, chance)) for cluster in found]
    rows = []
    for cluster, products in itertools.islice(itertools.cycle(known), count):
        values = {i: chance.choice("01") for i in cluster.inputs}
        out = ["~"] * outputs
        for j in cluster.outputs:
            out[j] = "01"[any(product.items() <= values.items() for product in products[j])]
        rows.append(f"{cube(inputs, values)} {''.join(out)}")
    return Listing(inputs, outputs, rows, "fr")


# Parts of a data path.

def binary(number, inputs):
    """The literals of a number at these inputs, the lowest bit first."""
    return {i: "01"[number >> k & 1] for k, i in enumerate(inputs)}


def shifter(bits, amount, rotate=False, primes=None):
    """A word that is shifted or rotated by a number of so many bits."""
    chosen = range(bits, bits + amount)
    rows = [f"{cube(bits + amount, {(i + by) % bits: '1', **binary(by, chosen)})} {marks(bits, [i])}"
            for by in range(2 ** amount) for i in range(bits) if rotate or i + by < bits]
    return Listing(bits + amount, bits, rows, "f", primes)


def selector(address, bits):
    """One of 2^address words. A prime is a face of the addresses and some of the bits."""
    ways = 2 ** address
    chosen = range(ways * bits, ways * bits + address)
    rows = [f"{cube(ways * bits + address, {way * bits + j: '1', **binary(way, chosen)})} {marks(bits, [j])}"
            for way in range(ways) for j in range(bits)]
    return Listing(ways * bits + address, bits, rows, "f", 3 ** address * (2 ** bits - 1))


def grants(groups, size):
    """Groups of requests with an enable each: the first request of a group is granted. A prime grants in some groups."""
    inputs, outputs = groups * (size + 1), groups * size
    rows = []
    for group, place in itertools.product(range(groups), range(size)):
        first = group * (size + 1)
        literals = {first: "1", **{first + 1 + k: "0" for k in range(place)}, first + 1 + place: "1"}
        rows.append(f"{cube(inputs, literals)} {marks(outputs, [group * size + place])}")
    return Listing(inputs, outputs, rows, "f", (size + 1) ** groups - 1)


def first_request(requests, primes=None):
    """The number of the first request, and whether there is one."""
    bits = (requests - 1).bit_length()
    rows = [f"{'0' * i}1{'-' * (requests - 1 - i)} {i:0{bits}b}1" for i in range(requests)]
    return Listing(requests, bits + 1, rows, "f", primes)


def operation_lines(opcode, status, lines, seed=1, modes=2, primes=None):
    """The decoded lines of an arithmetic unit: each operation has three steps, under modes and status bits."""
    chance = random.Random(seed)
    inputs = opcode + modes + status
    rows = []
    for operation, _ in itertools.product(range(2 ** opcode), range(3)):
        literals = dict(enumerate(f"{operation:0{opcode}b}"))
        literals.update({opcode + k: chance.choice("01") for k in range(modes) if chance.random() < 0.5})
        asked = chance.sample(range(status), chance.randint(0, 2))
        literals.update({opcode + modes + k: chance.choice("01") for k in asked})
        rows.append(f"{cube(inputs, literals)} {marks(lines, chance.sample(range(lines), chance.randint(1, 6)))}")
    return Listing(inputs, lines, rows, "f", primes)


def joined_rings(count):
    """Rings of six points, each over three inputs of its own, joined in one output: six primes each, three in a least cover."""
    rows = [f"{'---' * k}{point}{'---' * (count - 1 - k)} 1"
            for k in range(count) for point in ("000", "001", "010", "101", "110", "111")]
    return Listing(3 * count, 1, rows, "f", 6 * count)
