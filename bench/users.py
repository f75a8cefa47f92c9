"""Files as users of such a program write them: state machines, samples, wide tables of rows, decoders.

All is drawn by fixed seeds. What stands in the data path of a control part is in control.py.
"""
import random
from dataclasses import dataclass

from control import Listing, cube


# State machines.

@dataclass(frozen=True)
class Machine:
    """The shape of a state machine: its inputs, outputs and states, and about how many rows a state has."""
    name: str
    inputs: int
    outputs: int
    states: int
    rows: float

    @property
    def bits(self):
        return max(1, (self.states - 1).bit_length())

    def label(self):
        return f"{self.name}: {self.states} states, {self.inputs} inputs, {self.outputs} outputs"


# The shapes of machines that state encoders are measured by, by about their rows.
MACHINES = [Machine(*shape) for shape in (
    ("mark1", 5, 16, 15, 1.5), ("opus", 5, 6, 10, 2), ("dk14", 3, 5, 7, 8), ("tma", 7, 6, 20, 2), ("bbsse", 7, 7, 16, 3),
    ("planet", 7, 19, 48, 2), ("s1", 8, 6, 20, 5), ("ex1", 9, 19, 20, 7), ("cse", 7, 7, 16, 6), ("dk16", 2, 3, 27, 4),
    ("styr", 9, 10, 30, 5), ("keyb", 7, 2, 19, 9), ("scf", 27, 56, 121, 1.4), ("sand", 11, 9, 32, 6), ("kirkman", 12, 6, 16, 20),
    ("tbk", 6, 3, 32, 16), ("s298", 3, 6, 218, 5))]


def cut(inputs, count, chance):
    """About so many cubes that split the inputs of a state among them, mostly by the first of them."""
    cubes = ["-" * inputs]
    while len(cubes) < count:
        parted = cubes.pop(chance.randrange(len(cubes)))
        free = [i for i in range(inputs) if parted[i] == "-"]
        if not free:
            return [*cubes, parted]
        i = chance.choice(free[:max(3, len(free) // 3)] if chance.random() < 0.6 else free)
        cubes += [parted[:i] + bit + parted[i + 1:] for bit in "01"]
    return cubes


def codes_of(machine, chance, seed):
    """A code for each state: any ones under odd seeds, and the first ones under even seeds."""
    return chance.sample(range(2 ** machine.bits), machine.states) if seed % 2 else list(range(machine.states))


def steps(machine, codes, chance):
    """The rows of each state: it stays, goes on, or goes to one of a few, and mostly puts out what is common in it."""
    states = machine.states
    favourites = [chance.randrange(states) for _ in range(max(2, states // 4))]
    words = ["".join(chance.choice("0001") for _ in range(machine.outputs)) for _ in range(max(3, states // 3))]
    for state in range(states):
        count = int(machine.rows) + (chance.random() < machine.rows % 1)
        home = chance.choice(words)
        for inputs in cut(machine.inputs, max(1, count), chance):
            target = chance.choice([state, (state + 1) % states, chance.choice(favourites), chance.randrange(states)])
            word = home if chance.random() < 0.6 else chance.choice(words)
            told = "".join("-" if chance.random() < 0.05 else bit for bit in word)
            yield f"{inputs}{codes[state]:0{machine.bits}b} {codes[target]:0{machine.bits}b}{told}"


def unused(machine, codes):
    """A row of don't-cares for each code that no state has."""
    for code in sorted(set(range(2 ** machine.bits)) - set(codes)):
        yield f"{'-' * machine.inputs}{code:0{machine.bits}b} {'-' * (machine.bits + machine.outputs)}"


def state_machine(machine, seed, kind):
    """Outputs that a row leaves open are don't-cares; so are the codes that no state has, under fd as rows say, under fr
    since no row says anything of them."""
    chance = random.Random(f"{machine.name}{seed}")
    codes = codes_of(machine, chance, seed)
    rows = list(steps(machine, codes, chance))
    if kind == "fd":
        rows += unused(machine, codes)
    return Listing(machine.inputs + machine.bits, machine.bits + machine.outputs, rows, kind)


# Samples.

def rule(inputs, chance):
    """A hidden rule: four products of three literals."""
    return [{i: chance.choice("01") for i in chance.sample(range(inputs), min(3, inputs))} for _ in range(4)]


def holds(products, point):
    return any(all(point[i] == symbol for i, symbol in product.items()) for product in products)


def ruled_samples(inputs, outputs, count, noise, seed):
    """Random points, and what a hidden rule of each output says of them; in this share of cases the opposite. Type fr."""
    chance = random.Random(seed)
    rules = [rule(inputs, chance) for _ in range(outputs)]
    points = {}
    while len(points) < count:
        point = "".join(chance.choice("01") for _ in range(inputs))
        if point not in points:
            points[point] = "".join("01"[holds(products, point) != (chance.random() < noise)] for products in rules)
    return Listing(inputs, outputs, [f"{point} {told}" for point, told in points.items()], "fr")


# Wide tables.

def wide_rows(inputs, outputs, count, literals, seed=1):
    """Rows of so many random literals, that raise one to three outputs."""
    chance = random.Random(seed)
    rows = []
    for _ in range(count):
        chosen = {i: chance.choice("01") for i in chance.sample(range(inputs), literals)}
        raised = chance.sample(range(outputs), min(outputs, chance.randint(1, 3)))
        rows.append(f"{cube(inputs, chosen)} {''.join('01'[j in raised] for j in range(outputs))}")
    return Listing(inputs, outputs, rows)


def decoder(bits):
    """A line for each number of so many bits. No two rows meet, so they are the primes."""
    rows = [f"{number:0{bits}b} {1 << number:0{2 ** bits}b}" for number in range(2 ** bits)]
    return Listing(bits, 2 ** bits, rows, "f", 2 ** bits)
