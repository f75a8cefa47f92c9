"""Functions that arithmetic defines, by their inputs, their outputs and their value at given input bits, as a number."""
import itertools
from dataclasses import dataclass


@dataclass(frozen=True)
class Classic:
    """A function that two-level minimisation has long been measured by, and how many rows a least cover has, as printed."""
    name: str
    told: str
    function: tuple
    least: int


def function_rows(inputs, outputs, value):
    """A row for each point at which some output is 1; `value` gives the outputs of the input bits as a number."""
    for point, bits in enumerate(itertools.product((0, 1), repeat=inputs)):
        out = value(bits)
        if out:
            yield f"{point:0{inputs}b} {out:0{outputs}b}"


def joined(inputs, outputs, value):
    """The same places in other cubes: those of each output alone, and where two differ at one input they are put
    together, an input at a time."""
    points = list(itertools.product((0, 1), repeat=inputs))
    values = [value(point) for point in points]
    for j in range(outputs):
        found = {"".join(map(str, point)) for point, bits in zip(points, values) if bits >> (outputs - 1 - j) & 1}
        for i in range(inputs):
            kept = set()
            for cube in found:
                other = cube[:i] + ("1" if cube[i] == "0" else "0") + cube[i + 1:]
                kept.add(cube[:i] + "-" + cube[i + 1:] if other in found else cube)
            found = kept
        yield from (f"{cube} {1 << (outputs - 1 - j):0{outputs}b}" for cube in sorted(found))


def number(bits):
    return int("".join(map(str, bits)), 2) if bits else 0


def output_of(function, which):
    """One output of a function, counted from the last."""
    inputs, _, value = function
    return inputs, 1, lambda bits: value(bits) >> which & 1


# Numbers.

def adder(width):
    """Two numbers of `width` bits added: the sum has a bit more."""
    return 2 * width, width + 1, lambda bits: number(bits[:width]) + number(bits[width:])


def multiplier(width):
    return 2 * width, 2 * width, lambda bits: number(bits[:width]) * number(bits[width:])


def square(inputs):
    return inputs, 2 * inputs, lambda bits: number(bits) ** 2


def comparison(width):
    """Whether one number of `width` bits is above another, equal to it, or below it."""
    def value(bits):
        one, other = number(bits[:width]), number(bits[width:])
        return 4 if one > other else 2 if one == other else 1
    return 2 * width, 3, value


def arithmetic_unit(width):
    """By an operation of two bits, the sum of two numbers, their difference, what both have, or what one has."""
    def value(bits):
        operation, one, other = number(bits[:2]), number(bits[2:2 + width]), number(bits[2 + width:])
        return (one + other, (one - other) % 2 ** (width + 1), one & other, one ^ other)[operation]
    return 2 + 2 * width, width + 1, value


SEGMENTS = (0x7E, 0x30, 0x6D, 0x79, 0x33, 0x5B, 0x5F, 0x70, 0x7F, 0x7B)


def sensor_display(width):
    """The seven segments of a digit for each of two sensors of `width` bits."""
    def value(bits):
        one, other = (SEGMENTS[min(9, number(part) * 10 // 2 ** width)] for part in (bits[:width], bits[width:]))
        return one << 7 | other
    return 2 * width, 14, value


# Bits.

def leading_noughts(inputs):
    """How many of the first inputs are 0."""
    return inputs, inputs.bit_length(), lambda bits: bits.index(1) if 1 in bits else inputs


def count_of_ones(inputs):
    return inputs, inputs.bit_length(), sum


def parity(inputs):
    return inputs, 1, lambda bits: sum(bits) % 2


def ones_within(inputs, low, high):
    """1 where the number of ones is in the range."""
    return inputs, 1, lambda bits: int(low <= sum(bits) <= high)


def middle_ones(inputs):
    """1 where about the middle third of the inputs is 1."""
    return ones_within(inputs, inputs // 3, (2 * inputs + 2) // 3)


def life(bits):
    """The next state of the first cell of nine, by the number of its living neighbours."""
    alive = sum(bits[1:])
    return int(alive == 3 or (bits[0] == 1 and alive == 2))


def high_square(bits):
    """The square of five bits without its last two, which are 0 and the first bit of the number."""
    return number(bits) ** 2 >> 2


CLASSICS = [
    Classic("xor5", "the parity of five bits", parity(5), 16),
    Classic("squar5", "the square of five bits, without its last two bits", (5, 8, high_square), 25),
    Classic("rd53", "the ones of five bits, counted", count_of_ones(5), 31),
    Classic("sqr6", "the square of six bits", square(6), 47),
    Classic("z4ml", "two numbers of three bits and a carry, added",
            (7, 4, lambda bits: number(bits[:3]) + number(bits[3:6]) + bits[6]), 59),
    Classic("adr4", "two numbers of four bits, added", adder(4), 75),
    Classic("life", "the next state of a cell of the game of life", (9, 1, life), 84),
    Classic("9sym", "three to six of nine bits are 1", ones_within(9, 3, 6), 84),
    Classic("mlp4", "two numbers of four bits, multiplied", multiplier(4), 121),
    Classic("rd73", "the ones of seven bits, counted", count_of_ones(7), 127),
    Classic("sym10", "two to six of ten bits are 1", ones_within(10, 2, 6), 210),
    Classic("rd84", "the ones of eight bits, counted", count_of_ones(8), 255),
    Classic("add6", "two numbers of six bits, added", adder(6), 355),
]
