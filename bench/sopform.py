#!/usr/bin/env python3
"""Prints the seconds of sympy's SOPform alone on a file of points with one output, and the rows of its sum of products.

usage: bench/sopform.py FILE
"""
import json
import sys
import time

sys.dont_write_bytecode = True

from rows import rows_of  # noqa: E402


def row_of(product, variables, kinds):
    """The row of a product of literals; `kinds` are sympy's And and Not."""
    conjunction, negation = kinds
    signs = {}
    for literal in product.args if isinstance(product, conjunction) else [product]:
        negated = isinstance(literal, negation)
        signs[literal.args[0] if negated else literal] = "0" if negated else "1"
    return "".join(signs.get(variable, "-") for variable in variables) + " 1"


def main():
    from sympy import symbols
    from sympy.logic import And, Not, Or, SOPform
    rows = [row.split() for row in rows_of(sys.argv[1])]
    variables = symbols(f"x:{len(rows[0][0])}")
    points = {wanted: [[int(symbol) for symbol in cube] for cube, bit in rows if bit == wanted] for wanted in "1-"}
    begin = time.perf_counter()
    form = SOPform(variables, points["1"], points["-"])
    seconds = time.perf_counter() - begin
    terms = form.args if isinstance(form, Or) else [form]
    json.dump({"seconds": seconds, "terms": sorted(row_of(term, variables, (And, Not)) for term in terms)}, sys.stdout)


if __name__ == "__main__":
    main()
