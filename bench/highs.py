#!/usr/bin/python3
"""Solves a covering table with HiGHS, by scipy.optimize.milp, and prints the seconds of the call alone and what was found.

usage: bench/highs.py TABLE SECONDS [--busy]

The first line of TABLE is the number of columns; the others are the columns of each row. It prints an object with `seconds`,
`size` (of a least cover, if the call ended), `low` and `high` (bounds on that size, if it did not). With --busy seconds are those
of the processor.
"""
import json
import math
import sys
import time


def solved(columns, rows, limit, clock):
    import numpy
    from scipy.optimize import Bounds, LinearConstraint, milp
    from scipy.sparse import csr_matrix
    places = [(i, j) for i, row in enumerate(rows) for j in row]
    matrix = csr_matrix((numpy.ones(len(places)), tuple(zip(*places))), shape=(len(rows), columns))
    begin = clock()
    found = milp(numpy.ones(columns), integrality=numpy.ones(columns), bounds=Bounds(0, 1),
                 constraints=LinearConstraint(matrix, 1, numpy.inf), options={"time_limit": limit, "mip_rel_gap": 0})
    return clock() - begin, found


def main():
    with open(sys.argv[1]) as file:
        columns, *rows = file.read().splitlines()
    limit, clock = float(sys.argv[2]), time.perf_counter
    if "--busy" in sys.argv:
        limit, clock = 20 * limit, time.process_time
    seconds, found = solved(int(columns), [list(map(int, row.split())) for row in rows], limit, clock)
    size = round(found.fun) if found.status == 0 else None
    low = None if found.mip_dual_bound is None else math.ceil(found.mip_dual_bound - 1e-6)
    high = None if found.fun is None else round(found.fun)
    json.dump({"seconds": seconds, "size": size, "low": low, "high": high}, sys.stdout)


if __name__ == "__main__":
    main()
