#!/usr/bin/env python3
"""Asks the built program alone for the largest files that `exact` answers within a minute, and writes docs/performance/minute.json.

usage: bench/minute.py PROGRAM [--limit SECONDS] [--minutes NUMBER] [--only WORD] [--jobs NUMBER] [--busy] [--write]

A family begins with its smallest size, and ends with the first of which a function is not answered within a minute (or the limit) and
4 GiB of memory. After 20 minutes, or those of --minutes, a size is asked for a second alone. --only runs the families that have the
word in their names, and --jobs so many at the same time, each on a processor of its own (three without it). With --busy seconds are
those of the processor, not of the clock. --write writes the file, of which bench/peers.py makes the first table of
docs/PERFORMANCE.md; with --only too, other families stay in it as they are.
"""
import argparse
import functools
import os
import resource
import sys
import time

sys.dont_write_bytecode = True

import results  # noqa: E402
from peers import comparisons, done, measured  # noqa: E402
from results import Run  # noqa: E402
from tools import JOBS, MEMORY, MINUTE, MINUTES, OPTIONS, build_of  # noqa: E402


def words():
    reader = argparse.ArgumentParser(usage=argparse.SUPPRESS)
    reader.add_argument("program", nargs="?")
    reader.add_argument("--limit", type=float, default=MINUTE)
    reader.add_argument("--minutes", type=float, default=MINUTES)
    reader.add_argument("--only", default="")
    reader.add_argument("--jobs", type=int, default=JOBS)
    reader.add_argument("--busy", action="store_true")
    reader.add_argument("--write", action="store_true")
    return reader.parse_args()


def main_tool(comparison):
    return next(tool for tool in comparison.tools if tool.main)


def asked(compared, only):
    """The families by names, with their comparison: those first that take longest, which have several functions a size."""
    found = [((comparison.name, family.name), comparison, family) for comparison in compared if comparison.is_exact
             for family in comparison.families if family.minute and only in f"{comparison.name}, {family.name}"]
    return sorted(found, key=lambda it: (it[2].grows, -len(it[2].sizes[-1].files)))


def run_all(compared, chosen):
    """The rows of the families by their names, in the order of the page."""
    found = asked(compared, chosen.only)
    until = time.monotonic() + 60 * chosen.minutes
    tasks = [functools.partial(measured, comparison, [main_tool(comparison)], family, chosen.limit, until) for _, comparison, family in found]
    rows = dict(zip((names for names, *_ in found), done(tasks, chosen.jobs)))
    return {(comparison.name, family.name): rows[comparison.name, family.name] for comparison in compared for family in comparison.families
            if rows.get((comparison.name, family.name))}


def main():
    chosen = words()
    if not chosen.program:
        sys.exit(__doc__)
    if chosen.write and chosen.busy:
        sys.exit("bench/minute.py: --write is for a run by the clock")
    OPTIONS["busy"] = chosen.busy
    resource.setrlimit(resource.RLIMIT_AS, (MEMORY, resource.getrlimit(resource.RLIMIT_AS)[1]))
    compared = comparisons(os.path.abspath(chosen.program))
    labels = {comparison.name: main_tool(comparison).label for comparison in compared}
    run = Run(chosen.limit, chosen.jobs, deadline=chosen.minutes, program=build_of(chosen.program))
    begin = time.monotonic()
    run.rows = run_all(compared, chosen)
    run.minutes = (time.monotonic() - begin) / 60
    if chosen.write:
        results.keep_minute(run, labels, with_others=bool(chosen.only))
    broken = [names for names, *_ in asked(compared, chosen.only) if names not in run.rows]
    strange = [f"{', '.join(names)}, {row.label}: ended with {total.why}" for names, rows in run.rows.items() for row in rows
               for total in row.totals.values() if total.why.startswith("status")]
    print(f"{run.minutes:.1f} minutes", *(f"{names} broke off" for names in broken), *strange, sep="\n")
    return 1 if broken or strange else 0


if __name__ == "__main__":
    sys.exit(main())
