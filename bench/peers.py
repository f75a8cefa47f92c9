#!/usr/bin/env python3
"""Runs the built program and other tools on the same files of families that grow, and prints their times side by side.

usage: bench/peers.py PROGRAM [--limit SECONDS] [--quick] [--only WORD] [--jobs NUMBER] [--busy] [--write]
       bench/peers.py --page

verify runs beside berkeley-abc's cec, tautology beside minisat and cadical, exact beside cbc and HiGHS (the size of a least
cover alone), for samples beside cadical (whether so many products are enough), and primes and exact of single outputs beside
sympy's SOPform. Their answers are compared too; the status is 1 where two differ. A tool that is not installed is left out, and
this is said. A tool is dropped from a family at the first size that it does not answer within the limit (5 seconds without
--limit) or in 4 GiB of memory; --quick stands for a limit of 2 seconds. --only runs the comparisons and families that have the
word in their names, and --jobs so many families at the same time, each on a processor of its own (three without it). With --busy
seconds are those of the processor, not of the clock, for a look on a machine that does other work. --write writes
docs/PERFORMANCE.md, the pictures and tables in docs/performance and the table in README.md, with what bench/minute.py found; --page
writes them anew from the last run with --write.

The files are written to bench/data by fixed seeds, once.
"""
import argparse
import functools
import math
import multiprocessing
import os
import resource
import sys
import tempfile
import time
import traceback
from dataclasses import dataclass, replace
from typing import Callable

sys.dont_write_bytecode = True

import exact_families  # noqa: E402
import families  # noqa: E402
import results  # noqa: E402
from results import Row, Run, Total  # noqa: E402
from rows import count_rows  # noqa: E402
from tools import (JOBS, LIMIT, MEMORY, OPTIONS, SECOND, Tool, again, against_source, build_of, cbc, cec, highs, installed,  # noqa: E402
                   once, own, printed_rows, products_enough, sopform, tautology_by, yes_or_no)


@dataclass(frozen=True)
class Comparison:
    """`agree` looks at the answers of all tools to a function, by label; it has the paths of its files and its size too."""
    name: str
    title: str
    tools: list
    families: list
    agree: Callable
    shown: Callable                # the answers of all functions of a size in a few words
    counted: str                   # what these words are
    told: str                      # what was compared, for the page
    is_exact: bool = True          # it is about `exact`, whose largest sizes stand at the head of the page
    picture: str = "rows"          # what its pictures count across; none where it is empty
    unseen: str = ""               # the tool that they leave out


# Whether answers agree.

def equal(answers, paths, size):
    return len(set(answers.values())) == 1


def count_of(answer):
    return answer if isinstance(answer, int) else len(answer)


def same_size(answers, paths, size):
    """One size, that which is printed elsewhere if there is one; one cover where there are two; and all of primes."""
    primes = answers.pop("primes", None)
    covers = {answer for answer in answers.values() if not isinstance(answer, int)}
    counts = {count_of(answer) for answer in answers.values()} | ({size.least} if size.least else set())
    return len(counts) <= 1 and len(covers) <= 1 and (primes is None or all(set(cover) <= set(primes) for cover in covers))


def same_terms(program, answers, paths, size):
    """The least cover and SOPform's are primes, those are the file's function, and the least is no longer."""
    primes, least, terms = (answers.get(label) for label in ("primes", "exact", "SOPform"))
    if primes is not None and not set(least or []) | set(terms or []) <= set(primes):
        return False
    if least is not None and terms is not None and len(least) > len(terms):
        return False
    return all(is_same_function(program, paths[0], rows) for rows in (least, terms) if rows is not None)


def same_minimised(answers, paths, size):
    """The answer is the file's function, and has as many rows when it is read again; the same rows, where nothing is free."""
    found = {answers[label] for label in ("source", "minimised") if label in answers}
    return answers.get("verify", True) and len(set(map(len, found))) <= 1 and (len(found) <= 1 or has_free_places(paths[0]))


def has_free_places(path):
    """Whether a file has don't-cares, by its rows or its type."""
    with open(path) as file:
        return any(line.startswith(".type fr") or (line[0] in "01-" and "-" in line.split()[1]) for line in file)


def is_same_function(program, path, rows):
    """Whether these rows, as a file of the same shape, are the file's function, or that is not known in time."""
    with open(path) as given, tempfile.NamedTemporaryFile("w", suffix=".pla") as file:
        file.writelines([given.readline(), given.readline(), *(row + "\n" for row in rows), ".e\n"])
        file.flush()
        return once([program, "-Dverify", path, file.name], 60)[1] in (0, None)


def literals(rows):
    """How many literals the rows have in their input parts."""
    return sum(symbol in "01" for row in rows for symbol in row.split()[0])


def same_logic(program, answers, paths, size):
    """As many primes as are known. The covers are the file's function and equally long, no one has fewer literals than that
    of the fewest, and all hold the essential primes. The file in another order is the same function."""
    primes, essential = answers.get("primes"), set(answers.get("essen", []))
    covers = [answers[label] for label in ("exact", "literals") if label in answers]
    return (answers.get("verify", True)
            and (primes is None or size.primes in (None, len(primes)))
            and len({len(rows) for rows in covers}) <= 1
            and all(literals(covers[-1]) <= literals(rows) for rows in covers)
            and all(essential <= set(rows) and is_same_function(program, paths[0], rows) for rows in covers))


def words_for(yes, no):
    """The answer, or how often each stands."""
    def told(of_each):
        counts = [(word, sum(answer is wanted for answer in of_each)) for word, wanted in ((yes, True), (no, False))]
        kept = [(word, count) for word, count in counts if count]
        return ", ".join(word if len(kept) == 1 else f"{word} {count}" for word, count in kept)
    return lambda answers: next(map(told, answers.values()), "")


def sizes_shown(*labels):
    def in_sum(of_each):
        return "–" if of_each is None else str(sum(map(count_of, of_each)))
    return lambda answers: " / ".join(in_sum(answers.get(label)) for label in labels)


# The comparisons.

def run_own(program, command, read, limit, paths, first=False):
    return own(program, command, read, limit, paths[:1] if first else paths)


def command(program, label, words, read=printed_rows, first=False, main=False, files="A"):
    return Tool(label, functools.partial(run_own, program, words, read, first=first), told=f"espresso -D{words} {files}", main=main)


def solvers(program):
    return [Tool("cbc", functools.partial(cbc, program), "cbc", "cbc A.mps solve", ("cbc", "quit")),
            Tool("HiGHS", functools.partial(highs, program), "scipy", "scipy.optimize.milp(ones, integrality=ones, ..)")]


def beside_solvers(program):
    """Comparisons of `exact` with solvers of integer programmes."""
    primes, exact = command(program, "primes", "primes"), command(program, "exact", "exact", main=True)
    shown = sizes_shown("exact", "cbc", "HiGHS")

    def compared(name, found, told, **how):
        return Comparison(name, name, [primes, exact, *solvers(program)], found, same_size, shown, "Terms: exact / cbc / HiGHS",
                          told, unseen="primes", **how)
    return [
        compared("tables of truth", exact_families.for_tables(), "A row for each point at which an output is 1."),
        compared("state machines", exact_families.for_machines(),
                 "Next states and outputs, of encoded states. Under fd rows say that codes which no state has are don't-cares; under fr "
                 "what no row says is.", picture=""),
        compared("random functions", exact_families.for_random(), "Shares of ones and of don't-cares (*free*), from sparse to dense."),
        compared("classic functions", exact_families.for_classics(),
                 "Functions that two-level minimisation has long been measured by, as tables of truth.", picture=""),
    ]


def minimised_files(program):
    """`exact` on its own answers."""
    tools = [command(program, "source", "exact"),
             Tool("minimised", functools.partial(again, program), told="espresso -Dexact B, where B is the answer for A", main=True),
             Tool("verify", functools.partial(against_source, program), told="espresso -Dverify A B")]
    return Comparison(
        "minimised files", "minimised files beside their source", tools, list(exact_families.for_minimised()), same_minimised,
        sizes_shown("source", "minimised"), "Terms: source / minimised",
        "*source* is `exact` on a file, *minimised* `exact` on its answer, and *verify* compares the two. Where the file has no don't-cares the "
        "answers are the same; where it has, the minimised file fixes them, and its answer has as many rows.", unseen="verify")


def beside_satisfiability(program):
    """Comparisons with SAT solvers, of samples and of tautologies."""
    return [
        Comparison(
            "samples", "samples",
            [command(program, "exact", "exact", main=True),
             Tool("cadical", functools.partial(products_enough, program), "cadical", "cadical -q A.cnf", ("cadical", "--version"))],
            exact_families.for_samples(), same_size, sizes_shown("exact", "cadical"), "Terms: exact / cadical",
            "Type fr: rows are points, and everything else is free. cadical is asked whether so many products agree with the samples, "
            "for the size of a least cover and for one less; its time is that of both questions, without making the clauses. It finds "
            "the size alone; the clauses put the products in the order of the samples that they are chosen for."),
        Comparison(
            "tautology", "tautology beside minisat and cadical",
            [command(program, "espresso", "tautology", yes_or_no, main=True),
             Tool("minisat", functools.partial(tautology_by, ("minisat", "-verb=0")), "minisat", "minisat -verb=0 A.cnf", ("minisat", "--help")),
             Tool("cadical", functools.partial(tautology_by, ("cadical", "-q")), "cadical", "cadical -q A.cnf", ("cadical", "--version"))],
            families.for_tautology(), equal, words_for("yes", "no"), "Answer",
            "The solvers are given the cover's negation, a clause for each cube; it has no solution if the cover is a "
            "tautology. Making the clauses does not count as their time.", is_exact=False),
    ]


def other_comparisons(program):
    return [
        Comparison(
            "verify", "verify beside berkeley-abc's cec",
            [command(program, "espresso", "verify", yes_or_no, main=True, files="A B"),
             Tool("cec", cec, "berkeley-abc", 'berkeley-abc -q "cec -n -T 1000000 -C 1000000000 A B"', ("berkeley-abc", "-q", "quit"))],
            families.for_verify(), equal, words_for("the same", "not the same"), "Answer",
            "Both read the two files and say whether they are the same function. The rows are those of both files.", is_exact=False),
        Comparison(
            "one output", "primes and exact of one output beside sympy",
            [command(program, "primes", "primes"), command(program, "exact", "exact", main=True),
             Tool("SOPform", sopform, "sympy", "SOPform(variables, minterms, dontcares)")],
            families.for_single_outputs(), functools.partial(same_terms, program),
            sizes_shown("primes", "exact", "SOPform"), "Primes / exact / SOPform",
            "SOPform finds the primes and chooses some that cover, not always the fewest. Its time is that of the call "
            "alone, without Python's start and the making of its arguments; its terms have to be primes and the same "
            "function.", is_exact=False),
    ]


def side_by_side(program):
    """What no other tool is run beside: the commands on functions of many outputs."""
    def compared(name, found, told, picture):
        tools = [command(program, "primes", "primes", first=True), command(program, "exact", "exact", first=True, main=True),
                 command(program, "literals", "exact --literals", first=True), command(program, "essen", "essen", first=True),
                 command(program, "verify", "verify", yes_or_no, files="A B")]
        return Comparison(name, name, tools, found, functools.partial(same_logic, program), sizes_shown("exact", "essen"),
                          "Least / essential", told, picture=picture, unseen="verify")
    told = ("*literals* is `exact --literals`, and `verify` compares the file with its rows in another order. The primes are those of the first "
            "function of a size, counted with decision diagrams or by a formula where that could be done; `primes` finds as many.")
    return [
        compared("control logic", exact_families.for_control(),
                 "Functions of many outputs, like control parts. Where products of several outputs meet, each way to meet is a prime: "
                 "the number of primes grows by a factor with each output, and the number of products that a least cover can have "
                 f"does not. `exact` and `essen` do not list the primes; `primes` does. {told}", "primes"),
        compared("parts and wide rows", exact_families.for_parts(),
                 f"Parts of data paths, of many outputs as well, and tables of many wide rows. {told}", "rows"),
    ]


def comparisons(program):
    """In the order of the page."""
    samples, tautology = beside_satisfiability(program)
    verify, one_output = other_comparisons(program)
    solved = beside_solvers(program)
    return [*solved[:2], samples, *side_by_side(program), *solved[2:], minimised_files(program), one_output, verify, tautology]


# Measuring.

def seconds_told(total):
    return "no answer" if total.seconds is None else f"{total.seconds:.3f} s"


def total_of(tool, limit, files):
    """What the tool took for functions, given by the paths of their files, and its answers; None where it cannot be asked of one.
    After the first that it does not answer it is not asked any more."""
    found = []
    for paths in files:
        found.append(tool.run(limit, paths))
        if found[-1] is None:
            return None
        if found[-1].seconds is None:
            return Total(bounds=found[-1].bounds, why=found[-1].why), None
    times = [outcome.seconds for outcome in found]
    return Total(sum(times), max(times)), [outcome.answer for outcome in found]


def agreement(comparison, answers, files, size):
    """Whether the tools' answers of each function agree; None where fewer than two told them."""
    if len(answers) + bool(size.least) < 2 or not answers:
        return None
    return all(comparison.agree({label: of_each[k] for label, of_each in answers.items()}, paths, replace(size, primes=None) if k else size)
               for k, paths in enumerate(files))


def measured_size(comparison, tools, size, limit):
    """A row of what the tools took for a size."""
    files = [make() for make in size.files]
    found = {tool.label: total_of(tool, limit, files) for tool in tools}
    totals = {label: pair[0] for label, pair in found.items() if pair}
    answers = {label: pair[1] for label, pair in found.items() if pair and pair[1]}
    rows = sum(count_rows(path) for paths in files for path in (paths[:1] if size.shape else paths))
    primes = len(answers["primes"][0]) if "primes" in answers else size.primes
    return Row(size.label, rows, totals, agreement(comparison, answers, files, size), comparison.shown(answers), size.shape, primes,
               len(files))


def measured(comparison, tools, family, limit, until=math.inf):
    """The rows of a family, until no tool is left that answers in time; beside other tools, none of theirs and not our main one.
    After the clock's time `until` a size is asked for a second alone, and left out where nobody answers."""
    found = []
    running = list(tools)
    are_alone = not any(tool.needs for tool in tools)
    for size in family.sizes:
        is_late = time.monotonic() > until
        row = measured_size(comparison, running, size, min(limit, SECOND) if is_late else limit)
        if is_late and all(total.seconds is None for total in row.totals.values()):
            break
        found.append(row)
        told = ", ".join(f"{label} {seconds_told(total)}" for label, total in row.totals.items())
        differ = ": THE ANSWERS DIFFER" if row.agree is False else ""
        print(f"{comparison.name}, {family.name}, {size.label}: {told}, terms {row.shown}{differ}", flush=True)
        if family.grows:
            running = [tool for tool in running if tool.label in row.totals and row.totals[tool.label].seconds is not None]
        if not any(are_alone or tool.main or tool.needs for tool in running):
            break
    own.cache_clear()
    return found


TASKS = []                         # what the processes of `done` run, by number


def run_task(number):
    """What the task answers; nothing where it breaks off, so that the others are kept."""
    try:
        return TASKS[number]()
    except Exception:
        traceback.print_exc()
        return None


def settle(processors):
    """Puts a process on a processor of its own, for itself and its children; on a busy machine on any."""
    if not OPTIONS["busy"]:
        os.sched_setaffinity(0, {processors.get()})


def done(tasks, jobs):
    """What the tasks answer, so many of them running at a time, each on a processor of its own."""
    TASKS[:] = tasks
    context = multiprocessing.get_context("fork")
    processors = context.SimpleQueue()
    for processor in sorted(os.sched_getaffinity(0), reverse=True) * jobs:
        processors.put(processor)
    with context.Pool(jobs, settle, (processors,)) as pool:
        return pool.map(run_task, range(len(tasks)), chunksize=1)


def run_all(compared, limit, only, jobs):
    """The rows of all families that have the word in their names, by the names of comparison and family; and those that broke off."""
    tasks = {}
    for comparison in compared:
        kept = [family for family in comparison.families if only in f"{comparison.name}, {family.name}"]
        tools = [tool for tool in comparison.tools if kept and installed(tool)]
        for family in kept:
            tasks[comparison.name, family.name] = functools.partial(measured, comparison, tools, family, limit)
    found = dict(zip(tasks, done(list(tasks.values()), jobs)))
    return {name: rows for name, rows in found.items() if rows}, [name for name, rows in found.items() if not rows]


def words():
    reader = argparse.ArgumentParser(usage=argparse.SUPPRESS)
    reader.add_argument("program", nargs="?")
    reader.add_argument("--limit", type=float, default=LIMIT)
    reader.add_argument("--quick", action="store_true")
    reader.add_argument("--only", default="")
    reader.add_argument("--jobs", type=int, default=JOBS)
    reader.add_argument("--busy", action="store_true")
    reader.add_argument("--write", action="store_true")
    reader.add_argument("--page", action="store_true")
    return reader.parse_args()


def write_page(run):
    import page
    page.write(comparisons(""), run)


def main():
    chosen = words()
    if chosen.page:
        return write_page(results.kept())
    if not chosen.program:
        sys.exit(__doc__)
    if chosen.write and (chosen.only or chosen.busy):
        sys.exit("bench/peers.py: --write is for a run of all families, by the clock")
    OPTIONS["busy"] = chosen.busy
    run = Run(2.0 if chosen.quick else chosen.limit, chosen.jobs, program=build_of(chosen.program))
    resource.setrlimit(resource.RLIMIT_AS, (MEMORY, resource.getrlimit(resource.RLIMIT_AS)[1]))
    begin = time.monotonic()
    run.rows, broken = run_all(comparisons(os.path.abspath(chosen.program)), run.limit, chosen.only, chosen.jobs)
    run.minutes = (time.monotonic() - begin) / 60
    if chosen.write:
        import page
        run.facts = page.facts(comparisons(""))
        results.keep(run)
        write_page(run)
    differing = sum(row.agree is False for rows in run.rows.values() for row in rows)
    print(f"{differing} answers differ; {run.minutes:.1f} minutes", *(f"{name} broke off" for name in broken), sep="\n")
    return 1 if differing or broken else 0


if __name__ == "__main__":
    sys.exit(main())
