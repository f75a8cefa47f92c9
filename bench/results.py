"""What runs found: that of peers.py, kept so that the page can be written anew, and that of minute.py, which stands beside the page."""
import json
import os
import pickle
from dataclasses import dataclass, field

from rows import DATA

KEPT = os.path.join(DATA, "run.pickle")
MINUTE = os.path.join(os.path.dirname(os.path.dirname(os.path.abspath(__file__))), "docs/performance/minute.json")


@dataclass(frozen=True)
class Total:
    """What a tool took for all functions of a size: the sum, and the longest; neither where it left one unanswered. Of that one
    it is told why, and it may have told bounds instead."""
    seconds: float = None
    longest: float = None
    bounds: tuple = None
    why: str = ""


@dataclass
class Row:
    """One size of a family: the rows of its files, the total of each tool by label, whether the answers agree (None where
    fewer than two were given), the answers in words, of functions of many outputs their shape and the primes of the first, and how
    many functions it has."""
    label: str
    rows: int
    totals: dict
    agree: object
    shown: str
    shape: str = ""
    primes: float = None
    functions: int = 1


@dataclass
class Run:
    """The rows of all families, by the names of their comparison and their own, and how they were found. `program` tells the builds
    of the program apart; after `deadline` minutes sizes were asked for a second alone."""
    limit: float
    jobs: int
    minutes: float = 0
    deadline: float = 0
    facts: dict = field(default_factory=dict)
    rows: dict = field(default_factory=dict)
    program: str = ""


def keep(run):
    with open(KEPT, "wb") as out:
        pickle.dump(run, out)


def kept():
    with open(KEPT, "rb") as file:
        return pickle.load(file)


# The run of minute.py: of each size its name, the longest seconds of a function, and why there is no answer.

def keep_minute(run, labels, with_others=False):
    """Writes the run, a line for each family; `labels` name the tool of each comparison. Families that were not asked may stay."""
    def told(name, rows):
        totals = [(row.label, row.totals[labels[name[0]]]) for row in rows]
        return [[size, total.longest and round(total.longest, 4), total.why] for size, total in totals]
    found = {": ".join(name): told(name, rows) for name, rows in run.rows.items()}
    head = {"limit": run.limit, "jobs": run.jobs, "minutes": round(run.minutes, 1), "deadline": run.deadline, "program": run.program}
    if with_others and os.path.exists(MINUTE):
        with open(MINUTE) as file:
            before = json.load(file)
        head |= {name: before[name] for name in ("minutes", "deadline")}
        found = {name: found.get(name, sizes) for name, sizes in before.items() if name not in head} | found
    with open(MINUTE, "w") as out:
        out.write("{\n" + ",\n".join(f"{json.dumps(name, ensure_ascii=False)}: {json.dumps(value, ensure_ascii=False)}"
                                     for name, value in (head | found).items()) + "\n}\n")


def kept_minute(labels):
    """The run of minute.py, with rows as those of peers.py; one without rows where none is kept."""
    if not os.path.exists(MINUTE):
        return Run(60, 1)
    with open(MINUTE) as file:
        told = json.load(file)
    run = Run(*(told.pop(name) for name in ("limit", "jobs", "minutes", "deadline")), program=told.pop("program"))
    for names, sizes in told.items():
        name = tuple(names.split(": ", 1))
        run.rows[name] = [Row(size, 0, {labels[name[0]]: Total(seconds, seconds, why=why)}, None, "") for size, seconds, why in sizes]
    return run
