"""This program's commands and the tools beside it, each run on the files of a function within limits of time and memory."""
import functools
import hashlib
import importlib.util
import json
import math
import os
import platform
import resource
import shutil
import signal
import subprocess
import sys
import tempfile
import threading
import time
from dataclasses import dataclass
from typing import Callable

from questions import enough, negation, table_files
from rows import pla, put

os.environ["OPENBLAS_NUM_THREADS"] = "1"
HERE = os.path.dirname(os.path.abspath(__file__))
LIMIT = 5                          # seconds that a run may take, and how many run at a time, unless others are asked for
JOBS = 3
MEMORY = 4 << 30                   # bytes that a run may take
SECOND, MINUTE = 1.0, 60.0
MINUTES = 20.0                     # of minute.py, after which sizes are asked for a second alone
SHORT = 0.5                        # seconds; shorter runs are made three times, and the least time counts
START = 5                          # seconds more for a tool that tells its own time, for its start
SYSTEM_PYTHON = "/usr/bin/python3"  # has scipy, if the package is installed
PACKAGES = {"berkeley-abc": "berkeley-abc", "minisat": "minisat", "cadical": "cadical", "cbc": "coinor-cbc", "scipy": "python3-scipy"}
OPTIONS = {"busy": False}


@dataclass(frozen=True)
class Outcome:
    """What a tool answered, and in what time; no time where it did not answer, but why, and perhaps bounds on the answer."""
    seconds: float = None
    answer: object = None
    bounds: tuple = None
    why: str = ""


@dataclass(frozen=True)
class Tool:
    """`run` gives the outcome, by a limit and the paths of a function's files, or None where the tool cannot be asked."""
    label: str
    run: Callable
    needs: str = ""                # what has to be installed
    told: str = ""                 # how it is run, for the page
    empty: tuple = ()              # words that make it start and do nothing
    main: bool = False             # the one of ours that others are compared with


# Running.

def limited(limit):
    """What a child does before it runs on a busy machine: its processor time is limited."""
    resource.setrlimit(resource.RLIMIT_CPU, (math.ceil(limit), math.ceil(limit) + 1))


def once(words, limit):
    """Seconds, status and output of one run; no status where it was stopped at the limit. On a busy machine the seconds are
    those of the processor."""
    with tempfile.TemporaryFile() as out:
        begin = time.perf_counter()
        child = subprocess.Popen(words, stdin=subprocess.DEVNULL, stdout=out, stderr=subprocess.DEVNULL,
                                 preexec_fn=functools.partial(limited, limit) if OPTIONS["busy"] else None)
        timer = threading.Timer(limit * (20 if OPTIONS["busy"] else 1), os.kill, (child.pid, signal.SIGKILL))
        timer.start()
        _, status, used = os.wait4(child.pid, 0)
        seconds = used.ru_utime + used.ru_stime if OPTIONS["busy"] else time.perf_counter() - begin
        timer.cancel()
        child.returncode = os.waitstatus_to_exitcode(status)
        out.seek(0)
        return seconds, child.returncode if seconds < limit else None, out.read().decode()


def why_not(status):
    """Why a run of this status has no answer; `espresso` ends with status 3 where memory runs out."""
    return "time" if status is None else "memory" if status == 3 else f"status {status}"


def timed(words, limit, read):
    """The outcome of a command: the least time of three runs, or of one where that is long or the machine is busy. `read` makes an
    answer of status and output, None where there is none."""
    best, answer = None, None
    for _ in range(3):
        seconds, status, output = once(words, limit)
        answer = None if status is None else read(status, output)
        if answer is None:
            return Outcome(why=why_not(status))
        best = seconds if best is None else min(best, seconds)
        if seconds > SHORT or OPTIONS["busy"]:
            break
    return Outcome(best, answer)


def told_by(words, limit):
    """What a tool prints that tells its own time, as an object; empty where it did not end. Its start is long, so it runs once."""
    _, status, output = once(words, limit + START)
    return json.loads(output.splitlines()[-1]) if status == 0 and output else {}


def printed_rows(status, output):
    """The rows of a printed PLA."""
    return tuple(line for line in output.splitlines() if line and line[0] in "01-") if status == 0 else None


def yes_or_no(status, output):
    return {0: True, 1: False}.get(status)


@functools.cache
def build_of(program):
    """What tells this build of the program apart."""
    with open(program, "rb") as file:
        return hashlib.sha256(file.read()).hexdigest()[:16]


@functools.cache
def own(program, command, read, limit, paths):
    return timed([program, *f"-D{command}".split(), *paths], limit, read)


# Minimised files, beside their source.

def least_file(program, limit, paths):
    """The answer of `exact` as a file of its own, None where there is none."""
    least = own(program, "exact", printed_rows, limit, paths[:1]).answer
    if not least:
        return None
    inputs, outputs = map(len, least[0].split())
    return put(paths[0][:-len(".pla")] + ".least.pla", pla(inputs, outputs, least))


def again(program, limit, paths):
    """`exact` on its own answer, where there is one."""
    path = least_file(program, limit, paths)
    return own(program, "exact", printed_rows, limit, (path,)) if path else Outcome(why="source")


def against_source(program, limit, paths):
    """`verify` of the file and its answer."""
    path = least_file(program, limit, paths)
    return path and own(program, "verify", yes_or_no, limit, (paths[0], path))


# verify, beside cec; tautology, beside SAT solvers.

def cec(limit, paths):
    """Matched by order, and with no limits of its own."""
    def read(status, output):
        return False if "NOT EQUIVALENT" in output else True if "are equivalent" in output else None
    return timed(["berkeley-abc", "-q", "cec -n -T 1000000 -C 1000000000 {} {}".format(*paths)], limit, read)


def satisfiable(status, output):
    return {10: True, 20: False}.get(status)


def tautology_by(words, limit, paths):
    """Whether the cover's negation has no solution."""
    return timed([*words, negation(paths[0])], limit, lambda status, output: {10: False, 20: True}.get(status))


# exact, beside solvers of integer programmes on the table of the primes that the program prints; making it takes none of the time.

def files_of_table(program, limit, paths):
    primes = own(program, "primes", printed_rows, limit, paths).answer
    return None if primes is None else table_files(paths[0], primes)


def cbc(program, limit, paths):
    files = files_of_table(program, limit, paths)

    def read(status, output):
        if "Result - Optimal solution found" not in output and "Optimal objective" not in output:
            return None
        values = [line.split() for line in output.splitlines() if line.startswith(("Objective value:", "Optimal objective"))]
        return round(float(values[-1][2]))
    return files and timed(["cbc", files[0], "solve"], limit, read)


def highs(program, limit, paths):
    """Without its start and the reading of the table. Where it does not end, its bounds are told."""
    files = files_of_table(program, limit, paths)
    if files is None:
        return None
    told = told_by([SYSTEM_PYTHON, os.path.join(HERE, "highs.py"), files[1], str(limit), *(["--busy"] if OPTIONS["busy"] else [])], limit)
    if told.get("size") is None or told["seconds"] > limit:
        return Outcome(bounds=(told.get("low"), told.get("high")))
    return Outcome(told["seconds"], told["size"])


# exact of samples, beside a SAT solver.

def products_enough(program, limit, paths):
    """How many products are enough: so many are, and one less is not; the time of both questions. It begins one below the size
    of our least cover, where there is one, and at one product else."""
    least = own(program, "exact", printed_rows, limit, paths).answer
    count, before = max(1, len(least or ()) - 1), 0.0
    while True:
        asked = timed(["cadical", "-q", enough(paths[0], count)], limit, satisfiable)
        if asked.seconds is None or before + asked.seconds > limit:
            return Outcome()
        if asked.answer:
            return Outcome(before + asked.seconds, count)
        count, before = count + 1, asked.seconds


# primes and exact of one output, beside sympy.

def sopform(limit, paths):
    told = told_by([sys.executable, os.path.join(HERE, "sopform.py"), *paths], limit)
    return Outcome(told["seconds"], tuple(told["terms"])) if told and told["seconds"] <= limit else Outcome()


# What is installed.

@functools.cache
def has_scipy():
    words = [SYSTEM_PYTHON, "-c", "from scipy.optimize import milp"]
    return os.path.exists(SYSTEM_PYTHON) and subprocess.run(words, stderr=subprocess.DEVNULL).returncode == 0


def is_installed(tool):
    if tool.needs == "scipy":
        return has_scipy()
    return not tool.needs or bool(importlib.util.find_spec("sympy") if tool.needs == "sympy" else shutil.which(tool.needs))


def installed(tool):
    """Whether a tool can be run; if not, this is said."""
    found = is_installed(tool)
    if not found:
        print(f"{tool.needs} is not installed: {tool.label} is left out", flush=True)
    return found


def version(tool):
    """The package of a tool that is installed, and its version."""
    if tool.needs == "sympy":
        import sympy
        return f"sympy {sympy.__version__}, Python {platform.python_version()}"
    package = PACKAGES[tool.needs]
    if shutil.which("dpkg-query"):
        told = subprocess.run(["dpkg-query", "-W", "-f", "${Version}", package], capture_output=True, text=True).stdout
        return f"{package} {told}".strip()
    return package


def start(tool):
    """The seconds of a tool that does nothing."""
    return min(once(list(tool.empty), 60)[0] for _ in range(3)) if tool.empty else None
