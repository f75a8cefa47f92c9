"""Runs of the program some of whose calls of the system fail, by a library that is loaded before it."""
import errno
import functools
import os
import subprocess
import tempfile
from typing import NamedTuple

import support
from support import Answer, STRANGER

READ, END, WRITE, MESSAGE, MEMORY = "r", "e", "w", "m", "a"
FOR_GOOD = 10 ** 9


class Fault(NamedTuple):
    """Calls of this kind fail from the first to the last of these numbers, counted from 1; no first: none."""
    call: str = READ
    first: int = 0
    last: int = 0
    error: int = errno.EIO
    piece: int = 0                 # the most bytes that a read or a write moves; 0: as many as it can


def alone(call, number, **more):
    """The call of this number fails, and those after it are as ever."""
    return Fault(call, number, number, **more)


def for_good(call, number, **more):
    """The call of this number and all after it fail."""
    return Fault(call, number, FOR_GOOD, **more)


@functools.cache
def library():
    """The library, built once; it goes with the folder that tests/run works in."""
    source = os.path.join(os.path.dirname(os.path.abspath(__file__)), "faults.c")
    built = os.path.join(tempfile.mkdtemp(prefix="library-"), "faults.so")
    subprocess.run(["cc", "-O2", "-shared", "-fPIC", "-o", built, source, "-ldl"], check=True)
    return built


def answer_under(fault, case, folder):
    """The answer of the case under this fault, in a folder with its files, and the log of its calls."""
    with tempfile.TemporaryFile() as log:
        environment = dict(
            os.environ, LD_PRELOAD=library(), FAULT_CALL=fault.call, FAULT_FIRST=str(fault.first),
            FAULT_LAST=str(fault.last), FAULT_ERROR=str(fault.error), FAULT_PIECE=str(fault.piece),
            FAULT_LOG=str(log.fileno()))
        with support.input_of(case.files.get("-", STRANGER)) as stdin:
            done = support.run(case.word_list, folder, stdin, env=environment, pass_fds=[log.fileno()])
        log.seek(0)
        return Answer(done.stdout, done.stderr, done.returncode), log.read().decode()
