"""Compares programs with answers that are made here, for many random files side by side: what the scripts that draw the
files have in common."""
import argparse
import os
import resource
import subprocess
import sys
from concurrent.futures import ProcessPoolExecutor, as_completed

from support import folder_of

SECONDS = 60                       # of a processor, that a program may take for an answer
AT_ONCE = 10                       # files that a process draws before it tells of them


def limit():
    resource.setrlimit(resource.RLIMIT_CPU, (SECONDS, SECONDS))


def answer(program, command, files):
    """What the program leaves on its outputs, and its status, below 0 where it took too long. Standard input is the file `-`."""
    with folder_of(files) as folder:
        done = subprocess.run([program, *command.split()], cwd=folder, input=files.get("-", b""), stdout=subprocess.PIPE,
                              stderr=subprocess.PIPE, preexec_fn=limit)
    return done.stdout + done.stderr, done.returncode


def told(name, program, command, files, due, found):
    """The text that tells of a difference."""
    shown = "".join(f"--- {file}\n{text.decode()}" for file, text in files.items())
    one, other = (f"{output.decode(errors='replace')}status {status}\n" for output, status in (due, found))
    return f"{name}: {program} {command}\n{shown}--- due\n{one}--- found\n{other}"


def compared_many(call):
    compare, programs, seed, numbers = call
    return [compare(programs, seed, number) for number in numbers]


def read_words():
    reader = argparse.ArgumentParser(usage=argparse.SUPPRESS)
    reader.add_argument("--count", type=int, default=200)
    reader.add_argument("--seed", type=int, default=1)
    reader.add_argument("--processes", type=int, default=2)
    reader.add_argument("programs", nargs="+")
    return reader.parse_args()


def main(about, compare):
    """Reads the words of the script, whose text `about` is. `compare` draws the file of a number and compares the programs'
    answers: it returns how many, and what tells of differences."""
    if len(sys.argv) < 2 or sys.argv[1] in ("-h", "--help"):
        sys.exit(about)
    words = read_words()
    programs = [os.path.abspath(program) for program in words.programs]
    calls = [(compare, programs, words.seed, range(first, min(first + AT_ONCE, words.count)))
             for first in range(0, words.count, AT_ONCE)]
    answers = differences = 0
    with ProcessPoolExecutor(words.processes) as pool:
        for done in as_completed([pool.submit(compared_many, call) for call in calls]):
            for count, texts in done.result():
                answers += count
                differences += len(texts)
                for text in texts:
                    print(text, flush=True)
    print(f"{words.count} drawn, {len(programs)} programs, {answers} answers: {differences} differences")
    sys.exit(1 if differences else 0)
