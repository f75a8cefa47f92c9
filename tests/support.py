"""The program under test, texts in its format, and what a run has to leave."""
import contextlib
import os
import subprocess
import tempfile
import threading
import unittest
from dataclasses import dataclass, field
from typing import NamedTuple

PROGRAM = ""                       # set by tests/run
SECONDS = 120                      # no run takes a tenth of it
USAGE = b"usage: espresso -Dcommand [-o type] [-e eat] [file [file]]\n"
NO_MEMORY = b"espresso: out of memory\n"
WRITE_FAILED = b"espresso: write failed\n"

# What standard input holds where no word asks for it: a run that reads it is noticed by its answer.
STRANGER = b"# standard input\n.i 1\n.o 1\n0 1\n.e\n"


def lines(*texts):
    """These lines, each with its line feed."""
    return "".join(text + "\n" for text in texts).encode()


def slashed(text):
    """The lines that are written here with ` / ` between them, each with its line feed."""
    return lines(*text.split(" / "))


def pla(inputs, outputs, *rows, head=()):
    """A file of rows, as a user writes it."""
    return lines(f".i {inputs}", f".o {outputs}", *head, *rows, ".e")


def printed(inputs, outputs, *rows, head=()):
    """The same as the program prints it, with the number of rows."""
    return lines(f".i {inputs}", f".o {outputs}", *head, f".p {len(rows)}", *rows, ".e")


def fault(line, text, name="(stdin)"):
    """The message of a fault in a file."""
    return f"espresso: {name}:{line}: {text}\n".encode()


def closed(name):
    """The message of a file that cannot be opened."""
    return f"espresso: cannot open {name}\n".encode()


class Answer(NamedTuple):
    """What a run left on standard output and standard error, and its status."""
    output: bytes
    message: bytes
    status: int

    def __str__(self):
        return f"status {self.status}, message {short(self.message)}, output {short(self.output)}"


def short(data):
    """These bytes in a line that can be read."""
    return repr(data) if len(data) < 400 else f"{data[:150]!r} .. {data[-150:]!r} ({len(data)} bytes)"


@dataclass(frozen=True)
class Case:
    """Words, the files that they are run on, and the answer that is due. Standard input is the file `-`."""
    name: str
    words: object                  # a list of words, or one text that is cut at spaces
    files: dict = field(default_factory=dict)
    output: bytes = b""
    message: bytes = b""
    status: int = 0

    @property
    def due(self):
        return Answer(self.output, self.message, self.status)

    @property
    def word_list(self):
        return self.words.split() if isinstance(self.words, str) else list(self.words)


def on_input(name, words, text, output=b"", message=b"", status=0):
    """The case that reads this text from standard input."""
    return Case(name, words, {"-": text}, output, message, status)


def refused(name, words, text, line, told, output=b""):
    """The case that reports this fault of standard input."""
    return on_input(name, words, text, output, fault(line, told), 2)


@contextlib.contextmanager
def folder_of(files):
    """A new folder with these files in it; a file without content is a folder."""
    with tempfile.TemporaryDirectory(prefix="run-") as folder:
        for name, content in files.items():
            path = os.path.join(os.fsencode(folder), os.fsencode(name))
            if name == "-":
                continue
            if content is None:
                os.mkdir(path)
            else:
                with open(path, "wb") as file:
                    file.write(content)
        yield folder


def contents(folder):
    """What lies in a folder: the bytes of each file, None for what is no file."""
    found = {}
    for entry in os.scandir(os.fsencode(folder)):
        if entry.is_file():
            with open(entry.path, "rb") as file:
                found[entry.name] = file.read()
        else:
            found[entry.name] = None
    return found


@contextlib.contextmanager
def input_of(text):
    """Standard input that holds this text, as an open file without a name."""
    with tempfile.TemporaryFile() as file:
        file.write(text)
        file.seek(0)
        yield file


def run(words, folder, stdin, **more):
    """A finished run of the program in this folder, its output and messages caught if nothing else is said."""
    options = dict(stdout=subprocess.PIPE, stderr=subprocess.PIPE, timeout=SECONDS)
    options.update(more)
    return subprocess.run([PROGRAM, *words], cwd=folder, stdin=stdin, **options)


@contextlib.contextmanager
def ended(process):
    """A process that ends in time, or is ended."""
    timer = threading.Timer(SECONDS, process.kill)
    timer.start()
    try:
        yield process
    except BaseException:
        process.kill()
        raise
    finally:
        timer.cancel()


def fed(words, folder, pieces, before_end=None, take=None):
    """The answer of a run that is fed these pieces through a pipe while its output is taken. What `before_end` does
    with the process is done between the last piece and the end of its input; `take` gets the output in pieces."""
    process = subprocess.Popen([PROGRAM, *words], cwd=folder, stdin=subprocess.PIPE, stdout=subprocess.PIPE,
                               stderr=subprocess.PIPE, bufsize=0)

    def feed():
        with contextlib.suppress(BrokenPipeError), process.stdin:
            for piece in pieces:
                rest = memoryview(piece)
                while rest:
                    rest = rest[process.stdin.write(rest):]
            if before_end:
                before_end(process)

    feeding = threading.Thread(target=feed)
    output = b""
    with process, ended(process):
        feeding.start()
        while piece := process.stdout.read(1 << 16):
            if take:
                take(piece)
            else:
                output += piece
        message = process.stderr.read()
        status = process.wait()
        feeding.join()
    return Answer(output, message, status)


def answer_in(folder, words, text, **more):
    """The answer of a run in this folder, and how many bytes of standard input it has taken."""
    with input_of(text) as stdin:
        done = run(words, folder, stdin, **more)
        taken = os.lseek(stdin.fileno(), 0, os.SEEK_CUR)
    return Answer(done.stdout, done.stderr, done.returncode), taken


class ProgramTest(unittest.TestCase):
    """Tests of the program under test."""

    def same(self, found, due, words=()):
        """The answer is the one that is due."""
        if found != due:
            told = f"{' '.join(map(str, words))}\n" if words else ""
            self.fail(f"{told}due:   {due}\nfound: {found}")

    def check(self, *cases, **more):
        """Each case gives its answer, leaves its files as they were, and reads standard input where it is asked for. What
        more is said is said of each run."""
        for case in cases:
            with self.subTest(case.name), folder_of(case.files) as folder:
                before = contents(folder)
                found, taken = answer_in(folder, case.word_list, case.files.get("-", STRANGER), **more)
                self.same(found, case.due, case.word_list)
                self.assertEqual(contents(folder), before, "the folder's files changed")
                if "-" not in case.files:
                    self.assertEqual(taken, 0, "standard input was read")
