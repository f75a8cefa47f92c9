"""The script `install` at the top of the repository, over a stub of what proves and builds."""
import os
import shutil
import subprocess
import unittest

import support
from support import folder_of

TOP = os.path.dirname(os.path.dirname(os.path.abspath(__file__)))
# It builds a program that waits for its input to end, unless a file `fails` lies beside it.
BUILD = b"""#!/bin/sh
cd "$(dirname "$0")/.." || exit 2
echo built >> log
[ ! -e fails ] || exit 2
mkdir -p crates/espresso_program/out
printf '#!/bin/sh\\ncat\\n' > crates/espresso_program/out/espresso
chmod 755 crates/espresso_program/out/espresso
"""
PROGRAM = os.path.join("bin", "espresso")
PAGE = os.path.join("share", "man", "man1", "espresso.1")


class Install(unittest.TestCase):
    def setUp(self):
        manager = folder_of({})
        self.folder = manager.__enter__()
        self.addCleanup(manager.__exit__, None, None, None)
        for name in ("top of it/tools", "top of it/docs", "home"):
            os.makedirs(self.path(name))
        for path in ("install", "docs/espresso.1"):
            shutil.copy(os.path.join(TOP, path), self.path("top of it", path))
        with open(self.path("top of it", "tools", "build"), "wb") as file:
            file.write(BUILD)
        os.chmod(self.path("top of it", "tools", "build"), 0o755)

    def path(self, *names):
        return os.path.join(self.folder, *names)

    def called(self, *words, status=0, before=(), **changes):
        """What the script prints and says, with these folders before others in PATH and these variables changed."""
        path = os.pathsep.join([*before, os.environ["PATH"]])
        environment = {name: value for name, value in {**os.environ, "HOME": self.path("home"), "PATH": path, **changes}.items() if value is not None}
        done = subprocess.run([self.path("top of it", "install"), *words], cwd=self.folder, env=environment, capture_output=True,
                              text=True, stdin=subprocess.DEVNULL, timeout=support.SECONDS)
        self.assertEqual(done.returncode, status, done.stderr)
        return done.stdout, done.stderr

    def check(self, prefix, said):
        """The program and the page are there, and the answer says where."""
        for name, mode, source in ((PROGRAM, 0o755, "crates/espresso_program/out/espresso"), (PAGE, 0o644, "docs/espresso.1")):
            path = os.path.join(prefix, name)
            self.assertIn(f"installed {path}\n", said)
            self.assertEqual(os.stat(path).st_mode & 0o777, mode)
            with open(path, "rb") as found, open(self.path("top of it", source), "rb") as due:
                self.assertEqual(found.read(), due.read())
            self.assertEqual(os.listdir(os.path.dirname(path)), [os.path.basename(path)])

    def test_to_the_home_or_a_prefix(self):
        for words, prefix in (((), self.path("home", ".local")), ((self.path("a b"),), self.path("a b")),
                              (("it's $HOME/",), self.path("it's $HOME")), (("a/b",), self.path("a/b"))):
            with self.subTest(words):
                said, errors = self.called(*words)
                self.assertEqual(errors, "")
                self.check(prefix, said)
                line = next(line for line in said.splitlines() if line.startswith("    export PATH="))
                found = subprocess.run(["sh", "-c", f"{line}\ncommand -v espresso"], capture_output=True, text=True, timeout=support.SECONDS)
                self.assertEqual(found.stdout, os.path.join(prefix, PROGRAM) + "\n")

    def test_what_is_in_path_already(self):
        here = self.path("home", ".local", "bin")
        said, _ = self.called(before=[here])
        self.check(self.path("home", ".local"), said)
        self.assertEqual(len(said.splitlines()), 2)
        said, _ = self.called("other", before=[here, self.path("other", "bin")])
        self.assertIn(f"\nA shell finds {here}/espresso first: put {self.path('other', 'bin')} before", said)

    def test_again_while_the_program_runs(self):
        self.called()
        with subprocess.Popen([self.path("home", ".local", PROGRAM)], stdin=subprocess.PIPE, stdout=subprocess.PIPE) as running:
            said, _ = self.called()
            self.check(self.path("home", ".local"), said)
            self.assertEqual(running.communicate(b"text\n", timeout=support.SECONDS), (b"text\n", None))

    def test_where_nothing_can_be_written(self):
        with open(self.path("a file"), "w"):
            pass
        os.makedirs(self.path("half", "share"))
        with open(self.path("half", "share", "man"), "w"):
            pass
        for prefix, folder in (("a file", "a file/bin"), ("half", "half/share/man/man1")):
            with self.subTest(prefix):
                self.assertEqual(self.called(prefix, status=2), ("", f"install: cannot write to {self.path(folder)}\n"))
        self.assertFalse(os.path.exists(self.path("top of it", "log")), "built before it is known that nothing can be written")
        os.makedirs(self.path("taken", PROGRAM))
        self.assertIn(f"install: cannot write {self.path('taken', PROGRAM)}\n", self.called("taken", status=2)[1])

    def test_a_build_that_fails(self):
        with open(self.path("top of it", "fails"), "w"):
            pass
        self.assertEqual(self.called(status=2), ("", ""))
        self.assertFalse(os.path.exists(self.path("home", ".local", PROGRAM)))

    def test_words_and_variables(self):
        for word in ("--help", "-h"):
            self.assertIn("usage: ./install [PREFIX]\n", self.called(word)[0])
        for words in (("--prefix=/usr",), ("a", "b")):
            self.assertIn("usage: ./install [PREFIX]\n", self.called(*words, status=2)[1])
        for words in ((), ("",)):
            self.assertIn("install: PREFIX is empty, or not given where HOME is not set\n", self.called(*words, status=2, HOME=None)[1])
        self.assertEqual(os.listdir(self.path("home")), [])
        self.assertFalse(os.path.exists(self.path("top of it", "log")))
