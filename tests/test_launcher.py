"""The script `espresso` at the top of the repository and `tools/build`, over a stub of the command that proves and builds."""
import importlib.machinery
import importlib.util
import os
import shutil
import signal
import subprocess
import time
import unittest

import support
from support import folder_of

TOP = os.path.dirname(os.path.dirname(os.path.abspath(__file__)))
BUILD = os.path.join("tools", "build")
MAIN = "espresso_program"

# The command `rt` tells where the kit is.
RT = b"""#!/bin/sh
echo "$(dirname "$0")/../kit/START.md"
"""
# The kit's compiler writes down each crate as it begins and ends, fails where a file `fails` lies in the crate's sources or
# a library that the crate uses is not proved, and lets one of two crates that need not wait for one another wait until the
# other has begun.
COMPILER = b"""#!/bin/sh
name=$3
echo "begin $name $1 $4" >> ../../log
if [ "$name" = left ]; then
    for try in 1 2 3 4 5 6 7 8 9 10; do
        grep -q "begin right" ../../log && break
        sleep 0.1
    done
fi
[ -e src/fails ] && { echo "$name is wrong" ; exit 1; }
for word in "$@"; do
    case "$word" in
        *=*/proved/*.rlib) [ -e "${word#*=}" ] || { echo "$word is not proved"; exit 1; } ;;
    esac
    made=$word
done
echo "$name" > "$made"
echo "end $name" >> ../../log
"""
LINKER = b"""#!/bin/sh
while [ "$1" != -o ]; do shift; done
grep -q espresso "$3" || exit 1
printf '#!/bin/sh\\necho program "$@"; cat; exit 1\\n' > "$2"
chmod +x "$2"
"""
CRATES = b"""# The crates.
low: smallvec
left: low
right: low itoa
espresso_program: left right clap
not_of_the_program: low
"""
ORDER = ["low", "left", "right", MAIN]


def sides():
    """How many crates the launcher proves side by side here."""
    loader = importlib.machinery.SourceFileLoader("build", os.path.join(TOP, BUILD))
    module = importlib.util.module_from_spec(importlib.util.spec_from_loader("build", loader))
    loader.exec_module(module)
    return module.most_at_once()


def runs(process):
    """Whether there is a process of this number that has not ended."""
    try:
        with open(f"/proc/{process}/stat") as file:
            return file.read().rpartition(") ")[2][0] != "Z"
    except (FileNotFoundError, ProcessLookupError):
        return False


def heed_interrupts():
    """A shell has the calls that it starts in the background ignore interrupts, and so what these call: tests may run so."""
    signal.signal(signal.SIGINT, signal.SIG_DFL)


class Launcher(unittest.TestCase):
    def setUp(self):
        self.folder = os.path.join(self.enter(folder_of({})), "with blanks")
        for name in ("bin", "crates", "tools"):
            os.makedirs(self.path(name))
        self.write(CRATES, "crates.txt")
        for name in ORDER:
            for part in ("src", "specs", "proofs/inner", "out"):
                os.makedirs(self.path("crates", name, part))
            self.write(b"code", "crates", name, "src", "lib.rt")
        os.makedirs(self.path("kit", "bin"))
        for content, path in ((RT, ("bin", "rt")), (COMPILER, ("kit", "bin", "rattle")), (LINKER, ("kit", "bin", "rattle-link"))):
            self.write(content, *path)
            os.chmod(self.path(*path), 0o755)
        for script in ("espresso", BUILD):
            shutil.copy(os.path.join(TOP, script), self.path(script))

    def enter(self, manager):
        found = manager.__enter__()
        self.addCleanup(manager.__exit__, None, None, None)
        return found

    def path(self, *names):
        return os.path.join(self.folder, *names)

    def write(self, content, *names):
        with open(self.path(*names), "wb") as file:
            file.write(content)

    def started(self, *words, path=None, script="espresso"):
        environment = dict(os.environ, PATH=path or self.path("bin") + os.pathsep + os.environ["PATH"])
        return subprocess.Popen([self.path(script), *words], cwd="/", env=environment, stdin=subprocess.PIPE,
                                stdout=subprocess.PIPE, stderr=subprocess.PIPE, preexec_fn=heed_interrupts)

    def called(self, *words, status=1, output=None, path=None, script="espresso"):
        """The messages of a call, which gives the program's output and status, or else these."""
        process = self.started(*words, path=path, script=script)
        found, said = process.communicate(b"input\n", timeout=support.SECONDS)
        due = (" ".join(["program", *words]) + "\ninput\n").encode() if output is None else output
        self.assertEqual((found, process.returncode), (due, status), said)
        return said.decode()

    def log(self):
        """What the stub wrote down since the last call of this."""
        if not os.path.exists(self.path("log")):
            return []
        with open(self.path("log")) as file:
            found = file.read().splitlines()
        os.remove(self.path("log"))
        return found

    def few(self, *tools):
        """A PATH with these tools alone."""
        folder = self.path("few")
        os.makedirs(folder)
        for tool in tools:
            os.symlink(os.path.realpath(shutil.which(tool)), os.path.join(folder, tool))
        return folder

    def test_a_first_call_builds_and_later_ones_run(self):
        said = self.called("-Decho", "a b")
        self.assertRegex(said, r"4 crates are proved and built first(.|\n)*proving low \(1 of 4\)(.|\n)*built in [0-9.]+ minutes\n\Z")
        log = self.log()
        self.assertEqual(sorted(log), sorted(f"begin {name} build src/{'main' if name == MAIN else 'lib'}.rt" for name in ORDER) +
                         sorted(f"end {name}" for name in ORDER))
        for name, needs in (("left", "low"), ("right", "low"), (MAIN, "left"), (MAIN, "right")):
            self.assertLess(log.index(f"end {needs}"), next(k for k, line in enumerate(log) if line.startswith(f"begin {name}")))
        if sides() > 1:
            self.assertLess(next(k for k, line in enumerate(log) if line.startswith("begin right")), log.index("end left"), "left and right need not wait for one another")
        self.assertEqual(self.called("-Decho", ""), "")
        self.assertEqual(self.log(), [])

    def replace(self, content, *names):
        """Writes other content of the same length into a file, and sets its old times."""
        about = os.stat(self.path(*names))
        self.write(content, *names)
        self.assertEqual(os.stat(self.path(*names)).st_size, about.st_size)
        os.utime(self.path(*names), ns=(about.st_atime_ns, about.st_mtime_ns))

    def test_a_change_is_seen(self):
        self.called()
        changes = [lambda: self.write(b"more", "crates", "low", "specs", "Lib.antt"),
                   lambda: self.write(b"more", "crates", "left", "proofs", "inner", "Answers.antt"),
                   lambda: self.write(b"less", "crates", "left", "proofs", "inner", "Answers.antt"),
                   lambda: self.write(b"more", "crates", "right", "src", "lib.rt"),
                   lambda: self.write(CRATES + b"\n", "crates.txt"),
                   lambda: self.replace(b"edoc", "crates", "low", "src", "lib.rt"),
                   lambda: os.rename(self.path("crates", "low", "src", "lib.rt"), self.path("crates", "low", "src", "bil.rt")),
                   lambda: os.remove(self.path("crates", "low", "specs", "Lib.antt")),
                   lambda: os.remove(self.path("crates", MAIN, "out", "espresso"))]
        for number, change in enumerate(changes):
            with self.subTest(number=number):
                self.log()
                change()
                self.assertIn("built in", self.called("-Dexact"))
                self.assertEqual(len(self.log()), 8)
                self.assertEqual(self.called(), "")

    def test_what_is_no_change_builds_nothing(self):
        self.called()
        self.log()
        changes = [lambda: self.write(b"a test", "crates", "low", "other"),
                   lambda: os.utime(self.path("crates", "low", "src", "lib.rt"), (1, 1)),
                   lambda: self.write(b"code", "crates", "low", "src", "lib.rt"),
                   lambda: self.write(b"", "crates", MAIN, "out", "espresso.look"),
                   lambda: os.remove(self.path("crates", MAIN, "out", "espresso.seen"))]
        for number, change in enumerate(changes):
            with self.subTest(number=number):
                change()
                self.assertEqual((self.called(), self.called(), self.log()), ("", "", []))

    def test_a_later_call_starts_only_two_tools(self):
        few = self.few("stat", "cmp", "cat")
        self.called()
        self.assertEqual(self.called("-Decho", "a b", path=few), "")
        self.write(b"more", "crates", "low", "src", "lib.rt")
        self.assertIn("python3", self.called(status=127, output=b"", path=few))
        self.called()
        self.assertEqual(self.called("-Decho", path=few), "")

    def test_a_call_through_a_link(self):
        os.symlink(self.path("espresso"), self.path("link"))
        for _ in range(2):
            self.called("-Decho", "a b", script="link")
        self.assertEqual(len(self.log()), 8)

    def test_a_change_during_the_build_is_seen(self):
        os.mkdir(self.path("slow"))
        self.write(b'#!/bin/sh\n[ -e ../../log ] || sleep 1\nexec "$(dirname "$0")/rattle.quick" "$@"\n', "slow", "rattle")
        os.chmod(self.path("slow", "rattle"), 0o755)
        os.rename(self.path("kit", "bin", "rattle"), self.path("kit", "bin", "rattle.quick"))
        os.rename(self.path("slow", "rattle"), self.path("kit", "bin", "rattle"))
        call = self.started("first")
        while not os.path.exists(self.path("crates", MAIN, "out", "proved")):
            time.sleep(0.01)
        self.write(b"more", "crates", "right", "src", "lib.rt")
        found, said = call.communicate(b"", timeout=support.SECONDS)
        self.assertEqual((found, call.returncode), (b"program first\n", 1), said)
        self.assertIn("built in", self.called("second"))
        self.assertEqual(self.called("third"), "")

    def test_a_signal_ends_the_proofs(self):
        self.write(b"#!/bin/sh\necho $$ > ../../pid.new\nmv ../../pid.new ../../pid\nexec sleep 60\n", "kit", "bin", "rattle")
        for number, status in ((signal.SIGTERM, 2), (signal.SIGINT, 130)):
            with self.subTest(number):
                call = self.started("-Decho")
                while not os.path.exists(self.path("pid")):
                    time.sleep(0.01)
                with open(self.path("pid")) as file:
                    proof = int(file.read())
                os.remove(self.path("pid"))
                call.send_signal(number)
                self.assertEqual(call.communicate(timeout=support.SECONDS)[0], b"")
                self.assertEqual(call.returncode, status)
                while runs(proof):
                    time.sleep(0.01)
                self.assertEqual(os.listdir(self.path("crates", MAIN, "out")), [])

    def test_building_alone(self):
        said = self.called(status=0, output=b"", script=BUILD)
        self.assertIn("built in", said)
        self.log()
        self.assertEqual(self.called(status=0, output=b"", script=BUILD), "")
        self.called("--run", "a", "b", output=b"program a b\ninput\n", script=BUILD)
        self.assertIn("usage: tools/build", self.called("a", "b", output=b"", script=BUILD))
        self.assertEqual(self.log(), [])

    def test_a_failed_proof_leaves_no_program(self):
        self.called()
        for name in ("low", "right", MAIN):
            with self.subTest(name):
                self.log()
                self.write(b"", "crates", name, "src", "fails")
                for _ in range(2):
                    said = self.called("-Decho", status=2, output=b"")
                    self.assertIn(f"{name} is wrong\nespresso: the proof of crate {name} failed, so the program is not built\n", said)
                    self.assertEqual(os.listdir(self.path("crates", MAIN, "out")), [])
                self.assertNotIn(f"end {MAIN}", self.log())
                os.remove(self.path("crates", name, "src", "fails"))
        self.called()

    def test_two_calls_at_once_build_once(self):
        for _ in range(5):
            calls = [self.started(str(number)) for number in range(3)]
            for number, call in enumerate(calls):
                found, said = call.communicate(b"", timeout=support.SECONDS)
                self.assertEqual((found, call.returncode), (f"program {number}\n".encode(), 1), said)
            self.assertEqual(len(self.log()), 8)
            self.write(b"more", "crates", "low", "src", f"more{os.urandom(4).hex()}.rt")

    def test_crates_that_wait_for_one_another(self):
        self.write(b"low: left\nleft: low\nespresso_program: left\n", "crates.txt")
        self.assertIn("low, left, espresso_program wait for one another", self.called(status=2, output=b""))

    def test_without_the_command_that_proves(self):
        self.called()
        os.remove(self.path("crates", "low", "src", "lib.rt"))
        self.assertIn("rt of the Rattle kit is not on the PATH", self.called(status=2, output=b"", path=self.few("env", "python3")))
