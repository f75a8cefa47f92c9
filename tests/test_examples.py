"""Each example prints the answer beside it, and the script for other minimisers says what they did."""
import os
import shutil
import subprocess
import unittest

import support

TOP = os.path.dirname(os.path.dirname(os.path.abspath(__file__)))
FOLDER = os.path.join(TOP, "examples")
SCRIPT = os.path.join(FOLDER, "check_minimiser.sh")
SECONDS = 120
# A file with a keyword of another tool's: what does not know such keywords cannot read it.
WITH_OTHER_KEYWORDS = "memory.pla"


def commands():
    """For each line of the table: the file with the answer, the status, and the words."""
    with open(os.path.join(FOLDER, "commands")) as table:
        for line in table:
            if line.strip() and not line.startswith("#"):
                output, status, *words = line.split()
                yield output, int(status), words


def designs():
    return sorted(name for name in os.listdir(FOLDER) if name.endswith(".pla"))


def content(name):
    with open(os.path.join(FOLDER, name), "rb") as file:
        return file.read()


class Examples(unittest.TestCase):
    def test_each_command_prints_the_answer_beside_it(self):
        for output, status, words in commands():
            with self.subTest(output):
                done = subprocess.run([support.PROGRAM, *words], cwd=TOP, capture_output=True, timeout=SECONDS,
                                      stdin=subprocess.DEVNULL)
                self.assertEqual((done.stdout, done.stderr, done.returncode), (content(output), b"", status))

    def test_each_design_has_a_command_and_each_answer_stands_once(self):
        table = list(commands())
        answers = sorted(output for output, _, _ in table)
        self.assertEqual(answers, sorted(name for name in os.listdir(FOLDER) if name.endswith(".out")))
        for name in designs():
            self.assertTrue(any(f"examples/{name}" in words for _, _, words in table), f"no command for {name}")


class OtherMinimisers(unittest.TestCase):
    """What the script says of commands that keep the function, change it, or print no PLA."""

    def checked(self, command, *names, limit="60"):
        """The lines of the script, by the file's name, and its status."""
        environment = dict(os.environ, ESPRESSO=support.PROGRAM, LIMIT=limit)
        done = subprocess.run([SCRIPT, command, *(f"examples/{name}" for name in names)], cwd=TOP, env=environment,
                              capture_output=True, text=True, timeout=SECONDS, stdin=subprocess.DEVNULL)
        said = dict(line.split(": ", 1) for line in done.stdout.splitlines())
        return {os.path.basename(path): text for path, text in said.items()}, done.returncode

    def test_the_file_itself_is_the_same_function(self):
        said, status = self.checked("cat", *designs())
        self.assertEqual(status, 0)
        self.assertEqual(list(said), designs())
        self.assertEqual(said["bcd7seg.pla"], "same function, 10 terms; the least: 9")

    def test_the_three_forms_of_a_command(self):
        for command in ("cat", 'cat "$1"', 'cat >"$2"'):
            with self.subTest(command):
                self.assertEqual(self.checked(command, "gray4.pla"),
                                 ({"gray4.pla": "same function, 15 terms; the least: 15"}, 0))

    def test_sizes_are_left_out_where_no_time_is_given(self):
        self.assertEqual(self.checked("cat", "gray4.pla", limit="0"),
                         ({"gray4.pla": "same function, 15 terms; the least: not known"}, 0))

    def test_a_changed_function_is_reported(self):
        self.assertEqual(self.checked("sed s/0101/0111/", "add2.pla", "door.pla"),
                         ({"add2.pla": "the function was changed",
                           "door.pla": "same function, 2 terms; the least: 2"}, 1))

    def test_what_is_called_a_dont_care_may_not_replace_a_one(self):
        self.assertEqual(self.checked("sed '/^[01]/s/ 1$/ -/'", "door.pla"), ({"door.pla": "the function was changed"}, 1))

    def test_what_cannot_be_compared_is_reported(self):
        for command, name, said in (
                ("echo ow >&2; false", "add2.pla", "the command failed: ow"),
                ("echo no PLA", "add2.pla", "no PLA was written: its line 1: row before .i and .o"),
                ("cat examples/door.pla", "add2.pla", "espresso: sizes differ"),
                ("cat", "absent.pla", "cannot be read")):
            with self.subTest(command):
                self.assertEqual(self.checked(command, name), ({name: said}, 2))

    @unittest.skipUnless(shutil.which("berkeley-abc"), "berkeley-abc is not installed")
    def test_berkeley_abc_keeps_the_functions(self):
        names = [name for name in designs() if name != WITH_OTHER_KEYWORDS]
        for written in ("write_pla $2", "write_pla -m $2"):
            with self.subTest(written):
                said, status = self.checked(f'berkeley-abc -q "read_pla $1; collapse; {written}"', *names)
                self.assertEqual(status, 0, said)
                self.assertEqual(list(said), names)
                for text in said.values():
                    self.assertRegex(text, r"^same function, \d+ terms; the least: \d+$")


if __name__ == "__main__":
    unittest.main()
