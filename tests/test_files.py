"""Files by name: which are opened, which are not, and what is reported of those that cannot be opened or read."""
import os
import shutil
import subprocess
import time

import support
from support import Answer, Case, ProgramTest, USAGE, closed, fault, folder_of, pla, printed, slashed
from worked import EQUAL, DIFFERENT

ONE = pla(1, 1, "1 1")
ZERO = pla(1, 1, "0 1")
PRINTED = printed(1, 1, "1 1")
MISSING = ".i or .o missing"
NOBODY = 65534


class Files(ProgramTest):
    def test_a_file_that_is_missing(self):
        """It is reported by its name, and nothing is read in its place."""
        self.check(*(Case(f"missing {name}", ["-Decho", "--", name], {}, b"", closed(name), 2)
                     for name in ("none", "no/such", "a b", "-x", "--", "(stdin)", "\u00fc", "x" * 300, "two\nlines")))

    def test_names_of_neighbours(self):
        """A file is not read in the place of one with nearly its name."""
        files = {"a.pla": ONE, " b": ONE, "b ": ONE, "c": ONE, "C.PLA": ONE, "d\n": ONE, "e": ONE, "e.pla": None}
        names = ("a", " a.pla", "a.pla ", "a.pla\n", "./a", "b", " b ", "c.pla", "C", "c ", "c/", "C.pla", "d", "e.", "e.pl", "*",
                 "?", "a.pl?", "~", "$HOME", "file:c", "c\\")
        self.check(*(Case(f"missing {name!r}", ["-Decho", "--", name], files, b"", closed(name), 2) for name in names),
                   *(Case(f"missing {name!r}, the second", ["-Dverify", "c", "--", name], files, b"", closed(name), 2)
                     for name in names))

    def test_an_empty_word(self):
        """It is a file without a name, which cannot be opened."""
        self.check(Case("alone", ["-Decho", ""], {}, b"", closed(""), 2),
                   Case("in front", ["", "-Decho"], {}, b"", closed(""), 2),
                   Case("after --", ["-Decho", "--", ""], {}, b"", closed(""), 2),
                   Case("after another option", ["-Decho", "-eeat", ""], {}, b"", closed(""), 2),
                   Case("the first", ["-Dverify", "", "a"], {"a": ONE}, b"", closed(""), 2),
                   Case("the second", ["-Dverify", "a", ""], {"a": b"# x\n" + ONE}, b"# x\n", closed(""), 2),
                   Case("both", ["-Dverify", "", ""], {}, b"", closed(""), 2))

    def test_a_dash_is_standard_input(self):
        """Also where a file has that name, and after `--`; by another name the file is read."""
        files = {"-": ONE, "./-": ZERO}
        for words in ("-Decho", "-Decho -", "- -Decho", "-Decho -- -"):
            self.check(Case(words, words, files, PRINTED))
        self.check(Case("by its folder", "-Decho ./-", {"./-": ZERO}, printed(1, 1, "0 1")),
                   Case("the first", "-Dsharp - ./-", files, PRINTED),
                   Case("the second", "-Dsharp ./- -", files, printed(1, 1, "0 1")),
                   Case("twice", "-Dverify - -", files, b"", USAGE, 2),
                   Case("twice after --", "-Dverify -- - -", files, b"", USAGE, 2))

    def test_words_after_two_dashes_are_files(self):
        files = {"-x": ONE, "-Dexact": ONE, "--": ZERO, "-": ZERO}
        for name in ("-x", "-Dexact", "./--"):
            self.check(Case(name, ["-Decho", "--", name], {**files, "./--": ONE}, PRINTED))
        self.check(Case("two files", "-Dverify -- -x --", {"-x": ONE, "--": ZERO}, DIFFERENT, b"", 1))

    def test_a_name_may_hold_folders(self):
        with folder_of({"d": None, "f": ZERO}) as folder:
            with open(os.path.join(folder, "d", "f"), "wb") as file:
                file.write(ONE)
            for name in ("d/f", "./d/f", "d/../d/f", os.path.join(folder, "d", "f")):
                with self.subTest(name):
                    found, taken = support.answer_in(folder, ["-Decho", name], ZERO)
                    self.same(found, Answer(PRINTED, b"", 0))
                    self.assertEqual(taken, 0)

    def test_a_link_is_followed(self):
        with folder_of({"f": ONE}) as folder:
            os.symlink("f", os.path.join(folder, "link"))
            os.symlink("none", os.path.join(folder, "broken"))
            for name, due in (("link", Answer(PRINTED, b"", 0)), ("broken", Answer(b"", closed("broken"), 2))):
                with self.subTest(name):
                    self.same(support.answer_in(folder, ["-Decho", name], ZERO)[0], due)

    def test_a_folder(self):
        """It opens, and cannot be read."""
        files = {"d": None, "a": b"# x\n" + ONE}
        self.check(Case("a folder that is missing", "-Decho no/such", {}, b"", closed("no/such"), 2),
                   Case("a folder", "-Decho d", files, b"", fault(1, "read failed", "d"), 2),
                   Case("with a slash", "-Decho d/", files, b"", fault(1, "read failed", "d/"), 2),
                   Case("this folder", "-Decho .", files, b"", fault(1, "read failed", "."), 2),
                   Case("the first", "-Dverify d a", files, b"", fault(1, "read failed", "d"), 2),
                   Case("the second", "-Dverify a d", files, b"# x\n", fault(1, "read failed", "d"), 2),
                   Case("a file as a folder", "-Decho a/f", files, b"", closed("a/f"), 2))

    def test_a_device(self):
        self.check(Case("an empty one", "-Decho /dev/null", {}, b"", fault(0, MISSING, "/dev/null"), 2),
                   Case("without end", "-Decho /dev/zero", {}, b"",
                        fault(1, "line longer than 131072 bytes", "/dev/zero"), 2),
                   Case("standard input by a name", "-Decho /dev/stdin", {"-": ONE}, PRINTED))

    def test_a_file_that_may_not_be_read(self):
        """It cannot be opened. The superuser reads everything, so the program then runs as nobody."""
        who = {}
        with folder_of({"a": b"# x\n" + ONE, "b": ZERO}) as folder:
            os.chmod(folder, 0o755)
            os.chmod(os.path.join(folder, "a"), 0o644)
            os.chmod(os.path.join(folder, "b"), 0)
            program = support.PROGRAM
            if os.geteuid() == 0:
                program = "./program"
                shutil.copy(support.PROGRAM, os.path.join(folder, program))
                os.chmod(os.path.join(folder, program), 0o755)
                who = dict(user=NOBODY, group=NOBODY, extra_groups=[])
            for words, output, message in ((["-Decho", "b"], b"", closed("b")), (["-Dverify", "b", "a"], b"", closed("b")),
                                           (["-Dverify", "a", "b"], b"# x\n", closed("b"))):
                with self.subTest(words), support.input_of(ONE) as stdin:
                    try:
                        done = subprocess.run([program, *words], cwd=folder, stdin=stdin, capture_output=True,
                                              timeout=support.SECONDS, **who)
                    except PermissionError as error:
                        self.skipTest(f"the superuser cannot become nobody here: {error}")
                    self.same(Answer(done.stdout, done.stderr, done.returncode), Answer(output, message, 2))
                    self.assertEqual(os.lseek(stdin.fileno(), 0, os.SEEK_CUR), 0, "standard input was read")

    def test_files_by_name(self):
        one = b"# a\n" + ONE
        self.check(Case("equal", "-Dverify a b", {"a": one, "b": ONE}, b"# a\n" + EQUAL),
                   Case("not equal", "-Dverify a b", {"a": one, "b": ZERO}, b"# a\n" + DIFFERENT, b"", 1),
                   Case("the second missing", "-Dverify a b", {"a": one}, b"# a\n", closed("b"), 2),
                   Case("the first missing", "-Dverify a b", {"b": one}, b"", closed("a"), 2),
                   Case("the first at fault", "-Dverify a b", {"a": b"# a\n?", "b": b"# b\n?"}, b"# a\n",
                        fault(2, "row before .i and .o", "a"), 2))

    def leaves(self, words, files, due):
        """The run does not open b: a pipe that nobody has open for writing, so that a run that opens it waits."""
        with self.subTest(words=words), folder_of(files) as folder, support.input_of(files.get("-", ONE)) as stdin:
            pipe = os.path.join(folder, "b")
            os.mkfifo(pipe)
            with subprocess.Popen([support.PROGRAM, *words.split()], cwd=folder, stdin=stdin,
                                  stdout=subprocess.PIPE, stderr=subprocess.PIPE) as process, support.ended(process):
                is_opened = False
                while process.poll() is None:
                    # a pipe can be opened for writing at once where it is open for reading, and then alone
                    try:
                        os.close(os.open(pipe, os.O_WRONLY | os.O_NONBLOCK))
                        is_opened = True
                    except OSError:
                        time.sleep(0.001)
                found = Answer(process.stdout.read(), process.stderr.read(), process.returncode)
            self.assertFalse(is_opened, "the second file was opened")
            self.same(found, due)

    def test_the_second_file_is_opened_after_a_first_without_a_fault(self):
        bad = slashed("# x / .mv")
        for command in ("verify", "intersect", "sharp"):
            self.leaves(f"-D{command} a b", {"a": bad}, Answer(b"# x\n", fault(2, "keyword outside the profile", "a"), 2))
            self.leaves(f"-D{command} - b", {"-": bad}, Answer(b"# x\n", fault(2, "keyword outside the profile"), 2))
            self.leaves(f"-D{command} a b", {}, Answer(b"", closed("a"), 2))
            self.leaves(f"-D{command} a b", {"a": None}, Answer(b"", fault(1, "read failed", "a"), 2))
        self.leaves("-Dverify b a -Dverify", {"a": ONE}, Answer(b"", USAGE, 2))

    def test_standard_input_as_the_second_is_left_alone(self):
        """It is not read where the first is at fault."""
        with folder_of({"a": slashed("# x / .mv")}) as folder:
            found, taken = support.answer_in(folder, ["-Dverify", "a", "-"], ONE)
            self.same(found, Answer(b"# x\n", fault(2, "keyword outside the profile", "a"), 2))
            self.assertEqual(taken, 0)

    def test_no_file_is_read_after_a_missing_first(self):
        with folder_of({}) as folder:
            found, taken = support.answer_in(folder, ["-Dverify", "a", "-"], ONE)
            self.same(found, Answer(b"", closed("a"), 2))
            self.assertEqual(taken, 0)
