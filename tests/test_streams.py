"""Standard input, output and error that are pipes, devices or closed."""
import os
import subprocess
import zlib

import support
from support import Answer, ProgramTest, STRANGER, WRITE_FAILED, fault, folder_of, lines, pla, printed
from worked import RING, WORKED

ONE = pla(1, 1, "1 1")
LARGE = pla(20, 1, *(f"{k:020b} 1" for k in range(0, 1 << 20, 5)))


def peak_of(process):
    """The largest resident memory of a process so far, in bytes."""
    with open(f"/proc/{process.pid}/status") as status:
        return next(int(line.split()[1]) * 1024 for line in status if line.startswith("VmHWM:"))


class Streams(ProgramTest):
    def stopped(self, words, files, due, **more):
        """The run on these files, with other streams than a test's, leaves this message and status."""
        with folder_of(files) as folder, support.input_of(files.get("-", STRANGER)) as stdin:
            done = support.run(words, folder, more.pop("stdin", stdin), **more)
            self.same(Answer(done.stdout or b"", done.stderr or b"", done.returncode), due, words)

    def test_a_full_device(self):
        """Each text that has to be written and can't is `write failed`; where none has to be, nothing changes."""
        for case in WORKED:
            with self.subTest(case.name), open("/dev/full", "wb") as full:
                due = Answer(b"", WRITE_FAILED, 2) if case.output else case.due
                self.stopped(case.word_list, case.files, due, stdout=full)

    def test_comments_go_out_as_they_come(self):
        """Where the first can't be written, no more than a piece of 4,096 bytes has been read."""
        with folder_of({}) as folder, open("/dev/full", "wb") as full:
            found, taken = support.answer_in(folder, ["-Decho"], b"# b\n" * 100000, stdout=full)
            self.assertEqual(found[1:], (WRITE_FAILED, 2))
            self.assertLessEqual(taken, 4096)

    def test_a_full_device_for_messages(self):
        for case in WORKED:
            with self.subTest(case.name), open("/dev/full", "wb") as full:
                self.stopped(case.word_list, case.files, case.due._replace(message=b""), stderr=full)

    def test_a_full_device_for_both(self):
        for case in WORKED:
            with self.subTest(case.name), open("/dev/full", "wb") as full:
                due = Answer(b"", b"", 2 if case.output else case.status)
                self.stopped(case.word_list, case.files, due, stdout=full, stderr=full)

    def test_a_pipe_that_its_reader_closed(self):
        """Whether the signal is ignored or not when the program starts."""
        for ignored in (True, False):
            for case in WORKED:
                outlet, inlet = os.pipe()
                os.close(outlet)
                with self.subTest(case.name, ignored=ignored), os.fdopen(inlet, "wb") as pipe:
                    due = Answer(b"", WRITE_FAILED, 2) if case.output else case.due
                    self.stopped(case.word_list, case.files, due, stdout=pipe, restore_signals=not ignored)

    def test_a_pipe_for_messages_that_its_reader_closed(self):
        for ignored in (True, False):
            for case in (case for case in WORKED if case.message):
                outlet, inlet = os.pipe()
                os.close(outlet)
                with self.subTest(case.name, ignored=ignored), os.fdopen(inlet, "wb") as pipe:
                    due = case.due._replace(message=b"")
                    self.stopped(case.word_list, case.files, due, stderr=pipe, restore_signals=not ignored)

    def test_a_reader_that_goes(self):
        """It takes a few bytes of a long text, and closes the pipe."""
        with folder_of({"f": LARGE}) as folder:
            process = subprocess.Popen([support.PROGRAM, "-Decho", "f"], cwd=folder, stdin=subprocess.DEVNULL,
                                       stdout=subprocess.PIPE, stderr=subprocess.PIPE, bufsize=0)
            with process, support.ended(process):
                self.assertEqual(process.stdout.read(5), b".i 20")
                process.stdout.close()
                self.assertEqual(process.stderr.read(), WRITE_FAILED)
            self.assertEqual(process.returncode, 2)

    def test_a_pipe_as_input(self):
        """Bytes that come one by one, and pieces that are cut anywhere, answer as a whole file does."""
        for size in (1, 2, 7):
            with self.subTest(size=size), folder_of({}) as folder:
                pieces = [RING[k:k + size] for k in range(0, len(RING), size)]
                found = support.fed(["-Dexact"], folder, pieces)
                self.same(found, Answer(printed(3, 1, "-01 1", "0-0 1", "11- 1"), b"", 0))
        with self.subTest("a long file"), folder_of({}) as folder:
            pieces = [LARGE[k:k + 4097] for k in range(0, len(LARGE), 4097)]
            found = support.fed(["-Decho"], folder, pieces)
            rows = LARGE.decode().splitlines()[2:-1]
            self.same(found, Answer(printed(20, 1, *rows), b"", 0))

    def test_a_pipe_that_stays_open(self):
        """Nothing is waited for after the line that ends the file, or that has a fault."""
        for text, due in ((ONE, Answer(printed(1, 1, "1 1"), b"", 0)),
                          (lines(".i 1", ".i 1"), Answer(b"", fault(2, "keyword repeated"), 2))):
            with self.subTest(text), folder_of({}) as folder:
                self.same(support.fed(["-Decho"], folder, [text], lambda process: process.wait()), due)

    def test_standard_input_that_is_closed(self):
        due = Answer(b"", fault(1, "read failed"), 2)
        self.stopped(["-Decho"], {}, due, stdin=None, preexec_fn=lambda: os.close(0))

    def test_standard_output_that_is_closed(self):
        due = Answer(b"", WRITE_FAILED, 2)
        self.stopped(["-Decho"], {"-": ONE}, due, preexec_fn=lambda: os.close(1))

    def test_standard_error_that_is_closed(self):
        for words, due in ((["-q"], Answer(b"", b"", 2)), (["-Decho", "f"], Answer(printed(1, 1, "1 1"), b"", 0)),
                           (["-Decho", "none"], Answer(b"", b"", 2))):
            with self.subTest(words):
                self.stopped(words, {"f": ONE}, due, preexec_fn=lambda: os.close(2))

    def test_standard_input_that_cannot_be_read(self):
        """It is open for writing alone."""
        with open(os.devnull, "wb") as device:
            self.stopped(["-Decho"], {}, Answer(b"", fault(1, "read failed"), 2), stdin=device)

    def test_two_gigabytes_of_comments(self):
        """They pass through in memory that doesn't grow. The peak is seen while the program waits for more."""
        block = b"".join(b"#" + b"x" * length + b"\n" for length in
                         (0, 1, 4094, 4095, 4096, 8191, 30000, 65535, 100003, 131071)) * 3
        count = 2 * 10 ** 9 // len(block) + 1
        passed = 0
        for _ in range(count):
            passed = zlib.crc32(block, passed)
        due = printed(1, 1, "1 1")
        for words, length, sum_of in ((["-Decho"], len(block) * count, passed), (["-Dexact", "-eeat"], 0, 0)):
            with self.subTest(words), folder_of({}) as folder:
                peaks, taken = [], [0, 0]

                def take(piece):
                    taken[:] = taken[0] + len(piece), zlib.crc32(piece, taken[1])

                pieces = (block if k else lines(".i 1", ".o 1", "1 1") for k in range(count + 1))
                found = support.fed(words, folder, pieces, lambda process: peaks.append(peak_of(process)), take)
                self.same(found, Answer(b"", b"", 0))
                self.assertEqual(taken, [length + len(due), zlib.crc32(due, sum_of)])
                self.assertLess(peaks[0], 16 * 10 ** 6)
