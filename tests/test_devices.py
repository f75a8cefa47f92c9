"""Each read and each write failing in turn, once and for good.

A read or write that failed isn't tried again, and no other follows it on that stream. Reads that fail are reported
with the line that was being read, and writes as such; what was written is a prefix of what was due. A message
that cannot be written changes nothing else."""
import errno
import re
from itertools import product

from faults import END, MESSAGE, READ, WRITE, Fault, alone, answer_under, for_good
from support import Answer, Case, ProgramTest, WRITE_FAILED, fault, folder_of, printed
from test_cases import TABLES
from worked import ROW, WIDE_CASES, WORKED, one

# A run opens and reads, then writes its output, then its message.
IN_ORDER = re.compile(r"[orREwW]*[mM]*\Z")


def reads_of(case):
    """What is due where a read fails that the case needs, for reads of one byte, in the order of these reads."""
    output = b""
    for source in case.readings:
        passed = output
        for count in range(len(source.text) + 1):
            ended = source.text[:count].count(b"\n")
            passed = output + b"".join(source.passed.get(line, b"") for line in range(1, ended + 1))
            if source.over is not None and ended >= source.over:
                break
            yield Answer(passed, fault(ended + 1, "read failed", source.name), 2)
        output = passed


class FailingCalls(ProgramTest):
    def due_under(self, what, case, folder, due):
        """The case answers this under the fault, with its calls in order, and says whether a call failed."""
        found, log = answer_under(what, case, folder)
        words = [*case.word_list, f"with {what}, calls {log[:200]}:"]
        self.same(found, due, words)
        self.assertRegex(log, IN_ORDER, "output after a message")
        self.assertNotRegex(log, "[RE].*[rRE]|W.*[wW]|M.*[mM]", "a call after one that failed")
        return what.call.upper() in log

    def test_bytes_that_come_and_go_one_by_one(self):
        for case in (case for cases in TABLES.values() for case in cases):
            for piece in (1, 3):
                with self.subTest(case.name, piece=piece), folder_of(case.files) as folder:
                    self.due_under(Fault(piece=piece), case, folder, case.due)

    def fail_each_read(self, what):
        for case in WORKED:
            with self.subTest(case.name), folder_of(case.files) as folder:
                number = 0
                for number, due in enumerate(reads_of(case), 1):
                    self.assertTrue(self.due_under(what(READ, number, piece=1), case, folder, due), "no read failed")
                self.due_under(what(READ, number + 1, piece=1), case, folder, case.due)

    def test_one_read_fails(self):
        self.fail_each_read(alone)

    def test_all_reads_fail_from_one_on(self):
        self.fail_each_read(for_good)

    def test_a_read_fails_after_a_text(self):
        """The text comes whole, and the read that would find its end fails; after the line `.e` none is needed."""
        whole = b".i 1\n.o 1\n.e\n"
        broken = [(ROW[:count], Answer(b"", fault(ROW[:count].count(b"\n") + 1, "read failed", "f"), 2)) for count in range(len(ROW))]
        for text, due in (
                *broken,
                (ROW, Answer(printed(2, 1, "11 1"), b"", 0)),
                (b".i 1\n.o ", Answer(b"", fault(2, "read failed", "f"), 2)),
                (b"# a\n", Answer(b"# a\n", fault(2, "read failed", "f"), 2)),
                (b"# a\n.i 2000", Answer(b"# a\n", fault(2, "read failed", "f"), 2)),
                (b"# a\n.i 2000\n", Answer(b"# a\n", fault(2, "bad number", "f"), 2)),
                (whole, Answer(printed(1, 1), b"", 0)),
                (whole[:-1], Answer(b"", fault(3, "read failed", "f"), 2)),
                (whole[:-1] + b" # a", Answer(b"", fault(3, "read failed", "f"), 2)),
                (b"#" + b"x" * 131071, Answer(b"", fault(1, "read failed", "f"), 2)),
                (b"#" + b"x" * 131072, Answer(b"", fault(1, "line longer than 131072 bytes", "f"), 2))):
            case = Case("", "-Decho f", {"f": text})
            for what, piece in product((alone, for_good), (1, 3, 0) if len(text) < 100 else (0,)):
                with self.subTest(text[:20], what=what.__name__, piece=piece), folder_of(case.files) as folder:
                    self.due_under(what(END, 1, piece=piece), case, folder, due)

    def test_the_first_read_of_a_source_fails(self):
        for case in WORKED + WIDE_CASES:
            done = b""
            for number, source in enumerate(case.readings, 1):
                due = Answer(done, fault(1, "read failed", source.name), 2)
                for what in (alone(READ, number), for_good(READ, number), alone(READ, number, error=errno.EINTR)):
                    with self.subTest(case.name, source=source.name, what=what), folder_of(case.files) as folder:
                        self.assertTrue(self.due_under(what, case, folder, due), "no read failed")
                done += b"".join(source.passed.values())

    def fail_each_write(self, what):
        for case in WORKED:
            with self.subTest(case.name), folder_of(case.files) as folder:
                for room in range(len(case.output)):
                    due = Answer(case.output[:room], WRITE_FAILED, 2)
                    met = self.due_under(what(WRITE, room + 1, piece=1), case, folder, due)
                    self.assertTrue(met, "no write failed")
                self.due_under(what(WRITE, len(case.output) + 1, piece=1), case, folder, case.due)

    def test_one_write_fails(self):
        self.fail_each_write(alone)

    def test_all_writes_fail_from_one_on(self):
        self.fail_each_write(for_good)

    def test_a_write_that_is_interrupted_or_takes_nothing(self):
        for case in WORKED:
            for error in (0, errno.EINTR, errno.EAGAIN):
                if not case.output:
                    continue
                with self.subTest(case.name, error=error), folder_of(case.files) as folder:
                    due = Answer(b"", WRITE_FAILED, 2)
                    self.assertTrue(self.due_under(alone(WRITE, 1, error=error), case, folder, due), "no write failed")

    def test_a_writer_with_room_for_five_bytes(self):
        case = one("a row", "-Decho", ROW, printed(2, 1, "11 1"))
        with folder_of(case.files) as folder:
            due = Answer(b".i 2\n", WRITE_FAILED, 2)
            for what in (alone(WRITE, 2, piece=5), for_good(WRITE, 2, piece=5)):
                self.assertTrue(self.due_under(what, case, folder, due), "no write failed")

    def fail_each_message(self, what):
        for case in (case for case in WORKED if case.message):
            with self.subTest(case.name), folder_of(case.files) as folder:
                for room in range(len(case.message)):
                    due = case.due._replace(message=case.message[:room])
                    met = self.due_under(what(MESSAGE, room + 1, piece=1), case, folder, due)
                    self.assertTrue(met, "no write failed")

    def test_one_write_of_a_message_fails(self):
        self.fail_each_message(alone)

    def test_all_writes_of_a_message_fail_from_one_on(self):
        self.fail_each_message(for_good)
