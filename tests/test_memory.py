"""Each request for memory refused in turn."""
from faults import MEMORY, alone, answer_under, for_good
from support import Case, NO_MEMORY, ProgramTest, USAGE, folder_of
from worked import HALVES, NAMED, ONE, TAUTOLOGY, WIDE_CASES, WORKED, two

# Word lists beyond those of the worked functions: options in other forms, and lists that say nothing.
MORE = [
    Case("options in words of their own", "-o f -D tautology -e eat -- a", {"a": HALVES}, TAUTOLOGY),
    two("names of the first file", "-Dsharp -e=eat -o=f a b", NAMED, NAMED,
        b".i 2\n.o 2\n.ilb a b\n.ob f g\n.p 0\n.e\n"),
    Case("an option that is none", "-Decho -q", {"-": ONE}, b"", USAGE, 2),
    Case("no words", [], {"-": ONE}, b"", USAGE, 2),
    Case("too many files", "-Decho a b c", {"a": ONE}, b"", USAGE, 2),
]


class RefusedMemory(ProgramTest):
    """A run that is refused memory answers as ever, or ends with status 3, its one message and a prefix of what was due."""

    def end_of(self, fault, case, folder):
        """Whether a request was refused, once the answer is seen to be one of the two."""
        found, log = answer_under(fault, case, folder)
        gave_up = found.status == 3 and found.message == NO_MEMORY and case.output.startswith(found.output)
        if not gave_up:
            self.same(found, case.due, [*case.word_list, f"request {fault.first} to {fault.last} refused:"])
        return "A" in log

    def refuse_each(self, cases, fault):
        for case in cases:
            with self.subTest(case.name), folder_of(case.files) as folder:
                number = 1
                while self.end_of(fault(MEMORY, number), case, folder):
                    number += 1
                self.assertGreater(number, 1, "no request was seen: the library does not reach the program")

    def test_one_request_refused(self):
        self.refuse_each(WORKED + WIDE_CASES + MORE, alone)

    def test_all_requests_refused_from_one_on(self):
        self.refuse_each(WORKED + WIDE_CASES + MORE, for_good)
