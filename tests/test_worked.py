"""The worked functions, as a user runs them."""
from support import ProgramTest
from worked import WIDE_CASES, WORKED


class WorkedFunctions(ProgramTest):
    def test_worked_functions(self):
        self.check(*WORKED)

    def test_wide_functions(self):
        self.check(*WIDE_CASES)
