"""No case of the subjects' tables stands in two files, the worked functions among them."""
import unittest
from collections import defaultdict

import test_answers
import test_format
import test_limits
import test_sets
import test_two_files
import test_words
import worked

TABLES = {subject.__name__: subject.CASES for subject in
          (test_answers, test_format, test_limits, test_sets, test_two_files, test_words)}
TABLES["worked"] = worked.WORKED + worked.WIDE_CASES


class Cases(unittest.TestCase):
    def test_each_case_stands_in_one_file(self):
        homes = defaultdict(set)
        for name, cases in TABLES.items():
            for case in cases:
                homes[(*case.word_list, *sorted(case.files.items()))].add(name)
        self.assertEqual([home for home in homes.values() if len(home) > 1], [])
