"""The code carries nothing for its proofs alone: no parameter that no body reads, no `let` of a name that is not to be read."""
import unittest

import unread


class Unread(unittest.TestCase):
    def test_nothing_is_handed_over_for_the_proofs_alone(self):
        for crate in unread.crates():
            with self.subTest(crate):
                found = [(path, line, what) for path in unread.files_of(crate) for line, what in unread.unread_of(path)]
                self.assertEqual(found, [])

    def test_what_is_unread_is_seen(self):
        code = ("fn first(shape: Shape, rows: &[Cube]) -> usize {\n    let _size = rows.len();\n"
                "    let (_one, two) = (rows[0].len(), rows[1].len());\n    two\n}\n")
        self.assertEqual([what for _, what in unread.unread_in(unread.code_of(code))],
                         ["no body reads `shape` of `first`", "`let _size`", "`let (_one, two)`"])


if __name__ == "__main__":
    unittest.main()
