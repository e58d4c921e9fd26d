"""The judge alone gives the stated answers on the worked rows."""

import unittest

from judging.answers import answer
from judging.rows import all_rows, unfolded
from judging.verdicts import verdict


class RowsTest(unittest.TestCase):
    """Each row, without any program."""

    def test_answers_are_those_of_the_rows(self) -> None:
        for row in all_rows():
            if len(row.case.data) > 1000 and row.name.startswith(("flange", "gear", "tripod")):
                continue
            with self.subTest(row.name):
                words, data = row.case
                ours = answer(words, data)
                self.assertIsNone(row.fault(ours))
                self.assertIsNone(verdict(words, data, ours, 20))
                if row.out == "exactly":
                    self.assertIsNone(verdict(words, data, row.run, 20))

    def test_texts_of_the_table(self) -> None:
        self.assertEqual(unfolded("a / <x@+1 / *3>\\x00"), b"a\nx1\nx2\nx3\n\0")
        self.assertEqual(unfolded("<-@ @-2,*2>"), b"-0 -2,-1 -1,")


if __name__ == "__main__":
    unittest.main()
