#!/usr/bin/env python3
"""That named edits are made where they say, once, or refused. Run by build.sh test."""
import sys
import unittest

sys.dont_write_bytecode = True  # nothing is written beside the sources
import lift  # noqa: E402

LIFTED = [("cpu", [("fn", "one", "a b c"), ("fn", "two", "a a")]), ("execute", [("fn", "one", "a b")])]


class Edits(unittest.TestCase):
    def test_made_in_the_named_item_only(self):
        done = lift.edited(LIFTED, [("first", "cpu", "one", "b", "x y"), ("second", "cpu", "one", "x", "z")])
        self.assertEqual(done, [("cpu", [("fn", "one", "a z y c"), ("fn", "two", "a a")]), ("execute", [("fn", "one", "a b")])])
        self.assertEqual(LIFTED[0][1][0], ("fn", "one", "a b c"))

    def test_refused(self):
        for edit in (("twice", "cpu", "two", "a", "x"), ("nowhere", "cpu", "one", "x", "y"),
                     ("no_item", "cpu", "three", "a", "x"), ("no_module", "memory", "one", "a", "x")):
            with self.assertRaisesRegex(lift.Bad, "edit %s: " % edit[0]):
                lift.edited(LIFTED, [edit])


if __name__ == "__main__":
    unittest.main()
