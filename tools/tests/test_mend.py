"""What becomes of single texts."""

import unittest

from jimple.mend import prepared
from jimple.places import Fault, place_of
from tests.texts import CHANGED, KEPT, LEFT_OUT


class Texts(unittest.TestCase):
    def test_texts_of_the_profile_stay(self) -> None:
        for what, text in KEPT.items():
            with self.subTest(what):
                self.assertEqual(prepared(text), (text, {}))

    def test_texts_of_soot_become_texts_of_the_profile(self) -> None:
        for what, (text, wanted) in CHANGED.items():
            with self.subTest(what):
                self.assertEqual(prepared(text)[0], wanted)
                self.assertEqual(prepared(wanted), (wanted, {}))

    def test_changes_are_counted(self) -> None:
        text = CHANGED["a lambda"][0].replace(b"void m()", b"void m-n()")
        self.assertEqual(
            +prepared(text)[1], {"quoted names": 2, "dynamic calls": 1, "constants of methods": 3})

    def test_texts_that_cannot_be_prepared_are_refused_at_their_place(self) -> None:
        for what, (text, line, column, reason) in LEFT_OUT.items():
            with self.subTest(what):
                with self.assertRaises(Fault) as refused:
                    prepared(text)
                place = place_of(text, refused.exception.at)
                self.assertEqual((place.line, place.column, refused.exception.reason), (line, column, reason))
