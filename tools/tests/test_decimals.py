"""Numbers are read exactly, made simple, and printed without exponents."""

from __future__ import annotations

import struct
import unittest
from fractions import Fraction

from common import fractions
from boundaries.axes import exact_base, near_base
from boundaries.decimals import from_single, greatest_common, least_common, near, number, shown, shown_above, simplest_between


class DecimalsTest(unittest.TestCase):
    """Reading, simplest fractions and printing."""

    def test_a_decimal_is_the_fraction_that_it_says(self) -> None:
        for text, value in [("0.1", "1/10"), ("-2.5e-3", "-1/400"), ("+.5", "1/2"), ("4.", "4"), ("1E2", "100"), ("1e-300", "0")]:
            self.assertEqual(number(text), Fraction(value), text)

    def test_what_is_no_finite_number_is_none(self) -> None:
        for text in ("nan", "inf", "-inf", "1e999999999", "1" * 500, "0x10", "1,5", "", "1e", "--1", "1_0"):
            self.assertIsNone(number(text), text)

    def test_a_float_is_its_shortest_decimal(self) -> None:
        for text in ("0.1", "25.4", "-3.175", "1e-30", "123456.79", "16777216", "0.02"):
            single = struct.unpack("<f", struct.pack("<f", float(text)))[0]
            self.assertEqual(from_single(single), Fraction(text))

    def test_the_simplest_fraction_of_a_range(self) -> None:
        for low, high, value in [("49.99999", "50.00001", "50"), ("0.3333", "0.3334", "1/3"), ("-1", "2", "0"), ("-2.5", "-2.4", "-5/2"), ("3.1", "3.19", "19/6")]:
            self.assertEqual(simplest_between(Fraction(low), Fraction(high)), Fraction(value))

    def test_common_multiples_and_divisors_of_fractions(self) -> None:
        self.assertEqual(greatest_common(fractions("0.5", "0.75", "2")), Fraction(1, 4))
        self.assertEqual(greatest_common(fractions("0", "3.81")), Fraction("3.81"))
        self.assertEqual(least_common(fractions("2/3", "1/2")), 2)

    def test_numbers_are_shown_as_decimals_or_fractions(self) -> None:
        for value, text in [("1/4", "0.25"), ("-3", "-3"), ("100/381", "100/381"), ("-1/8", "-0.125"), ("1/1000", "0.001")]:
            self.assertEqual(shown(Fraction(value)), text)
        self.assertEqual(near(Fraction("12.3456789012345")), "12.3457")

    def test_a_distance_is_not_shown_too_small(self) -> None:
        for value, text in [(0.0, "0"), (0.0123456, "0.0124"), (1.5e-7, "0.00000015"), (123456.0, "124000"), (0.5, "0.5")]:
            self.assertEqual(shown_above(value), text)


class BasesTest(unittest.TestCase):
    """The least factor at which the values of an axis are whole."""

    def test_exact_values_have_an_exact_factor(self) -> None:
        self.assertEqual(exact_base(fractions("0", "0.5", "2.25")), 4)
        self.assertEqual(exact_base(fractions("0", "3.81", "7.62")), Fraction(100, 381))
        self.assertEqual(exact_base(fractions("0", "20", "60")), Fraction(1, 20))

    def test_no_exact_factor_past_the_reach_of_coordinates(self) -> None:
        self.assertIsNone(exact_base(fractions("0", "0.001", "2.047")))
        self.assertEqual(exact_base(fractions("0", "0.001", "2.046")), 1000)

    def test_two_values_within_the_noise_have_the_simplest_factor(self) -> None:
        self.assertIsNone(exact_base(fractions("0", "0.02000000008")))
        self.assertEqual(near_base(fractions("0", "0.02000000008"), Fraction(1, 10**6)), 50)

    def test_noisy_values_are_whole_within_the_noise(self) -> None:
        self.assertEqual(near_base(fractions("0", "1.4999999", "3.0000001", "6"), Fraction(6, 10**6)), Fraction(2, 3))
        self.assertIsNone(near_base(fractions("0", "1.41421356", "6"), Fraction(1, 10**9)))


if __name__ == "__main__":
    unittest.main()
