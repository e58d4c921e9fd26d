"""The factor and the move of one axis: those at which its values are whole, or nearly.

Scaling and moving an axis by itself keeps planes plane. So each axis has a factor of its own, and few values that differ
need a small span of whole numbers.
"""

from __future__ import annotations

import math
from dataclasses import dataclass
from fractions import Fraction

from .decimals import greatest_common, shown, simplest_between
from .faults import Refused

# whole coordinates go from -REACH to REACH
REACH = 1023
SPAN = 2 * REACH
# an exact factor whose numerator and denominator, without the zeros at their ends, are not above this is taken as it is
PLAIN = 100_000
# a part of fewer steps is enlarged, to at least so many
TINY = Fraction(10)
SEEN = Fraction(50)
# how many numbers of steps are tried where no factor is exact
MOST_VALUES = 400


def check_reach(axis: str, span: Fraction, factor: Fraction) -> None:
    """Refuses a factor at which the part is longer than whole coordinates reach."""
    if span * factor > SPAN:
        steps = float(span * factor)
        raise Refused(f"the factor {shown(factor)} makes the part {steps:.6g} long in {axis}, and at most {SPAN} is allowed")


@dataclass(frozen=True)
class Fit:
    """A factor and a move, and the whole numbers that the values become; `error` is the greatest distance, in units of the file,
    as a float."""

    scale: Fraction
    move: Fraction
    whole: tuple[int, ...]
    error: float

    @property
    def steps(self) -> int:
        """How far the whole numbers span."""
        return max(self.whole) - min(self.whole)


def half_up(value: Fraction) -> int:
    """The nearest whole number, halves up."""
    return math.floor(value + Fraction(1, 2))


def fit_to(values: list[Fraction], whole: list[int], scale: Fraction, move: Fraction) -> Fit:
    """The fit that brings values to these whole numbers."""
    error = max(abs(it * scale + move - to) for it, to in zip(values, whole))
    return Fit(scale, move, tuple(whole), float(error / scale))


def exact_base(values: list[Fraction]) -> Fraction | None:
    """The least factor at which the values are whole apart from one move, where it is in reach and plain."""
    step = greatest_common([it - values[0] for it in values])
    scale = 1 / step
    if (values[-1] - values[0]) * scale > SPAN or max(without_zeros(scale.numerator), without_zeros(scale.denominator)) > PLAIN:
        return None
    return scale


def near_base(values: list[Fraction], noise: Fraction) -> Fraction | None:
    """The least factor at which the values are whole within the noise, as the simplest fraction that does it."""
    span = values[-1] - values[0]
    offsets = [float((it - values[0]) / span) for it in values]
    reach = float(noise / span)
    for steps in range(1, SPAN + 1):
        low, high = 0.0, 0.0
        for it in offsets:
            rest = it * steps - round(it * steps)
            low, high = min(low, rest), max(high, rest)
            if high - low > 2 * reach * steps:
                break
        else:
            return simplest_scale(values, [round(it * steps) for it in offsets], noise)
    return None


def violation(values: list[Fraction], whole: list[int], noise: Fraction, scale: Fraction) -> Fraction:
    """At most 0 where some move brings each value times the factor within the noise of its whole number."""
    low = max(to - (it + noise) * scale for it, to in zip(values, whole))
    high = min(to - (it - noise) * scale for it, to in zip(values, whole))
    return low - high


def scale_range(values: list[Fraction], whole: list[int], noise: Fraction, start: Fraction) -> tuple[Fraction, Fraction] | None:
    """The factors about `start` that bring values to whole numbers within the noise, or None where `start` does not."""
    if violation(values, whole, noise, start) > 0:
        return None
    ends = []
    for direction in (-1, 1):
        good, bad = start, start * (1 + direction * 3 * noise / (values[-1] - values[0]))
        while bad > 0 and violation(values, whole, noise, bad) <= 0:
            bad = start + 2 * (bad - start)
        for _ in range(20):
            middle = (good + max(bad, Fraction(0))) / 2
            if middle > 0 and violation(values, whole, noise, middle) <= 0:
                good = middle
            else:
                bad = middle
        ends.append(good)
    return ends[0], ends[1]


def simplest_scale(values: list[Fraction], whole: list[int], noise: Fraction) -> Fraction | None:
    """The simplest factor that brings values to whole numbers within the noise, or None where none does."""
    ends = scale_range(values, whole, noise, Fraction(whole[-1] - whole[0]) / (values[-1] - values[0]))
    return simplest_between(*ends) if ends else None


def simplest_move(values: list[Fraction], whole: list[int], noise: Fraction, scale: Fraction) -> Fraction:
    """The simplest move at this factor that brings each value within the noise of its whole number."""
    low = max(to - (it + noise) * scale for it, to in zip(values, whole))
    high = min(to - (it - noise) * scale for it, to in zip(values, whole))
    return simplest_between(low, high) if low <= high else (low + high) / 2


def placed(values: list[Fraction], scale: Fraction, noise: Fraction, ends: tuple[Fraction, Fraction] | None = None) -> Fit | None:
    """The fit at a factor that is exact within the noise: not moved where that serves, else from 0 on, else about 0. What has to
    be within reach goes from the first of the `ends` to the second, beyond the values themselves."""
    first = values[0] * scale
    whole = [half_up(it * scale - first) for it in values]
    low, high = ends or (values[0], values[-1])
    below, above = half_up((low - values[0]) * scale), half_up((high - values[0]) * scale)
    for start in starts_of(first, below, above):
        if start + below < -REACH or start + above > REACH:
            continue
        moved = [it + start for it in whole]
        move = simplest_move(values, moved, noise, scale)
        if start == half_up(first) and move != 0:
            continue
        fit = fit_to(values, moved, scale, move)
        return fit if fit.error <= float(noise) * 1.0000001 else None
    return None


def starts_of(first: Fraction, below: int, above: int) -> list[int]:
    """Where the first value may come to stand, the plainest first."""
    return [half_up(first), -below, -below - (above - below) // 2]


def multiple(base: Fraction, span: Fraction, target: Fraction | None) -> Fraction:
    """A whole multiple of the least exact factor, in reach: the one nearest to a target that is given; else 1 where the part is
    not tiny then; else the simplest one, decimal zeros not counted, at which the part can be seen."""
    steps = base * span
    most = math.floor(SPAN / steps)
    if target is not None:
        return base * max(1, min(most, half_up(target / base)))
    if base.numerator == 1 and base.denominator <= most and span >= TINY:
        return Fraction(1)
    if steps >= SEEN or most == 1:
        return base
    least = min(most, math.ceil(SEEN / steps))
    return min((base * k for k in range(least, most + 1)), key=lambda it: (plainness(it), it))


def plainness(value: Fraction) -> int:
    """How many digits a fraction has, without decimal zeros: their product with the denominator."""
    return without_zeros(value.numerator) * value.denominator


def without_zeros(value: int) -> int:
    """A whole number above 0 without the zeros at its end."""
    while value % 10 == 0:
        value //= 10
    return value


def gap_shift(values: list[float], factor: float) -> tuple[float, float]:
    """The move below 1 that brings the values times a factor nearest to whole numbers, and the greatest distance then."""
    rests = sorted((it * factor) % 1.0 for it in values)
    widest, after = rests[0] + 1 - rests[-1], rests[0]
    for a, b in zip(rests, rests[1:]):
        if b - a > widest:
            widest, after = b - a, b
    # (all rests are within 1 - widest after `after`; their middle comes to a whole number)
    return -(after + (1 - widest) / 2) % 1.0, (1 - widest) / 2


@dataclass(frozen=True)
class Trial:
    """A number of steps for an axis that is not exact: factor and move of its values, counted from the least one."""

    steps: int
    factor: float
    shift: float
    error: float


def trials(values: list[Fraction], count: int, most: Fraction) -> list[Trial]:
    """The numbers of steps with the least distances, at most `most`; the distances in units of the file."""
    span = float(values[-1] - values[0])
    offsets = [float(it - values[0]) for it in values]
    first = 1 if len(values) <= MOST_VALUES else SPAN - 200
    found = []
    for steps in range(first, SPAN + 1):
        shift, error = gap_shift(offsets, steps / span)
        if shift > 0.5:
            shift -= 1
        found.append(Trial(steps, steps / span, shift, error * span / steps))
    found.sort(key=lambda it: (it.error, -it.steps))
    return [it for it in found[:count] if it.error <= float(most)]


def whole_of(values: list[Fraction], trial: Trial) -> list[int]:
    """The whole numbers of values at a trial, moved so that they are within reach."""
    whole = [math.floor(float(it - values[0]) * trial.factor + trial.shift + 0.5) for it in values]
    middle = (whole[0] + whole[-1]) // 2 if whole[-1] > REACH or whole[0] < -REACH else 0
    return [it - middle for it in whole]


def shifted(values: list[Fraction], scale: Fraction) -> Fit:
    """The fit at a factor that is not exact, with the move that brings values nearest to whole numbers."""
    shift, error = gap_shift([float(it - values[0]) for it in values], float(scale))
    trial = Trial(0, float(scale), shift if shift <= 0.5 else shift - 1, error / float(scale))
    whole = whole_of(values, trial)
    reach = Fraction(trial.error) * Fraction(101, 100)
    return fit_to(values, whole, scale, simplest_move(values, whole, reach, scale))


def simple_fit(values: list[Fraction], whole: list[int], trial: Trial, noise: Fraction) -> Fit:
    """The simplest factor and move that bring values to the whole numbers of a trial, hardly farther than they have to."""
    reach = max(Fraction(trial.error) * Fraction(101, 100), noise)
    ends = scale_range(values, whole, reach, Fraction(trial.factor))
    scale = simplest_between(*ends) if ends else Fraction(trial.factor)
    return fit_to(values, whole, scale, simplest_move(values, whole, reach, scale))
