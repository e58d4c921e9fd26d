"""One or two boundaries with all that a text is judged by: half-spaces, masks with points, candidates, parities."""

from collections import Counter
from functools import cached_property
from typing import Callable, Sequence

from .cells import Cells, cells_of, inner
from .discs import is_sample, rules_of, sample_sets, sets_of
from .parity import flips_of, is_straight_odd, odd_of
from .sweep import free_masks
from .tables import Boundary, box_leaf, box_of, joined, table_of
from .texts import spaced
from .vectors import Point, is_within

TRUTHS: dict[str, Callable[[list[bool]], bool]] = {
    "": lambda odd: odd[0],
    "union": any,
    "intersection": all,
    "difference": lambda odd: odd[0] and not odd[1],
}


class Setting:
    """A boundary, or two with an operation, of one kind."""

    def __init__(self, parts: Sequence[Boundary], operation: str = "") -> None:
        both = joined(parts)
        self.parts = parts
        self.truth = TRUTHS[operation]
        self.odds = [odd_of(part) for part in parts]
        self.is_flat = both.kind == "contour"
        self.table = table_of(both)
        self.rows = [half.row for half in self.table.flat]
        self.box = box_of(both)
        self.block = box_leaf(self.box)
        self.leaves = self.table.leaves()
        self.flats = (1 << len(self.rows)) - 1

    def head(self) -> list[str]:
        """The head lines of a text of this boundary."""
        return [f"// bcsg 2 {'contour' if self.is_flat else 'solid'}", "// box " + spaced(self.box[0] + self.box[1])]

    def is_odd(self, p: Point) -> bool:
        """Whether the operation is true of the crossings at a point, by their definition."""
        return self.truth([odd(p) for odd in self.odds])

    def is_free(self, p: Point) -> bool:
        """Whether a point is strictly inside the box and on no half-space."""
        return is_within(self.box, p, strictly=True) and not self.table.touches(p)

    @cached_property
    def regions(self) -> Cells:
        """The regions of the lines, or the cells of the planes, with their corners."""
        return cells_of(self.box, self.rows)

    @cached_property
    def points(self) -> dict[int, Point]:
        """Each mask that has a free point, with one."""
        if self.table.discs:
            return free_masks(self.box, self.table)
        return {mask: inner(corners) for mask, corners in self.regions.items()}

    @cached_property
    def free(self) -> dict[int, bool]:
        """Each mask that has a free point, with whether it is odd."""
        return {mask: self.is_odd(p) for mask, p in self.points.items()}

    def candidates(self, lean: bool) -> dict[int, bool]:
        """The masks of all candidates, or of the lean ones, each with whether it is odd."""
        if not self.table.discs:
            return self.free
        result = {}
        for region, corners in sorted(self.regions.items()):
            p = inner(corners)
            straight = [is_straight_odd(part.elements, p) for part in self.parts]
            flips = [flips_of(part.elements, self.table.discs, p) for part in self.parts]
            for chosen in sets_of(rules_of(self.box, self.table, region, corners, lean)):
                odd = [one != bool((chosen & bits).bit_count() % 2) for one, bits in zip(straight, flips)]
                result[region | chosen << len(self.rows)] = self.truth(odd)
        return result

    @cached_property
    def lean(self) -> dict[int, bool]:
        """The masks that texts and notes are made from."""
        return self.candidates(lean=True)

    @cached_property
    def every(self) -> dict[int, bool]:
        """The masks of all candidates."""
        return self.candidates(lean=False)

    @cached_property
    def sampled(self) -> dict[int, bool]:
        """The masks that some sample has, each with whether it is odd."""
        if not self.table.discs:
            return self.free
        result = {}
        sets = Counter(mask & self.flats for mask in self.free)
        for region, corners in self.regions.items():
            for chosen in sample_sets(self.table, corners, sets[region]):
                mask = region | chosen << len(self.rows)
                result[mask] = self.free[mask]
        return result

    def is_sample(self, p: Point) -> bool:
        """Whether a free point may be printed: of contours a sample of its region."""
        return not self.is_flat or is_sample(self.regions[self.table.mask(p) & self.flats], p)
