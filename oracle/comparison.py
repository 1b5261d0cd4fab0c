"""Comparing two objects by docs/comparison.md: the range of a placement and the walk."""

from functools import cache

from axes import AXIS_NUMBERS, axis, gaps_between, moved_reaches, standing_reaches
from geometry import MATRIX_LIMIT, SHIFT_LIMIT, dot


def placement_in_range(numbers):
    """Say whether twelve numbers, M row by row and then T, are those of a placement."""
    matrix, shift = numbers[:9], numbers[9:]
    return (
        all(-MATRIX_LIMIT <= number <= MATRIX_LIMIT for number in matrix)
        and all(-SHIFT_LIMIT <= number <= SHIFT_LIMIT for number in shift)
    )


def parting_test(kind, moved_hulls, standing_hulls, matrix, shift):
    """Give a function that says of a moved and a standing item whether some axis parts their hulls.

    The reaches of each item are worked out once, when the item is first asked about.
    """
    lines = [axis(number, matrix) for number in AXIS_NUMBERS]
    products = [dot(line, shift) for line in lines]

    @cache
    def reaches_of_moved(m):
        return [moved_reaches(kind, moved_hulls[m], matrix, line) for line in lines]

    @cache
    def reaches_of_standing(s):
        return [standing_reaches(kind, standing_hulls[s], line) for line in lines]

    def is_parted(m, s):
        axes = zip(reaches_of_moved(m), reaches_of_standing(s), products)
        return any(max(gaps_between(*along_axis)) > 0 for along_axis in axes)

    return is_parted


class Walk:
    """The walk over the items of two objects, with its pairs and its number of tests."""

    def __init__(self, moved_parts, standing_parts, is_parted, most_pairs):
        """Walk from the pair of the two last items; stop after more than so many pairs.

        The parts are those of each item of an object: two item numbers, or none for a facet.
        """
        self.moved_parts = moved_parts
        self.standing_parts = standing_parts
        self.is_parted = is_parted
        self.most_pairs = most_pairs
        self.pairs = []
        self.tests = 0
        self.visit(len(moved_parts) - 1, len(standing_parts) - 1)

    def is_over(self):
        """Say whether the walk has found more pairs than it may."""
        return len(self.pairs) > self.most_pairs

    def visit(self, m, s):
        """Make one test, and go on with all that it leads to."""
        if self.is_over():
            return
        self.tests += 1
        if self.is_parted(m, s):
            return
        if not self.moved_parts[m] and not self.standing_parts[s]:
            self.pairs.append((m, s))
            return
        for x in self.moved_parts[m] or (m,):
            for y in self.standing_parts[s] or (s,):
                self.visit(x, y)
