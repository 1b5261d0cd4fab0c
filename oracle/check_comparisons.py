"""Checks the walk over two objects against all of their facet pairs, on drawn pieces."""

from itertools import product

from axes import AXIS_NUMBERS, parted, unrounded_gaps
from check_pairs import check_near
from comparison import Walk, parting_test
from comparison_draws import drawn_piece, near_placement, self_placement
from geometry import UNIT_MATRIX, shares_point
from hulls import KINDS, grow
from job_draws import filed
from pair_cases import Pair, meeting_shift
from pieces import placed
from random_cases import quarter_turn
from sharing import shared_weights

# No walk of these checks finds so many pairs.
ALL_PAIRS = 10_000


class Compared:
    """Two objects under a placement, with the walk over them."""

    def __init__(self, kind, moved, standing, numbers):
        """Walk over two lists of items."""
        self.kind, self.moved, self.standing = kind, moved, standing
        self.matrix, self.shift = numbers[:9], numbers[9:]
        hulls = [[grow(kind, item.corners) for item in items] for items in (moved, standing)]
        self.is_parted = parting_test(kind, *hulls, self.matrix, self.shift)
        self.hulls = hulls
        parts = [[item.parts for item in items] for items in (moved, standing)]
        self.walk = Walk(*parts, self.is_parted, ALL_PAIRS)

    def facet_pairs(self):
        """Give the numbers of all facet pairs."""
        return [
            (m, s)
            for m, first in enumerate(self.moved) if not first.parts
            for s, second in enumerate(self.standing) if not second.parts
        ]

    def corners(self, m, s):
        """Give the corner lists of two items."""
        return self.moved[m].corners, self.standing[s].corners


def plain_walk(compared, m, s, pairs):
    """Do the walk of the docs word for word; give the number of tests."""
    x_y, other = compared.moved[m].parts, compared.standing[s].parts
    if parted(compared.kind, compared.hulls[0][m], compared.hulls[1][s], compared.matrix, compared.shift):
        return 1
    if not x_y and not other:
        pairs.append((m, s))
        return 1
    if x_y and not other:
        calls = [(x_y[0], s), (x_y[1], s)]
    elif not x_y:
        calls = [(m, other[0]), (m, other[1])]
    else:
        calls = [(x_y[0], other[0]), (x_y[0], other[1]), (x_y[1], other[0]), (x_y[1], other[1])]
    return 1 + sum(plain_walk(compared, *call, pairs) for call in calls)


def check_plain_walk(compared):
    """Check pairs, their order and the number of tests against the plain walk."""
    pairs = []
    tests = plain_walk(compared, len(compared.moved) - 1, len(compared.standing) - 1, pairs)
    assert (pairs, tests) == (compared.walk.pairs, compared.walk.tests)


def check_list(compared):
    """Check the list against all facet pairs; give how many of them share a point."""
    pairs = set(compared.walk.pairs)
    everything = compared.facet_pairs()
    assert len(pairs) == len(compared.walk.pairs) and pairs <= set(everything)
    assert 1 <= compared.walk.tests <= len(compared.moved) * len(compared.standing)
    shared = 0
    for pair in everything:
        placed = *compared.corners(*pair), compared.matrix, compared.shift
        weights = shared_weights(*placed)
        if weights:
            assert shares_point(*placed, *weights)
            assert pair in pairs
            shared += 1
    return shared


def check_listed_near(compared):
    """Check that what is listed is near along each axis."""
    for pair in compared.walk.pairs:
        for number in AXIS_NUMBERS:
            check_near(*compared.corners(*pair), compared.matrix, compared.shift, number)


def items_over(items, number):
    """Give the items under which an item lies, itself among them."""
    found = [number]
    for place, item in enumerate(items):
        if found[-1] in item.parts:
            found.append(place)
    return found


def unrounded_parted(compared, m, s):
    """Say whether some axis parts the unrounded hulls of two items."""
    corners = compared.corners(m, s)
    return any(
        max(unrounded_gaps(compared.kind, *corners, compared.matrix, compared.shift, number)) > 0
        for number in AXIS_NUMBERS
    )


def check_left_out(compared):
    """Check that each facet pair that is left out lies under items whose unrounded hulls are parted."""
    for m, s in set(compared.facet_pairs()) - set(compared.walk.pairs):
        over = product(items_over(compared.moved, m), items_over(compared.standing, s))
        assert any(unrounded_parted(compared, *items) for items in over)


def meeting_placement(rng, kind, moved, standing):
    """Draw a placement that brings a corner of one object exactly onto one of the other."""
    pair = Pair(kind, moved[-1].corners, standing[-1].corners, quarter_turn(rng))
    return placed(pair.matrix, meeting_shift(rng, pair))


def drawn_comparison(rng, kind, most, turn):
    """Draw two pieces, or one twice, near contact; in half of the turns corners meet exactly."""
    if turn % 4 == 0:
        items, = filed(kind, drawn_piece(rng, most))
        return Compared(kind, items, items, self_placement(rng))
    moved, standing = filed(kind, drawn_piece(rng, most), drawn_piece(rng, most))
    draw = meeting_placement if turn % 4 < 3 else near_placement
    return Compared(kind, moved, standing, draw(rng, kind, moved, standing))


def check_comparisons(rng, rounds):
    """Check drawn comparisons of each kind; give the numbers of listed and of sharing pairs."""
    listed = shared = 0
    for turn in range(rounds):
        for kind in KINDS:
            compared = drawn_comparison(rng, kind, (1, 3, 6, 12, 18)[turn % 5], turn)
            check_plain_walk(compared)
            shared += check_list(compared)
            listed += len(compared.walk.pairs)
            check_listed_near(compared)
            if kind.faces and len(compared.moved) + len(compared.standing) < 30:
                check_left_out(compared)
    assert shared >= 5 * rounds and listed >= 2 * shared
    return listed, shared


def check_stopping(rng, rounds):
    """Check that a walk that may find fewer pairs finds the first ones, and stops."""
    for turn in range(rounds):
        compared = drawn_comparison(rng, KINDS[turn % 3], 8, turn)
        whole = compared.walk.pairs
        parts = [[item.parts for item in items] for items in (compared.moved, compared.standing)]
        for most in range(len(whole)):
            walk = Walk(*parts, compared.is_parted, most)
            assert walk.is_over() and walk.pairs == whole[:most + 1]
        assert not Walk(*parts, compared.is_parted, len(whole)).is_over()


def check_sharing_cases():
    """Check the sharing of points on facets that cross, touch and miss."""
    floor = [(0, 0, 0), (40, 0, 0), (0, 40, 0)]
    needle = [(10, 10, -5), (10, 10, 5), (10, 10, 5)]
    meeting = (0, 0, 0), (40, 0, 20), (0, 0, -20), (-40, -40, 0)
    missing = (80, 80, 0), (0, 0, 21), (-41, 0, 0), (41, 40, 0)
    for way in meeting + missing:
        shift = tuple(1024 * entry for entry in way)
        weights = shared_weights(needle, floor, UNIT_MATRIX, shift)
        assert bool(weights) == (way in meeting)
        assert not weights or shares_point(needle, floor, UNIT_MATRIX, shift, *weights)
