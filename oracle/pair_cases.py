"""Cases for gaps and parting: each has a kind, two facets and a placement."""

from axes import AXIS_NUMBERS, axis, gaps, gaps_along, parted, parting_axes
from geometry import SHIFT_LIMIT, UNIT_MATRIX, W, add, dot, scale, subtract, times
from hulls import BOX, KINDS, grow
from random_cases import (
    MATRIX_DRAWS,
    any_matrix,
    axis_turn,
    corners_around,
    facet,
    free_turn,
    limit_shift,
    mirrored_turn,
    shrunken_turn,
    some_matrix,
    some_shift,
    stepped_matrix,
    triple,
)

TURNED = (629146, -838861, 0, 838861, 629146, 0, 0, 0, 1048576)
FLOOR = [(0, 0, 0), (40, 0, 0), (0, 40, 0)]
LIFTED = [(0, 0, 9), (40, 0, 9), (0, 40, 9)]
SLANTED = [(0, 0, 0), (40, 0, 0), (0, 40, 9)]

NEAR_GAPS = (-1, 0, 1, 0, 1, -1, 2, -2, 64, -300)
STEPS = ((1, 0, 0), (0, 1, 0), (0, 0, 1), (-1, 0, 0), (0, -1, 0), (0, 0, -1))

GENERIC_DRAWS = (axis_turn, free_turn, free_turn, mirrored_turn, shrunken_turn, any_matrix, stepped_matrix)


# Shifts with a wanted product L.T


def bezout(a, b):
    """Give g, x, y with g the greatest common divisor and a x + b y = g."""
    x, y, next_x, next_y = 1, 0, 0, 1
    while b:
        quotient = a // b
        a, b = b, a - quotient * b
        x, next_x = next_x, x - quotient * next_x
        y, next_y = next_y, y - quotient * next_y
    return (a, x, y) if a >= 0 else (-a, -x, -y)


def bezout3(line):
    """Give g and a triple whose product with the line is g, the greatest common divisor."""
    g, x, y = bezout(line[0], line[1])
    g, p, q = bezout(g, line[2])
    return g, (p * x, p * y, q)


def shift_with_product(line, wanted):
    """Give a short shift T with L.T as wanted, or as little below as can be."""
    if line == (0, 0, 0):
        return (0, 0, 0)
    g, unit = bezout3(line)
    wanted -= wanted % g
    square = dot(line, line)
    start = tuple(wanted * entry // square for entry in line)
    return add(start, scale((wanted - dot(line, start)) // g, unit))


def sideways(rng, line):
    """Draw a shift that has the product 0 with the line."""
    x, y, z = line
    g = bezout3(line)[0] or 1
    total = (0, 0, 0)
    for across in ((y, -x, 0), (z, 0, -x), (0, z, -y)):
        step = tuple(entry // g for entry in across)
        total = add(total, scale(rng.randint(-3_000, 3_000), step))
    return total


def in_range(shift):
    """Say whether a shift is in its range."""
    return max(map(abs, shift)) <= SHIFT_LIMIT


# Gaps


def worked_gap_cases():
    """Give the gaps that are worked in the docs."""
    for height in (28_672, 32_768, 49_152, 53_248):
        for number in (3, 16):
            yield BOX, FLOOR, LIFTED, UNIT_MATRIX, (0, 0, height), number
    yield BOX, SLANTED, LIFTED, TURNED, (-180000, -2048, 0), 15


def near_gap_shift(rng, kind, moved, standing, matrix, number, which):
    """Draw a shift that brings one of the two gaps next to 0."""
    line = axis(number, matrix)
    hulls = grow(kind, moved), grow(kind, standing)
    resting = gaps_along(kind, *hulls, matrix, (0, 0, 0), line)[which]
    change = rng.choice(NEAR_GAPS) - resting
    shift = shift_with_product(line, change if which == 0 else -change)
    return add(shift, sideways(rng, line))


def gap_shift(rng, mode, kind, moved, standing, matrix, number):
    """Draw a shift of one of five modes."""
    if mode == 0:
        return some_shift(rng)
    if mode == 1:
        return limit_shift(rng) if rng.randrange(2) else triple(rng, rng.choice((0, 5, 9_000)))
    return near_gap_shift(rng, kind, moved, standing, matrix, number, mode % 2)


def gap_case(rng, draw, number, kind, mode):
    """Draw one case for the gaps along the axis of a number."""
    while True:
        moved, standing, matrix = facet(rng), facet(rng), draw(rng)
        shift = gap_shift(rng, mode, kind, moved, standing, matrix, number)
        if in_range(shift):
            return kind, moved, standing, matrix, shift, number


def gap_cases(rng):
    """Give all cases for the gaps: each sort of matrix with each axis."""
    yield from worked_gap_cases()
    turn = 0
    for draw in MATRIX_DRAWS:
        for number in AXIS_NUMBERS:
            for mode in range(5):
                yield gap_case(rng, draw, number, KINDS[turn % 3], mode)
                turn += 1


# Parting


class Pair:
    """Two facets, their hulls of one kind, and a matrix."""

    def __init__(self, kind, moved, standing, matrix):
        """Grow both hulls and take the gaps of the resting placement."""
        self.kind, self.moved, self.standing, self.matrix = kind, moved, standing, matrix
        self.hulls = grow(kind, moved), grow(kind, standing)
        self.lines = [axis(number, matrix) for number in AXIS_NUMBERS]
        self.resting = [
            gaps_along(kind, *self.hulls, matrix, (0, 0, 0), line) for line in self.lines
        ]

    def case(self, shift):
        """Give the case of this pair under a shift."""
        return self.kind, self.moved, self.standing, self.matrix, shift

    def parted(self, shift):
        """Say whether the hulls are parted under a shift."""
        return parted(self.kind, *self.hulls, self.matrix, shift)

    def parting_axes(self, shift):
        """Give the numbers of the axes that part the hulls under a shift."""
        return parting_axes(self.kind, *self.hulls, self.matrix, shift)

    def quickly_parted(self, shift):
        """Say the same as parted, from the gaps of the resting placement."""
        for line, (first, second) in zip(self.lines, self.resting):
            along = dot(line, shift)
            if first + along > 0 or second - along > 0:
                return True
        return False


def meeting_shift(rng, pair):
    """Give a shift that brings a moved corner onto a standing corner, or all but."""
    v, w = rng.choice(pair.moved), rng.choice(pair.standing)
    exact = subtract(scale(W, w), times(pair.matrix, v))
    return tuple(entry // 256 for entry in exact)


def last_step(pair, start, step):
    """Give the number of steps before the hulls are parted, or None if they never are."""
    if pair.quickly_parted(start):
        return None
    low, high = 0, 1
    while not pair.quickly_parted(add(start, scale(high, step))):
        low, high = high, 2 * high
        if high > 2**32:
            return None
    while high - low > 1:
        middle = (low + high) // 2
        if pair.quickly_parted(add(start, scale(middle, step))):
            high = middle
        else:
            low = middle
    return low


def brink(pair, start, step):
    """Give the last shift along the step that does not part and the first that does."""
    count = last_step(pair, start, step)
    if count is None:
        return None
    inside, outside = add(start, scale(count, step)), add(start, scale(count + 1, step))
    return (inside, outside) if in_range(inside) and in_range(outside) else None


def tuned(pair, shift, number, wanted):
    """Move a shift a little so that the larger gap along an axis is as wanted, or about so."""
    line = axis(number, pair.matrix)
    first, second = gaps(pair.kind, *pair.hulls, pair.matrix, shift, number)
    change = wanted - first if first >= second else second - wanted
    return add(shift, shift_with_product(line, change))


def tuned_brink(pair, shift, number):
    """Give two shifts with gaps 0 and 1 along one axis, if only that axis parts at the second."""
    inside, outside = tuned(pair, shift, number, 0), tuned(pair, shift, number, 1)
    if not (in_range(inside) and in_range(outside)):
        return None
    if pair.parting_axes(inside) or pair.parting_axes(outside) != [number]:
        return None
    return inside, outside


def drawn_pair(rng, kind, draw):
    """Draw a pair of one kind with a matrix of one sort."""
    if rng.randrange(3):
        moved = corners_around(rng, triple(rng, 200), rng.choice((3, 60, 2_000)), 3)
        standing = corners_around(rng, triple(rng, 200), rng.choice((3, 60, 2_000)), 3)
        return Pair(kind, moved, standing, draw(rng))
    return Pair(kind, facet(rng), facet(rng), draw(rng))


def axis_brink(rng, kind, number):
    """Look for a pair that one axis alone parts, and shifts on both sides of contact."""
    for _ in range(2_000):
        pair = drawn_pair(rng, kind, rng.choice(GENERIC_DRAWS))
        line = axis(number, pair.matrix)
        step = add(scale(rng.choice((1, -1)), line), triple(rng, max(map(abs, line)) // 8))
        found = step != (0, 0, 0) and brink(pair, meeting_shift(rng, pair), step)
        if not found or pair.parting_axes(found[1]) != [number]:
            continue
        shifts = tuned_brink(pair, found[1], number)
        if shifts:
            return pair, shifts
    return None


def free_brink(rng, kind, draw):
    """Look for shifts on both sides of contact along a step of any direction."""
    while True:
        pair = drawn_pair(rng, kind, draw)
        step = rng.choice(STEPS) if rng.randrange(2) else triple(rng, 3)
        shifts = step != (0, 0, 0) and brink(pair, meeting_shift(rng, pair), step)
        if shifts:
            return pair, shifts


def worked_parted_cases():
    """Give the parted and other pairs that are worked in the docs."""
    for height in (28_672, 32_768, 32_767, 49_152, 49_153, 53_248):
        yield BOX, FLOOR, LIFTED, UNIT_MATRIX, (0, 0, height)
    yield BOX, SLANTED, LIFTED, TURNED, (-180000, -2048, 0)


def parted_cases(rng):
    """Give all cases for parting: mostly in twos, on either side of contact."""
    yield from worked_parted_cases()
    for kind in KINDS:
        for number in list(AXIS_NUMBERS) * 2:
            found = axis_brink(rng, kind, number)
            if found:
                yield from map(found[0].case, found[1])
    draws = [draw for draw in MATRIX_DRAWS for _ in range(7)]
    for turn, draw in enumerate(draws):
        pair, shifts = free_brink(rng, KINDS[turn % 3], draw)
        yield from map(pair.case, shifts)
    for turn in range(45):
        pair = Pair(KINDS[turn % 3], facet(rng), facet(rng), some_matrix(rng))
        yield pair.case(some_shift(rng))
