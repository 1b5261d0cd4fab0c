"""Cases for the reach: each is a kind, a corner list and a direction."""

from itertools import permutations, product

from geometry import CORNER_LIMIT, DIRECTION_LIMIT, W, scale
from hulls import BALL, BOX, FACED_KINDS, KINDS, MANY, MANY_FACES
from random_cases import (
    CORNER_SCALES,
    DIRECTION_SCALES,
    SIGNS,
    clamp,
    corners_around,
    extreme_corners,
    signed,
    some_corners,
    triple,
)

EDGE_SIZES = (0, 1, 63, 64, 65, DIRECTION_LIMIT)

LIFTED = [(0, 0, 9), (40, 0, 9), (0, 40, 9)]
TILTED = [(10, 20, 30), (13, 24, 30), (10, 20, 29)]

# Every way in which three absolute values can be ordered, ties included.
RANKS = tuple(
    ranks
    for ranks in product(range(3), repeat=3)
    if set(ranks) == set(range(max(ranks) + 1))
)

QUADRUPLES = ((1, 2, 2, 3), (2, 3, 6, 7), (1, 4, 8, 9), (0, 3, 4, 5), (2, 6, 9, 11), (0, 0, 1, 1))


def worked_cases():
    """Give the cases that are worked in the docs."""
    for kind in FACED_KINDS:
        for u in ((500, -300, 100), (-500, 300, -100), (0, 0, -100), (0, 0, 0)):
            yield kind, LIFTED, u
    for second in ((3, 4, 0), (1, 1, 0)):
        yield BALL, [(0, 0, 0), second, (0, 0, 0)], (0, 0, W)
    for u in ((500, -300, 100), (-500, 300, -100), (0, 0, -100), (0, 0, 0)):
        yield BALL, TILTED, u


def edge_cases(rng):
    """Give directions with every mix of entries at the edges."""
    for turn, sizes in enumerate(product(EDGE_SIZES, repeat=3)):
        for kind in KINDS if turn % 2 else FACED_KINDS:
            yield kind, some_corners(rng, rng.randint(1, 3)), signed(rng, sizes)


def ranked_sizes(rng, ranks, lowest):
    """Draw absolute values in the given order; the lowest is 0 on demand."""
    limit = rng.choice((6, 200, 5_000, 2 * W, DIRECTION_LIMIT))
    sizes = sorted(rng.sample(range(1, limit + 1), 3))
    if lowest == 0:
        sizes[0] = 0
    return tuple(sizes[rank] for rank in ranks)


def order_cases(rng):
    """Give directions in every order of absolute values, with ties, in all signs."""
    turn = 0
    for ranks, signs, lowest in product(RANKS, SIGNS, (0, 1)):
        u = tuple(s * x for s, x in zip(signs, ranked_sizes(rng, ranks, lowest)))
        corners = some_corners(rng, rng.randint(1, 5))
        yield MANY, corners, u
        if turn % 2:
            yield BOX, corners, u
        if turn % 4 == 1:
            yield BALL, corners, u
        turn += 1


def direction_of_weights(rng, weights):
    """Give a direction that has these three weights in the 26-faced hull."""
    first, second, third = weights
    sizes = [first + second + third, second + third, third]
    return signed(rng, rng.choice(tuple(permutations(sizes))))


def weight_cases(rng):
    """Give directions whose weights are next to multiples of 64."""
    for steps in product((-1, 0, 1), repeat=3):
        for limit in (3, 10_000_000):
            weights = [64 * rng.randint(1, limit) + step for step in steps]
            centre = triple(rng, 500)
            corners = corners_around(rng, centre, 40, rng.randint(1, 4))
            yield BOX, corners, signed(rng, weights)
            yield MANY, corners, direction_of_weights(rng, weights)


def face_cases(rng):
    """Give directions along one face, with planes of every remainder."""
    for face, weight in product(MANY_FACES, (1, 63, 64, 65)):
        corners = corners_around(rng, (0, 0, 0), 9, rng.randint(1, 2))
        for kind in FACED_KINDS:
            yield kind, corners, scale(weight, face)
    for face in MANY_FACES:
        yield BALL, corners_around(rng, (0, 0, 0), 9, rng.randint(1, 3)), scale(64, face)


def far_cases(rng):
    """Give corner lists far from the origin on each side, asked both ways and askew."""
    for side in MANY_FACES:
        centre = scale(rng.choice((150, 9_000, 32_000)), side)
        corners = corners_around(rng, centre, rng.choice((0, 7, 100, 700)), rng.randint(1, 5))
        size = rng.choice((1, 100, 4_001, W, 768 * W))
        askew = triple(rng, rng.choice((100, 10_000, W)))
        for kind in KINDS:
            yield kind, corners, scale(size, side)
            yield kind, corners, scale(-size, side)
            yield kind, corners, askew


def scale_cases(rng):
    """Give corners and directions of every size, in lists of every length."""
    for corner_limit, direction_limit in product(CORNER_SCALES, DIRECTION_SCALES):
        for count in (1, 2, 3, 5, 7, 8):
            corners = corners_around(rng, (0, 0, 0), corner_limit, count)
            for kind in KINDS:
                yield kind, corners, triple(rng, direction_limit)


def extreme_cases(rng):
    """Give corners and directions at the ends of their ranges."""
    for signs in SIGNS:
        for kind in KINDS:
            yield kind, [scale(CORNER_LIMIT, signs)], scale(DIRECTION_LIMIT, signs)
            yield kind, [scale(CORNER_LIMIT, signs)], scale(-DIRECTION_LIMIT, signs)
            ends = [scale(CORNER_LIMIT, signs), scale(-CORNER_LIMIT, signs)]
            yield kind, ends, scale(DIRECTION_LIMIT, signs)
    cube = [scale(CORNER_LIMIT, signs) for signs in SIGNS]
    for kind in KINDS:
        yield kind, cube, (DIRECTION_LIMIT, -DIRECTION_LIMIT, DIRECTION_LIMIT - 1)
        yield kind, cube[::-1], (DIRECTION_LIMIT - 64, 1, 1 - DIRECTION_LIMIT)
    for count in (1, 2, 3, 4, 6, 8):
        for kind in KINDS:
            corners = extreme_corners(rng, count)
            yield kind, corners, signed(rng, (DIRECTION_LIMIT,) * 3)
            yield kind, corners, triple(rng, DIRECTION_LIMIT)
            near = tuple(DIRECTION_LIMIT - rng.randint(0, 130) for _ in range(3))
            yield kind, corners, signed(rng, near)


def root_direction(rng, quadruple, factor, step):
    """Give a direction whose square is a square number, or just beside one."""
    sizes = [factor * x for x in quadruple[:3]]
    sizes[rng.randrange(3)] += step
    return signed(rng, rng.sample([clamp(x, DIRECTION_LIMIT) for x in sizes], 3))


def ball_direction_cases(rng):
    """Give balls asked along directions of a whole, or nearly whole, length."""
    for quadruple in QUADRUPLES:
        for factor in (1, 64, 4_099, DIRECTION_LIMIT // quadruple[2]):
            for step in (-1, 0, 1):
                u = root_direction(rng, quadruple, factor, step)
                yield BALL, some_corners(rng, rng.randint(2, 3)), u
    for size in (W, DIRECTION_LIMIT - 1, DIRECTION_LIMIT):
        yield BALL, [(0, 0, 0), (0, 0, 1)], (size, 1, 0)
        yield BALL, [(0, 0, 0), (0, 0, 1)], (-1, 0, size)


def ball_radius_cases(rng):
    """Give balls whose radius is whole, or just beside a whole number."""
    for quadruple in QUADRUPLES:
        for factor in (1, 100, 2_900):
            for step in (-1, 0, 1):
                arm = root_direction(rng, quadruple, factor, step)
                centre = triple(rng, 60)
                tip = tuple(c + x for c, x in zip(centre, arm))
                yield BALL, [centre, tip], (0, 0, 256)


def ball_order_cases(rng):
    """Give the same corners in every order, which moves the centre of a ball."""
    for limit in (10, 400, CORNER_LIMIT):
        corners = corners_around(rng, (0, 0, 0), limit, 3)
        u = triple(rng, 100 * limit)
        for order in permutations(corners):
            yield BALL, list(order), u


def ball_rounding_cases(rng):
    """Give balls whose last rounding is next to a multiple of 256, on both sides of 0."""
    for whole, step in product((-2, -1, 0, 1, 2), (-1, 0, 1)):
        yield BALL, [(256 * whole + step, 5, -5)], (1, 0, 0)
        yield BALL, [(5, 256 * whole + step, -5), (5, 256 * whole + step, -2)], (0, -1, 0)


def reach_cases(rng):
    """Give all cases for the reach."""
    yield from worked_cases()
    yield from edge_cases(rng)
    yield from order_cases(rng)
    yield from weight_cases(rng)
    yield from face_cases(rng)
    yield from far_cases(rng)
    yield from scale_cases(rng)
    yield from extreme_cases(rng)
    yield from ball_direction_cases(rng)
    yield from ball_radius_cases(rng)
    yield from ball_order_cases(rng)
    yield from ball_rounding_cases(rng)
