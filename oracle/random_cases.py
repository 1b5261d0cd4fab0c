"""Draws of corners, directions, matrices and shifts from a seeded generator."""

from itertools import permutations, product

from geometry import (
    CORNER_LIMIT,
    DIRECTION_LIMIT,
    MATRIX_LIMIT,
    SHIFT_LIMIT,
    UNIT_MATRIX,
    W,
)

CORNER_SCALES = (4, 300, CORNER_LIMIT)
DIRECTION_SCALES = (5, 700, 3 * W, DIRECTION_LIMIT)

SMALL_ENTRIES = (-4097, -4096, -4095, -1, 0, 1, 4095, 4096, 4097)

SIGNS = tuple(product((1, -1), repeat=3))


def triple(rng, limit):
    """Draw a triple with entries from -limit to limit."""
    return tuple(rng.randint(-limit, limit) for _ in range(3))


def signed(rng, values):
    """Give the values with a random sign for each."""
    return tuple(rng.choice((1, -1)) * value for value in values)


def clamp(value, limit):
    """Bring a value into the range from -limit to limit."""
    return max(-limit, min(limit, value))


def corners_around(rng, centre, limit, count):
    """Draw corners within a limit of a centre, kept in the range of corners."""
    return [
        tuple(clamp(c + x, CORNER_LIMIT) for c, x in zip(centre, triple(rng, limit)))
        for _ in range(count)
    ]


def some_corners(rng, count):
    """Draw a corner list: small or large, near the origin or away from it."""
    limit = rng.choice(CORNER_SCALES)
    centre = triple(rng, rng.choice((0,) + CORNER_SCALES))
    return corners_around(rng, centre, limit, count)


def extreme_corners(rng, count):
    """Draw corners with entries at the ends of the range, or 0."""
    choices = (CORNER_LIMIT, -CORNER_LIMIT, CORNER_LIMIT, -CORNER_LIMIT, 0)
    return [tuple(rng.choice(choices) for _ in range(3)) for _ in range(count)]


def facet(rng):
    """Draw a facet; now and then it is a segment, a point or an extreme one."""
    shape = rng.randrange(12)
    if shape == 0:
        return some_corners(rng, 1) * 3
    if shape == 1:
        a, b = some_corners(rng, 2)
        return rng.choice(([a, a, b], [a, b, a], [b, a, a]))
    if shape == 2:
        return extreme_corners(rng, 3)
    return some_corners(rng, 3)


def some_direction(rng):
    """Draw a direction of one of several sizes, now and then with ties or zeros."""
    u = list(triple(rng, rng.choice(DIRECTION_SCALES)))
    shape = rng.randrange(6)
    if shape == 0:
        u[rng.randrange(3)] = 0
    if shape == 1:
        u[rng.randrange(3)] = rng.choice((1, -1)) * u[rng.randrange(3)]
    return tuple(u)


def round_half_up(a, b):
    """Give a / b rounded to the nearest whole number, for b above 0."""
    return (2 * a + b) // (2 * b)


def turn(a, b, c, d):
    """Give the turn of a whole-number quaternion, scaled by W and rounded."""
    norm = a * a + b * b + c * c + d * d
    entries = (
        a * a + b * b - c * c - d * d, 2 * (b * c - a * d), 2 * (b * d + a * c),
        2 * (b * c + a * d), a * a - b * b + c * c - d * d, 2 * (c * d - a * b),
        2 * (b * d - a * c), 2 * (c * d + a * b), a * a - b * b - c * c + d * d,
    )
    return tuple(round_half_up(entry * W, norm) for entry in entries)


def unit_matrix(rng):
    """Give the unturned matrix."""
    return UNIT_MATRIX


def quarter_turn(rng):
    """Draw a turn, or mirrored turn, that sends axes to axes."""
    order = rng.choice(tuple(permutations(range(3))))
    matrix = [0] * 9
    for row, column in enumerate(order):
        matrix[3 * row + column] = rng.choice((W, -W))
    return tuple(matrix)


def axis_turn(rng):
    """Draw a turn about one of the three coordinate axes."""
    parts = [rng.randint(-50, 50) or 7, 0, 0, 0]
    parts[rng.randint(1, 3)] = rng.randint(-50, 50) or 11
    return turn(*parts)


def free_turn(rng):
    """Draw a turn about any axis."""
    parts = [rng.randint(-1000, 1000) for _ in range(4)]
    return turn(*parts) if any(parts) else UNIT_MATRIX


def mirrored_turn(rng):
    """Draw a turn with every entry negated."""
    return tuple(-entry for entry in free_turn(rng))


def shrunken_turn(rng):
    """Draw a turn that shrinks the piece, by up to a thousand times."""
    divisor = rng.choice((2, 3, 10, 100, 1000))
    return tuple(round_half_up(entry, divisor) for entry in free_turn(rng))


def any_matrix(rng):
    """Draw a matrix that need be no turn."""
    return tuple(rng.randint(-MATRIX_LIMIT, MATRIX_LIMIT) for _ in range(9))


def extreme_matrix(rng):
    """Draw a matrix with entries at the ends of the range, now and then 0."""
    choices = rng.choice(((W, -W), (W, -W, 0), (W, -W, W - 1, 1 - W)))
    return tuple(rng.choice(choices) for _ in range(9))


def small_matrix(rng):
    """Draw a matrix with entries at and next to 0 and +-4096."""
    return tuple(rng.choice(SMALL_ENTRIES) for _ in range(9))


def stepped_matrix(rng):
    """Draw a matrix with entries at and next to multiples of 4096."""
    return tuple(
        clamp(4096 * rng.randint(-256, 256) + rng.randint(-1, 1), MATRIX_LIMIT)
        for _ in range(9)
    )


def flat_matrix(rng):
    """Draw a matrix that flattens the piece: rows or columns are 0 or almost 0."""
    matrix = list(rng.choice((free_turn, any_matrix, unit_matrix))(rng))
    little = rng.choice((0, 0, 5, -5))
    for _ in range(rng.randint(1, 3)):
        line = rng.randrange(3)
        if rng.randrange(2):
            matrix[3 * line:3 * line + 3] = [little, 0, 0]
        else:
            matrix[line::3] = [little, 0, 0]
    return tuple(matrix)


MATRIX_DRAWS = (
    unit_matrix,
    quarter_turn,
    axis_turn,
    free_turn,
    mirrored_turn,
    shrunken_turn,
    any_matrix,
    extreme_matrix,
    small_matrix,
    stepped_matrix,
    flat_matrix,
)


def some_matrix(rng):
    """Draw a matrix of any sort."""
    return rng.choice(MATRIX_DRAWS)(rng)


def limit_shift(rng):
    """Draw a shift with entries at the ends of the range, now and then 0."""
    return tuple(rng.choice((SHIFT_LIMIT, -SHIFT_LIMIT, SHIFT_LIMIT, -SHIFT_LIMIT, 0)) for _ in range(3))


def some_shift(rng):
    """Draw a shift: none, small, of some ticks, or of any size."""
    if rng.randrange(8) == 0:
        return limit_shift(rng)
    return triple(rng, rng.choice((0, 3, 5_000, 2_000_000, SHIFT_LIMIT)))
