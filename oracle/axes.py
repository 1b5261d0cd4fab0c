"""The 26 axes, the two gaps along an axis, and whether two hulls are parted."""

from geometry import W, dot, image, scale, times, times_transposed

FIXED_AXES = (
    (1, 0, 0),
    (0, 1, 0),
    (0, 0, 1),
    (1, 1, 1),
    (1, 1, -1),
    (1, -1, 1),
    (1, -1, -1),
    (1, 1, 0),
    (1, -1, 0),
    (1, 0, 1),
    (1, 0, -1),
    (0, 1, 1),
    (0, 1, -1),
)

AXIS_NUMBERS = range(1, 27)


def axis(number, matrix):
    """Give the axis of a number from 1 to 26."""
    if number <= 13:
        return FIXED_AXES[number - 1]
    turned = times(matrix, FIXED_AXES[number - 14])
    return tuple(entry // 4096 for entry in turned)


def moved_direction(matrix, line):
    """Give u, the direction along which the moved hull is asked."""
    return times_transposed(matrix, line)


def standing_direction(line):
    """Give W L, the direction along which the standing hull is asked."""
    return scale(W, line)


def moved_reaches(kind, hull, matrix, line):
    """Give the reaches of the moved hull along -u and u."""
    u = moved_direction(matrix, line)
    return kind.reach(hull, scale(-1, u)), kind.reach(hull, u)


def standing_reaches(kind, hull, line):
    """Give the reaches of the standing hull along W L and -W L."""
    wl = standing_direction(line)
    return kind.reach(hull, wl), kind.reach(hull, scale(-1, wl))


def gaps_between(moved, standing, along):
    """Give both gaps from the reaches of both hulls along one axis and from L.T = along."""
    return -moved[0] + along - standing[0], -standing[1] - moved[1] - along


def gaps_along(kind, moved_hull, standing_hull, matrix, shift, line):
    """Give the first and the second gap along the axis L = line."""
    moved = moved_reaches(kind, moved_hull, matrix, line)
    standing = standing_reaches(kind, standing_hull, line)
    return gaps_between(moved, standing, dot(line, shift))


def gaps(kind, moved_hull, standing_hull, matrix, shift, number):
    """Give the first and the second gap along the axis of a number."""
    line = axis(number, matrix)
    return gaps_along(kind, moved_hull, standing_hull, matrix, shift, line)


def unrounded_gaps(kind, moved, standing, matrix, shift, number):
    """Give both unrounded gaps of two corner lists along the axis of a number."""
    line = axis(number, matrix)
    u = moved_direction(matrix, line)
    wl = standing_direction(line)
    along = 256 * dot(line, shift)
    first = -kind.unrounded(moved, scale(-1, u)) + along - kind.unrounded(standing, wl)
    second = -kind.unrounded(standing, scale(-1, wl)) - kind.unrounded(moved, u) - along
    return (first, second)


def parting_axes(kind, moved_hull, standing_hull, matrix, shift):
    """Give the numbers of the axes that part two hulls."""
    return [
        number
        for number in AXIS_NUMBERS
        if max(gaps(kind, moved_hull, standing_hull, matrix, shift, number)) > 0
    ]


def parted(kind, moved_hull, standing_hull, matrix, shift):
    """Say whether some axis parts two hulls."""
    return parting_axes(kind, moved_hull, standing_hull, matrix, shift) != []


def corner_distance(matrix, shift, v, w, number):
    """Give the distance of a moved corner v and a standing corner w along an axis."""
    line = axis(number, matrix)
    return abs(dot(line, image(matrix, shift, v)) - W * dot(line, w))
