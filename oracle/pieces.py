"""Pieces for comparisons: lists of facets, each of nine numbers, and trees over them.

A tree is the list of its ties. Facets are numbered first and ties after them, as in a job.
"""

from geometry import CORNER_LIMIT, MATRIX_LIMIT, SHIFT_LIMIT, UNIT_MATRIX, W
from random_cases import clamp, corners_around, extreme_corners, triple
from register import HEIGHT_LIMIT

QUARTER = (0, -W, 0, W, 0, 0, 0, 0, W)
MIRRORED = (-W, 0, 0, 0, -W, 0, 0, 0, -W)
FLAT = (0, 0, 0, 0, 0, 0, 0, 0, 0)

TICK = 4096  # of a shift


def ticks(*entries):
    """Give a shift of some ticks along each axis."""
    return tuple(TICK * entry for entry in entries)


def placed(matrix=UNIT_MATRIX, shift=(0, 0, 0)):
    """Give the twelve numbers of a placement."""
    return (*matrix, *shift)


def limit_of(place):
    """Give the end of the range of one of the twelve numbers of a placement."""
    return MATRIX_LIMIT if place < 9 else SHIFT_LIMIT


def beside(*shift):
    """Give the twelve numbers of an unturned placement."""
    return placed(UNIT_MATRIX, shift)


# Trees


def by_halves(count):
    """Tie each half, then the halves."""
    ties = []

    def join(first, end):
        if end - first == 1:
            return first
        middle = (first + end) // 2
        ties.append((join(first, middle), join(middle, end)))
        return count + len(ties) - 1

    join(0, count)
    return ties


def by_levels(count):
    """Tie neighbours level by level; an odd one out goes up a level."""
    ties, level = [], list(range(count))
    while len(level) > 1:
        above = []
        for x, y in zip(level[::2], level[1::2]):
            ties.append((x, y))
            above.append(count + len(ties) - 1)
        level = above + level[len(level) - len(level) % 2:]
    return ties


def chain(count, sides=(0,)):
    """Tie the last item with the next facet, as the first part where the side is 0, else as the second."""
    ties, last = [], 0
    for new in range(1, count):
        ties.append((new, last) if sides[new % len(sides)] else (last, new))
        last = count + len(ties) - 1
    return ties


def lopsided(count, links=24):
    """Tie some facets by halves, then the others one by one on top."""
    low = max(1, count - links)
    below = by_halves(low)
    renumbered = [tuple(item if item < low else item + count - low for item in tie) for tie in below]
    last = low - 1 if low == 1 else count + low - 2
    for new in range(low, count):
        renumbered.append((last, new) if new % 2 else (new, last))
        last = count + len(renumbered) - 1
    return renumbered


def tied_anyhow(rng, count):
    """Tie drawn items, but the two lowest where the tie would be too high."""
    ties, heights, free = [], [0] * count, list(range(count))
    while len(free) > 1:
        x, y = rng.sample(free, 2)
        if max(heights[x], heights[y]) >= HEIGHT_LIMIT - 8:
            x, y = sorted(free, key=lambda item: heights[item])[:2]
        ties.append((x, y))
        free = [item for item in free if item not in (x, y)] + [len(heights)]
        heights.append(1 + max(heights[x], heights[y]))
    return ties


def drawn_tree(rng, count):
    """Draw a tree of one of all shapes."""
    shape = rng.randrange(6)
    if shape == 0:
        return by_levels(count)
    if shape == 1:
        return tied_anyhow(rng, count)
    if shape == 2:
        return lopsided(count, rng.choice((6, 24)))
    if shape == 3 and count <= HEIGHT_LIMIT + 1:
        return chain(count, rng.choice(((0,), (1,), (0, 1))))
    return by_halves(count)


# Facets


def plate(x, y, z, size=40):
    """Give a level facet with its first corner at (x, y, z)."""
    return (x, y, z, x + size, y, z, x, y + size, z)


def row(count, pitch, z=0, size=40):
    """Give level facets along the first axis."""
    return [plate(pitch * turn, 0, z, size) for turn in range(count)]


def pile(count, pitch, size=40):
    """Give level facets one above the other."""
    return [plate(0, 0, pitch * turn, size) for turn in range(count)]


def sheet(columns, rows, step, height):
    """Give the facets of a surface: two for each cell of a grid; height tells the third number."""

    def corner(i, j):
        return (step * i, step * j, clamp(height(i, j), CORNER_LIMIT))

    found = []
    for i in range(columns):
        for j in range(rows):
            low, high = corner(i, j), corner(i + 1, j + 1)
            found.append((*low, *corner(i + 1, j), *high))
            found.append((*low, *high, *corner(i, j + 1)))
    return found


def moved_by(facets, way):
    """Give facets with all corners moved, kept in the range of corners."""
    return [
        tuple(clamp(number + way[place % 3], CORNER_LIMIT) for place, number in enumerate(numbers))
        for numbers in facets
    ]


def flat_numbers(corners):
    """Give the nine numbers of three corners."""
    return tuple(number for corner in corners for number in corner)


def cloud(rng, count, region, size):
    """Draw facets of one size in a region about the origin, some of them segments or points."""
    found = []
    for _ in range(count):
        corners = corners_around(rng, triple(rng, region), size, 3)
        if rng.randrange(8) == 0:
            corners[1] = corners[0]
        if rng.randrange(8) == 0:
            corners[2] = corners[0]
        found.append(flat_numbers(corners))
    return found


def bumpy_sheet(rng, columns, rows, step, bump):
    """Draw a surface over a grid, set about the origin."""
    heights = {}

    def height(i, j):
        return heights.setdefault((i, j), rng.randint(-bump, bump))

    return moved_by(sheet(columns, rows, step, height), (-step * columns // 2, -step * rows // 2, 0))


def extreme_facets(rng, count):
    """Draw facets with corners at the ends of the range."""
    return [flat_numbers(extreme_corners(rng, 3)) for _ in range(count)]


def drawn_facets(rng, most):
    """Draw the facets of a piece of at most so many."""
    shape = rng.randrange(5)
    count = rng.randint(1, most)
    if shape == 0:
        return row(count, rng.choice((20, 40, 45, 60)), rng.randint(-30, 30))
    if shape == 1:
        return pile(count, rng.choice((4, 7, 12)))
    if shape == 2:
        region, size = rng.choice(((60, 25), (300, 60), (2_000, 300), (20_000, 2_000)))
        return cloud(rng, count, region, size)
    columns = rng.randint(1, max(1, most // 6))
    rows = rng.randint(1, max(1, most // (2 * columns)))
    step, bump = rng.choice(((16, 3), (16, 12), (40, 9), (300, 40), (2_500, 900)))
    return bumpy_sheet(rng, columns, rows, step, bump)
