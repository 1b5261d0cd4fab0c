"""Drawn histories of comparisons: pieces near contact, with accepted and refused calls in a mix."""

from comparison_cases import WILD_ENTRIES
from geometry import CORNER_LIMIT, SHIFT_LIMIT, UNIT_MATRIX, add
from history import RAW_LIMIT, History
from history_cases import WILD_ITEMS
from history_draws import drawn_marks
from hulls import KINDS
from pair_cases import STEPS, Pair, brink, meeting_shift, tuned_brink
from pieces import drawn_facets, drawn_tree, extreme_facets, limit_of, moved_by, placed
from random_cases import (
    axis_turn,
    clamp,
    extreme_matrix,
    free_turn,
    mirrored_turn,
    quarter_turn,
    shrunken_turn,
    some_matrix,
    some_shift,
    triple,
    unit_matrix,
)

TURNS = (
    unit_matrix, unit_matrix, quarter_turn, axis_turn, free_turn, free_turn, mirrored_turn, shrunken_turn,
    some_matrix,
)

# How far a piece is moved away from contact, in 1/4,096 tick.
AWAY = (0, 0, 1, 300, 4_096, 12_000, 40_000, 200_000, 1_000_000)


# Placements near contact


def drawn_item(rng, items):
    """Draw an item: most often a facet, now and then the last item or any."""
    shape = rng.randrange(6)
    if shape == 0:
        return items[-1]
    if shape == 1:
        return rng.choice(items)
    return rng.choice([item for item in items if not item.parts])


def touching_shift(rng, pair):
    """Draw a shift that brings two corners together or nearly so."""
    return add(meeting_shift(rng, pair), triple(rng, rng.choice(AWAY)))


def brink_shift(rng, pair):
    """Draw a shift of the two on either side of where the hulls of a pair are parted first."""
    step = rng.choice(STEPS) if rng.randrange(2) else triple(rng, 3)
    found = step != (0, 0, 0) and brink(pair, meeting_shift(rng, pair), step)
    return rng.choice(found) if found else touching_shift(rng, pair)


def near_placement(rng, kind, moved, standing):
    """Draw a placement that brings an item of one object next to an item of the other."""
    first, second = drawn_item(rng, moved), drawn_item(rng, standing)
    pair = Pair(kind, first.corners, second.corners, rng.choice(TURNS)(rng))
    shift = rng.choice((touching_shift, brink_shift))(rng, pair)
    return placed(pair.matrix, tuple(clamp(entry, SHIFT_LIMIT) for entry in shift))


def self_placement(rng):
    """Draw a placement that moves an object little against itself."""
    matrix = UNIT_MATRIX if rng.randrange(3) else quarter_turn(rng)
    return placed(matrix, triple(rng, rng.choice(AWAY)))


def bad_placement(rng):
    """Draw a placement of which one or two numbers are out of range."""
    numbers = list(placed(some_matrix(rng), some_shift(rng)))
    for position in rng.sample(range(12), rng.randint(1, 2)):
        next_to = (limit_of(position) + 1) * rng.choice((1, -1))
        numbers[position] = rng.choice((next_to, next_to, rng.choice(WILD_ENTRIES)))
    return tuple(numbers)


def drawn_placement(rng, h, moved, standing):
    """Draw a placement for two objects of a history: near most often, far or bad now and then."""
    shape = rng.randrange(20)
    if shape == 0:
        return bad_placement(rng)
    if shape == 1:
        return placed(rng.choice((some_matrix, extreme_matrix))(rng), some_shift(rng))
    if moved == standing and shape < 12:
        return self_placement(rng)
    objects = h.register.objects
    return near_placement(rng, h.register.kind, objects[moved], objects[standing])


# Calls


def no_object(rng, h):
    """Draw a number that is most often that of no object."""
    count = len(h.register.objects)
    wild = rng.choice(WILD_ITEMS), rng.randint(-RAW_LIMIT, RAW_LIMIT)
    return rng.choice((count, count, count + 1, -1, *wild))


def wrong_comparison(rng, h):
    """Compare with a number of no object."""
    count = len(h.register.objects)
    numbers = [no_object(rng, h), rng.randrange(count) if count else no_object(rng, h)]
    rng.shuffle(numbers)
    h.compare(*numbers, bad_placement(rng) if rng.randrange(2) else self_placement(rng))


def drawn_comparison(rng, h):
    """Compare two closed objects, most often near contact."""
    count = len(h.register.objects)
    if not count or rng.randrange(25) == 0:
        return wrong_comparison(rng, h)
    moved = rng.randrange(count)
    standing = moved if rng.randrange(6) == 0 else rng.randrange(count)
    return h.compare(moved, standing, drawn_placement(rng, h, moved, standing))


def drawn_piece(rng, most):
    """Draw facets and a tree over them."""
    facets = extreme_facets(rng, rng.randint(1, 6)) if rng.randrange(12) == 0 else drawn_facets(rng, most)
    if rng.randrange(2):
        facets = moved_by(facets, triple(rng, rng.choice((50, 3_000))))
    return facets, drawn_tree(rng, len(facets))


def file_piece(rng, h, most):
    """Draw a piece and file it, its facets first or late."""
    facets, ties = drawn_piece(rng, most)
    h.piece(facets, ties, late=rng.randrange(2) == 1)


def slow_piece(rng, h, most):
    """Enter a piece, with comparisons and wrong calls between; now and then drop or lose it."""
    facets, ties = drawn_piece(rng, most)
    h.start()
    end = rng.choice((h.close, h.close, h.drop))
    calls = [(h.facet, (numbers,)) for numbers in facets] + [(h.tie, tie) for tie in ties]
    for call, numbers in calls[:len(calls) - rng.choice((0, 0, 2))]:
        call(*numbers)
        if rng.randrange(4) == 0:
            drawn_comparison(rng, h)
        if rng.randrange(12) == 0:
            h.compare(len(h.register.objects), 0, self_placement(rng))
        if rng.randrange(15) == 0:
            wrong_call(rng, h)
    end()


def wrong_call(rng, h):
    """Make a wrong call, or some, that leave the draft as it is."""
    rng.choice((h.start, h.foreign_calls, lambda: h.facet((CORNER_LIMIT + 1,) + (0,) * 8)))()


def comparison_history(rng, kind, most, stretch, calls, lent=None):
    """Draw a history of so many calls over pieces of at most so many facets."""
    h = History(*drawn_marks(rng), rng.choice((12 * most, 20 * most)), kind, stretch, lent)
    for _ in range(2):
        file_piece(rng, h, most)
    while h.calls() < calls:
        shape = rng.randrange(60)
        if shape == 0 and len(h.register.objects) < 12:
            file_piece(rng, h, most)
        elif shape == 1:
            slow_piece(rng, h, most)
        elif shape == 2:
            h.spent_calls()
        else:
            drawn_comparison(rng, h)
    return h


def contact_shifts(rng, pair):
    """Give shifts on both sides of where the hulls of a pair are parted first, along some steps.

    Where one axis alone parts them first, shifts with gaps of exactly 0 and 1 along it are added.
    """
    for step in rng.sample(STEPS, 2) + [triple(rng, 3)]:
        found = step != (0, 0, 0) and brink(pair, meeting_shift(rng, pair), step)
        if found:
            yield from found
            yield from tuned_brink(pair, found[1], pair.parting_axes(found[1])[0]) or ()


def contact_history(rng, kind):
    """Draw a history in which items of all levels are brought to the brink of parting."""
    h = History(*drawn_marks(rng), 150, kind, 120)
    for _ in range(3):
        file_piece(rng, h, 20)
    for _ in range(24):
        moved, standing = rng.randrange(3), rng.randrange(3)
        objects = h.register.objects
        first, second = drawn_item(rng, objects[moved]), drawn_item(rng, objects[standing])
        pair = Pair(kind, first.corners, second.corners, rng.choice(TURNS)(rng))
        for shift in contact_shifts(rng, pair):
            h.compare(moved, standing, placed(pair.matrix, shift))
    return h


def drawn_comparisons(rng):
    """Give all drawn histories of comparisons."""
    for kind in KINDS:
        for most, stretch in ((1, 1), (3, 4), (6, 12), (10, 30), (16, 8), (24, 60), (33, 200), (40, 40)):
            yield comparison_history(rng, kind, most, stretch, rng.randint(250, 350))
        for _ in range(2):
            yield contact_history(rng, kind)


def drawn_short_lists(rng):
    """Give drawn histories whose lent list is used up before their last comparisons."""
    for kind in KINDS:
        for most, stretch in ((1, 2), (2, 4), (3, 6), (6, 15), (12, 30), (18, 50)):
            lent = stretch * rng.randint(4, 20) + rng.randrange(stretch)
            yield comparison_history(rng, kind, most, stretch, 4 * most + rng.randint(30, 50), lent)
