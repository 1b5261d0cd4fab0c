"""Hand-made histories: each refusal, the order of the questions, and the edges."""

from geometry import CORNER_LIMIT
from history import RAW_LIMIT, History
from hulls import BOX
from register import HEIGHT_LIMIT, OBJECT_LIMIT

# Marks of the register and of the foreign draft; some differ in one part of the number only.
MARKS = ((7, 9), (0, 65_535), (65_535, 0), (1, 257), (256, 0), (32_768, 32_767), (0, 1), (32_768, 0))

FULL_CHAIN = 2 * HEIGHT_LIMIT + 1  # items of a chain of the greatest height

TOO_LARGE = CORNER_LIMIT + 1

# Numbers out of the range of corners; some would come into it if they were cut to fewer bits.
WILD_NUMBERS = (
    TOO_LARGE, -TOO_LARGE, 65_535, 65_536, -65_536, 65_541, 1_000_000, 2**31 - 1, 2**31, -(2**31),
    2**32, 2**32 + 5, -(2**32), 5 - 2**32, 2**48, 2**62, RAW_LIMIT, -RAW_LIMIT, RAW_LIMIT - 1,
)

# Numbers of no item of a small draft; some would be 0 or 1 if they were cut to fewer bits.
WILD_ITEMS = (
    -1, -2, 256, 257, -256, -255, 65_535, 65_536, 65_537, -65_536, -65_535, 2**31 - 1, 2**31,
    2**32, 2**32 + 1, -(2**32), 1 - 2**32, RAW_LIMIT, -RAW_LIMIT, 1 - RAW_LIMIT,
)


def opened(turn, places, kind=BOX, stretch=0, lent=None):
    """Open a history with the marks of a turn."""
    return History(*MARKS[turn % len(MARKS)], places, kind, stretch, lent)


def with_one(value, position):
    """Give nine numbers that are small but for one position."""
    numbers = [position - 4] * 9
    numbers[position] = value
    return numbers


# 1 and 2: start


def started_twice():
    """Meet 1; the open draft goes on."""
    h = opened(0, 4)
    h.start()
    h.start()
    h.facet()
    h.start()
    h.close()
    h.start()
    h.start()
    h.drop()
    h.start()
    h.close()
    h.start()
    yield h


def started_twice_when_full():
    """Meet 1 with the last object's draft open and a full table, then 2."""
    h = opened(1, OBJECT_LIMIT)
    for _ in range(OBJECT_LIMIT - 1):
        h.object()
    h.start()
    h.start()
    h.facet()
    h.start()
    h.facet()
    h.close()
    h.start()
    h.start()
    yield h


def objects_full():
    """Meet 2 with room in the table and without; foreign drafts still meet 3."""
    for turn, places in enumerate((OBJECT_LIMIT + 6, OBJECT_LIMIT)):
        h = opened(turn, places)
        for _ in range(OBJECT_LIMIT):
            h.object()
        h.start()
        h.foreign_calls()
        h.start()
        yield h


def objects_full_late():
    """Meet 2 after drafts that were dropped or lost used no object number."""
    h = opened(4, 3 * OBJECT_LIMIT)
    for turn in range(OBJECT_LIMIT):
        if turn % 8 == 3:
            h.start()
            h.facets(2)
            h.drop() if turn % 16 == 3 else h.close()
        h.object(1 + turn % 2)
    h.start()
    h.start()
    h.close(foreign=True)
    yield h


# 3: the draft


def foreign_drafts():
    """Meet 3 in every state: before, in and after a draft of each end."""
    for turn in range(len(MARKS)):
        h = opened(turn, 6)
        h.foreign_calls()
        h.start()
        h.foreign_calls()
        h.facets(2)
        h.foreign_calls()
        h.tie(0, 1)
        h.foreign_calls()
        h.close()
        h.foreign_calls()
        h.start()
        h.facet()
        h.drop()
        h.foreign_calls()
        h.start()
        h.close()
        h.foreign_calls()
        h.start()
        h.drop()
        yield h


def foreign_before_all():
    """Meet 3 where each later question of facet and of tie would be no too."""
    h = opened(3, 3)
    h.facet(with_one(TOO_LARGE, 0), foreign=True)
    h.tie(-1, -1, foreign=True)
    h.start()
    h.facet(with_one(TOO_LARGE, 4), foreign=True)
    h.tie(0, 0, foreign=True)
    h.facets(2)
    h.tie(0, 0, foreign=True)
    h.tie(0, 2, foreign=True)
    h.tie(1, RAW_LIMIT, foreign=True)
    h.tie(0, 1)
    h.tie(0, 1, foreign=True)
    h.facet(foreign=True)
    h.facet(with_one(-TOO_LARGE, 8), foreign=True)
    h.facet()
    h.close()
    yield h


def foreign_close():
    """Meet 3 in close with 0 and with 2 items untied; the draft lives on."""
    h = opened(2, 5)
    h.start()
    h.close(foreign=True)
    h.facets(2)
    h.close(foreign=True)
    h.drop(foreign=True)
    h.tie(1, 0)
    h.close()
    h.start()
    h.facets(2)
    h.close(foreign=True)
    h.close()
    h.close(foreign=True)
    h.start()
    h.facets(2)
    h.drop(foreign=True)
    h.drop()
    h.drop(foreign=True)
    yield h


def foreign_too_high():
    """Meet 3 before 7, and before 7 and 5."""
    for places in (FULL_CHAIN + 5, FULL_CHAIN + 1):
        h = opened(6, places)
        h.start()
        top = h.chain(HEIGHT_LIMIT)
        h.facet()
        h.tie(top, top + 1, foreign=True)
        h.tie(top, top + 1)
        h.drop()
        yield h


def spent_drafts():
    """Meet 3 with the own mark: before the first start, and after close, refusal 8 and drop."""
    h = opened(0, 4)
    h.spent_calls()
    h.object()
    h.spent_calls()
    h.start()
    h.facets(2)
    h.close()
    h.spent_calls()
    h.start()
    h.facet()
    h.drop()
    h.spent_calls()
    h.object(2)
    h.spent_calls()
    yield h


# 4: the range of corners


def ends_of_range():
    """Meet both ends of the range, and the numbers next to them, in each position."""
    for turn, sign in enumerate((1, -1)):
        h = opened(turn, 40)
        h.start()
        for position in range(9):
            h.facet(with_one(sign * CORNER_LIMIT, position))
            h.facet(with_one(sign * TOO_LARGE, position))
        h.facet([sign * CORNER_LIMIT] * 9)
        h.facet([-sign * CORNER_LIMIT] * 8 + [sign * TOO_LARGE])
        h.facet([sign * TOO_LARGE] * 9)
        h.facet([0] * 9)
        h.drop()
        yield h


def wild_numbers():
    """Meet 4 with numbers far out of range."""
    h = opened(3, 4)
    h.start()
    for turn, value in enumerate(WILD_NUMBERS):
        h.facet(with_one(value, 4 * turn % 9))
    h.facet([RAW_LIMIT, -RAW_LIMIT] * 4 + [RAW_LIMIT])
    h.facet()
    h.close()
    yield h


def range_before_room():
    """Meet 4 with a full table, then 5."""
    h = opened(4, 2)
    h.start()
    h.facets(2)
    for position in (0, 8):
        h.facet(with_one(TOO_LARGE, position))
        h.facet(with_one(-RAW_LIMIT, position))
        h.facet()
    h.close()
    h.start()
    h.facet(with_one(-TOO_LARGE, 3))
    h.facet()
    h.close()
    yield h


# 5: the room


def tables_filled():
    """Meet 5 in facet and in tie with tables of 0 to 4 places."""
    for places in range(5):
        h = opened(places, places)
        h.start()
        h.facets(places + 1)
        h.facet(with_one(TOO_LARGE, 5))
        h.tie(0, 1)
        h.tie(0, 0)
        h.tie(places, 0)
        h.close()
        h.start()
        h.facets(places)
        h.drop()
        h.start()
        h.facet()
        h.close()
        h.start()
        h.facets(places)
        h.close()
        h.start()
        h.drop()
        yield h


def filled_exactly():
    """Fill tables of 3, 5, 7 and 9 places with one object, and then with several."""
    for turn, places in enumerate((3, 5, 7, 9)):
        h = opened(turn, places)
        h.start()
        top = h.chain(places // 2)
        h.facet()
        h.tie(top, top + 1)
        h.tie(0, top)
        h.close()
        h.start()
        h.facet()
        h.tie(0, 1)
        h.close()
        h.start()
        h.drop()
        yield h


def filled_by_objects():
    """Fill a table with objects of 1, 3 and 1 items; items are numbered from 0 in each."""
    h = opened(5, 5)
    h.object()
    h.start()
    h.facets(2)
    h.tie(0, 1)
    h.facet()
    h.facet()
    h.tie(2, 3)
    h.drop()
    h.object(2)
    h.object()
    h.start()
    h.facet()
    h.tie(0, 1)
    h.close()
    yield h


def parts_stay_free():
    """Meet 5 in tie; the parts are not tied, so close meets 8."""
    h = opened(6, 2)
    h.start()
    h.facets(2)
    h.tie(0, 1)
    h.tie(0, 1)
    h.tie(1, 0)
    h.close()
    h.object()
    h.object()
    h.start()
    h.drop()
    yield h


# 6: the parts


def wrong_parts():
    """Meet 6 in each way, with drafts of 0 to 3 items."""
    for count in range(4):
        h = opened(count, 12)
        h.start()
        h.facets(count)
        for x in range(-1, count + 2):
            h.tie(x, x)
            h.tie(x, count)
            h.tie(count, x)
            h.tie(x, -1)
        h.close()
        yield h


def wild_parts():
    """Meet 6 with numbers of no item, as the first part and as the second."""
    h = opened(7, 6)
    h.start()
    h.facets(2)
    for number in WILD_ITEMS:
        h.tie(number, 1)
        h.tie(0, number)
        h.tie(number, number)
    h.tie(0, 1)
    h.close()
    yield h


def tied_parts():
    """Meet 6 with each mix of tied and free parts."""
    h = opened(2, 12)
    h.start()
    h.facets(4)
    h.tie(1, 2)
    for x in range(6):
        for y in range(6):
            if not {x, y} <= {0, 3, 4} or x == y:
                h.tie(x, y)
    h.tie(3, 0)
    h.tie(0, 4)
    h.tie(4, 5)
    h.tie(4, 5)
    h.tie(6, 5)
    h.close()
    yield h


def parts_of_other_drafts():
    """Meet 6 with numbers that were items of an earlier draft only; no tie outlives its draft."""
    for end in ("close", "drop", "lost"):
        h = opened(3, 12)
        h.start()
        h.facets(3)
        h.tie(0, 1)
        if end != "lost":
            h.tie(2, 3)
        h.drop() if end == "drop" else h.close()
        h.start()
        h.tie(0, 1)
        h.facet()
        h.tie(0, 1)
        h.tie(1, 0)
        h.facet()
        h.tie(0, 2)
        h.tie(0, 1)
        h.close()
        yield h


def parts_before_height():
    """Meet 6 where 7 would be no too, with room in the table and without."""
    for places in (FULL_CHAIN + 9, FULL_CHAIN + 1):
        h = opened(4, places)
        h.start()
        top = h.chain(HEIGHT_LIMIT)
        h.facet()
        h.tie(top, top)
        h.tie(top, 0)
        h.tie(top - 1, top)
        h.tie(top, top + 2)
        h.tie(-1, top)
        h.tie(top, top + 1)
        h.close()
        yield h


# 7: the height


def chains():
    """Go up to the greatest height on either side and on both in turn, then meet 7."""
    for turn, sides in enumerate(((0,), (1,), (0, 1), (1, 1, 0))):
        h = opened(turn, FULL_CHAIN + 4)
        h.start()
        top = h.chain(HEIGHT_LIMIT, sides)
        h.facet()
        h.tie(top, top + 1)
        h.tie(top + 1, top)
        h.facet()
        h.tie(top + 1, top + 2)
        h.tie(top, top + 3)
        h.tie(top + 3, top)
        h.close()
        h.start()
        h.facets(3)
        h.tie(0, 1)
        h.drop()
        yield h


def chain_closed():
    """Close an object of the greatest height; the next draft begins at height 0."""
    h = opened(5, FULL_CHAIN + 6)
    h.object(HEIGHT_LIMIT + 1)
    h.object(3)
    h.start()
    h.facet()
    h.facet()
    h.close()
    yield h


def chain_dropped():
    """Drop or lose a chain of the greatest height, and build one again in the same places."""
    for lost in (False, True):
        h = opened(6, FULL_CHAIN + 1)
        h.start()
        top = h.chain(HEIGHT_LIMIT, (1,))
        h.facet()
        h.tie(top + 1, top)
        h.close() if lost else h.drop()
        h.object(HEIGHT_LIMIT + 1)
        h.object()
        h.start()
        h.facet()
        h.drop()
        yield h


def height_before_room():
    """Meet 7 with a full table; one less in height meets 5."""
    for ties in (HEIGHT_LIMIT, HEIGHT_LIMIT - 1):
        h = opened(7, 2 * ties + 2)
        h.start()
        top = h.chain(ties)
        h.facet()
        h.tie(top, top + 1)
        h.tie(top + 1, top)
        h.facet()
        h.close()
        yield h


def joined_chains():
    """Join two chains: 31 with 31 makes 32; 32 with 5, 32 or a single facet meets 7."""
    for first, second in ((31, 31), (5, 31), (5, 32), (32, 5), (32, 32), (0, 32)):
        h = opened(first + second, 2 * (first + second) + 5)
        h.start()
        left = h.chain(first)
        right = h.chain(second, (1,))
        h.tie(left, right)
        h.tie(right, left)
        h.close()
        yield h


# Trees


def tree_by_levels(h, leaves):
    """Enter all leaves, then tie neighbours level by level."""
    h.facets(leaves)
    level = list(range(leaves))
    while len(level) > 1:
        level = [h.tie(x, y)[1] for x, y in zip(level[::2], level[1::2])]


def tree_by_halves(h, leaves):
    """Enter a tree half by half; give its last item."""
    if leaves == 1:
        return h.facet()[1]
    left = tree_by_halves(h, leaves // 2)
    right = tree_by_halves(h, leaves - leaves // 2)
    return h.tie(right, left)[1]


def trees():
    """Build trees of equal halves, in two orders, and close each."""
    for turn, leaves in enumerate((2, 4, 8, 16, 32)):
        h = opened(turn, 4 * leaves - 2)
        h.start()
        tree_by_levels(h, leaves)
        h.close()
        h.start()
        tree_by_halves(h, leaves)
        h.close()
        h.start()
        h.facet()
        h.drop()
        yield h


def uneven_tree():
    """Build a tree of 37 leaves by halves in a table of exactly its size."""
    h = opened(1, 73)
    h.start()
    tree_by_halves(h, 37)
    h.facet()
    h.close()
    yield h


def ties_out_of_order():
    """Tie late items before early ones and greater numbers before smaller ones."""
    h = opened(0, 20)
    h.start()
    h.facets(6)
    for x, y in ((5, 2), (4, 0), (3, 6), (7, 1), (9, 8)):
        h.tie(x, y)
    h.close()
    h.start()
    h.facets(5)
    for x, y in ((0, 4), (5, 1), (2, 6), (7, 3)):
        h.tie(x, y)
    h.close()
    yield h


# 8: the end of a draft


def parts_left_over():
    """Meet 8 with 0, 2 and more items untied; each time the places are free again."""
    h = opened(1, 8)
    for count in (0, 2, 3, 8):
        h.start()
        h.facets(count)
        h.close()
        h.start()
        h.drop()
    h.start()
    h.facets(4)
    h.tie(0, 1)
    h.tie(2, 3)
    h.close()
    h.object(4)
    h.start()
    h.facets(2)
    h.close()
    h.object()
    h.start()
    h.close()
    yield h


def drops():
    """Drop drafts of 0 to 7 items, tied and untied; none uses an object number."""
    h = opened(2, 7)
    for count in range(4):
        h.start()
        h.facets(count)
        h.drop()
        h.start()
        h.chain(count)
        h.drop()
    h.object()
    h.start()
    h.chain(2)
    h.facet()
    h.facet()
    h.drop()
    h.object(2)
    h.start()
    h.facets(3)
    h.facet()
    h.drop()
    h.object()
    yield h


HAND_MADE = (
    started_twice,
    started_twice_when_full,
    objects_full,
    objects_full_late,
    foreign_drafts,
    foreign_before_all,
    foreign_close,
    foreign_too_high,
    spent_drafts,
    ends_of_range,
    wild_numbers,
    range_before_room,
    tables_filled,
    filled_exactly,
    filled_by_objects,
    parts_stay_free,
    wrong_parts,
    wild_parts,
    tied_parts,
    parts_of_other_drafts,
    parts_before_height,
    chains,
    chain_closed,
    chain_dropped,
    height_before_room,
    joined_chains,
    trees,
    uneven_tree,
    ties_out_of_order,
    parts_left_over,
    drops,
)


def hand_made_histories():
    """Give all hand-made histories."""
    for case in HAND_MADE:
        yield from case()
