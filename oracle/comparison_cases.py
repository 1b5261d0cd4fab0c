"""Hand-made histories of comparisons: each refusal, the room of the list, contact and the edges."""

from geometry import CORNER_LIMIT, SHIFT_LIMIT, UNIT_MATRIX, W, scale
from history import RAW_LIMIT
from history_cases import WILD_ITEMS, opened
from hulls import BOX, KINDS
from pair_cases import FLOOR, LIFTED, TURNED
from pieces import (
    FLAT,
    MIRRORED,
    QUARTER,
    beside,
    by_halves,
    by_levels,
    chain,
    flat_numbers,
    limit_of,
    lopsided,
    moved_by,
    pile,
    placed,
    plate,
    row,
    sheet,
    ticks,
)
from register import HEIGHT_LIMIT, OBJECT_LIMIT

ASIDE = beside(0, 0, 0)
FAR = beside(SHIFT_LIMIT, 0, 0)
TALL = HEIGHT_LIMIT + 1  # facets of a chain of the greatest height

# Numbers out of the range of a placement; some would come into it if they were cut to fewer bits.
WILD_ENTRIES = (
    2**30, -(2**30), 2**31, -(2**31), 2**32, -(2**32), 2**32 + W, W - 2**32, 2**33 - 7, 2**40, -(2**48),
    2**62, RAW_LIMIT, -RAW_LIMIT, RAW_LIMIT - 1, 2**63 - 2**31,
)

# The pieces of the job with trees in the docs.
TWO_PLATES = [plate(0, 0, 0), plate(100, 0, 0)]
THREE_PLATES = [plate(0, 0, 9), plate(100, 0, 9), plate(100, 0, 30)]


def saddle(i, j):
    """Give the height of a bent surface."""
    return 3 * i * i - 2 * j * j


BENT = sheet(3, 3, 20, saddle)


# Contact


def single_facets():
    """Compare two facets on both sides of contact, each as the moved one."""
    for turn, kind in enumerate(KINDS):
        h = opened(turn, 2, kind, 1)
        h.piece([flat_numbers(FLOOR)], [])
        h.piece([flat_numbers(LIFTED)], [])
        for height in (28_672, 32_767, 32_768, 36_864, 49_152, 49_153, 53_248, 204_800, 204_801):
            h.compare(0, 1, beside(0, 0, height))
            h.compare(1, 0, beside(0, 0, -height))
            h.compare(1, 1, beside(0, height, 0))
            h.compare(0, 0, placed(TURNED, (height, 0, 0)))
        yield h


def trees_of_the_docs():
    """Compare the two trees of the docs, both ways, and each with itself."""
    for turn, kind in enumerate(KINDS):
        h = opened(turn, 8, kind, 9)
        h.piece(TWO_PLATES, [(0, 1)])
        h.piece(THREE_PLATES, [(1, 2), (0, 3)])
        for height in (32_768, 200_000, 0, 60_000, 90_000):
            h.compare(0, 1, beside(0, 0, height))
            h.compare(1, 0, beside(0, 0, -height))
            h.compare(1, 1, beside(0, 0, height))
        yield h


def exact_contact():
    """Bring piles and rows to where a gap is exactly 0, and one step further."""
    for turn, kind in enumerate(KINDS):
        h = opened(turn, 40, kind, 25)
        h.piece(pile(4, 8), by_halves(4))
        h.piece(row(5, 60), chain(5))
        h.piece(row(3, 80), chain(3, (1,)), late=True)
        for moved, standing in ((0, 0), (0, 1), (1, 2), (2, 1), (2, 2)):
            for entry in (24, 40, 64, 80, 88, 100, 120, 160, 200, 240, 280):
                for extra in (0, 1):
                    h.compare(moved, standing, beside(0, 0, 4096 * entry + extra))
                    h.compare(moved, standing, beside(-4096 * entry - extra, 0, 0))
            h.compare(moved, standing, beside(*ticks(40, 40, 24)))
            h.compare(moved, standing, beside(*ticks(-40, -40, -24)))
        yield h


def only_one_level_meets():
    """Let roots meet whose facets are parted: no pair after more than one test."""
    for turn, kind in enumerate(KINDS):
        h = opened(turn, 20, kind, 0)
        h.piece(row(2, 400), [(0, 1)])
        h.piece(row(3, 400), [(0, 1), (3, 2)])
        h.piece([plate(0, 0, 0)], [])
        for reach in (100, 200, 300, 500):
            h.compare(0, 1, beside(*ticks(reach, 0, 0)))
            h.compare(1, 0, beside(*ticks(-reach, 0, 0)))
            h.compare(0, 2, beside(*ticks(-reach, 0, 0)))
            h.compare(2, 0, beside(*ticks(reach, 0, 0)))
        yield h


def against_itself():
    """Compare objects with themselves: in place, moved, turned, mirrored and flattened."""
    shapes = (
        (row(4, 40), by_halves(4)), (pile(5, 9), chain(5)), (BENT, lopsided(18, 6)), ([plate(3, 4, 5)], []),
    )
    for turn, kind in enumerate(KINDS):
        h = opened(turn, 60, kind, 200)
        for number, (facets, ties) in enumerate(shapes):
            h.piece(facets, ties, late=turn == 1)
            for matrix in (UNIT_MATRIX, QUARTER, MIRRORED, FLAT, TURNED):
                for shift in ((0, 0, 0), ticks(40, 0, 0), ticks(20, 20, 1), ticks(0, -7, 9)):
                    h.compare(number, number, placed(matrix, shift))
        yield h


# The refusals


def no_objects():
    """Meet 9 with no object: before a draft, in one, and after one that was dropped or lost."""
    h = opened(0, 3, BOX, 0)
    h.compare(0, 0, ASIDE)
    h.start()
    h.facet()
    h.compare(0, 0, ASIDE)
    h.compare(1, 0, beside(0, 0, SHIFT_LIMIT + 1))
    h.drop()
    h.compare(0, 0, FAR)
    h.start()
    h.close()
    h.compare(0, 0, FAR)
    yield h


def object_numbers():
    """Meet 9 with numbers of no object, as the moved one, the standing one and both."""
    for turn, count in enumerate((1, 2, 3)):
        h = opened(turn, 9, KINDS[turn], 4)
        for _ in range(count):
            h.object()
        for number in (count, count + 1, 63, 64, 65) + WILD_ITEMS:
            h.compare(number, 0, ASIDE)
            h.compare(count - 1, number, ASIDE)
            h.compare(number, number, ASIDE)
        for moved in range(count + 1):
            for standing in range(count + 1):
                h.compare(moved, standing, ASIDE)
        yield h


def all_objects():
    """Compare the last of 64 objects with others."""
    h = opened(3, OBJECT_LIMIT + 9, BOX, 1)
    for turn in range(OBJECT_LIMIT):
        h.piece([plate(turn, 0, 0)], [])
        h.compare(turn, turn, ASIDE)
        h.compare(turn + 1, turn, ASIDE)
    for number in (0, 1, 30, 31, 32, 33, 60, 62, 63, 64, 65, 127, 128, 256):
        h.compare(63, number, ASIDE)
        h.compare(number, 63, ASIDE)
        h.compare(number, 0, beside(*ticks(-number, 0, 0)))
    h.start()
    h.compare(63, 0, ASIDE)
    yield h


def with_entry(position, value):
    """Give an unturned placement in which one number is replaced."""
    numbers = list(ASIDE)
    numbers[position] = value
    return tuple(numbers)


def ends_of_placements():
    """Meet both ends of each of the twelve ranges, and the numbers next to them."""
    for turn, kind in enumerate(KINDS):
        h = opened(turn, 12, kind, 40)
        h.piece(BENT[:4], by_halves(4))
        h.piece([plate(0, 0, 0)], [])
        for position in range(12):
            for sign in (1, -1):
                for extra in (-1, 0, 1):
                    h.compare(0, turn % 2, with_entry(position, sign * (limit_of(position) + extra)))
        yield h


def wild_placements():
    """Meet 10 with numbers far out of range, in each position, and with all twelve."""
    h = opened(2, 3, BOX, 2)
    h.object()
    for turn, value in enumerate(WILD_ENTRIES):
        for position in (turn % 9, 9 + turn % 3, 5 * turn % 12):
            h.compare(0, 0, with_entry(position, value))
        h.compare(0, 0, (value,) * 12)
    h.compare(0, 0, (W,) * 12)
    h.compare(0, 0, (-W,) * 9 + (SHIFT_LIMIT,) * 3)
    yield h


def questions_in_order():
    """Meet 9 before 10 and 11, and 10 before 11."""
    for stretch in (0, 1):
        h = opened(5, 9, BOX, stretch)
        h.piece(row(2, 10), [(0, 1)])
        bad = beside(0, SHIFT_LIMIT + 1, 0)
        h.compare(1, 0, bad)
        h.compare(0, 1, bad)
        h.compare(-1, -1, (RAW_LIMIT,) * 12)
        h.compare(0, 1, ASIDE)
        h.compare(0, 0, bad)
        h.compare(0, 0, with_entry(0, -W - 1))
        h.compare(0, 0, ASIDE)
        h.compare(0, 0, bad)
        h.compare(1, 0, ASIDE)
        h.compare(0, 0, FAR)
        yield h


# The room of the list


def places_for_pairs():
    """Give lists of none to more places than there are pairs."""
    for turn, stretch in enumerate((0, 1, 2, 3, 5, 6, 7, 8, 9, 10)):
        h = opened(turn, 9, KINDS[turn % 3], stretch)
        h.piece(row(3, 40), [(0, 1), (3, 2)])
        h.piece(pile(2, 4), [(1, 0)])
        for moved in (0, 1):
            for standing in (0, 1):
                h.compare(moved, standing, ASIDE)
                h.compare(moved, standing, FAR)
                h.compare(moved, standing, beside(*ticks(80, 0, 0)))
                h.compare(moved, standing, beside(*ticks(-120, 0, 0)))
        h.compare(0, 0, FAR)
        yield h


def long_lists():
    """Fill lists exactly, and with one place too few, with hundreds of pairs."""
    for stretch in (256, 255):
        h = opened(stretch, 70, BOX, stretch)
        h.piece([plate(0, 0, 0)] * 16, by_levels(16))
        h.piece([plate(0, 0, 0)] * 17, chain(17), late=True)
        h.compare(0, 0, ASIDE)
        h.compare(0, 1, ASIDE)
        h.compare(0, 0, placed(TURNED))
        h.compare(1, 0, ASIDE)
        h.compare(0, 0, FAR)
        yield h


# Trees


def tall_trees():
    """Compare trees of the greatest height with each other and with others."""
    for turn, kind in enumerate(KINDS):
        h = opened(turn, 3 * (2 * TALL - 1) + 40, kind, 300)
        h.piece(row(TALL, 45), chain(TALL), late=True)
        h.piece(row(TALL, 45), chain(TALL, (1,)))
        h.piece(row(TALL, 45, 3), chain(TALL, (0, 1)))
        h.piece([plate(0, 0, 0)], [])
        h.piece(row(16, 45), by_halves(16))
        for moved in range(5):
            for standing in range(5):
                for entries in ((0, 0, 0), (45, 0, 0), (-700, 0, 3), (1_400, 30, 0)):
                    h.compare(moved, standing, beside(*ticks(*entries)))
            h.compare(moved, 4 - moved, placed(TURNED, ticks(300, 0, 0)))
        yield h


def order_of_parts():
    """Compare trees whose ties name their parts in either order: the order of pairs differs."""
    for turn, kind in enumerate(KINDS):
        h = opened(turn, 60, kind, 20)
        facets = row(4, 40)
        for ties in (
            [(0, 1), (2, 3), (4, 5)], [(1, 0), (3, 2), (5, 4)], [(0, 3), (4, 1), (2, 5)],
            [(2, 0), (3, 1), (4, 5)], [(3, 2), (4, 1), (0, 5)],
        ):
            h.piece(facets, ties)
        for moved in range(5):
            for standing in range(5):
                h.compare(moved, standing, beside(*ticks(40, 0, 0)))
        yield h


def bent_surfaces():
    """Compare surfaces under turns, with trees of each shape."""
    for turn, kind in enumerate(KINDS):
        h = opened(turn, 160, kind, 150)
        for ties in (by_halves(18), by_levels(18), chain(18), lopsided(18, 6)):
            h.piece(BENT, ties)
        for moved in range(4):
            for matrix in (UNIT_MATRIX, QUARTER, TURNED, MIRRORED):
                for entries in ((0, 0, 9), (30, 10, 0), (-50, 40, 5)):
                    h.compare(moved, 3 - moved, placed(matrix, ticks(*entries)))
        yield h


# Drafts and places


def beside_a_draft():
    """Compare while a draft is open, after each of its calls; the draft goes on."""
    for turn, kind in enumerate(KINDS):
        h = opened(turn, 10, kind, 9)
        h.piece(row(2, 40), [(0, 1)])
        for call in (
            h.start, h.facet, h.facet, lambda: h.tie(1, 0), h.facet, lambda: h.tie(0, 2), lambda: h.tie(3, 2),
            h.close, h.start, h.facet, h.facet, h.facet, h.drop, h.start, h.facet, h.facet, h.close,
        ):
            call()
            h.compare(0, 0, beside(*ticks(40, 0, 0)))
            h.compare(1, 0, ASIDE)
            h.compare(0, 1, ASIDE)
            h.compare(len(h.register.objects), 0, ASIDE)
        yield h


def used_places():
    """Compare objects in places that dropped and lost drafts have used before."""
    for turn, kind in enumerate(KINDS):
        h = opened(turn, 24, kind, 30)
        h.piece(row(2, 40), [(0, 1)])
        for end in (h.drop, h.close):
            h.start()
            h.facets_first(moved_by(BENT[:8], (900, -900, 900)), by_halves(8)[:-1])
            h.facet(plate(-3_000, 7, 7))
            end()
            h.compare(0, 0, ASIDE)
            h.piece(row(3, 40), chain(3))
            number = len(h.register.objects) - 1
            for standing in range(number + 1):
                h.compare(number, standing, ASIDE)
                h.compare(standing, number, beside(*ticks(0, 0, 4)))
        yield h


def full_table():
    """Compare while the table is full, with and without an open draft."""
    h = opened(6, 4, BOX, 3)
    h.piece(row(2, 40), [(0, 1)])
    h.object()
    h.compare(0, 1, ASIDE)
    h.start()
    h.facet()
    h.compare(0, 1, ASIDE)
    h.compare(1, 2, ASIDE)
    h.drop()
    h.compare(1, 0, FAR)
    yield h


# The ends of all ranges


def far_corners():
    """Compare facets at the ends of the range under placements at the ends of theirs."""
    end = CORNER_LIMIT
    facets = [
        (end,) * 9, (-end,) * 9, (end, -end, end) * 3, (-end, -end, end, end, end, -end, end, -end, -end),
        (end, 0, 0, -end, 0, 0, 0, end, 0), (0, 0, -end, 0, 0, end, end, end, end),
    ]
    matrices = ((W,) * 9, (-W,) * 9, (W, -W, W, -W, W, -W, W, W, -W), UNIT_MATRIX, MIRRORED, FLAT)
    for turn, kind in enumerate(KINDS):
        h = opened(turn, 40, kind, 40)
        h.piece(facets, by_halves(6))
        h.piece(facets, chain(6, (1,)))
        for matrix in matrices:
            for entries in ((0, 0, 0), (1, 1, 1), (-1, -1, -1), (1, 0, -1)):
                h.compare(0, 1, placed(matrix, scale(SHIFT_LIMIT, entries)))
        yield h


COMPARISONS = (
    single_facets,
    trees_of_the_docs,
    exact_contact,
    only_one_level_meets,
    against_itself,
    no_objects,
    object_numbers,
    all_objects,
    ends_of_placements,
    wild_placements,
    questions_in_order,
    places_for_pairs,
    long_lists,
    tall_trees,
    order_of_parts,
    bent_surfaces,
    beside_a_draft,
    used_places,
    full_table,
    far_corners,
)


def hand_made_comparisons():
    """Give all hand-made histories of comparisons."""
    for case in COMPARISONS:
        yield from case()
