"""Hand-made histories over lent lists of other lengths than the comparisons take together."""

from geometry import SHIFT_LIMIT
from history import RAW_LIMIT
from history_cases import opened
from hulls import BOX, KINDS
from pieces import beside, plate, row, ticks

ASIDE = beside(0, 0, 0)
FAR = beside(SHIFT_LIMIT, 0, 0)
OUT_OF_RANGE = beside(0, 0, SHIFT_LIMIT + 1)

# Stretches; a small multiple of most of them, cut to 32 or 64 bits, would be the number of a place.
HUGE_STRETCHES = (2**31, 2**32, 2**32 + 1, 2**61, 2**62, (2**64 + 2) // 6, RAW_LIMIT)


def two_plates(turn, kind, stretch, lent):
    """Open a history with an object of two plates that touch, and one of a single plate."""
    h = opened(turn, 12, kind, stretch, lent)
    h.piece(row(2, 40), [(0, 1)])
    h.piece([plate(0, 0, 0)], [])
    return h


def every_length():
    """Let the list end in front of, in and behind each stretch, with pairs to fill it and without."""
    for lent in range(20):
        h = two_plates(lent, KINDS[lent % 3], 3, lent)
        h.compare(0, 1, ASIDE)
        h.compare(0, 0, ASIDE)
        h.compare(0, 0, FAR)
        h.compare(1, 0, ASIDE)
        h.compare(1, 1, ASIDE)
        h.compare(0, 0, beside(*ticks(80, 0, 0)))
        yield h


def nothing_lent():
    """Give no places at all: only a comparison without pairs is accepted."""
    for turn, kind in enumerate(KINDS):
        h = two_plates(turn, kind, 5, 0)
        for moved in (0, 1, 2):
            h.compare(moved, 0, ASIDE)
            h.compare(1, moved, FAR)
            h.compare(moved, moved, OUT_OF_RANGE)
        yield h


def refused_ones_count():
    """Let comparisons that are refused take their stretches too, also those that write nothing."""
    for turn, kind in enumerate(KINDS):
        h = two_plates(turn, kind, 2, 11)
        h.compare(2, 0, ASIDE)
        h.compare(0, 0, OUT_OF_RANGE)
        h.compare(1, 0, ASIDE)
        h.compare(0, 0, ASIDE)
        h.compare(0, -1, OUT_OF_RANGE)
        h.compare(0, 1, ASIDE)
        h.compare(0, 1, ASIDE)
        h.compare(1, 1, OUT_OF_RANGE)
        h.compare(2, 1, ASIDE)
        h.compare(1, 1, FAR)
        yield h


def refused_in_a_cut_stretch():
    """Meet 9 and 10 in the stretch that is cut."""
    for turn, kind in enumerate(KINDS):
        for moved, numbers in ((2, ASIDE), (0, OUT_OF_RANGE), (-1, OUT_OF_RANGE)):
            h = two_plates(turn, kind, 4, 7)
            h.compare(0, 1, ASIDE)
            h.compare(moved, 0, numbers)
            h.compare(0, 0, ASIDE)
            yield h


def huge_stretches():
    """Give stretches longer than any list: the first comparison has all places, the others none."""
    for turn, stretch in enumerate(HUGE_STRETCHES):
        h = two_plates(turn, KINDS[turn % 3], stretch, 3 + turn % 3)
        for number in range(18):
            h.compare(number % 2, 0, ASIDE if number % 4 < 3 else FAR)
        yield h


def places_behind():
    """Lend more places than the comparisons take: with some for each, with none, and uncompared."""
    for turn, (stretch, extra) in enumerate(((2, 1), (4, 50), (1, 999), (0, 10))):
        h = two_plates(turn, KINDS[turn % 3], stretch, 4 * stretch + extra)
        h.compare(0, 0, ASIDE)
        h.compare(0, 1, ASIDE)
        h.compare(1, 1, FAR)
        h.compare(1, 0, ASIDE)
        yield h
    yield two_plates(5, BOX, 3, 7)


def going_on():
    """Go on with drafts once the list is used up, and compare what they come to."""
    for turn, kind in enumerate(KINDS):
        h = two_plates(turn, kind, 2, 3)
        for call in (
            lambda: h.compare(0, 1, ASIDE), h.start, lambda: h.facet(plate(40, 0, 0)),
            lambda: h.compare(0, 1, ASIDE), h.foreign_calls, lambda: h.facet(plate(0, 0, 0)),
            lambda: h.compare(1, 0, ASIDE), lambda: h.tie(1, 0), lambda: h.tie(1, 0), h.close,
        ):
            call()
        for standing in range(4):
            h.compare(2, standing, ASIDE)
            h.compare(2, standing, FAR)
        yield h


LENT_LISTS = (
    every_length,
    nothing_lent,
    refused_ones_count,
    refused_in_a_cut_stretch,
    huge_stretches,
    places_behind,
    going_on,
)


def hand_made_lent_lists():
    """Give all hand-made histories with lent lists of other lengths."""
    for case in LENT_LISTS:
        yield from case()
