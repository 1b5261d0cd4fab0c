"""Test jobs with a fault: wrong, missing and extra words, refused facets, ties and placements.

Each function gives names and jobs; a job is bytes.
"""

from geometry import CORNER_LIMIT
from job_text import FAR, FLOOR, LIFTED, NEAR, SMALL, job_of, job_words, joined, object_words, text_of
from pieces import chain, limit_of, plate, row

KIND_WORDS = ("box", "many", "ball")

SINGLE = ([FLOOR], []), ([LIFTED], [])
PLATES = ([FLOOR, plate(100, 0, 0)], [(0, 1)]), ([LIFTED, plate(100, 0, 9)], [(1, 0)])

# Words that are no numbers.
NO_NUMBERS = (
    b"x", b"-", b"+5", b"--5", b"5-", b"-+5", b"1.0", b".5", b"1e3", b"0x10", b"1_0", b"5,", b"12345678901",
    b"-12345678901", b"00000000000", b"-00000000040", b"5\t", b"\t5", b"\t", b"5\r", b"\r", b"\r5",
    b"5\x00", b"\x00", b"\xff", b"5\xff", b"\x0b", b"5\x0c", b"\xd9\xa5", b"\xe2\x88\x925", b"\xc2\xa0",
    b"0\x1f", b"0/", b"0:", b"facets", b"1\t0", b"9" * 300, b"-" + b"0" * 11, b"-99999999999",
)

# Numbers, but no counts.
NO_COUNTS = (b"-0", b"-1", b"-2", b"-0000000001", b"-9999999999")

# Words that are near a name or a kind but not it.
NO_NAMES = {
    "kind": (
        b"Kind", b"KIND", b"kin", b"kinds", b"kind:", b"\tkind", b"kind\r", b"facets", b"\xef\xbb\xbfkind",
    ),
    "facets": (
        b"Facets", b"facet", b"facetsx", b"facets2", b"facets\r", b"facets\t", b"ties", b"\x00facets",
    ),
    "ties": (b"Ties", b"tie", b"ties2", b"ties\r", b"ties\x00", b"facets", b"placements", b"\tties"),
    "placements": (
        b"Placements", b"placement", b"placements\r", b"placements2", b"ties", b"\tplacements", b"facets",
    ),
    "box": (
        b"Box", b"BOX", b"bo", b"boxx", b"box\r", b"box\t", b"cube", b"Many", b"ball2", b"b", b"0", b"\x00box",
        b"kind",
    ),
}


def base_words(turn):
    """Give the words of a right job with trees and two placements."""
    return job_words(KIND_WORDS[turn % 3], *PLATES, [NEAR, FAR])


def encoded(words):
    """Give words as bytes."""
    return [word.encode() for word in words]


def replaced(words, place, word):
    """Give a job in which the word of a place is another one, given as bytes."""
    changed = encoded(words)
    changed[place] = word
    return b" ".join(changed)


# Every place of a job


def cut_jobs():
    """Cut a right job after each of its words, with and without a separator at the end."""
    words = base_words(0)
    for count in range(len(words) + 1):
        end = (b"", b" ", b"\n")[count % 3]
        yield f"cut-{count}", text_of(base_words(count)[:count]) + end


def wrong_word_jobs():
    """Put a wrong word in each place of a right job."""
    for place in range(len(base_words(0))):
        word = (b"x", b"5\t", b"12345678901")[place % 3]
        yield f"wrong-{place}", replaced(base_words(place), place, word)


def extra_word_jobs():
    """Put an extra number before each word of a right job, and after the last."""
    for place in range(len(base_words(0)) + 1):
        words = base_words(place)
        yield f"extra-{place}", text_of(words[:place] + ["7"] + words[place:])


def missing_word_jobs():
    """Leave out each word of a right job."""
    for place in range(len(base_words(0))):
        words = base_words(place)
        yield f"missing-{place}", text_of(words[:place] + words[place + 1:])


# Odd words


def places_of(words):
    """Give the places of a job of two single facets by what is due there."""
    starts = [place for place, word in enumerate(words) if word.isalpha()]
    kind, _, facets, ties, facets2, ties2, placements = starts
    return {
        "names": (facets, ties, facets2, ties2, placements),
        "kind": (kind + 1,),
        "counts": (facets + 1, ties + 1, facets2 + 1, ties2 + 1, placements + 1),
        "numbers": (
            facets + 2, facets + 6, facets + 10, facets2 + 2, facets2 + 7, facets2 + 10,
            placements + 2, placements + 10, placements + 11, placements + 13, placements + 14, placements + 25,
        ),
    }


def no_number_jobs():
    """Put words that are no numbers in places of numbers, of counts and of parts of ties."""
    words = job_words("box", *SINGLE, [NEAR, FAR])
    places = places_of(words)
    for turn, word in enumerate(NO_NUMBERS):
        for step, role in enumerate(("numbers", "numbers", "counts")):
            place = places[role][(turn + 5 * step) % len(places[role])]
            yield f"no-number-{turn}-{step}", replaced(words, place, word)
        with_ties = base_words(turn)
        tie = with_ties.index("ties") + 2 + turn % 2
        yield f"no-part-{turn}", replaced(with_ties, tie, word)


def no_count_jobs():
    """Put numbers with a minus in the place of each count."""
    words = job_words("many", *SINGLE, [NEAR])
    for place in places_of(words)["counts"]:
        for turn, word in enumerate(NO_COUNTS):
            yield f"no-count-{place}-{turn}", replaced(words, place, word)


def no_name_jobs():
    """Put words that are near a name in its place, and words near a kind."""
    words = job_words("box", *SINGLE, [NEAR])
    for place, word in enumerate(words):
        for turn, wrong in enumerate(NO_NAMES.get(word, ())):
            yield f"no-name-{place}-{turn}", replaced(words, place, wrong)


def wrong_separator_jobs():
    """Part words by tabs, carriage returns and other bytes."""
    words = job_words("box", *SINGLE, [NEAR])
    text = text_of(words)
    for number in (0, 9, 11, 12, 13, 28, 31, 33, 44, 95, 127, 133, 160, 255):
        yield f"separator-{number}-all", text.replace(b" ", bytes([number]))
        yield f"separator-{number}-one", text.replace(b"ties 0 f", b"ties 0" + bytes([number]) + b"f")
        yield f"separator-{number}-end", text + bytes([number])
        yield f"separator-{number}-last", text + b" " + bytes([number])
        yield f"separator-{number}-start", bytes([number]) + text
    yield "separator-crlf", b"\r\n".join(encoded(words)) + b"\r\n"
    yield "separator-nothing", b"".join(encoded(words))


def count_jobs():
    """Give counts that are too small and too large by one, or far too large."""
    words = base_words(0)
    for place, word in enumerate(words):
        if words[place - 1].isalpha() and word.isdigit():
            count = int(word)
            for wrong in sorted({0, count - 1, count + 1, 4_294_967_296 + count, 9_999_999_999}):
                yield f"count-{place}-{wrong}", replaced(words, place, str(wrong).encode())


# Refused facets, ties and placements


def facet_range_jobs():
    """Put a number out of range in each place of a facet, in the first one and in a later one."""
    for place in range(9):
        for turn, number in enumerate((CORNER_LIMIT + 1, -CORNER_LIMIT - 1, 4_294_967_296, -9_999_999_999)):
            wrong = SMALL[:place] + (number,) + SMALL[place + 1:]
            name = f"facet-range-{place}-{turn}"
            if turn % 2:
                yield name, job_of("box", ([SMALL], []), ([SMALL, wrong], [(0, 1)]), [NEAR])
            else:
                yield name, job_of("ball", ([wrong, SMALL], [(0, 1)]), ([SMALL], []), [NEAR])


def placement_range_jobs():
    """Put a number out of range in each place of a placement, after placements that are printed."""
    for place in range(12):
        limit = limit_of(place)
        for turn, number in enumerate((limit + 1, -limit - 1, 4_294_967_296, -9_999_999_999)):
            wrong = NEAR[:place] + (number,) + NEAR[place + 1:]
            placements = [NEAR, FAR][:turn] + [wrong, NEAR]
            yield f"placement-range-{place}-{turn}", job_of(KIND_WORDS[turn % 3], *SINGLE, placements)


def facet_order_jobs():
    """Let a facet out of range come before, in and after a facet with a wrong or missing word."""
    good, wide = joined(SMALL), "0 0 0 99999 0 0 0 4 0"
    for turn, (first, second) in enumerate((
        (wide, "0 0 0 4 0 0 0 4 x"), ("0 x 0 4 0 0 0 4 0", wide), ("99999 0 0 4 0 0 0 4 x", good),
        ("x 0 0 4 0 0 0 4 99999", good), (good, "99999 0 0 4"), (good, "99999 0 0 4 0 0 0 4"), (good, wide),
        (wide, wide),
    )):
        section = joined("facets 2", first, second)
        yield f"facet-order-{turn}", joined("kind box", section).encode()
        yield f"facet-order-{turn}-2", joined("kind many facets 1", SMALL, "ties 0", section).encode()


def tie_jobs():
    """Give ties with wrong parts, and ties that leave parts over, in both objects."""
    few = [SMALL] * 4
    for turn, ties in enumerate((
        [(0, 0)], [(0, 4)], [(4, 0)], [(-1, 0)], [(0, -1)], [(0, 9_999_999_999)], [(4_294_967_296, 1)],
        [(0, -9_999_999_999)], [(0, 1), (0, 2)], [(0, 1), (2, 0)], [(0, 1), (4, 4)], [(0, 1), (4, 5)],
        [(0, 1), (4, 0)], [(0, 1), (2, 3), (4, 5), (6, 6)], [(0, 1), (2, 3), (4, 5), (6, 0)],
        [(0, 1), (2, 3), (4, 5), (6, 7)], [(0, 1), (2, 3), (4, 5), (5, 6)], [], [(0, 1)], [(0, 1), (4, 2)],
        [(3, 0), (1, 2)], [(256, 1)], [(65_536, 1)], [(4_294_967_297, 0)],
    )):
        yield f"tie-{turn}", job_of("box", (few, ties), ([SMALL], []), [NEAR])
        yield f"tie-{turn}-2", job_of("ball", ([SMALL, SMALL], [(1, 0)]), (few, ties), [NEAR])


def facet_count_jobs():
    """Give objects of none, one, two and three facets with few ties and many."""
    for facets in range(4):
        for ties in range(3):
            parts = [(0, 1), (facets, 2)][:ties]
            name = f"facets-{facets}-ties-{ties}"
            yield name, job_of("box", ([SMALL] * facets, parts), ([SMALL], []), [NEAR])
            yield name + "-2", job_of("many", ([SMALL], []), ([SMALL] * facets, parts), [NEAR])


def tie_order_jobs():
    """Let wrong words come before and after refused ties, and before an object that is not complete."""
    two = joined("facets 2", SMALL, SMALL)
    for turn, words in enumerate((
        "ties 1 0 x", "ties 1 0 0 x", "ties 2 0 0 x 0", "ties 1 x 9", "ties 1 9", "ties 0 x", "ties 2 0 1 x 2",
        "ties 0", "ties 1 0 1 x", "ties 1 0 1", "ties 2 0 1", "ties 2 0 1 2", "ties 1 0 1 0 1", "ties x", "ties",
        "ties 1", "x",
    )):
        yield f"tie-order-{turn}", joined("kind box", two, words).encode()
        yield f"tie-order-{turn}-2", joined("kind ball facets 1", SMALL, "ties 0", two, words).encode()


def placement_order_jobs():
    """Let wrong, missing and extra words come before, in and after refused placements."""
    good, wide = joined(NEAR), joined(NEAR[:9], "0 0 536870913")
    start = joined("kind box", object_words(*SINGLE[0]), object_words(*SINGLE[1]), "placements")
    for turn, words in enumerate((
        joined(1, wide, "x"), joined(1, NEAR[:9], "536870913 0 x"),
        joined(2, good, NEAR[:9], "x 0 536870913"), joined(2, good, wide, 7), joined(2, wide, good),
        joined(2, good, good, 7), joined(2, good, good, "x"), joined(1, good, good), joined(3, good, good),
        joined(3, good, good, NEAR[:11]), joined(2, good, good, "kind box"), "", "0", "0 x", "0 0", "1", "1 x",
        joined(9_999_999_999, good, good), "x", "-0",
    )):
        yield f"placement-order-{turn}", joined(start, words).encode()


# Heights


def chain_job(kind, first, second, sides):
    """Give a job of two chains over so many facets."""
    objects = [(row(count, 45), chain(count, sides)) for count in (first, second)]
    return job_of(kind, *objects, [NEAR])


def two_chains(first, second, last_tie):
    """Give the ties of two chains over neighbouring facets and of a tie of both, parts in either order."""
    count = first + second
    ties, last = [], 0
    tops = []
    for start, end in ((0, first), (first, count)):
        last = start
        for new in range(start + 1, end):
            ties.append((last, new))
            last = count + len(ties) - 1
        tops.append(last)
    return ties + [tuple(tops if last_tie == 0 else tops[::-1])]


def height_jobs():
    """Give trees of heights 31 to 33 as chains on either side, in both objects, and as joined chains."""
    for turn, sides in enumerate(((0,), (1,), (0, 1))):
        for count in (32, 33, 34, 35):
            yield f"height-{count - 1}-{turn}", chain_job(KIND_WORDS[turn], count, 1, sides)
            yield f"height-{count - 1}-{turn}-2", chain_job(KIND_WORDS[turn], 2, count, sides)
    for first, second in ((32, 32), (32, 33), (33, 1), (1, 33), (33, 33), (32, 5)):
        for order in (0, 1):
            tall = ([SMALL] * (first + second), two_chains(first, second, order))
            yield f"joined-{first}-{second}-{order}", job_of("ball", tall, ([SMALL], []), [NEAR])


FAULT_GROUPS = (
    cut_jobs,
    wrong_word_jobs,
    extra_word_jobs,
    missing_word_jobs,
    no_number_jobs,
    no_count_jobs,
    no_name_jobs,
    wrong_separator_jobs,
    count_jobs,
    facet_range_jobs,
    placement_range_jobs,
    facet_order_jobs,
    tie_jobs,
    facet_count_jobs,
    tie_order_jobs,
    placement_order_jobs,
    height_jobs,
)


def fault_jobs():
    """Give all jobs of this file."""
    for group in FAULT_GROUPS:
        yield from group()
