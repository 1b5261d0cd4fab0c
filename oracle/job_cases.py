"""Test jobs that are right, and jobs at the limits of bytes, items and pairs.

Each function gives names and jobs; a job is bytes.
"""

from geometry import CORNER_LIMIT, MATRIX_LIMIT, SHIFT_LIMIT
from job import MOST_BYTES
from job_faults import KIND_WORDS, PLATES, SINGLE, encoded
from job_text import FAR, FLOOR, LIFTED, NEAR, SMALL, job_of, job_words, joined, laid_out, text_of
from pair_cases import TURNED
from pieces import (
    FLAT,
    MIRRORED,
    QUARTER,
    beside,
    by_halves,
    by_levels,
    chain,
    limit_of,
    lopsided,
    pile,
    placed,
    row,
    sheet,
    ticks,
)

IN_PLACE = beside(0, 0, 0)


# Separators and numbers


def separator_jobs():
    """Part the words of right jobs by runs of spaces and line ends, before, between and after them."""
    words = job_words("box", *PLATES, [NEAR, FAR])
    text = text_of(words)
    yield "spaces-run", text.replace(b" ", b"    ")
    yield "lines", text.replace(b" ", b"\n")
    yield "lines-run", text.replace(b" ", b"\n\n\n")
    yield "mixed-run", text.replace(b" ", b" \n  \n ")
    yield "space-before", b" " + text
    yield "lines-before", b"\n\n \n" + text
    yield "space-after", text + b" "
    yield "line-after", text + b"\n"
    yield "lines-after", text + b"\n \n\n  "
    yield "all-around", b"\n  " + text.replace(b" 0 ", b"  0\n") + b" \n"
    for turn, blank in enumerate((b"", b" ", b"\n", b" \n" * 500, b"\n" * 77)):
        yield f"blank-{turn}", blank


def with_numbers(change):
    """Give a right job in which each word that is a number, but no count, is written in another way."""
    words = encoded(job_words("many", *PLATES, [NEAR, FAR]))
    for place in range(2, len(words)):
        if not words[place].isalpha() and not words[place - 1].isalpha():
            words[place] = change(words[place])
    return b" ".join(words)


def wide(word):
    """Write a number with ten digits."""
    sign, digits = (b"-", word[1:]) if word.startswith(b"-") else (b"", word)
    return sign + digits.rjust(10, b"0")


def number_jobs():
    """Write right numbers in odd ways: with leading zeros, with ten digits, with -0."""
    yield "ten-digits", with_numbers(wide)
    yield "minus-zero", with_numbers(lambda word: b"-0" if word == b"0" else word)
    yield "minus-ten-zeros", with_numbers(lambda word: b"-0000000000" if word == b"0" else word)
    yield "one-zero-more", with_numbers(lambda word: b"0" + word)
    yield "two-zeros", with_numbers(lambda word: b"00" if word == b"0" else word)
    words = encoded(job_words("box", *SINGLE, [NEAR]))
    for turn, count in enumerate((b"01", b"001", b"0000000001", b"00000000001")):
        yield f"count-one-{turn}", b" ".join(count if word == b"1" else word for word in words)
    for turn, count in enumerate((b"00", b"0000000000", b"00000000000")):
        yield f"count-zero-{turn}", b" ".join(words).replace(b"ties 0", b"ties " + count)
    for turn, count in enumerate((b"0", b"00", b"0000000000", b"-0")):
        yield f"no-placements-{turn}", b" ".join(words[:words.index(b"placements") + 1] + [count])


def zero_part_jobs():
    """Write the parts of ties with leading zeros and -0."""
    facets = joined("facets 2", SMALL, SMALL)
    for turn, tie in enumerate(("0 01", "-0 1", "1 -0", "0000000001 -0000000000", "00 0000000001", "-0 0", "0 -1")):
        words = ("kind ball", facets, "ties 1", tie, facets, "ties 1 1 0 placements 1", joined(NEAR))
        yield f"zero-part-{turn}", joined(*words).encode()


# The ends of the ranges


def end_placements():
    """Give placements with each number at either end of its range, and with all numbers there."""
    found = []
    for place in range(12):
        for sign in (1, -1):
            found.append(NEAR[:place] + (sign * limit_of(place),) + NEAR[place + 1:])
    all_ends = (MATRIX_LIMIT,) * 9 + (SHIFT_LIMIT,) * 3
    return found + [all_ends, tuple(-number for number in all_ends)]


def range_jobs():
    """Go to the ends of the ranges of corners and placements, in each place."""
    end = CORNER_LIMIT
    far = [(end,) * 9, (-end,) * 9, (-end, end, 0, end, -end, 0, 0, end, end), (0,) * 9]
    near = [(0,) * place + (number,) + (0,) * (8 - place) for place in range(9) for number in (end, -end)]
    turns = [IN_PLACE, placed(TURNED), placed(MIRRORED), placed(FLAT)]
    placements = end_placements()
    for kind in KIND_WORDS:
        yield f"corner-ends-{kind}", job_of(kind, (far, by_halves(4)), (near, by_levels(18)), turns)
        yield f"placement-ends-{kind}", job_of(kind, *PLATES, placements)
        yield f"all-ends-{kind}", job_of(kind, (far, chain(4)), (far, chain(4, (1,))), placements)


# Kinds, trees and contact


def contact_jobs():
    """Bring single facets, rows, piles and surfaces to contact and one step further."""
    bent = sheet(3, 3, 20, lambda i, j: 3 * i * i - 2 * j * j)
    shapes = (
        ("facet", [FLOOR], [], [LIFTED], []),
        ("row", row(6, 40), by_halves(6), row(4, 60), chain(4)),
        ("pile", pile(5, 8), chain(5, (1,)), pile(3, 12), by_levels(3)),
        ("bent", bent, by_halves(18), bent, lopsided(18, 6)),
        ("chain", row(33, 45), chain(33), row(33, 45, 3), chain(33, (0, 1))),
    )
    steps = [
        0, 1, -1, 32_768, 32_767, 36_864, 49_152, 49_153, 98_304, 98_305, 163_840, 163_841, -163_840, -327_681,
    ]
    for kind in KIND_WORDS:
        for name, facets, ties, facets2, ties2 in shapes:
            placements = [beside(0, 0, step) for step in steps] + [beside(step, 0, 0) for step in steps]
            for matrix in (QUARTER, TURNED, MIRRORED):
                placements += [placed(matrix, ticks(10, 30, 4)), placed(matrix, ticks(-45, 0, 0))]
            yield f"contact-{name}-{kind}", laid_out(kind, (facets, ties), (facets2, ties2), placements)


def itself_jobs():
    """Give the same facets twice, with the same tree and with another."""
    bent = sheet(4, 2, 30, lambda i, j: (7 * i * j) % 11)
    shapes = (
        ("single", [SMALL], [], []),
        ("bent", bent, by_halves(16), chain(16)),
        ("pile", pile(9, 5), chain(9), lopsided(9, 4)),
    )
    placements = [IN_PLACE, beside(*ticks(30, 0, 0))]
    placements += [placed(matrix) for matrix in (QUARTER, MIRRORED, TURNED, FLAT)]
    for kind in KIND_WORDS:
        for name, facets, ties, other in shapes:
            yield f"itself-{name}-{kind}", laid_out(kind, (facets, ties), (facets, ties), placements)
            yield f"itself-{name}-{kind}-other", laid_out(kind, (facets, ties), (facets, other), placements)


# Items


def of_equal_facets(count):
    """Give an object of equal facets tied by halves."""
    return [SMALL] * count, by_halves(count)


def full_jobs():
    """Fill the room for 1,024 items exactly."""
    away = [beside(SHIFT_LIMIT, 0, 0)]
    yield "items-1023-1", job_of("box", of_equal_facets(512), of_equal_facets(1), [IN_PLACE, *away])
    yield "items-1-1023", job_of("ball", of_equal_facets(1), of_equal_facets(512), [IN_PLACE, *away])
    yield "items-1021-3", job_of("ball", of_equal_facets(511), of_equal_facets(2), [IN_PLACE, *away])
    yield "items-513-511", job_of("box", of_equal_facets(257), of_equal_facets(256), away)
    yield "items-1024-0", job_of("box", ([SMALL] * 1_024, []), of_equal_facets(1), away)
    yield "items-1024-ties", job_of("box", ([SMALL] * 1_024, [(0, 1)]), of_equal_facets(1), away)


def over_full_jobs():
    """Meet 5 in facets and ties of both objects, and the questions that come before it."""
    high = FLOOR[:8] + (CORNER_LIMIT + 1,)
    for turn, extra in enumerate((SMALL, high)):
        one, two = of_equal_facets(1), ([SMALL, extra], [(0, 1)])
        yield f"items-over-facet-{turn}", job_of("box", ([SMALL] * 1_024 + [extra], []), one, [])
        yield f"items-over-facet2-{turn}", job_of("many", of_equal_facets(512), two, [])
    wrong = joined("kind box facets 1025", [SMALL] * 1_024, "0 0 0 4 0 0 0 4 x")
    yield "items-over-facet-word", wrong.encode()
    yield "items-over-facet-cut", wrong[:-2].encode()
    for turn, tie in enumerate(((0, 1), (1, 1), (0, -1), (0, 3))):
        three = [SMALL] * 3, [tie, (2, 3)]
        yield f"items-over-tie2-{turn}", job_of("ball", of_equal_facets(511), three, [])
    four = [SMALL] * 4, [(0, 1), (2, 3), (4, 5)]
    yield "items-over-tie2-second", job_of("box", of_equal_facets(510), four, [])
    yield "items-over-tie2-none", job_of("box", of_equal_facets(510), of_equal_facets(3), [])
    tall = [SMALL] * (1_024 - 32)
    for turn, last in enumerate(((1_023, 33), (33, 1_023), (1_023, 0), (40, 41))):
        ties = [(0, 1)] + [(991 + step, step + 1) for step in range(1, 32)] + [last]
        yield f"items-over-height-{turn}", job_of("ball", (tall, ties), of_equal_facets(1), [])


# Pairs


def pair_jobs():
    """Come to 4,096 pairs exactly and to one more."""
    for first, second in ((64, 64), (16, 256), (256, 16), (17, 241), (241, 17), (63, 65)):
        name = f"pairs-{first}-{second}"
        yield name, job_of("box", of_equal_facets(first), of_equal_facets(second), [IN_PLACE])
    many = of_equal_facets(64)
    yield "pairs-fresh", job_of("ball", many, many, [beside(0, 0, 1), beside(SHIFT_LIMIT, 0, 0), IN_PLACE])
    more = [SMALL] * 64 + [FLOOR], by_levels(65)
    placements = [beside(*ticks(-30, 0, 0)), beside(*ticks(30, 0, 0)), IN_PLACE, IN_PLACE]
    yield "pairs-later", job_of("box", many, more, placements)
    tall = ([SMALL] * 33, chain(33, (1,)))
    yield "pairs-tall", job_of("many", tall, tall, [IN_PLACE])


# Bytes


def padded(job, size, place):
    """Give a job of a size: separators are put in front of the word of a place, or at the end."""
    words = job.split(b" ")
    pad = (b" " * 61 + b"\n\n\n") * (size // 64 + 1)
    front = b" ".join(words[:place])
    back = b" ".join(words[place:])
    return front + pad[:size - len(front) - len(back)] + back


def long_placements(size):
    """Give a right job of a size that is filled with placements, and padded by some spaces."""
    start = job_words("box", *SINGLE, [])[:-1]
    each = len(joined(NEAR)) + 1
    count = (size - len(" ".join(start)) - 6) // each
    lines = [joined(NEAR if turn % 3 == 0 else FAR).encode() for turn in range(count)]
    return b"\n".join([text_of(start + [str(count)]), *lines]).ljust(size)


def byte_jobs():
    """Give jobs of 65,536 bytes and of one less and one more, right ones and others."""
    right = text_of(job_words("box", *PLATES, [NEAR, FAR]))
    last = len(right.split(b" "))
    size = MOST_BYTES
    yield "bytes-end", padded(right, size, last)
    yield "bytes-middle", padded(right, size, last - 3)
    yield "bytes-one-word", b"x" * size
    yield "bytes-blank", b"\n" * size
    yield "bytes-extra", right + b" " * (size - len(right) - 1) + b"7"
    yield "bytes-long-number", right[:-5] + b"0" * (size - len(right) + 5)
    yield "bytes-placements", long_placements(size)
    yield "bytes-one-less", padded(right, size - 1, 0)
    yield "bytes-one-more", padded(right, size + 1, 0)
    yield "bytes-one-more-placements", long_placements(size + 1)


GROUPS = (
    separator_jobs,
    number_jobs,
    zero_part_jobs,
    range_jobs,
    contact_jobs,
    itself_jobs,
    full_jobs,
    over_full_jobs,
    pair_jobs,
    byte_jobs,
)


def hand_made_jobs():
    """Give all jobs of this file."""
    for group in GROUPS:
        yield from group()
