"""Checks the oracle against the worked values and the stated facts of docs/."""

import random
from itertools import count, permutations, product

from axes import (
    FIXED_AXES,
    axis,
    corner_distance,
    gaps,
    moved_direction,
    parting_axes,
    standing_direction,
    unrounded_gaps,
)
from check_comparisons import check_comparisons, check_sharing_cases, check_stopping
from check_jobs import check_jobs
from check_pairs import apart_bound, check_random_pairs, check_sharing_pairs, near_bound
from geometry import (
    CORNER_LIMIT,
    DIRECTION_LIMIT,
    MATRIX_LIMIT,
    SHIFT_LIMIT,
    UNIT_MATRIX,
    W,
    ceil_div,
    combination,
    dot,
    image,
    length,
    scale,
    shares_point,
    spread,
    subtract,
    times,
)
from histories import history_lines
from history import RAW_LIMIT
from hulls import (
    BALL,
    BOX,
    BOX_FACES,
    FACED_KINDS,
    KINDS,
    MANY,
    MANY_FACES,
    box_weights,
    ceil_root,
    grow,
    many_weights,
    plane,
    rounded_weight,
    weighted_reach,
    weighted_unrounded,
)
from random_cases import extreme_corners, some_corners, some_direction
from register import HEIGHT_LIMIT, OBJECT_LIMIT, Register

TURNED = (629146, -838861, 0, 838861, 629146, 0, 0, 0, 1048576)
FLOOR = [(0, 0, 0), (40, 0, 0), (0, 40, 0)]
LIFTED = [(0, 0, 9), (40, 0, 9), (0, 40, 9)]
SLANTED = [(0, 0, 0), (40, 0, 0), (0, 40, 9)]

LAW_CONSTANT = 16_777_216
FACE_CONSTANT = 12_386_304


# Worked values of geometry.md


def check_units():
    """Check the constants and the products of triples."""
    assert W == 2**20 == 256 * 4096
    assert DIRECTION_LIMIT == 3 * 768 * W == 2_415_919_104
    assert MATRIX_LIMIT == 1_048_576 and SHIFT_LIMIT == 536_870_912
    assert dot((500, -300, 100), (0, 40, 9)) == -11_100
    assert length((500, -300, 100)) == 900


def check_image():
    """Check the worked image of a corner."""
    v, shift = (10, -5, 3), (4096, 0, -2048)
    assert times(TURNED, v) == (10485765, 5242880, 3145728)
    assert scale(256, shift) == (1048576, 0, -524288)
    assert image(TURNED, shift, v) == (11534341, 5242880, 2621440)


def check_sharing_example():
    """Check the worked case of a shared point."""
    point = [(10, 20, 0)] * 3
    a, b = (1, 0, 0), (1, 1, 2)
    assert shares_point(point, LIFTED, UNIT_MATRIX, (0, 0, 36864), a, b)
    assert not shares_point(point, LIFTED, UNIT_MATRIX, (0, 0, 36865), a, b)
    assert combination(b, LIFTED) == (40, 80, 36)


def check_spread():
    """Check the worked spread and the ends of its range."""
    assert spread([(0, 0, 9), (40, 0, 9), (0, 25, 9)]) == 40
    assert spread([(3, 4, 5)]) == 0
    assert spread([(1, -32767, 0), (2, 32767, 0)]) == 65_534


# Worked values of hulls.md


def check_kinds():
    """Check words and numbers of faces."""
    assert [(kind.word, kind.faces) for kind in KINDS] == [("box", 6), ("many", 26), ("ball", 0)]
    assert len(set(BOX_FACES)) == 6 and len(set(MANY_FACES)) == 26
    assert set(BOX_FACES) == {face for face in MANY_FACES if length(face) == 1}


def check_rounding():
    """Check the small cases of rounding."""
    assert ceil_div(-9, 4) == -2
    assert rounded_weight(100, 5) == 2 and rounded_weight(100, -5) == 1
    assert rounded_weight(128, 5) == 2 and rounded_weight(128, -5) == 2
    assert plane((0, 0, 1), (0, 0, 9)) == 3 and plane((0, 0, -1), (0, 0, 9)) == -2


def check_weights():
    """Check the small cases of weights."""
    assert many_weights((5, -3, 1)) == [(2, (1, 0, 0)), (2, (1, -1, 0)), (1, (1, -1, 1))]
    assert box_weights((5, -3, 1)) == [(5, (1, 0, 0)), (3, (0, -1, 0)), (1, (0, 0, 1))]


WORKED_REACHES = (
    (BOX, (500, -300, 100), 86, 20_900, (
        (500, (1, 0, 0), 40, 10, 8, 80, 20_000),
        (300, (0, -1, 0), 0, 0, 5, 0, 0),
        (100, (0, 0, 1), 9, 3, 2, 6, 900))),
    (MANY, (500, -300, 100), 106, 20_900, (
        (200, (1, 0, 0), 40, 10, 4, 40, 8_000),
        (200, (1, -1, 0), 40, 10, 4, 40, 8_000),
        (100, (1, -1, 1), 49, 13, 2, 26, 4_900))),
    (BOX, (-500, 300, -100), 48, 11_100, (
        (500, (-1, 0, 0), 0, 0, 8, 0, 0),
        (300, (0, 1, 0), 40, 10, 5, 50, 12_000),
        (100, (0, 0, -1), -9, -2, 1, -2, -900))),
    (MANY, (-500, 300, -100), 56, 11_100, (
        (200, (-1, 0, 0), 0, 0, 4, 0, 0),
        (200, (-1, 1, 0), 40, 10, 4, 40, 8_000),
        (100, (-1, 1, -1), 31, 8, 2, 16, 3_100))),
)


def check_worked_row(hull, row):
    """Check one row of the table of worked reaches."""
    weight, face, d, g, n, rounded, unrounded = row
    assert max(dot(face, v) for v in LIFTED) == d
    assert hull[face] == g
    assert rounded_weight(weight, g) == n
    assert n * g == rounded and weight * d == unrounded


def check_worked_reaches():
    """Check the table of worked reaches."""
    for kind, u, reach, unrounded, table in WORKED_REACHES:
        hull = grow(kind, LIFTED)
        assert kind.weights(u) == [row[0:2] for row in table]
        for row in table:
            check_worked_row(hull, row)
        assert kind.reach(hull, u) == reach == sum(row[5] for row in table)
        assert kind.unrounded(LIFTED, u) == unrounded == sum(row[6] for row in table)
    for kind in FACED_KINDS:
        assert kind.reach(grow(kind, LIFTED), (0, 0, -100)) == -2
        assert kind.unrounded(LIFTED, (0, 0, -100)) == -900


def check_law_example():
    """Check the worked case of the two laws."""
    u = (500, -300, 100)
    assert [dot(u, v) for v in LIFTED] == [900, 20_900, -11_100]
    assert spread(LIFTED) == 40
    assert 256 * BOX.reach(grow(BOX, LIFTED), u) == 22_016
    assert -11_100 + 3 * 900 * 48 + LAW_CONSTANT == 16_895_716


TILTED = [(10, 20, 30), (13, 24, 30), (10, 20, 29)]

WORKED_BALLS = (
    ([(0, 0, 0), (3, 4, 0), (0, 0, 0)], (0, 0, W), 5, 0, 2**40, 1_048_576, 5_242_880, 20_480),
    ([(0, 0, 0), (1, 1, 0), (0, 0, 0)], (0, 0, W), 2, 0, 2**40, 1_048_576, 2_097_152, 8_192),
    (TILTED, (500, -300, 100), 5, 2_000, 350_000, 592, 4_960, 20),
    (TILTED, (-500, 300, -100), 5, -2_000, 350_000, 592, 960, 4),
    (TILTED, (0, 0, -100), 5, -3_000, 10_000, 100, -2_500, -9),
)


def check_worked_balls():
    """Check the table of worked balls."""
    for corners, u, radius, along, square, q, total, reach in WORKED_BALLS:
        hull = grow(BALL, corners)
        assert hull == (corners[0], radius)
        assert dot(u, corners[0]) == along and dot(u, u) == square
        assert ceil_root(square) == q
        assert along + radius * q == total
        assert BALL.reach(hull, u) == reach


# Worked values of axes-and-gaps.md


def check_axes():
    """Check the tables of axes and the worked directions of axis 15."""
    assert len(set(FIXED_AXES)) == 13
    assert {scale(sign, line) for sign in (1, -1) for line in FIXED_AXES} == set(MANY_FACES)
    assert [axis(n, UNIT_MATRIX) for n in range(14, 18)] == [
        (256, 0, 0), (0, 256, 0), (0, 0, 256), (256, 256, 256)]
    assert [axis(n, TURNED) for n in range(14, 18)] == [
        (153, 204, 0), (-205, 153, 0), (0, 0, 256), (-52, 358, 256)]
    assert times(TURNED, (0, 1, 0)) == (-838861, 629146, 0)
    assert axis(14, (-1, 0, 0, 4095, 0, 0, 0, 0, 0)) == (-1, 0, 0)
    assert axis(14, (5, 0, 0, 0, W, 0, 0, 0, W)) == (0, 0, 0)
    line = axis(15, TURNED)
    u = moved_direction(TURNED, line)
    assert u == (-629197, 268225843, 0)
    assert length(u) == 268_855_040
    assert W * length(line) == length(standing_direction(line)) == 375_390_208


def check_first_gaps():
    """Check the first worked case of gaps, rounded and unrounded."""
    moved, standing = grow(BOX, FLOOR), grow(BOX, LIFTED)
    assert BOX.reach(standing, (0, 0, W)) == 49_152
    assert BOX.reach(standing, (0, 0, -W)) == -32_768
    table = (
        (28_672, -20_480, 4_096, [3, 16]),
        (32_768, -16_384, 0, []),
        (49_152, 0, -16_384, []),
        (53_248, 4_096, -20_480, [3, 16]),
    )
    for height, first, second, numbers in table:
        shift = (0, 0, height)
        assert gaps(BOX, moved, standing, UNIT_MATRIX, shift, 3) == (first, second)
        assert parting_axes(BOX, moved, standing, UNIT_MATRIX, shift) == numbers
        unrounded = (256 * height - 9 * W, 9 * W - 256 * height)
        assert unrounded_gaps(BOX, FLOOR, LIFTED, UNIT_MATRIX, shift, 3) == unrounded
    shift = (0, 0, 32_768)
    assert unrounded_gaps(BOX, FLOOR, LIFTED, UNIT_MATRIX, shift, 3) == (-1_048_576, 1_048_576)
    for v, w in product(FLOOR, LIFTED):
        assert corner_distance(UNIT_MATRIX, shift, v, w, 3) == 1_048_576


def check_second_gaps():
    """Check the second worked case of gaps, rounded and unrounded."""
    shift = (-180000, -2048, 0)
    moved, standing = grow(BOX, SLANTED), grow(BOX, LIFTED)
    line = axis(15, TURNED)
    u, wl = moved_direction(TURNED, line), standing_direction(line)
    assert dot(line, shift) == 36_586_656
    assert BOX.reach(moved, scale(-1, u)) == 98_320 == 9_832 * 10
    assert BOX.reach(moved, u) == 41_910_290 == 4_191_029 * 10
    assert BOX.reach(standing, wl) == 25_067_520 == 2_506_752 * 10
    assert BOX.reach(standing, scale(-1, wl)) == 33_587_200 == 3_358_720 * 10
    assert gaps(BOX, moved, standing, TURNED, shift, 15) == (11_420_816, -112_084_146)
    assert unrounded_gaps(BOX, SLANTED, LIFTED, TURNED, shift, 15) == (2_923_730_936, -28_693_540_856)
    assert 256 * 11_420_816 == 2_923_728_896
    assert 15 in parting_axes(BOX, moved, standing, TURNED, shift)


def check_bound_example():
    """Check the worked bounds for one pair of hulls."""
    assert near_bound(W, W, 40, 40) == 335_544_320
    assert apart_bound(W, W) == 31_064_064


# The rules of register.md on hand-made histories

HAND_MADE = """
open box 7 5 2 99
close 9 = refused 3
start = started
start = refused 1
facet 9 0 0 0 1 0 0 0 1 0 = refused 3
facet 7 0 0 0 1 0 0 0 1 0 = entered 0
facet 7 0 0 0 1 0 0 0 1 32768 = refused 4
facet 7 -32768 0 0 1 0 0 0 1 0 = refused 4
facet 7 -32767 0 0 1 0 0 0 1 32767 = entered 1
tie 9 0 1 = refused 3
tie 7 0 0 = refused 6
tie 7 0 2 = refused 6
tie 7 -1 0 = refused 6
tie 7 1 0 = entered 2
tie 7 0 1 = refused 6
tie 7 0 2 = refused 6
tie 7 2 1 = refused 6
drop 9 = refused 3
close 9 = refused 3
close 7 = filed 0
tie 9 0 1 = refused 3
compare 0 0 1048576 0 0 0 1048576 0 0 0 1048576 0 0 0 = refused 11 1 1 1 0
compare 0 0 1048576 0 0 0 1048576 0 0 0 1048576 536870912 0 0 = listed 0 1
compare 0 0 1048576 0 0 0 1048576 0 0 0 1048576 536870913 0 0 = refused 10
compare 0 0 1048576 0 0 0 1048576 0 0 0 -1048577 0 0 0 = refused 10
compare 0 1 1048577 0 0 0 1048576 0 0 0 1048576 0 0 0 = refused 9
compare -1 0 1048576 0 0 0 1048576 0 0 0 1048576 0 0 0 = refused 9
start = started
compare 1 0 1048576 0 0 0 1048576 0 0 0 1048576 0 0 0 = refused 9
tie 7 0 1 = refused 6
facet 7 1 1 1 1 1 1 1 1 1 = entered 0
tie 7 0 1 = refused 6
facet 7 2 2 2 2 2 2 2 2 2 = entered 1
facet 7 3 3 3 3 3 3 3 3 3 = refused 5
facet 7 3 3 3 3 3 3 3 3 99999 = refused 4
facet 9 3 3 3 3 3 3 3 3 99999 = refused 3
tie 7 0 1 = refused 5
tie 7 1 1 = refused 6
close 7 = refused 8
drop 9 = refused 3
start = started
drop 7 = removed 0
start = started
facet 7 4 4 4 4 4 4 4 4 4 = entered 0
close 7 = filed 1
start = started
close 7 = refused 8
start = started
facet 7 5 5 5 5 5 5 5 5 5 = entered 0
close 7 = filed 2
start = started
facet 7 6 6 6 6 6 6 6 6 6 = refused 5
compare 1 2 1048576 0 0 0 1048576 0 0 0 1048576 0 0 0 = listed 1 1 0 0
compare 1 2 1048576 0 0 0 1048576 0 0 0 1048576 16384 16384 16384 = listed 1 1 0 0
compare 1 2 1048576 0 0 0 1048576 0 0 0 1048576 16384 16385 16384 = listed 0 1
compare 2 1 1048576 0 0 0 1048576 0 0 0 1048576 -16384 -16384 -16384 = listed 1 1 0 0
compare 2 1 1048576 0 0 0 1048576 0 0 0 1048576 0 0 1 = listed 0 1
compare 2 2 1048576 0 0 0 1048576 0 0 0 1048576 0 0 16384 = listed 1 1 0 0
compare 2 2 1048576 0 0 0 1048576 0 0 0 1048576 0 -16385 0 = listed 0 1
drop 7 = removed 0
open box 0 0 0 0
start = started
facet 0 0 0 0 0 0 0 0 0 0 = refused 5
facet 0 0 0 0 0 9223372036854775807 0 0 0 0 = refused 4
tie 0 0 1 = refused 6
close 65535 = refused 3
close 0 = refused 8
start = started
start = refused 1
drop 0 = removed 0
open many 256 9 0 0
start = started
facet 256 0 0 0 0 0 0 0 0 0 = entered 0
facet 256 0 0 0 0 0 0 0 0 0 = entered 1
facet 256 0 0 0 0 0 0 0 0 0 = entered 2
tie 256 2 0 = entered 3
tie 256 1 3 = entered 4
facet 256 0 0 0 0 0 0 0 0 0 = entered 5
close 0 = refused 3
drop 256 = removed 6
start = started
facet 256 0 0 0 0 0 0 0 0 0 = entered 0
facet 256 0 0 0 0 0 0 0 0 0 = entered 1
facet 256 0 0 0 0 0 0 0 0 0 = entered 2
facet 256 0 0 0 0 0 0 0 0 0 = entered 3
tie 256 3 1 = entered 4
tie 256 2 0 = entered 5
tie 256 4 2 = refused 6
tie 256 4294967301 4 = refused 6
tie 256 5 4 = entered 6
facet 256 0 0 0 0 0 0 0 0 0 = entered 7
facet 256 0 0 0 0 0 0 0 0 0 = entered 8
tie 256 7 8 = refused 5
close 256 = refused 8
start = started
facet 256 0 0 0 0 0 0 0 0 0 = entered 0
close 256 = filed 0
open ball 5 3 2 3
start = started
facet 5 0 0 0 0 0 0 0 0 0 = entered 0
facet 5 0 0 0 0 0 0 0 0 0 = entered 1
tie 5 0 1 = entered 2
close 5 = filed 0
compare 0 0 1048576 0 0 0 1048576 0 0 0 1048576 0 0 0 = refused 11 0 0 0 1
compare 0 0 1048576 0 0 0 1048576 0 0 0 1048576 0 0 0 = refused 11 0 0
compare 0 0 1048576 0 0 0 1048576 0 0 0 1048576 0 0 0 = refused 11
compare 0 0 1048576 0 0 0 1048576 0 0 0 1048576 536870912 0 0 = listed 0 1
compare 0 1 1048576 0 0 0 1048576 0 0 0 1048576 0 0 0 = refused 9
open many 5 3 2 3
compare 0 0 1048576 0 0 0 1048576 0 0 0 1048576 0 0 0 = refused 9
start = started
facet 5 0 0 0 0 0 0 0 0 0 = entered 0
close 5 = filed 0
compare 0 0 1048576 0 0 0 1048576 0 0 0 1048576 0 0 0 = listed 1 1 0 0
compare 0 0 1048576 0 0 0 1048576 0 0 0 1048576 0 0 0 = refused 11
"""

POINT = (0, 0, 0, 0, 0, 0, 0, 0, 0)


def kind_of(word):
    """Give the kind of a word."""
    return next(kind for kind in KINDS if kind.word == word)


def rooms_of(opening):
    """Give the number of places of each comparison in turn, without end, by the line of an opening."""
    stretch, lent = map(int, opening.split(" ")[4:])
    places = range(lent)
    return (len(places[stretch * number:stretch * (number + 1)]) for number in count())


def answer_of(register, words, rooms):
    """Make the call of a line on a register; the list of a comparison has the next of the rooms."""
    call, *numbers = words
    if call == "start":
        assert not numbers
        return register.start()
    mark, *rest = map(int, numbers)
    if call == "compare":
        assert len(rest) == 13
        return register.compare(mark, rest[0], tuple(rest[1:]), next(rooms))
    if call == "facet":
        assert len(rest) == 9
        return register.facet(mark, rest)
    if call == "tie":
        return register.tie(mark, *rest)
    assert not rest
    return {"close": register.close, "drop": register.drop}[call](mark)


def check_answers(lines):
    """Check the answer of each call of some histories; give the last register."""
    register = rooms = None
    for line in lines:
        call, _, answer = line.partition(" = ")
        words = call.split(" ")
        if words[0] == "open":
            assert not answer
            kind = kind_of(words[1])
            mark, places = map(int, words[2:4])
            register = Register(mark, [None] * places, kind)
            rooms = rooms_of(line)
        else:
            assert " ".join(map(str, answer_of(register, words, rooms))) == answer, line
    return register


def check_hand_made():
    """Check the hand-made histories."""
    check_answers(HAND_MADE.strip().split("\n"))


def check_object_limit():
    """Check that 64 objects can be closed and no more."""
    register = Register(3, [None] * 100, BOX)
    for number in range(64):
        assert register.start() == ("started",)
        assert register.start() == ("refused", 1)
        assert register.facet(3, POINT) == ("entered", 0)
        assert register.close(3) == ("filed", number)
    assert register.start() == ("refused", 2)
    assert register.facet(3, POINT) == ("refused", 3)
    assert OBJECT_LIMIT == 64


def chain_register(places):
    """Give a register with a chain of height 32, item 64, and one more facet, item 65."""
    register = Register(3, [None] * places, BOX)
    assert register.start() == ("started",)
    assert register.facet(3, POINT) == ("entered", 0)
    for height in range(1, 33):
        assert register.facet(3, POINT) == ("entered", 2 * height - 1)
        assert register.tie(3, 2 * height - 2, 2 * height - 1) == ("entered", 2 * height)
    assert register.facet(3, POINT) == ("entered", 65)
    return register


def check_height_limit():
    """Check that a tie of height 33 is refused, after 3 and 6 and before 5."""
    for places in (66, 70):
        register = chain_register(places)
        assert register.tie(3, 64, 65) == ("refused", 7)
        assert register.tie(3, 65, 64) == ("refused", 7)
        assert register.tie(4, 64, 65) == ("refused", 3)
        assert register.tie(3, 64, 64) == ("refused", 6)
        assert register.tie(3, 64, 62) == ("refused", 6)
        assert register.facet(3, POINT) == (("refused", 5) if places == 66 else ("entered", 66))
    assert register.tie(3, 66, 65) == ("entered", 67)
    assert register.tie(3, 64, 67) == ("refused", 7)
    assert register.drop(3) == ("removed", 68)
    assert HEIGHT_LIMIT == 32


def check_marks():
    """Check that the mark alone tells drafts apart, and only while a draft is open."""
    register = Register(65_535, [None] * 3, BOX)
    assert register.drop(65_535) == ("refused", 3)
    register.start()
    assert register.facet(0, POINT) == ("refused", 3)
    assert register.facet(65_535, POINT) == ("entered", 0)
    assert register.close(65_535) == ("filed", 0)
    assert register.close(65_535) == ("refused", 3)


def check_capacity():
    """Check the greatest capacity, and that opening writes nothing."""
    assert Register(0, [None] * 65_537, BOX).capacity == 65_536
    assert Register(0, [None] * 65_535, BOX).capacity == 65_535
    table = ["old"] * 2
    Register(0, table, BOX)
    assert table == ["old"] * 2


def check_stored_hulls():
    """Check the stored hulls of facets and ties, and which places keep what they held."""
    table = ["old"] * 5
    register = Register(1, table, BALL)
    register.start()
    register.facet(1, (0, 0, 0, 3, 4, 0, 0, 0, 0))
    register.facet(1, (10, 20, 30, 13, 24, 30, 10, 20, 29))
    register.tie(1, 1, 0)
    assert table[0][1] == ((0, 0, 0), 5) and table[1][1] == ((10, 20, 30), 5)
    assert table[2][1] == ((10, 20, 30), 38)  # the square of 38 is next above 1,400
    assert table[2][0].parts == (1, 0) and table[2][0].height == 1
    assert table[3:] == ["old"] * 2
    held = list(table)
    register.drop(1)
    assert table == held
    register.start()
    register.facet(1, (7, 7, 7, 7, 7, 7, 7, 7, 7))
    assert table[0][1] == ((7, 7, 7), 0) and table[1:] == held[1:]
    assert register.close(1) == ("filed", 0)
    register.start()
    register.facet(1, (8, 8, 8, 8, 8, 8, 8, 8, 8))
    assert table[1][1] == ((8, 8, 8), 0) and table[2:] == held[2:]


# The printed histories


def split_histories(lines):
    """Give the lines of each history."""
    found = []
    for line in lines:
        if line.startswith("open "):
            found.append([])
        found[-1].append(line)
    return found


def check_tokens(lines):
    """Check that a history has two marks, raw numbers in range, and 3 just for calls without a draft."""
    own = int(lines[0].split(" ")[2])
    foreign, has_token = set(), False
    for line in lines[1:]:
        call, answer = line.split(" = ")
        word, *numbers = call.split(" ")
        assert all(abs(int(number)) <= RAW_LIMIT for number in numbers)
        if answer == "started":
            has_token = True
        elif word in ("start", "compare"):
            assert answer != "refused 3"
        elif int(numbers[0]) != own:
            foreign.add(numbers[0])
            assert answer == "refused 3"
        else:
            assert has_token == (answer != "refused 3")
            has_token = has_token and word in ("facet", "tie")
    assert len(foreign) <= 1


def items_under(items, number):
    """Give the numbers of the items that lie under an item, itself among them."""
    found = [number]
    for part in items[number].parts:
        found += items_under(items, part)
    return found


def check_object(items):
    """Check what holds for every closed object."""
    assert sorted(items_under(items, len(items) - 1)) == list(range(len(items)))
    for item in items:
        parts = [items[part] for part in item.parts]
        assert item.height == (1 + max(part.height for part in parts) if parts else 0)
        assert item.height <= 32
        if parts:
            assert item.corners == parts[0].corners + parts[1].corners
        else:
            assert len(item.corners) == 3


def check_table(register):
    """Check that objects and then the draft fill the lowest places in order."""
    items = [item for items in register.objects for item in items] + (register.draft or [])
    for item, place in zip(items, register.table):
        assert place[0] is item and place[1] == grow(register.kind, item.corners)


def comparisons_of(lines):
    """Give the number of places and the words of the answer for each comparison of a history."""
    answers = [line.split(" = ")[1].split(" ") for line in lines if line.startswith("compare ")]
    return list(zip(rooms_of(lines[0]), answers))


def check_lists(lines):
    """Check the pairs of each comparison of a history against the number of places."""
    for room, (word, *numbers) in comparisons_of(lines):
        if word == "listed":
            pairs = numbers[2:]
            assert len(pairs) == 2 * int(numbers[0]) <= 2 * room
        elif numbers[0] == "11":
            pairs = numbers[1:]
            assert len(pairs) == 2 * room
        else:
            assert numbers in (["9"], ["10"])
            continue
        assert len(set(zip(pairs[::2], pairs[1::2]))) == len(pairs) // 2


def check_cut_lists(found):
    """Check that cut stretches, and comparisons without places, have answers of every sort."""
    cut, none = [], []
    for lines in found:
        stretch = int(lines[0].split(" ")[4])
        answers = comparisons_of(lines)
        cut += [answer[:2] for room, answer in answers if 0 < room < stretch]
        none += [answer[:2] for room, answer in answers if room == 0 < stretch]
    for answers, least in ((cut, 3), (none, 20)):
        for number in ("9", "10", "11"):
            assert answers.count(["refused", number]) >= least
        assert sum(answer[0] == "listed" for answer in answers) >= least
    assert sum(answer[0] == "listed" and answer != ["listed", "0"] for answer in cut) >= 10
    assert cut.count(["refused", "11"]) >= 10


def check_mix(lines):
    """Check that each refusal, empty lists and lists with pairs are frequent."""
    answers = [line.partition(" = ")[2].split(" ") for line in lines]
    for number in range(1, 12):
        assert answers.count(["refused", str(number)]) >= 36 or number == 11
    assert sum(answer[:2] == ["refused", "11"] for answer in answers) >= 400
    counts = [int(answer[1]) for answer in answers if answer[0] == "listed"]
    assert min(counts.count(0), len(counts) - counts.count(0)) >= 1_500
    for kind in KINDS:
        assert sum(line.startswith(f"open {kind.word} ") for line in lines) >= 20


def check_histories():
    """Check the printed histories; give their number."""
    lines = history_lines()
    assert sum(len(line) + 1 for line in lines) <= 3_000_000
    check_mix(lines)
    found = split_histories(lines)
    check_cut_lists(found)
    for history in found:
        check_tokens(history)
        check_lists(history)
        register = check_answers(history)
        check_table(register)
        for items in register.objects:
            check_object(items)
    return len(found)


# Random checks of one hull


def check_laws(kind, corners, u):
    """Check the two laws for each corner of a list."""
    reached = 256 * kind.reach(grow(kind, corners), u)
    room = 3 * length(u) * (spread(corners) + 8) + LAW_CONSTANT
    for v in corners:
        assert dot(u, v) <= reached <= dot(u, v) + room


def check_faces(kind, corners, u):
    """Check the planes, the weights and the bounds of the unrounded reach."""
    hull = grow(kind, corners)
    terms = kind.weights(u)
    assert combination([w for w, _ in terms], [f for _, f in terms]) == tuple(u)
    for face, g in hull.items():
        assert g == ceil_div(max(dot(face, v) for v in corners), 4)
        assert abs(g) <= (8_192, 16_384, 24_576)[length(face) - 1]
    for weight, face in terms:
        assert weight >= 0
        d, g = max(dot(face, v) for v in corners), hull[face]
        term = 256 * rounded_weight(weight, g) * g
        assert weight * d <= term <= weight * d + 3 * weight + 252 * abs(g)
    unrounded = kind.unrounded(corners, u)
    reached = 256 * kind.reach(hull, u)
    assert unrounded <= reached <= unrounded + 3 * length(u) + FACE_CONSTANT
    assert grow(kind, corners[::-1]) == hull


def open_signs(u):
    """Give every choice of signs that a direction leaves open."""
    return list(product(*((1, -1) if x == 0 else (1,) if x > 0 else (-1,) for x in u)))


def open_orders(u):
    """Give every falling order of the coordinates that a direction leaves open."""
    return [
        order
        for order in permutations(range(3))
        if abs(u[order[0]]) >= abs(u[order[1]]) >= abs(u[order[2]])
    ]


def check_free_choices(corners, u):
    """Check that the open choices of signs and order change no reach."""
    box, many = grow(BOX, corners), grow(MANY, corners)
    for signs in open_signs(u):
        terms = box_weights(u, signs)
        assert weighted_reach(box, terms) == BOX.reach(box, u)
        assert weighted_unrounded(corners, terms) == BOX.unrounded(corners, u)
        for order in open_orders(u):
            terms = many_weights(u, order, signs)
            assert weighted_reach(many, terms) == MANY.reach(many, u)
            assert weighted_unrounded(corners, terms) == MANY.unrounded(corners, u)


def check_ball(corners):
    """Check centre and radius of a ball against their definition."""
    centre, radius = grow(BALL, corners)
    assert centre == corners[0]
    squares = [dot(subtract(v, centre), subtract(v, centre)) for v in corners]
    assert radius >= 0 and radius * radius >= max(squares)
    assert radius == 0 or (radius - 1) ** 2 < max(squares)


def check_random_hulls(rng, rounds):
    """Check the laws and the facts of each kind on drawn corner lists."""
    for turn in range(rounds):
        draw = extreme_corners if turn % 5 == 0 else some_corners
        corners = draw(rng, rng.randint(1, 8))
        u = some_direction(rng)
        if turn % 7 == 0:
            u = tuple(rng.choice((0, 1, -1)) * DIRECTION_LIMIT for _ in range(3))
        for kind in KINDS:
            check_laws(kind, corners, u)
        for kind in FACED_KINDS:
            check_faces(kind, corners, u)
        check_free_choices(corners, u)
        check_ball(corners)


def main():
    """Run every check."""
    check_units()
    check_image()
    check_sharing_example()
    check_spread()
    check_kinds()
    check_rounding()
    check_weights()
    check_worked_reaches()
    check_law_example()
    check_worked_balls()
    check_axes()
    check_first_gaps()
    check_second_gaps()
    check_bound_example()
    check_hand_made()
    check_object_limit()
    check_height_limit()
    check_marks()
    check_capacity()
    check_stored_hulls()
    histories = check_histories()
    rng = random.Random(26)
    check_random_hulls(rng, 4_000)
    apart, near = check_random_pairs(rng, 600)[::-1]
    shared = check_sharing_pairs(rng, 300)
    check_sharing_cases()
    listed, touching = check_comparisons(rng, 120)
    check_stopping(rng, 60)
    jobs = check_jobs()
    assert CORNER_LIMIT == 32_767
    pairs = f"{apart} parted and {near} other pairs, {shared} pairs that share a point"
    lists = f"{listed} listed pairs, {touching} of them sharing a point"
    print(f"all well: {pairs}; {lists}; {histories} histories, {jobs} jobs")


if __name__ == "__main__":
    main()
