"""Checks what the docs say of one pair of hulls, on drawn facets."""

from itertools import product

from axes import (
    AXIS_NUMBERS,
    axis,
    corner_distance,
    gaps,
    moved_direction,
    parting_axes,
    standing_direction,
    unrounded_gaps,
)
from geometry import (
    DIRECTION_LIMIT,
    SHIFT_LIMIT,
    W,
    add,
    combination,
    dot,
    image,
    length,
    scale,
    shares_point,
    spread,
    subtract,
    times,
)
from hulls import KINDS, grow
from random_cases import facet, some_matrix, some_shift, triple
from sharing import shared_weights


def near_bound(u_length, v_length, s, t):
    """Give the bound on corner distances of hulls that are not parted."""
    return 3 * u_length * (s + 8) + 3 * v_length * (t + 8) + 33_554_432


def apart_bound(u_length, v_length):
    """Give the bound on unrounded hulls of hulls that are not parted."""
    return 24_772_608 + 3 * (u_length + v_length)


def check_axis_facts(moved, matrix, shift, number):
    """Check the ranges and the exact product of one axis."""
    line = axis(number, matrix)
    u = moved_direction(matrix, line)
    assert max(map(abs, line)) <= 768
    assert max(map(abs, u)) <= DIRECTION_LIMIT
    assert max(map(abs, standing_direction(line))) <= DIRECTION_LIMIT
    for v in moved:
        assert dot(line, image(matrix, shift, v)) == dot(u, v) + 256 * dot(line, shift)


def check_near(moved, standing, matrix, shift, number):
    """Check what holds along one axis for hulls that are not parted."""
    line = axis(number, matrix)
    u_length = length(moved_direction(matrix, line))
    bound = near_bound(u_length, W * length(line), spread(moved), spread(standing))
    for v, w in product(moved, standing):
        assert corner_distance(matrix, shift, v, w, number) <= bound


def check_unrounded_pair(kind, moved, standing, matrix, shift, number, is_parted):
    """Check what holds along one axis for the unrounded hulls."""
    rounded = gaps(kind, grow(kind, moved), grow(kind, standing), matrix, shift, number)
    unrounded = unrounded_gaps(kind, moved, standing, matrix, shift, number)
    assert unrounded[0] >= 256 * rounded[0] and unrounded[1] >= 256 * rounded[1]
    if max(rounded) > 0:
        assert max(unrounded) > 0
    if not is_parted:
        line = axis(number, matrix)
        bound = apart_bound(length(moved_direction(matrix, line)), W * length(line))
        assert max(unrounded) <= bound


def check_pair(kind, moved, standing, matrix, shift):
    """Check the facts of one pair of hulls; say whether it is parted."""
    numbers = parting_axes(kind, grow(kind, moved), grow(kind, standing), matrix, shift)
    for number in AXIS_NUMBERS:
        check_axis_facts(moved, matrix, shift, number)
        if axis(number, matrix) == (0, 0, 0):
            assert number not in numbers
        if not numbers:
            check_near(moved, standing, matrix, shift, number)
        if kind.faces:
            check_unrounded_pair(kind, moved, standing, matrix, shift, number, bool(numbers))
    return bool(numbers)


def near_shift(rng, moved, standing, matrix):
    """Draw a shift that brings two facets close to each other."""
    away = rng.choice((0, 2, 3_000, 60_000, 1_000_000))
    v, w = rng.choice(moved), rng.choice(standing)
    exact = subtract(scale(W, w), times(matrix, v))
    shift = add(tuple(entry // 256 for entry in exact), triple(rng, away))
    return tuple(max(-SHIFT_LIMIT, min(SHIFT_LIMIT, entry)) for entry in shift)


def check_random_pairs(rng, rounds):
    """Check the pair facts on drawn facets, far and near; both answers must occur."""
    counts = [0, 0]
    for turn in range(rounds):
        moved, standing, matrix = facet(rng), facet(rng), some_matrix(rng)
        shift = near_shift(rng, moved, standing, matrix) if turn % 4 else some_shift(rng)
        for kind in KINDS:
            counts[check_pair(kind, moved, standing, matrix, shift)] += 1
    assert min(counts) > rounds // 4
    return counts


def drawn_weights(rng):
    """Draw barycentric weights that sum to 4, with zeros among them."""
    return rng.choice(tuple(w for w in product(range(5), repeat=3) if sum(w) == 4))


def sharing_shift(moved, standing, matrix, a, b):
    """Give the shift under which two facets share the point of weights a and b, if any."""
    target = scale(W // sum(b), combination(b, standing))
    start = combination(a, [times(matrix, v) for v in moved])
    exact = subtract(scale(sum(a), target), start)
    if any(entry % (256 * sum(a)) for entry in exact):
        return None
    shift = tuple(entry // (256 * sum(a)) for entry in exact)
    return shift if max(map(abs, shift)) <= SHIFT_LIMIT else None


def check_sharing_pairs(rng, rounds):
    """Check that facets which share a point are never parted."""
    checked = 0
    for _ in range(rounds):
        moved, standing = facet(rng), facet(rng)
        matrix = tuple(entry // 1024 * 1024 for entry in some_matrix(rng))
        a, b = drawn_weights(rng), drawn_weights(rng)
        shift = sharing_shift(moved, standing, matrix, a, b)
        if shift is None:
            continue
        assert shares_point(moved, standing, matrix, shift, a, b)
        assert shares_point(moved, standing, matrix, shift, *shared_weights(moved, standing, matrix, shift))
        for kind in KINDS:
            assert not check_pair(kind, moved, standing, matrix, shift)
        checked += 1
    assert checked > rounds // 2
    return checked
