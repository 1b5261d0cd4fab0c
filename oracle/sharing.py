"""Whether two facets share a point, decided exactly, with barycentric weights to show for it."""

from itertools import combinations

from geometry import W, combination, dot, image, length, scale, subtract


def cross(u, v):
    """Give the cross product of two triples."""
    return (u[1] * v[2] - u[2] * v[1], u[2] * v[0] - u[0] * v[2], u[0] * v[1] - u[1] * v[0])


def candidate(points):
    """Give the only weights, but for a factor, with which 1 to 4 points can sum to 0.

    Where more than one choice of weights is open, the answer may be all 0.
    """
    if len(points) == 1:
        return (1,)
    if len(points) == 2:
        return (length(points[1]), length(points[0]))
    p, q, r = points[:3]
    if len(points) == 3:
        areas = zip(cross(q, r), cross(r, p), cross(p, q))
        return next(filter(any, areas), (0, 0, 0))
    s = points[3]
    return (
        dot(q, cross(r, s)), -dot(p, cross(r, s)), dot(p, cross(q, s)), -dot(p, cross(q, r)),
    )


def weights_to_zero(points):
    """Give whole weights, none negative and not all 0, with which a few points sum to 0, or None."""
    weights = candidate(points)
    if max(weights) <= 0:
        weights = tuple(-weight for weight in weights)
    if min(weights) < 0 or not any(weights):
        return None
    return weights if combination(weights, points) == (0, 0, 0) else None


def apart(moved, standing):
    """Say whether two lists of points are apart in one of the three coordinates."""
    return any(
        max(first) < min(second) or max(second) < min(first)
        for first, second in zip(zip(*moved), zip(*standing))
    )


def shared_weights(moved, standing, matrix, shift):
    """Give barycentric weights of a point that two facets share under a placement, or None.

    The facets share a point where 0 is among the mixtures of the nine differences of their
    corners; four of the nine at most are then enough.
    """
    images = [image(matrix, shift, v) for v in moved]
    resting = [scale(W, w) for w in standing]
    if apart(images, resting):
        return None
    corners = [(i, j) for i in range(3) for j in range(3)]
    for count in range(1, 5):
        for chosen in combinations(corners, count):
            weights = weights_to_zero([subtract(images[i], resting[j]) for i, j in chosen])
            if weights:
                return sums_of(weights, chosen)
    return None


def sums_of(weights, chosen):
    """Give the weights of each facet's corners from those of differences of corners."""
    a, b = [0, 0, 0], [0, 0, 0]
    for weight, (i, j) in zip(weights, chosen):
        a[i] += weight
        b[j] += weight
    return tuple(a), tuple(b)
