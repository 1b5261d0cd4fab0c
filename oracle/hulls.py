"""The three hull kinds: box, many and ball."""

from functools import lru_cache
from math import isqrt

from geometry import add, ceil_div, dot, scale, subtract

UNITS = ((1, 0, 0), (0, 1, 0), (0, 0, 1))

BOX_FACES = ((1, 0, 0), (-1, 0, 0), (0, 1, 0), (0, -1, 0), (0, 0, 1), (0, 0, -1))

MANY_FACES = tuple(
    (x, y, z)
    for x in (-1, 0, 1)
    for y in (-1, 0, 1)
    for z in (-1, 0, 1)
    if (x, y, z) != (0, 0, 0)
)


def signs_of(u):
    """Give a sign, 1 or -1, for each entry; a zero entry takes 1."""
    return tuple(-1 if x < 0 else 1 for x in u)


def order_of(u):
    """Give the three coordinates in falling order of their absolute values."""
    return tuple(sorted(range(3), key=lambda i: -abs(u[i])))


def box_weights(u, signs=None):
    """Write u as weights on faces of the box."""
    signs = signs or signs_of(u)
    return [(abs(u[i]), scale(signs[i], UNITS[i])) for i in range(3)]


def many_weights(u, order=None, signs=None):
    """Write u as weights on faces of the 26-faced hull."""
    i, j, k = order or order_of(u)
    signs = signs or signs_of(u)
    face1 = scale(signs[i], UNITS[i])
    face2 = add(face1, scale(signs[j], UNITS[j]))
    face3 = add(face2, scale(signs[k], UNITS[k]))
    return [
        (abs(u[i]) - abs(u[j]), face1),
        (abs(u[j]) - abs(u[k]), face2),
        (abs(u[k]), face3),
    ]


def plane(face, p):
    """Give the rounded plane of a face through the corner p."""
    return ceil_div(dot(face, p), 4)


def rounded_weight(weight, g):
    """Give n: the weight / 64, rounded up if g is not negative, else down."""
    return ceil_div(weight, 64) if g >= 0 else weight // 64


def weighted_reach(hull, terms):
    """Give the sum of n x g over (weight, face) terms."""
    return sum(rounded_weight(weight, hull[face]) * hull[face] for weight, face in terms)


def weighted_unrounded(corners, terms):
    """Give the sum of weight x d over (weight, face) terms."""
    return sum(weight * max(dot(face, v) for v in corners) for weight, face in terms)


class Faced:
    """A kind with faces; its hull is a table from face direction to g."""

    def __init__(self, word, face_list, weights):
        """Name the kind, its faces and the way it writes directions; the last ones are kept."""
        self.word = word
        self.face_list = face_list
        self.faces = len(face_list)
        self.weights = lru_cache(maxsize=1_024)(weights)

    def first(self, p):
        """Give the hull of p alone."""
        return {face: plane(face, p) for face in self.face_list}

    def more(self, hull, p):
        """Give the hull with p added."""
        return {face: max(g, plane(face, p)) for face, g in hull.items()}

    def reach(self, hull, u):
        """Give the reach of the hull along u."""
        return weighted_reach(hull, self.weights(u))

    def unrounded(self, corners, u):
        """Give the unrounded reach of a corner list along u."""
        return weighted_unrounded(corners, self.weights(u))


def ceil_root(x):
    """Give the least whole number m >= 0 with m x m >= x."""
    root = isqrt(x)
    return root if root * root == x else root + 1


class Ball:
    """The kind without faces; its hull is a pair of centre and radius."""

    word = "ball"
    faces = 0

    def first(self, p):
        """Give the hull of p alone."""
        return (tuple(p), 0)

    def more(self, hull, p):
        """Give the hull with p added."""
        centre, radius = hull
        arm = subtract(p, centre)
        return (centre, max(radius, ceil_root(dot(arm, arm))))

    def reach(self, hull, u):
        """Give the reach of the hull along u."""
        centre, radius = hull
        return ceil_div(dot(u, centre) + radius * ceil_root(dot(u, u)), 256)


BOX = Faced("box", BOX_FACES, box_weights)
MANY = Faced("many", MANY_FACES, many_weights)
BALL = Ball()

KINDS = (BOX, MANY, BALL)
FACED_KINDS = (BOX, MANY)


def grow(kind, corners):
    """Give the hull of a list of corners, grown in the order of the list."""
    hull = kind.first(corners[0])
    for p in corners[1:]:
        hull = kind.more(hull, p)
    return hull
