"""Whole-number geometry: triples, placements, images of corners, spread."""

W = 1_048_576
CORNER_LIMIT = 32_767
DIRECTION_LIMIT = 3 * 768 * W
MATRIX_LIMIT = W
SHIFT_LIMIT = 536_870_912

UNIT_MATRIX = (W, 0, 0, 0, W, 0, 0, 0, W)


def ceil_div(a, b):
    """Give a / b rounded towards plus infinity."""
    return -(-a // b)


def dot(u, v):
    """Give the product u.v of two triples."""
    return u[0] * v[0] + u[1] * v[1] + u[2] * v[2]


def length(u):
    """Give |u|, the sum of the absolute values."""
    return abs(u[0]) + abs(u[1]) + abs(u[2])


def add(u, v):
    """Give the sum of two triples."""
    return (u[0] + v[0], u[1] + v[1], u[2] + v[2])


def subtract(u, v):
    """Give the difference of two triples."""
    return (u[0] - v[0], u[1] - v[1], u[2] - v[2])


def scale(factor, u):
    """Give a triple with each entry multiplied by a factor."""
    return (factor * u[0], factor * u[1], factor * u[2])


def rows(matrix):
    """Give the three rows of a matrix that is kept as nine numbers row by row."""
    return (matrix[0:3], matrix[3:6], matrix[6:9])


def columns(matrix):
    """Give the three columns of a matrix that is kept as nine numbers row by row."""
    return (matrix[0::3], matrix[1::3], matrix[2::3])


def times(matrix, v):
    """Give the product of a matrix and a triple."""
    return tuple(dot(row, v) for row in rows(matrix))


def times_transposed(matrix, v):
    """Give the product of the transposed matrix and a triple."""
    return tuple(dot(column, v) for column in columns(matrix))


def image(matrix, shift, v):
    """Give the image of the moved piece's corner v, in 1/W tick."""
    return add(times(matrix, v), scale(256, shift))


def combination(numbers, triples):
    """Give the sum of number x triple."""
    total = (0, 0, 0)
    for number, triple in zip(numbers, triples):
        total = add(total, scale(number, triple))
    return total


def shares_point(moved, standing, matrix, shift, a, b):
    """Say whether the weights a and b show a point that both facets share."""
    if min(a) < 0 or min(b) < 0 or sum(a) <= 0 or sum(b) <= 0:
        return False
    images = [image(matrix, shift, v) for v in moved]
    left = scale(sum(b), combination(a, images))
    right = scale(sum(a) * W, combination(b, standing))
    return left == right


def spread(corners):
    """Give the largest difference of a coordinate within a list of corners."""
    return max(max(values) - min(values) for values in zip(*corners))
