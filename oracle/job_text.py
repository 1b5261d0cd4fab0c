"""Writes jobs: words, texts and the parts that many test jobs share."""

from geometry import UNIT_MATRIX

SMALL = (0, 0, 0, 4, 0, 0, 0, 4, 0)  # a facet
FLOOR = (0, 0, 0, 40, 0, 0, 0, 40, 0)
LIFTED = (0, 0, 9, 40, 0, 9, 0, 40, 9)

NEAR = (*UNIT_MATRIX, 0, 0, 32_768)  # FLOOR and LIFTED are not parted
FAR = (*UNIT_MATRIX, 0, 0, 28_672)  # FLOOR and LIFTED are parted


def joined(*parts):
    """Give words and numbers, or lists of them, as one text parted by single spaces."""
    words = []
    for part in parts:
        words += [part] if isinstance(part, (str, int)) else [joined(*part)]
    return " ".join(str(word) for word in words if word != "")


def object_words(facets, ties):
    """Give the words of the two sections of an object."""
    return joined("facets", len(facets), facets, "ties", len(ties), ties).split(" ")


def job_words(kind, first, second, placements):
    """Give the words of a job: the word of the kind, two objects of facets and ties, placements."""
    words = ["kind", kind, *object_words(*first), *object_words(*second)]
    return words + joined("placements", len(placements), placements).split(" ")


def text_of(words):
    """Give words as a job on one line."""
    return " ".join(words).encode()


def job_of(kind, first, second, placements):
    """Give a job on one line."""
    return text_of(job_words(kind, first, second, placements))


def object_lines(facets, ties):
    """Give the sections of an object with a line for each facet and for each tie."""
    lines = [f"facets {len(facets)}"] + ["  " + joined(facet) for facet in facets]
    return lines + [f"ties {len(ties)}"] + ["  " + joined(tie) for tie in ties]


def laid_out(kind, first, second, placements):
    """Give a job with a line for each facet, tie and placement."""
    lines = [f"kind {kind}", *object_lines(*first), *object_lines(*second), f"placements {len(placements)}"]
    lines += [joined(numbers[:9]) + "  " + joined(numbers[9:]) for numbers in placements]
    return "".join(line + "\n" for line in lines).encode()
