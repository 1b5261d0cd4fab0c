"""Prints test vectors for reaches, gaps and parting, one a line."""

import random

from axes import gaps, parted
from hulls import grow
from pair_cases import gap_cases, parted_cases
from reach_cases import reach_cases

SEED = 4096


def flat(triples):
    """Give the numbers of a list of triples in one list."""
    return [number for triple in triples for number in triple]


def line_of(*words):
    """Give words and numbers as one line, parted by single spaces."""
    return " ".join(map(str, words))


def reach_line(kind, corners, u):
    """Give the line of one case for the reach."""
    reach = kind.reach(grow(kind, corners), u)
    return line_of("reach", kind.word, len(corners), *flat(corners), *u, reach)


def gap_line(kind, moved, standing, matrix, shift, number):
    """Give the line of one case for the gaps."""
    found = gaps(kind, grow(kind, moved), grow(kind, standing), matrix, shift, number)
    placed = (*flat(moved), *flat(standing), *matrix, *shift)
    return line_of("gap", kind.word, *placed, number, *found)


def parted_line(kind, moved, standing, matrix, shift):
    """Give the line of one case for parting."""
    found = parted(kind, grow(kind, moved), grow(kind, standing), matrix, shift)
    placed = (*flat(moved), *flat(standing), *matrix, *shift)
    return line_of("parted", kind.word, *placed, int(found))


def vector_lines():
    """Give all lines, each once, in a fixed order."""
    lines = [reach_line(*case) for case in reach_cases(random.Random(SEED))]
    lines += [gap_line(*case) for case in gap_cases(random.Random(SEED + 1))]
    lines += [parted_line(*case) for case in parted_cases(random.Random(SEED + 2))]
    return list(dict.fromkeys(lines))


def main():
    """Print the test vectors."""
    for line in vector_lines():
        print(line)


if __name__ == "__main__":
    main()
