"""Prints call histories of registers with the expected answers, one call a line."""

import random

from comparison_cases import hand_made_comparisons
from comparison_draws import drawn_comparisons, drawn_short_lists
from history_cases import hand_made_histories
from history_draws import drawn_histories
from lent_cases import hand_made_lent_lists

SEED = 65_536


def all_histories():
    """Give all histories in a fixed order."""
    yield from hand_made_histories()
    yield from hand_made_comparisons()
    yield from hand_made_lent_lists()
    yield from drawn_histories(random.Random(SEED))
    yield from drawn_comparisons(random.Random(SEED + 1))
    yield from drawn_short_lists(random.Random(SEED + 2))


def history_lines():
    """Give the lines of all histories."""
    return [line for history in all_histories() for line in history.lines()]


def main():
    """Print the histories."""
    for line in history_lines():
        print(line)


if __name__ == "__main__":
    main()
