"""Prints call histories of registers without comparisons, with the expected answers, one call a line."""

import random

from histories import SEED
from history_cases import hand_made_histories
from history_draws import drawn_histories


def entry_lines(history):
    """Give the lines of a history, its opening by mark and number of places alone."""
    opening, *calls = history.lines()
    return [" ".join(["open", *opening.split()[2:4]]), *calls]


def main():
    """Print the histories."""
    for history in [*hand_made_histories(), *drawn_histories(random.Random(SEED))]:
        print("\n".join(entry_lines(history)))


if __name__ == "__main__":
    main()
