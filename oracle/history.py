"""One call history: the calls on a register, with their answers, as lines."""

from hulls import BOX
from register import MARK_LIMIT, PARTS_LEFT_OVER, Register

RAW_LIMIT = 9_223_372_036_854_775_807


def small_facet(turn):
    """Give nine small numbers that differ from turn to turn."""
    return [(turn * step + step * step) % 19 - 9 for step in range(1, 10)]


class History:
    """A register with the lines of the calls on it; own is its mark, other a foreign one."""

    def __init__(self, own, other, places, kind=BOX, stretch=0, lent=None):
        """Open a register over a table of some places; each comparison's list has stretch places.

        These are places of one list that is lent for all comparisons, cut to what there is. It has lent
        places, or as many as the comparisons take together where lent is None.
        """
        assert own != other and 0 <= min(own, other) and max(own, other) <= MARK_LIMIT
        self.own = own
        self.other = other
        self.stretch = stretch
        self.lent = lent
        self.register = Register(own, [None] * places, kind)
        self.has_token = False
        self.comparisons = 0
        self.recorded = []

    def lines(self):
        """Give the line of the opening and those of the calls."""
        lent = self.comparisons * self.stretch if self.lent is None else self.lent
        words = (self.register.kind.word, self.own, len(self.register.table), self.stretch, lent)
        return [" ".join(map(str, ("open", *words))), *self.recorded]

    def calls(self):
        """Give the number of calls after the opening."""
        return len(self.recorded)

    def record(self, words, answer):
        """Add the line of a call and its answer; give the answer."""
        self.recorded.append(" ".join(map(str, (*words, "=", *answer))))
        return answer

    def next_stretch(self):
        """Give how many places of the lent list the next comparison has."""
        if self.lent is None:
            return self.stretch
        return min(self.stretch, max(0, self.lent - self.comparisons * self.stretch))

    def mark_of(self, foreign):
        """Give the mark to hand in."""
        return self.other if foreign else self.own

    def start(self):
        """Call start."""
        answer = self.register.start()
        self.has_token = self.has_token or answer == ("started",)
        return self.record(("start",), answer)

    def facet(self, numbers=None, foreign=False):
        """Call facet, with small numbers if none are given."""
        numbers = numbers or small_facet(self.calls())
        assert len(numbers) == 9 and max(map(abs, numbers)) <= RAW_LIMIT
        mark = self.mark_of(foreign)
        return self.record(("facet", mark, *numbers), self.register.facet(mark, numbers))

    def tie(self, x, y, foreign=False):
        """Call tie."""
        assert max(abs(x), abs(y)) <= RAW_LIMIT
        mark = self.mark_of(foreign)
        return self.record(("tie", mark, x, y), self.register.tie(mark, x, y))

    def close(self, foreign=False):
        """Call close."""
        mark = self.mark_of(foreign)
        answer = self.register.close(mark)
        if answer[0] == "filed" or answer == ("refused", PARTS_LEFT_OVER):
            self.has_token = False
        return self.record(("close", mark), answer)

    def drop(self, foreign=False):
        """Call drop."""
        mark = self.mark_of(foreign)
        answer = self.register.drop(mark)
        if answer[0] == "removed":
            self.has_token = False
        return self.record(("drop", mark), answer)

    def compare(self, moved, standing, numbers):
        """Call compare with a placement of twelve numbers."""
        words = (moved, standing, *numbers)
        assert len(words) == 14 and max(map(abs, words)) <= RAW_LIMIT
        answer = self.register.compare(moved, standing, numbers, self.next_stretch())
        self.comparisons += 1
        return self.record(("compare", *words), answer)

    # Several calls at once

    def facets(self, count):
        """Enter some small facets."""
        for _ in range(count):
            self.facet()

    def object(self, facets=1):
        """Start, enter facets, tie them into a chain and close."""
        self.start()
        self.chain(facets - 1)
        self.close()

    def chain(self, ties, sides=(0,)):
        """Enter a facet, then ties that each join the last item with a new facet.

        The last item is the first part where the side is 0 and the second where it is 1.
        """
        last = self.facet()[1]
        for turn in range(ties):
            new = self.facet()[1]
            parts = (new, last) if sides[turn % len(sides)] else (last, new)
            last = self.tie(*parts)[1]
        return last

    def facets_first(self, facets, ties):
        """Enter all facets of a piece and then its ties."""
        for numbers in facets:
            self.facet(numbers)
        for x, y in ties:
            self.tie(x, y)

    def facets_late(self, facets, ties):
        """Enter each facet of a piece just before the first tie that needs it; give the last item."""

        def enter(item):
            if item < len(facets):
                return self.facet(facets[item])[1]
            x, y = ties[item - len(facets)]
            return self.tie(enter(x), enter(y))[1]

        return enter(len(facets) + len(ties) - 1)

    def piece(self, facets, ties, late=False):
        """Start, enter a piece and close; give the answer of close."""
        self.start()
        self.facets_late(facets, ties) if late else self.facets_first(facets, ties)
        return self.close()

    def foreign_calls(self):
        """Make each call that takes a draft with the foreign mark."""
        self.facet(foreign=True)
        self.tie(0, 1, foreign=True)
        self.close(foreign=True)
        self.drop(foreign=True)

    def spent_calls(self):
        """Make each call that takes a draft with the own mark while no draft is open."""
        assert not self.has_token
        self.facet()
        self.tie(0, 1)
        self.close()
        self.drop()
