"""A register by docs/register.md: each call gives an answer, a tuple of a word and its numbers."""

from comparison import Walk, parting_test, placement_in_range
from geometry import CORNER_LIMIT
from hulls import grow

MARK_LIMIT = 65_535
CAPACITY_LIMIT = 65_536
OBJECT_LIMIT = 64
HEIGHT_LIMIT = 32

DRAFT_OPEN = 1
OBJECTS_FULL = 2
NOT_THIS_DRAFT = 3
OUT_OF_RANGE = 4
TABLE_FULL = 5
PARTS_NOT_FREE = 6
TOO_HIGH = 7
PARTS_LEFT_OVER = 8
NO_SUCH_OBJECT = 9
PLACEMENT_OUT_OF_RANGE = 10
LIST_FULL = 11


def first_no(*questions):
    """Give the number of the first question that is answered no, or None."""
    for number, question in questions:
        if not question():
            return number
    return None


def corners_of(numbers):
    """Give the three corners of nine numbers."""
    return [tuple(numbers[i:i + 3]) for i in (0, 3, 6)]


def in_range(numbers):
    """Say whether all numbers are numbers of a corner."""
    return all(-CORNER_LIMIT <= number <= CORNER_LIMIT for number in numbers)


def numbers_of(pairs):
    """Give the numbers of a list of pairs in one list."""
    return [number for pair in pairs for number in pair]


class Item:
    """A facet, which has no parts, or a tie, which has the numbers of its two parts."""

    def __init__(self, parts, corners, height):
        """Keep what the item is made of; at first it is not tied."""
        self.parts = parts
        self.corners = corners
        self.height = height
        self.tied = False


class Register:
    """Closed objects and at most one open draft, both lists of items, over a lent table."""

    def __init__(self, mark, table, kind):
        """Open a register; the table is not written."""
        self.mark = mark
        self.table = table
        self.kind = kind
        self.capacity = min(len(table), CAPACITY_LIMIT)
        self.objects = []
        self.draft = None

    # Questions

    def no_draft_open(self):
        """Say whether no draft is open."""
        return self.draft is None

    def objects_left(self):
        """Say whether fewer than 64 objects are closed."""
        return len(self.objects) < OBJECT_LIMIT

    def is_this_draft(self, mark):
        """Say whether a draft is open here and its mark matches."""
        return self.draft is not None and mark == self.mark

    def stored(self):
        """Give the number of items of the closed objects and of the open draft."""
        return sum(map(len, self.objects)) + len(self.draft or [])

    def has_room(self):
        """Say whether fewer items are stored than the capacity."""
        return self.stored() < self.capacity

    def is_free(self, number):
        """Say whether a number is that of an item of the draft that is not tied."""
        return 0 <= number < len(self.draft) and not self.draft[number].tied

    def parts_free(self, x, y):
        """Say whether x and y are different items of the draft, neither of them tied."""
        return x != y and self.is_free(x) and self.is_free(y)

    def height_over(self, x, y):
        """Give the height of a tie of the items x and y."""
        return 1 + max(self.draft[x].height, self.draft[y].height)

    def one_untied(self):
        """Say whether exactly one item of the draft is untied."""
        return sum(not item.tied for item in self.draft) == 1

    def is_object(self, number):
        """Say whether a number is that of a closed object."""
        return 0 <= number < len(self.objects)

    # Calls

    def start(self):
        """Open an empty draft."""
        number = first_no((DRAFT_OPEN, self.no_draft_open), (OBJECTS_FULL, self.objects_left))
        if number:
            return ("refused", number)
        self.draft = []
        return ("started",)

    def facet(self, mark, numbers):
        """Enter a facet of nine numbers."""
        number = first_no(
            (NOT_THIS_DRAFT, lambda: self.is_this_draft(mark)),
            (OUT_OF_RANGE, lambda: in_range(numbers)),
            (TABLE_FULL, self.has_room),
        )
        if number:
            return ("refused", number)
        return self.enter(Item((), corners_of(numbers), 0))

    def tie(self, mark, x, y):
        """Enter a tie of the items x and y."""
        number = first_no(
            (NOT_THIS_DRAFT, lambda: self.is_this_draft(mark)),
            (PARTS_NOT_FREE, lambda: self.parts_free(x, y)),
            (TOO_HIGH, lambda: self.height_over(x, y) <= HEIGHT_LIMIT),
            (TABLE_FULL, self.has_room),
        )
        if number:
            return ("refused", number)
        first, second = self.draft[x], self.draft[y]
        tie = Item((x, y), first.corners + second.corners, self.height_over(x, y))
        first.tied = second.tied = True
        return self.enter(tie)

    def close(self, mark):
        """File the draft as an object; a draft with parts left over is lost."""
        number = first_no(
            (NOT_THIS_DRAFT, lambda: self.is_this_draft(mark)),
            (PARTS_LEFT_OVER, self.one_untied),
        )
        if number == PARTS_LEFT_OVER:
            self.draft = None
        if number:
            return ("refused", number)
        self.objects.append(self.draft)
        self.draft = None
        return ("filed", len(self.objects) - 1)

    def drop(self, mark):
        """Remove the draft and its items."""
        number = first_no((NOT_THIS_DRAFT, lambda: self.is_this_draft(mark)))
        if number:
            return ("refused", number)
        removed = len(self.draft)
        self.draft = None
        return ("removed", removed)

    def compare(self, moved, standing, numbers, places):
        """Compare two objects under a placement of twelve numbers, with places for so many pairs.

        The answer ends with the pairs that the list holds.
        """
        number = first_no(
            (NO_SUCH_OBJECT, lambda: self.is_object(moved) and self.is_object(standing)),
            (PLACEMENT_OUT_OF_RANGE, lambda: placement_in_range(numbers)),
        )
        if number:
            return ("refused", number)
        walk = self.walk(moved, standing, numbers, places)
        if len(walk.pairs) > places:
            return ("refused", LIST_FULL, *numbers_of(walk.pairs[:places]))
        return ("listed", len(walk.pairs), walk.tests, *numbers_of(walk.pairs))

    def walk(self, moved, standing, numbers, most_pairs):
        """Walk over two closed objects; stop after more than so many pairs."""
        is_parted = parting_test(
            self.kind, self.hulls_of(moved), self.hulls_of(standing), numbers[:9], numbers[9:]
        )
        return Walk(self.parts_of(moved), self.parts_of(standing), is_parted, most_pairs)

    def parts_of(self, number):
        """Give the parts of each item of an object."""
        return [item.parts for item in self.objects[number]]

    def hulls_of(self, number):
        """Give the stored hulls of the items of an object."""
        start = sum(map(len, self.objects[:number]))
        return [hull for _, hull in self.table[start:start + len(self.objects[number])]]

    def enter(self, item):
        """Add an item to the draft and put it with its hull into the lowest free place."""
        self.table[self.stored()] = (item, grow(self.kind, item.corners))
        self.draft.append(item)
        return ("entered", len(self.draft) - 1)
