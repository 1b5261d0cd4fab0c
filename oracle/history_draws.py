"""Drawn histories: accepted and refused calls in a mix."""

from geometry import CORNER_LIMIT
from history import RAW_LIMIT, History
from history_cases import MARKS, TOO_LARGE, WILD_ITEMS, WILD_NUMBERS
from register import OBJECT_LIMIT

NUMBER_SCALES = (9, 9, 9, 9, 9, 9, 500, CORNER_LIMIT)


def drawn_marks(rng):
    """Draw the mark of the register and a foreign one."""
    if rng.randrange(3) == 0:
        return rng.choice(MARKS)
    return tuple(rng.sample(range(65_536), 2))


def good_numbers(rng):
    """Draw nine numbers of a facet."""
    scale = rng.choice(NUMBER_SCALES)
    return [rng.randint(-scale, scale) for _ in range(9)]


def bad_numbers(rng):
    """Draw nine numbers of which one or two are out of range."""
    numbers = good_numbers(rng)
    for position in rng.sample(range(9), rng.randint(1, 2)):
        far = rng.choice((TOO_LARGE, -TOO_LARGE, rng.choice(WILD_NUMBERS)))
        numbers[position] = far
    return numbers


def drawn_numbers(rng, slips):
    """Draw nine numbers that are out of range as often as slips says."""
    return bad_numbers(rng) if rng.random() < slips else good_numbers(rng)


def free_items(h):
    """Give the untied items of the open draft, or none."""
    return [number for number, item in enumerate(h.register.draft or []) if not item.tied]


def any_item(rng, h):
    """Draw a number near those of the draft's items, now and then a wild one."""
    if rng.randrange(6) == 0:
        return rng.choice(WILD_ITEMS + (rng.randint(-RAW_LIMIT, RAW_LIMIT),))
    return rng.randint(-1, len(h.register.draft or []) + 1)


def bad_parts(rng, h):
    """Draw two numbers that are most often no parts for a tie."""
    x = any_item(rng, h)
    free = free_items(h)
    y = rng.choice(free) if free and rng.randrange(2) else any_item(rng, h)
    shape = rng.randrange(5)
    if shape == 0:
        return x, x
    return (x, y) if shape % 2 else (y, x)


def drawn_parts(rng, h, slips):
    """Draw two parts for a tie that are wrong as often as slips says."""
    free = free_items(h)
    if len(free) < 2 or rng.random() < slips:
        return bad_parts(rng, h)
    return tuple(rng.sample(free, 2))


def tall_parts(rng, h):
    """Give the highest free item and any other free one, in either order."""
    free = free_items(h)
    top = max(free, key=lambda number: h.register.draft[number].height)
    rest = rng.choice([number for number in free if number != top])
    return rng.choice(((top, rest), (rest, top)))


def foreign_call(rng, h):
    """Make a call with the foreign mark."""
    call = rng.randrange(6)
    if call < 2:
        h.facet(drawn_numbers(rng, 0.4), foreign=True)
    elif call < 4:
        h.tie(*drawn_parts(rng, h, 0.4), foreign=True)
    elif call == 4:
        h.close(foreign=True)
    else:
        h.drop(foreign=True)


class Habits:
    """How often each call is drawn, as weights, and how often its numbers are wrong."""

    def __init__(self, rng):
        """Draw the habits of one history."""
        self.facet = rng.randint(6, 14)
        self.tie = rng.randint(6, 14)
        self.file = rng.randint(1, 4)
        self.lose = rng.choice((0.2, 0.5, 1))
        self.drop = rng.choice((0.2, 0.6, 1.5))
        self.start = rng.choice((0.5, 1.5))
        self.foreign = rng.choice((0.7, 2))
        self.slips = rng.choice((0.05, 0.15, 0.3))

    def weights(self, h):
        """Give the weights of facet, tie, close, drop, start and a foreign call."""
        if not h.has_token:
            return (0, 0, 0, 0, 5, self.foreign)
        close = self.file if len(free_items(h)) == 1 else self.lose
        return (self.facet, self.tie, close, self.drop, self.start, self.foreign)


def step(rng, h, habits):
    """Make one drawn call."""
    calls = ("facet", "tie", "close", "drop", "start", "foreign")
    call = rng.choices(calls, habits.weights(h))[0]
    if call == "facet":
        h.facet(drawn_numbers(rng, habits.slips))
    elif call == "tie":
        h.tie(*drawn_parts(rng, h, habits.slips))
    elif call == "close":
        h.close()
    elif call == "drop":
        h.drop()
    elif call == "start":
        h.start()
    else:
        foreign_call(rng, h)


def mixed_history(rng):
    """Draw a history of 100 to 150 calls over 5 to 60 places."""
    h = History(*drawn_marks(rng), rng.randint(5, 60))
    habits = Habits(rng)
    for _ in range(rng.randint(100, 150)):
        step(rng, h, habits)
    return h


def slip(rng, h):
    """Make a call that is most often refused and that ends no draft."""
    call = rng.randrange(4)
    if call == 0:
        h.facet(bad_numbers(rng))
    elif call == 1:
        h.tie(*bad_parts(rng, h))
    elif call == 2:
        h.start()
    else:
        foreign_call(rng, h)


def tall_step(rng, h):
    """Make a call that goes on with a chain, now and then a slip."""
    if rng.randrange(12) == 0:
        slip(rng, h)
    elif len(free_items(h)) > 1 and rng.randrange(10):
        h.tie(*tall_parts(rng, h))
    else:
        h.facet(good_numbers(rng))


def tall_history(rng):
    """Draw a history of chains that come to the greatest height, over 66 to 110 places."""
    h = History(*drawn_marks(rng), rng.choice((66, 67, 69, rng.randint(66, 110))))
    h.start()
    for _ in range(rng.randint(100, 130)):
        tall_step(rng, h)
    h.close() if rng.randrange(2) else h.drop()
    h.start()
    for _ in range(20):
        tall_step(rng, h)
    h.drop()
    return h


def crowded_object(rng, h):
    """Draw a draft of one or two facets that is most often filed."""
    h.start()
    while rng.randrange(5) == 0:
        slip(rng, h)
    h.facet(good_numbers(rng))
    if rng.randrange(4) == 0:
        h.facet(good_numbers(rng))
        if rng.randrange(3):
            h.tie(*rng.choice(((0, 1), (1, 0))))
    if rng.randrange(12) == 0:
        h.drop()
    else:
        h.close()


def crowded_history(rng):
    """Draw a history that closes as many objects as can be, and goes on after that."""
    h = History(*drawn_marks(rng), rng.randint(150, 200))
    while len(h.register.objects) < OBJECT_LIMIT:
        crowded_object(rng, h)
    for _ in range(rng.randint(12, 20)):
        foreign_call(rng, h) if rng.randrange(3) == 0 else h.start()
    return h


def drawn_histories(rng):
    """Give all drawn histories."""
    for draw, count in ((mixed_history, 40), (tall_history, 8), (crowded_history, 4)):
        for _ in range(count):
            yield draw(rng)
