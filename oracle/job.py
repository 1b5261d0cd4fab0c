"""The report of a job, by docs/job-format.md: bytes in, bytes out."""

import re

from hulls import KINDS
from register import Register

MOST_BYTES = 65_536
MOST_ITEMS = 1_024
MOST_PAIRS = 4_096

WRONG_WORD = 12
NOT_AS_LONG = 13  # a word is missing, words are left over, or the job has too many bytes

WORD = re.compile(rb"[^ \n]+")
NUMBER = re.compile(rb"-?[0-9]{1,10}")
COUNT = re.compile(rb"[0-9]{1,10}")

MARK = 0  # of the one register of a job


class Fault(Exception):
    """The first fault of a job: its number, its section and the word within the section."""

    def __init__(self, number, section, word):
        """Keep the number and the place of the fault."""
        super().__init__(number, section, word)
        self.line = f"refused {number} in {section}, word {word}\n"


class Reader:
    """The words of a job, taken one by one, and where the last one stood."""

    def __init__(self, job):
        """Begin before the first word."""
        self.words = iter(WORD.findall(job))
        self.section = "kind"
        self.place = 0

    def fault(self, number):
        """Give the fault of a number at the last word taken."""
        return Fault(number, self.section, self.place)

    def take(self):
        """Take the next word; there must be one."""
        self.place += 1
        word = next(self.words, None)
        if word is None:
            raise self.fault(NOT_AS_LONG)
        return word

    def take_like(self, pattern):
        """Take the next word, which must be of a pattern as a whole."""
        word = self.take()
        if not pattern.fullmatch(word):
            raise self.fault(WRONG_WORD)
        return int(word)

    def begin(self, section, name):
        """Begin a section: its name is due."""
        self.section = section
        self.place = 0
        if self.take() != name:
            raise self.fault(WRONG_WORD)

    def count(self):
        """Take a count."""
        return self.take_like(COUNT)

    def numbers(self, count):
        """Take some numbers."""
        return tuple(self.take_like(NUMBER) for _ in range(count))

    def end(self):
        """Check that no word is left over."""
        self.place += 1
        if next(self.words, None) is not None:
            raise self.fault(NOT_AS_LONG)


def accepted(reader, answer):
    """Give the answer of a call that is not refused; a refusal is a fault at the last word."""
    if answer[0] == "refused":
        raise reader.fault(answer[1])
    return answer


def read_kind(reader):
    """Read the section of the kind."""
    reader.begin("kind", b"kind")
    word = reader.take()
    for kind in KINDS:
        if word == kind.word.encode():
            return kind
    raise reader.fault(WRONG_WORD)


def read_object(reader, register, facets, ties):
    """Read the two sections of an object into the register; they are named in reports as given."""
    register.start()
    reader.begin(facets, b"facets")
    for _ in range(reader.count()):
        numbers = reader.numbers(9)
        accepted(reader, register.facet(MARK, numbers))
    reader.begin(ties, b"ties")
    for _ in range(reader.count()):
        x, y = reader.numbers(2)
        accepted(reader, register.tie(MARK, x, y))
    accepted(reader, register.close(MARK))


def placement_lines(number, answer):
    """Give the lines of an accepted placement."""
    _, count, tests, *pairs = answer
    lines = [f"placement {number}: {count} pairs, {tests} tests\n"]
    return lines + [f"{m} {s}\n" for m, s in zip(pairs[::2], pairs[1::2])]


def job_lines(job):
    """Give the lines of the report one by one; a fault is raised."""
    if len(job) > MOST_BYTES:
        raise Fault(NOT_AS_LONG, "kind", 0)
    reader = Reader(job)
    register = Register(MARK, [None] * MOST_ITEMS, read_kind(reader))
    read_object(reader, register, "facets", "ties")
    read_object(reader, register, "facets2", "ties2")
    reader.begin("placements", b"placements")
    for number in range(reader.count()):
        placement = reader.numbers(12)
        answer = accepted(reader, register.compare(0, 1, placement, MOST_PAIRS))
        yield from placement_lines(number, answer)
    reader.end()


def report(job):
    """Give the report of a job."""
    lines = []
    try:
        for line in job_lines(job):
            lines.append(line)
    except Fault as fault:
        lines.append(fault.line)
    return "".join(lines).encode()
