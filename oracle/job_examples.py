"""The examples of docs/job-format.md."""

from job_text import joined

A = "kind box facets 1 0 0 0 40 0 0 0 40 0 ties 0"
Z = "facets 1 0 0 9 40 0 9 0 40 9 ties 0"
I = "1048576 0 0 0 1048576 0 0 0 1048576"
f = "0 0 0 4 0 0 0 4 0"

CHAIN_TOO_HIGH = joined("ties 33 0 1", *(f"{33 + turn} {turn + 1}" for turn in range(1, 33)))

SIXTY_FIVE = joined(
    "facets 65", [f] * 65, "ties 64",
    [f"{2 * turn} {2 * turn + 1}" for turn in range(64)],
)

PAIR_PRINTED = "placement 0: 1 pairs, 1 tests\n0 0\n"

# Each row of the table: what is printed before the last line, the last line, and the jobs of the row.
FAULT_ROWS = (
    ("", "refused 13 in kind, word 0", (
        " " * 65_537, "x" * 65_537, joined(A, Z, "placements 0").ljust(65_537))),
    ("", "refused 13 in kind, word 1", ("", " ", "\n", "  \n \n\n   ")),
    ("", "refused 12 in kind, word 2", ("kind cube", "kind box\tfacets 1")),
    ("", "refused 13 in facets, word 1", ("kind box",)),
    ("", "refused 12 in facets, word 2", ("kind box facets -0",)),
    ("", "refused 12 in facets, word 11", ("kind box facets 1 0 0 0 40 0 0 0 40 ties 0",)),
    ("", "refused 12 in ties, word 1", ("kind box facets 1 0 0 0 40 0 0 0 40 0 7 ties 0",)),
    ("", "refused 4 in facets, word 11", ("kind box facets 1 0 0 0 32768 0 0 0 40 0",)),
    ("", "refused 12 in facets, word 11", ("kind box facets 1 0 0 0 32768 0 0 0 40 x",)),
    ("", "refused 12 in facets, word 6", ("kind box facets 1 0 0 0 12345678901 0 0 0 40 0",)),
    ("", "refused 4 in facets, word 11", ("kind box facets 1 0 0 0 1234567890 0 0 0 40 0",)),
    ("", "refused 13 in facets, word 12", (joined("kind box facets 9999999999", f),)),
    ("", "refused 5 in facets, word 9227", (joined("kind box facets 1025", [f] * 1_025),)),
    ("", "refused 5 in ties, word 4", (joined("kind box facets 1024", [f] * 1_024, "ties 1 0 1"),)),
    ("", "refused 6 in ties, word 4", tuple(
        joined("kind box facets 2", f, f, "ties 1", parts) for parts in ("0 0", "0 2", "0 -1"))),
    ("", "refused 6 in ties, word 6", (joined("kind box facets 2", f, f, "ties 2 0 1 1 2"),)),
    ("", "refused 7 in ties, word 68", (joined("kind box facets 34", [f] * 34, CHAIN_TOO_HIGH),)),
    ("", "refused 8 in ties, word 2", (
        "kind box facets 0 ties 0", joined("kind box facets 2", f, f, "ties 0"))),
    ("", "refused 8 in ties, word 4", (joined("kind box facets 3", f, f, f, "ties 1 0 1"),)),
    ("", "refused 12 in facets2, word 1", (joined(A, "facets2 1"),)),
    ("", "refused 4 in facets2, word 11", (joined(A, "facets 1 0 0 0 40000 0 0 0 40 0"),)),
    ("", "refused 10 in placements, word 14", (
        joined(A, Z, "placements 1 1048577 0 0 0 1048576 0 0 0 1048576 0 0 0"),)),
    (PAIR_PRINTED, "refused 10 in placements, word 26", (
        joined(A, Z, "placements 2", I, "0 0 32768", I, "0 0 536870913"),)),
    ("", "refused 11 in placements, word 14", (
        joined("kind box", SIXTY_FIVE, SIXTY_FIVE, "placements 1", I, "0 0 0"),)),
    (PAIR_PRINTED, "refused 13 in placements, word 15", (joined(A, Z, "placements 2", I, "0 0 32768"),)),
    (PAIR_PRINTED, "refused 13 in placements, word 15", (joined(A, Z, "placements 1", I, "0 0 32768 5"),)),
    ("", "refused 13 in placements, word 3", (joined(A, Z, "placements 0 5"),)),
)

WHOLE_JOB = """\
kind box
facets 1  0 0 0 40 0 0 0 40 0
ties 0
facets 1  0 0 9 40 0 9 0 40 9
ties 0
placements 3
1048576 0 0 0 1048576 0 0 0 1048576  0 0 28672
1048576 0 0 0 1048576 0 0 0 1048576  0 0 32768
1048576 0 0 0 1048576 0 0 0 1048576  0 0 53248
"""

WHOLE_REPORT = """\
placement 0: 0 pairs, 1 tests
placement 1: 1 pairs, 1 tests
0 0
placement 2: 0 pairs, 1 tests
"""

TREES_JOB = """\
kind box
facets 2  0 0 0 40 0 0 0 40 0  100 0 0 140 0 0 100 40 0
ties 1  0 1
facets 3  0 0 9 40 0 9 0 40 9  100 0 9 140 0 9 100 40 9  100 0 30 140 0 30 100 40 30
ties 2  1 2  0 3
placements 2
1048576 0 0 0 1048576 0 0 0 1048576  0 0 32768
1048576 0 0 0 1048576 0 0 0 1048576  0 0 200000
"""

TREES_REPORT = """\
placement 0: 2 pairs, 7 tests
0 0
1 1
placement 1: 0 pairs, 1 tests
"""

THREE_PAIRS = "3 pairs, 7 tests\n0 0\n1 1\n1 2\n"

WHOLE_JOBS = (
    (WHOLE_JOB, WHOLE_REPORT),
    (
        WHOLE_JOB.replace("53248", "49152"),
        WHOLE_REPORT.replace("2: 0 pairs, 1 tests", "2: 1 pairs, 1 tests\n0 0"),
    ),
    (TREES_JOB, TREES_REPORT),
    (TREES_JOB.replace("box", "ball"), f"placement 0: {THREE_PAIRS}placement 1: {THREE_PAIRS}"),
    (joined(A, Z, "placements 0"), ""),
)


def example_jobs():
    """Give each job of the docs as its bytes with its report."""
    for job, report in WHOLE_JOBS:
        yield job.encode(), report.encode()
    for before, last_line, jobs in FAULT_ROWS:
        for job in jobs:
            yield job.encode(), f"{before}{last_line}\n".encode()
