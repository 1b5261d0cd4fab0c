"""Checks the job oracle against docs/job-format.md and the printed test jobs."""

import re
from pathlib import Path

from comparison import Walk, parting_test
from comparison_cases import THREE_PLATES, TWO_PLATES
from geometry import UNIT_MATRIX
from hulls import BOX, grow
from job import report
from job_draws import filed
from job_examples import (
    FAULT_ROWS,
    TREES_JOB,
    TREES_REPORT,
    WHOLE_JOB,
    WHOLE_REPORT,
    A,
    I,
    Z,
    example_jobs,
    f,
)
from job_faults import base_words, cut_jobs, missing_word_jobs, wrong_word_jobs
from job_text import joined
from jobs import all_jobs, entry

DOCS = Path(__file__).resolve().parent.parent / "docs" / "job-format.md"

LAST_LINE = re.compile(
    rb"refused (4|5|6|7|8|10|11|12|13) in (kind|facets|ties|facets2|ties2|placements), word [0-9]+\n"
)


def last_line(job):
    """Give the last line of the report of a job that is given as text."""
    return report(job.encode()).decode().split("\n")[-2]


# The examples


def check_examples():
    """Check the report of each example."""
    for job, expected in example_jobs():
        assert report(job) == expected, (job[:200], expected)


def example_rows(text):
    """Give the two cells of each row of the table of examples."""
    table = text.partition("## Examples of faults")[2].partition("## A whole job")[0]
    rows = [line.strip("|").split(" | ") for line in table.split("\n") if line.startswith("|")]
    return [[cell.strip() for cell in row] for row in rows[2:]]


def check_transcription():
    """Check that the examples are those of the docs: each last line, and each quoted piece of a job."""
    text = DOCS.read_text(encoding="utf-8")
    rows = example_rows(text)
    assert len(rows) == len(FAULT_ROWS)
    for (cell, line), (_, expected, jobs) in zip(rows, FAULT_ROWS):
        assert line == f"`{expected}`"
        for quoted in re.findall("`([^`]*)`", cell):
            assert any(quoted.removesuffix(" ..") in job for job in jobs), quoted
    for name, value in (("A", A), ("Z", Z), ("I", I), ("f", f)):
        assert f"{name} = `{value}`" in text.replace("\n", " ")
    indented = [line.removeprefix("    ") for line in text.split("\n")]
    for block in (WHOLE_JOB, WHOLE_REPORT, TREES_JOB, TREES_REPORT):
        assert block in "\n".join(indented)


WORKED_TESTS = (
    ((2, 4), False), ((0, 0), False), ((0, 3), True), ((1, 0), True), ((1, 3), False), ((1, 1), False), ((1, 2), True),
)


def check_worked_walk():
    """Check the tests of the worked walk, in their order, with whether an axis parts the hulls."""
    moved, standing = filed(BOX, (TWO_PLATES, [(0, 1)]), (THREE_PLATES, [(1, 2), (0, 3)]))
    hulls = [[grow(BOX, item.corners) for item in items] for items in (moved, standing)]
    is_parted = parting_test(BOX, *hulls, UNIT_MATRIX, (0, 0, 32_768))
    tests = []

    def noted(m, s):
        tests.append(((m, s), is_parted(m, s)))
        return tests[-1][1]

    Walk([item.parts for item in moved], [item.parts for item in standing], noted, 9)
    assert tuple(tests) == WORKED_TESTS


# The table of faults: a row holds for the facet, tie or placement i of each section

UNIT = "1048576 0 0 0 1048576 0 0 0 1048576 0 0 0"
WIDE = "1048576 0 0 0 1048576 0 0 0 1048576 0 0 536870913"


def chain_words(facets):
    """Give the ties of a chain over some facets."""
    ties = [(0, 1)] + [(facets + turn - 1, turn + 1) for turn in range(1, facets - 1)]
    return [joined(tie) for tie in ties[:facets - 1]]


def object_text(facets):
    """Give an object of equal facets that are tied as a chain."""
    return joined("facets", facets, [f] * facets, "ties", facets - 1, chain_words(facets))


def starts():
    """Give what stands before each object, with the names of its sections."""
    yield "kind box", "facets", "ties"
    yield joined("kind many", object_text(2)), "facets2", "ties2"


def check_facet_places():
    """Check the rows of 4 and 5 for facets."""
    for start, facets, _ in starts():
        for i in (0, 1, 2, 11):
            job = joined(start, "facets", i + 3, [f] * i, "0 0 0 0 0 0 0 0 32768", f)
            assert last_line(job) == f"refused 4 in {facets}, word {11 + 9 * i}"
        i = 1_024 if facets == "facets" else 1_021
        job = joined(start, "facets 2000", [f] * 1_030)
        assert last_line(job) == f"refused 5 in {facets}, word {11 + 9 * i}"


def check_tie_places():
    """Check the rows of 5, 6, 7 and 8 for ties."""
    for start, _, ties in starts():
        for i in (0, 1, 5):
            job = joined(start, "facets 7", [f] * 7, "ties 6", chain_words(7)[:i], "3 3 0 0")
            assert last_line(job) == f"refused 6 in {ties}, word {4 + 2 * i}"
            job = joined(start, "facets 7", [f] * 7, "ties", i, chain_words(7)[:i], "x")
            assert last_line(job) == f"refused 8 in {ties}, word {2 + 2 * i}"
        job = joined(start, "facets 40", [f] * 40, "ties 39", chain_words(40))
        assert last_line(job) == f"refused 7 in {ties}, word {4 + 2 * 32}"
        items = 1_024 if ties == "ties" else 1_021
        job = joined(start, "facets", items - 3, [f] * (items - 3), "ties 9", chain_words(items - 3)[:5])
        assert last_line(job) == f"refused 5 in {ties}, word {4 + 2 * 3}"


def check_placement_places():
    """Check the rows of 10, 11 and 13 for placements."""
    start = joined(A, Z, "placements")
    many = joined("kind box", object_text(33), "facets 130", [f] * 130, "ties 129")
    many = joined(many, [joined((2 * turn, 2 * turn + 1)) for turn in range(129)], "placements")
    away = UNIT[:-5] + "536870912 0 0"
    for i in (0, 1, 3):
        last, following = f"in placements, word {14 + 12 * i}", f"in placements, word {3 + 12 * i}"
        assert last_line(joined(start, i + 2, [UNIT] * i, WIDE)) == f"refused 10 {last}"
        assert last_line(joined(many, i + 2, [away] * i, UNIT)) == f"refused 11 {last}"
        assert last_line(joined(start, i, [UNIT] * i, "x")) == f"refused 13 {following}"
        assert last_line(joined(start, i + 1, [UNIT] * i)) == f"refused 13 {following}"


def word_places():
    """Give the section and the number of each word of the right job that is cut and changed."""
    sizes = (("kind", 2), ("facets", 20), ("ties", 4), ("facets2", 20), ("ties2", 4), ("placements", 26))
    return [(section, place) for section, size in sizes for place in range(1, size + 1)]


def check_word_places():
    """Check the rows of 12 and 13 for every word of a job."""
    places = word_places()
    assert len(places) == len(base_words(0))
    for number, jobs in ((13, cut_jobs), (12, wrong_word_jobs)):
        for (section, place), (_, job) in zip(places, jobs()):
            expected = f"refused {number} in {section}, word {place}\n"
            assert report(job).decode().endswith(expected)
    assert report(list(cut_jobs())[-1][1]).decode().count("placement") == 2
    assert all(b"refused " in report(job) for _, job in missing_word_jobs())


# The printed jobs


def check_entry(name, job):
    """Check one printed entry; give its size."""
    data = entry(name, job)
    head, _, rest = data.partition(b"\n")
    word, written, size, report_size = head.decode().split(" ")
    assert (word, written, int(size)) == ("job", name, len(job))
    assert rest[:len(job)] == job and len(rest) == len(job) + int(report_size) + 1
    expected = rest[len(job):-1]
    lines = expected.split(b"\n")
    for line in lines[:-2]:
        assert re.fullmatch(rb"placement [0-9]+: [0-9]+ pairs, [0-9]+ tests|[0-9]+ [0-9]+", line)
    if b"refused" in expected:
        assert LAST_LINE.fullmatch(lines[-2] + b"\n")
    return len(data)


def check_printed_jobs():
    """Check the printed jobs; give their number."""
    jobs = list(all_jobs())
    assert len({name for name, _ in jobs}) == len(jobs)
    assert sum(check_entry(name, job) for name, job in jobs) <= 2_500_000
    return len(jobs)


def check_jobs():
    """Check all that this file checks; give the number of printed jobs."""
    check_examples()
    check_transcription()
    check_worked_walk()
    check_facet_places()
    check_tie_places()
    check_placement_places()
    check_word_places()
    return check_printed_jobs()
