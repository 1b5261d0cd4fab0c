"""Prints test jobs with their expected reports."""

import random
import sys

from job import report
from job_cases import hand_made_jobs
from job_draws import drawn_jobs
from job_examples import example_jobs
from job_faults import fault_jobs

SEED = 1_024


def all_jobs():
    """Give the names and the bytes of all jobs in a fixed order."""
    for turn, (job, _) in enumerate(example_jobs()):
        yield f"example-{turn}", job
    yield from hand_made_jobs()
    yield from fault_jobs()
    yield from drawn_jobs(random.Random(SEED))


def entry(name, job):
    """Give the bytes of one entry: a line with the name and two sizes, the job, its report, a line end."""
    expected = report(job)
    return f"job {name} {len(job)} {len(expected)}\n".encode() + job + expected + b"\n"


def main():
    """Print the test jobs."""
    for name, job in all_jobs():
        sys.stdout.buffer.write(entry(name, job))


if __name__ == "__main__":
    main()
