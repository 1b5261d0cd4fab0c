"""Drawn test jobs: right ones near contact, and small ones with bytes changed."""

from comparison_draws import drawn_piece, near_placement, self_placement
from hulls import KINDS
from job_text import job_of, laid_out
from pieces import bumpy_sheet, by_halves, lopsided, tied_anyhow
from register import Register

MOST_FACETS = (1, 2, 4, 7, 12, 20, 33)

# Bytes that are put into jobs.
ODD_BYTES = b" \n\n 0123456789--xk\t\r\x00\xff+."


def filed(kind, *pieces):
    """Give the items of each piece."""
    register = Register(0, [None] * 2_048, kind)
    for facets, ties in pieces:
        register.start()
        for numbers in facets:
            register.facet(0, numbers)
        for x, y in ties:
            register.tie(0, x, y)
        assert register.close(0)[0] == "filed"
    return register.objects


def near_placements(rng, kind, first, second, count):
    """Draw placements that bring two pieces to contact or near it."""
    moved, standing = filed(kind, first, second)
    return [near_placement(rng, kind, moved, standing) for _ in range(count)]


def near_jobs(rng):
    """Draw right jobs of each kind with pieces of each size."""
    for kind in KINDS:
        for most in MOST_FACETS:
            for turn in range(3):
                first, second = drawn_piece(rng, most), drawn_piece(rng, most)
                placements = near_placements(rng, kind, first, second, rng.randint(3, 8))
                write = job_of if turn == 0 else laid_out
                yield f"near-{kind.word}-{most}-{turn}", write(kind.word, first, second, placements)


def same_jobs(rng):
    """Draw right jobs that have the same piece twice."""
    for kind in KINDS:
        for most in MOST_FACETS[1::2]:
            piece = drawn_piece(rng, most)
            placements = [self_placement(rng) for _ in range(4)]
            yield f"same-{kind.word}-{most}", laid_out(kind.word, piece, piece, placements)


def large_jobs(rng):
    """Draw right jobs with surfaces of more than a hundred facets."""
    for kind in KINDS:
        first = bumpy_sheet(rng, 10, 12, 25, 6)
        second = bumpy_sheet(rng, 8, 9, 32, 20)
        pieces = (first, by_halves(len(first))), (second, tied_anyhow(rng, len(second)))
        if kind.faces == 0:
            pieces = pieces[1], (first, lopsided(len(first)))
        placements = near_placements(rng, kind, *pieces, 4)
        yield f"large-{kind.word}", laid_out(kind.word, *pieces, placements)


def changed(rng, job):
    """Give a job with a byte left out, put in or replaced, or with a piece left out or doubled."""
    place = rng.randrange(len(job))
    end = min(len(job), place + rng.randint(1, 30))
    byte = bytes([rng.choice(ODD_BYTES)])
    return rng.choice((
        job[:place] + job[place + 1:],
        job[:place] + byte + job[place:],
        job[:place] + byte + job[place + 1:],
        job[:place] + job[end:],
        job[:end] + job[place:],
    ))


def changed_jobs(rng):
    """Draw small right jobs and change them in one place or two."""
    for turn in range(120):
        kind = KINDS[turn % 3]
        first, second = drawn_piece(rng, 1 + turn % 3), drawn_piece(rng, 2)
        placements = near_placements(rng, kind, first, second, 2)
        job = (job_of if turn % 2 else laid_out)(kind.word, first, second, placements)
        for _ in range(1 + turn % 5 // 4):
            job = changed(rng, job)
        yield f"changed-{turn}", job


def drawn_jobs(rng):
    """Give all drawn jobs."""
    for group in (near_jobs, same_jobs, large_jobs, changed_jobs):
        yield from group(rng)
