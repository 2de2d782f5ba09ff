"""Refinements of domains by the library's calls: of ten with a name, and of others made at random."""

import random
from typing import NamedTuple

from delaunay import domains, refined
from delaunay.library import Kept
from delaunay.plane import Wrong
from delaunay.refined import Asked, Came, judge, some_asked, tangent_of
from delaunay.removals import Expected, check_links

# How many points a domain with a name may need.
ENOUGH = 20_000
# What part of the square around it a triangle may take up in a domain with a name.
PART = 1000


class Tried(NamedTuple):
    """How many refinements reached all that was asked, how many ended with as many points as allowed, how many with fewer, and how many points were
    added."""

    done: int = 0
    ended: int = 0
    stuck: int = 0
    added: int = 0

    def and_then(self, other):
        return Tried(*map(sum, zip(self, other)))


def refine(domain, asked):
    """Refines a domain. Returns its points and segments by their vertices, and what it comes to."""
    with Kept(domain.points, domain.segments) as kept:
        points = Expected(domain.points, kept.vertices, ()).points
        segments = [(kept.vertices[a], kept.vertices[b]) for a, b in domain.segments]
        added, excepted, done = kept.refine(asked)
        told = kept.told()
        check_links(told.lists, told.links)
        if (again := kept.refine(asked._replace(most=0))) != (0, excepted, done):
            raise Wrong(f"asked again for no more points it says {again}")
    return points, segments, Came(told.points, told.lists, added, excepted, done)


def check_one(domain, asked):
    """Refines a domain, and checks what it comes to. Returns what was tried."""
    try:
        points, segments, came = refine(domain, asked)
        judge(points, segments, asked, came)
    except Wrong as wrong:
        given = f"points: {domain.points}\nsegments: {domain.segments}"
        raise Wrong(f"{domain.name}, of which {asked} is asked: {wrong}\n{given}") from wrong
    is_ended = not came.done and came.added == asked.most
    return Tried(int(came.done), int(is_ended), int(not came.done and not is_ended), came.added)


def named_askings(domain):
    """What is asked of a domain with a name."""
    wide = max(abs(it) for point in domain.points for it in point)
    for degrees, area in ((20, None), (20, wide * wide // PART), (25, None)):
        yield Asked(*tangent_of(degrees), area, ENOUGH, domain.is_inside)


def check_all(count, seed):
    """Checks refinements of the domains with a name, each of which must reach what is asked, and of so many made at random. Returns what was tried."""
    tried = Tried()
    for domain in (make() for make in domains.NAMED):
        for asked in named_askings(domain):
            tried = tried.and_then(check_one(domain, asked))
            if tried.ended or tried.stuck:
                raise Wrong(f"{domain.name} doesn't reach {asked}")
    for number in range(count):
        rng = random.Random(1000 * seed + number)
        domain = domains.some_domain(rng, number)
        tried = tried.and_then(check_one(domain, some_asked(rng, domain)))
    return tried


def self_test(seed, count):
    """Plants faults into refinements of some domains. Returns how many were planted."""
    planted = dict.fromkeys(refined.NAMES, 0)
    refined.plant_limits(planted)
    figures = [domains.star(), domains.letter(), domains.square_with_circle(), domains.gears()]
    askings = [next(named_askings(it)) for it in figures]
    for number in range(count):
        rng = random.Random(1000 * seed + number)
        figures.append(domains.some_domain(rng, 2 * number + 1))
        askings.append(some_asked(rng, figures[-1]))
    for domain, asked in zip(figures, askings):
        points, segments, came = refine(domain, asked)
        refined.plant(points, segments, asked, came, planted)
        if came.done and came.added:
            fewer = refine(domain, asked._replace(most=came.added - 1))[2]
            refined.plant_last(points, segments, asked, fewer, planted)
    if missing := [name for name, times in planted.items() if times < 3]:
        raise Wrong(f"'{missing[0]}' was hardly planted")
    return sum(planted.values())
