"""Calls that come into others of the same thread, as those of signal handlers, finalizers and iterators do: what they find is right, or they
are refused, and no list is kept that is wrong."""

from __future__ import annotations

import itertools
import random
import signal
import sys
import time
import unittest
from collections.abc import Callable, Iterator
from typing import Any
from unittest import mock

from dcel import Busy, ConstrainedDelaunay, Delaunay
from interrupting import between

POINTS = [(0, 0), (40, 1), (3, 30), (52, 47), (21, 19), (31, 8), (9, 17)]  # of which no four are on a circle
SEGMENTS = [(0, 1), (1, 3), (3, 2), (2, 0)]
LISTS = ["points", "simplices", "neighbors", "edges"]
Made = Delaunay | ConstrainedDelaunay
Call = Callable[[Any], object]

CHANGES: list[Call] = [
    lambda made: made.insert([(11, 12)]),
    lambda made: made.insert([(11, 12), (33, 30), (20, 5)]),
    lambda made: made.insert([(9, 2.0**60)]),  # on a coarser grid
    lambda made: made.remove([4]),
    lambda made: made.remove([3, 5]),
]
CONSTRAINING: list[Call] = [
    lambda made: made.add([(4, 5)]),
    lambda made: made.add([(4, 5), (4, 0)]),
    lambda made: made.remove_constraint(0, 1),
    lambda made: made.refine(20, 200),
]
READS: list[Call] = [lambda made: made.simplices, lambda made: made.coplanar, lambda made: made.find_simplex([(10, 10)]), lambda made: made.copy()]


def plain() -> Delaunay:
    return Delaunay(POINTS)


def constrained() -> ConstrainedDelaunay:
    return ConstrainedDelaunay(POINTS, SEGMENTS)


KINDS: list[tuple[Callable[[], Made], Call]] = [*((plain, it) for it in CHANGES), *((constrained, it) for it in [CHANGES[1], CHANGES[3], *CONSTRAINING])]


def lists(made: Made) -> list[Any]:
    return [getattr(made, name).tolist() for name in (*LISTS, *(["constraints", "regions"] if isinstance(made, ConstrainedDelaunay) else []))]


def content(made: Made) -> list[Any]:
    """What there is, in whichever order the triangles are."""
    return [made.points.tolist(), *(sorted(map(sorted, it.tolist())) for it in (made.simplices, made.constraints if isinstance(made, ConstrainedDelaunay) else made.edges))]


def changed(made: Made, change: Call) -> Made:
    change(made)
    return made


class Within(unittest.TestCase):
    def come(self, make: Callable[[], Made], call: Call, act: Call, spared: str = "none") -> Iterator[tuple[Made, bool]]:
        """Has another call come before each line of one, and looks at the lists then. What was made, and whether the call was refused."""
        for lines in itertools.count():
            made, refused, acted = make(), False, True
            try:
                acted = between(lambda: call(made), lines, lambda: act(made), spared)  # noqa: B023
            except Busy:
                refused = True
            with self.subTest(lines=lines):
                self.assertEqual(lists(made), lists(made.copy()))
            yield made, refused
            if not acted:
                return

    def test_reading(self) -> None:
        """What reads within a change finds the lists of before or after it, or is refused; the change goes on."""
        for make, change in KINDS:
            before, after, refused = lists(make()), lists(changed(make(), change)), 0

            def read(made: Made, ends: tuple[list[Any], list[Any]] = (before, after)) -> None:
                nonlocal refused
                try:
                    self.assertIn(lists(made), ends)
                except Busy:
                    refused += 1

            for made, was_refused in self.come(lambda make=make: changed(make(), lists), change, read):  # type: ignore[misc]
                self.assertEqual((lists(made), was_refused), (after, False))
            self.assertGreater(refused, 3)

    def test_raising(self) -> None:
        """A change that the error of what reads within ends is made wholly or not at all, but for some that are removed."""
        for make, change in KINDS:
            ends = content(make()), content(changed(make(), change))
            found = [(content(made), refused) for made, refused in self.come(make, change, lists, "_turns.py")]
            self.assertTrue(any(refused for _, refused in found) and not found[-1][1])
            if change is not CHANGES[-1]:
                self.assertEqual([it for it, _ in found if it not in ends], [])

    def test_changing(self) -> None:
        """What changes within a call is refused, or comes before or after."""
        for make, call in [*KINDS, *((plain, it) for it in READS)]:
            refused = 0

            def insert(made: Made) -> None:
                nonlocal refused
                try:
                    made.insert([(25, 10)])
                except Busy:
                    refused += 1

            inserted = [made.points.tolist().count([25, 10]) for made, _ in self.come(make, call, insert)]
            self.assertEqual(sum(inserted) + refused + 1, len(inserted))
            self.assertTrue(refused > 3 and sum(inserted) > 1)

    def test_iterators(self) -> None:
        """What is iterated over may read, and may not change."""
        made = plain()
        made.insert(tuple(sum(made.points.tolist()[row][axis] for row in rows) / 3 for axis in (0, 1)) for rows in made.simplices.tolist())
        self.assertEqual((made.npoints, len(made.simplices)), (7 + 8, 8 + 16))
        with self.assertRaises(Busy):
            made.insert(made.points.tolist()[made.insert([(10, 10)])[0]] for _ in range(1))
        self.assertEqual((made.npoints, made.insert([(10, 10)]).tolist()), (15, [15]))

    def test_finalizer(self) -> None:
        """What a finalizer reads within a change is refused, which the interpreter reports, and the change goes on."""

        class Dropped:
            def __init__(self, made: Made) -> None:
                self.made = made

            def __del__(self) -> None:
                lists(self.made)

        with mock.patch.object(sys, "unraisablehook") as hook:
            for make, change in [KINDS[1], KINDS[-3]]:
                hook.reset_mock()
                for made, refused in self.come(make, change, Dropped):
                    self.assertFalse(refused)
                    self.assertEqual(content(made), content(changed(make(), change)))
                self.assertEqual({it.args[0].exc_type for it in hook.call_args_list}, {Busy})

    def test_timer(self) -> None:
        """What a timer's handler reads, whenever that is, leaves no list that is wrong."""
        made, refused, chance, took = plain(), 0, random.Random(5), 4e-4

        def read(number: int, frame: object) -> None:
            nonlocal refused
            try:
                made.simplices, made.edges, made.neighbors  # noqa: B018
            except Busy:
                refused += 1

        before = signal.signal(signal.SIGALRM, read)
        try:
            for turn in range(400):
                points = [(chance.randrange(9999), turn) for _ in range(50)]
                begun = time.perf_counter()
                signal.setitimer(signal.ITIMER_REAL, chance.uniform(1e-6, took))
                made.insert(points)
                signal.setitimer(signal.ITIMER_REAL, 0)
                # As long as an insertion takes here, so that some timers end in the midst of one.
                took = max(4e-4, time.perf_counter() - begun)
                self.assertEqual(made.nsimplex, len(made.simplices))
                if turn % 10 == 9:
                    self.assertEqual(lists(made), lists(made.copy()))
                    made = plain()
        finally:
            signal.setitimer(signal.ITIMER_REAL, 0)
            signal.signal(signal.SIGALRM, before)
        self.assertGreater(refused, 0)
