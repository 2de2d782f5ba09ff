"""How many instructions the program takes: for constraints that cross ever more edges, and for points made against the order of insertion."""

import math
import os
import random
import re
import subprocess
import tempfile

from delaunay.asking import PROGRAM
from delaunay.plane import Wrong, finds
from delaunay.points import LIMIT, NEAR

SIZES = (10_000, 30_000, 100_000)
# How much more a set may take than n log n lets it grow, and than as many random points.
GROWTH, TIMES = 1.25, 5
COUNTED = re.compile(r"Collected : (\d+)")


# Points, and pairs of them that are joined. In each set the constraints cross about as many edges as there are points.


def star(count):
    """Constraints out of the center of a circle."""
    turns = [2 * math.pi * number / count for number in range(count)]
    around = [(round(NEAR * math.cos(turn)), round(NEAR * math.sin(turn))) for turn in turns]
    return [*around, (0, 0)], [(number, count) for number in range(count)]


def rows(count):
    """A constraint between two rows of points."""
    half = count // 2
    points = [(10 * number, side) for number in range(half) for side in (-50, 50)]
    return [*points, (-100, 0), (10 * half + 100, 0)], [(2 * half, 2 * half + 1)]


def band(count):
    """A constraint among random points near its line."""
    rng = random.Random(count)
    points = [(rng.randint(0, 10 * count), rng.choice([-1, 1]) * rng.randint(1, 1000)) for _ in range(count)]
    return [*points, (-100, 0), (10 * count + 100, 0)], [(count, count + 1)]


def arcs(count):
    """A constraint between two arcs that bend toward it."""
    half = count // 2
    places = range(-(half // 2), half - half // 2)
    points = [(1000 * at, side * (100 * half + 1000 * at * at // half)) for at in places for side in (-1, 1)]
    return [*points, (-1000 * half, 0), (1000 * half, 0)], [(2 * half, 2 * half + 1)]


def comb(count):
    """Long parallel constraints, as many as a square root, between rows of points."""
    teeth = math.isqrt(count) // 5
    wide = count // teeth
    points = [(10 * number, 100 * tooth) for tooth in range(teeth) for number in range(wide)]
    ends = [(x, 100 * tooth + 50) for tooth in range(teeth - 1) for x in (-100, 10 * wide + 100)]
    return [*points, *ends], [(len(points) + 2 * tooth, len(points) + 2 * tooth + 1) for tooth in range(teeth - 1)]


JOINED = (star, rows, band, arcs, comb)


# Points alone, made against the order in which they are inserted.


def somewhere(count, reach=NEAR):
    rng = random.Random(count)
    return [(rng.randint(-reach, reach), rng.randint(-reach, reach)) for _ in range(count)]


def cluster(count):
    """A cluster, and three points far from it."""
    rng = random.Random(count)
    return [(rng.randint(0, 2**20), rng.randint(0, 2**20)) for _ in range(count - 3)] + [(-LIMIT, -LIMIT), (LIMIT, -LIMIT), (0, LIMIT)]


def spiral(count):
    """Points on a spiral, from its center."""
    turns = [math.sqrt(number) for number in range(count)]
    return [(round(2**20 * turn * math.cos(turn)), round(2**20 * turn * math.sin(turn))) for turn in turns]


def circle(count):
    """Points as near to a circle as whole coordinates are."""
    rng = random.Random(count)
    turns = [2 * math.pi * rng.random() for _ in range(count)]
    return [(round(NEAR * math.cos(turn)), round(NEAR * math.sin(turn))) for turn in turns]


def lines(count):
    """Points on two lines that cross."""
    rng = random.Random(count)
    return [(at, at) if rng.randint(0, 1) else (at, -at) for at in (rng.randint(-NEAR, NEAR) for _ in range(count))]


def fans(count):
    """Two arcs that bend toward each other ever more, and at each end a point that sees both."""
    half = count // 2
    points = [(at, side * (at * at + half)) for at in range(-(half // 2), half - half // 2) for side in (-1, 1)]
    return [*points, (-half, 0), (half, 0)]


AGAINST = (cluster, spiral, circle, lines, fans)


# What is counted, and what it may be.


def instructions(points, pairs=()):
    """How many instructions the program takes, reading included."""
    with tempfile.TemporaryDirectory() as folder:
        for name, lines_of in (("points", points), ("pairs", pairs)):
            with open(f"{folder}/{name}", "w", encoding="ascii") as file:
                file.writelines(f"{a} {b}\n" for a, b in lines_of)
        words = ["--constraints", f"{folder}/pairs"] if pairs else []
        command = ["valgrind", "--tool=callgrind", f"--callgrind-out-file={os.devnull}", PROGRAM, "--stats", *words, f"{folder}/points"]
        done = subprocess.run(command, capture_output=True, text=True, check=False)
    counted = COUNTED.search(done.stderr)
    if done.returncode or not counted:
        raise Wrong(f"the count ended with status {done.returncode}: {done.stderr.strip()}")
    return int(counted[1])


def judge_growth(name, counts):
    """Whether counts by size grow no faster than n log n."""
    steps = {size: count / (size * math.log(size)) for size, count in counts.items()}
    least = steps[min(steps)]
    for size, step in steps.items():
        if step > GROWTH * least:
            raise Wrong(f"{name}: {size} points take {step / least:.2f} times what n log n allows")


def judge_times(name, count, usual):
    """Whether a set takes at most so many times what random points take."""
    if count > TIMES * usual:
        raise Wrong(f"{name}: {count / usual:.1f} times as many instructions as random points")


def check():
    """Counts all sets. Returns how often random points' instructions the dearest one takes."""
    for kind in JOINED:
        judge_growth(kind.__name__, {size: instructions(*kind(size)) for size in SIZES})
    counts = {kind: instructions(kind(SIZES[1])) for kind in (somewhere, *AGAINST)}
    for kind in AGAINST:
        judge_times(kind.__name__, counts[kind], counts[somewhere])
    return max(counts.values()) / counts[somewhere]


def self_test():
    """Plants counts that are too high. Returns how many."""
    judge_growth("n log n", {size: int(7 * size * math.log(size)) for size in SIZES})
    finds("times what n log n allows", judge_growth, "n ** 1.2", {size: int(size**1.2) for size in SIZES})
    finds("times what n log n allows", judge_growth, "n ** 2", {size: size**2 for size in SIZES})
    finds("times as many instructions", judge_times, "dear", 501, 100)
    return 3
