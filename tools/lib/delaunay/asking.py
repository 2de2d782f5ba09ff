"""The program delaunay, or another one named by PROGRAM=FILE, and what it writes."""

import os
import subprocess
from pathlib import Path

from delaunay.plane import Wrong, is_line

PROGRAM = os.environ.get("PROGRAM", str(Path(__file__).resolve().parents[3] / "crates/delaunay/out/delaunay"))


def ended(path, *words):
    """Returns the status with which the program ends, what it writes, and what it says on standard error."""
    done = subprocess.run([PROGRAM, *words, path], capture_output=True, check=False)
    return done.returncode, done.stdout.decode(), done.stderr.decode(errors="replace")


def run(path, *words, said=""):
    """Returns the lines that the program writes, each ended by a line feed alone."""
    status, out, error = ended(path, *words)
    what = " ".join(words) or "the program"
    if status or error != said:
        raise Wrong(f"{what} ended with status {status}: {error.strip()}")
    *lines, last = out.split("\n")
    if last or any(line != line.strip() for line in lines):
        raise Wrong(f"{what} wrote a line that a line feed alone doesn't end")
    return lines


def notes_of(points, gone=()):
    """What is said of points without a triangle, some of which are gone: beside any output, and beside a list of triangles."""
    if not points:
        return ("delaunay: the input has no points\n",) * 2
    left = [point for number, point in enumerate(points) if number not in set(gone)]
    distinct = sorted(set(left))
    if not left:
        why = "all points are removed"
    elif len(left) == 1:
        why = "there is only one point"
    elif len(distinct) == 1:
        why = f"all {len(left)} points are equal"
    elif is_line(distinct):
        why = f"all {len(left)} points are on one line"
    else:
        return "", ""
    return "", f"delaunay: no triangles: {why}\n"


def numbers(lines, count):
    """Lines of so many numbers each."""
    rows = [tuple(int(word) for word in text.split(" ")) for text in lines]
    if any(len(row) != count for row in rows):
        raise Wrong(f"a line without {count} numbers")
    return rows
