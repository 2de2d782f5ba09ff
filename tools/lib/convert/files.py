"""Reads OFF and OBJ files anew, and compares them."""

from pathlib import Path


def read(path):
    """The points, with three words each, and the faces: lists of corners, counted from 0."""
    lines = [words for line in Path(path).read_text().split("\n") if (words := line.split("#")[0].split())]
    return read_obj(lines) if str(path).endswith(".obj") else read_off(lines)


def read_off(lines):
    counts, *rest = [words for words in [lines[0][1:], *lines[1:]] if words]
    vertices, faces = map(int, counts[:2])
    points = [tuple(words[:3]) for words in rest[:vertices]]
    return points, [[int(word) for word in words[1:int(words[0]) + 1]] for words in rest[vertices:vertices + faces]]


def read_obj(lines):
    points, faces = [], []
    for kind, *words in lines:
        if kind == "v":
            points.append(tuple(words[:3]))
        elif kind == "f":
            numbers = [int(word.split("/")[0]) for word in words]
            faces.append([number - 1 if number > 0 else len(points) + number for number in numbers])
    return points, faces
