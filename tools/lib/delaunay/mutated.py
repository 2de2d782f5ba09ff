"""Files of points as other programs write them, with random faults, and whether the program delaunay refuses those as it should."""

import json
import os
import resource
import subprocess
import tempfile
from pathlib import Path
from typing import NamedTuple

from delaunay.asking import PROGRAM
from delaunay.plane import Wrong, finds

SECONDS = 60
# What may stand on standard error if a file is taken.
NOTES = ("delaunay: no triangles: ", "delaunay: the input has no points", "delaunay: the file numbers its points from 1")
# Pieces that are put into files.
PIECES = [b'"', b";", b",", b"\t", b" ", b"\n", b"#", b"\0", b"-", b"nan", b"1e400", b"1e-19", b"99999999999999999999", b"{", b"(", b"[", b"]", b"}", b"\xff", b"\r\n", b"-1", b"0"]
# How many lines the shorter one of two files has whose times are compared, how much longer the other one is, and how much longer it may take.
LINES, LONGER, SLOWER = 20_000, 8, 24


class Ended(NamedTuple):
    """How the program ended, and which files it made."""

    status: int
    out: bytes
    error: bytes
    made: list


def places(rng):
    """Points, few of them equal."""
    return [(rng.randint(-50, 50), rng.randint(-50, 50)) for _ in range(rng.randint(3, 12))]


def quoted(rng, word):
    return f'"{word}"' if rng.random() < 0.3 else str(word)


def columns(rng):
    """Lines of three columns and more, with names or without."""
    sign = rng.choice([",", ";", "\t"])
    names = rng.random() < 0.5
    rows = [["name", "lon", "lat"], ["-", "deg", "deg"]][: rng.randint(1, 2)] if names else []
    rows += [[f"p{sign}q" if rng.random() < 0.1 else "p", x, y, *["more"] * rng.randint(0, 2)] for x, y in places(rng)]
    rows = [[f'"{it}"' if sign in str(it) else quoted(rng, it) for it in row] for row in rows]
    return {"a.csv": "".join(sign.join(row) + "\n" for row in rows)}, ["--columns", "lon,lat" if names else "2,3", "a.csv"]


def separated(rng):
    """Lines of two columns, with a semicolon between them, names and units."""
    rows = [["x", "y"], ["(m)", "(m)"], *places(rng)]
    return {"a.txt": "".join(";".join(quoted(rng, it) for it in row) + "\n" for row in rows)}, ["a.txt"]


def node_rows(rng, points, first):
    return "".join(f"{first + number} {x} {y} {rng.randint(0, 9)} 1\n" for number, (x, y) in enumerate(points))


def node(rng):
    """A .node."""
    points, first = places(rng), rng.randint(0, 1)
    return {"a.node": f"{len(points)} 2 1 1\n" + node_rows(rng, points, first)}, ["a.node"]


def poly(rng):
    """A .poly, whose segments are a fan or a triangle."""
    points, first = sorted(set(places(rng)) | {(0, 0), (9, 0), (0, 9)}), rng.randint(0, 1)
    segments = [(0, 1), (1, 2), (2, 0)]
    rows = "".join(f"{number} {first + a} {first + b} 1\n" for number, (a, b) in enumerate(segments))
    text = f"{len(points)} 2 1 1\n{node_rows(rng, points, first)}{len(segments)} 1\n{rows}0\n"
    return {"a.poly": text}, rng.choice([["a.poly"], ["a.poly", "--outline", "a.poly"]])


def shape(rng):
    """A geometry of GeoJSON: points, a line that goes from left to right, or a polygon with a hole."""
    points = [[x + rng.choice([0, 0, 0.5]), y, *[rng.random()] * rng.randint(0, 1)] for x, y in places(rng)]
    kinds = {
        "Point": points[0],
        "MultiPoint": points,
        "LineString": sorted(points),
        "MultiLineString": [sorted(points)],
        "Polygon": [[[-90, -90], [90, -90], [0, 90], [-90, -90]], [[-9, -9], [0, 9], [9, -9], [-9, -9]]],
        "MultiPolygon": [[[[-90, -90], [90, -90], [0, 90], [-90, -90]]]],
    }
    kind = rng.choice(sorted(kinds))
    members = [("type", kind), ("coordinates", kinds[kind]), ("bbox", [0, 0, 1e3, 1])]
    return dict(shuffled(rng, members[: rng.randint(2, 3)]))


def shuffled(rng, members):
    """Members in any order."""
    return rng.sample(members, len(members))


def geojson(rng):
    """A geometry by itself, in a collection or in features, of which one joins points."""
    joined, points = shape(rng), {"type": "MultiPoint", "coordinates": places(rng)}
    feature = dict(shuffled(rng, [("type", "Feature"), ("geometry", joined), ("properties", {"name": "\u00fc\\ \"", "type": [None, {}]})]))
    whole = rng.choice([
        joined,
        dict(shuffled(rng, [("type", "GeometryCollection"), ("geometries", [joined, points])])),
        dict(shuffled(rng, [("type", "FeatureCollection"), ("features", [feature, {"type": "Feature", "geometry": None}])])),
    ])
    name = rng.choice(["a.geojson", "a.json", "a.txt"])
    text = json.dumps(whole, indent=rng.choice([None, None, 1]), ensure_ascii=rng.random() < 0.5)
    return {name: text}, [*(["--format", "geojson"] if name == "a.txt" else []), name]


def located(rng):
    """Places that are looked for."""
    lines = ["".join(f"{x} {y}\n" for x, y in places(rng)) for _ in range(2)]
    return {"a.txt": lines[0], "b.txt": lines[1]}, ["a.txt", "--locate", "b.txt"]


def saved(rng):
    """Outputs in several files."""
    files, words = columns(rng)
    return files, [*words, "--triangles-to", "made.triangles", "--hull-to", "made.hull"]


FORMATS = [columns, separated, node, poly, geojson, located, saved]


def mutated(rng, content):
    """A text with a few faults."""
    for _ in range(rng.randint(1, 3)):
        start = rng.randint(0, len(content))
        end = min(len(content), start + rng.choice([0, 1, 1, 2, 8, len(content)]))
        content = content[:start] + rng.choice([b"", b"", rng.choice(PIECES), content[start:end] * 2]) + content[end:]
    return content


def ended(files, words):
    """How the program ends on files."""
    with tempfile.TemporaryDirectory() as place:
        for name, content in files.items():
            Path(place, name).write_bytes(content)
        ran = subprocess.run([PROGRAM, *words], cwd=place, capture_output=True, timeout=SECONDS, check=False)
        return Ended(ran.returncode, ran.stdout, ran.stderr, sorted(set(os.listdir(place)) - set(files)))


def judge(end, is_whole=False):
    """Whether the program took a file or refused it with a message and nothing else."""
    lines = end.error.decode().splitlines()
    if end.status not in ((0,) if is_whole else (0, 1)):
        raise Wrong(f"status {end.status}: {end.error!r}")
    if any(not it.isprintable() for it in lines):
        raise Wrong(f"a message that isn't printable: {end.error!r}")
    refusals = [it for it in lines if not it.startswith(NOTES)]
    if len(refusals) != end.status or any(not it.startswith("delaunay: ") for it in refusals):
        raise Wrong(f"status {end.status} with these messages: {end.error!r}")
    if end.status and (end.out or end.made):
        raise Wrong(f"output before a refusal: {end.out!r}, {end.made}")


def check(rng, count):
    """Has the program read so many files of each format with faults. Returns how many it took, and how many it refused."""
    outcomes = [0, 0]
    for make in FORMATS:
        for _ in range(count):
            files, words = make(rng)
            whole = {name: text.encode() for name, text in files.items()}
            spoiled = rng.choice(sorted(files))
            for content in ([whole] if rng.random() < 0.05 else []) + [{**whole, spoiled: mutated(rng, whole[spoiled])}]:
                end = ended(content, words)
                try:
                    judge(end, content is whole)
                except Wrong as wrong:
                    raise Wrong(f"{make.__name__} {words}: {content}: {wrong}") from None
                outcomes[end.status] += 1
    if 0 in outcomes:
        raise Wrong("all files were taken, or all refused")
    return outcomes


def processor_time():
    """How long the programs that ended took."""
    took = resource.getrusage(resource.RUSAGE_CHILDREN)
    return took.ru_utime + took.ru_stime


def seconds(content, words):
    """How long the program takes to refuse a file at its end, by the processor's time, since other checks run beside this one."""
    start = processor_time()
    end = ended({words[-1]: content.encode()}, words)
    judge(end)
    if end.status != 1:
        raise Wrong(f"{words} took a file with a fault at its end")
    return processor_time() - start


def check_linear():
    """The time to read a file is proportional to its length."""
    kinds = {
        "many lines": lambda n: ("name,lon,lat\n" + '"a, b",1,2\n' * n + "c\n", ["--columns", "lon,lat", "a.csv"]),
        "many columns": lambda n: ("p," * n + "x,y\n" + "1," * n + "1\n", ["--columns", "x,y", "a.csv"]),
        "long comments": lambda n: ("1 2 # " + '"#' * n + "\nx\n", ["a.txt"]),
        "points": lambda n: (f"{n} 2\n" + "".join(f"{it} 1 2\n" for it in range(n)) + "x\n", ["a.node"]),
        "segments": lambda n: (f"2 2\n0 0 0\n1 1 1\n{n + 1}\n" + "0 0 1\n" * n + "x\n", ["a.poly"]),
        "positions": lambda n: ('{"type": "MultiPoint", "coordinates": [' + "[1, 2],\n" * n + "x]}", ["a.geojson"]),
        "features": lambda n: ('{"features": [' + '{"properties": {"a": ["\\u00fc"]}, "type": "Feature", "geometry": null},' * n + "x]}", ["a.geojson"]),
        "collections": lambda n: ('{"type": "GeometryCollection", "geometries": [' * n + "x", ["a.geojson"]),
        "rings": lambda n: ('{"type": "Polygon", "coordinates": [' + "[[0, 0], [1, 0], [0, 1], [0, 0]]," * n + "[[0, 0]]]}", ["a.geojson"]),
    }
    for kind, make in kinds.items():
        short, long = min(seconds(*make(LINES)) for _ in range(3)), seconds(*make(LINES * LONGER))
        if long > SLOWER * max(short, 0.02):
            raise Wrong(f"{kind}: {long:.2f} s for {LONGER} times what takes {short:.2f} s")


def self_test():
    """Plants faults into right endings. Returns how many."""
    taken, refused = Ended(0, b"0 1 2\n", b"delaunay: no triangles: there is only one point\n", []), Ended(1, b"", b"delaunay: line 1: a fault\n", [])
    judge(taken, True)
    judge(refused)
    planted = {
        "status 139": refused._replace(status=139),
        "status 0 with": taken._replace(error=refused.error),
        "status 1 with": refused._replace(error=b""),
        "output before a refusal: b'0'": refused._replace(out=b"0"),
        "output before a refusal: b''": refused._replace(made=["a"]),
        "isn't printable": refused._replace(error=b"delaunay: line 1: \x1b[2J\n"),
    }
    for reason, end in planted.items():
        finds(reason, judge, end)
    return len(planted)
