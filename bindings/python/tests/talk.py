#!/usr/bin/env python3
"""Carries out lines of docs/LINES.md by the calls of this package, and writes the replies that dcel_run would write: so tools/fuzz can
compare them, with this as its PROGRAM."""

from __future__ import annotations

import sys
from collections.abc import Callable, Iterable
from pathlib import Path
from typing import Any

from dcel import Dcel, DcelError, Ended, GivenUp, Opened, Removed

sys.path.insert(0, str(Path(__file__).resolve().parents[3] / "tools/lib"))
from fuzz.lines import read  # noqa: E402


def signed(datum: int) -> int:
    """The datum of a line, which may be below 0."""
    return datum - 2**64 if datum >= 2**63 else datum


def listed(word: str, numbers: Iterable[int]) -> str:
    return " ".join([word, *map(str, numbers)])


def from_least(edges: Iterable[int]) -> list[int]:
    walk = list(edges)
    place = walk.index(min(walk)) if walk else 0
    return walk[place:] + walk[:place]


def ok(_: None) -> str:
    return "ok"


def opened(it: Opened) -> str:
    return f"{listed('opened edges', it.edges)} {listed('faces', it.faces)} {listed('new', it.new_edges)}"


def removed(it: Removed) -> str:
    return f"removed {signed(it.datum)}" + ("" if it.moved is None else f" moved {it.moved}")


def must_be_live(mesh: Dcel, *vertices: int) -> None:
    for vertex in vertices:
        mesh.vertex_data(vertex)
    if not all(map(mesh.is_live_vertex, vertices)):
        raise GivenUp


def words(mesh: Dcel) -> str:
    faces = filter(mesh.is_live_face, range(mesh.num_faces()))
    return "\n".join(listed(f"F{face}", from_least(mesh.face_edges(face))) for face in faces)


def out(mesh: Dcel, vertex: int) -> str:
    must_be_live(mesh, vertex)
    return listed("out", from_least(mesh.out_edges(vertex)))


def between(mesh: Dcel, first: int, second: int) -> str:
    must_be_live(mesh, first, second)
    half = mesh.get_edge_from_neighbors(first, second)
    return "none" if half is None else f"half {half}"


def legalize(mesh: Dcel, most: int, edges: list[int]) -> str:
    flips, ended = mesh.legalize_by_number(most, edges)
    return f"flips {flips} " + {Ended.LEGALIZED: "done", Ended.STOPPED: "stopped", Ended.MEMORY_RAN_OUT: "memory"}[ended]


def into(edit: Callable[[Dcel, int, int], None], new: int) -> Callable[..., str]:
    """An edit that puts a vertex in, which is told."""

    def carry_out(mesh: Dcel, *given: int) -> str:
        edit(mesh, *given)
        return f"vertex {given[new]}"

    return carry_out


ANSWERS: dict[str, Callable[..., str]] = {
    "append": lambda m, datum: f"vertex {m.append_unconnected_vertex(datum % 2**64)}",
    "triangle": lambda m, *data: ok(m.new_triangle(*(datum % 2**64 for datum in data))),
    "setup": lambda m, *ends: ok(m.setup_initial_two_vertices(*ends)),
    "extend": into(Dcel.extend_line, 1),
    "line": lambda m, half, new: f"halves {half} {m.split_edge_when_all_vertices_on_line(half, new)}",
    "close": lambda m, half: f"half {m.create_single_face_between_edge_and_next(half)}",
    "outside": into(Dcel.create_new_face_adjacent_to_edge, 1),
    "insert": into(Dcel.insert_into_triangle, 0),
    "half": lambda m, half, new: f"halves {half} {m.split_half_edge(half, new)}",
    "split": lambda m, half, new: f"halves {half} {m.split_edge(half, new)}",
    "flip": lambda m, edge: ok(m.flip_cw(edge)),
    "legalize": legalize,
    "swap": lambda m, *vertices: ok(m.swap_vertices(*vertices)),
    "put": lambda m, vertex, datum: ok(m.update_vertex(vertex, datum % 2**64)),
    "isolate": lambda m, vertex, border: opened(m.isolate_vertex_and_fill_hole(border, vertex)),
    "remesh": lambda m, *lists: opened(m.remesh_edge_ring(*lists)),
    "strip": lambda m, strip: opened(m.disconnect_edge_strip(strip)),
    "cleanup": lambda m, *lists: ok(m.cleanup_isolated_vertex(*lists)),
    "remove": lambda m, vertex: removed(m.swap_remove_vertex(vertex)),
    "degenerate": lambda m, vertex: removed(m.remove_when_degenerate(vertex)),
    "clear": lambda m: ok(m.clear()),
    "counts": lambda m: f"vertices {m.num_vertices()} edges {m.num_undirected_edges()} faces {m.num_faces()}",
    "words": words,
    "hull": lambda m: listed("hull", from_least(m.face_edges(0))),
    "out": out,
    "origin": lambda m, half: f"vertex {m.from_(half)}",
    "between": between,
    "get": lambda m, vertex: f"datum {signed(m.vertex_data(vertex))}",
    "check": lambda m: "true" if m.sanity_check() else "false",
}


def answer(mesh: Dcel, request: tuple[str, list[Any]] | None) -> str:
    if request is None:
        return "bad line"
    word, given = request
    try:
        return ANSWERS[word](mesh, *given)
    except DcelError as refused:
        return f"refused {refused.status.value} {type(refused).__name__}"


def main() -> None:
    mesh = Dcel()
    for line in sys.stdin.buffer:
        print(answer(mesh, read(line.decode(errors="replace").removesuffix("\n"))))


if __name__ == "__main__":
    main()
