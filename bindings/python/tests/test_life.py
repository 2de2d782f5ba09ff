"""Meshes that are closed, copied, dropped, shared by threads, and shown, and large ones."""

from __future__ import annotations

import copy
import gc
import os
import pickle
import random
import resource
import subprocess
import sys
import threading
import unittest
import weakref

import dcel
from dcel import ConstrainedDelaunay, Dcel, Delaunay, NoMesh, Removed, replies
from dcel._calls import library
from meshes import opened, round_, state

COUNT = 5000


class Life(unittest.TestCase):
    def test_close(self) -> None:
        mesh = round_()
        self.assertFalse(mesh.closed)
        mesh.close()
        mesh.close()
        self.assertTrue(mesh.closed)
        with self.assertRaises(NoMesh), mesh:
            self.fail("a closed mesh was opened again")

    def test_with(self) -> None:
        with round_() as mesh:
            self.assertEqual(mesh.num_vertices(), 5)
        self.assertTrue(mesh.closed)
        with self.assertRaises(ZeroDivisionError), round_() as mesh:
            raise ZeroDivisionError
        self.assertTrue(mesh.closed)

    def test_dropped(self) -> None:
        mesh = round_()
        inside, seen = mesh._mesh, weakref.ref(mesh)
        self.assertTrue(inside.is_open)
        del mesh
        gc.collect()
        self.assertIsNone(seen())
        self.assertFalse(inside.is_open)

    def test_new_again(self) -> None:
        mesh = round_()
        mesh.__init__()  # type: ignore[misc]
        self.assertEqual((mesh.num_vertices(), mesh.num_faces()), (0, 1))

    def test_copies(self) -> None:
        for make in (Dcel.copy, copy.copy, copy.deepcopy):
            mesh = opened()
            other = make(mesh)
            self.assertEqual(state(other), state(mesh))
            other.clear()
            self.assertEqual(state(mesh), state(opened()))
            mesh.close()
            self.assertEqual(other.num_faces(), 1)
            with self.assertRaises(NoMesh):
                make(mesh)

    def test_pickle(self) -> None:
        with self.assertRaises(TypeError):
            pickle.dumps(round_())

    def test_repr(self) -> None:
        mesh = opened()
        self.assertEqual(repr(mesh), "<Dcel: 5 vertices, 6 edges, 5 faces, a removal is open>")
        mesh.close()
        self.assertEqual(repr(mesh), "<Dcel: closed>")
        self.assertEqual(repr(round_()), "<Dcel: 5 vertices, 6 edges, 4 faces>")

    def test_subclass(self) -> None:
        class Named(Dcel):
            def __init__(self, name: str) -> None:
                super().__init__()
                self.name = name

        mesh = Named("a")
        self.assertEqual((mesh.name, mesh.num_faces(), type(mesh.copy())), ("a", 1, Named))

    def test_no_field_is_made_up(self) -> None:
        with self.assertRaises(AttributeError):
            round_().vertices = 1  # type: ignore[attr-defined]

    def test_threads(self) -> None:
        """Threads that share a mesh take turns, however often they are switched."""
        mesh, count, each = Dcel(), 4, 2000
        mesh.new_triangle(0, 0, 0)

        def grow() -> None:
            for _ in range(each):
                mesh.insert_into_triangle(mesh.append_unconnected_vertex(1), 1)
                len(mesh.directed_edges() if mesh.num_vertices() % 100 == 0 else mesh.out_edges(0))

        interval = sys.getswitchinterval()
        sys.setswitchinterval(1e-6)
        threads = [threading.Thread(target=grow) for _ in range(count)]
        for thread in threads:
            thread.start()
        for thread in threads:
            thread.join()
        sys.setswitchinterval(interval)
        self.assertEqual((mesh.num_vertices(), mesh.num_faces(), mesh.sanity_check()), (3 + count * each, 2 + 2 * count * each, True))

    def test_calls_keep_the_lock(self) -> None:
        """A Python without the interpreter's lock is told so."""
        self.assertEqual(type(library).__name__, "PyDLL")
        code = "import sys; sys._is_gil_enabled = lambda: False\ntry:\n    import dcel\nexcept ImportError as no:\n    print(no)"
        said = subprocess.run([sys.executable, "-c", code], stdout=subprocess.PIPE, text=True, check=True).stdout
        self.assertRegex(said, "^dcel wants the interpreter's lock")

    def test_library(self) -> None:
        """Where there is no library, or one of another version, it says so."""
        code = "try:\n    import dcel\nexcept ImportError as no:\n    print(no)"
        for path, told in (("/nowhere.so", "dcel doesn't find its library: /nowhere.so"), ("libc.so.6", f"dcel {dcel.__version__} takes no library of another version: libc")):
            environment = {**os.environ, "DCEL_LIBRARY": path}
            said = subprocess.run([sys.executable, "-c", code], stdout=subprocess.PIPE, text=True, check=True, env=environment).stdout
            self.assertTrue(said.startswith(told), said)

    def test_memory_goes_back(self) -> None:
        """Copies that take 300 MB together take little, one after another: closed, dropped, or made anew."""
        mesh = Dcel()
        mesh.new_triangle(1, 2, 3)
        for datum in range(5000):
            mesh.insert_into_triangle(mesh.append_unconnected_vertex(datum), 1)
        before = resource.getrusage(resource.RUSAGE_SELF).ru_maxrss
        for turn in range(300):
            other = mesh.copy()
            if turn % 3 == 0:
                other.close()
            elif turn % 3 == 1:
                other.__init__()  # type: ignore[misc]
        self.assertLess(resource.getrusage(resource.RUSAGE_SELF).ru_maxrss - before, 50_000)  # in KB


class Large(unittest.TestCase):
    """What takes memory for thousands of elements finds it."""

    def test_wheel(self) -> None:
        """A wheel is made of faces and of links, and its hub is given up by each of the two calls that fill a hole."""
        wheel = Dcel.from_faces(range(COUNT + 1), [[0, rim, rim % COUNT + 1] for rim in range(1, COUNT + 1)])
        again = Dcel.from_links(wheel.directed_edges(), range(COUNT + 1), range(COUNT + 1))
        self.assertTrue(again.directed_edges().flat == wheel.directed_edges().flat)
        border = [wheel.next(edge) for edge in reversed(wheel.out_edges(0))]
        edges, faces, new_edges = wheel.isolate_vertex_and_fill_hole(border, 0)
        self.assertEqual((len(edges), len(faces), len(new_edges)), (COUNT, COUNT, COUNT - 3))
        self.assertEqual(len(again.remesh_edge_ring(border, edges, faces).new_edges), COUNT - 3)
        for mesh in (wheel, again):
            mesh.cleanup_isolated_vertex(edges, faces)
            self.assertEqual(mesh.swap_remove_vertex(0), Removed(datum=0, moved=COUNT))
            self.assertEqual(repr(mesh), f"<Dcel: {COUNT} vertices, {2 * COUNT - 3} edges, {COUNT - 1} faces>")

    def test_fan(self) -> None:
        """The vertex at which all triangles of a fan meet is cut off, and a path is left."""
        fan = Dcel.from_faces(range(COUNT + 2), [[0, rim, rim + 1] for rim in range(1, COUNT + 1)])
        out = fan.out_edges(0).tolist()
        outer = next(place for place, edge in enumerate(out) if fan.face(edge) == 0)
        opened = fan.disconnect_edge_strip(fan.next(edge) for edge in out[outer + 1 :] + out[: outer + 1])
        self.assertEqual((len(opened.edges), len(opened.faces)), (COUNT + 1, COUNT))
        fan.cleanup_isolated_vertex(opened.edges, opened.faces)
        self.assertEqual(fan.swap_remove_vertex(0), Removed(datum=0, moved=COUNT + 1))
        self.assertEqual(repr(fan), f"<Dcel: {COUNT + 1} vertices, {COUNT} edges, 1 faces>")

    def test_points(self) -> None:
        """Points are triangulated, and joined from left to right."""
        random.seed(1)
        points = sorted((x, random.randrange(10**6)) for x in random.sample(range(10**6), COUNT))
        joined = ConstrainedDelaunay(points, [(row, row + 1) for row in range(COUNT - 1)])
        for made in (Delaunay(points), joined):
            self.assertEqual(len(made.simplices), 2 * COUNT - 2 - len(made.hull))
        self.assertEqual(len(joined.constraints), COUNT - 1)

    def test_replies(self) -> None:
        self.assertTrue(replies("append 0\n" * COUNT) == "".join(f"vertex {vertex}\n" for vertex in range(COUNT)))
