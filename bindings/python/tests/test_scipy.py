"""Beside scipy: its example and random points, with the same assertions on its triangulations and on ours, and matplotlib's triplot.

It wants NumPy, scipy and matplotlib."""

from __future__ import annotations

import itertools
import unittest
from typing import Any

import matplotlib

matplotlib.use("agg")
import numpy as np
import scipy.spatial
from dcel import ConstrainedDelaunay, Delaunay, Inexact, triangulate_polygon
from matplotlib import pyplot as plt

BOTH = (scipy.spatial.Delaunay, Delaunay)


def triangles(made: Any) -> set[frozenset[int]]:
    return set(map(frozenset, made.simplices.tolist()))


def sets(count: int) -> Any:
    """Random points without four on a circle, of several sizes and places."""
    for seed in range(count):
        rng = np.random.default_rng(seed)
        points = rng.normal(size=(rng.integers(3, 300), 2)) if seed % 2 else rng.random((rng.integers(3, 300), 2))
        yield seed, points * 10.0 ** rng.integers(-6, 7)


class Example(unittest.TestCase):
    """What the documentation of scipy.spatial.Delaunay shows."""

    points = np.array([[0, 0], [0, 1.1], [1, 0], [1, 1]])

    def test_each(self) -> None:
        for kind in BOTH:
            with self.subTest(kind=kind):
                self.example(kind(self.points))

    def example(self, tri: Any) -> None:
        points = self.points
        self.assertEqual((tri.simplices.dtype, tri.simplices.shape, triangles(tri)), (np.int32, (2, 3), {frozenset({2, 3, 0}), frozenset({3, 1, 0})}))
        self.assertEqual(points[tri.simplices].shape, (2, 3, 2))
        self.assertEqual(sorted(tri.neighbors[1].tolist()), [-1, -1, 0])
        self.assertEqual(set(tri.simplices[1]) & set(tri.simplices[0]), {0, 3})
        p = np.array([(0.1, 0.2), (1.5, 0.5), (0.5, 1.05)])
        found = tri.find_simplex(p)
        self.assertEqual((found.dtype, found[0], found[1], found[2]), (np.int32, found[2], -1, found[0]))
        p_valids = np.array([(0.1, 0.2), (0.5, 1.05)])
        np.testing.assert_array_equal(tri.simplices[tri.find_simplex(p_valids)], tri.simplices[[found[0], found[0]]])
        first = found[0]
        b = tri.transform[first, :2].dot(np.transpose(p - tri.transform[first, 2]))
        weights = np.c_[np.transpose(b), 1 - b.sum(axis=0)]
        np.testing.assert_allclose(np.einsum("ij,jk->ik", weights, points[tri.simplices[first]]), p)
        self.assertTrue((weights[[0, 2]] >= 0).all() and (weights[1] < 0).any())

    def test_triplot(self) -> None:
        for kind in BOTH:
            tri = kind(self.points)
            lines, _ = plt.triplot(self.points[:, 0], self.points[:, 1], tri.simplices)
            plt.plot(self.points[:, 0], self.points[:, 1], "o")
            plt.close()
            self.assertEqual(np.isfinite(lines.get_xdata()).sum(), 2 * 5)


class Random(unittest.TestCase):
    def check_lists(self, made: Any, points: Any) -> None:
        """What each list is, of scipy's as of ours."""
        corners, beside = made.simplices, made.neighbors
        self.assertTrue(all(it.dtype == np.int32 for it in (corners, beside, made.convex_hull, made.vertex_to_simplex, made.coplanar)))
        for k in range(3):
            one, other = corners[:, (k + 1) % 3], corners[:, (k + 2) % 3]
            there = beside[:, k] >= 0
            across = corners[beside[there, k]]
            self.assertTrue(((across == one[there, None]).any(axis=1) & (across == other[there, None]).any(axis=1)).all())
            self.assertTrue((beside[beside[there, k]] == np.flatnonzero(there)[:, None]).any(axis=1).all())
        self.assertEqual((beside < 0).sum(), len(made.convex_hull))
        at = made.vertex_to_simplex
        self.assertTrue((corners[at] == np.arange(len(points))[:, None]).any(axis=1).all())
        indptr, indices = made.vertex_neighbor_vertices
        self.assertEqual((len(indptr), indptr[-1]), (len(points) + 1, len(indices)))
        sides = {frozenset(it) for rows in corners.tolist() for it in itertools.combinations(rows, 2)}
        self.assertEqual({frozenset((row, it)) for row in range(len(points)) for it in indices[indptr[row] : indptr[row + 1]].tolist()}, sides)
        np.testing.assert_array_equal(made.points, points)

    def test_same(self) -> None:
        for seed, points in sets(200):
            with self.subTest(seed=seed):
                theirs, ours = scipy.spatial.Delaunay(points), Delaunay(points)
                self.assertEqual(triangles(ours), triangles(theirs))
                self.assertEqual({frozenset(it) for it in ours.convex_hull.tolist()}, {frozenset(it) for it in theirs.convex_hull.tolist()})
                for it in (theirs, ours):
                    self.check_lists(it, points)
                rng = np.random.default_rng(seed)
                xi = rng.uniform(points.min(), points.max(), (2, 50, 2))
                there, here = theirs.find_simplex(xi), ours.find_simplex(xi)
                self.assertEqual((here.shape, here.dtype), (there.shape, there.dtype))
                rows = [np.where(at[..., None] < 0, -1, np.sort(it.simplices)[at]) for it, at in ((ours, here), (theirs, there))]
                np.testing.assert_array_equal(*rows)
                for name in ("ndim", "npoints", "nsimplex", "min_bound", "max_bound"):
                    np.testing.assert_array_equal(getattr(ours, name), getattr(theirs, name))
                self.assertEqual(ours.find_simplex(xi[0, 0]).shape, ())
                xi = np.concatenate([xi, 9 * xi])  # and beyond the grid
                np.testing.assert_array_equal(ours.nearest(xi), scipy.spatial.cKDTree(points).query(xi)[1])
                fine = np.isfinite(ours.transform).all(axis=(1, 2))
                np.testing.assert_allclose(ours.transform[fine][:, 2], points[ours.simplices[fine, 2]])

    def test_coplanar(self) -> None:
        """Equal points are told as scipy does."""
        points = np.array([[0, 0], [0, 1.1], [1, 0], [1, 1], [0, 1.1]])
        for kind in BOTH:
            made = kind(points)
            self.assertEqual(made.coplanar.shape, (1, 3))
            equal, triangle, row = made.coplanar[0].tolist()
            self.assertEqual({equal, row}, {1, 4})
            self.assertIn(row, made.simplices[triangle])
            self.assertIn(row, made.simplices[made.vertex_to_simplex[equal]])

    def test_forms(self) -> None:
        """Any real kind of numbers and any order in memory. In a query whole numbers are of any size."""
        self.assertEqual(Delaunay(self.fine).nearest(np.array([[2**63 - 1, 0], [0, 2**60]])).tolist(), [1, 2])
        points = np.random.default_rng(0).permutation(400)[:60].reshape(30, 2)
        wanted = triangles(Delaunay(points))
        forms = [points.astype(kind) for kind in ("i2", "u4", "i8", "u8", "f2", "f4", "f8", ">i4", ">f8", "longdouble", object)]
        forms += [np.asfortranarray(points), np.repeat(points, 2, axis=1)[:, ::2], points.astype(float)[::-1][::-1], np.ma.masked_array(points)]
        fixed = points.astype(float)
        fixed.flags.writeable = False
        for given in [*forms, fixed, points.tolist(), list(map(tuple, points)), iter(points)]:
            self.assertEqual(triangles(Delaunay(given)), wanted)
        self.assertEqual(len(Delaunay(np.zeros((0, 2))).simplices), 0)

    def test_malformed(self) -> None:
        """What is no array of points is refused, and named."""
        nan, inf = np.array([[0, 0], [1, np.nan]]), np.array([[0, 0], [1, 1], [-np.inf, 0]])
        cases = [(nan, ValueError, "points: row 1 has nan"), (inf, ValueError, "points: row 2 has -inf"), (np.zeros((4, 3)), ValueError, r"\(4, 3\)")]
        cases += [(np.zeros(it), ValueError, r"points: an array of shape \(n, 2\)") for it in ((), (3,), (2, 2, 2), (0, 3))]
        cases += [(np.zeros((2, 2), it), TypeError, "points: coordinates are real") for it in (complex, "U3", "S3", "M8[s]", "m8[s]", "V4")]
        cases += [(np.array([[0, 0], [2**53 + 1, 0]]), ValueError, "row 1"), (np.array([[0, 0], [0, 2**64 - 1]], "u8"), ValueError, "row 1")]
        cases += [(np.array([[0, 0], [None, 1]]), TypeError, "row 1 has None"), (np.array([[0, 0], ["a", 1]], object), TypeError, "row 1 has 'a'")]
        for given, kind, words in cases:
            with self.subTest(given=given), self.assertRaisesRegex(kind, words):
                Delaunay(given)
        made = Delaunay(self.fine)
        with self.assertRaisesRegex(ValueError, "xi: row 1 has nan"):
            made.find_simplex(nan)
        hidden = np.ma.masked_array(self.fine, [[0, 0], [0, 1], [0, 0]])
        for call in (Delaunay, made.insert, made.nearest):
            with self.assertRaisesRegex(ValueError, "row 1 is masked"):
                call(hidden)
        for mask in ([False, False, True], [[False, True]]):
            with self.assertRaises(TypeError):
                made.remove(np.array(mask))
        self.assertEqual((len(made.points), len(made.simplices)), (3, 1))

    def test_wide_floats(self) -> None:
        """With an exact grid what no float is is refused."""
        points = np.array([[0, 0], [4, 1 + np.longdouble(2) ** -60], [0, 3]])
        with self.assertRaisesRegex(Inexact, "row 1"):
            Delaunay(points, grid="exact")
        self.assertEqual(Delaunay(points).points[1, 1], 1.0)

    fine = np.array([[0, 0], [4, 0], [0, 3]])


class Segments(unittest.TestCase):
    """Segments and rings as arrays of NumPy's."""

    points = np.array([[0, 0], [4, 0], [4, 4], [0, 4], [1, 2]])
    segments = np.array([[0, 1], [1, 2], [2, 3], [3, 0], [0, 2]])

    def test_forms(self) -> None:
        wanted = set(map(frozenset, self.segments.tolist()))
        forms = [self.segments.astype(kind) for kind in ("i1", "u1", "i2", "u4", "i8", "u8", ">i4", object)]
        forms += [np.asfortranarray(self.segments), np.repeat(self.segments, 2, axis=1)[:, ::2], np.ma.masked_array(self.segments)]
        for given in forms:
            made = ConstrainedDelaunay(self.points, given)
            self.assertEqual((set(map(frozenset, made.constraints.tolist())), made.constraints.dtype, made.constraints.shape), (wanted, np.int32, (5, 2)))
        self.assertEqual((made.regions.dtype, made.regions.shape, made.inside().dtype, made.inside().all()), (np.int32, (4,), bool, True))
        for none in (np.empty((0, 2)), np.empty(0), np.empty((0, 2), int)):
            added = made.add(none)
            self.assertEqual((added.dtype, added.shape, ConstrainedDelaunay(self.points, none).constraints.shape), (bool, (0,), (0, 2)))

    def test_malformed(self) -> None:
        made = ConstrainedDelaunay(self.points, self.segments)
        hidden = np.ma.masked_array([[0, 1], [1, 2]], [[0, 0], [0, 1]])
        cases = [(hidden, ValueError, "row 1 is masked"), (np.array([[0, 1], [1, 9]]), IndexError, "row 1 has 9"), (np.array([[0, 1], [-1, 0]]), IndexError, "row 1 has -1")]
        cases += [(np.zeros((2, 2), it), TypeError, "row 0 has") for it in (float, bool, complex, "U3", "M8[s]")]
        cases += [(np.zeros(it, int), ValueError, r"an array of shape \(k, 2\)") for it in ((), (3, 3), (2, 2, 2), (0, 3))]
        cases += [(np.zeros(4, int), ValueError, "row 0 is no pair")]
        cases += [(np.array([[0, 1], [2**64 - 1, 0]], "u8"), IndexError, "row 1 has 18446744073709551615"), (np.array([[0, None]]), TypeError, "row 0 has None")]
        for given, kind, words in cases:
            with self.subTest(given=given), self.assertRaisesRegex(kind, f"^segments: .*{words}"):
                made.add(given)
        self.assertEqual(len(made.constraints), 5)

    def test_polygon(self) -> None:
        angles = np.linspace(0, 2 * np.pi, 100, endpoint=False)
        ring = np.stack([np.cos(angles), np.sin(angles)], 1)
        points, triangles = triangulate_polygon(3 * ring, [ring, ring[::-1] / 2], points=2 * ring)
        (ax, ay), (bx, by), (cx, cy) = points[triangles].transpose(1, 2, 0)
        area = ((bx - ax) * (cy - ay) - (by - ay) * (cx - ax)) / 2
        self.assertTrue((area > 0).all())
        np.testing.assert_allclose(area.sum(), (9 - 1 + 1 / 4) * 50 * np.sin(np.pi / 50), rtol=1e-12)
        np.testing.assert_array_equal(points, np.concatenate([3 * ring, ring, ring[::-1] / 2, 2 * ring]))
        self.assertEqual((triangles.dtype, points.dtype, triangles.flags.writeable, points.flags.writeable), (np.int32, np.float64, True, True))


if __name__ == "__main__":
    unittest.main()
