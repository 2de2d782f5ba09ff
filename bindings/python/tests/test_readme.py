"""What the README and the texts of the module show, and the picture."""

from __future__ import annotations

import doctest
import re
import subprocess
import sys
import unittest
from pathlib import Path
from xml.etree import ElementTree

import dcel
import dcel._constrained
import dcel._delaunay
import dcel._grid
import dcel._lines
import dcel._mesh
import dcel._polygon
import dcel._triangulation

FOLDER = Path(__file__).resolve().parent.parent


class Shown(unittest.TestCase):
    def test_readme(self) -> None:
        text = re.sub(r"^```.*$", "", (FOLDER / "README.md").read_text(), flags=re.M)
        shown = doctest.DocTestParser().get_doctest(text, {}, "README", "README.md", 0)
        failed, tried = doctest.DocTestRunner().run(shown)
        self.assertEqual((failed, tried > 20), (0, True))

    def test_module(self) -> None:
        for name in ("_mesh", "_lines", "_delaunay", "_constrained", "_polygon", "_grid"):
            failed, tried = doctest.testmod(sys.modules[f"dcel.{name}"])
            self.assertEqual((failed, tried > 0), (0, True))
        self.assertTrue(all(it.__doc__ for it in vars(dcel).values() if isinstance(it, type)))
        for kind in (dcel.Dcel, dcel.Delaunay, dcel.ConstrainedDelaunay, dcel._triangulation.Triangulation, dcel.Grid):
            self.assertTrue(all(it.__doc__ for name, it in vars(kind).items() if not name.startswith("_")))

    def test_picture(self) -> None:
        drawn = subprocess.run([sys.executable, FOLDER / "examples/picture.py"], stdout=subprocess.PIPE, text=True, check=True).stdout
        kinds = [it.tag.rpartition("}")[2] for it in ElementTree.fromstring(drawn)]
        self.assertEqual((kinds.count("circle"), kinds.count("line")), (22, 3 * 22 - 6))
