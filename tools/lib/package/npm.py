"""What the package for npm has besides the module and the page."""

import json

import linking
from package import licenses

FILES = ["mesh.d.ts", "mesh.html", "mesh.js", "mesh.wasm"]
README = """\
# dcel: a half-edge mesh for JavaScript

Answers lines about a mesh, draws it, and computes Delaunay triangulations, in a WebAssembly module in which every function is proved. What is drawn
is only tested. `mesh.d.ts` has the types; `mesh.html` is a page that edits and draws meshes in a browser.

```js
{example}```

`new Mesh(lines)` is a mesh that is kept: `run(lines)` has it do what lines say and returns the replies, `picture()` draws it, and `free()` gives
its memory back. `new Delaunay(coords)` has `triangles`, `halfedges` and `hull` as typed arrays, under delaunator's names. It is kept, too: points
are inserted, moved and removed, `nearest(x, y)` finds one. `new ConstrainedDelaunay(coords, edges)` is one with edges that
stay: `constraints`, `addConstraint(a, b)`, `removeConstraint(a, b)`. The other calls keep nothing.

The engine must support WebAssembly memories with 64-bit addresses, or a call throws an error that says so. Node does from 24 on, and Node 20
with `--experimental-wasm-memory64`; Chrome, Chromium and Edge do from 133 on, Firefox from 134 on, and Safari, as far as known, doesn't.

Licensed under MIT or Apache-2.0, as you choose.
"""


def manifest():
    """package.json."""
    said = {
        "name": "dcel",
        "version": linking.VERSION,
        "description": "A half-edge mesh on the sphere, over a proved module",
        "license": licenses.EXPRESSION,
        "type": "module",
        "exports": {".": {"types": "./mesh.d.ts", "default": "./mesh.js"}, "./mesh.wasm": "./mesh.wasm"},
        "files": [*FILES, "BUILD", *licenses.OWN, "licenses"],
        "private": True,
    }
    return json.dumps(said, indent=2) + "\n"


def readme():
    example = (linking.ROOT / "page/example.mjs").read_text()
    return README.format(example=example.replace("./mesh.js", "dcel"))
