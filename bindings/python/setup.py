"""Puts the shared library that tools/build_static made, or the one in the folder DCEL_LIB_DIR, into a wheel for any Python 3, with the
licenses, and leaves nothing beside the sources."""

import os
import shutil
import sys
import tempfile
from pathlib import Path

from setuptools import Distribution, setup
from setuptools.command.build_py import build_py
from wheel.bdist_wheel import bdist_wheel

FOLDER = Path(__file__).resolve().parent
ROOT = FOLDER.parents[1]
LIBRARY = Path(os.environ.get("DCEL_LIB_DIR") or ROOT / "crates/dcel_c/out") / "libdcel.so"
# Those of the project, and a folder that tools/package makes, with those of what the library contains.
LICENSES = [ROOT / "LICENSE-APACHE", ROOT / "LICENSE-MIT", ROOT / "NOTICE", LIBRARY.with_name("licenses")]
sys.dont_write_bytecode = True
sys.path.insert(0, str(ROOT / "tools/lib"))
import linking  # noqa: E402


class WithLibrary(build_py):
    def run(self):
        super().run()
        for file in (LIBRARY, LIBRARY.with_name("BUILD")):
            if file.is_file():
                self.copy_file(str(file), os.path.join(self.build_lib, "dcel"))


class OfMachine(Distribution):
    def has_ext_modules(self):
        return True


class ForAnyPython(bdist_wheel):
    def get_tag(self):
        return "py3", "none", linking.platform_tag(LIBRARY)

    def egg2dist(self, egginfo_path, distinfo_path):
        super().egg2dist(egginfo_path, distinfo_path)
        folder = Path(distinfo_path) / "licenses"
        folder.mkdir()
        for it in LICENSES:
            if it.is_dir():
                shutil.copytree(it, folder / it.name, copy_function=shutil.copyfile)
            elif it.is_file():
                shutil.copyfile(it, folder / it.name)


if not LIBRARY.is_file():
    sys.exit(f"{LIBRARY} isn't there: tools/build_static dcel_c proves and builds it")
work = tempfile.mkdtemp()
setup(
    version=linking.VERSION,
    long_description=linking.plain(FOLDER / "README.md"),
    long_description_content_type="text/markdown",
    distclass=OfMachine,
    cmdclass={"build_py": WithLibrary, "bdist_wheel": ForAnyPython},
    options={"build": {"build_base": work}, "egg_info": {"egg_base": work}},
)
