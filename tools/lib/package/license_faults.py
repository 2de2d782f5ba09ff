"""Looks whether packages, unpacked, have the licenses that they must have, and whether one that is taken out would be missed."""

import json
import tomllib
from email.parser import Parser
from pathlib import Path
from typing import NamedTuple

from linking import CRATES, ROOT, VERSION
from package import licenses, npm


class Package(NamedTuple):
    """A package: the folder with its licenses, the crates of its binaries, and the file of its metadata, if it has one."""

    name: str
    folder: Path
    crates: list[str]
    metadata: Path | None


def packages(archive, wheel, crate, module, programs):
    """All packages, by where each is unpacked."""
    info = wheel / f"dcel-{VERSION}.dist-info"
    return [
        Package("archive", archive / "share/doc/dcel", [*programs, *CRATES], None),
        Package("wheel", info / "licenses", [*CRATES], info / "METADATA"),
        Package("crate", crate, [*CRATES], crate / "Cargo.toml"),
        Package("package for npm", module, ["mesh_page"], module / "package.json"),
    ]


def expression(metadata):
    """The license that the metadata name, or None."""
    text = metadata.read_text()
    if metadata.suffix == ".toml":
        return tomllib.loads(text)["package"].get("license")
    if metadata.suffix == ".json":
        return json.loads(text).get("license")
    headers = Parser().parsestr(text)
    return headers["License-Expression"] or headers["License"]


def faults(package):
    """What a package lacks."""
    for name, content in licenses.files(package.crates).items():
        file = package.folder / name
        if not file.is_file():
            yield f"the {package.name} has no {name}"
        elif file.read_bytes() != content:
            yield f"{name} in the {package.name} has another text"
    if package.metadata and (said := expression(package.metadata)) != licenses.EXPRESSION:
        yield f"the metadata of the {package.name} name the license {said}, and not {licenses.EXPRESSION}"


def missed(package):
    """Takes each license out of a package, then the line with the license out of its metadata, and puts them back. Yields what isn't found."""
    for name in licenses.files(package.crates):
        file = package.folder / name
        content = file.read_bytes()
        file.unlink()
        found = list(faults(package))
        file.write_bytes(content[:-1])
        found += faults(package)
        file.write_bytes(content)
        if found != [f"the {package.name} has no {name}", f"{name} in the {package.name} has another text"]:
            yield f"nothing misses {name} in the {package.name}"
    if package.metadata:
        text = package.metadata.read_text()
        package.metadata.write_text("".join(it for it in text.splitlines(True) if licenses.EXPRESSION not in it))
        if len(list(faults(package))) != 1:
            yield f"nothing misses the license in the metadata of the {package.name}"
        package.metadata.write_text(text)


def made_up(top, programs):
    """Packages that have licenses and metadata, and nothing else."""
    found = packages(*(top / name for name in ("archive", "wheel", "crate", "npm")), programs)
    for it in found:
        licenses.put(it.folder, it.crates)
    _, wheel, crate, module = (it.metadata for it in found)
    wheel.write_text(f"Metadata-Version: 2.1\nName: dcel\nLicense: {licenses.EXPRESSION}\n\nA text: License: none\n")
    crate.write_text((ROOT / "bindings/rust/Cargo.toml").read_text())
    module.write_text(npm.manifest())
    return found
