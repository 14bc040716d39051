# SPDX-License-Identifier: Apache-2.0
"""Builds the package for pip (PEP 517 and 660) with nothing but Python.

A wheel takes libcuzhaveli.so.1 beside the modules if it is built: the file that CUZHAVELI_LIBRARY
names, or build/ of the repository, or lib/ of a release. Else it is for any system, and the library
is looked for when it is first called. The same files give the same wheel.
"""

import base64
import hashlib
import io
import os
import pathlib
import re
import tarfile
import zipfile

TOP = pathlib.Path(__file__).resolve().parent.parent
PACKAGE = TOP / "cuzhaveli"
LIBRARY = "libcuzhaveli.so.1"
VERSION = re.search(r'^__version__ = "(.*)"$', (PACKAGE / "__init__.py").read_text(encoding="utf-8"), re.M)[1]
NAME = f"cuzhaveli-{VERSION}"
METADATA = f"""Metadata-Version: 2.1
Name: cuzhaveli
Version: {VERSION}
Summary: A proved Liberation RAID-6 code: encode, check, rebuild with few reads
License: Apache-2.0
Requires-Python: >=3.9
Description-Content-Type: text/markdown

"""


def build_wheel(wheel_directory, config_settings=None, metadata_directory=None):
    files = {path.relative_to(TOP).as_posix(): path.read_bytes() for path in modules()}
    library = built_library()
    if library:
        files[f"cuzhaveli/{LIBRARY}"] = library.read_bytes()
    return write_wheel(wheel_directory, files, "py3-none-linux_x86_64" if library else "py3-none-any")


def build_editable(wheel_directory, config_settings=None, metadata_directory=None):
    return write_wheel(wheel_directory, {"cuzhaveli.pth": f"{TOP}\n".encode()}, "py3-none-any")


def build_sdist(sdist_directory, config_settings=None):
    kept = [TOP / "pyproject.toml", TOP / "README.md", pathlib.Path(__file__).resolve(), *modules()]
    kept += sorted((TOP / "examples").glob("lose_disks.*"))
    files = {path.relative_to(TOP).as_posix(): path.read_bytes() for path in kept}
    files.update(licence())
    files["PKG-INFO"] = described()
    name = f"{NAME}.tar.gz"
    with tarfile.open(pathlib.Path(sdist_directory) / name, "w:gz", format=tarfile.PAX_FORMAT) as archive:
        for path, content in files.items():
            entry = tarfile.TarInfo(f"{NAME}/{path}")
            entry.size = len(content)
            archive.addfile(entry, io.BytesIO(content))
    return name


def described():
    """What the package says of itself."""
    return (METADATA + (TOP / "README.md").read_text(encoding="utf-8")).encode()


def licence():
    """The licence: in the repository and a release a folder above, in a source package beside the others."""
    places = [folder / "LICENSE" for folder in (TOP, TOP.parent)]
    return {"LICENSE": place.read_bytes() for place in places if place.is_file()}


def modules():
    return [path for path in sorted(PACKAGE.rglob("*")) if path.suffix == ".py" or path.name == "py.typed"]


def built_library():
    """The library that goes into a wheel, if there is one."""
    named = os.environ.get("CUZHAVELI_LIBRARY")
    if named and not pathlib.Path(named).is_file():
        raise SystemExit(f"CUZHAVELI_LIBRARY is {named}, which is no file: set it to {LIBRARY}, or unset it")
    places = [pathlib.Path(named)] if named else [TOP.parent / folder / LIBRARY for folder in ("build", "lib")]
    return next((place for place in places if place.is_file()), None)


def write_wheel(folder, files, tag):
    """Writes a wheel of these files and what describes them; gives its name."""
    about = f"{NAME}.dist-info"
    wheel = f"Wheel-Version: 1.0\nGenerator: cuzhaveli_backend\nRoot-Is-Purelib: true\nTag: {tag}\n"
    files = dict(files)
    files[f"{about}/METADATA"] = described()
    files.update((f"{about}/{name}", content) for name, content in licence().items())
    files[f"{about}/WHEEL"] = wheel.encode()
    record = "".join(f"{path},sha256={digest(content)},{len(content)}\n" for path, content in files.items())
    files[f"{about}/RECORD"] = f"{record}{about}/RECORD,,\n".encode()
    name = f"{NAME}-{tag}.whl"
    with zipfile.ZipFile(pathlib.Path(folder) / name, "w", zipfile.ZIP_DEFLATED) as archive:
        for path, content in files.items():
            entry = zipfile.ZipInfo(path, (1980, 1, 1, 0, 0, 0))
            entry.compress_type, entry.external_attr = zipfile.ZIP_DEFLATED, 0o644 << 16
            archive.writestr(entry, content)
    return name


def digest(content):
    return base64.urlsafe_b64encode(hashlib.sha256(content).digest()).rstrip(b"=").decode()
