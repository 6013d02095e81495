"""Builds the package `cfdp`: the few functions that pip asks for, so that no other package and no network is needed.

A wheel has the files of the folder `cfdp`. Lies a `libcfdp.so.0` there, it goes with them, and the wheel is for this platform alone.
"""
from __future__ import annotations

import base64
import hashlib
import pathlib
import re
import sysconfig
import tarfile
import zipfile

FOLDER = pathlib.Path(__file__).resolve().parent
PACKAGE = FOLDER / "cfdp"
LIBRARY = PACKAGE / "libcfdp.so.0"
DESCRIPTION = "A CFDP entity (CCSDS 727.0-B-5) for programs and test benches, over the proved library libcfdp"


def _version() -> str:
    found = re.search(r'^__version__ = "([^"]+)"$', (PACKAGE / "__init__.py").read_text(encoding="utf-8"), re.MULTILINE)
    if found is None:
        raise RuntimeError("cfdp/__init__.py has no __version__")
    return found[1]


def _metadata() -> str:
    return f"Metadata-Version: 2.1\nName: cfdp\nVersion: {_version()}\nSummary: {DESCRIPTION}\nRequires-Python: >=3.10\n"


def _tag() -> str:
    return re.sub(r"[-.]", "_", sysconfig.get_platform()) if LIBRARY.exists() else "any"


def _files() -> dict[str, bytes]:
    """The files of the package, by their places in a wheel."""
    wanted = [*sorted(PACKAGE.glob("*.py")), PACKAGE / "py.typed", *([LIBRARY] if LIBRARY.exists() else [])]
    return {f"cfdp/{path.name}": path.read_bytes() for path in wanted}


def _wheel(folder: str, files: dict[str, bytes]) -> str:
    """Writes a wheel of these files into a folder; its name."""
    about = f"cfdp-{_version()}.dist-info"
    kind = f"Wheel-Version: 1.0\nGenerator: cfdp\nRoot-Is-Purelib: {str(not LIBRARY.exists()).lower()}\nTag: py3-none-{_tag()}\n"
    files = {**files, f"{about}/METADATA": _metadata().encode(), f"{about}/WHEEL": kind.encode()}
    rows = []
    for place, octets in files.items():
        digest = base64.urlsafe_b64encode(hashlib.sha256(octets).digest()).rstrip(b"=").decode("ascii")
        rows.append(f"{place},sha256={digest},{len(octets)}\n")
    files[f"{about}/RECORD"] = ("".join(rows) + f"{about}/RECORD,,\n").encode()
    name = f"cfdp-{_version()}-py3-none-{_tag()}.whl"
    with zipfile.ZipFile(pathlib.Path(folder, name), "w", zipfile.ZIP_DEFLATED) as wheel:
        for place, octets in files.items():
            wheel.writestr(zipfile.ZipInfo(place), octets, zipfile.ZIP_DEFLATED)
    return name


# ---- what pip calls


def build_wheel(wheel_directory: str, config_settings: object = None, metadata_directory: object = None) -> str:
    return _wheel(wheel_directory, _files())


def build_editable(wheel_directory: str, config_settings: object = None, metadata_directory: object = None) -> str:
    """A wheel that leads to this checkout."""
    return _wheel(wheel_directory, {"cfdp.pth": f"{FOLDER}\n".encode()})


def build_sdist(sdist_directory: str, config_settings: object = None) -> str:
    head = f"cfdp-{_version()}"
    with tarfile.open(pathlib.Path(sdist_directory, f"{head}.tar.gz"), "w:gz") as archive:
        for place in ("pyproject.toml", "building.py", *_files()):
            archive.add(FOLDER / place, f"{head}/{place}")
        about = pathlib.Path(sdist_directory, "PKG-INFO")
        about.write_text(_metadata(), encoding="utf-8")
        archive.add(about, f"{head}/PKG-INFO")
        about.unlink()
    return f"{head}.tar.gz"
