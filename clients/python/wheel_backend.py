"""Builds the wheel and the source distribution of this package: the build backend that pyproject.toml names.

It needs Python's standard library alone, so `pip install` fetches nothing, and it writes the same bytes each time: names in
order, one date (SOURCE_DATE_EPOCH, else 1 January 1980), one owner. Two shared libraries go into the wheel: the client's, and the
server in memory of `dirwolleu.testing`. Each is the file that DIRWOLLEU_LIBRARY or DIRWOLLEU_BENCH names, else the one here (so it
is in a source distribution), else the prebuilt one of the repository.
"""

from __future__ import annotations

import base64
import gzip
import hashlib
import io
import os
import pathlib
import platform
import re
import stat
import sys
import tarfile
import time
import zipfile
from typing import Any, Mapping, NamedTuple, Optional

HERE = pathlib.Path(__file__).resolve().parent
TOP = HERE.parent.parent
TAG = "py3-none-manylinux2014_x86_64"
FIRST_DATE = 315532800  # 1 January 1980, the first that a zip file can have


class Library(NamedTuple):
    """A shared library: its name in the package, the variable that names another file of it, and the folder of the prebuilt one.
    """

    name: str
    variable: str
    prebuilt: pathlib.Path

    def read(self) -> bytes:
        named = os.environ.get(self.variable)
        if named:
            return _read(pathlib.Path(named))
        return _read(HERE / self.name, self.prebuilt / pathlib.PurePosixPath(self.name).name)


LIBRARIES = (
    Library("dirwolleu/libdirwolleu.so", "DIRWOLLEU_LIBRARY", TOP / "prebuilt/x86_64-linux"),
    Library("dirwolleu/testing/libdirwolleu_bench.so", "DIRWOLLEU_BENCH", TOP / "clients/bench/x86_64-linux"),
)

Settings = Optional[Mapping[str, Any]]


def _project() -> str:
    """The text of [project] in pyproject.toml."""
    text = (HERE / "pyproject.toml").read_text(encoding="utf-8")
    return text.split("[project]", 1)[1].split("\n[", 1)[0]


def _field(name: str) -> str:
    """The text of a field of [project]."""
    found = re.search(rf'^{name} = "([^"]*)"$', _project(), re.MULTILINE)
    if found is None:
        raise ValueError(f"pyproject.toml has no text {name} in [project]")
    return found[1]


def _list(name: str) -> list[str]:
    """The texts of a list of [project]."""
    found = re.search(rf"^{name} = \[(.*?)\]$", _project(), re.MULTILINE | re.DOTALL)
    if found is None:
        raise ValueError(f"pyproject.toml has no list {name} in [project]")
    return re.findall(r'"([^"]*)"', found[1])


def _version() -> str:
    return _field("version")


def _read(*places: pathlib.Path) -> bytes:
    """The bytes of the first of these files that is there."""
    for place in places:
        if place.is_file():
            return place.read_bytes()
    raise FileNotFoundError(f"none of these files is there: {', '.join(map(str, places))}")


def _license() -> bytes:
    return _read(HERE / "LICENSE", TOP / "LICENSE")


def metadata() -> bytes:
    """The metadata of the package, as METADATA of a wheel and PKG-INFO of a source distribution have it."""
    lines = [
        "Metadata-Version: 2.4",
        f"Name: {_field('name')}",
        f"Version: {_version()}",
        f"Summary: {_field('description')}",
        f"License-Expression: {_field('license')}",
        *(f"License-File: {file}" for file in _list("license-files")),
        f"Requires-Python: {_field('requires-python')}",
        *(f"Classifier: {classifier}" for classifier in _list("classifiers")),
        "Description-Content-Type: text/markdown",
        "",
        (HERE / "README.md").read_text(encoding="utf-8"),
    ]
    return "\n".join(lines).encode()


def _modules() -> dict[str, bytes]:
    """The sources of the package, by their names."""
    places = [*HERE.glob("dirwolleu/**/*.py"), HERE / "dirwolleu" / "py.typed"]
    return {place.relative_to(HERE).as_posix(): place.read_bytes() for place in places}


def _date() -> int:
    return max(FIRST_DATE, int(os.environ.get("SOURCE_DATE_EPOCH", FIRST_DATE)))


def _record(files: Mapping[str, bytes], name: str) -> bytes:
    """The file RECORD of a wheel: each name with the sum and the length of its bytes."""
    rows = []
    for file, data in sorted(files.items()):
        digest = base64.urlsafe_b64encode(hashlib.sha256(data).digest()).rstrip(b"=").decode()
        rows.append(f"{file},sha256={digest},{len(data)}\n")
    return "".join([*rows, f"{name},,\n"]).encode()


def _mode(name: str) -> int:
    return 0o755 if name.endswith(".so") else 0o644


def _write_zip(path: pathlib.Path, files: Mapping[str, bytes]) -> None:
    date = time.gmtime(_date())[:6]
    with zipfile.ZipFile(path, "w", zipfile.ZIP_DEFLATED) as archive:
        for name, data in sorted(files.items()):
            info = zipfile.ZipInfo(name, date)
            info.compress_type = zipfile.ZIP_DEFLATED
            info.external_attr = (stat.S_IFREG | _mode(name)) << 16
            archive.writestr(info, data)


def _check_machine() -> None:
    """Raises an error that says why if the libraries in the wheel can't run."""
    machine, system = platform.machine(), platform.system()
    if (machine.lower(), system) not in (("x86_64", "Linux"), ("amd64", "Linux")):
        sys.exit(f"dirwolleu runs on Linux on x86-64 alone, and this is {system} on {machine}")


def build_wheel(wheel_directory: str, config_settings: Settings = None, metadata_directory: Optional[str] = None) -> str:
    """Writes the wheel into the folder, and returns its name (PEP 517)."""
    _check_machine()
    information = f"dirwolleu-{_version()}.dist-info"
    wheel = f"Wheel-Version: 1.0\nGenerator: wheel_backend of dirwolleu\nRoot-Is-Purelib: false\nTag: {TAG}\n"
    files = {
        **_modules(),
        **{library.name: library.read() for library in LIBRARIES},
        f"{information}/METADATA": metadata(),
        f"{information}/WHEEL": wheel.encode(),
        f"{information}/licenses/LICENSE": _license(),
    }
    record = f"{information}/RECORD"
    files[record] = _record(files, record)
    name = f"dirwolleu-{_version()}-{TAG}.whl"
    _write_zip(pathlib.Path(wheel_directory) / name, files)
    return name


def build_sdist(sdist_directory: str, config_settings: Settings = None) -> str:
    """Writes the source distribution into the folder, and returns its name (PEP 517)."""
    top = f"dirwolleu-{_version()}"
    files = {
        **_modules(),
        **{library.name: library.read() for library in LIBRARIES},
        "LICENSE": _license(),
        "PKG-INFO": metadata(),
        **{name: (HERE / name).read_bytes() for name in ("README.md", "pyproject.toml", "wheel_backend.py")},
    }
    held = io.BytesIO()
    with tarfile.open(fileobj=held, mode="w", format=tarfile.PAX_FORMAT) as archive:
        for name, data in sorted(files.items()):
            info = tarfile.TarInfo(f"{top}/{name}")
            info.size, info.mtime = len(data), _date()
            info.mode = _mode(name)
            archive.addfile(info, io.BytesIO(data))
    name = f"{top}.tar.gz"
    with open(pathlib.Path(sdist_directory) / name, "wb") as out:
        with gzip.GzipFile("", "wb", fileobj=out, mtime=_date()) as packed:
            packed.write(held.getvalue())
    return name
