"""Builds the package's wheel with the standard library alone, so that `pip install .` needs no network.

The wheel takes libpostman.so along, from beside the package or from build/ of the repository. Without one it is built
all the same, and the library is found by POSTMAN_LIBRARY.
"""

from __future__ import annotations

import base64
import hashlib
import io
import sysconfig
import tarfile
import tomllib
import zipfile
from pathlib import Path

HERE = Path(__file__).resolve().parent
LIBRARY = "libpostman.so"
PROJECT = tomllib.loads((HERE / "pyproject.toml").read_text("utf-8"))["project"]
STEM = f"{PROJECT['name']}-{PROJECT['version']}"


def _sources() -> list[Path]:
    """The package's files, without what Python or a build left among them."""
    files = (path for path in sorted((HERE / "postman").rglob("*")) if path.is_file())
    return [path for path in files if "__pycache__" not in path.parts and path.name != LIBRARY]


def _library() -> Path | None:
    places = [HERE / "postman" / LIBRARY, *(root / "build" / LIBRARY for root in HERE.parents[1:2])]
    return next((path for path in places if path.is_file()), None)


def _metadata() -> dict[str, str]:
    """The files that describe the wheel."""
    extras = PROJECT.get("optional-dependencies", {})
    fields = [
        ("Metadata-Version", "2.1"),
        ("Name", PROJECT["name"]),
        ("Version", PROJECT["version"]),
        ("Summary", PROJECT["description"]),
        ("Requires-Python", PROJECT["requires-python"]),
        *(("Provides-Extra", extra) for extra in extras),
        *(("Requires-Dist", f'{need}; extra == "{extra}"') for extra, needs in extras.items() for need in needs),
        ("Description-Content-Type", "text/markdown"),
    ]
    text = "".join(f"{name}: {value}\n" for name, value in fields)
    scripts = "".join(f"{name} = {target}\n" for name, target in PROJECT["scripts"].items())
    return {
        "METADATA": text + "\n" + (HERE / PROJECT["readme"]).read_text("utf-8"),
        "WHEEL": f"Wheel-Version: 1.0\nGenerator: postman\nRoot-Is-Purelib: false\nTag: {_tag()}\n",
        "entry_points.txt": f"[console_scripts]\n{scripts}",
    }


def _tag() -> str:
    platform = "any" if _library() is None else sysconfig.get_platform().replace("-", "_").replace(".", "_")
    return f"py3-none-{platform}"


class _Wheel:
    """A wheel that is being written. It ends with a list of its files."""

    def __init__(self, path: Path) -> None:
        self._file = zipfile.ZipFile(path, "w", zipfile.ZIP_DEFLATED)
        self._record: list[str] = []

    def add(self, name: str, data: bytes) -> None:
        digest = base64.urlsafe_b64encode(hashlib.sha256(data).digest()).rstrip(b"=").decode()
        self._record.append(f"{name},sha256={digest},{len(data)}\n")
        self._write(name, data)

    def close(self) -> None:
        record = f"{STEM}.dist-info/RECORD"
        self._write(record, ("".join(self._record) + f"{record},,\n").encode())
        self._file.close()

    def _write(self, name: str, data: bytes) -> None:
        # The same files give the same wheel.
        entry = zipfile.ZipInfo(name, (1980, 1, 1, 0, 0, 0))
        entry.external_attr = 0o100644 << 16
        self._file.writestr(entry, data, zipfile.ZIP_DEFLATED)


def _build(folder: str, files: dict[str, bytes]) -> str:
    name = f"{STEM}-{_tag()}.whl"
    wheel = _Wheel(Path(folder) / name)
    for path, data in files.items():
        wheel.add(path, data)
    for path, text in _metadata().items():
        wheel.add(f"{STEM}.dist-info/{path}", text.encode())
    wheel.close()
    return name


def build_wheel(wheel_directory: str, config_settings: object = None, metadata_directory: object = None) -> str:
    """The package, the library and the man page."""
    files = {path.relative_to(HERE).as_posix(): path.read_bytes() for path in _sources()}
    library = _library()
    if library is not None:
        files[f"postman/{LIBRARY}"] = library.read_bytes()
    for page in sorted((HERE / "man").glob("*.1")):
        files[f"{STEM}.data/data/share/man/man1/{page.name}"] = page.read_bytes()
    return _build(wheel_directory, files)


def build_editable(wheel_directory: str, config_settings: object = None, metadata_directory: object = None) -> str:
    """A path to the package in place."""
    return _build(wheel_directory, {"postman.pth": f"{HERE}\n".encode()})


def build_sdist(sdist_directory: str, config_settings: object = None) -> str:
    """What the wheel is built from."""
    name = f"{STEM}.tar.gz"
    library = _library()
    with tarfile.open(Path(sdist_directory) / name, "w:gz", format=tarfile.PAX_FORMAT) as archive:
        for path in [HERE / "pyproject.toml", HERE / "README.md", Path(__file__).resolve(), *_sources()]:
            archive.add(path, f"{STEM}/{path.relative_to(HERE).as_posix()}")
        for page in sorted((HERE / "man").glob("*.1")):
            archive.add(page, f"{STEM}/man/{page.name}")
        if library is not None:
            archive.add(library.resolve(), f"{STEM}/postman/{LIBRARY}")
        description = _metadata()["METADATA"].encode()
        entry = tarfile.TarInfo(f"{STEM}/PKG-INFO")
        entry.size = len(description)
        archive.addfile(entry, io.BytesIO(description))
    return name
