"""Makes the package for pip out of the standard library alone, so that no network is needed.

A wheel is a zip of the files with a list of their sums. It carries the library where 'make lib' has made one, and is then
for this platform alone; without one it is for any, and finds the system's. An editable one holds the path of this directory.
"""

from __future__ import annotations

import base64
import hashlib
import io
import re
import sysconfig
import tarfile
import zipfile
from pathlib import Path

HERE = Path(__file__).resolve().parent
LIBRARY = HERE.parent / "target" / "lib" / "libbahrufaz.so"
_PROJECT = (HERE / "pyproject.toml").read_text(encoding="utf-8")


def _setting(name: str, text: str = _PROJECT) -> str:
    """A setting that is one line of text."""
    found = re.search(rf'^{re.escape(name)} = "(.*)"$', text, re.MULTILINE)
    if not found:
        raise ValueError(f"no {name} is set")
    return found[1]


NAME = _setting("name")
VERSION = _setting("__version__", (HERE / NAME / "__init__.py").read_text(encoding="utf-8"))
_INFO = f"{NAME}-{VERSION}.dist-info"


def _metadata() -> str:
    return (
        f"Metadata-Version: 2.1\nName: {NAME}\nVersion: {VERSION}\n"
        f"Summary: {_setting('description')}\nRequires-Python: {_setting('requires-python')}\n"
    )


def _sources() -> dict[str, bytes]:
    """The files of the package."""
    found = [path for path in sorted((HERE / NAME).rglob("*")) if path.is_file() and "__pycache__" not in path.parts]
    return {path.relative_to(HERE).as_posix(): path.read_bytes() for path in found}


def _wheel(directory: str, files: dict[str, bytes], platform: str = "any") -> str:
    tag, pure = f"py3-none-{platform}", str(platform == "any").lower()
    files = {
        **files,
        f"{_INFO}/METADATA": _metadata().encode(),
        f"{_INFO}/WHEEL": f"Wheel-Version: 1.0\nGenerator: backend\nRoot-Is-Purelib: {pure}\nTag: {tag}\n".encode(),
        f"{_INFO}/entry_points.txt": f"[console_scripts]\n{NAME} = {_setting(NAME)}\n".encode(),
    }
    record = "".join(f"{name},sha256={_sum(data)},{len(data)}\n" for name, data in files.items())
    wheel = f"{NAME}-{VERSION}-{tag}.whl"
    with zipfile.ZipFile(Path(directory) / wheel, "w", zipfile.ZIP_DEFLATED) as archive:
        for name, data in [*files.items(), (f"{_INFO}/RECORD", f"{record}{_INFO}/RECORD,,\n".encode())]:
            archive.writestr(name, data)
    return wheel


def _sum(data: bytes) -> str:
    return base64.urlsafe_b64encode(hashlib.sha256(data).digest()).rstrip(b"=").decode()


def build_wheel(wheel_directory, config_settings=None, metadata_directory=None):  # the names are pip's
    if not LIBRARY.exists():
        return _wheel(wheel_directory, _sources())
    platform = re.sub(r"[^a-zA-Z0-9]", "_", sysconfig.get_platform())
    return _wheel(wheel_directory, {**_sources(), f"{NAME}/{LIBRARY.name}": LIBRARY.read_bytes()}, platform)


def build_editable(wheel_directory, config_settings=None, metadata_directory=None):
    return _wheel(wheel_directory, {f"{NAME}.pth": f"{HERE}\n".encode()})


def build_sdist(sdist_directory, config_settings=None):
    top, name = f"{NAME}-{VERSION}", f"{NAME}-{VERSION}.tar.gz"
    files = {
        **_sources(),
        "pyproject.toml": _PROJECT.encode(),
        "backend.py": Path(__file__).read_bytes(),
        "PKG-INFO": _metadata().encode(),
    }
    with tarfile.open(Path(sdist_directory) / name, "w:gz") as archive:
        for path, data in files.items():
            entry = tarfile.TarInfo(f"{top}/{path}")
            entry.size = len(data)
            archive.addfile(entry, io.BytesIO(data))
    return name
