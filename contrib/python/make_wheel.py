#!/usr/bin/env python3
"""Makes the wheel of the Python package, with the shared library inside.

    make_wheel.py LIBRARY FOLDER [LOCAL]       LIBRARY is lib/libhofsjurd.so.1 of what tools/build_c made; the wheel goes to FOLDER
    HOFSJURD_LIBRARY=LIBRARY pip wheel contrib/python                       the same by pip: this file is the back end of pyproject.toml

The version is the library's own word; LOCAL is put behind it, as in 1.0.0+trial. The tag is manylinux_2_N for the newest version of the
GNU C library that LIBRARY wants, where it wants nothing else; otherwise it is linux. Every time in the wheel is SOURCE_DATE_EPOCH, so two
that are made of the same files are the same byte for byte. It wants Python 3.11 and no other package.
"""
from __future__ import annotations

import base64
import ctypes
import hashlib
import os
import re
import stat
import sys
import time
import tomllib
import zipfile
from pathlib import Path
from typing import Any, Optional

HERE = Path(__file__).resolve().parent
LIBRARY = "hofsjurd/libhofsjurd.so.1"
# what any Linux with the GNU C library has
SYSTEM = {b"libc.so.6", b"libpthread.so.0", b"libhofsjurd.so.1"}


def version_of(library: Path) -> str:
    room = ctypes.create_string_buffer(96)
    ctypes.CDLL(str(library)).hofsjurd_version(room, ctypes.c_size_t(len(room)))
    return room.value.decode().split()[1]


def tag_of(library: Path) -> str:
    """The platform's tag, by the names that the library wants."""
    content = library.read_bytes()
    versions = [(int(major), int(minor)) for major, minor in re.findall(rb"\0GLIBC_(\d+)\.(\d+)", content)]
    wanted = set(re.findall(rb"\0(lib[\w+-]+\.so[.\d]*)(?=\0)", content))
    if not versions or not wanted <= SYSTEM:
        return "py3-none-linux_x86_64"
    major, minor = max(versions)
    return f"py3-none-manylinux_{major}_{minor}_x86_64"


def metadata_of(project: dict[str, Any], version: str) -> str:
    lines = [
        "Metadata-Version: 2.1",
        f"Name: {project['name']}",
        f"Version: {version}",
        f"Summary: {project['description']}",
        f"Requires-Python: {project['requires-python']}",
        "Description-Content-Type: text/markdown",
        "",
        (HERE / project["readme"]).read_text(),
    ]
    return "\n".join(lines)


def files_of(library: Path) -> dict[str, bytes]:
    """The files that are installed, but for those about them."""
    files = {f"hofsjurd/{it.name}": it.read_bytes() for it in (HERE / "hofsjurd").iterdir() if it.suffix == ".py" or it.name == "py.typed"}
    # (beside this folder in the repository)
    wrapper = HERE.parent / "hofsjurd_uci.py"
    return {**files, wrapper.name: wrapper.read_bytes(), LIBRARY: library.read_bytes()}


def about(project: dict[str, Any], version: str, tag: str) -> dict[str, bytes]:
    """The files about a wheel, but for its record."""
    scripts = "".join(f"{name} = {call}\n" for name, call in project["scripts"].items())
    wheel = f"Wheel-Version: 1.0\nGenerator: make_wheel\nRoot-Is-Purelib: false\nTag: {tag}\n"
    texts = {"METADATA": metadata_of(project, version), "WHEEL": wheel, "entry_points.txt": f"[console_scripts]\n{scripts}"}
    return {f"{project['name']}-{version}.dist-info/{name}": text.encode() for name, text in texts.items()}


def record_of(files: dict[str, bytes], name: str) -> bytes:
    lines = []
    for path, content in files.items():
        digest = base64.urlsafe_b64encode(hashlib.sha256(content).digest()).rstrip(b"=").decode()
        lines.append(f"{path},sha256={digest},{len(content)}\n")
    return "".join([*lines, f"{name},,\n"]).encode()


def write(path: Path, files: dict[str, bytes]) -> None:
    seconds = max(int(os.environ.get("SOURCE_DATE_EPOCH", 0)), 315532800)  # (a zip file begins with 1980)
    date = time.gmtime(seconds)[:6]
    with zipfile.ZipFile(path, "w") as wheel:
        for name, content in files.items():
            entry = zipfile.ZipInfo(name, date)
            entry.compress_type = zipfile.ZIP_DEFLATED
            entry.external_attr = (stat.S_IFREG | (0o755 if name == LIBRARY else 0o644)) << 16
            wheel.writestr(entry, content)


def make(library: Path, folder: Path, local: str = "") -> Path:
    """Makes the wheel and tells its path."""
    project = tomllib.loads((HERE / "pyproject.toml").read_text())["project"]
    version = version_of(library) + (f"+{local}" if local else "")
    tag = tag_of(library)
    files = dict(sorted(files_of(library).items()))
    files.update(about(project, version, tag))
    record = f"{project['name']}-{version}.dist-info/RECORD"
    files[record] = record_of(files, record)
    path = folder / f"{project['name']}-{version}-{tag}.whl"
    write(path, files)
    return path


def get_requires_for_build_wheel(config_settings: Optional[dict[str, Any]] = None) -> list[str]:
    return []


def build_wheel(wheel_directory: str, config_settings: Optional[dict[str, Any]] = None, metadata_directory: Optional[str] = None) -> str:
    """What pip calls."""
    library = os.environ.get("HOFSJURD_LIBRARY")
    if not library:
        raise SystemExit("make_wheel: HOFSJURD_LIBRARY is to be lib/libhofsjurd.so.1 of what tools/build_c made")
    return make(Path(library).resolve(), Path(wheel_directory)).name


if __name__ == "__main__":
    if not 3 <= len(sys.argv) <= 4:
        sys.exit(__doc__)
    print(make(Path(sys.argv[1]).resolve(), Path(sys.argv[2]), *sys.argv[3:]))
