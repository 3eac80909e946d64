"""What the trials of contrib/ share: packages of Debian's, and a Debian of their own to run in.

`installed` installs packages where they are missing. `main` runs a trial, here or with `--fresh BASE` in a copy of the Debian in the folder
BASE, which debootstrap makes where it isn't there. Both want to be root. In the copy each folder that the trial names is there by the same
path.
"""
from __future__ import annotations

import contextlib
import os
import shutil
import signal
import subprocess
import sys
import tempfile
import time
from pathlib import Path
from typing import Callable

TOP = Path(__file__).resolve().parent.parent
MIRROR = "http://deb.debian.org/debian"
RELEASE = "bookworm"
QUIET = {"stdout": subprocess.DEVNULL, "stderr": subprocess.DEVNULL}
PATH = "/usr/sbin:/usr/bin:/sbin:/bin:/usr/games"


def installed(*packages: str) -> list[str]:
    """Installs the packages that are missing, and tells each with its version. What can't be installed is told as missing."""
    missing = [it for it in packages if not version_of(it)]
    if missing:
        env = {**os.environ, "DEBIAN_FRONTEND": "noninteractive"}
        subprocess.run(["apt-get", "update"], env=env, **QUIET)
        subprocess.run(["apt-get", "install", "-y", "--no-install-recommends", *missing], env=env, **QUIET)
    return [f"{it} {version_of(it) or 'MISSING'}" for it in packages]


def version_of(package: str) -> str:
    words = ["dpkg-query", "-W", "-f", "${db:Status-Status} ${Version}", package]
    told = subprocess.run(words, stdout=subprocess.PIPE, stderr=subprocess.DEVNULL, text=True).stdout.split()
    return told[1] if told[:1] == ["installed"] else ""


class Trial:
    """Tries, each told in a line; what fails is counted."""

    def __init__(self, name: str) -> None:
        self.name, self.count, self.failed = name, 0, 0

    def tell(self, what: str, wrong: object = None) -> None:
        """One try: `wrong` is what is wrong with it, and nothing where it is well."""
        self.count += 1
        self.failed += bool(wrong)
        print(f"FAILED  {what}: {str(wrong)[:600]}" if wrong else f"ok      {what}", flush=True)

    def same(self, what: str, come: object, wanted: object) -> None:
        """One try: `come` is to be `wanted`. (What came may be nothing, so it isn't told by itself.)"""
        self.tell(what, "" if come == wanted else f"{come!r}, not {wanted!r}")

    def end(self) -> int:
        print(f"{self.name}: {self.count} tries, {self.failed} failed", flush=True)
        return 1 if self.failed else 0


def main(trial: Callable[..., int], usage: str, least: int, most: int) -> None:
    """Runs a trial with the words of the command line, of which there are `least` to `most`."""
    words = sys.argv[1:]
    base = None
    if words[:1] == ["--fresh"] and len(words) > 1:
        base, words = Path(words[1]).resolve(), words[2:]
    if not least <= len(words) <= most:
        sys.exit(usage)
    if base:
        sys.exit(in_fresh(base, [str(Path(it).resolve()) if os.path.exists(it) else it for it in words]))
    os.environ["PATH"] = f"{PATH}:{os.environ['PATH']}"
    sys.exit(trial(*words))


def in_fresh(base: Path, words: list[str]) -> int:
    """Runs this script in a copy of the Debian in a folder."""
    if not (base / "usr/bin/dpkg").is_file():
        subprocess.run(
            ["debootstrap", "--variant=minbase", "--include=python3,ca-certificates,procps", RELEASE, base, MIRROR], check=True, **QUIET
        )
    folder = tempfile.mkdtemp(prefix="fresh-")
    root = Path(folder, "root")
    seen = [TOP, *(Path(it) for it in words if os.path.exists(it))]
    mounted: list[Path] = []
    try:
        subprocess.run(["cp", "-a", base, root], check=True)
        shutil.copy("/etc/resolv.conf", root / "etc/resolv.conf")
        (root / "etc/hosts").write_text("127.0.0.1 localhost\n")
        for source in (Path("/proc"), Path("/dev/pts"), *seen):
            mount(source, root / str(source).lstrip("/"), mounted)
        print(f"in a fresh Debian {(root / 'etc/debian_version').read_text().strip()}", flush=True)
        env = {"PATH": PATH, "HOME": "/root", "LC_ALL": "C.UTF-8", "TERM": "dumb"}
        return subprocess.run(["chroot", root, "python3", "-B", Path(sys.argv[0]).resolve(), *words], env=env).returncode
    finally:
        end_processes(root)
        still = [it for it in reversed(mounted) if subprocess.run(["umount", it]).returncode]
        if still:
            print(f"still mounted: {still}", file=sys.stderr)
        else:
            shutil.rmtree(folder, ignore_errors=True)


def end_processes(root: Path) -> None:
    """Ends what a trial has left running in its Debian."""
    for process in Path("/proc").glob("[0-9]*"):
        with contextlib.suppress(OSError):
            if Path(os.readlink(process / "root")) == root:
                os.kill(int(process.name), signal.SIGKILL)
    time.sleep(0.5)


def mount(source: Path, to: Path, mounted: list[Path]) -> None:
    if source.is_dir():
        to.mkdir(parents=True, exist_ok=True)
    else:
        to.parent.mkdir(parents=True, exist_ok=True)
        to.touch()
    if not any(to == it or it in to.parents for it in mounted):
        subprocess.run(["mount", "--bind", source, to], check=True)
        mounted.append(to)
