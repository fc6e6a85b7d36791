"""The driver as archives: the driver itself, and what takes the place of the thread sanitizer's runtime."""

import os
import shlex
import tempfile
from pathlib import Path

import library
from faults import BenchError
from processes import communicate

DRIVER = library.ROOT / "drive"
ARCHIVES = {"libnuxalder_drive.a": DRIVER, "libnuxalder_turns.a": DRIVER / "turns"}
FLAGS = ["-std=c11", "-O2", "-g", "-fPIC", "-pthread", "-I", str(library.ROOT / "include"), "-I", str(DRIVER)]


def _done(command):
    try:
        status, _, said = communicate(command, b"")
    except FileNotFoundError:
        raise BenchError(f"schedule: there is no `{command[0]}`") from None
    if status:
        raise BenchError(f"schedule: cannot build the driver: {shlex.join(command)}\n{said.decode(errors='replace').strip()}")


def archives():
    """The bytes of each archive by its name, compiled now."""
    compiler = shlex.split(os.environ.get("CC") or "cc")
    made = {}
    for name, folder in ARCHIVES.items():
        with tempfile.TemporaryDirectory() as place:
            objects = []
            for source in sorted(folder.glob("*.c")):
                objects.append(str(Path(place) / f"{source.stem}.o"))
                _done([*compiler, *FLAGS, "-c", str(source), "-o", objects[-1]])
            _done([os.environ.get("AR") or "ar", "rcs", str(Path(place) / name), *objects])
            made[name] = (Path(place) / name).read_bytes()
    return made
