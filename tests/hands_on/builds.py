"""Builds under test, good and faulty ones, as archives and as shared libraries."""

import functools
import shutil
import subprocess

import bench
from checks import OUT, ROOT

FOLDER = OUT / "builds"
FAULTS = ("GOOD", "WRONG", "CRASH", "HANG", "QUIT", "CHATTY", "SCRIBBLE", "LIAR", "LATE", "DEEP", "FULL", "WILD", "ROUND")
SHARED = ("GOOD", "WRONG", "HANG", "QUIT")


def _run(*command):
    subprocess.run([str(word) for word in command], check=True, cwd=FOLDER)


@functools.lru_cache(None)
def make():
    """Makes them all, once; gives the path of each by its name, as wrong.a or wrong.so."""
    shutil.rmtree(FOLDER, ignore_errors=True)
    FOLDER.mkdir(parents=True)
    renamed = [f"--redefine-sym=nuxalder_{name}=own_{name}" for name in ("run", "run_one_writer", "tally", "list", "state", "merge")]
    _run("objcopy", *renamed, bench.library_module.own(), "own.a")
    _run("ld", "-r", "--whole-archive", "own.a", "-o", "own.o")
    compiled = ("cc", "-O1", "-fPIC", "-I", ROOT / "include", "-c", ROOT / "tests" / "hands_on" / "vendor.c")
    for fault in FAULTS:
        name = fault.lower()
        _run(*compiled, f"-DFAULT={fault}", "-o", f"{name}.o")
        _run("ar", "rcs", f"{name}.a", f"{name}.o", "own.o")
        if fault not in SHARED:
            continue
        # The name inside is not the file's, as it is where a build is numbered.
        _run("cc", "-shared", "-Wl,-soname,libvendor.so.7", f"{name}.o", "own.o", "-o", f"{name}.so")
    _run(*compiled, "-DFAULT=GOOD", "-DNO_LIST", "-o", "nolist.o")
    _run("ar", "rcs", "nolist.a", "nolist.o", "own.o")
    _run("cc", "-shared", "own.o", "good.o", "-o", "plain.so")
    return {path.name: path for path in FOLDER.iterdir()}
