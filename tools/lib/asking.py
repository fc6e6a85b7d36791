"""Asking a library: C helpers linked with it, and what the helper turns.c hands back for a schedule file.

The library may be an archive, an object or a shared library. It runs in a process of its own, so that a build that
crashes, hangs or ends the process gives an error here.
"""

import hashlib
import os
import re
import shlex
import shutil
import subprocess
from pathlib import Path

import library
from faults import BenchError
from processes import communicate, ended

HERE = Path(__file__).resolve().parent
HEADER = library.ROOT / "include" / "nuxalder.h"
HELPERS = library.ROOT / "target" / "tools"
LINKED = ["-lpthread", "-ldl", "-lm"]
KEPT_HELPERS = 24


class NoAnswer(BenchError):
    """The library gave no whole answer; `parts` has what came before, `reason` why it ended."""

    def __init__(self, reason, parts=()):
        super().__init__(f"schedule: the library gave no answer: {reason}")
        self.reason, self.parts = reason, list(parts)


def _soname(path):
    """The name under which a program that is linked with a shared library looks for it."""
    try:
        told = subprocess.run(["readelf", "-d", path], capture_output=True, text=True).stdout
    except FileNotFoundError:
        return None
    found = re.search(r"\(SONAME\).*\[(.*)\]", told)
    return found[1] if found else None


def _link_words(path, folder):
    """What the compiler gets for the library; a shared one is found again at run time wherever it lies, as a copy: `rt ci` refuses a
    checkout with links."""
    words = [str(path)]
    if library.kind(path) == "shared":
        soname = _soname(path)
        if soname:
            folder.mkdir(parents=True, exist_ok=True)
            shutil.copyfile(path, folder / soname)
            words += [f"-Wl,-rpath,{folder}"]
    return [*words, *LINKED, *shlex.split(os.environ.get("LDLIBS", ""))]


def _prune():
    """Keeps the newest helpers only."""
    made = [path for path in HELPERS.iterdir() if path.is_file()]
    for path in sorted(made, key=lambda path: path.stat().st_mtime)[:-KEPT_HELPERS]:
        path.unlink(missing_ok=True)


def helper(source, path, *defined, beside=(), read=(), words=()):
    """The program of tools/lib/SOURCE, with these names defined, linked with the library at `path`; made anew where one of
    them has other bytes. `beside` are sources compiled with it, `read` headers, `words` more words for the compiler."""
    compiler = shlex.split(os.environ.get("CC") or "cc")
    code = HERE / source
    mark = hashlib.sha256(repr((str(path), compiler, os.environ.get("LDLIBS"), *defined, *words)).encode())
    for part in (code, *beside, *read, HEADER, path):
        mark.update(hashlib.sha256(part.read_bytes()).digest())
    program = HELPERS / f"{code.stem}-{mark.hexdigest()[:16]}"
    if program.exists():
        return program
    HELPERS.mkdir(parents=True, exist_ok=True)
    linked = [*words, *_link_words(path, HELPERS / f"{program.name}.so")]
    made = program.with_name(f"{program.name}.{os.getpid()}")
    sources = [str(code), *map(str, beside)]
    command = [*compiler, "-O2", *(f"-D{name}" for name in defined), "-I", str(HEADER.parent), *sources, *linked, "-o", str(made)]
    try:
        status, _, said = communicate(command, b"")
        if status:
            raise BenchError(f"schedule: cannot link the library: {shlex.join(command)}\n{said.decode(errors='replace').strip()}")
        os.replace(made, program)
        _prune()
    except FileNotFoundError:
        raise BenchError(f"schedule: no C compiler `{compiler[0]}`: the tool needs one to link the library") from None
    finally:
        made.unlink(missing_ok=True)
    return program


def _parts(out):
    """(word, numbers, text) for each whole line of the helper; the last is ('end', [], '') where it came to its end."""
    at = 0
    while (end := out.find(b"\n", at)) >= 0:
        word, *values = out[at:end].decode("ascii", "replace").split() or [""]
        numbers, text, at = [int(value) for value in values], "", end + 1
        if word == "list":
            if at + numbers[0] > len(out):
                return
            text = out[at : at + numbers[0]].decode("ascii", "replace")
            at += numbers[0]
        yield word, numbers, text


def output(program, name, words, file, limit=None):
    """What a helper of this name writes for a file; the last line is `end`, or it gave no whole answer."""
    status, out, err = communicate([program, *words], file, limit)
    if status == 0 and (out == b"end\n" or out.endswith(b"\nend\n")):
        return out
    said = err.decode("utf-8", "replace").strip().splitlines()
    mine = [line.removeprefix(f"{name}: ") for line in said if line.startswith(f"{name}: ")]
    if status is None:
        reason = f"no answer in {limit:g} s"
    elif mine:
        reason = mine[-1]
    elif status == 0:
        reason = "it ended the process before its answer was whole"
    else:
        reason = ended(status) + (f", having said: {said[-1][:200]}" if said else "")
    raise NoAnswer(reason, _parts(out) if name == "turns" else ())


def ask(path, file, first, last, limit=None, scan=False, one_writer=False):
    """The parts that turns.c gives for a file and its turns `first` to `last`, the end left out; of the one-writer run if asked."""
    words = [str(first), str(last), *(["scan"] if scan else [])]
    program = helper("turns.c", path, *(["ONE_WRITER"] if one_writer else []))
    return list(_parts(output(program, "turns", words, file, limit)))[:-1]
