"""The library that answers: the build that the user names, or the repository's own, proved and built on first use."""

import os
import shutil
import sys
from pathlib import Path

import first_use
from faults import BenchError

ROOT = Path(__file__).resolve().parents[2]
CRATE = "nuxalder_c"
OWN = ROOT / "target" / "staticlib" / "libnuxalder.a"
WANTED_KIT = ROOT / "rt-version"

ARCHIVES = (b"!<arch>\n", b"!<thin>\n")
ELF = b"\x7fELF"
ELF_KINDS = {1: "object", 3: "shared"}

_option = None  # the library that the command line names
_said = set()


def name(path):
    """Takes a library from the command line; it goes before NUXALDER_LIB."""
    global _option
    _option = path


def named():
    """The library that the user names and how, or None."""
    if _option is not None:
        return _option, "--library"
    if os.environ.get("NUXALDER_LIB"):
        return os.environ["NUXALDER_LIB"], "NUXALDER_LIB"
    return None


def path():
    """The path of the library to ask. A build that the user names is that one or an error, and is said."""
    given = named()
    if given is None:
        return own()
    word, how = given
    kind(Path(word), how)
    found = Path(word).absolute()
    if found not in _said:
        _said.add(found)
        print(f"schedule: asking {word}, named by {how}", file=sys.stderr, flush=True)
    return found


def kind(file, how="the command"):
    """'archive', 'object' or 'shared'; anything else is no library."""
    try:
        with open(file, "rb") as stream:
            head = stream.read(20)
    except OSError as error:
        raise BenchError(f"schedule: no library {file}, named by {how}: {error.strerror}") from None
    if head[:8] in ARCHIVES:
        return "archive"
    if head[:4] == ELF and len(head) == 20:
        order = "big" if head[5] == 2 else "little"
        found = ELF_KINDS.get(int.from_bytes(head[16:18], order))
        if found:
            return found
    raise BenchError(f"schedule: {file}, named by {how}, is neither an archive nor a shared library")


def wanted_kit():
    """What `rt version` prints for the kit that the repository is proved with."""
    return WANTED_KIT.read_text().strip()


def own():
    """The path of the proved library; it is proved and built where it is missing or older than its sources."""
    whole = first_use.is_whole(ROOT, OWN)
    newer = whole and first_use.newer_source(ROOT, CRATE, OWN)
    if whole and not newer:
        return OWN
    rt = shutil.which("rt")
    if rt:
        why = f"the library is older than {newer.relative_to(ROOT)}" if newer else "the library is not built yet"
        first_use.build(ROOT, CRATE, OWN, rt, why, wanted_kit())
    elif newer:
        if OWN not in _said:
            _said.add(OWN)
            told = f"schedule: {OWN} is older than {newer.relative_to(ROOT)}, and there is no rt to prove it again"
            print(told, file=sys.stderr, flush=True)
    else:
        raise BenchError(
            f"schedule: there is no library {OWN} yet, and no `rt` to prove and build it.\n"
            "`rt` is the command of the Rattle kit, the language, proof checker and compiler that this repository is\n"
            f"written for. It wants the kit whose `rt version` prints\n    {wanted_kit()}\n"
            f"With it on the PATH, try again, or run tools/archive in {ROOT}."
        )
    return OWN
