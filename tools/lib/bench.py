"""The proved library's answers for a schedule file, by way of the C helper turns.c, and the printed run.

Nothing here carries out a record: rows, listings, counts and refusals are the library's.
"""

import os
from dataclasses import dataclass, field
from pathlib import Path

import asking
import library as library_module
import processes
from faults import BenchError
from text_form import ACTIONS, DEEP, DEPTH_MOST, STATIONS, STOP, VERSION, version_of

ROOT = library_module.ROOT
PROGRAM = Path(os.environ.get("NUXALDER_BENCH") or ROOT / "crates" / "bench" / "out" / "bench")
FILE_MOST = 1 << 18

# What each refusal of a file or a record says, as include/nuxalder.h has it.
REFUSALS = {
    1: "a file under three bytes",
    2: "a version other than 1, 2 and 3, or one that is not taken here",
    3: "a count over 4,096",
    4: "a length other than 3 + 2 * count, in versions 2 and 3 other than 3 + 4 * count",
    5: "a row buffer under 2 * count bytes, in versions 2 and 3 under 7 * count",
    6: "a text buffer under 4,096 bytes, in versions 2 and 3 under 8,192",
    7: "a thread over 3",
    8: "an action over 5, in versions 2 and 3 over 6",
    9: "a start with a station over 63",
    10: "unused bytes that are not 0",
    11: "a start of a busy thread",
    12: "a step of an idle thread",
    13: "a swap that needs more node numbers than are left",
    14: "an insert with a depth over 9,999",
    15: "a range query with an upper end over 63 or below its station",
    16: "a swap that needs a store of a range query, and all 64 are used",
    17: "a thread that is not its file's",
    18: "an output buffer under 3 + 4 * the smaller count bytes",
    19: "a file that would take a field of the tally past 32 bits",
    21: "an event out of place",
    22: "more than 12 operations",
    23: "an operation that is not finished",
    24: "an insert, remove, split or join on threads 1 to 3, or a range query, where only thread 0 writes",
    25: "a state buffer under 48,912 bytes",
}
# What they say of a file of one version, and for versions 2 and 3 what would be right.
OF_VERSION = {
    VERSION: {
        2: "a version other than 1, 2 and 3",
        4: "a length other than 3 + 2 * count",
        8: "an action over 5",
        10: "a step whose second byte is not 0",
        24: "an insert, remove, split or join on threads 1 to 3, where only thread 0 writes",
    },
    DEEP: {
        4: "a length other than 3 + 4 * count: a record of version 2 has four bytes",
        8: "an action over 6",
        10: "unused bytes that are not 0: only an insert has a depth and only a range an upper end, and a step has no station",
        14: f"an insert with a depth over 9,999: a depth is 0 to {DEPTH_MOST} mm",
    },
}
OF_VERSION[STOP] = {
    **OF_VERSION[DEEP],
    2: "version 3, in which searches stop joins; where only thread 0 writes, version 1 and 2 are taken",
    4: "a length other than 3 + 4 * count: a record of version 3 has four bytes",
}
FILE_REFUSALS = (1, 2, 3, 4)  # those of the whole file: no record was looked at

YES = 1
# Why a split or join did nothing, by the answer in its row, as include/nuxalder.h has it.
REASONS = {
    2: {"split": "too few stations", "join": "no parent"},
    3: "base not replaceable",
    4: "swap lost or base gone",
    5: "neighbour not replaceable",
    6: "stood down",
    7: "joins stopped",
}


@dataclass
class Row:
    """A finished operation: its line in the printed run, its answer and, where a split or join did nothing, why; of a range query the
    stations that it found."""

    text: str
    answer: int
    reason: str = ""

    def told(self):
        return f"{self.text} ({self.reason})" if self.reason else self.text


@dataclass
class Turn:
    """The bench after a number of records."""

    number: int
    stored: int
    used: int
    rows: list = field(default_factory=list)  # the rows that are new
    listing: str = ""


@dataclass
class Run:
    """The library's answers for a file: the whole of it and the turns asked for."""

    refusal: int
    whole: Turn
    turns: list


def library():
    """The path of the library that answers: the one named, or the proved one, which is built on first use."""
    return library_module.path()


def helper(name="turns"):
    """The path of a helper, tools/lib/NAME.c linked with the library."""
    return asking.helper(f"{name}.c", library())


def words(refusal, file):
    """What a refusal says of this file."""
    return OF_VERSION[version_of(file)].get(refusal) or REFUSALS.get(refusal, "unknown")


def row_of(thread, action, station, answer, *more):
    """A row as the program prints it; `more` is what a row of versions 2 and 3 has, the depth found and a set."""
    reason = REASONS.get(answer, "")
    if isinstance(reason, dict):
        reason = reason[ACTIONS[action]]
    found = f" {more[0]}" if more and (ACTIONS[action], answer) == ("lookup", YES) else ""
    if ACTIONS[action] == "range":
        reason = "found " + (" ".join(str(s) for s in range(STATIONS) if more[1] >> s & 1) or "none")
    return Row(f"t{thread} {ACTIONS[action]} {station} {'yes' if answer == YES else 'no'}{found}", answer, reason)


def answers(file, first=0, last=None, path=None, limit=None, one_writer=False):
    """The Run of a file with its turns `first` to `last` (the last record carried out if none is given).

    The library at `path` is asked, or the one that `library` finds, for so many seconds at most; for the one-writer run
    where that is wanted."""
    if len(file) >= FILE_MOST:
        raise BenchError(f"the file has {len(file)} bytes, far more than any schedule")
    run, turn = None, None
    last = len(file) if last is None else last
    for word, numbers, text in asking.ask(path or library(), file, first, last, limit, one_writer=one_writer):
        if word == "whole":
            refusal, records, stored, used = numbers
            turn = Turn(records, stored, used)
            run = Run(refusal, turn, [])
        elif word == "turn":
            turn = Turn(*numbers, listing=turn.listing)
            run.turns.append(turn)
        elif word == "row":
            turn.rows.append(row_of(*numbers))
        else:
            turn.listing = text
    return run


def printed_by_library(file, path=None, limit=None, one_writer=False):
    """The printed run of 01, put together from the library's answers for the whole file."""
    run = answers(file, 1, 0, path, limit, one_writer)
    if run.refusal in FILE_REFUSALS:
        return f"records 0 of 0 refusal {run.refusal}\n"
    whole = run.whole
    head = f"records {whole.number} of {int.from_bytes(file[1:3], 'big')} refusal {run.refusal}"
    rows = [row.text for row in whole.rows]
    return "\n".join([head, *rows, f"{whole.listing}stored {whole.stored} used {whole.used}", ""])


def printed_by_program(file):
    """What the proved program prints for a file."""
    try:
        status, out, err = processes.communicate([PROGRAM], file)
    except OSError as error:
        raise BenchError(f"schedule: {PROGRAM}: {error.strerror}") from None
    if status or err:
        raise BenchError(f"schedule: {PROGRAM}: {err.decode(errors='replace').strip() or processes.ended(status)}")
    return out.decode(errors="replace")
