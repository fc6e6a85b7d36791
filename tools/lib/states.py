"""The library's states of a run, turn by turn, by way of the C helper states.c. docs/STATE.md has the layout.

Nothing here carries out a record: every state is one that nuxalder_state wrote.
"""

from dataclasses import dataclass
from typing import NamedTuple

import asking
import bench
import library
from faults import BenchError
from text_form import ACTIONS, STATIONS

LAYOUT = 1
HEAD, THREAD_HEAD, FRAME, NODE, STORE = 16, 32, 196, 176, 9
THREADS, FRAMES, STACK = 4, 4, 86
KINDS = ("normal", "route", "main", "neighbour", "range")
STAGES = ("", "preparing", "decided", "aborted", "done")


def _link(part, at):
    return part[at + 1] if part[at] else None


def stations(word):
    """The stations of a set."""
    return [station for station in range(STATIONS) if word >> station & 1]


class Frame(NamedTuple):
    """A run of a range query, or of helping one; the stacks have their top first."""

    lower: int
    upper: int
    store: int
    base: int
    popped: int
    key: int
    begun: bool
    done: int
    stack: tuple
    backup: tuple

    @classmethod
    def of(cls, part):
        return cls(
            part[0], part[1], _link(part, 2), _link(part, 4), _link(part, 6), _link(part, 8), bool(part[10]),
            int.from_bytes(part[16:24], "big"), tuple(part[24 : 24 + part[11]]), tuple(part[24 + STACK : 24 + STACK + part[12]]),
        )


class Thread(NamedTuple):
    """A thread: place 0 where it is idle; a note that is not shown at its place is None, or 0."""

    place: int
    action: int
    station: int
    extra: int
    read: int
    side: int
    own: bool
    route: int
    base: int
    parent: int
    found: int
    neighbour: int
    main: int
    grandparent: int
    other: int
    frames: tuple

    @classmethod
    def of(cls, part):
        part = part.ljust(THREAD_HEAD + FRAMES * FRAME, b"\0")
        links = (_link(part, at) for at in range(8, 24, 2))
        frames = (part[THREAD_HEAD + FRAME * at :][:FRAME] for at in range(min(part[24], FRAMES)))
        return cls(
            part[0], part[1], part[2], int.from_bytes(part[3:5], "big"), part[5], part[6], bool(part[7]), *links,
            tuple(Frame.of(frame) for frame in frames),
        )

    def operation(self):
        """The operation in words, as in the text form."""
        word = ACTIONS[self.action] if self.action < len(ACTIONS) else "?"
        return f"{word} {self.station}" + (f" {self.extra}" if word == "range" else "")


class Node(NamedTuple):
    """A node; what its kind has not is None, or 0. A side is "left" or "right"."""

    number: int
    kind: str
    reachable: bool
    range: int
    key: int
    left: int
    right: int
    valid: bool
    mark: int
    parent: int
    container: int
    stage: str
    union: int
    neighbour: int
    grandparent: int
    other: int
    main: int
    lower: int
    upper: int
    store: int
    depths: tuple  # of the stations of its container, in order

    @classmethod
    def of(cls, number, part):
        whole = part.ljust(NODE, b"\0")
        if whole[0] >= len(KINDS) or whole[26] >= len(STAGES):
            raise BenchError(f"schedule: node {number} of a state has a kind or a stage that is none")
        container = int.from_bytes(whole[18:26], "big")
        depths = tuple(int.from_bytes(whole[48 + 2 * station : 50 + 2 * station], "big") for station in stations(container))
        return cls(
            number, KINDS[whole[0]], bool(whole[1]), int.from_bytes(whole[2:10], "big"), whole[10], whole[11], whole[12], bool(whole[13]),
            _link(whole, 14), _link(whole, 16), container, STAGES[whole[26]], _link(whole, 28), _link(whole, 30), _link(whole, 32),
            _link(whole, 34), _link(whole, 36), whole[38], whole[39], _link(whole, 40), depths,
        )

    def child(self, side):
        return getattr(self, side)

    def name(self):
        return f"{'range base' if self.kind == 'range' else self.kind} {self.number}"


class State(NamedTuple):
    """The bench after `turn` records."""

    turn: int
    version: int
    root: int
    used: int
    shown: int
    stop: bool
    count: int
    threads: tuple
    nodes: tuple
    stores: tuple  # results, None while unset

    def deep(self):
        return self.version > 1


@dataclass
class Run:
    """The library's run of a file: how it ended, its rows in order, and the states of the turns asked for."""

    refusal: int
    records: int
    rows: list
    states: list


def _grown(parts, changes, make):
    """A tuple with some entries replaced or added."""
    if not changes:
        return parts
    parts = list(parts)
    for number, part in changes:
        made = make(number, part)
        if number < len(parts):
            parts[number] = made
        else:
            parts.append(made)
    return tuple(parts)


def _state(turn, before, changes):
    """The state that comes after `before` with these parts changed."""
    head = changes["head"][0][1].ljust(HEAD, b"\0")
    return State(
        turn, head[1], head[5], int.from_bytes(head[6:8], "big"), head[8], bool(head[9]), head[10],
        _grown(before.threads if before else (), changes["thread"], lambda _, part: Thread.of(part)),
        _grown(before.nodes if before else (), changes["node"], Node.of),
        _grown(before.stores if before else (), changes["store"], lambda _, part: int.from_bytes(part.ljust(STORE, b"\0")[1:], "big") if part else None),
    )


def _lines(out):
    """(word, values) of each line of the helper."""
    for line in out.decode("ascii", "replace").splitlines():
        word, *values = line.split(" ")
        yield word, values


def run_of(file, first=0, last=None, path=None, limit=None, one_writer=False):
    """The Run of a file with the states of its turns `first` to `last`, up to the last record carried out."""
    if len(file) >= bench.FILE_MOST:
        raise BenchError(f"the file has {len(file)} bytes, far more than any schedule")
    last = len(file) if last is None else last
    program = asking.helper("states.c", path or library.path(), *(["ONE_WRITER"] if one_writer else []))
    out = asking.output(program, "states", [str(first), str(last)], file, limit)
    run, state, turn, changes = None, None, None, None
    for word, values in _lines(out):
        if word in ("turn", "end"):
            if turn is not None:
                state = _state(turn, state, changes)
                run.states.append(state)
            turn = int(values[0]) if values else None
            changes = {"head": [], "thread": [], "node": [], "store": []}
        elif word == "whole":
            run = Run(int(values[0]), int(values[1]), [], [])
        elif word == "row":
            run.rows.append(bench.row_of(*map(int, values)))
        else:
            changes[word].append((int(values[0]) if len(values) > 1 else 0, bytes.fromhex(values[-1])))
    return run
