"""`schedule cover`: which places, which outcomes of each and which refusals a set of schedules reaches, and which it leaves out.

An outcome is what telling.py says of a step. OUTCOMES has all that the places have; NEVER those that no schedule reaches, and why.
"""

from collections import Counter
from pathlib import Path

import bench
import places
import states
import story
from check import ENDS
from faults import Fault
from reading import given
from text_form import STEP, records_of

SEARCH = ["a route", "a base", "a lookup says yes", "a lookup says no"]
SWAP = ["succeeds", "fails"]
FIRST = ["the root, succeeds", "the root, fails", "left", "not left"]
CASES = ["replaceable", "preparing", "decided", "stale", "unset"]
SIDES = [["left", "not left"], ["right", "gone"]]
OWN = ("owner", "helper")


def _both(outcomes):
    return [f"{who}: {outcome}" for who in OWN for outcome in outcomes]


def _swap(first, to=lambda outcomes: outcomes):
    """The outcomes of a swap in four steps."""
    return {first: to(FIRST), first + 1: to(SWAP), first + 2: to(SIDES[1]), first + 3: to(SWAP)}


OUTCOMES = {
    1: SEARCH,
    2: [*SEARCH, "the 8th child", "counted, a route", "counted, a base"],
    3: [
        *(f"{action}: {case}" for action in ("insert", "remove", "split", "join") for case in CASES),
        "split: too few stations",
        "join: no parent",
    ],
    4: SEARCH[:2],
    5: ["goes on", *SEARCH[2:]],
    **_swap(10),
    15: [*CASES, "over"],
    16: SWAP,
    19: ["not stopped", "stopped"],
    20: SIDES[0],
    21: SIDES[1],
    22: SEARCH[:2],
    23: SEARCH[:2],
    24: CASES,
    25: SWAP,
    **_swap(26),
    30: SWAP,
    31: ["the parent", *SEARCH[:2]],
    32: ["the parent", *SEARCH[:2]],
    33: SWAP,
    34: ["the neighbour", "another"],
    35: SWAP,
    36: ["clears"],
    37: ["clears"],
    38: ["aborts", "was aborted"],
    40: _both(["decided", "done"]),
    **_swap(41, _both),
    45: _both(["becomes false", "was false"]),
    46: _both(FIRST),
    47: _both(SWAP),
    48: _both(SIDES[1]),
    49: _both(SWAP),
    50: _both(SWAP),
    51: _both(["stores done", "was done"]),
    60: ["a route", "a base", "a base of its store", "another base"],
    61: ["a route", "a base", "a base of its store", "another base"],
    62: [*CASES, "rides"],
    **_swap(64),
    70: SIDES[0],
    71: SEARCH[:2],
    72: ["turns", "not valid", "key not over"],
    73: SEARCH[:2],
    74: ["set", "a base of its store", "another base"],
    76: CASES,
    **_swap(77),
    81: ["sets it", "was set"],
    82: ["the query ends", "helped, back"],
}

ROOT = ("the root, succeeds", "the root, fails")
# What no schedule reaches, and why.
NEVER = {
    **{(26, outcome): "the base found hangs below the join's parent, so it has a parent" for outcome in ROOT},
    **{(41, outcome): "the neighbour has the parent of the base found" for outcome in _both(ROOT)},
    **{(77, outcome): "a next base with no parent came of a join with one that the query has done, which waits for its result; 74 sees that" for outcome in ROOT},
    (31, "a base"): "a parent that 30 has marked stays in the tree until its join is decided",
    (32, "a base"): "a parent that 30 has marked stays in the tree until its join is decided",
}

# Those that need a version from 2 or 3 on. At 15 an update finds what 3 found replaceable, which stays so; only a query finds more there.
FROM_3 = {(2, outcome) for outcome in OUTCOMES[2][4:]} | {(place, outcome) for place in (4, 5, 19) for outcome in OUTCOMES[place]}
FROM_2 = {
    (place, outcome)
    for place, outcomes in OUTCOMES.items()
    for outcome in outcomes
    if place >= 60 or (place < 26 and outcome.split(": ")[-1] == "unset") or (place == 15 and outcome in ("preparing", "decided", "stale"))
}

# The refusals of files and records, and those of the one-writer run alone.
REFUSALS = (*bench.FILE_REFUSALS, *range(7, 17))
WRITER = 24
REFUSALS_FROM_2 = (14, 15, 16)
VERSIONS = {1: "version 1", 2: "versions 1 and 2"}


def possible():
    """Every outcome that some schedule reaches, in order."""
    return [(place, outcome) for place, outcomes in OUTCOMES.items() for outcome in outcomes if (place, outcome) not in NEVER]


def since(key):
    """The first version in which an outcome, or a refusal by its number, can be reached."""
    return 3 if key in FROM_3 else 2 if key in FROM_2 or key in REFUSALS_FROM_2 else 1


def _version_words(key):
    return {1: "", 2: " (versions 2 and 3)", 3: " (version 3)"}[since(key)]


class Cover:
    """What some schedules reach."""

    def __init__(self):
        self.outcomes, self.refusals, self.files, self.records, self.version = Counter(), Counter(), 0, 0, 0

    def add(self, file, path=None, one_writer=False):
        run = states.run_of(file, path=path, one_writer=one_writer)
        self.files += 1
        self.records += run.records if run.states else 0
        if run.refusal:
            self.refusals[run.refusal, self._place(file, run)] += 1
        if run.states:
            self.version = max(self.version, run.states[0].version)
            for turn in story.turns_of(file, run):
                if turn.told:
                    self.outcomes[turn.told.place, turn.told.outcome] += 1

    @staticmethod
    def _place(file, run):
        """The place of the step that was refused, or 0."""
        if not run.states:
            return 0
        first = records_of(file)[run.records][0]
        return run.states[-1].threads[first >> 4].place if first >> 4 < states.THREADS and first & 15 == STEP else 0

    def left_out(self):
        return [key for key in possible() if not self.outcomes[key]]

    def refusals_left_out(self, one_writer=False):
        reached = {number for number, _ in self.refusals}
        return [number for number in REFUSALS + ((WRITER,) if one_writer else ()) if number not in reached]

    def lines(self, one_writer=False):
        """The report."""
        for place, outcomes in OUTCOMES.items():
            told = [f"{outcome} {self.outcomes[place, outcome]}" for outcome in outcomes if self.outcomes[place, outcome]]
            if told:
                yield f"{place:3}  {places.words(place)}: {', '.join(told)}"
        for number in sorted({number for number, _ in self.refusals}):
            at = [f"at {place} {count}" for (one, place), count in sorted(self.refusals.items()) if one == number and place]
            count = sum(count for (one, _), count in self.refusals.items() if one == number)
            yield f"refusal {number}, {bench.REFUSALS.get(number, 'unknown')}: {count}" + (f" ({', '.join(at)})" if at else "")
        strange = [key for key in self.outcomes if key[1] not in OUTCOMES.get(key[0], ()) or key in NEVER]
        for place, outcome in sorted(strange):
            yield f"STRANGE: {place}, {outcome}: no bench that follows the places comes there"
        for place, outcome in self.left_out():
            yield f"left out: {place} ({places.words(place)}), {outcome}{_version_words((place, outcome))}"
        for number in self.refusals_left_out(one_writer):
            yield f"left out: refusal {number}, {bench.REFUSALS[number]}{_version_words(number)}"
        for (place, outcome), why in NEVER.items():
            yield f"cannot be reached: {place} ({places.words(place)}), {outcome}: {why}"
        if self.version in VERSIONS:
            yield f"{VERSIONS[self.version]} alone: {self._sums(self.version, one_writer)}"
        yield f"{self.files} schedule{'' if self.files == 1 else 's'}, {self.records} records: {self._sums(3, one_writer)}"

    def _sums(self, version, one_writer):
        """How much of what versions up to this one can reach is reached."""
        outcomes = [key for key in possible() if since(key) <= version]
        refusals = [number for number in REFUSALS + ((WRITER,) if one_writer else ()) if since(number) <= version]
        reached, left = [key for key in outcomes if self.outcomes[key]], self.refusals_left_out(one_writer)
        return (
            f"places {len({place for place, _ in reached})} of {len({place for place, _ in outcomes})}, outcomes {len(reached)} of {len(outcomes)},"
            f" refusals {len([number for number in refusals if number not in left])} of {len(refusals)}"
        )


def schedules(names):
    """The schedules that files and folders name."""
    for name in names:
        path = Path(name)
        if path.is_dir():
            inside = sorted(file for file in path.iterdir() if file.suffix in ENDS)
            if not inside:
                raise Fault(f"schedule: no schedule, a file that ends in {' or '.join(ENDS)}, in {name}")
            yield from ((str(file), ENDS[file.suffix]) for file in inside)
        else:
            yield str(name), None


def cover(names, kind=None, one_writer=False, say=lambda text: None):
    """The Cover of all schedules that are named."""
    whole, files = Cover(), list(schedules(names))
    for at, (name, ending) in enumerate(files, 1):
        say(f"{at} of {len(files)}")
        whole.add(given(name, kind or ending).file, one_writer=one_writer)
    return whole
