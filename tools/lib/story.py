"""A run told turn by turn: what each record did, worked out from the states before and after it, and the row that it finished."""

import difflib
import json
from dataclasses import dataclass

import bench
import places
import states
import telling
from text_form import ACTIONS, INSERT, RANGE, STEP, record_text, records_of

MARGIN = " " * 11
# The notes of a thread that are nodes, and how they are said.
NOTES = ("route", "base", "parent", "found", "neighbour", "main", "grandparent", "other")


@dataclass
class Deed:
    """A record carried out: its thread, the operation open at it and how many own steps that has taken."""

    thread: int
    operation: str
    own_steps: int


def deeds_of(records):
    """The deeds of accepted records: all that is used is that an accepted start opens its thread's operation."""
    operation, steps, deeds = {}, {}, []
    for first, second, *more in records:
        thread, action = first >> 4, first & 15
        if action == STEP:
            steps[thread] += 1
        else:
            extra = f" {int.from_bytes(bytes(more), 'big')}" if more and action in (INSERT, RANGE) else ""
            operation[thread], steps[thread] = f"{ACTIONS[action]} {second}{extra}", 0
        deeds.append(Deed(thread, operation[thread], steps[thread]))
    return deeds


@dataclass
class Turn:
    """A record carried out: its number from 1, its deed, what its step did (None for a start), where its thread goes, and its row."""

    number: int
    record: str
    deed: Deed
    told: telling.Told
    goes: int
    row: bench.Row

    def text(self):
        """What was done, from the thread on."""
        deed, told = self.deed, self.told
        if told is None:
            return f"t{deed.thread} starts {deed.operation}; goes to {self.goes}"
        end = f"row: {self.row.told()}" if self.row else f"goes to {self.goes}"
        return f"t{deed.thread} at {told.place} ({places.words(told.place)}), {deed.operation}, own step {deed.own_steps}: {told.text}; {end}"

    def fields(self):
        """The same for programs."""
        deed, told = self.deed, self.told
        fields = {"turn": self.number, "record": self.record, "thread": deed.thread, "operation": deed.operation, "own_step": deed.own_steps}
        if told is None:
            fields["place"] = None
        else:
            fields.update(
                place=told.place, place_words=places.words(told.place), outcome=told.outcome, reads=told.reads, writes=told.writes,
                helps=told.helps, kills=told.kills, told=told.text,
            )
        fields["goes_to"] = self.goes
        fields["row"] = self.row and {"text": self.row.text, "answer": self.row.answer, "reason": self.row.reason}
        return fields


def turns_of(file, run):
    """The turns of a run whose states begin at its first, and of which there is one more than turns."""
    first = run.states[0].turn
    records = records_of(file)
    deeds = deeds_of(records[: run.records])
    finished = sum(1 for _ in _finishes(file, run, first)) if first else 0
    rows = iter(run.rows[finished:])
    for before, after in zip(run.states, run.states[1:]):
        deed = deeds[after.turn - 1]
        try:
            told = telling.step(before, after, deed.thread) if deed.own_steps else None
        except (AttributeError, IndexError, KeyError, RecursionError, TypeError, ValueError):
            raise bench.BenchError(f"schedule: turn {after.turn}: the states before and after it fit no step of the places") from None
        goes = after.threads[deed.thread].place
        row = next(rows, None) if told and goes == 0 else None
        yield Turn(after.turn, record_text(*records[after.turn - 1]), deed, told, goes, row)


def _finishes(file, run, last):
    """The rows that are finished after `last` records: as many as starts, less the operations then open."""
    starts = sum(1 for first, *_ in records_of(file)[:last] if first & 15 != STEP)
    return range(starts - sum(1 for thread in run.states[0].threads if thread.place))


def refusal_text(refusal, file):
    return f"refused {refusal}: {bench.words(refusal, file)}"


def _head(number, text):
    return f"turn {number:<4}  {text}"


def _refused_text(file, run, records, last):
    """The line of the record that ended the run; `last` is the state before it."""
    record = records[run.records]
    thread = record[0] >> 4
    place = last.threads[thread].place if thread < states.THREADS and record[0] & 15 == STEP else 0
    at = f" at {place} ({places.words(place)})" if place else ""
    return f"{record_text(*record)}{at}: {refusal_text(run.refusal, file)}"


def _refused_lines(file, run, records, last):
    after = len(records) - run.records - 1
    yield _head(run.records + 1, _refused_text(file, run, records, last))
    yield f"{MARGIN}the run ends here: {after} more record{'' if after == 1 else 's'} not carried out"


def trace_lines(file, run):
    """The whole run, a line for each record."""
    if not run.states:
        yield refusal_text(run.refusal, file)
        return
    records = records_of(file)
    yield _head(0, "fresh bench")
    for turn in turns_of(file, run):
        yield _head(turn.number, turn.text())
    if run.refusal:
        yield from _refused_lines(file, run, records, run.states[-1])
    yield f"records {run.records} of {len(records)} refusal {run.refusal}"


def json_lines(file, run):
    """The same for programs: an object for each record."""
    if not run.states:
        yield json.dumps({"turn": None, "refusal": run.refusal, "why": bench.words(run.refusal, file)})
        return
    for turn in turns_of(file, run):
        yield json.dumps(turn.fields())
    if run.refusal:
        record = record_text(*records_of(file)[run.records])
        yield json.dumps({"turn": run.records + 1, "record": record, "refusal": run.refusal, "why": bench.words(run.refusal, file)})


def notes_of(state, thread):
    """A thread's notes in words, those that its place has."""
    me = state.threads[thread]
    words = []
    if me.side:
        words.append(f"side {telling.LEFT if me.side == 1 else telling.RIGHT}")
    if me.read:
        words.append(f"{me.read} routes read")
    for note in NOTES:
        number = getattr(me, note)
        if number is not None:
            name = telling.named(state, number)
            words.append((name if name.startswith(f"{note} ") else f"{note} {name}") + (", its own" if note == "main" and me.own else ""))
        elif note == "grandparent" and 33 <= me.place <= 36:
            words.append("no grandparent")
    for at, frame in enumerate(me.frames):
        words.append(_frame_words(frame, at == 0 and me.place >= 60))
    return words


def _frame_words(frame, on_top):
    words = [f"{'frame' if on_top else 'waiting frame'} {frame.lower} to {frame.upper}"]
    words.append("no store" if frame.store is None else f"store {frame.store}")
    if frame.base is not None:
        words.append(f"base {frame.base} in hand")
    if frame.popped is not None:
        words.append(f"popped {frame.popped}")
    if frame.key is not None:
        words.append(f"key {frame.key}")
    if frame.begun:
        words.append(f"done {telling.set_words(frame.done)}")
    for name, stack in (("stack", frame.stack), ("backup", frame.backup)):
        if stack:
            words.append(f"{name} {' '.join(map(str, stack))}")
    return f"{words[0]}: {', '.join(words[1:])}"


def _marked_lines(before, after):
    """The lines of both listings in order, each with '-' (gone), '+' (new) or ' ' (the same)."""
    old, new = before.splitlines(), after.splitlines()
    for kind, a, b, c, d in difflib.SequenceMatcher(None, old, new, autojunk=False).get_opcodes():
        if kind == "equal":
            yield from ((" ", line) for line in new[c:d])
        else:
            yield from (("-", line) for line in old[a:b])
            yield from (("+", line) for line in new[c:d])


def turn_lines(file, number, one_writer=False):
    """One turn: what its record did, the threads after it with their notes, and the whole listing, new lines marked."""
    run = states.run_of(file, max(number - 1, 0), max(number, 0), one_writer=one_writer)
    records = records_of(file)
    last = run.records + (1 if run.refusal else 0)
    if run.refusal in bench.FILE_REFUSALS:
        raise bench.BenchError(f"the run has no turns: {refusal_text(run.refusal, file)}")
    if not 0 <= number <= last:
        raise bench.BenchError(f"there is no turn {number}: the run has turns 0 to {last}")
    listed = bench.answers(file, max(number - 1, 0), max(number, 0), one_writer=one_writer).turns
    state = run.states[-1]
    if number > run.records:
        yield from _refused_lines(file, run, records, state)
    else:
        yield _head(0, "fresh bench") if number == 0 else _head(number, next(turns_of(file, run)).text())
    operations = {deed.thread: deed.operation for deed in deeds_of(records[: state.turn])}
    for thread, me in enumerate(state.threads):
        if me.place:
            notes = ", ".join(notes_of(state, thread)) or "no notes"
            yield f"{MARGIN}t{thread} {operations[thread]} at {me.place} ({places.words(me.place)}): {notes}"
    if not any(me.place for me in state.threads):
        yield f"{MARGIN}all threads are idle"
    for mark, line in _marked_lines(listed[0].listing if number else "", listed[-1].listing):
        if mark != "-":
            yield f"{MARGIN}{mark} {line}"
    yield f"{MARGIN}  stored {listed[-1].stored} used {listed[-1].used}"
