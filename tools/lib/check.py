"""`schedule check`: a build against the printed runs that stand beside schedules, and where it first differs."""

from pathlib import Path

import asking
import bench
import library
import text_form
from faults import BenchError, Fault
from reading import given

GALLERY = library.ROOT / "examples"
EXPECTED = ".printed"
ENDS = {".txt": "text", ".schedule": "binary"}
LIMIT_SECONDS = 10


class Difference(Exception):
    """How a file fails: where, what was expected and what came."""

    def __init__(self, where, expected, got):
        super().__init__(f"{where}\n    expected  {expected}\n    got       {got}")


def row_words(thread, action, station, answer, *more):
    """A row with its answer's number, which says more than yes or no, and in versions 2 and 3 its depth and a set that is not empty."""
    words = f"row t{thread} {text_form.ACTIONS[action]} {station}, answer {answer}"
    return words + "".join(f", {name} {value}" for name, value in zip(("depth", "set"), more) if value or name == "depth")


def end_words(refusal, file):
    return f"refused, {refusal}: {bench.words(refusal, file)}" if refusal else "carried out"


class Told:
    """What a library tells of a file turn by turn, as lines, and how it ended: in words, and after how many records."""

    def __init__(self, path, file, limit=None, scan=None):
        self.end, self.done, self.turns = None, 0, []
        last = len(file) if scan is None else scan
        try:
            parts = asking.ask(path, file, 0, last, limit, scan is not None)
        except asking.NoAnswer as error:
            self.end, parts = error.reason, error.parts
        listing, turn = [], None
        for word, numbers, text in parts:
            if word in ("whole", "refused"):
                self.end, self.done = self.end or end_words(numbers[0], file), numbers[1]
            elif word == "turn":
                turn = {"rows": [], "listing": listing, "counts": [f"stored {numbers[1]} used {numbers[2]}"]}
                self.turns.append(turn)
            elif turn and word == "row":
                turn["rows"].append(row_words(*numbers))
            elif turn and word == "list":
                turn["listing"] = listing = text.splitlines()

    def lines(self, turn):
        told = self.turns[turn]
        return [*(told["rows"] or ["no row"]), *told["listing"], *told["counts"]]


def whole_end(path, file, limit):
    """How a build ends the whole file, and after how many records."""
    try:
        run = bench.answers(file, 1, 0, path, limit)
        return end_words(run.refusal, file), run.whole.number
    except asking.NoAnswer as error:
        return error.reason, None


def first_pair(expected, got):
    """The first line in which two lists of lines differ."""
    for at in range(max(len(expected), len(got))):
        pair = [lines[at] if at < len(lines) else "(no line)" for lines in (expected, got)]
        if pair[0] != pair[1]:
            return pair
    return None


def by_turns(schedule, path, limit):
    """The record at which the build parts from the proved library, or None where the two tell the same."""
    own = Told(library.own(), schedule.file)
    records = text_form.records_of(schedule.file)

    def at(record):
        if not 0 < record <= len(records):
            return f"{schedule.name}: {'a fresh bench' if own.turns else 'the whole file'}"
        return f"{schedule.place(record)}: record {record}, {text_form.record_text(*records[record - 1])}"

    if own.turns:
        build = Told(path, schedule.file, limit, own.done)
        for turn in range(len(own.turns)):
            if turn >= len(build.turns):
                return Difference(at(turn), "carried out", build.end or "no answer")
            pair = first_pair(own.lines(turn), build.lines(turn))
            if pair:
                return Difference(at(turn), *pair)
    end, done = whole_end(path, schedule.file, limit)
    if (end, done) == (own.end, own.done):
        return None
    return Difference(at(own.done + 1) if own.turns else at(0), own.end, end)


def by_text(schedule, beside, expected, got):
    """The first line of the printed run that differs."""
    lines, ours = expected.split("\n"), got.split("\n")
    number = next((n for n, (a, b) in enumerate(zip(lines, ours), 1) if a != b), min(len(lines), len(ours)))
    return Difference(f"{schedule.name}: line {number} of {beside.name}", *first_pair(lines, ours))


def check_file(name, path, limit):
    """Raises Difference or a Fault where the build does not print the run that is expected."""
    beside = Path(name).with_suffix(EXPECTED)
    schedule = given(str(name), ENDS.get(Path(name).suffix))
    try:
        expected = beside.read_bytes().decode("ascii", "backslashreplace")
    except OSError as error:
        raise Fault(f"{name}: no expected run {beside}: {error.strerror}") from None
    try:
        got = bench.printed_by_library(schedule.file, path, limit)
    except asking.NoAnswer as error:
        raise by_own(schedule, path, limit) or Difference(schedule.name, "an answer", error.reason) from None
    if got != expected:
        raise by_own(schedule, path, limit) or by_text(schedule, beside, expected, got)


def by_own(schedule, path, limit):
    """The difference by turns; None also where the proved library cannot be had."""
    try:
        return by_turns(schedule, path, limit)
    except BenchError:
        return None


def schedules(names):
    """The schedules to check: of a folder those with an expected run beside them, and each file that is named."""
    found = {}
    for name in names:
        path = Path(name)
        if path.is_dir():
            inside = sorted(file for file in path.iterdir() if file.suffix in ENDS)
            found.update(dict.fromkeys(file for file in inside if file.with_suffix(EXPECTED).exists()))
        elif path.suffix == EXPECTED:
            found.update(dict.fromkeys(path.with_suffix(end) for end in ENDS if path.with_suffix(end).exists()))
        else:
            found[path] = None
    return list(found)


def shown_gallery():
    """The gallery as one would name it from here."""
    here = Path.cwd()
    return GALLERY.relative_to(here) if here in GALLERY.parents else GALLERY


def check(names, limit, say):
    """Checks all files; gives how many passed and failed."""
    files = schedules(names or [shown_gallery()])
    if not files:
        raise Fault(f"schedule: no schedule with a {EXPECTED} file beside it in {', '.join(map(str, names))}")
    path = library.path()
    asking.helper("turns.c", path)
    failed = 0
    for name in files:
        try:
            check_file(name, path, limit)
        except (Difference, Fault) as error:
            failed += 1
            say(f"FAILED {str(error).removeprefix('schedule: ')}")
        except OSError as error:
            failed += 1
            say(f"FAILED {name}: {error.strerror}")
    return len(files) - failed, failed
