"""A tally over a season's schedules, by the proved library's Tally and the C helper tally.c: the season, and its sheet.

Nothing here adds anything up: every number of the tally and every average is the library's.
"""

import contextlib
import csv
import io
import json
import os
import sys
import tempfile
import time
from dataclasses import dataclass, field
from pathlib import Path
from subprocess import PIPE

import asking
import bench
import processes
import text_form
from faults import Fault
from reading import given

FULL = 19
ENDS = {".txt": None, ".schedule": "binary"}  # of the files in a folder; a schedule file is bytes whatever its first byte
# The fields of a tally in the order of their cells, eight cells each, one for each action number; the refusals come last.
FIELDS = ("starts", "yes", "no", "unfinished", "steps", "largest")
CELLS = 8
REFUSALS = 17
# The refusals that a run can get: the text buffer's is List's.
COUNTED = [number for number in bench.REFUSALS if number < REFUSALS and number != 6]
TICK_SECONDS = 0.1


@dataclass
class Refused:
    """A file that was refused: where, its record (0 where it was refused whole), the number and what it says."""

    place: str
    record: int
    refusal: int
    why: str

    def text(self):
        return f"{self.place}: {f'record {self.record} ' if self.record else ''}refused, {self.refusal}: {self.why}"


@dataclass
class Season:
    """What came of a list of files: the tally's cells, the averages by action, and what is said of single files."""

    files: int = 0
    records: int = 0
    cells: list = field(default_factory=list)
    averages: dict = field(default_factory=dict)
    refused: list = field(default_factory=list)
    left_out: list = field(default_factory=list)  # refused with 19: not in the tally
    unread: list = field(default_factory=list)  # messages

    def row(self, action):
        """The fields of an action's row by their names."""
        return {name: self.cells[CELLS * at + action] for at, name in enumerate(FIELDS)}

    def refusals(self):
        """How many files got each refusal."""
        return {number: self.cells[-REFUSALS + number] for number in COUNTED}


class Progress:
    """One line on a terminal that says how far the season is."""

    def __init__(self, count, stream):
        self.count, self.stream, self.live, self.said = count, stream, stream.isatty(), 0.0

    def _say(self, text):
        with contextlib.suppress(OSError):
            print(text, end="", file=self.stream, flush=True)

    def tick(self, done, name):
        if not self.live or time.time() - self.said < TICK_SECONDS:
            return
        self.said = time.time()
        columns = 80
        with contextlib.suppress(OSError):
            columns = os.get_terminal_size(self.stream.fileno()).columns or 80
        self._say(f"\r{f'file {done + 1} of {self.count}, {name}'[: columns - 1]}\x1b[K")

    def clear(self):
        if self.live:
            self._say("\r\x1b[K")


def files_of(names):
    """The files to tally: of a folder those that end as schedules do, and each file that is named."""
    found = []
    for name in names:
        if name != "-" and Path(name).is_dir():
            inside = sorted(str(file) for file in Path(name).iterdir() if file.suffix in ENDS)
            if not inside:
                raise Fault(f"schedule: no schedule ({' or '.join(ENDS)}) in {name}")
            found += inside
        else:
            found.append(name)
    if found.count("-") > 1:
        raise Fault("standard input can be one of the files only")
    return found


class _Helper:
    """The helper tally.c, asked file by file."""

    def __init__(self):
        self.said = tempfile.TemporaryFile()
        self.process = processes.start([bench.helper("tally")], stdin=PIPE, stdout=PIPE, stderr=self.said)

    def fault(self, name):
        status = self.process.wait()
        self.said.seek(0)
        lines = self.said.read().decode("utf-8", "replace").splitlines()
        mine = [line.removeprefix("tally: ") for line in lines if line.startswith("tally: ")]
        reason = mine[-1] if mine else "it ended the process before its answer was whole" if status == 0 else processes.ended(status)
        return asking.NoAnswer(f"{f'{name}: ' if name else ''}{reason}")

    def _line(self, word, name=None):
        answered, *numbers = self.process.stdout.readline().decode("ascii", "replace").split() or [""]
        if answered != word:
            raise self.fault(name)
        return [int(number) for number in numbers]

    def add(self, name, file):
        with contextlib.suppress(BrokenPipeError):
            self.process.stdin.write(len(file).to_bytes(4, "little") + file)
            self.process.stdin.flush()
        return self._line("file", name)

    def end(self):
        with contextlib.suppress(BrokenPipeError):
            self.process.stdin.close()
        cells = self._line("cells")
        averages = [self._line("average") for _ in text_form.ACTIONS[1:]]
        self._line("end")
        return cells, {action: (steps, operations) for action, steps, operations in averages}

    def close(self):
        for stream in (self.process.stdin, self.process.stdout):
            with contextlib.suppress(OSError):
                stream.close()
        if self.process.poll() is None:
            processes.stop(self.process)
        self.said.close()


def _noted(season, schedule, refusal, done, full):
    if refusal in bench.FILE_REFUSALS:
        season.refused.append(Refused(schedule.name, 0, refusal, bench.words(refusal, schedule.file)))
    elif refusal:
        season.refused.append(Refused(schedule.place(done + 1), done + 1, refusal, bench.words(refusal, schedule.file)))
    if full:
        season.left_out.append(Refused(schedule.name, 0, full, bench.words(full, schedule.file)))


def season_of(names, kind=None):
    """The Season of these files and folders. A file that cannot be read is left out and said."""
    names = files_of(names)
    season, helper, progress = Season(), _Helper(), Progress(len(names), sys.stderr)
    try:
        for done, name in enumerate(names):
            progress.tick(done, name)
            try:
                schedule = given(name, kind or ENDS.get(Path(name).suffix))
                if len(schedule.file) >= bench.FILE_MOST:
                    raise Fault(f"schedule: {name} has {len(schedule.file)} bytes, far more than any schedule")
            except bench.BenchError:
                raise
            except Fault as error:
                season.unread.append(str(error))
                continue
            except OSError as error:
                season.unread.append(f"schedule: {name}: {error.strerror}")
                continue
            refusal, records, full = helper.add(name, schedule.file)
            season.files += 1
            season.records += records
            _noted(season, schedule, refusal, records, full)
        season.cells, season.averages = helper.end()
        if len(season.cells) != CELLS * len(FIELDS) + REFUSALS:
            raise asking.NoAnswer("the tally is not whole")
    finally:
        progress.clear()
        helper.close()
    return season


# ---- the sheet


def _many(count, what):
    return f"{count:,} {what}{'' if count == 1 else 's'}"


def _aligned(rows):
    """Lines of columns, the first to the left and the others to the right."""
    widths = [max(len(row[at]) for row in rows) for at in range(len(rows[0]))]
    for row in rows:
        first, *others = (cell.ljust(width) if not at else cell.rjust(width) for at, (cell, width) in enumerate(zip(row, widths)))
        yield "  ".join([first, *others]).rstrip()


def table(season):
    """The sheet for people."""
    told = [_many(season.files, "file"), f"{_many(season.records, 'record')} carried out", f"{_many(len(season.refused), 'file')} refused"]
    if season.left_out:
        told.append(f"{_many(len(season.left_out), 'file')} not in the tally, refused with {FULL}")
    if season.unread:
        told.append(f"{_many(len(season.unread), 'file')} not read")
    lines = [", ".join(told), ""]
    rows = [["action", *FIELDS, "average", "about"]]
    for action, (steps, operations) in season.averages.items():
        cells = [f"{value:,}" for value in season.row(action).values()]
        rows.append([text_form.ACTIONS[action], *cells, f"{steps}/{operations}", f"{steps / operations:.2f}"])
    lines += _aligned(rows)
    given = {number: count for number, count in season.refusals().items() if count}
    if given:
        counts = list(_aligned([["refusal", "files"], *([str(number), f"{count:,}"] for number, count in given.items())]))
        lines += ["", counts[0], *(f"{line}  {bench.REFUSALS[number]}" for line, number in zip(counts[1:], given))]
    return "\n".join([*lines, ""])


def csv_text(season):
    """The sheet as one table: a line for each action and one for each refusal."""
    out = io.StringIO()
    writer = csv.writer(out, lineterminator="\n")
    writer.writerow(["kind", "name", *FIELDS, "average_steps", "average_operations", "files"])
    for action, average in season.averages.items():
        writer.writerow(["action", text_form.ACTIONS[action], *season.row(action).values(), *average, ""])
    for number, count in season.refusals().items():
        writer.writerow(["refusal", number, *[""] * (len(FIELDS) + 2), count])
    return out.getvalue()


def json_text(season):
    """The sheet and what is said of single files."""

    def told(refused):
        return {"file": refused.place, "record": refused.record or None, "refusal": refused.refusal, "why": refused.why}

    sheet = {
        "files": season.files,
        "records": season.records,
        "actions": {
            text_form.ACTIONS[action]: {**season.row(action), "average": list(average)} for action, average in season.averages.items()
        },
        "refusals": {str(number): count for number, count in season.refusals().items()},
        "refused": [told(refused) for refused in season.refused],
        "left_out": [told(refused) for refused in season.left_out],
        "unread": season.unread,
    }
    return json.dumps(sheet, indent=2) + "\n"
