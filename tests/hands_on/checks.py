"""What the tests of the schedule tool share: counting, paths, calling the tool, what is expected of a turn."""

import hashlib
import os
import subprocess
import sys
import tempfile
import time
from pathlib import Path

ROOT = Path(__file__).resolve().parents[2]
TOOL = ROOT / "tools" / "schedule"
EXAMPLES = ROOT / "examples"
VECTORS = ROOT / "tests" / "vectors"
OUT = ROOT / "target" / "hands_on"
# `rt ci` refuses a checkout that holds links, repositories or other .rt files: tests make such things here, one folder a checkout.
APART = Path(tempfile.gettempdir()) / f"nuxalder-{hashlib.sha256(str(ROOT).encode()).hexdigest()[:12]}"

sys.path.insert(0, str(ROOT / "tools" / "lib"))

import bench  # noqa: E402
import text_form  # noqa: E402

SHOWN_MOST = 1500
TRIES = 3  # of what has a time limit: other work may run beside

# Why the splits and joins of examples/reasons.txt did nothing, by the turn of their row.
REASONS = {
    3: "no parent",
    27: "base not replaceable",
    31: "too few stations",
    39: "neighbour not replaceable",
    49: "stood down",
    63: "swap lost or base gone",
}


class Checks:
    """Counts what passed and failed, a group at a time."""

    def __init__(self):
        self.passed = self.failed = 0
        self.group_name = None

    def group(self, name):
        self.end_group()
        self.group_name, self.group_from, self.since = name, (self.passed, self.failed), time.time()
        print(f"{name} ..", flush=True)

    def end_group(self):
        if self.group_name:
            passed, failed = self.passed - self.group_from[0], self.failed - self.group_from[1]
            if not passed + failed:
                self.that("the group checks something", False)
            print(f"  {passed} passed, {failed} failed ({time.time() - self.since:.1f} s)", flush=True)
        self.group_name = None

    def that(self, what, holds, detail=""):
        if holds:
            self.passed += 1
        else:
            self.failed += 1
            print(f"  FAILED {what}\n{str(detail)[:SHOWN_MOST]}".rstrip(), flush=True)

    def equal(self, what, got, expected):
        self.that(what, got == expected, f"    got      {got!r}\n    expected {expected!r}")


def tool(*arguments, stdin=b"", env=None):
    """Runs the tool; gives its exit status, standard output and standard error."""
    ran = subprocess.run(
        [sys.executable, TOOL, *map(str, arguments)],
        input=stdin,
        capture_output=True,
        env={**os.environ, **(env or {})},
        timeout=300,
    )
    return ran.returncode, ran.stdout, ran.stderr.decode()


def spent(run):
    """The processor time of all that a call starts and waits for, in seconds: other work on the machine does not count."""
    before = os.times()
    run()
    after = os.times()
    return after.children_user + after.children_system - before.children_user - before.children_system


def least(measure, most):
    """The least of up to TRIES measurements; one that is under `most` is the last."""
    taken = [measure()]
    while taken[-1] >= most and len(taken) < TRIES:
        taken.append(measure())
    return min(taken)


def running(path):
    """The commands of all processes whose command line holds a path."""
    found = []
    for process in Path("/proc").glob("[0-9]*"):
        try:
            command = (process / "cmdline").read_bytes().replace(b"\0", b" ").decode(errors="replace")
        except OSError:
            continue
        if str(path) in command and process.name != str(os.getpid()):
            found.append(command.strip())
    return found


def examples():
    return sorted(EXAMPLES.glob("*.txt"))


def file_of(path):
    """The schedule file of an example or a vector."""
    data = path.read_bytes()
    return text_form.encode(data, path.name) if path.suffix == ".txt" else data


def cut(file, records):
    """The schedule file with its first records only."""
    return file[:1] + records.to_bytes(2, "big") + file[3 : 3 + text_form.RECORD[text_form.version_of(file)] * records]


class Expected:
    """What must be shown after some records: the printed run of the schedule cut there, taken apart.

    The program prints it where it is there, so that the tool's way of asking the library is tested as well."""

    def __init__(self, file, records):
        printed = printed_run(cut(file, records))
        head, *lines = printed.splitlines()
        stored_line = lines.pop()
        rows = sum(line.startswith("t") for line in lines)
        self.done, self.refusal = int(head.split()[1]), int(head.split()[5])
        self.rows, self.listing = lines[:rows], lines[rows:]
        self.stored, self.used = stored_line.split()[1], stored_line.split()[3]
        self.set = self.listing[-1][4:]
        self.open = self.open_operations(file, records)

    def open_operations(self, file, records):
        """Each thread's open operation and its own steps, from accepted records and the number of rows."""
        starts = {thread: [] for thread in range(4)}
        for first, second, *more in text_form.records_of(file)[: min(records, self.done)]:
            if first & 15:
                has = more and first & 15 in (text_form.INSERT, text_form.RANGE)
                extra = f" {256 * more[0] + more[1]}" if has else ""
                starts[first >> 4].append([f"{text_form.ACTIONS[first & 15]} {second}{extra}", 0])
            else:
                starts[first >> 4][-1][1] += 1
        finished = {thread: sum(row.startswith(f"t{thread} ") for row in self.rows) for thread in starts}
        return {t: tuple(s[-1]) if len(s) > finished[t] else None for t, s in starts.items()}


def printed_run(file):
    return bench.printed_by_program(file) if bench.PROGRAM.is_file() else bench.printed_by_library(file)
