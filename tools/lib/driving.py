"""`schedule drive`: an index, as an adaptor, stepped through schedules by the driver; `schedule random`: schedules to drive with."""

import collections
import json
import struct
import subprocess
import sys
from pathlib import Path

import asking
import bench
import library
import places
import text_form
from faults import Fault, Usage
from processes import communicate, ended, start, stop
from reading import given

DRIVER = library.ROOT / "drive"
INCLUDE = library.ROOT / "include"
ENDS = (".txt", ".schedule")
COUNT_MOST = 100_000
# The places at which the bench writes, or swaps.
WRITES = {4, 5, 10, 11, 13, 16, 25, 26, 27, 29, 30, 33, 35, 36, 37, 38, 41, 42, 44, 45, 46, 47, 49, 50, 51, 64, 65, 67, 77, 78, 80, 81}
NOTHING = "nothing was driven"


def program():
    """The helper that loads an adaptor: the driver, linked with the proved library."""
    sources = sorted(DRIVER.glob("*.c"))
    headers = [*sorted(DRIVER.glob("*.h")), INCLUDE / "nuxalder_drive.h"]
    return asking.helper("drive.c", library.own(), beside=sources, read=headers, words=["-std=gnu11", "-g", "-pthread", "-rdynamic"])


class Unable(Fault):
    """The driver cannot do what is asked, of this file or any other."""


class Driver:
    """The helper with an adaptor loaded; it is begun again where it ended."""

    def __init__(self, adaptor, words):
        self.command = [str(program()), str(Path(adaptor).absolute()), *words]
        self.process = None
        self.begin()

    def begin(self):
        self.process = start(self.command, stdin=subprocess.PIPE, stdout=subprocess.PIPE)
        told = self.line()
        if told is None:
            raise Fault(f"schedule: the adaptor {self.command[1]} cannot be loaded: {self.end()}")
        if "fault" in told:
            raise Fault(f"schedule: the adaptor cannot be loaded: {told['fault']}")

    def line(self):
        """A line that the helper says; None where it has ended."""
        said = self.process.stdout.readline()
        try:
            return json.loads(said) if said.endswith(b"\n") else None
        except ValueError:
            raise Fault(f"schedule: the driver says what it may not: {said[:200]!r}") from None

    def end(self):
        self.process.stdin.close()
        return ended(self.process.wait())

    def drive(self, file):
        """What is said of a schedule; a helper that dies of it is one that crashed."""
        if self.process.poll() is not None:
            self.begin()
        try:
            self.process.stdin.write(struct.pack("<I", len(file)) + file)
            self.process.stdin.flush()
            told = self.line()
        except BrokenPipeError:
            told = None
        if told is None:
            told = {"kind": "crash", "record": 0, "words": f"the driver's own process: {self.end()}", "refusal": 0, "judged": 0}
        return told

    def stop(self):
        stop(self.process)


def files_of(names):
    """The schedules: of a folder all that end so, and each file that is named."""
    found = {}
    for name in names:
        path = Path(name)
        inside = sorted(file for file in path.iterdir() if file.suffix in ENDS) if path.is_dir() else [name]
        found.update(dict.fromkeys(map(str, inside)))
    return list(found)


def options_of(options):
    """What the helper is told, from the command line."""
    flags = ("each", "in-process", "no-set", "no-tree", "no-marks", "free", "places", "skip-local")
    words = [word for word in flags if getattr(options, word.replace("-", "_"))]
    words += [f"skip={place}" for place in options.skip]
    words += [f"limit={options.limit}"] if options.limit else []
    return words + (["shrink"] if options.shrink else [])


def said(schedule, told):
    """A verdict in words, with the line of the text where there is one."""
    where = schedule.place(told["record"]) if told["record"] else schedule.name
    lines = told["words"].split("\n")
    first = f"FAILED {where}: {told['kind']}: {lines[0]}"
    more = [f"    {line.strip()}" for line in lines[1:]]
    if told.get("first_record", 0) not in (0, told["record"]):
        more.append(f"    (compared at the end only, it shows as: {told['first_kind']}, record {told['first_record']})")
    return "\n".join([first, *more])


def shrunk_text(schedule, told):
    """A schedule that was made shorter, as text; the comment says what it shows."""
    words = f"{told['kind']}: {told['words']}".split("\n")
    text = text_form.decode(bytes.fromhex(told["schedule"]))
    return "".join(f"# {line.strip()}\n" for line in [f"made shorter from {schedule.name}", *words]) + text


class Drive:
    """Drives all files, and says what differs."""

    def __init__(self, options, say, write):
        self.options, self.say, self.write = options, say, write
        self.passed = self.failed = 0
        self.judged = collections.Counter()
        self.shrunk = False

    def progress(self, done, files):
        if sys.stderr is not None and sys.stderr.isatty() and not self.options.json:
            ends = done == files or (self.failed and self.options.first)
            print(f"\r{done} of {files} driven, {self.failed} failed ", end="\n" if ends else "", file=sys.stderr, flush=True)

    def tell(self, schedule, told):
        """One file's verdict; gives whether it passed."""
        if told["kind"] == "unable":
            raise Unable(f"schedule: {' '.join(told['words'].split())}")
        passed = told["kind"] == "agrees"
        refusal, whole = told["refusal"], told["refusal"] in bench.FILE_REFUSALS
        self.judged[told["judged"]] += 1
        if self.options.json:
            self.say(json.dumps({"file": schedule.name, **told, "passed": passed and not whole}))
        elif whole:
            self.say(f"FAILED {schedule.name}: {NOTHING}: the bench refuses it, {refusal}: {bench.words(refusal, schedule.file)}")
        else:
            refuses = f"the bench refuses, {refusal}: {bench.words(refusal, schedule.file)}"
            if not passed:
                self.say(said(schedule, told) + (f"\n    a later record {refuses}" if refusal else ""))
            elif refusal:
                done = told["records"] + 1
                self.say(f"{schedule.place(done)}: record {done} {refuses}; driven up to there")
        if "shrunk" in told and not self.shrunk:
            self.shrunk = True
            self.write(self.options.shrink, shrunk_text(schedule, told["shrunk"]).encode())
            if not self.options.json:
                left = told["shrunk"]
                words = f"{left['count']} records are left of {told['count']}: {left['kind']}: {left['words'].splitlines()[0]}"
                self.say(f"    wrote {self.options.shrink}: {words}")
        return passed and not whole

    def all(self):
        files = files_of(self.options.files)
        if not files:
            raise Fault("schedule: no schedule to drive: a folder has none that ends in .txt or .schedule")
        for place in self.options.skip:
            if place not in places.WORDS:
                raise Usage(f"schedule: --skip {place}: there is no such place (docs/PLACES.md)")
            if place in WRITES:
                words = f"place {place}, {places.words(place)}, writes: what is seen of it is seen at a later turn, if at all"
                print(f"schedule: {words}", file=sys.stderr)
        driver = Driver(self.options.adaptor, options_of(self.options))
        try:
            for number, name in enumerate(files, 1):
                try:
                    schedule = given(name)
                    passed = self.tell(schedule, driver.drive(schedule.file))
                except OSError as error:
                    passed = False
                    self.fault(name, f"{name}: {error.strerror}")
                except Unable:
                    raise
                except Fault as error:
                    passed = False
                    self.fault(name, str(error).removeprefix("schedule: "))
                self.passed, self.failed = self.passed + passed, self.failed + (not passed)
                self.progress(number, len(files))
                if self.failed and self.options.first:
                    break
        finally:
            driver.stop()
        if self.options.free and not self.options.json:
            self.say(f"answers judged of {self.judged[1]} by the proved judge, of {self.judged[2]} by the driver's search, which is not proved; all sets by the search")
        return self.passed, self.failed

    def fault(self, name, words):
        self.say(json.dumps({"file": name, "fault": words, "passed": False}) if self.options.json else f"FAILED {words}")


def random(folder, seed, count, versions, ranges):
    """Writes schedules into a folder, the same ones for the same words."""
    Path(folder).mkdir(parents=True, exist_ok=True)
    words = [str(seed), str(count), "".join(map(str, sorted(set(versions)))), *([] if ranges else ["no-range"])]
    status, _, err = communicate([asking.helper("random.c", library.own()), folder, *words], b"")
    if status:
        raise Fault(f"schedule: {err.decode(errors='replace').strip() or ended(status)}")
