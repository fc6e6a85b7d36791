"""The first use: proving and building the library, with one line that says how far it is.

The prover's own text goes to a log. On a terminal the line is kept up to date, elsewhere there is a line a crate.
"""

import contextlib
import fcntl
import os
import re
import select
import signal
import subprocess
import sys
import time

from faults import BenchError
from processes import start, stop

USUAL_SECONDS = 240
TICK_SECONDS = 0.5
TAIL_LINES = 12
TAIL_CHARACTERS = 300


class Interrupted(KeyboardInterrupt):
    """The build was interrupted and cleared away; holds the one line to say."""


def dependencies(root):
    """The crates of the repository, each with what it depends on, in the order of crates.txt."""
    found = {}
    for line in (root / "crates.txt").read_text().splitlines():
        name, colon, words = line.partition("#")[0].partition(":")
        if colon:
            found[name.split()[0]] = words.split()  # "staticlib" may stand after the name
    return {name: [word for word in words if word in found] for name, words in found.items()}


def plan(root, crate):
    """The crates that are proved for `crate`, itself last, in the order in which rt takes them: each after those that it needs."""
    needs, found = dependencies(root), []

    def visit(name):
        if name not in found:
            for other in needs[name]:
                visit(other)
            found.append(name)

    visit(crate)
    return found


def newer_source(root, crate, library):
    """The newest source of the library where it is newer than the library itself, else None."""
    built = library.stat().st_mtime_ns
    sources = [root / "crates.txt", root / "tools" / "archive"]
    for name in plan(root, crate):
        for part in ("src", "specs", "proofs"):
            folder = root / "crates" / name / part
            sources += [folder, *folder.rglob("*")] if folder.is_dir() else []
    newest = max(sources, key=lambda source: source.stat().st_mtime_ns)
    return newest if newest.stat().st_mtime_ns > built else None


class Progress:
    """What is said while the crates are proved."""

    def __init__(self, crates, stream):
        self.crates, self.stream = crates, stream
        self.done, self.since, self.live = 0, time.time(), stream.isatty()
        self.tick()

    def seconds(self):
        return int(time.time() - self.since)

    def say(self, text, end="\n"):
        with contextlib.suppress(OSError):
            print(text, end=end, file=self.stream, flush=True)

    def tick(self):
        """The line on a terminal, drawn again; it is cut to the terminal's width so that it stays one line."""
        if not self.live:
            return
        count = len(self.crates)
        number = min(self.done + 1, count)
        text = f"crate {number} of {count}, {self.crates[number - 1]}, {self.seconds()} s so far, usually about {USUAL_SECONDS} s"
        columns = 80
        with contextlib.suppress(OSError):
            columns = os.get_terminal_size(self.stream.fileno()).columns or 80
        self.say(f"\r{text[: columns - 1]}\x1b[K", end="")

    def begun(self, name):
        """Those before it are proved, now or by an earlier use."""
        if name in self.crates:
            self.done = self.crates.index(name)
        self.tick()

    def proved(self, name):
        if name in self.crates:
            self.done = self.crates.index(name) + 1
        if not self.live:
            self.say(f"schedule: crate {self.done} of {len(self.crates)} proved, {name}, {self.seconds()} s so far")
        self.tick()

    def clear(self):
        if self.live:
            self.say("\r\x1b[K", end="")


@contextlib.contextmanager
def _ended_by_signals():
    """A terminal that closes and a polite kill end the build as Ctrl-C does."""

    def interrupt(*_):
        raise KeyboardInterrupt

    before = {number: signal.signal(number, interrupt) for number in (signal.SIGTERM, signal.SIGHUP)}
    try:
        yield
    finally:
        for number, handler in before.items():
            signal.signal(number, handler)


def _follow(process, log, progress):
    """Copies what rt says to the log until it ends, and counts the crates proved."""
    rest, name = b"", b""
    while True:
        ready, _, _ = select.select([process.stdout], [], [], TICK_SECONDS)
        if ready:
            data = os.read(process.stdout.fileno(), 1 << 16)
            if not data:
                return process.wait()
            log.write(data)
            log.flush()
            *lines, rest = (rest + data).split(b"\n")
            for line in lines:
                begun = re.match(rb"rt: chose --jobs \d+ for (\w+)", line)
                if begun:
                    name = begun[1]
                    progress.begun(name.decode())
                elif line.startswith(b"logic=proved "):
                    progress.proved(name.decode())
        progress.tick()


def _tail(log):
    lines = log.read_text(errors="replace").splitlines()[-TAIL_LINES:]
    return "\n".join(f"    {line[:TAIL_CHARACTERS]}" for line in lines)


def unfinished(root):
    """A file that is there while the library is built: what lies at the library's place may be half of one."""
    return root / "target" / "first-use.unfinished"


def is_whole(root, library):
    return library.is_file() and not unfinished(root).exists()


def build(root, crate, library, rt, why, wanted_kit):
    """Proves and builds the library by tools/archive. Only a whole one is left where it is looked for."""
    stream = sys.stderr
    folder = root / "target"
    folder.mkdir(exist_ok=True)
    log = folder / "first-use.log"
    with open(folder / "first-use.lock", "w") as lock:
        try:
            fcntl.flock(lock, fcntl.LOCK_EX | fcntl.LOCK_NB)
        except OSError:
            print("schedule: another use proves and builds the library; waiting for it", file=stream, flush=True)
            fcntl.flock(lock, fcntl.LOCK_EX)
            if is_whole(root, library) and not newer_source(root, crate, library):
                return
        _build(root, crate, library, rt, why, wanted_kit, log, stream)


def _build(root, crate, library, rt, why, wanted_kit, log, stream):
    kit = subprocess.run([rt, "version"], capture_output=True, text=True).stdout.strip()
    if kit != wanted_kit:
        print(f"schedule: the kit is '{kit}', the repository is proved with '{wanted_kit}'", file=stream, flush=True)
    told = f"schedule: {why}: proving and building it, usually about {USUAL_SECONDS} s; log: {log}"
    print(told, file=stream, flush=True)
    library.unlink(missing_ok=True)
    unfinished(root).touch()
    status = None
    with open(log, "wb") as written, _ended_by_signals():
        progress = Progress(plan(root, crate), stream)
        words = {"cwd": root, "stdin": subprocess.DEVNULL, "stdout": subprocess.PIPE, "stderr": subprocess.STDOUT}
        process = start([root / "tools" / "archive"], **words)
        try:
            status = _follow(process, written, progress)
        except KeyboardInterrupt:
            proved = f"{progress.done} of {len(progress.crates)} crates are proved and kept"
            raise Interrupted(f"schedule: interrupted after {progress.seconds()} s: {proved}, nothing half built is left") from None
        finally:
            before = signal.signal(signal.SIGINT, signal.SIG_IGN)
            progress.clear()
            if status is None:
                stop(process)
            if status != 0:
                library.unlink(missing_ok=True)
            unfinished(root).unlink(missing_ok=True)
            process.stdout.close()
            signal.signal(signal.SIGINT, before)
    if status != 0 or not library.is_file():
        said = log.read_text(errors="replace")
        failed = re.findall(r"^rt: the library (\w+) did not build", said, re.M) or [crate] * ("logic=not-proved" in said)
        what = f"{failed[0]} is not proved" if failed else f"tools/archive ended with status {status}"
        raise BenchError(f"schedule: the library was not built: {what}. The log's last lines, of {log}:\n{_tail(log)}")
    print(f"schedule: proved and built in {progress.seconds()} s", file=stream, flush=True)
