"""Tests of the first use, with a stand-in for rt: the progress line on a pseudo-terminal and elsewhere, Ctrl-C, a proof
that fails, a library that is too old, and no rt at all."""

import os
import pty
import re
import select
import shutil
import signal
import subprocess
import sys
import time

import first_use
import library
from checks import APART, EXAMPLES, ROOT, running

HOME = APART / "first_use"
REPOSITORY = HOME / "repository"
ORDERS = HOME / "orders"
PRINTED = (EXAMPLES / "printed-run.printed").read_bytes()
KIT = library.wanted_kit()
CRATES = first_use.plan(ROOT, library.CRATE)
ARCHIVE = REPOSITORY / library.OWN.relative_to(ROOT)
MADE = REPOSITORY / "crates" / library.CRATE / "out" / f"lib{library.CRATE}.a"  # by rt
RUN = ["tools/schedule", "run", "examples/printed-run.txt"]


def order(pause="0", fail="-", version=KIT):
    for name, text in (("pause", pause), ("fail", fail), ("version", version)):
        (ORDERS / name).write_text(f"{text}\n")
    for name in ("calls", "hold"):
        (ORDERS / name).unlink(missing_ok=True)


def prepare():
    """A fresh clone in small: the tools, the sources' folders, and the stand-in for rt."""
    shutil.rmtree(HOME, ignore_errors=True)
    for folder in (ORDERS, HOME / "bin", HOME / "no-rt", REPOSITORY / "examples"):
        folder.mkdir(parents=True)
    shutil.copy(library.own(), ORDERS / "library")
    (ORDERS / "crates").write_text("".join(f"{name}\n" for name in CRATES))
    shutil.copy(ROOT / "tests" / "hands_on" / "fake-rt", HOME / "bin" / "rt")
    for name in ("crates.txt", "rt-version"):
        shutil.copy(ROOT / name, REPOSITORY / name)
    for name in ("tools", "include"):
        shutil.copytree(ROOT / name, REPOSITORY / name)
    for name in CRATES:
        (REPOSITORY / "crates" / name / "src").mkdir(parents=True)
        (REPOSITORY / "crates" / name / "src" / "lib.rt").write_text(f"// {name}\n")
    shutil.copy(EXAMPLES / "printed-run.txt", REPOSITORY / "examples")
    # A PATH with what the tool needs and no rt.
    for name in ("cc", "readelf", "env", "python3", "sh", "as", "ld", "collect2"):
        found = shutil.which(name)
        if found:
            (HOME / "no-rt" / name).symlink_to(found)


def environment(rt=True):
    first = f"{HOME / 'bin'}:" if rt else ""
    rest = os.environ["PATH"] if rt else str(HOME / "no-rt")
    kept = {name: value for name, value in os.environ.items() if not name.startswith("NUXALDER_")}
    return {**kept, "PATH": f"{first}{rest}", "FAKE_RT": str(ORDERS), "TERM": "xterm"}


def run(rt=True):
    ran = subprocess.run([sys.executable, *RUN], cwd=REPOSITORY, env=environment(rt), capture_output=True, timeout=300)
    return ran.returncode, ran.stdout, ran.stderr.decode()


def start(name):
    """Starts the tool; its outputs go to NAME.out and NAME.err."""
    with open(HOME / f"{name}.out", "wb") as out, open(HOME / f"{name}.err", "wb") as err:
        return subprocess.Popen([sys.executable, *RUN], cwd=REPOSITORY, env=environment(), stdout=out, stderr=err)


def wait_for(holds, seconds=120):
    end = time.time() + seconds
    while not holds() and time.time() < end:
        time.sleep(0.02)


class Terminal:
    """The tool with a pseudo-terminal as its controlling terminal and standard error; its output goes to a file."""

    def __init__(self, columns=100):
        self.out = HOME / "terminal.out"
        self.seen = ""
        self.process, self.master = pty.fork()
        if self.process == 0:
            os.chdir(REPOSITORY)
            subprocess.run(["stty", "cols", str(columns)], stdin=0)
            os.dup2(os.open(self.out, os.O_WRONLY | os.O_CREAT | os.O_TRUNC), 1)
            os.execve(sys.executable, [sys.executable, *RUN], environment())

    def read(self, until=None, seconds=120):
        """Reads what the terminal shows until a pattern comes, or to its end."""
        end = time.time() + seconds
        while time.time() < end and not (until and re.search(until, self.seen)):
            ready, _, _ = select.select([self.master], [], [], 0.2)
            try:
                data = os.read(self.master, 4096) if ready else b""
            except OSError:
                break
            self.seen += data.decode(errors="replace")
        return self.seen

    def wait(self):
        self.read()
        status = os.waitstatus_to_exitcode(os.waitpid(self.process, 0)[1])
        os.close(self.master)
        return status


def progress(checks):
    checks.group("first use: the progress line on a terminal")
    order(pause="0.15")
    ARCHIVE.unlink(missing_ok=True)
    terminal = Terminal(columns=60)
    status = terminal.wait()
    shown = terminal.seen
    checks.equal("it ends well", (status, terminal.out.read_bytes()), (0, PRINTED))
    log = REPOSITORY / "target" / "first-use.log"
    lines = [line for line in re.split(r"[\r\n]+", shown.replace("\x1b[K", "")) if line]
    says = [line for line in lines if not line.startswith("crate ")]
    checks.that("the log is named at once", str(log) in says[0] and "not built yet" in says[0], lines[:3])
    checks.equal("only two lines stay", len(says), 2)
    drawn = [line for line in lines if line.startswith("crate ")]
    for number, name in enumerate(CRATES, 1):
        fits = [line for line in drawn if re.match(rf"crate {number} of {len(CRATES)}, {name}, \d+ s so far, usually", line)]
        checks.that(f"crate {number}, {name}, is shown", fits, drawn)
    checks.that("the line is cut to the terminal", max(map(len, drawn)) == 59, drawn)
    checks.that("it is one line, kept up to date", len(re.findall(r"\n", shown)) == 2, repr(shown[-300:]))
    checks.that("the usual time is said", f"{first_use.USUAL_SECONDS} s" in says[0], says)
    checks.that("the prover's text is in the log alone", "some_function" in log.read_text() and "some_function" not in shown)
    checks.equal("a second use says nothing", run(), (0, PRINTED, ""))


def elsewhere(checks):
    checks.group("first use: a line a crate where there is no terminal")
    order()
    ARCHIVE.unlink()
    status, out, err = run()
    lines = err.splitlines()
    told = [re.sub(r", \d+ s so far", "", line) for line in lines[1:-1]]
    count = len(CRATES)
    right = [f"schedule: crate {number} of {count} proved, {name}" for number, name in enumerate(CRATES, 1)]
    checks.equal("a line a crate", (status, out, told), (0, PRINTED, right))
    checks.that("no control characters", "\r" not in err and "\x1b" not in err, err)
    order(version="another kit")
    ARCHIVE.unlink()
    said = run()[2].splitlines()[0]
    checks.that("another kit is said", "another kit" in said and KIT in said, said)


def interrupts(checks):
    checks.group("first use: Ctrl-C")
    order(pause="0.4")
    ARCHIVE.unlink()
    terminal = Terminal()
    terminal.read(until=r"crate 3 of")
    os.write(terminal.master, b"\x03")
    since = time.time()
    status = terminal.wait()
    last = terminal.seen.replace("\x1b[K", "").replace("\r", "\n").split("\n")
    last = [line for line in last if line and not line.startswith("crate ")]
    checks.equal("the exit status", (status, terminal.out.read_bytes()), (130, b""))
    checks.that("at once", time.time() - since < 60)
    kept = re.search(rf"interrupted after \d+ s: (\d+) of {len(CRATES)} crates are proved and kept", last[-1])
    fine = len(last) in (2, 3) and kept and 2 <= int(kept[1]) < len(CRATES)
    checks.that("one line", fine and "Traceback" not in terminal.seen, terminal.seen)
    time.sleep(0.1)
    checks.equal("nothing of it goes on", running(HOME / "bin" / "rt"), [])
    checks.that("nothing half built is left", not ARCHIVE.exists())
    # A polite kill while the archive itself is written.
    order()
    (ORDERS / "hold").touch()
    killed = start("killed")
    wait_for(lambda: MADE.exists() and MADE.stat().st_size == 0)
    half = MADE.exists() and MADE.stat().st_size == 0
    killed.send_signal(signal.SIGTERM)
    killed.wait()
    err = (HOME / "killed.err").read_bytes()
    checks.that("a polite kill does the same", half and killed.returncode == 130 and b"interrupted after" in err, err)
    checks.that("and no half archive is left", not ARCHIVE.exists())
    order()
    checks.equal("the next use builds it", run()[:2], (0, PRINTED))
    # What an outright kill leaves.
    ARCHIVE.write_bytes(b"!<arch>\n")
    (REPOSITORY / "target" / "first-use.unfinished").touch()
    order()
    checks.equal("half a library is built anew", run()[:2], (0, PRINTED))


def failures(checks):
    checks.group("first use: a proof that fails, an old library, no rt")
    order(fail="steps")
    ARCHIVE.unlink()
    status, out, err = run()
    fine = (status, out) == (1, b"") and "steps is not proved" in err and "a fact does not hold" in err
    checks.that("a proof that fails", fine and "first-use.log" in err and "Traceback" not in err, (status, out, err))
    checks.that("leaves no library", not ARCHIVE.exists())
    order()
    checks.equal("mended, it is built", run()[:2], (0, PRINTED))

    source = REPOSITORY / "crates" / "steps" / "src" / "lib.rt"
    order()
    later = ARCHIVE.stat().st_mtime + 10
    os.utime(source, (later, later))
    status, out, err = run(rt=False)
    fine = (status, out) == (0, PRINTED) and "is older than crates/steps/src/lib.rt, and there is no rt" in err
    checks.that("an old library with no rt is said", fine, (status, out, err))
    os.utime(source, (later - 20, later - 20))
    (source.parent / "new.rt").write_text("// new\n")
    os.utime(source.parent / "new.rt", (later, later))
    os.utime(ARCHIVE, (later - 5, later - 5))
    status, out, err = run()
    fine = (status, out) == (0, PRINTED) and "is older than crates/steps/src/new.rt" in err
    checks.that("an old library is built again", fine and (ORDERS / "calls").read_text().split() == [library.CRATE], err)
    os.utime(ARCHIVE, (later + 5, later + 5))
    order(fail="steps")
    os.utime(source, (later + 20, later + 20))
    status, out, err = run()
    checks.that("an old library does not answer where the new one fails", (status, out) == (1, b""), (status, out, err))

    status, out, err = run(rt=False)
    fine = (status, out) == (1, b"") and KIT in err and "Rattle kit" in err and "rt version" in err
    checks.that("no rt: what it is and which one", fine and "Traceback" not in err, (status, out, err))
    if shutil.which("rt"):
        printed = subprocess.run(["rt", "version"], capture_output=True, text=True).stdout.strip()
        checks.equal("the file rt-version is this kit's", KIT, printed)


def two(checks):
    checks.group("first use: two at once")
    order()
    os.utime(REPOSITORY / "crates" / "steps" / "src" / "lib.rt", (0, 0))
    os.utime(REPOSITORY / "crates" / "steps" / "src" / "new.rt", (0, 0))
    ARCHIVE.unlink(missing_ok=True)
    (ORDERS / "hold").touch()
    names = ("one", "other")
    both = [start(name) for name in names]
    wait_for(lambda: any(b"waiting for it" in (HOME / f"{name}.err").read_bytes() for name in names))
    (ORDERS / "hold").unlink()
    for process in both:
        process.wait()
    ended = [((HOME / f"{name}.out").read_bytes(), (HOME / f"{name}.err").read_bytes()) for name in names]
    checks.equal("both answer", [out for out, _ in ended], [PRINTED, PRINTED])
    checks.that("one waits", sum(b"waiting for it" in err for _, err in ended) == 1, ended)
    checks.equal("and it is built once", (ORDERS / "calls").read_text().split(), [library.CRATE])


def all_of(checks):
    prepare()
    progress(checks)
    elsewhere(checks)
    interrupts(checks)
    failures(checks)
    two(checks)
