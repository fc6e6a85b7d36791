"""Tests of --one-writer: run, trace and show up to the first barred record, the example near the bound, and builds under test."""

import re

import bench
import builds
import text_form
from checks import EXAMPLES, OUT, VECTORS, cut, examples, file_of, tool

DEEP = EXAMPLES / "one-writer-deep.txt"
SECOND = EXAMPLES / "second-writer.txt"
REFUSED = 3
WORDS = bench.OF_VERSION[1][24]
STEPS_MOST = 68


def first_barred(file):
    """How many records come before the first start on threads 1 to 3 that is no lookup, or of a range query."""
    records = text_form.records_of(file)

    def is_barred(thread, action):
        return thread in (1, 2, 3) and action in (2, 3, 4, 5) or thread in (0, 1, 2, 3) and action == 6 and file[0] == 2

    return next((at for at, record in enumerate(records) if is_barred(record[0] >> 4, record[0] & 15)), len(records) + 1)


def expected(file):
    """The printed run of a file with one writer: Run's, or that of the file cut before the barred record, with refusal 24; of version 3 none."""
    if len(file) > 2 and file[0] == text_form.STOP:
        return "records 0 of 0 refusal 2\n", 2
    printed = bench.printed_by_library(file)
    done, count, refusal = (int(word) for word in re.match(r"records (\d+) of (\d+) refusal (\d+)\n", printed).groups())
    barred = first_barred(file)
    if refusal in bench.FILE_REFUSALS or barred >= count or barred > done:
        return printed, refusal
    rest = bench.printed_by_library(cut(file, barred)).split("\n", 1)[1]
    return f"records {barred} of {count} refusal 24\n{rest}", 24


def runs(checks):
    checks.group("one writer: run")
    seen = []
    for path in [*examples(), *sorted(VECTORS.glob("*.schedule"))]:
        file = file_of(path)
        printed, refusal = expected(file)
        seen.append(refusal)
        checks.that(f"the library on {path.name}", bench.printed_by_library(file, one_writer=True) == printed, printed)
    checks.that("some are barred and some are not", seen.count(24) > 20 and seen.count(0) > 20, seen)
    status, out, err = tool("run", "--one-writer", SECOND)
    line = SECOND.read_text().splitlines().index("t3 insert 20 # the second writer") + 1
    right = (REFUSED, expected(file_of(SECOND))[0].encode(), f"{SECOND}:{line}: record 18 refused, 24: {WORDS}\n")
    checks.equal("a second writer, in words and by the exit status", (status, out, err), right)
    checks.equal("without the option it is no fault", tool("run", SECOND), (0, SECOND.with_suffix(".printed").read_bytes(), ""))
    checks.equal("one writer alone", tool("run", "--one-writer", DEEP), (0, DEEP.with_suffix(".printed").read_bytes(), ""))
    for text, refusal in (
        (b"raw 16 09", 8),
        (b"raw 06 09", 8),
        (b"version 2\nraw 17 09 00 00", 8),
        (b"t0 range 3 9", 24),
        (b"t3 range 3 9", 24),
        (b"version 2\nraw 06 09 00 03", 24),
        (b"version 2\nraw 46 03 00 09", 7),
        (b"raw 42 09", 7),
        (b"raw 12 40", 24),
        (b"version 2\nraw 12 09 27 10", 24),
        (b"version 2\nraw 13 09 00 01", 24),
        (b"t1 lookup 3\nt1 insert 3", 24),
        (b"version 2\nt3 lookup 9\nt3 finish", 0),
        (b"t2 lookup 9\nt2 lookup 9", 11),
        (b"version 3", 2),
        (b"t1 insert 3 \n t1 finish", 24),
    ):
        head = tool("run", "--one-writer", "-", stdin=text)[1].decode().split("\n")[0]
        checks.that(f"{text!r} gets {refusal}", head.endswith(f" refusal {refusal}"), head)


def bound(checks):
    checks.group("one writer: the example near the bound")
    file = file_of(DEEP)
    checks.that("it has at most 4,096 records", len(text_form.records_of(file)) <= text_form.RECORDS_MOST)
    told = tool("trace", "--one-writer", DEEP)[1].decode()
    own = {}
    for action, station, steps in re.findall(r"(\w+) (\d+), own step (\d+)[^\n]*; row: t0", told):
        own.setdefault(action, []).append((int(steps), int(station)))
    checks.equal("its last insert takes 64 steps", own["insert"][-1], (64, 5))
    checks.that("no other takes more, and none more than 68", max(own["insert"])[0] == 64 <= STEPS_MOST, own["insert"])
    checks.equal("a chain of 59 routes", len(own["split"]), 59)
    checks.that("every split says yes", told.count(" split ") and " no (" not in told)
    routes = [line for line in DEEP.with_suffix(".printed").read_text().splitlines() if " route " in line]
    checks.equal("and they stand below one another", [line.split()[0] for line in routes], [str(level) for level in range(59)])


def told(checks):
    checks.group("one writer: trace and show")
    status, out, err = tool("trace", "--one-writer", SECOND)
    lines = out.decode().splitlines()
    checks.that("trace ends at the barred record", (status, lines[-1]) == (REFUSED, "records 17 of 26 refusal 24"), out)
    checks.that("and says it in words", f"turn 18    t3 insert 20: refused 24: {WORDS}" in lines and "refused, 24" in err, (out, err))
    checks.equal("the turns before are those of Run", lines[:-3], tool("trace", SECOND)[1].decode().splitlines()[: len(lines) - 3])
    status, out, err = tool("trace", "--one-writer", SECOND, "--at", 18)
    checks.that("--at the barred record", status == REFUSED and b"t1 lookup 9 at 1 (read the root)" in out and b"set 3 9\n" in out, (status, out))
    checks.equal("--at one before", tool("trace", "--one-writer", SECOND, "--at", 17), (0, tool("trace", SECOND, "--at", 17)[1], ""))
    checks.equal("there is no turn after it", tool("trace", "--one-writer", SECOND, "--at", 19)[:2], (1, b""))
    page = OUT / "one-writer.html"
    status, _, err = tool("show", "--one-writer", SECOND, "--html", page)
    html = page.read_text()
    checks.that("show", status == REFUSED and '"name":"second-writer.txt, one writer"' in html and '"refusal":24' in html and '"done":17' in html, err)
    checks.that("the page has the place", '"where":"second-writer.txt:16"' in html)


def named(checks):
    checks.group("one writer: builds under test")
    made = builds.make()
    path = made["good.so"]
    status, out, _ = tool("run", "--one-writer", SECOND, "--library", path)
    checks.equal("the one that is named answers", (status, out), (REFUSED, expected(file_of(SECOND))[0].encode()))
    for name, says in (
        ("wrong.a", "run and list give different refusals"),
        ("crash.a", "signal 6 (SIGABRT)"),
        ("scribble.a", "bytes after the rows"),
        ("nolist.a", "nuxalder_run_one_writer"),
    ):
        status, out, err = tool("run", "--one-writer", SECOND, "--library", made[name])
        checks.that(f"{name} is no good", (status, out) == (1, b"") and says in err and "Traceback" not in err, (status, out, err))
    status, out, err = tool("run", "--one-writer", SECOND, env={"NUXALDER_BENCH": "/bin/true"})
    checks.that("a program has no such run", (status, out) == (2, b"") and "no one-writer run" in err, err)


def all_of(checks):
    OUT.mkdir(parents=True, exist_ok=True)
    runs(checks)
    bound(checks)
    told(checks)
    named(checks)
