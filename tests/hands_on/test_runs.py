"""Tests of run and trace: the gallery and the vectors against their printed runs, and the figures of 01."""

import os
import re
import shutil

import bench
import text_form
from checks import EXAMPLES, OUT, REASONS, VECTORS, Expected, cut, examples, file_of, spent, tool

TRACE_SECONDS_MOST = 8  # of processor time, for 4,096 records

# What 01 says of its runs, as the trace must tell it: who finishes at which own step.
FIGURES = {
    "insert": ["insert 9, own step 3, row: t0 insert 9 yes"],
    "insert-twice": ["own step 3, row: t0 insert 9 yes", "own step 3, row: t0 insert 9 no"],
    "concurrent-inserts": ["own step 3, row: t0 insert 3 yes", "own step 7, row: t1 insert 9 yes"],
    "single-station-split": ["split 3, own step 2, row: t0 split 3 no (too few stations)"],
    "join": ["join 3, own step 21, row: t0 join 3 yes"],
    "killed-join": ["own step 9, row: t1 insert 4 yes", "own step 16, row: t0 join 3 no (stood down)"],
    "colliding-joins": ["own step 7, row: t1 join 9 no (neighbour not replaceable)"],
    "late-lookup": ["own step 21, row: t0 join 3 yes", "own step 2, row: t1 lookup 3 yes"],
    "lost-insert": ["own step 21, row: t0 join 3 yes", "own step 9, row: t1 insert 4 yes"],
    "longest-lookup": ["own step 62, row: t1 lookup 1 yes"],
    "longest-lookup-3": ["own step 64, row: t1 lookup 1 yes 0"],
    "helped-join": ["own step 19, row: t1 insert 10 yes", "own step 18, row: t0 join 12 yes"],
    "depth-replaced": ["own step 3, row: t0 insert 3 yes", "insert 3 815, own step 3, row: t0 insert 3 no", "root from normal 1 to new normal 2 with 3=815"],
    "depth-lookup": ["row: t1 lookup 9 yes 0\n", "own step 2, row: t1 lookup 3 yes 640", "row: t2 lookup 3 yes 815\n", "row: t3 lookup 4 no\n"],
    "depth-split-join": ["join 3, own step 21, row: t0 join 3 yes", "new normal 5 with 9=1200", "to node 8, whose container is 3=640 9=1200"],
    "depth-during-join": ["insert 3 815, own step 9, row: t1 insert 3 no", "own step 16, row: t0 join 3 no (stood down)"],
    "range-query": ["range 3 10, own step 5: left of route 3 from normal 4 to new range base 7 with 3=640", "range 3 10, own step 14, row: t1 range 3 yes (found 3 9)"],
    "range-piggyback": ["own step 14, row: t2 range 0 yes (found 3 9)", "own step 9, row: t1 range 5 yes (found 9)"],
    "range-helped": ["own step 21, row: t2 insert 4 yes", "own step 9, row: t1 range 0 yes (found 3 9)"],
    "range-join": ["own step 23, row: t0 join 14 yes", "own step 18, row: t1 range 0 yes (found 3 9 14)"],
    "stop-join": ["join 3, own step 7, row: t0 join 3 no (joins stopped)", "own step 11, row: t1 lookup 8 yes 0", "own step 31, row: t0 join 3 yes"],
    "stop-lookup": ["own step 8, row: t1 lookup 6 yes 0", "own step 15, row: t0 remove 8 yes", "own step 11, row: t1 lookup 8 yes 640"],
    "refused-15-range": ["raw 06 09 00 03", "refused 15: a range query with an upper end over 63 or below its station"],
    "refused-16-stores": ["turn 392   t0 step at 64 (put the first range base: swap the root or look left): refused 16", "records 391 of 392 refusal 16"],
    "refused-14-depth": ["raw 02 09 27 10", "refused 14: an insert with a depth over 9,999: a depth is 0 to 9999 mm"],
    "refused-10-depth": ["raw 01 03 02 80", "refused 10: unused bytes that are not 0: only an insert has a depth and only a range an upper end"],
    "refused-4-length-2": ["refused 4: a length other than 3 + 4 * count: a record of version 2 has four bytes"],
    "refused-2-version": ["refused 2: a version other than 1, 2 and 3"],
    "refused-7-thread": ["raw 40 00", "refused 7: a thread over 3"],
    "refused-12-idle": ["refused 12: a step of an idle thread"],
    "refused-13-numbers": ["turn 1024  t0 step at 10 (swap the root or look left): refused 13", "records 1023 of 1024 refusal 13"],
    "refused-3-count": ["refused 3: a count over 4,096"],
    "one-writer-deep": ["insert 5, own step 64, row: t0 insert 5 no"],
    "second-writer": ["own step 2, row: t1 lookup 9 yes", "own step 6, row: t3 insert 20 yes"],
}

# Bytes that 01 gives for a file.
BYTES = {
    "empty": "010000",
    "insert": "0100040209000000000000",
    "refused-7-thread": "0100014000",
    "refused-12-idle": "0100013000",
    "refused-8-action": "0100010600",
    "depth-replaced": "020008" + "02030280" + "00" * 12 + "0203032f" + "00" * 12,
    "refused-4-length-2": "02000202030000",
    "refused-15-range": "020008" + "06090009" + "00" * 20 + "06090003" + "00000000",
}

TRACED = ["depth-lookup", "depth-during-join", "refused-14-depth", "range-query", "range-helped", "range-join", "refused-16-stores"]
TRACED += ["printed-run", "killed-join", "reasons", "late-lookup", "helped-join", "refused-11-busy", "full-schedule"]


def runs(checks):
    checks.group("gallery: printed runs")
    checks.that("crates/bench/out/bench is there", bench.PROGRAM.is_file() or os.environ.get("HANDS_ON_WITHOUT_PROGRAM"))
    names = {path.stem for path in examples()}
    checks.equal("each schedule has its printed run", {path.stem for path in EXAMPLES.glob("*.printed")}, names)
    checks.that("the gallery is whole", set(FIGURES) | set(BYTES) | set(TRACED) <= names, names)
    for path in examples():
        expected = path.with_suffix(".printed").read_text()
        checks.equal(f"the program on {path.name}", bench.printed_by_program(file_of(path)), expected)
        checks.equal(f"the library on {path.name}", bench.printed_by_library(file_of(path)), expected)
        comment = [line for line in path.read_text().splitlines() if line.startswith("#")]
        checks.that(f"{path.name} says what to look at", any("Look at" in line for line in comment))
    for name, file in BYTES.items():
        checks.equal(f"bytes of {name}", file_of(EXAMPLES / f"{name}.txt").hex(), file)
    checks.equal("8,195 bytes hold 4,096 records", len(file_of(EXAMPLES / "full-schedule.txt")), 8195)


def vectors(checks):
    checks.group("vectors: printed runs and round trips")
    files = sorted(VECTORS.glob("*.schedule"))
    checks.that("there are vectors", len(files) >= 50, len(files))
    reasons, found = [], []
    for path in files:
        file = path.read_bytes()
        expected = path.with_suffix(".printed").read_text()
        checks.that(f"library on {path.name}", bench.printed_by_library(file) == expected)
        text = text_form.decode(file)
        checks.that(f"round trip of {path.name}", text_form.encode(text.encode(), path.name) == file)
        checks.that(f"the text of {path.name} is text", text_form.kind_of(text.encode()) == "text")
        for number, row in enumerate(bench.answers(file, 1, 0).whole.rows, 1):
            asked = row.text.removesuffix(" no").removesuffix(" yes")
            if " range " in row.text:
                found.append(f"{path.stem} {number} {asked} {row.reason.replace('none', '-')}")
            elif row.reason:
                reasons.append(f"{path.stem} {number} {asked} {row.answer}")
    for what, told in (("reasons", reasons), ("found", found)):
        lines = [line for line in (VECTORS / what).read_text().splitlines() if not line.startswith("#")]
        checks.that(f"each row of vectors/{what}", told == lines, len(told))


ROW = "; row: "


def printed_row(line):
    """The row of a turn's line as the program prints it, without the reason of a split or join."""
    return line.split(ROW)[1].split(" (")[0]


def told_figure(text, told):
    """Whether a trace tells a figure; `own step 3, row: ..` has what the step did between the two."""
    step, found, row = text.partition(", row: ")
    return re.search(f"{re.escape(step)}: .*{ROW}{re.escape(row)}(\n| \\()", told) if found and step else text in told


def sample(file, last):
    """Turns worth a look: the first and last ones, and some between."""
    return sorted({0, 1, 2, last - 1, last} & set(range(last + 1)) | {last * part // 9 for part in range(9)})


def traces(checks):
    checks.group("trace")
    for name in TRACED:
        path = EXAMPLES / f"{name}.txt"
        file = file_of(path)
        ran = []
        took = spent(lambda: ran.extend(tool("trace", path)))
        status, out, err = ran
        checks.that(f"trace {name} takes {took:.1f} s", took < TRACE_SECONDS_MOST)
        lines = out.decode().splitlines()
        whole = Expected(file, len(text_form.records_of(file)))
        last = whole.done + (1 if whole.refusal else 0)
        turns = [line for line in lines if re.match(r"turn \d+ ", line)]
        refused = 3 if whole.refusal else 0
        checks.equal(f"trace {name} has all turns, a line each", (status, bool(err), len(turns)), (refused, bool(refused), last + 1))
        checks.equal(f"trace {name} has no other lines", len(lines), last + 2 + bool(refused))
        head = path.with_suffix(".printed").read_text().splitlines()[0]
        checks.equal(f"trace {name} ends with the head of the run", lines[-1], head)
        binary = OUT / f"{name}.schedule"
        binary.write_bytes(file)
        checks.that(f"trace of the binary {name} is the same", tool("trace", binary)[1] == out)
        for turn in sample(file, last):
            expected = Expected(file, turn)
            rows = [printed_row(line) for line in turns[: turn + 1] if ROW in line]
            checks.equal(f"{name} rows at turn {turn}", rows, expected.rows)
            one_turn(checks, path, turn, expected, f"stored {expected.stored} used {expected.used}")
    told = tool("trace", EXAMPLES / "reasons.txt")[1].decode().splitlines()
    given = {int(line.split()[1]): line.split(ROW)[1].split(" (")[1][:-1] for line in told if ROW in line and line.endswith(")")}
    checks.equal("the trace says every reason in words", given, REASONS)
    for name, texts in FIGURES.items():
        told = tool("trace", EXAMPLES / f"{name}.txt")[1].decode()
        checks.that(f"the figures of 01 for {name}", all(told_figure(text, told) for text in texts), told)


def one_turn(checks, path, turn, expected, counts):
    """--at: the whole listing, the row of this turn and what is open."""
    status, out, err = tool("trace", path, "--at", turn)
    lines = out.decode().splitlines()
    tree = [line[13:] for line in lines if re.match(r" {11}[+ ] (\d|set)", line)]
    opened = [f"t{thread} {given[0]}" for thread, given in sorted(expected.open.items()) if given]
    refused = 3 if expected.refusal else 0
    shown = (status, bool(err), tree, lines[-1].strip())
    checks.equal(f"--at {turn} of {path.stem}", shown, (refused, bool(refused), expected.listing, counts))
    threads = [match[1] for match in (re.match(r" {11}(t\d .*) at \d+ \(", line) for line in lines) if match]
    checks.equal(f"--at {turn}: open", (threads, "           all threads are idle" in lines), (opened, not opened))
    if ROW in lines[0]:
        checks.equal(f"--at {turn}: row", printed_row(lines[0]), expected.rows[-1])


def errors(checks):
    checks.group("errors")

    def refused(what, says, *arguments, env=None, status=1):
        got, out, err = tool(*arguments, env=env)
        checks.that(what, got == status and out == b"" and says in err and "Traceback" not in err, (got, out, err))

    example = EXAMPLES / "printed-run.txt"
    refused("no such file", "nowhere.txt", "run", "nowhere.txt")
    refused("a directory", "examples", "trace", EXAMPLES)
    refused("a turn too far", "turns 0 to 12", "trace", example, "--at", "13")
    refused("a turn before the first", "turns 0 to 12", "trace", example, "--at", "-1")
    refused("a turn of a refused file", "refused 4", "trace", EXAMPLES / "refused-4-length.txt", "--at", "0")
    refused("a turn of a refused file of version 2", "refused 4: a length other than 3 + 4", "trace", EXAMPLES / "refused-4-length-2.txt", "--at", "0")
    refused("a schedule file given to encode", "schedule decode", "encode", VECTORS / "0000.schedule")
    refused("text given to decode", "text already", "decode", example)
    refused("a page that cannot be written", "nowhere", "show", example, "--html", "/nowhere/page.html")
    refused("no command", "usage", status=2)


def rebuilds(checks):
    checks.group("the helper is linked anew")
    copy = OUT / "copy" / "libnuxalder.a"
    copy.parent.mkdir(exist_ok=True)
    shutil.copyfile(bench.library(), copy)
    os.environ["NUXALDER_LIB"], before = str(copy), os.environ.get("NUXALDER_LIB")
    try:
        program = bench.helper()
        made = program.stat().st_mtime_ns
        os.utime(copy)
        checks.equal("not while the library is the same", bench.helper().stat().st_mtime_ns, made)
        before_bytes = copy.read_bytes()
        copy.write_bytes(before_bytes + b"\n")
        checks.that("when the library has other bytes", bench.helper() != program)
        copy.write_bytes(before_bytes)
        checks.equal("and answers", bench.answers(cut(file_of(EXAMPLES / "insert.txt"), 4)).whole.rows, [bench.Row("t0 insert 9 yes", bench.YES)])
    finally:
        del os.environ["NUXALDER_LIB"]
        if before is not None:
            os.environ["NUXALDER_LIB"] = before


def all_of(checks):
    OUT.mkdir(parents=True, exist_ok=True)
    runs(checks)
    vectors(checks)
    traces(checks)
    errors(checks)
    rebuilds(checks)
