"""Tests of `schedule tally`: the sheet as a table, as CSV and as JSON, against one worked out here from Run's rows and records;
refused and unreadable files, hundreds of files, the progress line on a pseudo-terminal, and builds under test."""

import csv
import functools
import io
import json
import os
import pty
import re
import shutil
import sys
from fractions import Fraction

import bench
import builds
import tallying
import text_form
from checks import EXAMPLES, OUT, TOOL, VECTORS, examples, file_of, least, spent, tool

HOME = OUT / "tally"
REFUSED, FAULT = 3, 1
FIELDS = ("starts", "yes", "no", "unfinished", "steps", "largest")
MANY = 400
MANY_SECONDS = 20


@functools.lru_cache(None)
def answered(file):
    return bench.answers(file, 1, 0)


def worked_out(files):
    """The sheet of some files: actions' rows and the refusals, from Run's rows and the accepted records alone."""
    rows = {action: dict.fromkeys(FIELDS, 0) for action in text_form.ACTIONS[1:]}
    refusals = dict.fromkeys(map(str, [1, 2, 3, 4, 5, *range(7, 17)]), 0)
    for file in files:
        run = answered(file)
        if run.refusal:
            refusals[str(run.refusal)] += 1
        if run.refusal in bench.FILE_REFUSALS:
            continue
        started = {thread: [] for thread in range(4)}  # action and own steps of each thread's operations, in order
        for first, *_ in text_form.records_of(file)[: run.whole.number]:
            if first & 15:
                started[first >> 4].append([text_form.ACTIONS[first & 15], 0])
                rows[text_form.ACTIONS[first & 15]]["starts"] += 1
            else:
                started[first >> 4][-1][1] += 1
        for row in run.whole.rows:  # a thread's rows are those of its operations, in order
            action, steps = started[int(row.text[1])].pop(0)
            rows[action]["yes" if row.answer == bench.YES else "no"] += 1
            rows[action]["steps"] += steps
            rows[action]["largest"] = max(rows[action]["largest"], steps)
        for left in started.values():
            for action, _ in left:
                rows[action]["unfinished"] += 1
    for row in rows.values():
        finished = row["yes"] + row["no"]
        ratio = Fraction(row["steps"], finished) if finished else Fraction(0)
        row["average"] = [ratio.numerator, ratio.denominator]
    return rows, refusals


def sheets(checks):
    checks.group("tally: the sheet as a table, as CSV and as JSON")
    vectors = sorted(VECTORS.glob("*.schedule"))
    seasons = {
        "one file": [EXAMPLES / "killed-join.txt"],
        "text and bytes": [EXAMPLES / "printed-run.txt", vectors[0], EXAMPLES / "depth-lookup.txt"],
        "a file twice": [vectors[3], vectors[3]],
        "an unfinished join": [EXAMPLES / "halfway-join.txt"],
        "range queries, and no store left": [EXAMPLES / "range-helped.txt", EXAMPLES / "refused-16-stores.txt"],
        "joins that are stopped": [EXAMPLES / "stop-join.txt", EXAMPLES / "stop-lookup.txt"],
        "the gallery": [EXAMPLES],
        "the vectors": [VECTORS],
        "both": [VECTORS, EXAMPLES],
    }
    for what, names in seasons.items():
        paths = []
        for name in names:
            paths += (vectors if name == VECTORS else examples()) if name.is_dir() else [name]
        rows, refusals = worked_out(map(file_of, paths))
        status, out, err = tool("tally", "--json", *names)
        told = json.loads(out)
        checks.equal(f"{what}: the rows", told["actions"], rows)
        checks.equal(f"{what}: the refusals", told["refusals"], refusals)
        checks.equal(f"{what}: files", (told["files"], told["left_out"], told["unread"]), (len(paths), [], []))
        count = sum(refusals.values())
        checks.equal(f"{what}: exit status and refused files", (status, len(told["refused"]), len(err.splitlines())), (REFUSED if count else 0, count, count))
        table(checks, what, told, tool("tally", *names)[1].decode())
        comma(checks, what, told, tool("tally", *names, "--csv")[1].decode())


def table(checks, what, told, text):
    lines = text.splitlines()
    counts = f"{told['files']:,} file{'' if told['files'] == 1 else 's'}, {told['records']:,} records carried out, {len(told['refused'])} file"
    checks.that(f"{what}: the table's first line", lines[0].startswith(counts) and lines[1] == "", lines[0])
    head, rows = lines[2], lines[3:9]
    checks.equal(f"{what}: its columns", head.split(), ["action", *FIELDS, "average", "about"])
    checks.that(f"{what}: they are aligned", len({len(line) for line in lines[2:9]}) == 1, text)
    ends = [found.end() for found in re.finditer(r"\S+", head)][1:]
    for line in rows:
        action, *numbers, average, about = line.split()
        row = told["actions"][action]
        checks.equal(f"{what}: {action}", [int(number.replace(",", "")) for number in numbers], [row[name] for name in FIELDS])
        checks.equal(f"{what}: {action}'s average", (average, about), ("/".join(map(str, row["average"])), f"{row['average'][0] / row['average'][1]:.2f}"))
        checks.equal(f"{what}: {action} stands under its columns", [found.end() for found in re.finditer(r"\S+", line)][1:], ends)
    given = {number: count for number, count in told["refusals"].items() if count}
    shown = dict(re.findall(r"^(\d+) +([\d,]+)  \S", "\n".join(lines[9:]), re.M))
    checks.equal(f"{what}: the refusals given", {number: int(count.replace(",", "")) for number, count in shown.items()}, given)


def comma(checks, what, told, text):
    rows = list(csv.DictReader(io.StringIO(text)))
    actions = {row["name"]: row for row in rows if row["kind"] == "action"}
    checks.equal(f"{what}: CSV has each action", list(actions), list(told["actions"]))
    for action, row in actions.items():
        expected = {**told["actions"][action]}
        steps, operations = expected.pop("average")
        numbers = {name: int(row[name]) for name in FIELDS}
        checks.equal(f"{what}: CSV, {action}", (numbers, row["average_steps"], row["average_operations"]), (expected, str(steps), str(operations)))
    refusals = {row["name"]: int(row["files"]) for row in rows if row["kind"] == "refusal"}
    checks.equal(f"{what}: CSV, refusals", refusals, told["refusals"])


def refusals(checks):
    checks.group("tally: refused and unreadable files")
    refused = sorted(EXAMPLES.glob("refused-*.txt"))
    status, _, err = tool("tally", EXAMPLES / "insert.txt", *refused)
    right = "".join(tool("run", path)[2] for path in refused)
    checks.equal("what run says of each", (status, err), (REFUSED, right))
    bad, good = HOME / "bad.txt", EXAMPLES / "insert.txt"
    bad.write_text("t0 stop\n")
    nowhere = HOME / "nowhere.txt"
    status, out, err = tool("tally", bad, good, nowhere)
    fine = status == FAULT and f"{bad}:1:4: 'stop' is wrong" in err and f"{nowhere}: No such file" in err and "Traceback" not in err
    checks.that("files that cannot be read are said", fine, (status, err))
    checks.that("and the others are tallied", out.startswith(b"1 file, 4 records carried out, 0 files refused, 2 files not read\n"), out)
    told = json.loads(tool("tally", "--json", bad, good)[1])
    checks.that("JSON has them too", told["files"] == 1 and len(told["unread"]) == 1 and "'stop'" in told["unread"][0], told)
    refused = json.loads(tool("tally", "--json", EXAMPLES / "refused-11-busy.txt", EXAMPLES / "refused-3-count.txt")[1])["refused"]
    checks.equal("JSON: a record", refused[0], {"file": f"{EXAMPLES}/refused-11-busy.txt:5", "record": 4, "refusal": 11, "why": bench.REFUSALS[11]})
    checks.equal("JSON: a whole file", refused[1], {"file": f"{EXAMPLES}/refused-3-count.txt", "record": None, "refusal": 3, "why": bench.REFUSALS[3]})
    status, out, _ = tool("tally", "-", stdin=b"t0 insert 3\nt0 finish\n")
    checks.that("standard input, and finish", status == 0 and out.startswith(b"1 file, 4 records"), out)
    status, out, err = tool("tally", "-", "-")
    checks.that("standard input twice", (status, out) == (FAULT, b"") and "one of the files only" in err, err)
    empty = HOME / "empty"
    empty.mkdir()
    status, out, err = tool("tally", empty)
    checks.that("a folder with no schedule", (status, out) == (FAULT, b"") and str(empty) in err, err)
    four = HOME / "four.schedule"
    four.write_bytes(b"\x04\0\0")
    checks.equal("a schedule file is bytes, whatever its first", tool("tally", four)[2], f"{four}: refused, 2: a version other than 1, 2 and 3\n")
    checks.equal("no file", tool("tally")[0], 2)
    checks.equal("one form", tool("tally", "--csv", "--json", good)[0], 2)


def many(checks):
    checks.group("tally: hundreds of files, and the progress line")
    folder = HOME / "many"
    folder.mkdir()
    for number in range(MANY):
        file = file_of(EXAMPLES / ("join.txt" if number % 2 else "depth-lookup.txt"))
        (folder / f"{number:03}.schedule").write_bytes(file)

    def took():
        took.ran = tool("tally", folder)

    checks.that(f"{MANY} files in {MANY_SECONDS} s of processor time", least(lambda: spent(took), MANY_SECONDS) < MANY_SECONDS)
    status, out, err = took.ran
    one = json.loads(tool("tally", "--json", EXAMPLES / "join.txt", EXAMPLES / "depth-lookup.txt")[1])
    inserts = one["actions"]["insert"]["starts"] * MANY // 2
    checks.that("they add up", status == 0 and re.search(rf"^insert +{inserts:,} ", out.decode(), re.M), out)
    checks.equal("no progress is said but on a terminal", err, "")
    shown, sheet = terminal("tally", folder)
    drawn = re.findall(rf"\rfile (\d+) of {MANY}, \S+\.schedule\x1b\[K", shown)
    checks.that("a terminal shows how far it is", drawn and drawn == sorted(drawn, key=int) and drawn[0] == "1", shown)
    checks.that("the line is gone at the end", shown.endswith("\r\x1b[K"), shown[-100:])
    checks.equal("the sheet is the same", sheet, out)
    shown, _ = terminal("tally", folder, columns=30)
    checks.that("the line stays one line", all(len(line) < 30 for line in re.findall(r"\r([^\r\x1b]*)\x1b\[K", shown)), shown)


def terminal(*arguments, columns=120):
    """The tool with a pseudo-terminal as its standard error: what that shows, and standard output."""
    out = HOME / "terminal.out"
    process, master = pty.fork()
    if process == 0:
        os.system(f"stty cols {columns}")
        os.dup2(os.open(out, os.O_WRONLY | os.O_CREAT | os.O_TRUNC), 1)
        os.execv(sys.executable, [sys.executable, str(TOOL), *map(str, arguments)])
    shown = b""
    while True:
        try:
            data = os.read(master, 4096)
        except OSError:
            break
        if not data:
            break
        shown += data
    os.waitpid(process, 0)
    os.close(master)
    return shown.decode(errors="replace"), out.read_bytes()


def named(checks):
    checks.group("tally: builds under test")
    made = builds.make()
    names = [EXAMPLES / "insert.txt", EXAMPLES / "join.txt", EXAMPLES / "jobs.txt"]
    right = tool("tally", *names)[1]
    for name, same in (("good.a", True), ("good.so", True), ("chatty.a", True), ("wrong.a", False)):
        status, out, err = tool("tally", *names, "--library", made[name])
        checks.equal(name, (status, out == right, err), (0, same, f"schedule: asking {made[name]}, named by --library\n"))
    for name, says in (
        ("crash.a", f"{names[1]}: it crashed, signal 6 (SIGABRT)"),
        ("quit.so", f"{names[1]}: it ended the process"),
        ("scribble.a", f"{names[0]}: bytes after the rows were written"),
        ("nolist.a", "nuxalder_tally"),
    ):
        status, out, err = tool("tally", *names, "--library", made[name])
        checks.that(f"{name} is no good", (status, out) == (FAULT, b"") and says in err and "Traceback" not in err, (status, out, err))
    status, out, err = tool("tally", *names, "--library", made["full.a"])
    words = f"refused, 19: {bench.REFUSALS[19]}"
    fine = status == REFUSED and all(f"{name}: {words}\n" in err for name in names[1:]) and str(names[0]) not in err
    checks.that("files that are refused with 19 are said", fine, (status, err))
    checks.that("and the sheet says how many", b", 2 files not in the tally, refused with 19\n" in out and re.search(rb"^insert +1 ", out, re.M), out)
    left = json.loads(tool("tally", "--json", *names, "--library", made["full.a"])[1])["left_out"]
    checks.equal("in JSON too", [refused["refusal"] for refused in left], [tallying.FULL] * 2)


def all_of(checks):
    shutil.rmtree(HOME, ignore_errors=True)
    HOME.mkdir(parents=True)
    sheets(checks)
    refusals(checks)
    many(checks)
    named(checks)
