"""Tests of `finish`, of hints for other words, and of what `finish` cannot do."""

import random

import builds
import text_form
from checks import EXAMPLES, OUT, cut, file_of, printed_run, tool

SEED = 7
SCHEDULES = 12

# Texts with an end that cannot be found, the line and column, and part of the reason.
ENDLESS = [
    ("t0 finish", "1:4", "t0 is idle here"),
    ("t1 insert 3\nt0 finish", "2:4", "t0 is idle here"),
    ("t0 insert 3\nt0 finish\nt0  finish", "3:5", "t0 is idle here"),
    ("t0 step\nt1 insert 3\nt1 finish", "3:4", "record 1 above is refused, 12"),
    ("t0 insert 9\nt0 finish\n" * 255 + "t0 insert 9\nt0 finish", "512:4", "step 3 of t0 here is refused, 13"),
    ("t1 lookup 1\nt1 step\n" * 2046 + "t1 lookup 1\nt0 insert 9\nt0 step\nt0 finish", "4096:4", "within the 1 record left"),
    ("t1 lookup 1\nt1 step\n" * 2047 + "t0 insert 9\nt0 step\nt0 finish", "4097:4", "none is left"),
    ("count 4\nt0 insert 9\nt0 finish", "3:4", "count"),
    ("version 4\nt0 insert 9\nt0 finish", "3:4", "a file of version 4 is not run"),
    ("version 2\ncount 4\nt0 insert 9\nt0 finish", "4:4", "count"),
    ("no-header\nt0 insert 9\nt0 finish", "3:4", "no-header"),
    ("t0 insert 9 640\nt0 finish\nt0 finish", "3:4", "t0 is idle here"),
    ("version 2\nraw 02 09 27 10\nt0 finish", "3:4", "record 1 above is refused, 14: an insert with a depth over 9,999"),
    ("version 2\nraw 01 09 00 01\nt0 finish", "3:4", "record 1 above is refused, 10: unused bytes that are not 0"),
    ("t0 insert 9 1\nt0 finish\n" * 255 + "t0 insert 9 2\nt0 finish", "512:4", "step 3 of t0 here is refused, 13"),
    ("t0 insert 9\nt0 finish 3", "2:11", "nothing may follow 'finish'"),
    ("t0 insert 9\nt0 step until 25", "2:9", "does not tell at which place"),
]

SYNONYMS = {
    "add": "insert", "put": "insert", "get": "lookup", "contains": "lookup", "delete": "remove", "del": "remove",
    "Add": "insert", "find": "lookup", "merge": "join", "end": "finish",
}  # fmt: skip


def ends(checks):
    checks.group("finish: it ends the operation, and no step before")
    insert = file_of(EXAMPLES / "insert.txt")
    checks.equal("insert and finish", tool("encode", "-", stdin=b"t0 insert 9\nt0 finish"), (0, insert, ""))
    exact = "t1 lookup 1\nt1 step\n" * 2046 + "t0 insert 9\nt0 finish\n"
    checks.equal("the last record of all", len(text_form.encode(exact.encode(), "text")), 3 + 2 * 4096)
    printed = (EXAMPLES / "join.printed").read_bytes()
    text = b"t0 insert 3\nt0 finish\nt0 insert 9\nt0 finish\nt0 split 3\nt0 finish\nt0 join 3\nt0 finish\n"
    checks.equal("01's join", tool("run", "-", stdin=text), (0, printed, ""))
    checks.equal("a text that says version 1", tool("encode", "-", stdin=b"version 1\nt0 insert 9\nt0 finish"), (0, insert, ""))
    deep = b"\x02\x00\x04\x02\x09\x02\x80" + bytes(12)
    checks.equal("an insert with a depth", tool("encode", "-", stdin=b"t0 insert 9 640\nt0 finish"), (0, deep, ""))
    exact = "version 2\n" + "t1 lookup 1\nt1 step\n" * 2046 + "t0 insert 9 640\nt0 finish\n"
    checks.equal("the last record of all, version 2", len(text_form.encode(exact.encode(), "text")), 3 + 4 * 4096)
    path = OUT / "finish.schedule"
    path.write_bytes(text_form.encode(text, "text"))
    wrong = ("--library", builds.FOLDER / "wrong.a")
    checks.equal("a build under test gets the same file", tool("run", "-", *wrong, stdin=text), tool("run", path, *wrong))
    rng = random.Random(SEED)
    for number in range(SCHEDULES):
        one_schedule(checks, rng, number)
    for number in range(SCHEDULES):
        one_schedule(checks, rng, number, f"version {2 + number % 2}\n")


def one_schedule(checks, rng, number, head=""):
    """A schedule of operations that get in each other's way, each ended by finish at last."""
    fresh, busy, lines, marks = set(), set(), [], []
    for _ in range(rng.randrange(20, 50)):
        thread = rng.randrange(4)
        if thread not in busy:
            action = rng.choice(("lookup", "insert", "insert", "remove", "split", "join"))
            lines.append(f"t{thread} {action} {rng.randrange(12)}" + (f" {rng.randrange(10000)}" if head and action == "insert" else ""))
            busy.add(thread)
            if action != "lookup":
                fresh.add(thread)
        elif thread in fresh and rng.random() < 0.5:
            # No operation but a lookup ends with its first step.
            lines.append(f"t{thread} step")
            fresh.discard(thread)
        else:
            lines.append(f"t{thread} finish")
            busy.discard(thread)
            fresh.discard(thread)
            marks.append((len(lines), thread))
    file, of = text_form.encode_with_lines((head + "\n".join(lines)).encode(), "text")
    for line, thread in marks:
        last = max(at for at, place in enumerate(of) if place == line + len(head.splitlines()))
        done = (last + 1 - 3) // text_form.RECORD[text_form.version_of(file)]
        after, before = (rows_of(printed_run(cut(file, count))) for count in (done, done - 1))
        fine = len(after) == len(before) + 1 and after[-1].startswith(f"t{thread} ")
        checks.that(f"schedule {number}, line {line}", fine, "\n".join(lines))


def rows_of(printed):
    return [row for row in printed.splitlines() if row.startswith("t")]


def faults(checks):
    checks.group("finish: where there is no end, and other words")
    for text, place, says in ENDLESS:
        status, out, err = tool("encode", "-", stdin=text.encode())
        fine = (status, out) == (1, b"") and err.startswith(f"-:{place}: ") and says in err and len(err.splitlines()) == 1
        checks.that(f"{text[-40:]!r}", fine, (status, out, err))
    for word, meant in SYNONYMS.items():
        try:
            text_form.encode(f"t0 {word} 3".encode(), "text")
            said = "nothing"
        except text_form.BadText as error:
            said = str(error)
        checks.that(f"{word} has a hint", said.startswith("text:1:4: ") and f"did you mean {meant}?" in said, said)


def all_of(checks):
    if not (builds.FOLDER / "wrong.a").exists():
        builds.make()
    ends(checks)
    faults(checks)
