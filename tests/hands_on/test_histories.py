"""Tests of history and judge: the text form, the gallery of histories, runs as histories, verdicts and the picture."""

import random
import re
import xml.etree.ElementTree as xml

import history_form
import judging
import text_form
from checks import EXAMPLES, OUT, examples, file_of, tool

HISTORIES = EXAMPLES / "histories"
SVG = "{http://www.w3.org/2000/svg}"

# What each history of the gallery must get: words of its verdict.
VERDICTS = {
    "empty": ["accepted: 0 operations", "order -"],
    "overlap": ["accepted: 2 operations", "order 1 0", " 1  t1 insert 5 yes\n 0  t0 lookup 5 yes"],
    "stale-lookup": ["no: ", "in no order of the 3 operations", "the first 5 of 6 events have none already; the last of them: t0 lookup 5 no"],
    "two-yes": ["no: ", "the first 4 of 4 events have none already; the last of them: t1 insert 7 yes"],
    "saved-by-remove": ["accepted: 3 operations", "order 1 0 2"],
    "refused-2-version": ["refused, 2: a version other than 1"],
    "refused-21-other-station": ["refused, 21: an event out of place", "event 2 of 2: t0 insert 8 yes"],
    "refused-22-thirteen": ["refused, 22: more than 12 operations"],
    "refused-23-open": ["refused, 23: an operation that is not finished", "event 2: t1 lookup 7"],
}

# Runs that 02 says must pass, and what their histories begin with.
RUNS = {
    "insert": "# 2 events\nt0 insert 9\nt0 insert 9 yes\n",
    "insert-twice": "# 4 events\nt0 insert 9\nt0 insert 9 yes\nt0 insert 9\nt0 insert 9 no\n",
    "concurrent-inserts": "# 4 events\nt0 insert 3\nt1 insert 9\nt0 insert 3 yes\nt1 insert 9 yes\n",
    "empty": "# 0 events\n",
}

# Text that is no history, and words of its message.
BAD = {
    b"t0 insert": "nothing after 'insert'",
    b"t0 step": "an action of a history is lookup, insert or remove",
    b"t0 split 3": "an action of a history is lookup, insert or remove",
    b"t0 insert 64": "a station is a number 0 to 63",
    b"t0 insert 3 maybe": "a finish says yes or no",
    b"t0 insert 3 yes now": "nothing may follow",
    b"t4 insert 3": "a line starts with a thread",
    b"raw 01 02 03": "nothing after '03'",
    b"raw-byte 01\nt0 insert 3": "no event may follow",
}


def text_forms(checks):
    checks.group("histories: text form")
    chosen = random.Random(22)
    files = [b"", b"\x01", b"\x02\x00", b"\x01\x00\x00", b"\x03\x00\x02" + bytes(8), b"\x01\x00\x05" + bytes(range(11))]
    for _ in range(300):
        events = [tuple(chosen.randrange(most) for most in (5, 5, 66, 4)) for _ in range(chosen.randrange(8))]
        files.append(history_form.file_of(events))
    for file in files:
        text = history_form.decode(file)
        checks.equal(f"decode and encode {file.hex()}", history_form.encode(text.encode(), "text"), file)
    event = b"\x01\x00\x02\x01\x02\x05\x00\x01\x02\x05\x02"
    checks.equal("a start and a finish", history_form.encode(b"# words\n\nt1 insert 5 # start\nt1 insert 5 yes\n", "text"), event)
    for text, words in BAD.items():
        status, out, error = tool("judge", "--as", "text", "-", stdin=text)
        checks.that(f"judge refuses {text!r}", status == 1 and not out and words in error, (status, out, error))


def verdicts(checks):
    checks.group("histories: gallery and verdicts")
    paths = sorted(HISTORIES.glob("*.txt"))
    checks.equal("the gallery is whole", {path.stem for path in paths}, set(VERDICTS))
    for path in paths:
        status, out, error = tool("judge", path)
        said = out.decode()
        checks.that(f"judge {path.name}", status == 0 and not error and all(word in said for word in VERDICTS[path.stem]), said + error)
        binary = OUT / f"{path.stem}.history"
        binary.write_bytes(history_form.encode(path.read_bytes(), path.name))
        checks.equal(f"judge {path.stem} as bytes", tool("judge", "--as", "binary", binary), (0, out, ""))
        comment = [line for line in path.read_text().splitlines() if line.startswith("#")]
        checks.that(f"{path.name} says what to look at", any("Look at" in line for line in comment))
    checks.equal("a schedule's byte of version 2", tool("judge", "-", stdin=b"\x02\0\0"), (0, b"refused, 2: a version other than 1\n", ""))
    checks.equal("judge on standard input", tool("judge", "-", stdin=b"t0 insert 1\nt0 insert 1 yes\n")[1].decode().splitlines()[1], "order 0")


def beginnings(checks):
    """The shortest beginning with no order: the events before it have one, however they are completed."""
    checks.group("histories: the shortest beginning")
    chosen = random.Random(7)
    found = 0
    for _ in range(400):
        doing, events = {}, []
        while len(events) < 14 or doing:
            thread = chosen.randrange(4)
            if thread in doing:
                events.append((thread, *doing.pop(thread), chosen.randrange(1, 3)))
            elif len(events) < 14:
                doing[thread] = (chosen.randrange(1, 4), chosen.randrange(2))
                events.append((thread, *doing[thread], 0))
        (verdict,) = judging.judged([history_form.file_of(events)])
        if verdict.refusal or verdict.accepted:
            continue
        found += 1
        count = judging.shortest_beginning(events)
        before = [history_form.file_of(some) for some in judging.completions(events[: count - 1])]
        upto = [history_form.file_of(some) for some in judging.completions(events[:count])]
        checks.that("the events before it have an order", any(v.accepted for v in judging.judged(before)), events)
        checks.that("with it there is none", not any(v.accepted for v in judging.judged(upto)), events)
        checks.that("it is a finish", events[count - 1][3] > 0, events)
        if found == 12:
            break
    checks.that("some have no order", found == 12, found)


def runs(checks):
    checks.group("histories: runs")
    for name, text in RUNS.items():
        path = EXAMPLES / f"{name}.txt"
        checks.equal(f"history {name}", tool("history", path), (0, text.encode(), ""))
        judged = tool("judge", "-", stdin=text.encode())[1].decode()
        checks.that(f"judge accepts {name}", judged.startswith("accepted"), judged)
    deep = "refused, 2: a version other than 1: an event has no depth, so only a schedule of version 1 has a history"
    status, out, error = tool("history", "-", stdin=b"t0 insert 3 640\nt0 finish")
    checks.that("a run with depths has none, and what to do is said", (status, out) == (1, b"") and deep in error and "without its depths" in error, error)
    status, out, error = tool("history", "-", stdin=b"version 4")
    checks.equal("nor has another version", (status, out, error), (1, b"", "-: refused, 2: a version other than 1\n"))
    written = OUT / "run.history"
    for path in examples():
        file = file_of(path)
        refusal, history = judging.history_of(file)
        if refusal in (1, 2, 3, 4):
            status, out, error = tool("history", path)
            checks.that(f"history {path.name} is refused", status == 1 and not out and f"refused, {refusal}: " in error, error)
            continue
        status, out, error = tool("history", path)
        checks.equal(f"the text of {path.name}'s history", history_form.encode(out, path.name), history)
        checks.that(f"{path.name}'s refusal is told", (f"refused, {refusal}: " in out.decode()) == bool(refusal), out[:200])
        checks.equal(f"history {path.name} -o", (tool("history", path, "-o", written), written.read_bytes()), ((0, b"", ""), history))
        printed = path.with_suffix(".printed").read_text().splitlines()
        rows = [line for line in printed if re.match("t[0-3] ", line)]
        finishes = [event for event in history_form.events_of(history) if event[3]]
        told = [f"t{t} {text_form.ACTIONS[a]} {s} {'yes' if m == 2 else 'no'}" for t, a, s, m in finishes]
        checks.equal(f"the finishes of {path.name} are its rows", told, rows)


def pictures(checks):
    checks.group("histories: picture")
    for path in sorted(HISTORIES.glob("*.txt")):
        out = OUT / f"{path.stem}.svg"
        status, said, error = tool("judge", path, "--svg", out)
        if path.stem.startswith("refused"):
            checks.that(f"no picture of {path.stem}", status == 1 and "nothing to draw" in error, (status, error))
            continue
        root = xml.fromstring(out.read_text())
        events = history_form.events_of(history_form.encode(path.read_bytes(), path.name))
        operations = judging.operations_of(events)
        bars = {o.number: root.find(f"{SVG}g[@id='operation-{o.number}']/{SVG}rect") for o in operations}
        checks.that(f"{path.stem}: a bar for each operation", all(bar is not None for bar in bars.values()), said)
        points = {g.get("id"): g.find(f"{SVG}circle") for g in root.iter(f"{SVG}g") if g.get("id").startswith("point-")}
        order = [int(word) for word in re.search(r"^order (.*)$", said.decode(), re.M).group(1).replace("-", "").split()] if b"order " in said.splitlines()[1] else []
        checks.equal(f"{path.stem}: a point for each place in the order", set(points), {f"point-{n}" for n in order})
        across = [float(points[f"point-{n}"].get("cx")) for n in order]
        checks.that(f"{path.stem}: the points follow the order", across == sorted(across) and len(set(across)) == len(across), across)
        for number, x in zip(order, across):
            left, wide = float(bars[number].get("x")), float(bars[number].get("width"))
            level = float(points[f"point-{number}"].get("cy")) == float(bars[number].get("y")) + float(bars[number].get("height")) / 2
            checks.that(f"{path.stem}: point {number} lies on its bar", left < x < left + wide and level, (left, x, wide))
        bad = [bar for bar in bars.values() if "bad" in bar.get("class")]
        checks.equal(f"{path.stem}: the finish that has no order is marked", len(bad), int(said.startswith(b"no")))


def all_of(checks):
    text_forms(checks)
    verdicts(checks)
    beginnings(checks)
    runs(checks)
    pictures(checks)
