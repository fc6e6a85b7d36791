"""Tests of `schedule merge`: two schedules into one, as text and as bytes, and a message for each refusal."""

import random

import text_form
from checks import EXAMPLES, OUT, tool

SEED = 20221


def schedule(records):
    return b"\x01" + len(records).to_bytes(2, "big") + b"".join(records)


def random_records(rng, count, lowest):
    return [bytes([16 * rng.randrange(lowest, lowest + 2) + rng.randrange(6), rng.randrange(64)]) for _ in range(count)]


def in_turns(one, other):
    """The two lists drawn in turns."""
    both = [record for pair in zip(one, other) for record in pair]
    shorter = min(len(one), len(other))
    return both + one[shorter:] + other[shorter:]


def merges(checks):
    checks.group("merge: text and bytes")
    first, second, out = (OUT / "merge" / name for name in ("first", "second", "out"))
    rng = random.Random(SEED)
    sizes = [(0, 0), (0, 3), (3, 0), (5, 5), (9, 2), (2, 9), (2048, 2048), (4096, 0), (1, 4095)]
    for n, m in sizes + [(rng.randrange(30), rng.randrange(30)) for _ in range(20)]:
        one, other = random_records(rng, n, 0), random_records(rng, m, 2)
        first.write_bytes(schedule(one))
        second.write_text(text_form.decode(schedule(other)))
        expected = schedule(in_turns(one, other))
        checks.equal(f"{n} and {m} to bytes", tool("merge", first, second, "--to", "binary"), (0, expected, ""))
        status, text, err = tool("merge", first, second)
        checks.equal(f"{n} and {m} to text", (status, text_form.encode(text, "text"), err), (0, expected, ""))
        checks.equal(f"{n} and {m} to a file", tool("merge", first, second, "-o", out, "--to", "binary"), (0, b"", ""))
        checks.equal(f"{n} and {m} in the file", out.read_bytes(), expected)
    second.write_bytes(b"t2 step\n")
    checks.equal("standard input", tool("merge", "-", second, stdin=b"t1 step")[1], b"# 2 records\nt1 step\nt2 step\n")
    one, other = EXAMPLES / "merge-first.txt", EXAMPLES / "merge-second.txt"
    tool("merge", one, other, "-o", out)
    rows = tool("run", out)[1].decode().splitlines()[1:5]
    checks.equal("the gallery's two", rows, ["t2 lookup 3 no", "t0 insert 3 yes", "t2 lookup 3 yes", "t1 insert 9 yes"])


def refusals(checks):
    checks.group("merge: refusals")
    first, second, out = (OUT / "merge" / name for name in ("one.schedule", "other.schedule", "refused.out"))
    out.unlink(missing_ok=True)
    good, fine = schedule([b"\x02\x09", b"\x00\x00"]), schedule([b"\x21\x03"])
    long = schedule([b"\x10\x00"] * 4096)

    def refused(what, one, other, *says):
        first.write_bytes(one)
        second.write_bytes(other)
        status, stdout, err = tool("merge", first, second, "--as", "binary", "-o", out)
        told = all(text in err for text in says) and len(err.splitlines()) == 1
        checks.that(what, status == 1 and stdout == b"" and told and not out.exists(), (status, stdout, err))

    for number, bad in [(1, b"\x01\x00"), (2, b"\x02\x00\x00"), (2, b"\x03\x00\x00"), (2, b"\x04\x00\x00"), (3, b"\x01\x10\x01"), (4, good[:-1])]:
        refused(f"a first file with {number}", bad, fine, f"{first}: ", f"refused with {number}: ")
        refused(f"a second file with {number}", good, bad, f"{second}: ", f"refused with {number}: ")
    deep = b"\x02\x00\x01\x02\x03\x02\x80"
    said = "the file is refused with 2: a version other than 1; only version 1 can be merged"
    more = ": without its depths and its version line this one is of version 1"
    refused("depths in the first file", deep, fine, f"{first}: {said}{more}\n")
    refused("depths in the second file", good, deep, f"{second}: {said}{more}\n")
    refused("the stop in the second file", good, b"\x03\x00\x00", f"{second}: {said}{more}\n")
    refused("a version that there is not", good, b"\x04\x00\x00", f"{second}: {said}\n")
    text = OUT / "merge" / "deep.txt"
    text.write_text("t0 insert 3 640\n")
    second.write_bytes(fine)
    checks.equal("a text with depths", tool("merge", text, second, "-o", out), (1, b"", f"{text}: {said}{more}\n"))
    refused("the first file's fault comes first", b"", b"\x02\x00\x00", f"{first}: ", "refused with 1: ")
    stray = schedule([b"\x02\x09", b"\x00\x00", b"\x21\x05", b"\x30\x00"])
    refused("a thread of the second in the first", stray, fine, f"{first}: record 3, 't2 lookup 5'", "17", "t0 and t1")
    refused("a thread of the first in the second", good, schedule([b"\x30\x00", b"\x10\x00"]), f"{second}: record 2, 't1 step'", "t2 and t3")
    refused("a thread over 3", good, schedule([b"\x40\x07"]), f"{second}: record 1, 'raw 40 07'", "17")
    refused("the last of 4,096", schedule([b"\x10\x00"] * 4095 + [b"\x20\x00"]), fine, f"{first}: record 4096,")
    refused("a total over 4,096", long, fine, "refused with 3: ", f"{first} 4096 and {second} 1")
    status, stdout, err = tool("merge", "-", "-")
    checks.that("standard input twice", status == 1 and stdout == b"" and "one of the two" in err, err)
    first.write_bytes(b"t0 stop\n")
    checks.that("a bad line", f"{first}:1:4: 'stop'" in tool("merge", first, second)[2])


def all_of(checks):
    (OUT / "merge").mkdir(parents=True, exist_ok=True)
    merges(checks)
    refusals(checks)
