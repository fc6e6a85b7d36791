"""Tests of refusals: in words with their place in the text, and the exit status."""

import re

import bench
from checks import EXAMPLES, OUT, examples, file_of, tool

STATUS = 3

# What is said of a file of one version, and for versions 2 and 3 what would be right.
WORDS = {
    "refused-2-version": "a version other than 1, 2 and 3",
    "refused-4-length": "a length other than 3 + 2 * count",
    "refused-4-length-2": "a length other than 3 + 4 * count: a record of version 2 has four bytes",
    "refused-10-step-byte": "a step whose second byte is not 0",
    "refused-10-depth": "unused bytes that are not 0: only an insert has a depth and only a range an upper end, and a step has no station",
    "refused-8-action": "an action over 5",
    "refused-14-depth": "an insert with a depth over 9,999: a depth is 0 to 9999 mm",
}

# A run that is refused at its 33rd record, on line 17.
MINE = """# A schedule whose seventh operation
# is stepped too far.
t0 insert 1
t0 step 3
t0 insert 2
t0 step 3

t0 insert 3
t0 step 3
t0 insert 4
t0 step 3
t0 insert 5
t0 step 3
t0 insert 6
t0 step 3
t0 insert 7
t0 step 5
t0 insert 8
"""


def gallery(checks):
    checks.group("refusals: the gallery, in words and by the exit status")
    seen = set()
    for path in examples():
        printed = path.with_suffix(".printed").read_bytes()
        done, refusal = (int(printed.split()[at]) for at in (1, 5))
        status, out, err = tool("run", path)
        checks.equal(f"run {path.name}: standard output is 01's text", out, printed)
        if not refusal:
            checks.equal(f"run {path.name}: a whole run", (status, err), (0, ""))
            continue
        seen.add(refusal)
        words = WORDS.get(path.stem) or bench.REFUSALS[refusal]
        if refusal <= 4:
            right = f"{path}: refused, {refusal}: {words}\n"
        else:
            line = re.match(rf"{re.escape(str(path))}:(\d+): ", err)
            right = f"{path}:{line[1] if line else '?'}: record {done + 1} refused, {refusal}: {words}\n"
        checks.equal(f"run {path.name}: the refusal", (status, err), (STATUS, right))
    checks.equal("each refusal of a file or record is there", seen, {1, 2, 3, 4, 7, 8, 9, 10, 11, 12, 13, 14, 15, 16})


def places(checks):
    checks.group("refusals: the place in the text")
    mine = OUT / "mine.txt"
    mine.write_text(MINE)
    # Each insert has four records, so the seventh has ended with record 28.
    words = "refused, 12: a step of an idle thread"
    checks.equal("a step too many", tool("run", mine)[2], f"{mine}:17: record 29 {words}\n")
    mine.write_text("\n\n# eight lookups\n" + "t1 lookup 3\nt1 step\n" * 16 + "t1 step\n")
    checks.equal("record 33", tool("run", mine)[2], f"{mine}:36: record 33 {words}\n")
    status, out, err = tool("run", "-", stdin=b"t0 insert 3\r\n\r\nt0 insert 4\r\n")
    checks.equal("standard input", (status, err), (STATUS, "-:3: record 2 refused, 11: a start of a busy thread\n"))
    binary = OUT / "mine.schedule"
    binary.write_bytes(file_of(EXAMPLES / "refused-11-busy.txt"))
    status, out, err = tool("run", binary)
    checks.that("bytes have no lines", status == STATUS and err.startswith(f"{binary}: record ") and "refused, 11" in err, err)
    mine.write_text("count 2\nt0 insert 3\nraw-byte 10\n# a record in two parts\nraw-byte 00\n")
    checks.equal("a record of raw bytes", tool("run", mine)[2], f"{mine}:3: record 2 {words}\n")
    mine.write_text("t0 insert 3 640\n\nt0 step 3\n# and one too many\nt0 step\n")
    checks.equal("version 2", tool("run", mine)[2], f"{mine}:5: record 5 {words}\n")
    mine.write_text("version 2\ncount 2\nt0 insert 3\nraw-byte 10\nraw-byte 00\n# in parts\nraw-byte 00\nraw-byte 00\n")
    checks.equal("version 2: a record of raw bytes", tool("run", mine)[2], f"{mine}:4: record 2 {words}\n")
    mine.write_text("version 2\nt0 insert 3 640\nt0 step 3\nt0 insert 3\nraw 00 00 00 01\n")
    said = WORDS["refused-10-depth"]
    checks.equal("version 2: a step's last byte", tool("run", mine)[2], f"{mine}:5: record 6 refused, 10: {said}\n")
    mine.write_text("no-header\nraw 01 00\nraw-byte 01\nraw-byte 10\nraw-byte 00\n")
    checks.equal("no header", tool("run", mine)[2], f"{mine}:4: record 1 {words}\n")


def commands(checks):
    checks.group("refusals: trace, show and the help")
    path = EXAMPLES / "refused-11-busy.txt"
    said = tool("run", path)[2]
    done = int(path.with_suffix(".printed").read_text().split()[1])
    checks.equal("trace", (tool("trace", path)[0], tool("trace", path)[2]), (STATUS, said))
    checks.equal("trace at a turn before", tool("trace", path, "--at", done)[::2], (0, ""))
    checks.equal("trace at the refused record", tool("trace", path, "--at", done + 1)[::2], (STATUS, said))
    page = OUT / "refused.html"
    status, _, err = tool("show", path, "--html", page)
    checks.equal("show", (status, err), (STATUS, said))
    place = ":".join(said.split(":")[:2]).rsplit("/", 1)[1]
    checks.that("the page has the place", f'"where":"{place}"' in page.read_text(), place)
    checks.equal("encode runs nothing", tool("encode", path)[::2], (0, ""))
    for command in ((), ("run",), ("check",)):
        text = tool(*command, "--help")[1].decode()
        fine = all(re.search(rf"^  {status}  ", text, re.M) for status in (0, 1, 2, 3))
        checks.that(f"{' '.join(command)} --help has the exit statuses", fine, text)
    checks.equal("usage", tool("run")[0], 2)


def all_of(checks):
    OUT.mkdir(parents=True, exist_ok=True)
    gallery(checks)
    places(checks)
    commands(checks)
