"""Tests of what is read and written: bytes or text, text that cannot be read, bounds, full and closed outputs."""

import os
import subprocess
import sys
import time

import reading
from checks import EXAMPLES, OUT, TOOL, VECTORS, file_of, tool

PATH = EXAMPLES / "printed-run.txt"
PRINTED = PATH.with_suffix(".printed").read_bytes()
TEXT = "t0 insert 3\nt0 finish\n"
SECONDS_MOST = 60  # the machine may do other work too

# Bytes that are no schedule's text, and the line, column and part of what is said.
UNREADABLE = [
    ("Latin-1", b"# caf\xe9\nt0 ins\xe9rt 3\n", "2:7", "byte e9 is no UTF-8; in Latin-1 it is '\xe9'"),
    ("cut UTF-8", b"t0 step\nt0 step \xc3\n", "2:9", "byte c3 is no UTF-8"),
    ("UTF-16", TEXT.encode("utf-16-le").join([b"\xff\xfe", b""]), "1:1", "UTF-16"),
    ("UTF-16, high byte first", TEXT.encode("utf-16-be").join([b"\xfe\xff", b""]), "1:1", "UTF-16"),
    ("UTF-16 with no mark", TEXT.encode("utf-16-le"), "1:2", "UTF-16"),
    ("UTF-32", TEXT.encode("utf-32"), "1:1", "UTF-32"),
    ("a no-break space", "t0 step\nt0\u00a0insert 3\n".encode(), "2:3", "a no-break space (U+00A0)"),
    ("a zero-width space", "t0 insert \u200b3\n".encode(), "1:11", "a zero width space (U+200B)"),
    ("a byte order mark inside", "t0 step\n\ufefft0 step\n".encode(), "2:1", "U+FEFF"),
    ("control-Z", b"t0 step\r\n\x1a", "2:1", "^Z (U+001A)"),
    ("an old line end", b"t0 step\rt0 step", "1:8", "a carriage return"),
    ("a bell", b"t0\x07 step", "1:3", "^G (U+0007)"),
    ("zero bytes", b"\0\0\0\0", "1:1", "a zero byte"),
    ("version 4", b"\x04\0\0", "1:1", "^D (U+0004)"),
    ("version 9", b"\x09\0\0", "1:2", "a zero byte"),
]


def kinds(checks):
    checks.group("input: bytes or text")
    for name, data, place, says in UNREADABLE:
        for command in (("run",), ("encode",)) if name in ("Latin-1", "version 4") else (("run",),):
            status, out, err = tool(*command, "-", stdin=data)
            fine = (status, out) == (1, b"") and err.startswith(f"-:{place}: ") and says in err and "refus" not in err
            checks.that(f"{command[0]}: {name}", fine, (status, out, err))
    said = tool("run", "-", stdin=b"\x04\0\0")[2]
    checks.that("what to do with another version is said", "starts with byte 04" in said and "--as binary" in said, said)
    checks.equal("--as binary", tool("run", "-", "--as", "binary", stdin=b"\x04\0\0")[:2], (3, b"records 0 of 0 refusal 2\n"))
    empty = b"records 0 of 0 refusal 0\n0 normal -\nset -\nstored 0 used 1\n"
    checks.equal("version 2 is bytes", tool("run", "-", stdin=b"\x02\0\0"), (0, empty, ""))
    checks.equal("version 3 is bytes", tool("run", "-", stdin=b"\x03\0\0"), (0, empty, ""))
    status, out, err = tool("run", "-", "--as", "text", stdin=file_of(PATH))
    checks.that("--as text", (status, out) == (1, b"") and err.startswith("-:1:1: "), (status, out, err))
    checks.equal("encode --as text too", tool("encode", "-", "--as", "text", stdin=b"\x01")[0], 1)
    checks.equal("an empty file is text", tool("run", "-")[:2], (0, b"records 0 of 0 refusal 0\n0 normal -\nset -\nstored 0 used 1\n"))
    checks.equal("as bytes it is short", tool("run", "-", "--as", "binary")[:2], (3, b"records 0 of 0 refusal 1\n"))
    checks.equal("one byte that is a version", tool("run", "-", stdin=b"\x01")[:2], (3, b"records 0 of 0 refusal 1\n"))
    marked = b"\xef\xbb\xbf" + "# caf\u00e9 \u2014 \u00a0\nt0 insert 9 # \u4e2d\r\nt0 finish".encode() + b"# \xff"
    checks.equal("a mark at the start, and anything in comments", tool("encode", "-", stdin=marked)[1], file_of(EXAMPLES / "insert.txt"))


def fed(command, first, again):
    """Runs the tool with endless input from a pipe; gives its status, outputs and the seconds that it took."""
    since = time.time()
    process = subprocess.Popen(
        [sys.executable, TOOL, *command], stdin=subprocess.PIPE, stdout=subprocess.PIPE, stderr=subprocess.PIPE
    )
    try:
        os.write(process.stdin.fileno(), first)
        while time.time() - since < 2 * SECONDS_MOST:
            os.write(process.stdin.fileno(), again)
    except BrokenPipeError:
        pass
    try:
        process.stdin.close()
    except BrokenPipeError:
        pass
    out, err = process.stdout.read(), process.stderr.read().decode()
    return process.wait(), out, err, time.time() - since


def bounds(checks):
    checks.group("input: endless, and the longest that is read")
    for what, first, again, says in (
        ("text", b"t0 insert 9\n", b"# and so on\n" * 4096, f"more than {reading.TEXT_MOST:,} bytes of text"),
        ("bytes", b"\x01\x10\x00", bytes(1 << 15), "more than 16,384 bytes are given; the longest schedule has 8,195 bytes"),
        ("bytes of version 2", b"\x02\x10\x00", bytes(1 << 15), "more than 32,766 bytes are given; the longest schedule has 16,387 bytes"),
        ("zeros", b"\0", bytes(1 << 15), f"more than {reading.TEXT_MOST:,} bytes of text"),
    ):
        status, out, err, took = fed(["run", "-"], first, again)
        fine = (status, out) == (1, b"") and says in err and len(err.splitlines()) == 1
        checks.that(f"endless {what} end with a message", fine, (status, out, err))
        checks.that(f"endless {what}: {took:.1f} s", took < SECONDS_MOST)
    status, out, err = tool("run", "/dev/zero")
    checks.that("an endless file", (status, out) == (1, b"") and "/dev/zero: more than" in err, (status, out, err))
    longest = b"\x01\x10\x00" + b"\x31\x09\x30\x00" * 2048
    checks.equal("the longest schedule", tool("run", "-", stdin=longest)[1][:30], b"records 4096 of 4096 refusal 0")
    checks.equal("a byte more is 01's", tool("run", "-", stdin=longest + b"\0")[:2], (3, b"records 0 of 0 refusal 4\n"))
    longest = b"\x02\x10\x00" + b"\x31\x09\0\0\x30\x00\0\0" * 2048
    checks.equal("the longest of version 2", tool("run", "-", stdin=longest)[1][:30], b"records 4096 of 4096 refusal 0")
    checks.equal("a byte more is 02's", tool("run", "-", stdin=longest + b"\0")[:2], (3, b"records 0 of 0 refusal 4\n"))
    filled = b"t0 insert 9\n".ljust(reading.TEXT_MOST, b"\n")
    checks.equal("the longest text", tool("encode", "-", stdin=filled), (0, b"\x01\0\x01\x02\x09", ""))
    checks.equal("a byte more", tool("encode", "-", stdin=filled + b"\n")[:2], (1, b""))
    checks.equal("a slow one is read whole", slow(), (0, PRINTED, ""))


def slow():
    """The tool with its input in two pieces."""
    process = subprocess.Popen(
        [sys.executable, TOOL, "run", "-"], stdin=subprocess.PIPE, stdout=subprocess.PIPE, stderr=subprocess.PIPE
    )
    data = PATH.read_bytes()
    os.write(process.stdin.fileno(), data[:20])
    time.sleep(0.2)
    out, err = process.communicate(data[20:])
    return process.returncode, out, err.decode()


def floods(checks):
    checks.group("input: many bad lines")
    for lines, shown in ((b"oops\n" * 20, 20), (b"oops\n" * 20 + b"# end\n\n", 20), (b"oops\n" * 21, 21), (b"oops\n" * 20 + b"t0 step", 21)):
        told = tool("encode", "-", stdin=lines)[2].splitlines()
        checks.equal(f"{lines[-12:]!r}", (len(told), "no more lines" in told[-1]), (shown, shown == 21))


def shell(command):
    """A command line with $tool in it; gives its status and both outputs."""
    env = {**os.environ, "tool": str(TOOL), "path": str(PATH)}
    ran = subprocess.run(["bash", "-c", command], capture_output=True, env=env, timeout=300, cwd=OUT)
    return ran.returncode, ran.stdout, ran.stderr.decode()


def outputs(checks):
    checks.group("output: full and closed")

    def named(what, command, says):
        status, out, err = shell(command)
        fine = (status, out) == (1, b"") and says in err and len(err.splitlines()) == 1
        checks.that(what, fine, (status, out, err))

    for command in ("run", "trace", "encode", "check"):
        given = '"$tool" check' if command == "check" else f'"$tool" {command} "$path"'
        named(f"{command} to a full device", f"{given} >/dev/full", "standard output cannot be written: No space left")
        if command != "check":
            named(f"{command} to a closed output", f"{given} >&-", "standard output is closed")
    named("a full file", '"$tool" encode "$path" -o /dev/full', "/dev/full cannot be written: No space left")
    named("a full page", '"$tool" show "$path" --html /dev/full', "/dev/full cannot be written: No space left")
    named("no such folder", '"$tool" encode "$path" -o nowhere/x', "nowhere/x cannot be written: No such file")
    named("a closed input", '"$tool" run - <&-', "standard input is closed")
    checks.equal("a file is written with the output closed", shell('"$tool" encode "$path" -o full.schedule >&-'), (0, b"", ""))
    checks.equal("and is whole", (OUT / "full.schedule").read_bytes(), file_of(PATH))
    checks.equal("a closed standard error changes nothing", shell('"$tool" run "$path" 2>&-'), (0, PRINTED, ""))
    status, out, err = shell(f'"$tool" run {EXAMPLES}/refused-12-idle.txt 2>&-')
    checks.equal("nor mixes into the output", (status, out), (3, (EXAMPLES / "refused-12-idle.printed").read_bytes()))
    gone = shell('(sleep 0.3; "$tool" run "$path") | true; echo "${PIPESTATUS[0]}"')
    checks.equal("a reader that has gone is no fault to speak of", gone, (0, b"141\n", ""))


def all_of(checks):
    OUT.mkdir(parents=True, exist_ok=True)
    kinds(checks)
    bounds(checks)
    floods(checks)
    outputs(checks)
