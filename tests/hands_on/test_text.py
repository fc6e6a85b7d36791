"""Tests of the text form: exact both ways, and bad lines refused with number, word and what would be right."""

import random

import text_form
from checks import OUT, VECTORS, examples, file_of, tool

SEED = 20210

# Text, its bad line, the word that is wrong (or after which one is missing), part of what would be right. The column is
# that of the word's last place in its line, or the one after it where a word is missing.
BAD_LINES = [
    ("t0 inser 3", 1, "inser", "did you mean insert?"),
    ("# fine\n\nt4 step", 3, "t4", "t0 to t3"),
    ("T0 step", 1, "T0", "did you mean t0?"),
    ("t0 insert 64", 1, "64", "0 to 63"),
    ("t0 insert -1", 1, "-1", "0 to 63"),
    ("t0 insert 3.0", 1, "3.0", "0 to 63"),
    ("t0 lookup \u0663", 1, "\u0663", "0 to 63"),
    ("t0 insert", 1, "insert", "a station"),
    ("t0", 1, "t0", "step, finish, lookup, insert, remove, split, join or range"),
    ("t0 lookup 3 4", 1, "4", "nothing may follow '3'"),
    ("t0 insert 3 4 5", 1, "5", "nothing may follow '4'"),
    ("t0 insert 3 10000", 1, "10000", "a depth is a number of millimetres, 0 to 9999"),
    ("t0 insert 3 -1", 1, "-1", "0 to 9999"),
    ("t0 step\nt0 insert 3 deep", 2, "deep", "0 to 9999"),
    ("version 1\n\nt0 insert 3 640", 3, "640", "a depth needs version 2 or 3, and the text says version 1"),
    ("version 9\nt0 insert 3 640", 2, "640", "a depth needs version 2 or 3, and the text says version 9"),
    ("no-header\nt0 insert 3 640", 2, "640", "a depth needs version 2 or 3, and with no-header there is no version"),
    ("version 2\nt0 lookup 3 640", 2, "640", "only an insert has a depth"),
    ("t0 insert 3 640\nt0 remove 3 0", 2, "0", "only an insert has a depth"),
    ("t0 rang 3 9", 1, "rang", "did you mean range?"),
    ("t0 range 64 9", 1, "64", "a station is a number 0 to 63"),
    ("t0 range", 1, "range", "a station"),
    ("t0 range 3", 1, "3", "the upper end of a range is a number from its station, 3, to 63"),
    ("t0 range 3 64", 1, "64", "from its station, 3, to 63"),
    ("t0 range 9 3", 1, "3", "from its station, 9, to 63"),
    ("t0 range 3 9 4", 1, "4", "nothing may follow '9'"),
    ("version 1\nt0 range 3 9", 2, "range", "a range query needs version 2 or 3, and the text says version 1"),
    ("no-header\nt0 range 3 9", 2, "range", "a range query needs version 2 or 3, and with no-header there is no version"),
    ("t0 range 3 9\nt0 lookup 3 9", 2, "9", "only an insert has a depth"),
    ("t0 insert 3 640\nversion 2", 2, "version", "before the first record"),
    ("version 2\nt0 step 4096\nt1 step", 3, "t1", "at most 4096"),
    ("version 2\nraw 40 00", 2, "00", "a raw record of version 2 is four bytes"),
    ("version 3\nraw 40 00", 2, "00", "a raw record of version 3 is four bytes"),
    ("version 3\nt0 lookup 3 640", 2, "640", "only an insert has a depth"),
    ("version 2\nraw 40 00 0g 00", 2, "0g", "a raw record of version 2 is four bytes"),
    ("version 2\nraw 40 00 00 01 02", 2, "02", "nothing may follow '01'"),
    ("raw 02 09 27 10", 1, "27", "a line `version 2` before the records says so"),
    ("t0 step 0", 1, "0", "1 to 4096"),
    ("t0 step 4097", 1, "4097", "1 to 4096"),
    ("t0 step 2 2", 1, "2", "nothing may follow"),
    ("t0 step 4096\nt1 step", 2, "t1", "at most 4096"),
    ("raw 40", 1, "40", "two hexadecimal digits"),
    ("raw 4 00", 1, "4", "two hexadecimal digits"),
    ("raw 40 0g", 1, "0g", "two hexadecimal digits"),
    ("raw 40 00 00", 1, "00", "nothing may follow"),
    ("raw-byte", 1, "raw-byte", "two hexadecimal digits"),
    ("raw-byte 00\nt0 step", 2, "t0", "raw-byte"),
    ("version 256", 1, "256", "0 to 255"),
    ("version 1\nversion 2", 2, "version", "once"),
    ("count 65536", 1, "65536", "0 to 65535"),
    ("t0 insert 3\ncount 1", 2, "count", "before the first record"),
    ("no-header\ncount 1", 2, "count", "no-header"),
    ("count 1\nno-header", 2, "no-header", "no version and no count"),
    ("no-header 1", 1, "1", "nothing may follow"),
    ("insert 3", 1, "insert", "a line starts with a thread"),
    ("t0 step \ufffd", 1, "\ufffd", "1 to 4096"),
]

# Text in free spelling and the bytes that it means.
SPELLINGS = [
    ("", "010000"),
    ("# only a comment\n", "010000"),
    ("t0 insert 9\nt0 step 3\n", "0100040209000000000000"),
    ("  t0\tinsert   09 # nine\r\n\r\nt0 step#one\r\nt0 step 2", "0100040209000000000000"),
    ("\ufefft3 join 63", "010001353f"),
    ("t1 lookup 0\nt2 remove 7\nt3 split 5", "010003110023073405"),
    ("raw fF Ab", "010001ffab"),
    ("version 4\ncount 513\nt0 step\nraw-byte 07", "040201000007"),
    ("version 3", "030000"),
    ("version 3\nt0 insert 9 640\nt1 range 3 9\nt3 join 63", "030003" + "02090280" + "16030009" + "353f0000"),
    ("version 2", "020000"),
    ("version 2\ncount 513\nt0 step\nraw-byte 07", "0202010000000007"),
    ("t0 insert 3 640\nt1 step", "020002" + "02030280" + "10000000"),
    ("t1 lookup 9\nt0 insert 3 0 # a depth of 0 is one", "020002" + "11090000" + "02030000"),
    ("version 2\nt0 insert 9\nt3 join 63", "020002" + "02090000" + "353f0000"),
    ("# at 9,999 mm\r\n\tt2  insert\t63   09999\r\n", "020001" + "223f270f"),
    ("version 2\nraw fF Ab 00 01", "020001ffab0001"),
    ("t1 lookup 9\nt0 range 3 9", "020002" + "11090000" + "06030009"),
    ("t0 insert 3\nt3  range 0\t063 # all", "020002" + "02030000" + "3600003f"),
    ("version 1\nt0 insert 9 # 640", "0100010209"),
    ("count 1\nt0 insert 9 640", "02000102090280"),
    ("no-header", ""),
    ("no-header\nraw-byte 01", "01"),
    ("no-header\nraw 01 00\nraw-byte 00", "010000"),
]


def random_record(rng, version=1):
    """A record of a version that is a well-formed operation, and its text."""
    thread, action = rng.randrange(4), rng.randrange(6 if version == 1 else 7)
    station = rng.randrange(64) if action else 0
    word = ("step", "lookup", "insert", "remove", "split", "join", "range")[action]
    record, text = bytes([16 * thread + action, station]), f"t{thread} {word}" + (f" {station}" if action else "")
    if version == 1:
        return record, text
    depth = rng.choice((0, 1, 255, 256, 9998, 9999, rng.randrange(10000)))
    extra = {"insert": depth, "range": rng.randrange(station, 64)}.get(word, 0)
    return record + extra.to_bytes(2, "big"), text + (f" {extra}" if word in ("insert", "range") else "")


def spellings(checks):
    checks.group("text form: spellings")
    for text, file in SPELLINGS:
        checks.equal(f"encode {text!r}", text_form.encode(text.encode(), "text"), bytes.fromhex(file))


def round_trips(checks):
    checks.group("text form: round trips")
    rng = random.Random(SEED)
    for size in [0, 1, 2, 4095, 4096] + [rng.randrange(80) for _ in range(600)]:
        made = [random_record(rng) for _ in range(size)]
        file = b"\x01" + size.to_bytes(2, "big") + b"".join(record for record, _ in made)
        text = "".join(f"{line}\n" for _, line in made).encode()
        checks.that(f"encode of {size} operations", text_form.encode(text, "text") == file, text)
        decoded = text_form.decode(file)
        checks.that(f"round trip of {size} operations", text_form.encode(decoded.encode(), "text") == file, decoded)
        checks.that("operations decode to no raw line", "raw" not in decoded, decoded)
    for size in [0, 1, 4096] + [rng.randrange(80) for _ in range(600)]:
        file = b"\x01" + size.to_bytes(2, "big") + rng.randbytes(2 * size)
        decoded = text_form.decode(file).encode()
        checks.that(f"round trip of {size} records of any bytes", text_form.encode(decoded, "text") == file, decoded)
    for size in [0, 1, 2, 3, 4, 5, 8197, 8198] + [rng.randrange(40) for _ in range(600)]:
        file = rng.randbytes(size)
        decoded = text_form.decode(file).encode()
        checks.that(f"round trip of {size} bytes of any kind", text_form.encode(decoded, "text") == file, file)
    deep_round_trips(checks, rng)
    long = b"\x01" + (4097).to_bytes(2, "big") + bytes(2 * 4097)
    checks.that("round trip of 4097 steps", text_form.encode(text_form.decode(long).encode(), "text") == long)


def deep_round_trips(checks, rng):
    """Versions 2 and 3: operations, records of any bytes, and files of any length that start with the version's byte."""
    for version in (2, 3):
        for size in [0, 1, 2, 4095, 4096] + [rng.randrange(80) for _ in range(300)]:
            made = [random_record(rng, version) for _ in range(size)]
            file = bytes([version]) + size.to_bytes(2, "big") + b"".join(record for record, _ in made)
            text = f"version {version}\n" + "".join(f"{line}\n" for _, line in made)
            of = f"{size} operations, version {version}"
            checks.that(f"encode of {of}", text_form.encode(text.encode(), "text") == file, text)
            decoded = text_form.decode(file)
            checks.that(f"{of}, decode to their text", "raw" not in decoded and f"version {version}\n" in decoded, decoded)
            checks.that(f"round trip of {of}", text_form.encode(decoded.encode(), "text") == file, decoded)
        for size in [0, 1, 4096] + [rng.randrange(80) for _ in range(300)]:
            file = bytes([version]) + size.to_bytes(2, "big") + rng.randbytes(4 * size)
            round_trip = text_form.encode(text_form.decode(file).encode(), "text")
            checks.that(f"round trip of {size} records of any bytes, version {version}", round_trip == file)
        for size in [0, 1, 2, 3, 4, 5, 6, 7, 8197, 16388, 32762, 32765] + [rng.randrange(60) for _ in range(300)]:
            file = bytes([version]) + rng.randbytes(size)
            round_trip = text_form.encode(text_form.decode(file).encode(), "text")
            checks.that(f"round trip of version {version} and {size} bytes", round_trip == file, file[:9])


def commands(checks):
    checks.group("text form: encode and decode as commands")
    for at, path in enumerate(examples()[::3] + sorted(VECTORS.glob("*.schedule"))[:3]):
        file = file_of(path)
        binary, text, again = (OUT / "text" / f"{at}.{end}" for end in ("schedule", "txt", "again"))
        binary.write_bytes(file)
        if path.suffix == ".txt":
            status, out, err = tool("encode", path)
            checks.equal(f"encode {path.name}", (status, out, err), (0, file, ""))
        forced = ("--as", "binary")
        checks.equal(f"decode {path.name}", tool("decode", binary, "-o", text, *forced), (0, b"", ""))
        checks.equal(f"encode it again {path.name}", tool("encode", text, "-o", again), (0, b"", ""))
        checks.equal(f"same bytes {path.name}", again.read_bytes(), file)
    checks.equal("standard input", tool("encode", "-", stdin=b"t1 step"), (0, b"\x01\x00\x01\x10\x00", ""))
    checks.equal("standard input back", tool("decode", "-", stdin=b"\x01\x00\x01\x10\x00")[1], b"# 1 record\nt1 step\n")


def bad_lines(checks):
    checks.group("text form: bad lines")
    bad, out = OUT / "text" / "bad.txt", OUT / "text" / "bad.out"
    out.unlink(missing_ok=True)
    for text, line, word, right in BAD_LINES:
        bad.write_bytes(text.encode())
        status, stdout, err = tool("encode", bad, "-o", out)
        column = text.split("\n")[line - 1].rindex(word) + 1
        if f"nothing after '{word}'" in err:
            column += len(word)
        told = f"{bad}:{line}:{column}: " in err and f"'{word}'" in err and right in err and len(err.splitlines()) == 1
        checks.that(f"{text!r} is refused in words", told, err)
        checks.that(f"{text!r} gives no file", status == 1 and stdout == b"" and not out.exists(), (status, stdout))
    bad.write_bytes(b"t0 stop\nt0 step\nt9 step\n")
    for command in (("run",), ("trace",), ("show", "--html", out)):
        status, stdout, err = tool(*command, bad)
        numbers = [text.split(":")[1] for text in err.splitlines()]
        checks.equal(f"{command[0]} names both bad lines", (status, stdout, numbers), (1, b"", ["1", "3"]))


def all_of(checks):
    (OUT / "text").mkdir(parents=True, exist_ok=True)
    spellings(checks)
    round_trips(checks)
    commands(checks)
    bad_lines(checks)
