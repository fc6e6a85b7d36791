"""The text form of a schedule: text to the file of document 01, or of document 02 (a, b and h) for versions 2 and 3, and back.

docs/SCHEDULES.md describes the form. Every file, also one that 01 refuses, has a text that encodes to it.
"""

import difflib
import re
import unicodedata

from faults import Fault

VERSION = 1
DEEP = 2  # the version whose inserts have depths, and which has range queries
STOP = 3  # the same with the stop of joins on
VERSIONS = (VERSION, DEEP, STOP)  # a file that starts with one of these bytes is a schedule file, any other is text
RECORD = {VERSION: 2, DEEP: 4, STOP: 4}  # bytes of a record; those of version 1 where there is no such version
HEADER = 3
ACTIONS = ("step", "lookup", "insert", "remove", "split", "join", "range")
STEP = 0
INSERT = 2
RANGE = 6  # not of version 1: from the station to an upper end
THREADS = 4
STATIONS = 64
DEPTH_MOST = 9999
RECORDS_MOST = 4096
COUNT_MOST = 0xFFFF
RECORDS_REFUSED_MOST = 8190  # for a file that is refused on purpose
ERRORS_SHOWN = 20

DIRECTIVES = ("raw", "raw-byte", "version", "count", "no-header")
FIRST_WORDS = tuple(f"t{t}" for t in range(THREADS)) + DIRECTIVES
FINISH = "finish"
ACTION_WORDS = ACTIONS + (FINISH,)
SYNONYMS = {
    **dict.fromkeys(("add", "put", "set", "ins", "store"), "insert"),
    **dict.fromkeys(("get", "contains", "find", "has", "search", "read"), "lookup"),
    **dict.fromkeys(("delete", "del", "erase", "discard", "rm"), "remove"),
    **dict.fromkeys(("end", "complete", "done"), FINISH),
    **dict.fromkeys(("next", "turn"), "step"),
    **dict.fromkeys(("query", "scan", "between"), "range"),
    "merge": "join",
}

# How the first bytes of text in another encoding look.
ENCODINGS = {b"\xff\xfe\0\0": "UTF-32", b"\0\0\xfe\xff": "UTF-32", b"\xff\xfe": "UTF-16", b"\xfe\xff": "UTF-16"}
BOM = b"\xef\xbb\xbf"
DEEP_LINE = re.compile(rb"[ \t]*t[0-3][ \t]+(insert[ \t]+[^ \t#]+[ \t]+[^ \t\r#]|range[ \t\r#]|range$)")


class BadText(Fault):
    """Text that is no schedule; holds one message for each bad line."""

    def __init__(self, messages):
        super().__init__("\n".join(messages))


class _BadLine(Exception):
    """What is wrong with a line, and the column where it is."""

    def __init__(self, column, message):
        super().__init__(message)
        self.column = column


def _hint(word, choices):
    meant = SYNONYMS.get(word.lower())
    near = [meant] if meant in choices else difflib.get_close_matches(word.lower(), choices, 1)
    return f" (did you mean {near[0]}?)" if near else ""


def _wrong(word, right, choices=()):
    return _BadLine(word.column, f"'{word}' is wrong: {right}{_hint(word, choices)}")


class _Word(str):
    """A word that knows its column."""

    column = 0


def _found(character):
    """A character that does not belong in the text, in words."""
    code = f"U+{ord(character):04X}"
    if ord(character) < 32 or ord(character) == 127:
        name = {0: "zero byte", 13: "carriage return with no newline after it"}.get(ord(character), "control character")
        return f"a {name}, ^{chr(ord(character) ^ 64)} ({code})"
    return f"a {unicodedata.name(character, 'character that cannot be seen').lower()} ({code})"


def _decoded(raw):
    """The part of a line before a comment, as text that holds nothing but what can be seen, spaces and tabs."""
    raw = raw.split(b"#", 1)[0]
    try:
        text = raw.decode("utf-8")
    except UnicodeDecodeError as error:
        at, byte = error.start, raw[error.start]
        text = raw[:at].decode("utf-8")
        guess = f"; in Latin-1 it is '{chr(byte)}'" if chr(byte).isprintable() else ""
        raise _BadLine(len(text) + 1, f"byte {byte:02x} is no UTF-8{guess}: save the text as UTF-8") from None
    for at, character in enumerate(text):
        if character not in " \t" and (character.isspace() or not character.isprintable()):
            more = ": is the text UTF-16? Save it as UTF-8" if character == "\0" else ""
            more = more or ": only spaces and tabs stand between words"
            raise _BadLine(at + 1, f"{_found(character)} was found{more}")
    return text


def _words(raw):
    words = []
    for match in re.finditer(r"[^ \t]+", _decoded(raw)):
        words.append(_Word(match[0]))
        words[-1].column = match.start() + 1
    return words


class _Line:
    """The words of one line, taken from the front."""

    def __init__(self, words):
        self.words = words
        self.at = 0

    def more(self):
        return self.at < len(self.words)

    def take(self, right):
        if not self.more():
            last = self.words[-1]
            raise _BadLine(last.column + len(last), f"nothing after '{last}': {right}")
        self.at += 1
        return self.words[self.at - 1]

    def choice(self, choices, right):
        word = self.take(right)
        if word not in choices:
            raise _wrong(word, right, choices)
        return word

    def number(self, least, most, right):
        word = self.take(right)
        if not re.fullmatch("[0-9]{1,9}", word) or not least <= int(word) <= most:
            raise _wrong(word, right)
        return int(word)

    def byte(self, right="a byte is two hexadecimal digits, 00 to ff"):
        word = self.take(right)
        if not re.fullmatch("[0-9a-fA-F]{2}", word):
            raise _wrong(word, right)
        return int(word, 16)

    def end(self):
        if self.more():
            raise _wrong(self.words[self.at], f"nothing may follow '{self.words[self.at - 1]}' on this line")


class _Encoder:
    """What the lines so far have given."""

    WHAT = "schedule"

    def __init__(self, finisher):
        self.records = bytearray()
        self.tail = bytearray()
        self.header = {}
        self.lines = []  # the line of each byte of the records and the tail
        self.finisher = finisher
        self.sound = True  # whether all lines so far were good
        self.deep_line = 0  # the first line that version 1 does not have, an insert's depth or a range query; 0 for none

    def prepare(self, lines):
        """What must be known of the whole text before its first line: whether it has a line that version 1 does not have."""
        self.deep_line = next((number for number, raw in enumerate(lines, 1) if DEEP_LINE.match(raw)), 0)

    def version(self):
        """The version of the file: the one that a line says or, where none does, that of its depths and range queries."""
        if "no-header" in self.header:
            return VERSION
        return self.header.get("version", DEEP if self.deep_line else VERSION)

    def width(self):
        return RECORD.get(self.version(), RECORD[VERSION])

    def runs(self):
        """Whether the header is one that a schedule that is carried out has."""
        return set(self.header) <= {"version"} and self.version() in VERSIONS

    def line(self, number, raw):
        words = _words(raw)
        if words:
            try:
                self.content(words)
            finally:
                self.lines += [number] * (len(self.records) + len(self.tail) - len(self.lines))

    def content(self, words):
        line = _Line(words)
        first = line.choice(
            FIRST_WORDS, "a line starts with a thread, t0 to t3, or with raw, raw-byte, version, count or no-header"
        )
        if first == "raw-byte":
            self.tail.append(line.byte())
        elif first in ("version", "count", "no-header"):
            self.header_line(first, line)
        else:
            self.record_line(first, line)
        line.end()

    def header_line(self, first, line):
        if self.records or self.tail:
            raise _wrong(first, "it stands before the first record")
        if first in self.header:
            raise _wrong(first, "it may be given once")
        if self.header and "no-header" in (first, *self.header):
            raise _wrong(first, "no-header leaves no version and no count to give")
        if first == "version":
            self.header[first] = line.number(0, 255, "a version is a number 0 to 255")
        elif first == "count":
            self.header[first] = line.number(0, COUNT_MOST, f"a count is a number 0 to {COUNT_MOST}")
        else:
            self.header[first] = True

    def record_line(self, first, line):
        if self.tail:
            raise _wrong(first, "no record may follow a raw-byte line")
        times = 1
        if first == "raw":
            record = self.raw_record(line)
        else:
            word = line.choice(ACTION_WORDS, "an action is step, finish, lookup, insert, remove, split, join or range")
            action = STEP if word == FINISH else ACTIONS.index(word)
            record = [16 * int(first[1]) + action, *[0] * (self.width() - 1)]
            if word == FINISH:
                times = self.steps_left(word, int(first[1]))
            elif action != STEP:
                if action == RANGE:
                    self.needs_deep("a range query", word)
                record[1] = line.number(0, STATIONS - 1, f"a station is a number 0 to {STATIONS - 1}")
                if action == RANGE:
                    right = f"the upper end of a range is a number from its station, {record[1]}, to {STATIONS - 1}"
                    record[2:] = line.number(record[1], STATIONS - 1, right).to_bytes(2, "big")
                elif line.more():
                    record[2:] = self.depth(action, line).to_bytes(2, "big")
            elif line.more():
                times = self.step_count(line)
        before = len(self.records) // self.width()
        self.records += bytes(record) * times
        most = RECORDS_MOST if self.runs() else RECORDS_REFUSED_MOST
        if before <= most < before + times:
            raise _wrong(
                first,
                f"this line brings the records to {before + times} and a schedule holds at most {RECORDS_MOST}"
                f" (a count line before the records allows {RECORDS_REFUSED_MOST}, for a file that is refused on purpose)",
            )

    def raw_record(self, line):
        if self.width() == RECORD[VERSION]:
            record = [line.byte() for _ in range(RECORD[VERSION])]
            if len(line.words) == 1 + RECORD[DEEP]:
                more = f"nothing may follow '{line.words[line.at - 1]}' on this line: a raw record of four bytes is of version {DEEP}"
                raise _wrong(line.words[line.at], f"{more}, and a line `version {DEEP}` before the records says so")
            return record
        right = f"a raw record of version {self.version()} is four bytes, each two hexadecimal digits, 00 to ff"
        return [line.byte(right) for _ in range(RECORD[DEEP])]

    def depth(self, action, line):
        """The depth of an insert, in a text whose version has them."""
        if action != INSERT:
            if not is_deep(self.version()):
                line.end()
            raise _wrong(line.words[line.at], "only an insert has a depth")
        self.needs_deep("a depth", line.words[line.at])
        return line.number(0, DEPTH_MOST, f"a depth is a number of millimetres, 0 to {DEPTH_MOST}")

    def needs_deep(self, what, word):
        """The text must be of a version that has it."""
        if not is_deep(self.version()):
            told = f"the text says version {self.version()}" if "version" in self.header else "with no-header there is no version"
            raise _wrong(word, f"{what} needs version {DEEP} or {STOP}, and {told}")

    @staticmethod
    def step_count(line):
        if line.words[line.at] == "until":
            raise _wrong(
                line.words[line.at],
                "a number of steps is given; the library does not tell at which place a thread is"
                " (`finish` steps until the operation ends)",
            )
        return line.number(1, RECORDS_MOST, f"a number of steps is 1 to {RECORDS_MOST}")

    def steps_left(self, word, thread):
        """The steps that end the thread's operation here; nothing is asked after a line that is wrong."""
        if not self.runs():
            raise _wrong(word, self.not_run())
        if not self.sound or len(self.records) > self.width() * RECORDS_MOST:
            return 0
        import finishing  # it asks the library, and only a text with this word needs one

        try:
            return self.finisher.steps(self.version(), self.records, thread, RECORDS_MOST)
        except finishing.Endless as error:
            raise _BadLine(word.column, f"'{word}' finds no end: {error}") from None

    def not_run(self):
        """Why a text with this header is not run."""
        if set(self.header) == {"version"}:
            return f"a file of version {self.version()} is not run, so no end can be found"
        return "a file with a count or no-header line is not run, so no end can be found"

    def file(self):
        if "no-header" in self.header:
            return bytes(self.records + self.tail)
        count = self.header.get("count", len(self.records) // self.width())
        header = bytes([self.version()]) + count.to_bytes(2, "big")
        return bytes(header + self.records + self.tail)


class _Finisher:
    """Finds ends of operations; the library is looked for at the first one."""

    def __init__(self):
        self.asked = None

    def steps(self, *question):
        import finishing

        self.asked = self.asked or finishing.Finisher()
        return self.asked.steps(*question)

    def close(self):
        if self.asked:
            self.asked.close()


def _has_words(raw):
    return bool(raw.split(b"#", 1)[0].strip())


def encode_with_lines(text, name, kind=_Encoder):
    """Text (bytes) to the file that this kind of encoder makes, a schedule if none is given, and the line of each of its bytes,
    0 for those of the header."""
    for mark, encoding in ENCODINGS.items():
        if text.startswith(mark):
            raise BadText([f"{name}:1:1: {encoding} text, by its first bytes {mark.hex(' ')}: save it as UTF-8"])
    finisher = _Finisher()
    encoder = kind(finisher)
    messages = []
    lines = text.removeprefix(BOM).split(b"\n")
    encoder.prepare(lines)
    try:
        for number, raw in enumerate(lines, 1):
            if len(messages) == ERRORS_SHOWN:
                if any(map(_has_words, lines[number - 1 :])):
                    messages.append(f"{name}: no more lines looked at after {ERRORS_SHOWN} bad ones")
                break
            try:
                encoder.line(number, raw.removesuffix(b"\r"))
            except _BadLine as bad:
                encoder.sound = False
                messages.append(f"{name}:{number}:{bad.column}: {bad}")
    finally:
        finisher.close()
    if messages:
        if text[0] < 32 and text[:1] not in b"\t\n\r":
            messages.append(f"{name}: it starts with byte {text[0]:02x}, no version: --as binary takes it as a {encoder.WHAT} file")
        raise BadText(messages)
    file = encoder.file()
    return file, [0] * (len(file) - len(encoder.lines)) + encoder.lines


def encode(text, name):
    """Text (bytes) to the schedule file; `name` stands in the messages of BadText."""
    return encode_with_lines(text, name)[0]


def record_text(first, second, *more):
    """One record as a line of text; `more` is what a record of versions 2 and 3 has, two bytes: an insert's depth, a range's upper end."""
    thread, action = first >> 4, first & 15
    extra = int.from_bytes(bytes(more), "big")
    raw = f"raw {bytes((first, second, *more)).hex(' ')}"
    if thread >= THREADS or action >= len(ACTIONS) or second >= STATIONS:
        return raw
    if action == STEP:
        return f"t{thread} step" if second == extra == 0 else raw
    if more and (action == INSERT and extra <= DEPTH_MOST or action == RANGE and second <= extra < STATIONS):
        return f"t{thread} {ACTIONS[action]} {second} {extra}"
    return f"t{thread} {ACTIONS[action]} {second}" if extra == 0 and action != RANGE else raw


def version_of(file):
    """The version whose forms a file has: the one that it says, or 1 where there is no such version."""
    return file[0] if file[:1] and file[0] in VERSIONS else VERSION


def is_deep(version):
    """Whether a version has depths and range queries."""
    return version in (DEEP, STOP)


def records_of(file):
    """The bytes of each record after the header."""
    width = RECORD[version_of(file)]
    return [tuple(file[at : at + width]) for at in range(HEADER, len(file) - width + 1, width)]


def decode(file):
    """The schedule file as text that encodes to the same bytes."""
    records = records_of(file)
    lines = [f"# {len(records)} record{'' if len(records) == 1 else 's'}"]
    if len(file) < HEADER:
        return "\n".join(lines + ["no-header"] + [f"raw-byte {byte:02x}" for byte in file]) + "\n"
    if file[0] != VERSION:
        lines.append(f"version {file[0]}")
    count = int.from_bytes(file[1:HEADER], "big")
    if count != len(records) or count > RECORDS_MOST:
        lines.append(f"count {count}")
    steps = 0
    for at, record in enumerate(records):
        text = record_text(*record)
        steps += 1
        folds = text.endswith("step") and records[at + 1 : at + 2] == [record] and steps < RECORDS_MOST
        if not folds:
            lines.append(f"{text} {steps}" if steps > 1 else text)
            steps = 0
    lines += [f"raw-byte {byte:02x}" for byte in file[HEADER + RECORD[version_of(file)] * len(records) :]]
    return "\n".join(lines) + "\n"


def kind_of(data):
    """What a file that starts so is: bytes where its first byte is a version, else text."""
    return "binary" if data[:1] and data[0] in VERSIONS else "text"
