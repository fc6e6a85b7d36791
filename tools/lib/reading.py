"""A schedule as it is given, bytes or text, read up to a bound, and where in the text each record stands."""

import sys
from dataclasses import dataclass

import text_form
from faults import Fault

TEXT_MOST = 1 << 20


def _schedule(version):
    """A schedule of a version: the length of the longest, and that of the longest that a text of it can be."""
    width = text_form.RECORD[version]
    most = text_form.HEADER + width * text_form.RECORDS_REFUSED_MOST + width - 1
    return "schedule", text_form.HEADER + width * text_form.RECORDS_MOST, most


# Kinds of files, by what their first byte says: the name, the length of the longest, and a little more, up to which one is read.
SCHEDULE = {version: _schedule(version) for version in text_form.VERSIONS}
HISTORY = {text_form.VERSION: ("history", text_form.HEADER + 4 * text_form.COUNT_MOST, 1 << 18)}
BYTES_MOST = SCHEDULE[text_form.VERSION][2]


@dataclass
class Given:
    """A schedule file, the name that it was given by and, where it was text, the line of each of its bytes and the text."""

    name: str
    file: bytes
    lines: list
    text: bytes = b""

    def place(self, record):
        """Where a record, counted from 1, stands: the name, and the line where there is one."""
        at = text_form.HEADER + text_form.RECORD[text_form.version_of(self.file)] * (record - 1)
        return f"{self.name}:{self.lines[at]}" if at < len(self.lines) and self.lines[at] else self.name

    def record(self, byte):
        """The record, counted from 1, that a byte of the file lies in."""
        return (byte - text_form.HEADER) // text_form.RECORD[text_form.version_of(self.file)] + 1


def _stream(name):
    if name != "-":
        return open(name, "rb")
    if sys.stdin is None:
        raise Fault("schedule: standard input is closed")
    return sys.stdin.buffer


def read(name, kind=None, longest=SCHEDULE):
    """The bytes of a file, or of standard input for '-', and whether they are 'text' or 'binary'; `longest` is what bytes may be."""
    stream = _stream(name)
    try:
        data = stream.read(1)
        kind = kind or text_form.kind_of(data)
        of, length, bytes_most = longest.get(text_form.version_of(data), longest[text_form.VERSION])
        most = bytes_most if kind == "binary" else TEXT_MOST
        while data and len(data) <= most:
            more = stream.read(most + 1 - len(data))
            if not more:
                break
            data += more
    except OSError as error:
        raise Fault(f"schedule: {name}: {error.strerror}") from None
    finally:
        if name != "-":
            stream.close()
    if len(data) > most:
        what = f"the longest {of} has {length:,} bytes" if kind == "binary" else "no more is read"
        raise Fault(f"schedule: {name}: more than {most:,} bytes {'of text ' if kind == 'text' else ''}are given; {what}")
    return data, kind


def given(name, kind=None):
    """The schedule that a file holds or, where it is text, encodes to."""
    data, kind = read(name, kind)
    if kind == "binary":
        return Given(name, data, [])
    return Given(name, *text_form.encode_with_lines(data, name), data)
