"""The text form of a history: text to the file of document 02 (j) and back, one event a line.

docs/SCHEDULES.md describes the form. Every file, also one that Judge refuses, has a text that encodes to it.
"""

import text_form

EVENT = 4
ACTIONS = {"lookup": 1, "insert": 2, "remove": 3}
NAMES = {number: name for name, number in ACTIONS.items()}
ANSWERS = {"no": 1, "yes": 2}
WORDS = {number: word for word, number in ANSWERS.items()}


class _Encoder(text_form._Encoder):
    """What the lines so far have given; header and stray bytes are those of a schedule's text."""

    WHAT = "history"

    def prepare(self, lines):
        """No event has a depth."""

    def record_line(self, first, line):
        if self.tail:
            raise text_form._wrong(first, "no event may follow a raw-byte line")
        if first == "raw":
            event = [line.byte() for _ in range(EVENT)]
        else:
            action = ACTIONS[line.choice(tuple(ACTIONS), "an action of a history is lookup, insert or remove")]
            most = text_form.STATIONS - 1
            event = [int(first[1]), action, line.number(0, most, f"a station is a number 0 to {most}"), 0]
            if line.more():
                event[3] = ANSWERS[line.choice(tuple(ANSWERS), "a finish says yes or no, a start says nothing")]
        self.records += bytes(event)
        if len(self.records) > EVENT * text_form.COUNT_MOST:
            raise text_form._wrong(first, f"a history holds at most {text_form.COUNT_MOST} events")

    def file(self):
        if "no-header" in self.header:
            return bytes(self.records + self.tail)
        count = self.header.get("count", len(self.records) // EVENT)
        header = bytes([self.header.get("version", text_form.VERSION)]) + count.to_bytes(2, "big")
        return bytes(header + self.records + self.tail)


def encode(text, name):
    """Text (bytes) to the history file; `name` stands in the messages of BadText."""
    return text_form.encode_with_lines(text, name, _Encoder)[0]


def events_of(file):
    """The events after the header, four numbers each."""
    body = file[text_form.HEADER :]
    return [tuple(body[at : at + EVENT]) for at in range(0, len(body) - len(body) % EVENT, EVENT)]


def event_text(thread, action, station, mark):
    """One event as a line of text."""
    if thread < text_form.THREADS and action in NAMES and station < text_form.STATIONS and mark <= 2:
        return f"t{thread} {NAMES[action]} {station}" + (f" {WORDS[mark]}" if mark else "")
    return f"raw {thread:02x} {action:02x} {station:02x} {mark:02x}"


def decode(file):
    """The history file as text that encodes to the same bytes."""
    events = events_of(file)
    lines = [f"# {len(events)} event{'' if len(events) == 1 else 's'}"]
    if len(file) < text_form.HEADER:
        return "\n".join(lines + ["no-header"] + [f"raw-byte {byte:02x}" for byte in file]) + "\n"
    if file[0] != text_form.VERSION:
        lines.append(f"version {file[0]}")
    count = int.from_bytes(file[1 : text_form.HEADER], "big")
    if count != len(events):
        lines.append(f"count {count}")
    lines += [event_text(*event) for event in events]
    lines += [f"raw-byte {byte:02x}" for byte in file[text_form.HEADER + EVENT * len(events) :]]
    return "\n".join(lines) + "\n"


def file_of(events):
    """The history file of some events."""
    return bytes([text_form.VERSION]) + len(events).to_bytes(2, "big") + b"".join(bytes(event) for event in events)
