"""Histories judged by the proved library: the verdict in words, and the picture of a history with its order.

Nothing here searches for an order: every verdict is the library's.
"""

import itertools
from dataclasses import dataclass
from html import escape

import asking
import bench
import history_form
import processes
import text_form
from faults import Fault

REFUSALS = {**bench.REFUSALS, 2: "a version other than 1", 4: "a length other than 3 + 4 * count"}
NO_DEPTHS = "an event has no depth, so only a schedule of version 1 has a history; without its depths and its version line it is one"


@dataclass
class Verdict:
    """What the library says of a history."""

    refusal: int
    accepted: bool
    operations: int
    order: list


@dataclass
class Operation:
    """An operation of a history; `finish` is None while it is open. Events are counted from 1."""

    number: int
    thread: int
    action: int
    station: int
    start: int
    finish: int = None
    mark: int = 0

    def text(self):
        return history_form.event_text(self.thread, self.action, self.station, self.mark)


def _asked(what, sent):
    """What the helper histories.c writes for this input."""
    status, out, _ = processes.communicate([bench.helper("histories"), what], sent)
    if status:
        raise asking.NoAnswer(processes.ended(status))
    return out


def history_of(schedule):
    """The refusal and the history of a schedule's run."""
    if len(schedule) >= bench.FILE_MOST:
        raise bench.BenchError(f"the file has {len(schedule)} bytes, far more than any schedule")
    head, _, history = _asked("history", schedule).partition(b"\n")
    word, *numbers = head.decode("ascii", "replace").split() or [""]
    if word != "history" or len(history) != int(numbers[1]):
        raise asking.NoAnswer("its history is not whole")
    return int(numbers[0]), history


def no_history(refusal, schedule):
    """Why a schedule that is refused whole has no history."""
    if refusal != 2:
        return bench.words(refusal, schedule)
    return REFUSALS[2] + (f": {NO_DEPTHS}" if text_form.is_deep(text_form.version_of(schedule)) else "")


def judged(histories):
    """The Verdict on each history."""
    sent = b"".join(len(file).to_bytes(4, "little") + file for file in histories)
    lines = _asked("judge", sent).decode("ascii", "replace").splitlines()
    if len(lines) != len(histories):
        raise asking.NoAnswer("it ended the process before its answer was whole")
    verdicts = []
    for line in lines:
        refusal, accepted, operations, *order = (int(word) for word in line.split()[1:])
        verdicts.append(Verdict(refusal, bool(accepted), operations, order[: operations if accepted else 0]))
    return verdicts


def operations_of(events):
    """The operations of events that are in place, by their starts."""
    operations, doing = [], {}
    for at, (thread, action, station, mark) in enumerate(events, 1):
        if mark == 0:
            doing[thread] = Operation(len(operations), thread, action, station, at)
            operations.append(doing[thread])
        else:
            doing[thread].finish, doing[thread].mark = at, mark
            del doing[thread]
    return operations


def completions(events):
    """The beginning of a history made whole in every way: each open operation left out, or finished with no or yes."""
    openers = [operation for operation in operations_of(events) if operation.finish is None]
    for ways in itertools.product((None, 1, 2), repeat=len(openers)):
        dropped = {operation.start for operation, way in zip(openers, ways) if way is None}
        kept = [event for at, event in enumerate(events, 1) if at not in dropped]
        yield kept + [(o.thread, o.action, o.station, way) for o, way in zip(openers, ways) if way is not None]


def shortest_beginning(events):
    """How many of the first events already have no order, for a history that has none: an operation that is still
    open there may have been done or not."""
    for count in range(1, len(events) + 1):
        whole = [history_form.file_of(some) for some in completions(events[:count])]
        if not any(verdict.accepted for verdict in judged(whole)):
            return count
    return len(events)


def first_out_of_place(events):
    """The number of the first event out of place."""
    verdicts = judged([history_form.file_of(events[:count]) for count in range(1, len(events) + 1)])
    return next(at for at, verdict in enumerate(verdicts, 1) if verdict.refusal == 21)


def verdict_lines(file):
    """The verdict on a history in words."""
    (verdict,) = judged([file])
    events = history_form.events_of(file)
    if verdict.refusal:
        lines = [f"refused, {verdict.refusal}: {REFUSALS.get(verdict.refusal, 'unknown')}"]
        if verdict.refusal == 21:
            at = first_out_of_place(events)
            lines.append(f"event {at} of {len(events)}: {history_form.event_text(*events[at - 1])}")
        if verdict.refusal == 23:
            lines += [f"event {o.start}: {o.text()}" for o in operations_of(events) if o.finish is None]
        return lines
    operations = operations_of(events)
    many = f"{verdict.operations} operation{'' if verdict.operations == 1 else 's'}"
    if verdict.accepted:
        lines = [f"accepted: {many}, a plain set gives these answers in the order", "order " + (" ".join(map(str, verdict.order)) or "-")]
        return lines + [f"{number:2}  {operations[number].text()}" for number in verdict.order]
    count = shortest_beginning(events)
    lines = [f"no: a plain set gives these answers in no order of the {many}"]
    lines.append(f"the first {count} of {len(events)} events have none already; the last of them: {history_form.event_text(*events[count - 1])}")
    by_event = {o.start: o for o in operations} | {o.finish: o for o in operations}
    shown = (f"{at:2}  {history_form.event_text(*event)}  (operation {by_event[at].number})" for at, event in enumerate(events[:count], 1))
    return lines + list(shown)


# ---- the picture

LANE, UNIT, LEFT, TOP, BAR = 64, 56, 48, 40, 26
STYLE = """
  text { font: 13px sans-serif; fill: #222 }
  .quiet { fill: #777 }
  .lane { stroke: #ddd }
  .bar { fill: #e8eef7; stroke: #4a6fa5 }
  .bad { fill: #fbe3e0; stroke: #b3261e }
  .point { fill: #1b5e20 }
  .path { fill: none; stroke: #1b5e20; stroke-dasharray: 3 3 }
  .number { fill: #fff; font-size: 11px; text-anchor: middle }
"""


def points(operations, order):
    """Where on the line of events each operation of an order is done: after every start before it in the order, and before its finish."""
    groups, latest = {}, 0
    for number in order:
        latest = max(latest, operations[number].start)
        groups.setdefault(latest, []).append(number)
    return {n: at + (i + 1) / (len(group) + 1) for at, group in groups.items() for i, n in enumerate(group)}


def picture(file, name):
    """An SVG picture of a history: a lane for each thread, a bar for each operation, the order's points on them."""
    (verdict,) = judged([file])
    if verdict.refusal:
        raise Fault(f"{name}: refused, {verdict.refusal}: {REFUSALS.get(verdict.refusal, 'unknown')}; there is nothing to draw")
    events = history_form.events_of(file)
    operations = operations_of(events)
    where = points(operations, verdict.order)
    bad = None if verdict.accepted else shortest_beginning(events)
    across = lambda at: LEFT + UNIT * at  # noqa: E731
    down = lambda thread: TOP + LANE * thread + LANE // 2  # noqa: E731
    width, height = across(len(events) + 1), TOP + LANE * text_form.THREADS + 30
    told = "order " + (" ".join(map(str, verdict.order)) or "-") if verdict.accepted else f"no order; none already after event {bad}"
    out = [f'<svg xmlns="http://www.w3.org/2000/svg" width="{width}" height="{height}" viewBox="0 0 {width} {height}">']
    out.append(f"<title>{escape(name)}: {told}</title><style>{STYLE}</style>")
    out.append(f'<rect width="{width}" height="{height}" fill="#fff"/><text x="{LEFT}" y="22">{escape(name)}: {told}</text>')
    for thread in range(text_form.THREADS):
        out.append(f'<line class="lane" x1="{LEFT}" x2="{width}" y1="{down(thread)}" y2="{down(thread)}"/>')
        out.append(f'<text class="quiet" x="12" y="{down(thread) + 5}">t{thread}</text>')
    for at in range(1, len(events) + 1):
        out.append(f'<text class="quiet" x="{across(at)}" y="{height - 10}" text-anchor="middle">{at}</text>')
    for o in operations:
        x, y, wide = across(o.start), down(o.thread), UNIT * (o.finish - o.start)
        kind = "bar bad" if o.finish == bad else "bar"
        words = f"{history_form.NAMES[o.action]} {o.station} {history_form.WORDS[o.mark]}"
        out.append(f'<g id="operation-{o.number}"><rect class="{kind}" x="{x}" y="{y - BAR // 2}" width="{wide}" height="{BAR}" rx="4"/>')
        out.append(f'<text x="{x}" y="{y - BAR // 2 - 5}">{o.number}: {words}</text></g>')
    spots = [(across(where[n]), down(operations[n].thread), n) for n in verdict.order]
    if len(spots) > 1:
        out.append('<polyline class="path" points="' + " ".join(f"{x:.1f},{y}" for x, y, _ in spots) + '"/>')
    for place, (x, y, number) in enumerate(spots, 1):
        out.append(f'<g id="point-{number}"><circle class="point" cx="{x:.1f}" cy="{y}" r="9"/><text class="number" x="{x:.1f}" y="{y + 4}">{place}</text></g>')
    return "\n".join(out + ["</svg>", ""])
