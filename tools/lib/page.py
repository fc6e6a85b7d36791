"""The page that steps through a run: one file of HTML with its style, its program and the run's data inside.

The data is the library's answers and states, stored only where they change, and what telling.py says of each turn.
"""

import json
from pathlib import Path

import bench
import places
import states
import story
import telling
from text_form import is_deep, record_text, records_of, version_of

PARTS = Path(__file__).resolve().parent
PROGRAM = ("page_data.js", "page_tree.js", "page_lanes.js", "page_lists.js", "page.js")
NOTED = ("route", "base", "parent", "found", "neighbour", "main", "grandparent", "other")


def _changes(pairs):
    """[number, value] where the value differs from that of the one before."""
    changes = []
    for number, value in pairs:
        if not changes or changes[-1][1] != value:
            changes.append([number, value])
    return changes


def _histories(run, parts, value):
    """For each thread, node or store its changes, [turn, value]; a part that is the same object is not looked at again."""
    made, last = [], None
    for state in run.states:
        now = parts(state)
        if now is last:
            continue
        last = now
        for number, part in enumerate(now):
            if number == len(made):
                made.append([None, []])
            if made[number][0] is not part:
                made[number][0] = part
                shown = value(state, number, part)
                if not made[number][1] or made[number][1][-1][1] != shown:
                    made[number][1].append([state.turn, shown])
    return [changes for _, changes in made]


def _range(word):
    """A range as its first station and the one after its last; both 0 where it has none."""
    return [(word & -word).bit_length() - 1, word.bit_length()] if word else [0, 0]


def _node(state, number, node):
    """A node as the page draws it: what its kind has, under short names."""
    made = {"kind": node.kind}
    if node.reachable:
        made["range"] = _range(node.range)
    if node.kind == "route":
        made.update(key=node.key, left=node.left, right=node.right)
        if not node.valid:
            made["invalid"] = 1
        if node.mark is not None:
            made["mark"] = node.mark
        return made
    made["stations"] = "" if not node.container else telling.contained(state, number)
    if node.parent is not None:
        made["parent"] = node.parent
    if node.kind == "main":
        made["note"] = f"node {node.union}" if node.stage == "decided" else node.stage
        if node.union is not None:
            grandparent = "no grandparent" if node.grandparent is None else f"grandparent {node.grandparent}"
            made["agreed"] = f"union node {node.union}, neighbour {node.neighbour}, {grandparent}, other child {node.other}"
    elif node.kind == "neighbour":
        made["note"] = f"of main {node.main}"
    elif node.kind == "range":
        made["note"] = f"{node.lower} to {node.upper}, store {node.store}"
    return made


def _held(thread):
    """The numbers of the nodes that a thread's notes and stacks name."""
    numbers = {getattr(thread, note) for note in NOTED}
    for frame in thread.frames:
        numbers |= {frame.base, frame.popped, *frame.stack, *frame.backup}
    return sorted(numbers - {None})


def _thread(state, number, thread):
    if not thread.place:
        return [0, [], []]
    return [thread.place, story.notes_of(state, number), _held(thread)]


def _named(told):
    """The nodes that a step reads, compares or writes."""
    numbers = set()
    for one in (*told.reads, *told.writes):
        if one["cell"] not in ("result", "count"):
            numbers |= {one[key] for key in ("of", "found", "wanted", "from", "to", "node") if type(one.get(key)) is int}
    return sorted(numbers)


def _plain(turns):
    """The plain table of the answers rule, which only rows change: for each station its changes, [turn, depth] or [turn, -1] where it goes.

    An insert's row puts its station in at its depth, present or not; a remove's takes it out. Version 1 has depth 0 throughout."""
    made = {}
    for turn in turns:
        if turn.row:
            word, station, *depth = turn.deed.operation.split()
            if word in ("insert", "remove"):
                now = -1 if word == "remove" else int(depth[0]) if depth else 0
                changes = made.setdefault(int(station), [[0, -1]])
                if changes[-1][1] != now:
                    changes.append([turn.number, now])
    return made


def _operations(turns):
    """Each operation: thread, words, the turns of its start, first step and last (0 where it has none yet), its successful swaps."""
    made, open_at = [], {}
    for turn in turns:
        thread = turn.deed.thread
        if turn.told is None:
            open_at[thread] = len(made)
            made.append([thread, turn.deed.operation, turn.number, 0, 0, []])
            continue
        operation = made[open_at[thread]]
        operation[3] = operation[3] or turn.number
        if turn.told.writes and not turn.told.helps and not turn.told.kills:
            operation[5].append(turn.number)
        if turn.row:
            operation[4] = turn.number
    return made


def _helps(run, turns):
    """Steps that help or kill: turn, thread, 1 for a kill, and the thread that is helped or killed (-1 where it is done)."""
    made = []
    for turn, state in zip(turns, run.states):
        told = turn.told
        if told and (told.helps or told.kills):
            me = state.threads[turn.deed.thread]
            if told.kills or told.place < 60:
                owner = telling.owner_of_main(state, me.main)
            else:
                owner = telling.owner_of_store(state, me.frames[0].store)
            made.append([turn.number, turn.deed.thread, 1 if told.kills else 0, -1 if owner is None else owner])
    return made


def comments_of(given):
    """The comments of a schedule's text: the first and the last turn of a line, the comment lines before it and the comment on it."""
    found, before, lines = [], [], {}
    for at, line in enumerate(given.lines):
        if line:
            record = given.record(at)
            lines[line] = [lines.get(line, [record])[0], record]
    for number, raw in enumerate(given.text.decode("utf-8", "replace").splitlines(), 1):
        words, mark, comment = raw.partition("#")
        if number in lines:
            if before or comment.strip():
                found.append([*lines[number], " ".join(before), comment.strip()])
            before = []
        elif mark and not words.strip():
            before.append(comment.strip())
    return found


def page_data(given, name, one_writer=False):
    """What the page shows, as plain lists."""
    file = given.file
    run = states.run_of(file, one_writer=one_writer)
    listed = bench.answers(file, one_writer=one_writer)
    records = records_of(file)
    turns = list(story.turns_of(file, run)) if run.states else []
    return {
        "name": name,
        "version": version_of(file),
        "records": [record_text(*record) for record in records],
        "comments": comments_of(given),
        "done": run.records if run.states else 0,
        "refusal": run.refusal,
        "where": Path(given.place(run.records + 1)).name if given.lines else "",
        "why": story.refusal_text(run.refusal, file) if run.refusal else "",
        "deeds": [[turn.deed.thread, turn.deed.operation, turn.deed.own_steps] for turn in turns],
        "told": [[turn.told.place, turn.told.text, turn.goes, _named(turn.told)] if turn.told else [0, "starts", turn.goes, []] for turn in turns],
        "rows": [[turn.number, turn.row.text, turn.row.reason] for turn in turns if turn.row],
        "listings": _changes((turn.number, turn.listing) for turn in listed.turns),
        "counts": _changes((turn.number, [turn.stored, turn.used]) for turn in listed.turns),
        "roots": _changes((state.turn, state.root) for state in run.states),
        "shared": _changes((state.turn, [state.shown, state.count]) for state in run.states),
        "threads": _histories(run, lambda state: state.threads, _thread),
        "nodes": _histories(run, lambda state: state.nodes, _node),
        "stores": _histories(run, lambda state: state.stores, lambda state, number, result: None if result is None else telling.set_words(result)),
        "plain": _plain(turns),
        "operations": _operations(turns),
        "helps": _helps(run, turns),
        "places": {place: words for place, words in places.WORDS.items() if any(turn.told and turn.told.place == place or turn.goes == place for turn in turns)},
        **({"deep": True} if is_deep(version_of(file)) else {}),
    }


def page_html(given, name, one_writer=False):
    data = json.dumps(page_data(given, name, one_writer), separators=(",", ":")).replace("<", "\\u003c")
    html = (PARTS / "page.html").read_text()
    for mark, text in (
        ("/* STYLE */", (PARTS / "page.css").read_text()),
        ("/* PROGRAM */", "\n".join((PARTS / part).read_text() for part in PROGRAM)),
        ("/* DATA */", data),
    ):
        html = html.replace(mark, text, 1)
    return html
