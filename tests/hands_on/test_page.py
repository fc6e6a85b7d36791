"""Tests of the page in a real browser: loaded, stepped by keys, and what it shows compared turn by turn."""

import functools

import places
import states
import story
import telling
import text_form
from browser import BrowserError, Page
from checks import APART, EXAMPLES, OUT, REASONS, VECTORS, Expected, cut, file_of, least, tool

# Both are many times what they take (docs/SCHEDULES.md): the machine may do other work too.
OPEN_MILLISECONDS_MOST = 30_000  # 4,096 records
STEP_MILLISECONDS_MOST = 120
BYTES_MOST = 2_500_000

STEPPED = ["printed-run", "killed-join", "reasons", "late-lookup", "lost-insert", "helped-join", "deep-join", "refused-11-busy"]
STEPPED += ["depth-lookup", "depth-during-join", "refused-14-depth", "range-helped", "range-join"]
SOME = {"stop-join": range(160, 182), "range-among-joins": range(0, 267, 9), "late-helpers": range(0, 151, 9)}
REFUSED_FILES = {"refused-1-short": 1, "refused-2-version": 2, "refused-3-count": 3, "refused-4-length": 4, "refused-4-length-2": 4}
PICTURE = ("helped-join", 52)
LEGIBLE = 0.75  # the least scale, at which the smallest words are 8 points high

# All that a reader sees, taken from the page's elements.
READ = """(() => {
  const text = (id) => document.getElementById(id).textContent;
  const texts = (node, selector) => [...node.querySelectorAll(selector)].map((e) => e.textContent);
  const seen = (e) => e.getClientRects().length > 0;
  return {
    turn: Number(document.body.dataset.turn), heading: text("turn"), name: text("name"), caption: text("caption"),
    listing: text("listing"), set: text("set"), stored: text("stored"), used: text("used"),
    cells: texts(document, "#grid .in").join(" ") || "-",
    titles: [...document.querySelectorAll("#grid [title]")].map((e) => e.title).filter((title) => title),
    rows: [...document.querySelectorAll("#rows li")].filter(seen).map((row) => texts(row, ".badge, span, .answer").join(" ")),
    reason: texts(document, "#caption .why").join(" "),
    found: texts(document, "#caption .found").join(" "), hint: text("hint"),
    reasons: [...document.querySelectorAll("#rows li")].filter(seen).flatMap((row) => texts(row, ".why")),
    threads: [...document.querySelectorAll(".thread")].map((t) => [texts(t, ".operation")[0], texts(t, ".note")[0]]),
    now: [...document.querySelectorAll("#records .now")].map((e) => Number(e.dataset.turn)),
    nowSeen: [...document.querySelectorAll("#records .now")].every((e) => {
      const list = document.getElementById("records").getBoundingClientRect(), item = e.getBoundingClientRect();
      return item.top >= list.top - 1 && item.bottom <= list.bottom + 1; }),
    refusal: seen(document.getElementById("refusal")) ? text("refusal") : null,
    plain: text("plain"), gone: text("gone"), comment: text("comment"), differs: document.getElementById("plain").classList.contains("differs"),
    places: [...document.querySelectorAll(".thread")].map((t) => texts(t, ".where")[0] || ""),
    notes: [...document.querySelectorAll(".thread")].map((t) => texts(t, ".notes li")),
    moments: texts(document, ".moments"),
    fresh: [...document.querySelectorAll("#canvas .new")].map((g) => Number(g.dataset.number)),
    apart: [...document.querySelectorAll("#canvas .held-node")].map((g) => Number(g.dataset.number)),
    titled: [...document.querySelectorAll("#canvas .node, #canvas .held-node")].map((g) => texts(g, "title")[0]),
    holders: texts(document, "#canvas .holder text").sort(),
    nodes: [...document.querySelectorAll("#canvas .node")].map((g) => {
      const box = g.querySelector(".shape").getBBox();
      return { line: [g.dataset.depth, texts(g, ".word")[0], ...texts(g, ".value, .station")].join(" "),
        number: Number(texts(g, ".number")[0]), marks: texts(g, ".mark"), stage: texts(g, ".stage")[0] || "",
        inside: texts(g, ".station:not(.outside):not(.none)"),
        box: [box.x, box.y, box.x + box.width, box.y + box.height] }; }),
    slider: Number(document.getElementById("slider").value),
  };
})()"""

# 101 steps, each drawn before the next; the middle one's time in milliseconds for the program and the layout.
STEPS = 101
STEP_ON = """(async () => {
  const taken = [];
  for (let i = 0; i < 101; i++) {
    const since = performance.now();
    document.dispatchEvent(new KeyboardEvent("keydown", { key: "ArrowRight" }));
    taken.push(document.body.offsetHeight && performance.now() - since);
    await new Promise((drawn) => requestAnimationFrame(() => setTimeout(drawn)));
  }
  return taken.sort((a, b) => a - b)[50];
})()"""

# Whether a node of the tree is inside the frame of the picture.
IN_SIGHT = """(() => {
  const frame = document.getElementById("canvas").getBoundingClientRect();
  return [...document.querySelectorAll("#canvas .node .shape")].some((e) => {
    const box = e.getBoundingClientRect();
    return box.left >= frame.left && box.right <= frame.right && box.top >= frame.top && box.bottom <= frame.bottom; });
})()"""

# The relative luminance of the ink and of the ground.
LUMINANCES = """(() => {
  const linear = (x) => (x <= 0.03928 ? x / 12.92 : ((x + 0.055) / 1.055) ** 2.4);
  const luminance = (colour) => {
    const [r, g, b] = colour.match(/[\\d.]+/g).map((x) => linear(x / 255));
    return 0.2126 * r + 0.7152 * g + 0.0722 * b; };
  const style = getComputedStyle(document.body);
  return [luminance(style.color), luminance(style.backgroundColor)];
})()"""


def station_of(word):
    """The station of a word of a container or the set, which in version 2 has a depth behind it."""
    return int(word.split("=")[0])


@functools.lru_cache(4)
def run_of(file):
    return states.run_of(file)


def preorder(state, number=None):
    """The nodes that the tree has, in the order of the listing."""
    node = state.nodes[state.root if number is None else number]
    return [node, *preorder(state, node.left), *preorder(state, node.right)] if node.kind == "route" else [node]


def marks_of(node):
    marks = [] if node.mark is None else [f"\u2691 {node.mark}"]
    return marks + (["not valid"] if node.kind == "route" and not node.valid else [])


def stage_of(node):
    if node.kind == "main":
        return f"node {node.union}" if node.stage == "decided" else node.stage
    return {"neighbour": f"of main {node.main}", "range": f"{node.lower} to {node.upper}, store {node.store}"}.get(node.kind, "")


def title_of(state, node):
    """All of a node's fields, as the page tells whoever points at it."""

    def link(number, word):
        return f"no {word}" if number is None else f"{word} {number}"

    if node.kind == "route":
        fields = [f"key {node.key}", f"left {node.left}", f"right {node.right}", "valid" if node.valid else "not valid", link(node.mark, "join mark")]
    else:
        fields = [link(node.parent, "parent"), f"stations {telling.contained(state, node.number)}", *filter(None, [stage_of(node)])]
    if node.union is not None:
        fields.append(f"union node {node.union}, neighbour {node.neighbour}, {link(node.grandparent, 'grandparent')}, other child {node.other}")
    ends = states.stations(node.range)
    fields.append("cut off" if not node.reachable else f"range {ends[0]} to {ends[-1]}" if ends else "an empty range")
    return f"{node.kind} {node.number}: {'; '.join(fields)}"


def held_by(thread):
    """The nodes that a thread's notes and stacks name."""
    numbers = {getattr(thread, note) for note in story.NOTES}
    for frame in thread.frames:
        numbers |= {frame.base, frame.popped, *frame.stack, *frame.backup}
    return numbers - {None}


def compare_state(checks, what, shown, file, turn):
    """What the page shows of the state after a turn: numbers, marks, stages, places, notes, what is new, what went, what is held apart."""
    run = run_of(file)
    state = run.states[min(turn, run.records)]
    before = run.states[turn - 1] if 0 < turn <= run.records else state
    drawn = [(node["number"], node["marks"], node["stage"]) for node in shown["nodes"]]
    checks.equal(f"{what}: numbers, marks, stages", drawn, [(node.number, marks_of(node), stage_of(node)) for node in preorder(state)])
    wheres = [f"{thread.place} {places.words(thread.place)}" if thread.place else "" for thread in state.threads]
    checks.equal(f"{what}: places in words", shown["places"], wheres)
    checks.equal(f"{what}: notes", shown["notes"], [story.notes_of(state, thread) if me.place else [] for thread, me in enumerate(state.threads)])
    checks.equal(f"{what}: ringed are the new numbers", sorted(shown["fresh"]), [n for n in range(before.used, state.used) if state.nodes[n].reachable])
    gone = [node.name().replace("range base", "range") for node in before.nodes if node.reachable and not state.nodes[node.number].reachable]
    checks.equal(f"{what}: what went", shown["gone"], f"went at this turn: {', '.join(gone)}" if gone else "")
    held = [held_by(thread) for thread in state.threads]
    apart = sorted(n for n in set().union(*held) if not state.nodes[n].reachable)
    checks.equal(f"{what}: cut off and held", shown["apart"], apart)
    checks.equal(f"{what}: all fields of a node", shown["titled"], [title_of(state, node) for node in [*preorder(state), *(state.nodes[n] for n in apart)]])
    checks.equal(f"{what}: who holds what", shown["holders"], sorted(f"t{t}" for t, numbers in enumerate(held) for _ in numbers))
    checks.equal(f"{what}: the plain set is the tree's", (shown["plain"], shown["differs"]), (shown["set"], False))


def compare(checks, page, name, file, turn):
    """The page at a turn against the printed run of the schedule cut there, and against the state there."""
    shown, expected = page.evaluate(READ), Expected(file, turn)
    what = f"{name} turn {turn}"
    compare_state(checks, what, shown, file, turn)
    checks.equal(f"{what}: turn", (shown["turn"], shown["slider"], shown["now"]), (turn, turn, [turn] if turn else []))
    checks.that(f"{what}: the record is in sight", shown["nowSeen"])
    checks.equal(f"{what}: listing", shown["listing"].splitlines(), expected.listing)
    checks.equal(f"{what}: drawing", [node["line"] for node in shown["nodes"]], expected.listing[:-1])
    inside = sorted((word for node in shown["nodes"] for word in node["inside"]), key=station_of)
    checks.equal(f"{what}: stations not struck out", " ".join(inside) or "-", expected.set)
    checks.equal(f"{what}: stations stored", str(len(inside)), expected.stored)
    checks.equal(
        f"{what}: set and counts",
        [shown[key] for key in ("set", "cells", "stored", "used")],
        [expected.set, " ".join(str(station_of(word)) for word in expected.set.split() if word != "-") or "-", expected.stored, expected.used],
    )
    titles = [f"station {word.replace('=', ': ')} mm" for word in expected.set.split() if "=" in word]
    checks.equal(f"{what}: the depths in the set", shown["titles"], titles)
    checks.equal(f"{what}: rows", shown["rows"], expected.rows)
    operations = [given[0] if given else "idle" for given in expected.open.values()]
    checks.equal(f"{what}: threads", [thread[0] for thread in shown["threads"]], operations)
    for (_, note), given in zip(shown["threads"], expected.open.values()):
        if given:
            checks.equal(f"{what}: own steps", note, f"{given[1]} own step{'' if given[1] == 1 else 's'}")
    refused = f"refused {expected.refusal}:" if expected.refusal else None
    checks.that(f"{what}: refusal", refused in shown["refusal"] if refused else shown["refusal"] is None, shown["refusal"])
    geometry(checks, what, shown["nodes"])


def geometry(checks, what, nodes):
    """Each route stands above and between its children, and no two nodes lie over each other."""
    boxes = [node["box"] for node in nodes]
    apart = all(
        a[2] <= b[0] or b[2] <= a[0] or a[3] <= b[1] or b[3] <= a[1] for at, a in enumerate(boxes) for b in boxes[:at]
    )
    checks.that(f"{what}: no nodes over each other", apart, boxes)
    at = 0

    def middle(box):
        return (box[0] + box[2]) / 2

    def walk():
        nonlocal at
        node = nodes[at]
        at += 1
        if node["line"].split()[1] != "route":
            return node["box"], True
        left, left_fine = walk()
        right, right_fine = walk()
        fine = middle(left) < middle(node["box"]) < middle(right) and min(left[1], right[1]) > node["box"][3]
        return node["box"], fine and left_fine and right_fine

    checks.that(f"{what}: routes above and between", walk()[1], boxes)


def show(checks, path):
    """Writes the page of a schedule; gives its address."""
    html = OUT / "page" / f"{path.stem}.html"
    html.unlink(missing_ok=True)
    status, _, err = tool("show", path, "--html", html)
    refused = "refused, " in err
    checks.equal(f"show {path.name}", (status, bool(err)), (3 if refused else 0, refused))
    return html.as_uri()


def last_turn(file):
    whole = Expected(file, len(text_form.records_of(file)))
    return whole.done + (1 if whole.refusal else 0)


def finish(checks, page, name):
    checks.equal(f"{name}: no request leaves the page and no error", page.complaints(), [])


def stepped(checks, page):
    checks.group("page: every turn of short runs, by the arrow keys")
    for name in STEPPED:
        path = EXAMPLES / f"{name}.txt"
        file = file_of(path)
        page.open(show(checks, path))
        last = last_turn(file)
        for turn in range(last + 1):
            compare(checks, page, name, file, turn)
            page.press("ArrowRight")
        compare(checks, page, f"{name}, past the end", file, last)
        page.press("ArrowLeft")
        compare(checks, page, f"{name}, back", file, last - 1)
        finish(checks, page, name)


def some_turns(checks, page):
    checks.group("page: turns of longer runs, of each version")
    for name, turns in SOME.items():
        path = EXAMPLES / f"{name}.txt"
        file, url = file_of(path), show(checks, path)
        last = last_turn(file)
        for turn in turns:
            page.open(f"{url}#at={min(turn, last)}")
            compare(checks, page, name, file, min(turn, last))
        finish(checks, page, name)
    shared = "['count', 'stores'].map((id) => (document.getElementById(id).getClientRects().length ? document.getElementById(id).textContent : null))"
    for name, turn, told in (("stop-join", 170, ["1", "none"]), ("stop-join", 172, ["0", "none"]), ("range-query", 31, [None, "0: unset"]),
                             ("range-query", 51, [None, "0: 3 9 12; 1: 9 12"]), ("join", 3, [None, None])):  # fmt: skip
        page.open(show(checks, EXAMPLES / f"{name}.txt") + f"#at={turn}")
        checks.equal(f"{name} turn {turn}: the count and the stores", page.evaluate(shared), told)


def reasons(checks, page):
    checks.group("page: why splits and joins did nothing")
    url = show(checks, EXAMPLES / "reasons.txt")
    for turn in range(max(REASONS) + 1):
        page.open(f"{url}#at={turn}")
        shown = page.evaluate(READ)
        checks.equal(f"reason at turn {turn}", shown["reason"], REASONS.get(turn, ""))
        checks.equal(f"reasons up to turn {turn}", shown["reasons"], [REASONS[at] for at in sorted(REASONS) if at <= turn])
    finish(checks, page, "reasons")


def depths(checks, page):
    checks.group("page: depths")
    url = show(checks, EXAMPLES / "depth-lookup.txt")
    for turn, row, found in ((15, "t1 lookup 9 yes 0", "0"), (44, "t1 lookup 3 yes 640", "640"), (46, "t2 lookup 3 yes 815", "815"), (48, "t3 lookup 4 no", "")):
        page.open(f"{url}#at={turn}")
        shown = page.evaluate(READ)
        checks.equal(f"the row of turn {turn}", (shown["rows"][-1], shown["found"]), (row, found))
        checks.that(f"its caption at turn {turn}", shown["caption"].endswith("".join(row.split()[3:])), shown["caption"])
    checks.that("what the words mean is said", "3=640: station 3 at a depth of 640 mm" in shown["hint"], shown["hint"])
    checks.that("a depth is told with its unit", "mm" in page.evaluate("getComputedStyle(document.querySelector('.found'), '::after').content"))
    records = page.evaluate("[...document.querySelectorAll('#records span')].map((e) => e.textContent).filter((text) => /^insert/.test(text))")
    checks.equal("the records with their depths", records, ["insert 3 640", "insert 9 0", "insert 3 815"])
    finish(checks, page, "depth-lookup")
    page.open(show(checks, EXAMPLES / "late-lookup.txt") + "#at=41")
    shown = page.evaluate(READ)
    checks.equal("version 1 has none of it", (shown["rows"][-1], shown["found"], "640" in shown["hint"]), ("t1 lookup 3 yes", "", False))


def ranges(checks, page):
    checks.group("page: range queries")
    url = show(checks, EXAMPLES / "range-piggyback.txt")
    for turn, row, found in ((33, "t2 range 0 yes", "found 3 9"), (37, "t1 range 5 yes", "found 9")):
        page.open(f"{url}#at={turn}")
        shown = page.evaluate(READ)
        checks.equal(f"the row of turn {turn}", (shown["rows"][-1], shown["reason"]), (row, found))
    kinds = "[...document.querySelectorAll('#canvas .node.range')].length"
    checks.equal("range bases have a colour of their own", page.evaluate(kinds), 2)
    legend = "document.getElementById('range-key').getClientRects().length > 0"
    checks.that("the legend names the kind", page.evaluate(legend))
    records = page.evaluate("[...document.querySelectorAll('#records span')].map((e) => e.textContent).filter((text) => /^range/.test(text))")
    checks.equal("the records with their ends", records, ["range 5 9", "range 0 9"])
    finish(checks, page, "range-piggyback")
    page.open(show(checks, EXAMPLES / "depth-lookup.txt"))
    checks.that("and not where there is none", not page.evaluate(legend))


def moved(checks, page):
    checks.group("page: keys, slider, list and address on 4,096 records")
    path = EXAMPLES / "full-schedule.txt"
    file, name = file_of(path), path.stem
    url = show(checks, path)
    size = (OUT / "page" / f"{name}.html").stat().st_size
    checks.that(f"the page has {size} bytes", size < BYTES_MOST)

    def opened():
        page.open(url)
        return page.evaluate("performance.getEntriesByType('navigation')[0].loadEventEnd")

    took = least(opened, OPEN_MILLISECONDS_MOST)
    checks.that(f"it opens in {took:.0f} ms", 0 < took < OPEN_MILLISECONDS_MOST)
    compare(checks, page, name, file, 0)
    for key, shift, turn in [
        ("End", False, 4096), ("ArrowUp", False, 4095), ("PageUp", False, 4075), ("Home", False, 0),
        ("ArrowLeft", False, 0), ("PageDown", False, 20), ("ArrowDown", False, 21),
    ]:  # fmt: skip
        page.press(key, shift)
        compare(checks, page, f"{name} after {key}", file, turn)
    page.press("ArrowRight", shift=True)
    on = page.evaluate(READ)["turn"]
    before, after = Expected(file, on - 1), Expected(file, on)
    checks.that("Shift and arrow find a change", (before.listing, before.rows) != (after.listing, after.rows), on)
    checks.that("and the next one", all(
        (Expected(file, turn).listing, Expected(file, turn).rows) == (before.listing, before.rows) for turn in range(21, on)
    ))
    page.press("ArrowLeft", shift=True)
    checks.that("and back", page.evaluate(READ)["turn"] <= 21)
    page.click("#records li[data-turn='30']")
    compare(checks, page, f"{name} after a click in the list", file, 30)
    page.click("#on")
    compare(checks, page, f"{name} after the button", file, 31)
    page.click("#slider", 0.5)
    turn = page.evaluate(READ)["turn"]
    checks.that("the slider goes to the middle", 1900 < turn < 2200, turn)
    compare(checks, page, f"{name} after the slider", file, turn)
    page.press("ArrowRight")
    compare(checks, page, f"{name}: an arrow on the slider is one turn", file, turn + 1)
    for turn in (1000, 2400, 3333):
        page.open(f"{url}#at={turn}")
        compare(checks, page, f"{name} by its address", file, turn)

    middle = 0

    def stepped_on():
        nonlocal middle
        page.open(f"{url}#at=3333")
        spent, middle = page.step_cost(STEPS, STEP_ON)
        return spent

    took = least(stepped_on, STEP_MILLISECONDS_MOST)
    checks.that(f"a step takes {took:.1f} ms of processor time", 0 < took < STEP_MILLISECONDS_MOST)
    print(f"  a step of 4,096 records: {took:.1f} ms of the page's processor time; the middle one {middle:.1f} ms before it is drawn", flush=True)
    compare(checks, page, name, file, 3333 + STEPS)
    finish(checks, page, name)


def controls(checks, page):
    """The box for a turn, play and pause, search, lanes and comments."""
    checks.group("page: turn box, play, search, lanes, comments")
    url = show(checks, EXAMPLES / "helped-join.txt")
    page.open(url)
    page.write("#jump", "52")
    page.press("Enter")
    shown = page.evaluate(READ)
    checks.equal("the box leads to a turn", (shown["turn"], shown["comment"]), (52, "t1 reaches the neighbour and completes the join"))
    page.press("ArrowRight")
    checks.equal("and the arrows work again", page.evaluate(READ)["turn"], 53)
    page.write("#jump", "")
    page.press("Enter")
    checks.equal("an empty box leads nowhere", page.evaluate(READ)["turn"], 53)
    fits = """[...document.querySelectorAll('.legend .key')].filter((e) => e.getClientRects().length).every((e) => {
      const box = e.getBoundingClientRect(), panel = e.closest('.panel').getBoundingClientRect();
      return e.scrollWidth <= e.clientWidth + 1 && box.left >= panel.left && box.right <= panel.right; })"""
    checks.that("what the drawings mean is told whole", page.evaluate(fits))
    comments = page.evaluate("[...document.querySelectorAll('#records .comment')].map((e) => [Number(e.dataset.turn), e.textContent])")
    checks.that("comments stand in the list", [46, "t1 reaches the neighbour and completes the join"] in comments and comments[0][0] == 1, comments)
    for words, turns, first in (("place 35", 2, 43), ("node 12", None, 44), ("station 12", None, 13), ("kills", 0, None), ("helps", 9, 50), ("t1", 20, 45)):
        page.open(url)
        page.write("#find", words)
        page.press("Enter")
        told = page.evaluate("document.getElementById('matches').textContent")
        if turns == 0:
            checks.equal(f"nothing is found for {words}", told, "none")
            continue
        checks.equal(f"the first turn of {words}", page.evaluate(READ)["turn"], first)
        checks.that(f"how many turns has {words}", turns is None or told == f"1 of {turns} turns", told)
    page.press("Enter", shift=True)
    checks.equal("the one before the first is the last", page.evaluate(READ)["turn"], 64)
    page.open(url)
    page.evaluate("document.getElementById('speed').value = '10'")
    page.press(" ")
    page.evaluate("new Promise((done) => { const wait = () => (Number(document.body.dataset.turn) > 2 ? done() : setTimeout(wait, 20)); wait(); })")
    page.press(" ")
    at = page.evaluate(READ)["turn"]
    page.evaluate("new Promise((done) => setTimeout(done, 300))")
    checks.equal("the space key plays and pauses", page.evaluate(READ)["turn"], at)
    lanes = page.evaluate("[...document.querySelectorAll('#lane-drawing .operation title')].map((e) => e.textContent)")
    checks.that("a lane has each operation", "t1 insert 10: turns 45 to 64" in lanes and len(lanes) == 7, lanes)
    helped = page.evaluate("[...document.querySelectorAll('#lane-drawing .help title')].map((e) => e.textContent)")
    checks.equal("and who helps", helped, ["t1 helps t0: turns 50 to 58"])
    swaps = page.evaluate("[...document.querySelectorAll('#lane-drawing .swap')].map((e) => e.getAttribute('d').split('M').length - 1)")
    checks.equal("and what each wrote itself", swaps, [1, 1, 1, 1, 1, 5, 1])
    x = page.evaluate("(laneX(30)) / document.getElementById('lane-drawing').getBoundingClientRect().width")
    page.click("#lane-drawing", x)
    checks.equal("a click in the lanes leads to a turn", page.evaluate(READ)["turn"], 30)
    page.open(show(checks, EXAMPLES / "killed-join.txt") + "#at=25")
    killed = page.evaluate("[...document.querySelectorAll('#lane-drawing .kill title')].map((e) => e.textContent)")
    checks.equal("a kill", killed, ["t1 kills the join of t0: turn 25"])
    for name, turn, moments in (
        ("late-lookup", 41, "3 in at turns 14 to 39, 3 out at turns 40 to 41"),
        ("late-lookup", 14, "3 in at turn 14"),
        ("depth-lookup", 44, "3=640 in at turns 17 to 42, 3=815 in at turns 43 to 44"),
        ("range-query", 34, "as in the plain table at turns 21 to 34"),
        ("range-helped", 44, "as in the plain table at turns 14 to 39"),
    ):
        page.open(show(checks, EXAMPLES / f"{name}.txt") + f"#at={turn}")
        checks.equal(f"{name} turn {turn}: the moments of a span", page.evaluate(READ)["moments"], [moments])
    page.open(show(checks, EXAMPLES / "late-lookup.txt") + "#at=40")
    apart = page.evaluate("[...document.querySelectorAll('#canvas .held-node .stage')].map((e) => e.textContent)")
    checks.equal("a route that is cut off, with its valid and join mark", apart, ["key 9: 6, 8, not valid, \u2691 6"])
    page.open(show(checks, EXAMPLES / "refused-11-busy.txt"))
    wide = "[...document.querySelectorAll('#records li.undone span')].every((e) => e.getBoundingClientRect().width > 60)"
    checks.that("records that are not carried out stand in their lines", page.evaluate(wide))
    finish(checks, page, "controls")


def by_keys(checks, page):
    """The tree moved and told without a mouse."""
    checks.group("page: the tree by the keyboard and for a screen reader")
    page.open(show(checks, EXAMPLES / "stop-join.txt") + "#at=170")
    at = "[view.x, view.y, view.scale, Number(document.body.dataset.turn)]"
    began = page.evaluate(at)
    page.press("+")
    checks.that("plus zooms", page.evaluate(at)[2] > began[2])
    page.press("-")
    checks.that("minus zooms back", abs(page.evaluate(at)[2] - began[2]) < 0.01)
    page.press("0")
    checks.that("0 shows all of it", page.evaluate("document.getElementById('overview').hasAttribute('hidden')"))
    for _ in range(9):
        page.press("+")
    page.evaluate("document.getElementById('canvas').focus()")
    before = page.evaluate(at)
    page.press("ArrowDown")
    after = page.evaluate(at)
    checks.that("an arrow moves the tree that has the focus", after[1] < before[1] and after[3] == 170, (before, after))
    page.evaluate("document.getElementById('canvas').blur()")
    page.press("ArrowRight")
    checks.equal("and steps without it", page.evaluate(at)[3], 171)
    page.click("#canvas")
    page.press("ArrowRight")
    checks.equal("a click gives it no focus", page.evaluate(at)[3], 172)
    words = "document.getElementById('tree-words').textContent"
    page.open(show(checks, EXAMPLES / "helped-join.txt") + "#at=52")
    told = "route 3 has the join mark of main 10; route 7 has the join mark of main 10; main 10: node 12; neighbour 12: of main 10; main 10 is held by t0 and t1."
    checks.equal("marks, stages and who holds what", page.evaluate(words), told)
    page.open(show(checks, EXAMPLES / "range-among-joins.txt") + "#at=162")
    shown = page.evaluate(words)
    checks.that("nodes cut off", "main 21, which is cut off, is held by t0 and t1" in shown and "range 14: 0 to 63, store 0" in shown, shown)
    finish(checks, page, "by keys")


def large(checks, page):
    """A tree of 127 nodes: fit, zoom, pan, overview; and a phone."""
    checks.group("page: large trees, narrow screens")
    lines = [f"t0 insert {station}\nt0 finish" for station in range(64)]

    def split(low, high):
        if high - low > 1:
            lines.append(f"t0 split {low}\nt0 finish")
            split(low, (low + high) // 2)
            split((low + high) // 2, high)

    split(0, 64)
    path = OUT / "large.txt"
    path.write_text("\n".join(lines) + "\n")
    url, file = show(checks, path), file_of(path)
    drawn = """(() => { const box = document.getElementById('canvas').getBoundingClientRect();
      const seen = [...document.querySelectorAll('#canvas .node .shape')].map((e) => e.getBoundingClientRect()).filter((b) => b.left >= box.left - 1 && b.right <= box.right + 1 && b.top >= box.top - 1 && b.bottom <= box.bottom + 1).length;
      return [document.querySelectorAll('#canvas .node').length, seen, view.scale, document.getElementById('overview').hasAttribute('hidden'), document.querySelectorAll('#overview-nodes > *').length]; })()"""
    sixty = next(state.turn for state in run_of(file).states if sum(node.reachable for node in state.nodes) >= 60)
    for turn, nodes in ((sixty, 61), (859, 127)):
        page.open(f"{url}#at={turn}")
        compare(checks, page, "large", file, turn)
        count, seen, scale, hidden, over = page.evaluate(drawn)
        checks.that(f"{count} nodes: legible, with an overview", scale >= LEGIBLE and not hidden and over == count and 0 < seen < count, (seen, scale, hidden, over))
        checks.equal("the number of nodes", count, nodes)
        fresh = page.evaluate("document.querySelector('#canvas .new .shape').getBoundingClientRect().toJSON()")
        inside = page.evaluate("document.getElementById('canvas').getBoundingClientRect().toJSON()")
        checks.that("what is new is in sight", inside["left"] <= fresh["x"] <= inside["right"] and inside["top"] <= fresh["y"] <= inside["bottom"], (fresh, inside))
        over = page.evaluate("document.getElementById('overview').getBoundingClientRect().toJSON()")
        beside = fresh["right"] <= over["left"] or over["right"] <= fresh["left"] or fresh["bottom"] <= over["top"] or over["bottom"] <= fresh["top"]
        checks.that("and not below the overview", beside, (fresh, over))
        page.click("#fit")
        count, seen, scale, hidden, _ = page.evaluate(drawn)
        checks.that("fit shows all of it", seen == count and hidden, (seen, count, scale))
        page.click("#larger")
        checks.that("larger", page.evaluate("view.scale") > scale)
        was = page.evaluate("[view.x, view.y]")
        page.click("#larger")
        page.click("#larger")
        page.click("#overview", 0.05)
        checks.that("a click in the overview leads there", page.evaluate("[view.x, view.y]") != was)
    alone(checks, page, file, url, drawn)

    def split_on():
        page.open(f"{url}#at=740")
        return page.step_cost(STEPS, STEP_ON)[0]

    took = least(split_on, STEP_MILLISECONDS_MOST)
    checks.that(f"a step with some 110 nodes takes {took:.1f} ms of processor time", 0 < took < STEP_MILLISECONDS_MOST)
    print(f"  a step with some 110 nodes: {took:.1f} ms of the page's processor time", flush=True)
    page.open(f"{url}#at=846")
    still = "document.getElementById('tree-svg').style.transform"
    before = page.evaluate(still)
    page.press("ArrowRight")
    checks.that("a node that is in sight moves nothing", page.evaluate(f"{still} === {before!r} && {IN_SIGHT}"), before)
    page.open(f"{url}#at=256")
    inside = """(() => { const panel = document.getElementById('caption'), box = panel.getBoundingClientRect();
      return panel.scrollTop === 0 && [...panel.children].every((e) => { const b = e.getBoundingClientRect(); return b.top >= box.top && b.bottom <= box.bottom; }); })()"""
    checks.that("what a turn does is in sight, with 64 stations too", page.evaluate(inside))
    page.resize(390, 844)
    for name, turn in (("range-among-joins", 162), ("helped-join", 52)):
        page.open(show(checks, EXAMPLES / f"{name}.txt") + f"#at={turn}")
        wide = page.evaluate("[document.documentElement.scrollWidth, innerWidth]")
        checks.that(f"{name} on a phone: nothing lies beyond the edge", wide[0] <= wide[1], wide)
        tops = page.evaluate("['.caption', '.tree', '.threads-panel', '.records'].map((name) => document.querySelector(name).getBoundingClientRect().top)")
        checks.equal(f"{name} on a phone: the threads before the records", tops, sorted(tops))
        compare(checks, page, f"{name} on a phone", file_of(EXAMPLES / f"{name}.txt"), turn)
    page.resize(1280, 800)
    labels = page.evaluate("[...document.querySelectorAll('button, input, select')].every((e) => e.getAttribute('aria-label') || e.textContent.trim())")
    checks.that("every control has a name", labels)
    headings = page.evaluate("[...document.querySelectorAll('h2')].map((e) => e.textContent.trim().split(' ')[0] + (e.querySelector('button, .legend') ? ' and more' : ''))")
    checks.equal("a heading is a heading alone", headings, ["Records", "Listing", "Tree", "Lanes", "Threads", "Set", "Rows"])
    label = page.evaluate("document.getElementById('tree-svg').getAttribute('aria-label')")
    checks.that("the tree is told to a screen reader", label.startswith("The tree: 0 route 9, 1 normal 3,"), label)
    finish(checks, page, "large")


def alone(checks, page, file, url, drawn):
    """The tree alone in the window, and back."""
    page.open(f"{url}#at=859")
    seen = page.evaluate(drawn)[1]
    page.click("#large")
    page.evaluate("new Promise((drawn) => requestAnimationFrame(() => setTimeout(drawn)))")
    count, more, scale, hidden, over = page.evaluate(drawn)
    checks.that("the tree alone: more of it, legible, with an overview", more >= 2 * seen and scale >= LEGIBLE and not hidden and over == count, (seen, more, scale))
    others = "['records', 'threads', 'lanes'].some((id) => document.getElementById(id).getClientRects().length)"
    checks.that("nothing else", not page.evaluate(others) and page.evaluate("document.getElementById('large').getAttribute('aria-pressed')") == "true")
    page.press("ArrowLeft")
    page.press("w")
    page.evaluate("new Promise((drawn) => requestAnimationFrame(() => setTimeout(drawn)))")
    checks.that("and back by its key", page.evaluate(others) and page.evaluate(drawn)[1] <= seen)
    compare(checks, page, "large, back from the tree alone", file, 858)


def deep(checks, page):
    checks.group("page: a tree that the frame does not hold")
    name = "longest-lookup"
    url = show(checks, EXAMPLES / f"{name}.txt")
    page.open(f"{url}#at=3792")
    checks.that(f"{name}: opened at a turn that makes no node, some node is in sight", page.evaluate(IN_SIGHT))
    page.open(url)
    page.press("End")
    checks.that(f"{name}: likewise after End", page.evaluate(IN_SIGHT))
    finish(checks, page, name)


def vectors(checks, page):
    checks.group("page: some turns of the vectors")
    for path in sorted(VECTORS.glob("*.schedule"))[::6]:
        file = path.read_bytes()
        url = show(checks, path)
        if file[:1] not in (b"\x01", b"\x02", b"\x03") or len(cut(file, int.from_bytes(file[1:3], "big"))) != len(file):
            continue
        last = last_turn(file)
        for turn in sorted({last // 3, 2 * last // 3, last}):
            page.open(f"{url}#at={turn}")
            compare(checks, page, path.stem, file, turn)
        finish(checks, page, path.stem)


def refused_files(checks, page):
    checks.group("page: files refused whole")
    for name, refusal in REFUSED_FILES.items():
        page.open(show(checks, EXAMPLES / f"{name}.txt"))
        for key in ("ArrowRight", "End", "Home"):
            page.press(key)
        shown = page.evaluate(READ)
        rest = [shown[key] for key in ("turn", "nodes", "listing", "rows")]
        checks.equal(f"{name}: nothing but the refusal", rest, [0, [], "", []])
        checks.that(f"{name}: the refusal", f"refused {refusal}:" in (shown["refusal"] or ""), shown)
        finish(checks, page, name)
    page.open(show(checks, EXAMPLES / "refused-11-busy.txt"))
    page.press("End")
    place = tool("run", EXAMPLES / "refused-11-busy.txt")[2].split(": ")[0].rsplit("/", 1)[1]
    shown = page.evaluate(READ)["refusal"] or ""
    checks.that("a refused record's place in the text", f", {place}, is refused 11:" in shown, shown)


def looks(checks, page):
    """Light and dark: readable ink on the ground, and a picture of each."""
    checks.group("page: light and dark")
    name, turn = PICTURE
    url = f"{show(checks, EXAMPLES / f'{name}.txt')}#at={turn}"
    grounds = []
    for scheme in ("light", "dark"):
        page.scheme(scheme)
        page.open(url)
        ink, ground = page.evaluate(LUMINANCES)
        contrast = (max(ink, ground) + 0.05) / (min(ink, ground) + 0.05)
        checks.that(f"{scheme}: contrast {contrast:.1f}", contrast > 7)
        grounds.append(ground)
        picture = OUT / f"step-{scheme}.png"
        page.screenshot(picture)
        checks.that(f"{scheme}: a picture", picture.stat().st_size > 20_000)
    checks.that("light is light and dark is dark", grounds[0] > 0.7 and grounds[1] < 0.1, grounds)
    page.scheme("light")


def all_of(checks):
    (OUT / "page").mkdir(parents=True, exist_ok=True)
    try:
        with Page(APART / "browser") as page:
            for test in (stepped, some_turns, reasons, depths, ranges, moved, controls, by_keys, large, deep, vectors, refused_files, looks):
                test(checks, page)
    except BrowserError as error:
        checks.that("the browser goes on", False, error)
