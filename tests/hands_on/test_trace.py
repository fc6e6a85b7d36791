"""Tests of what a turn is told to do: 30 turns of 01's runs by hand, every turn against the states, --json, and cover."""

import json
import re

import cover
import places
import states
import story
from checks import EXAMPLES, OUT, VECTORS, examples, file_of, least, spent, tool

SECONDS_MOST = 8  # of processor time, for 4,096 records; alone it takes under 2

# What 01's places say of these turns of its runs, and no more.
TURNS = {
    "concurrent-inserts": {
        1: "t0 starts insert 3; goes to 1",
        7: "t0 at 10 (swap the root or look left), insert 3, own step 3: root from normal 0 to new normal 1 with 3; row: t0 insert 3 yes",
        8: "t1 at 10 (swap the root or look left), insert 9, own step 3: swap of the root fails, found normal 1; goes to 15",
        9: "t1 at 15 (see what blocks), insert 9, own step 4: normal 0 is replaceable; goes to 1",
        12: "t1 at 10 (swap the root or look left), insert 9, own step 7: root from normal 1 to new normal 2 with 3 9; row: t1 insert 9 yes",
    },
    "insert-twice": {
        8: "t0 at 10 (swap the root or look left), insert 9, own step 3: root from normal 1 to new normal 2 with 9; row: t0 insert 9 no",
    },
    "single-station-split": {
        7: "t0 at 3 (check the base), split 3, own step 2: normal 1 has 3, too few to split; row: t0 split 3 no (too few stations)",
    },
    "printed-run": {
        12: "t0 at 10 (swap the root or look left), split 3, own step 3: root from normal 2 to new route 3 with key 9 over new normal 4 with 3"
        " and new normal 5 with 9; row: t0 split 3 yes",
    },
    "join": {
        16: "t0 at 3 (check the base), join 3, own step 3: normal 4 is replaceable; goes to 20",
        17: "t0 at 20 (look left for the base), join 3, own step 4: left of route 3 is normal 4; goes to 22",
        20: "t0 at 25 (put the main), join 3, own step 7: left of route 3 from normal 4 to new main 6 with 3; goes to 26",
        21: "t0 at 26 (put the neighbour: swap the root or look left), join 3, own step 8: left of route 3 is main 6, not normal 5; goes to 28",
        23: "t0 at 29 (put the neighbour: swap right), join 3, own step 10: right of route 3 from normal 5 to new neighbour 7 with 9; goes to 30",
        24: "t0 at 30 (mark the parent), join 3, own step 11: join mark of route 3 from none to main 6; goes to 31",
        25: "t0 at 31 (read the root for the grandparent), join 3, own step 12: the root is route 3; the parent, so there is no grandparent; goes to 34",
        26: "t0 at 34 (read what will stay), join 3, own step 13: right of route 3 is neighbour 7; goes to 35",
        27: "t0 at 35 (decide the join), join 3, own step 14: stage of main 6 from preparing to node 8, whose container is 3 9; goes to 40",
        31: "t0 at 44 (put the union node: swap right), join 3, own step 18: right of route 3 from neighbour 7 to neighbour 8; goes to 45",
        32: "t0 at 45 (the parent is not valid), join 3, own step 19: route 3 is no longer valid; goes to 46",
        33: "t0 at 46 (cut the parent out: swap the root or look left), join 3, own step 20: root from route 3 to neighbour 8; route 3, main 6 cut off; goes to 51",
        34: "t0 at 51 (the join is done), join 3, own step 21: stage of main 6 from node 8 to done; row: t0 join 3 yes",
    },
    "killed-join": {
        24: "t1 at 3 (check the base), insert 4, own step 3: main 6 is preparing; goes to 16",
        25: "t1 at 16 (kill the join), insert 4, own step 4: kills the join of main 6 (t0's join 3): stage of main 6 from preparing to aborted; goes to 1",
        28: "t1 at 3 (check the base), insert 4, own step 7: main 6 is replaceable, for it is aborted; goes to 10",
        30: "t1 at 11 (swap left), insert 4, own step 9: left of route 3 from main 6 to new normal 7 with 3 4; row: t1 insert 4 yes",
        37: "t0 at 35 (decide the join), join 3, own step 14: swap of stage of main 6 fails, found aborted; goes to 37",
        38: "t0 at 37 (clear the parent's mark), join 3, own step 15: join mark of route 3 from main 6 to none; goes to 38",
        39: "t0 at 38 (stand down), join 3, own step 16: stage of main 6 was aborted already; row: t0 join 3 no (stood down)",
    },
    "late-lookup": {
        14: "t1 at 1 (read the root), lookup 3, own step 1: the root is route 3; goes to 2",
        41: "t1 at 2 (read the child), lookup 3, own step 2: left of route 3, which is cut off, is main 6; station 3 is in its container, 3; row: t1 lookup 3 yes",
    },
}

# Words that name helping, killing, riding and failing, in runs of the gallery.
NAMED = {
    "helped-join": ["t1 at 42 (put the union node: swap left), insert 10, own step 7: helps the join of main 10 (t0's join 12): left of route 7 from"],
    "late-helpers": [
        "helps the join of main 14 (t0's join 12): swap of right of route 3 fails, found neighbour 16; goes to 50",
        "helps the join of main 14 (its owner is done): main 14 was done already; goes to 1",
    ],
    "range-helped": ["helps the query of store 0 (t1's range "],
    "range-piggyback": ["range base 6 is of store 0, which is unset; rides on its query, 5 to 9; goes to 60"],
    "range-among-joins": ["t1 at 16 (kill the join), range 0 63, own step 13: kills the join of main 15 (t0's join 9)", "main 18 is done; goes to 15"],
    "stop-far": ["count from 0 to 1; goes to 2", "count from 1 to 0; row: t1 lookup 20 no"],
    "refused-12-idle": ["refused 12"],
}


def told(name, *more):
    return tool("trace", EXAMPLES / f"{name}.txt", *more)[1].decode()


def by_hand(checks):
    checks.group("trace: turns by hand")
    checks.equal("there are 30", sum(map(len, TURNS.values())), 30)
    for name, turns in TURNS.items():
        lines = {int(line.split()[1]): line[11:] for line in told(name).splitlines() if line.startswith("turn ")}
        for turn, text in turns.items():
            checks.equal(f"{name} turn {turn}", lines.get(turn), text)
    for name, texts in NAMED.items():
        trace = told(name)
        checks.that(f"what is named in {name}", all(text in trace for text in texts), trace)


def cells(state):
    """All of shared memory that a step may write, by cell."""
    made = {"root": state.root, "count": state.count}
    for node in state.nodes:
        for cell in ("left", "right", "mark", "valid", "stage"):
            made[cell, node.number] = getattr(node, cell)
    made.update({("result", number): result for number, result in enumerate(state.stores)})
    return made


def by_states(checks):
    """Each turn's reads stand in the state before, its writes are all that differs in the one after, and it says where the thread is then."""
    checks.group("trace: every turn against the states")
    for path in [*examples(), *sorted(VECTORS.glob("*.schedule"))[::7]]:
        file = file_of(path)
        run = states.run_of(file)
        if not run.states:
            continue
        wrong, pairs = [], list(zip(run.states, run.states[1:]))
        for turn, (before, after) in zip(story.turns_of(file, run), pairs):
            was, now = cells(before), cells(after)
            differ = {cell for cell in was if was[cell] != now[cell]} | {cell for cell in now if cell not in was and cell[0] == "result" and now[cell] is not None}
            writes, reads = (turn.told.writes, turn.told.reads) if turn.told else ([], [])
            names = {(one["cell"].replace("join ", ""), one["of"]) if one["of"] is not None else one["cell"] for one in writes}
            if names != differ:
                wrong.append((turn.number, names, differ))
            for one in writes:
                key = (one["cell"].replace("join ", ""), one["of"]) if one["of"] is not None else one["cell"]
                if (was.get(key), now[key]) != (one["from"], one["to"]):
                    wrong.append((turn.number, one))
            for one in reads:
                key = (one["cell"].replace("join ", ""), one["of"]) if one["of"] is not None else one["cell"]
                if one["cell"] != "kind" and was[key] != one["found"]:
                    wrong.append((turn.number, one))
            if turn.goes != after.threads[turn.deed.thread].place or (turn.told and turn.told.place != before.threads[turn.deed.thread].place):
                wrong.append((turn.number, turn.goes))
            if turn.told and turn.told.outcome not in cover.OUTCOMES[turn.told.place]:
                wrong.append((turn.number, turn.told.outcome))
        checks.that(f"turns of {path.name}", pairs == [] or not wrong, wrong[:3])
    checks.that("every place has words", set(places.WORDS) == set(cover.OUTCOMES))


def as_json(checks):
    checks.group("trace --json")
    for name in ("killed-join", "range-helped", "stop-join", "refused-13-numbers", "refused-3-count"):
        status, out, _ = tool("trace", EXAMPLES / f"{name}.txt", "--json")
        objects = [json.loads(line) for line in out.decode().splitlines()]
        lines = [line for line in told(name).splitlines() if re.match(r"turn [1-9]", line)]
        if name == "refused-3-count":
            checks.equal(f"{name}: a file that is refused", (status, objects[0]["refusal"], len(objects)), (3, 3, 1))
            continue
        checks.equal(f"{name}: an object for each record", len(objects), len(lines))
        for line, one in zip(lines, objects):
            if one.get("refusal"):
                checks.that(f"{name} {one['turn']}", f"refused {one['refusal']}: {one['why']}" in line, line)
            elif one["place"] is None:
                checks.that(f"{name} {one['turn']}", line.endswith(f"t{one['thread']} starts {one['operation']}; goes to {one['goes_to']}"), line)
            else:
                end = f"goes to {one['goes_to']}" if one["goes_to"] else f"row: {one['row']['text']}"
                checks.that(f"{name} {one['turn']}", f"t{one['thread']} at {one['place']} ({one['place_words']})" in line and f"{one['told']}; {end}" in line, line)
    killed = [json.loads(line) for line in told("killed-join", "--json").splitlines()][24]
    write = {"cell": "stage", "of": 6, "from": "preparing", "to": "aborted"}
    checks.equal("a kill", (killed["place"], killed["outcome"], killed["writes"]), (16, "succeeds", [write]))
    checks.that("--at and --json", tool("trace", EXAMPLES / "join.txt", "--json", "--at", "3")[0] == 2)


def speed(checks):
    checks.group("trace and page: speed")
    path = EXAMPLES / "full-schedule.txt"
    tool("trace", path)
    for words in (["trace", path], ["show", path, "--html", OUT / "speed.html"]):
        took = least(lambda: spent(lambda: tool(*words)), SECONDS_MOST)
        checks.that(f"{words[0]}: 4,096 records in {took:.1f} s of processor time", took < SECONDS_MOST)


def covers(checks):
    checks.group("cover")
    status, out, err = tool("cover", EXAMPLES, VECTORS)
    lines = out.decode().splitlines()
    every = len(cover.possible())
    checks.that("gallery and vectors", lines and f"places {len(cover.OUTCOMES)} of {len(cover.OUTCOMES)}, outcomes {every} of {every}, refusals 14 of 14" in lines[-1], lines[-1:])
    checks.equal("nothing is left out, nothing is strange", [line for line in lines if line.startswith(("left out", "STRANGE"))], [])
    never = [line for line in lines if line.startswith("cannot be reached: ")]
    checks.equal("what cannot be reached, with the reason", (status, len(never)), (0, len(cover.NEVER)))
    few = tool("cover", EXAMPLES / "printed-run.txt")[1].decode()
    checks.that("one schedule: what it reaches", " 10  swap the root or look left: the root, succeeds 3\n" in few, few)
    checks.that("and leaves out", "left out: 16 (kill the join), succeeds\n" in few and "left out: refusal 13, " in few, few)
    checks.that("by version", "left out: 3 (check the base), insert: unset (versions 2 and 3)\n" in few and "left out: 19 (are joins stopped), stopped (version 3)\n" in few, few)
    checks.that("what a query alone comes to", "left out: 15 (see what blocks), preparing (versions 2 and 3)\n" in few, few)
    checks.that("refusals by version", "left out: refusal 16, a swap that needs a store of a range query, and all 64 are used (versions 2 and 3)\n" in few, few)
    checks.that("its figures", few.endswith("1 schedule, 12 records: places 3 of 62, outcomes 4 of 202, refusals 0 of 14\n"), few[-200:])
    checks.that("what its version can reach", "version 1 alone: places 3 of 40, outcomes 4 of 130, refusals 0 of 11\n" in few, few[-400:])
    deep = tool("cover", EXAMPLES / "printed-run.txt", EXAMPLES / "depth-lookup.txt")[1].decode()
    checks.that("likewise of two", "versions 1 and 2 alone: places " in deep and " of 59, outcomes " in deep, deep[-400:])
    checks.that("of all three there is nothing to add", not [line for line in lines if " alone: places " in line])
    file = OUT / "cover.schedule"
    file.write_bytes(file_of(EXAMPLES / "second-writer.txt"))
    writer = tool("cover", file, "--one-writer")[1].decode()
    checks.that("one writer", "refusal 24, " in writer and "refusals 1 of 15" in writer, writer[-200:])
    empty = OUT / "empty-folder"
    empty.mkdir(exist_ok=True)
    checks.that("a folder with no schedule", tool("cover", empty)[0] == 1)
    checks.that("no file", tool("cover")[0] == 2 and tool("cover", "nowhere.txt")[0] == 1)


def all_of(checks):
    by_hand(checks)
    by_states(checks)
    as_json(checks)
    speed(checks)
    covers(checks)
