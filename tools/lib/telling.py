"""What a step did, told from the states before and after it: what was read or compared, what was written, where its thread goes.

Nothing is carried out here. What a step reads is named by its place and notes and stands in the state before; what it wrote is
what differs in the state after; where the thread goes is the place that it then has.
"""

from typing import NamedTuple

import places
from states import stations

LEFT, RIGHT = "left", "right"
# The first places of the swaps of a base, in four steps each.
SWAPS = (10, 26, 41, 64, 77)
SWAP_STEPS = {first + step: (first, step) for first in SWAPS for step in range(4)}


class Told(NamedTuple):
    """A step: its reads and writes as lists of fields for programs, its outcome in two words or three, and the text of it."""

    place: int
    outcome: str
    reads: list
    writes: list
    helps: str
    kills: str
    text: str


def named(state, number):
    """A node by kind and number; a number alone where there is no such node."""
    return state.nodes[number].name() if number is not None and number < state.used else "none" if number is None else f"{number}"


def contained(state, number):
    """The stations of a node's container."""
    node = state.nodes[number]
    if state.deep():
        words = [f"{station}={depth}" for station, depth in zip(stations(node.container), node.depths)]
    else:
        words = [str(station) for station in stations(node.container)]
    return " ".join(words) or "-"


def set_words(word):
    return " ".join(map(str, stations(word))) or "-"


def owner_of_main(state, main):
    """The thread whose join this main is, while it is under way."""
    return next((t for t, th in enumerate(state.threads) if th.own and th.main == main), None)


def owner_of_store(state, store):
    """The thread whose query has this store first in its own frame: the one whose ends its range bases have."""
    for t, th in enumerate(state.threads):
        if th.action == 6 and th.frames and th.frames[-1].store == store and (th.frames[-1].lower, th.frames[-1].upper) == (th.station, th.extra):
            return t
    return None


def whose(state, thread):
    return f"t{thread}'s {state.threads[thread].operation()}" if thread is not None else "its owner is done"


class _Step:
    """A step of thread t between two states."""

    def __init__(self, before, after, t):
        self.b, self.a, self.t = before, after, t
        self.me, self.then = before.threads[t], after.threads[t]
        self.frame = self.me.frames[0] if self.me.frames else None
        self.reads, self.writes, self.said, self.added_words = [], [], [], []
        self.outcome = ""

    # ---- what is read

    def node(self, number):
        return self.b.nodes[number]

    def name(self, number):
        return named(self.b, number)

    def cell(self, what, of=None):
        """A cell in words: the root, left of route 3, stage of main 6; a route that is cut off is said to be."""
        if what == "root":
            return "the root"
        node = self.node(of)
        return f"{what} of {node.name()}" + (", which is cut off," if node.kind == "route" and not node.reachable else "")

    def value(self, what, of):
        return self.b.root if what == "root" else getattr(self.node(of), "mark" if what == "join mark" else what)

    def read(self, what, of=None, say=True):
        """A read of a node's cell; gives what was found."""
        found = self.value(what, of)
        self.reads.append({"cell": what, "of": of, "found": found})
        if say:
            self.say(f"{self.cell(what, of)} is {self.name(found)}")
        return found

    def say(self, text):
        self.said.append(text)

    def compare(self, what, of, wanted, yes, no):
        """A read that is compared with a node."""
        found = self.value(what, of)
        self.reads.append({"cell": what, "of": of, "found": found, "wanted": wanted})
        equal = found == wanted
        self.say(f"{self.cell(what, of)} is {self.name(found)}" + ("" if equal else f", not {self.name(wanted)}"))
        self.outcome = yes if equal else no
        return equal

    def swap(self, what, of, wanted):
        """A swap: it succeeded if the cell has another value in the state after."""
        found = self.value(what, of)
        after = self.a.root if what == "root" else getattr(self.a.nodes[of], "mark" if what == "join mark" else what)
        done = after != found
        self.reads.append({"cell": what, "of": of, "found": found, "wanted": wanted, "swap": "succeeds" if done else "fails"})
        if not done:
            is_stage = what == "stage"
            words = f"node {self.node(of).union}" if is_stage and found == "decided" else found if is_stage else self.name(found)
            self.say(f"swap of {self.cell(what, of)} fails, found {words}")
        self.outcome = ("the root, " if what == "root" else "") + ("succeeds" if done else "fails")

    def kind_read(self, number):
        self.outcome = "a route" if self.node(number).kind == "route" else "a base"

    def stage_words(self, main):
        node = self.node(main)
        return f"decided for node {node.union}" if node.stage == "decided" else node.stage

    def check(self, number):
        """The check of a base: its case, and in words."""
        node = self.node(number)
        if node.kind == "normal":
            case, text = "replaceable", f"{node.name()} is replaceable"
            self.reads.append({"cell": "kind", "of": number, "found": node.kind})
        elif node.kind == "range":
            is_set = self.b.stores[node.store] is not None
            case = "replaceable" if is_set else "unset"
            text = f"{node.name()} is replaceable, for store {node.store} is set" if is_set else f"{node.name()} is of store {node.store}, which is unset"
            self.reads.append({"cell": "result", "of": node.store, "found": self.b.stores[node.store]})
        else:
            main = number if node.kind == "main" else node.main
            stage = self.node(main).stage
            case = {"preparing": "preparing", "decided": "decided", "aborted": "replaceable"}.get(stage, "stale" if node.kind == "main" else "replaceable")
            is_own, stage_words = main == number, self.stage_words(main)
            if case == "replaceable":
                text = f"{node.name()} is replaceable, for {'it' if is_own else f'main {main}'} is {stage_words}"
            else:
                text = f"{node.name()} is {stage_words}" if is_own else f"main {main} of {node.name()} is {stage_words}"
            self.reads.append({"cell": "stage", "of": main, "found": stage})
        self.say(text)
        return case

    # ---- what was written

    def new(self, number):
        """A node that the step made, in words."""
        node = self.a.nodes[number]
        if number < self.b.used:
            return named(self.a, number)
        if node.kind == "route":
            return f"new route {number} with key {node.key} over {self.new(node.left)} and {self.new(node.right)}"
        more = f", asked {node.lower} to {node.upper}, store {node.store}" if node.kind == "range" else ""
        return f"new {node.name()} with {contained(self.a, number)}{more}"

    def wrote(self, cell, of, was, becomes, text):
        self.writes.append({"cell": cell, "of": of, "from": was, "to": becomes})
        self.say(text)

    def differences(self):
        """All of shared memory that is not as it was."""
        b, a = self.b, self.a
        if a.root != b.root:
            self.wrote("root", None, b.root, a.root, f"root from {named(b, b.root)} to {self.new(a.root)}")
        same = a.nodes is b.nodes
        for number, (was, now) in enumerate(() if same else zip(b.nodes, a.nodes)):
            if was is now or was == now:
                continue
            for side in (LEFT, RIGHT):
                if was.child(side) != now.child(side):
                    text = f"{side} of route {number} from {named(b, was.child(side))} to {self.new(now.child(side))}"
                    self.wrote(side, number, was.child(side), now.child(side), text)
            if was.mark != now.mark:
                text = f"join mark of route {number} from {named(b, was.mark)} to {named(a, now.mark)}"
                self.wrote("join mark", number, was.mark, now.mark, text)
            if was.valid != now.valid:
                self.wrote("valid", number, was.valid, now.valid, f"route {number} is no longer valid")
            if was.stage != now.stage:
                becomes = f"node {now.union}, whose container is {contained(a, now.union)}" if now.stage == "decided" else now.stage
                was_words = f"node {was.union}" if was.stage == "decided" else was.stage
                self.wrote("stage", number, was.stage, now.stage, f"stage of main {number} from {was_words} to {becomes}")
                if now.stage == "decided":
                    self.writes[-1]["node"] = now.union
        for store, now in enumerate(a.stores):
            was = b.stores[store] if store < len(b.stores) else None
            if was != now:
                self.wrote("result", store, was, now, f"result of store {store} from unset to {set_words(now)}")
        if a.count != b.count:
            self.wrote("count", None, b.count, a.count, f"count from {b.count} to {a.count}")
        gone = [] if same else [n for n, node in enumerate(a.nodes[: b.used]) if b.nodes[n].reachable and not node.reachable]
        if any(b.nodes[n].kind == "route" for n in gone):
            self.say(f"{', '.join(named(b, n) for n in gone)} cut off")

    # ---- the places

    def search(self):
        """1 and 2."""
        me = self.me
        if me.place == 1:
            found = self.read("root")
        else:
            route = self.node(me.route)
            found = self.read(LEFT if me.station < route.key else RIGHT, me.route)
        self.kind_read(found)
        if me.place == 2 and self.b.stop and me.read == 7:
            self.outcome = "the 8th child"
            self.say("the child of the 8th route")
        elif me.place == 2 and me.read == 8:
            self.outcome = f"counted, {self.outcome}"
        elif self.then.place == 0:
            self.looked(found)

    def looked(self, number):
        """A lookup ends at a base."""
        inside = self.node(number).container >> self.me.station & 1
        self.outcome = f"a lookup says {'yes' if inside else 'no'}"
        self.say(f"station {self.me.station} is {'' if inside else 'not '}in its container, {contained(self.b, number)}")

    def stop_places(self):
        """4, 5 and 19."""
        if self.me.place == 4:
            self.kind_read(self.me.route)
        elif self.me.place == 5:
            self.outcome = "goes on"
            if self.then.place == 0:
                self.looked(self.me.base)
        else:
            self.reads.append({"cell": "count", "of": None, "found": self.b.count})
            self.say(f"count is {self.b.count}" + ("" if self.b.count == 0 else ", so joins are stopped"))
            self.outcome = "stopped" if self.b.count else "not stopped"

    def choose(self):
        """3."""
        word, base = self.me.operation().split()[0], self.node(self.me.base)
        if word == "split" and len(stations(base.container)) < 2:
            self.outcome = "split: too few stations"
            self.say(f"{base.name()} has {contained(self.b, self.me.base)}, too few to split")
        elif word == "join" and base.parent is None:
            self.outcome = "join: no parent"
            self.say(f"{base.name()} has no parent")
        else:
            self.outcome = f"{word}: {self.check(self.me.base)}"

    def swap_step(self, first, step):
        """The four steps of the swap of a base."""
        base = {10: self.me.base, 26: self.me.found}.get(first)
        if first == 41:
            base = self.node(self.me.main).neighbour
        elif base is None:
            base = self.frame.base
        parent = self.node(base).parent
        side = LEFT if step < 2 else RIGHT
        if parent is None:
            self.swap("root", None, base)
        elif step in (0, 2):
            self.compare(side, parent, base, side, "not left" if step == 0 else "gone")
        else:
            self.swap(side, parent, base)
        if first in (64, 77) and self.outcome.endswith("succeeds"):
            self.added(base)

    def blocked(self):
        """15."""
        node = self.node(self.me.base)
        case = self.check(self.me.base)
        self.outcome = case if node.kind == "normal" or case != "replaceable" else "over"

    def kill(self):
        """16."""
        self.swap("stage", self.me.main, "preparing")

    def join(self):
        """20 to 38, but for the swap of the base found."""
        me, place = self.me, self.me.place
        if place in (20, 21):
            side = LEFT if place == 20 else RIGHT
            self.compare(side, me.parent, me.base, side, "not left" if place == 20 else "gone")
        elif place == 22:
            self.kind_read(self.read(RIGHT if me.side == 1 else LEFT, me.parent))
        elif place == 23:
            self.kind_read(self.read(LEFT if me.side == 1 else RIGHT, me.route))
        elif place == 24:
            self.outcome = self.check(me.found)
        elif place == 25:
            self.swap(LEFT if me.side == 1 else RIGHT, me.parent, me.base)
        elif place in (30, 33):
            self.swap("join mark", me.parent if place == 30 else me.grandparent, None)
        elif place in (31, 32):
            if place == 31:
                found = self.read("root")
            else:
                found = self.read(LEFT if self.node(me.parent).key < self.node(me.route).key else RIGHT, me.route)
            if found == me.parent:
                self.outcome = "the parent"
                self.say("the parent" + (", so there is no grandparent" if place == 31 else f", so the grandparent is route {me.route}"))
            else:
                self.kind_read(found)
        elif place == 34:
            found = self.read(RIGHT if me.side == 1 else LEFT, me.parent)
            self.outcome = "the neighbour" if found == me.neighbour else "another"
        elif place == 35:
            self.swap("stage", me.main, "preparing")
        elif place in (36, 37):
            self.outcome = "clears"
        else:
            self.outcome = "aborts" if self.node(me.main).stage == "preparing" else "was aborted"
            if self.outcome == "was aborted":
                self.say(f"stage of main {me.main} was aborted already")

    def complete(self):
        """40 to 51, but for the swap of the neighbour."""
        me, place, main = self.me, self.me.place, self.node(self.me.main)
        if place == 40:
            self.reads.append({"cell": "stage", "of": me.main, "found": main.stage})
            self.say(f"stage of main {me.main} is {f'node {main.union}' if main.stage == 'decided' else main.stage}")
            self.outcome = main.stage
        elif place == 45:
            self.outcome = "becomes false" if self.node(main.parent).valid else "was false"
            if self.outcome == "was false":
                self.say(f"route {main.parent} was not valid already")
        elif place == 51:
            self.outcome = "stores done" if main.stage != "done" else "was done"
            if self.outcome == "was done":
                self.say(f"main {me.main} was done already")
        elif place == 50:
            self.swap("join mark", main.grandparent, me.main)
        elif main.grandparent is None:
            self.swap("root", None, main.parent)
        elif place in (46, 48):
            side = LEFT if place == 46 else RIGHT
            self.compare(side, main.grandparent, main.parent, side, "not left" if place == 46 else "gone")
        else:
            self.swap(LEFT if place == 47 else RIGHT, main.grandparent, main.parent)

    def query(self):
        """60 to 82, but for the swaps of bases."""
        frame, place = self.frame, self.me.place
        if place in (60, 61):
            self.first_base()
        elif place == 62:
            self.outcome = case = self.check(frame.base)
            top = self.then.frames[0] if self.then.frames else None
            if case == "unset" and self.then.place == 60 and top and top.store is not None:
                self.outcome = "rides"
                self.say(f"rides on its query, {top.lower} to {top.upper}")
        elif place == 70:
            self.compare(LEFT, frame.stack[0], frame.popped, LEFT, "not left")
        elif place in (71, 73):
            self.kind_read(self.read(RIGHT if place == 71 else LEFT, frame.stack[0]))
        elif place == 72:
            self.turn_or_up()
        elif place == 74:
            self.next_base()
        elif place == 76:
            self.outcome = self.check(frame.base)
        elif place == 81:
            self.outcome = "sets it" if self.b.stores[frame.store] is None else "was set"
            if self.outcome == "was set":
                self.say(f"swap of the result of store {frame.store} fails, found {set_words(self.b.stores[frame.store])}")
        else:
            result = self.b.stores[frame.store]
            self.reads.append({"cell": "result", "of": frame.store, "found": result})
            self.say(f"result of store {frame.store} is {set_words(result or 0)}")
            self.outcome = "the query ends" if self.then.place == 0 else "helped, back"

    def first_base(self):
        frame = self.frame
        if self.me.place == 60:
            found = self.read("root")
        else:
            top = frame.stack[0]
            found = self.read(LEFT if frame.lower < self.node(top).key else RIGHT, top)
        node = self.node(found)
        if node.kind == "route":
            self.outcome = "a route"
        elif frame.store is None:
            self.outcome = "a base"
        elif node.kind == "range" and node.store == frame.store:
            self.outcome = "a base of its store"
            self.added(found)
        else:
            self.outcome = "another base"
            self.say(f"no base of store {frame.store}, so its result is set")

    def turn_or_up(self):
        frame, route = self.frame, self.node(self.frame.stack[0])
        self.reads.append({"cell": "valid", "of": route.number, "found": route.valid})
        if route.valid and route.key > frame.key:
            self.outcome = "turns"
            self.say(f"route {route.number} is valid and its key {route.key} is over {frame.key}")
        else:
            self.outcome = "not valid" if not route.valid else "key not over"
            why = "is not valid" if not route.valid else f"has key {route.key}, not over {frame.key}"
            self.say(f"route {route.number} {why}, so it is popped" + ("; nothing is left" if self.then.place == 81 else ""))

    def next_base(self):
        frame, node = self.frame, self.node(self.frame.base)
        result = self.b.stores[frame.store]
        self.reads.append({"cell": "result", "of": frame.store, "found": result})
        if result is not None:
            self.outcome = "set"
            self.say(f"result of store {frame.store} is set: {set_words(result)}")
        elif node.kind == "range" and node.store == frame.store:
            self.outcome = "a base of its store"
            self.say(f"result of store {frame.store} is unset, and {node.name()} is of it")
            self.added(frame.base)
        else:
            self.outcome = "another base"
            self.say(f"result of store {frame.store} is unset, and {node.name()} is not of it")

    def added(self, number):
        """A base that the frame has done; said last."""
        self.added_words.append(f"done takes {set_words(self.node(number).container)}")

    def by_place(self):
        place = self.me.place
        if place in SWAP_STEPS:
            self.swap_step(*SWAP_STEPS[place])
        elif place in (1, 2):
            self.search()
        elif place in (4, 5, 19):
            self.stop_places()
        elif place == 3:
            self.choose()
        elif place == 15:
            self.blocked()
        elif place == 16:
            self.kill()
        elif 20 <= place < 40:
            self.join()
        elif 40 <= place < 60:
            self.complete()
        else:
            self.query()

    # ---- helping and killing

    def helping(self):
        """Whom the step helps, in words."""
        me = self.me
        if 40 <= me.place <= 51 and not me.own:
            return f"the join of main {me.main} ({whose(self.b, owner_of_main(self.b, me.main))})"
        if me.place >= 60 and (me.action != 6 or len(me.frames) > 1):
            return f"the query of store {self.frame.store} ({whose(self.b, owner_of_store(self.b, self.frame.store))})"
        return None

    def told(self):
        self.by_place()
        self.differences()
        kills = None
        if self.me.place == 16 and self.outcome == "succeeds":
            kills = f"the join of main {self.me.main} ({whose(self.b, owner_of_main(self.b, self.me.main))})"
        helps = self.helping()
        head = f"kills {kills}: " if kills else f"helps {helps}: " if helps else ""
        if self.me.place in range(40, 52):
            self.outcome = f"{'owner' if self.me.own else 'helper'}: {self.outcome}"
        return Told(self.me.place, self.outcome, self.reads, self.writes, helps, kills, head + "; ".join([*self.said, *self.added_words] or ["nothing to do"]))


def step(before, after, thread):
    """What the step of a thread did between two states."""
    return _Step(before, after, thread).told()


def goes(after, thread):
    """Where a thread goes, in words; nothing where it has finished."""
    place = after.threads[thread].place
    return f"goes to {place}" if place else ""
