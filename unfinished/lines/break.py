#!/usr/bin/env python3
"""Breaks the lines over 200 columns of crates/*/proofs/**/*.antt, without changing what they say.

break.py [CLONE] [--only CRATE,..] [--check]

CLONE is the folder that holds crates/ (default: the current one). `--only` takes these crates alone. `--check` writes nothing
and says how many lines are too long, which edits do not find their text, and which proof files are over 400 lines.

Every line over LIMIT columns is broken: `use` lists into several lines, `unfolding` lines, comments, telescopes, signatures
before an arrow, equations after `=`, `let`s after `in`, chains before their operator, applications at an argument; tuples,
records and `elim` one part to a line, as `rt fmt` has it. `rt fmt` in the crate's folder then sets the indentation (within one
equation it puts all continued lines at one column). Texts that an edit quotes (crates/*/must-fail, tests/wrong_builds) stay on
one line where that can be. Each new text is held to the old one, word by word (only layout, and the commas, semicolons and bars
that go with it, may differ), and every edit to the text that it quotes. The files From*.antt of crate vectors are left to
tests/vectors/definitions, which writes them.
"""
import re
import subprocess
import sys
from functools import lru_cache
from pathlib import Path

LIMIT = 200  # no line is longer
WIDTH = 170  # a line that is broken is filled to this, where that costs little
INF = float("inf")
LINE, DEPTH = 4.0, 12.0

# ---------------------------------------------------------------- reading a line

DELIM = set("(){}.;,@")
OPERATORS = {
    "→": 2, "↔": 3, "⇛": 3, "×": 3, "⊎": 3, "∨₁": 3, "≡": 6, "≢": 6, "<": 6, "≤": 6, ">": 6, "≥": 6, "==?": 9, "∙": 3,
    "∘": 4, "&&": 4, "||": 4, "∷": 5, "++": 4.5, "+": 9, "-": 9, "*": 10, "/": 11, "%": 11, "^": 11, "⊛": 3.5, "$": 3, "∵": 3,
}
NEVER_AFTER = {
    "λ", "pub", "abbrev", "unfoldable", "axiom", "module", "record", "data", "ruleset", "open", "let", "¬", "‵", "←", "∀", "|", "at", "as",
    "mod", "use", "⌜", "ensures", "requires", "⋆", "Type", "unfold", "!",
}
NEVER_BEFORE = {"=", ":", "in", "[", "where", "|", "⌝", "}", "!", "_"}


class Group:
    def __init__(self, kind, at, parent):
        self.kind, self.open, self.close, self.parent = kind, at, None, parent
        self.separators, self.record, self.binder, self.kids = [], False, False, []
        self.special = None


class Read:
    """A line's brackets and the places where it may be broken: (offset, cost, innermost special group)."""

    def __init__(self, text, kept=()):
        self.text, self.kept = text, kept
        self.tokens = list(scan(text))
        self.brackets()
        self.places()

    def brackets(self):
        self.groups, stack = [], []
        self.inside = {}
        previous = None
        for i, (start, word) in enumerate(self.tokens):
            if word in ("(", "{", "[", "⟦") and not (word == "[" and not self.alone(start, 1)):
                g = Group(word, start, stack[-1] if stack else None)
                g.record = word == "{" and previous == "record"
                self.groups.append(g)
                stack.append(g)
            elif word in (")", "}", "]", "⟧") and stack and {")": "(", "}": "{", "]": "[", "⟧": "⟦"}[word] == stack[-1].kind:
                stack.pop().close = start
            elif stack:
                g = stack[-1]
                if word == "," and g.kind == "(":
                    g.separators.append(start)
                elif word == ";" and g.kind == "{":
                    g.separators.append(start)
                elif word == "|" and g.kind == "[":
                    g.separators.append(start)
            previous = word
        for g in self.groups:
            # what `rattle fmt` lays out one part to a line, where it holds a line's end
            g.many = g.close is not None and ((g.kind == "(" and g.separators) or (g.kind == "{" and g.record) or g.kind == "[")
            # a bracket that is closed on a later line, or with which the line ends, is less of a depth
            g.step = 0.15 if g.close is None else 0.5 if not self.text[g.close :].strip(")}];,⌝ ") else 1.0
            g.clause = g.kind == "{" and self.text[: g.open].strip() in ("ensures", "requires", "invariant")
            if g.clause:
                g.step = 0.0
            g.closed = g.kind == "⟦" or (g.kind == "{" and not g.record and any(t == "," and g.open < s < (g.close or 0) for s, t in self.tokens))

    def alone(self, start, n):
        t = self.text
        return (start == 0 or t[start - 1] == " ") and (start + n >= len(t) or t[start + n] == " ")

    def places(self):
        text = self.text
        self.breaks = []  # (offset of the next word, cost, group)
        opened = {g.open: g for g in self.groups}
        closed = {g.close: g for g in self.groups if g.close is not None}
        frames = [dict(group=None, special=None, depth=0.0, lets=0, lam=0.0)]
        binder = 0  # between λ and its dot
        pattern = 0  # between let and its `=`
        words = self.tokens
        head = True  # before the `=` or `:` of a declaration
        first_colon = None
        signature = re.match(r"(?:unfoldable )?(?:abbrev )?(?:pub )?\S+(?: \{[^}]*\})? : ", text)
        telescope = re.match(r"(?:pub )?(?:module|record|data) ", text)
        arrows = []
        for i, (start, word) in enumerate(words):
            f = frames[-1]
            before = words[i - 1][1] if i else None
            if i and text[start - 1] == " " and text[:start].strip():
                cost = self.cost(words, i, f, binder, pattern, telescope)
                if cost is not None and not any(a < start < b for a, b in self.kept):
                    depth = f["depth"] + f["lam"] + (0.7 if f["lets"] and before != "=" and word != "=" else 0)
                    self.breaks.append([start, LINE + cost + DEPTH * depth, f["special"]])
                    if word == "→" and depth == 0:
                        arrows.append(len(self.breaks) - 1)
            if start in opened:
                g = opened[start]
                g.depth = f["depth"] + f["lam"] + (0.7 if f["lets"] else 0)
                g.special = f["special"]
                g.barred = bool(binder or pattern or g.closed)
                for a, b in self.kept:
                    if g.many and g.close > a and g.open < b and not (g.open < a and b <= g.close and not any(a <= s < b - 1 for s in g.separators)):
                        g.barred = True
                f2 = dict(group=g, special=f["special"], depth=f["depth"] + f["lam"] + (0.7 if f["lets"] else 0) + g.step, lets=0, lam=0.0)
                if g.many:
                    f2.update(special=g, depth=0.0)
                frames.append(f2)
                continue
            if start in closed:
                if len(frames) > 1:
                    frames.pop()
                continue
            if word == "λ":
                binder += 1
            elif word == "." and binder and (start + 1 >= len(text) or text[start + 1] == " "):
                binder -= 1
                if binder == 0 and not (f["group"] is not None and f["group"].clause):
                    f["lam"] = 0.4
            elif word == "let":
                pattern += 1
                f["lets"] += 1
            elif word == ":" and pattern and f["lets"]:
                pattern -= 1
                f["typed"] = True
            elif word == "=" and (pattern or f.get("typed")):
                pattern = 0
                f["typed"] = False
            elif word == "in" and f["lets"]:
                f["lets"] -= 1
            elif word in (",", ";", "|") and f["group"] is not None and f["group"].many:
                f["lam"], f["lets"] = 0.0, 0
        if arrows:
            self.breaks[arrows[-1]][1] -= 1.5
        self.breaks.sort(key=lambda b: b[0])

    def cost(self, words, i, f, binder, pattern, telescope):
        """What a break before word i costs; None where there can be none."""
        start, word = words[i]
        before = words[i - 1][1]
        g = f["group"]
        if binder or pattern or (g is not None and g.closed):
            return None
        if word == "=" and f.get("typed"):
            return 4
        if word in NEVER_BEFORE or before in NEVER_AFTER:
            return None
        if word == "." or before == "." and not self.ends_binder(words, i - 1):
            return None
        if g is not None and g.many and before in (",", ";") and words[i - 1][0] in g.separators:
            return None  # an element's end: broken with its group
        if g is not None and start == self.after_open(g):
            return None
        if word == "]":
            return None
        if before == ".":
            return 5
        if before == "in":
            return -2
        if before == "=":
            return 3 if g is None else 6
        if before == "↦":
            return 5
        if before == ":":
            return None if f.get("typed") else 14
        if before == "$":
            return 3
        if before in OPERATORS:
            return None
        if before == "elim":
            return 14
        if word == "$":
            return None
        if word in OPERATORS:
            return OPERATORS[word]
        if word == "at" or word == "as":
            return 9
        if word in ("(", "{"):
            return 6
        if telescope:
            return 9
        return 9

    def ends_binder(self, words, i):
        start = words[i][0]
        return start + 1 < len(self.text) and self.text[start + 1] == " "

    def after_open(self, g):
        n = g.open + 1
        while n < len(self.text) and self.text[n] == " ":
            n += 1
        return n

    # ------------------------------------------------------------ choosing

    def solve(self, indent):
        """(cost, offsets at which to break) for the least cost."""
        return self.range(0, len(self.text), None, indent)

    def parts(self, g):
        """The parts of a group that is laid out one part to a line, as ranges."""
        cut, a = [], g.open + 1
        for s in g.separators:
            if g.kind == "[":
                if self.text[a:s].strip():
                    cut.append((a, s))
                a = s
            else:
                cut.append((a, s + 1))
                a = s + 1
        if self.text[a : g.close].strip():
            cut.append((a, g.close))
        return cut

    def range(self, a, b, special, indent):
        """(cost, offsets) for the text from a to b, whose first line is at `indent` and the next ones four further."""
        text = self.text
        while a < b and text[a] == " ":
            a += 1
        marks = [p for p in self.breaks if p[2] is special and a < p[0] < b]
        kids = [g for g in self.groups if g.many and g.special is special and a <= g.open and g.close < b and not g.barred]
        end = len(text[a:b].rstrip()) + a

        @lru_cache(maxsize=None)
        def best(p, first):
            at = indent if first else indent + 4
            found = (INF, ())
            if at + end - p <= LIMIT:
                found = (over(at + end - p), ())
            for q, cost, _ in marks:
                if q <= p:
                    continue
                line = at + len(text[p:q].rstrip())
                if line > LIMIT:
                    break
                more = best(q, False)
                total = cost + more[0] + 3 * (max(WIDTH - line, 0) / WIDTH) ** 2 + over(line)
                if total < found[0]:
                    found = (total, (q,) + more[1])
            for g in kids:
                if g.open < p or at + g.open + 1 - p > LIMIT:
                    continue
                parts = self.parts(g)
                total, offsets = LINE + 3 + 0.9 * len(parts) + 5 * g.depth + 0.3 * max(0, 70 - (g.close - g.open)), (g.open + 1,)
                for x, y in parts:
                    one = self.range(x, y, g, at + 2 + (2 if g.kind == "[" else 0))
                    total += one[0]
                    offsets += one[1] + ((y,) if y < g.close else ())
                    if total == INF:
                        break
                if total == INF:
                    continue
                more = best(g.close, first)
                total += more[0]
                if total < found[0]:
                    found = (total, offsets + (g.close,) + more[1])
            return found

        return best(a, True)


def over(n):
    return 0.12 * max(n - WIDTH, 0)


def scan(text):
    """The words of a line: (offset, word); brackets, commas, semicolons and dots are words of their own."""
    i, n = 0, len(text)
    while i < n:
        c = text[i]
        if c == " ":
            i += 1
        elif text.startswith("--", i) and (i == 0 or text[i - 1] == " "):
            yield i, text[i:]
            return
        elif c == '"':
            j = i + 1
            while text[j] != '"':
                j += 2 if text[j] == "\\" else 1
            yield i, text[i : j + 1]
            i = j + 1
        elif c == "«":
            j = text.index("»", i)
            yield i, text[i : j + 1]
            i = j + 1
        elif c in DELIM:
            yield i, c
            i += 1
        else:
            j = i
            while j < n and text[j] != " " and text[j] not in DELIM and text[j] not in '"«»':
                j += 1
            yield i, text[i:j]
            i = j


# ---------------------------------------------------------------- lines of a kind of their own


def filled(words, first, later, width):
    lines, now = [], first
    for w in words:
        if now.strip() and len(now) + 1 + len(w) > width and now.strip() not in ("--",):
            lines.append(now)
            now = later
        now += ("" if not now or now.endswith(" ") else " ") + w
    return lines + [now]


def use_lines(line):
    """A `use` list as several: as few as can be, of about one length."""
    m = re.match(r"((?:unfoldable )?(?:pub )?use \S+\.\{)(.*)\}$", line)
    if not m:
        return None
    names = m[2].split(", ")
    total = len(m[2])
    for n in range(2, 20):
        room = total / n
        groups, now = [], ""
        for name in names:
            if now and len(now) + len(name) / 2 > room and len(groups) < n - 1:
                groups.append(now)
                now = name
            else:
                now += (", " if now else "") + name
        groups.append(now)
        made = [f"{m[1]}{g}}}" for g in groups]
        if max(map(len, made)) <= WIDTH:
            return made
    return None


def evenly(words, first, later):
    """Words on as few lines as can be, of about one length."""
    lines = filled(words, first, later, WIDTH)
    for width in range(100, WIDTH, 5):
        again = filled(words, first, later, width)
        if len(again) == len(lines):
            return again
    return lines


def broken(line, kept):
    """The lines that a line becomes; None where no rule breaks it."""
    indent = len(line) - len(line.lstrip(" "))
    pad, text = " " * indent, line.strip()
    if text.startswith("-- "):
        return evenly(text[3:].split(" "), pad + "-- ", pad + "-- ")
    if text.startswith("// "):
        return evenly(text[3:].split(" "), pad + "// ", pad + "// ")
    if text.startswith("/// "):
        return evenly(text[4:].split(" "), pad + "/// ", pad + "/// ")
    if re.match(r"(unfoldable )?(pub )?use ", text):
        return [pad + l for l in use_lines(text) or [text]]
    if text.startswith("unfolding "):
        return evenly(text.split(" "), pad, pad + "    ")
    spans = []
    for old in kept:
        at = text.find(old.strip())
        if at >= 0:
            spans.append((at, at + len(old.strip())))
    cost, offsets = Read(text, spans).solve(indent)
    if cost == INF:
        return broken(line, ()) if spans else None
    made, at = [], 0
    for q in [*sorted(set(offsets)), len(text)]:
        if text[at:q].strip():
            made.append(text[at:q].strip())
        at = q
    return [pad + made[0], *(pad + "    " + l for l in made[1:])]


CHAIN = re.compile(r"(?<![\w.])(\w+)((?: \.before){18,})(?= |\)|,|$)")


def factored(line):
    """An equation `name c = ..` whose long chains of `.before`, all of one length and from one variable, are named by two `let`s."""
    m = re.match(r"( *\S+(?: \S+)*? = )(.*)$", line)
    if not m:
        return None
    found = set(CHAIN.findall(m[2]))
    if len(found) != 1:
        return None
    (variable, chain), words = found.pop(), {w for _, w in scan(line)}
    n = chain.count(".before")
    one, two = [x for x in ("m", "l", "u", "w", "z", "k") if x not in words][:2]
    half = (n + 1) // 2
    body = CHAIN.sub(two, m[2])
    return f"{m[1]}let {one} = {variable}{' .before' * half} in let {two} = {one}{' .before' * (n - half)} in {body}"


def unfactored(line):
    m = re.match(r"(.* = )let (\w+) = (\w+)((?: \.before)+) in let (\w+) = \2((?: \.before)+) in (.*)$", line)
    return m[1] + re.sub(rf"(?<![\w.]){m[5]}(?= \.)", m[3] + m[4] + m[6], m[7])


# ---------------------------------------------------------------- a file


def plain(text):
    """The text's words, without what only the layout has; `use` lists name by name."""
    out = []
    lines = []
    for line in text.split("\n"):
        m = re.match(r"\s*((?:unfoldable )?(?:pub )?use \S+\.)\{(.*)\}$", line)
        if m:
            lines += [f"{m[1]} {name.strip()}" for name in m[2].split(",")]
        else:
            lines.append(line)
    for line in lines:
        c = re.match(r"\s*(--|///?)(?: |$)(.*)", line)
        if c:
            out += c[2].split()
            continue
        for _, word in scan(line.strip()):
            if word in (")", "}") and out and out[-1] in (",", ";"):
                out.pop()
            if word == "|" and out and out[-1] == "[":
                continue
            out.append(word)
    return out


def run(*words, **more):
    return subprocess.run(words, capture_output=True, text=True, **more)


def fmt(root, paths):
    for crate in sorted({crate_of(root, p) for p in paths}):
        done = run("rt", "fmt", cwd=root / "crates" / crate)
        if done.returncode:
            print(done.stdout + done.stderr)
            raise SystemExit("break.py: rt fmt refused a text")


def rework(root, paths, quoted):
    """Breaks the long lines of the files, and holds the new texts to the old ones."""
    for path in paths:
        made = []
        for line in path.read_text().split("\n"):
            if len(line) > LIMIT and broken(line, ()) is None:
                new = factored(line)
                if new and unfactored(new) == line:
                    line = new
            made.append(line)
        path.write_text("\n".join(made))
    before = {p: p.read_text() for p in paths}
    left = {p: set() for p in paths}
    todo = list(paths)
    for _ in range(8):
        again = []
        for path in todo:
            made, changed = [], False
            for line in path.read_text().split("\n"):
                if len(line) > LIMIT and line not in left[path]:
                    parts = broken(line, quoted.get(path, ()))
                    if parts and len(parts) > 1:
                        made += parts
                        changed = True
                        continue
                    left[path].add(line)
                made.append(line)
            if changed:
                path.write_text("\n".join(made))
                again.append(path)
        fmt(root, again)
        todo = again
    for path, old in before.items():
        a, b = plain(old), plain(path.read_text())
        if a != b:
            path.write_text(old)
            i = next((i for i, (x, y) in enumerate(zip(a, b)) if x != y), min(len(a), len(b)))
            print(f"NOT THE SAME WORDS, left as it was: {path}: {a[max(0, i - 6):i + 6]} / {b[max(0, i - 6):i + 6]}")


# ---------------------------------------------------------------- edits


def read_edit(path):
    pairs, file, old = [], None, None
    for line in path.read_text().splitlines():
        if line.startswith("file: "):
            file = line[len("file: ") :]
        elif line.startswith("old: "):
            old = line[len("old: ") :]
        elif line.startswith("new:") and old is not None:
            pairs.append((file, old, line[len("new:") :].removeprefix(" ")))
            old = None
    return pairs


def edits(root):
    """(edit, crate folder, replacements)."""
    for path in sorted(root.glob("crates/*/must-fail/**/*.edit")):
        yield path, root / "crates" / path.relative_to(root).parts[1], read_edit(path)
    for path in sorted(root.glob("tests/wrong_builds/*.edit")):
        yield path, root / "crates" / "definitions", read_edit(path)


def place(root, crate, file):
    for folder in (crate, root / "crates" / "definitions"):
        if (folder / file).is_file():
            return folder / file
    return None


def unfound(root):
    """The edits whose texts do not stand once in their files, with the text."""
    found = {}
    for path, crate, pairs in edits(root):
        now = {}
        for file, old, new in pairs:
            p = place(root, crate, file)
            if p is None:
                found[path] = f"no file {file}"
                break
            text = now.get(p) or p.read_text()
            if text.count(old) != 1:
                found[path] = f"{file}: {text.count(old)} times: {old}"
                break
            now[p] = text.replace(old, new)
    return found


def mend(root, path, crate):
    """An edit that quotes a text which goes over several lines now: quoted line by line. False where that does not do."""
    text = path.read_text()
    for file, old, new in read_edit(path):
        p = place(root, crate, file)
        if p is None or p.read_text().count(old) == 1:
            continue
        found = re.findall(r"[ \n]+".join(map(re.escape, old.split())), p.read_text())
        if len(found) != 1:
            return False
        lines = [l.strip() for l in found[0].split("\n")]
        pairs = f"old: {lines[0]}\nnew: {new}\n" + "".join(f"old: {l}\nnew:\n" for l in lines[1:])
        text = text.replace(f"old: {old}\nnew: {new}\n", pairs) if new else text.replace(f"old: {old}\nnew:\n", pairs)
    path.write_text(text)
    return path not in unfound(root)


# ---------------------------------------------------------------- all


def crate_of(root, path):
    return path.relative_to(root).parts[1]


def main():
    words = sys.argv[1:]
    only = None
    if "--only" in words:
        i = words.index("--only")
        only = words[i + 1].split(",")
        del words[i : i + 2]
    check = "--check" in words
    words = [w for w in words if w != "--check"]
    root = Path(words[0] if words else ".").resolve()
    files = [p for p in sorted(root.glob("crates/*/proofs/**/*.antt")) if not only or crate_of(root, p) in only]
    if not check and any(crate_of(root, p) == "vectors" for p in files if p.name.startswith("From")):
        files = [p for p in files if crate_of(root, p) != "vectors" or not p.name.startswith("From")]
    before = unfound(root)
    for path, why in before.items():
        print(f"before: {path.relative_to(root)}: {why}")
    sizes = {p: p.read_text().count("\n") for p in files}
    if not check:
        quoted = {}
        for path, crate, pairs in edits(root):
            for file, old, _ in pairs:
                p = place(root, crate, file)
                if p:
                    quoted.setdefault(p, []).append(old)
        work = [p for p in files if any(len(l) > LIMIT for l in p.read_text().split("\n"))]
        rework(root, work, quoted)
        print(f"{len(work)} files")
    for path, why in unfound(root).items():
        if before.get(path) != why:
            print(f"edit: {path.relative_to(root)}: {why}")
    count = {}
    for p in files:
        lines = p.read_text().split("\n")
        for i, l in enumerate(lines, 1):
            if len(l) > LIMIT:
                count[crate_of(root, p)] = count.get(crate_of(root, p), 0) + 1
                if not check:
                    print(f"left: {p.relative_to(root)}:{i}: {len(l)}: {l.strip()[:100]}")
        if len(lines) - 1 > 400:
            print(f"over 400 lines: {p.relative_to(root)}: {len(lines) - 1}, before {sizes[p]}")
    print(f"{sum(count.values())} lines over {LIMIT} columns: " + ", ".join(f"{c} {n}" for c, n in sorted(count.items(), key=lambda x: -x[1])))


if __name__ == "__main__":
    main()
