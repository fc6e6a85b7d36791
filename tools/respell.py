#!/usr/bin/env python3
"""Respells the definitions and lemmas of crates/ in snake case, once, after the kit's port.py.

respell.py [--check]     rewrites .antt and .rt files, and the texts of must-fail and wrong-build edits; --check writes nothing

A name that the repository's own specs/ or proofs/ declare, and that has a dash or begins small and has a capital within, is turned:
splitKey and split-key are both split_key. Names that the check makes of the code (in files Proof.antt) stay, and so do functions, types and
variants of src/. Where two names would fall together, the definition has the plain one and a lemma ends in _lem.
"""
import collections
import re
import sys
from pathlib import Path

ROOT = Path(__file__).resolve().parent.parent
WORD = re.compile(r'[^\s(){}.;,@"«»]+')
SIGNATURE = re.compile(r'^((?:unfoldable |abbrev |pub |pattern )*)([^\s(){}.;,@"«»:]+)(?: \{[^{}\n]*\})* :\s(.*)$', re.M)
TYPE = re.compile(r'^(?:pub )?(?:abbrev )?(?:pub )?(?:data|record|ruleset) ([^\s(){}.;,@"«»:=]+)', re.M)
MEMBER = re.compile(r'^ +(?:\| )?(?:(?:unfoldable|abbrev|pub|pattern) )*([^\s(){}.;,@"«»:=|]+)(?: \{[^{}\n]*\})* :\s', re.M)
COMMENT = re.compile(r'(?<![^\s(){}.;,@"«»])--[^\n]*')
WORDS = {"use", "mod", "data", "record", "where", "unfolding", "open", "ruleset", "elim", "let", "in", "pub"}
BROUGHT = re.compile(r"^(?:pub )?use ([^\s{;]+)\{([^}]*)\}", re.M)
PATH = re.compile(r"Rattle\.[^\s{};,()]*$")
# heads whose members the check makes of the code
MADE = re.compile(r"(?:^|[\s(])(?:tie|goal|c|before|came|args|Lts|code|l)\.$")


def is_walk(path):
    return path.name == "Proof.antt" or "Proof" in path.parts


def snake(name):
    turned = re.sub(r"(?<=[a-z0-9])[A-Z]", lambda m: "_" + m[0].lower(), name) if name[:1].islower() else name
    return turned.replace("-", "_").replace("′", "'")


def declared():
    """Each name that is declared, whether in specs/ or as an abbreviation, and all other words of the texts."""
    names = collections.defaultdict(set)
    words = set()
    for path in sorted((ROOT / "crates").rglob("*.antt")):
        text = COMMENT.sub("", path.read_text())
        words.update(WORD.findall(text))
        if is_walk(path):
            text = "".join(m[0] + "\n" for m in SIGNATURE.finditer(text) if not re.match(r"tie\.", m[3]) and not m[2].endswith("-spec"))
        for m in SIGNATURE.finditer(text):
            if m[2] not in WORDS:
                names[m[2]].add("defined" if "/specs/" in str(path) or "abbrev" in m[1] else "shown")
        for m in TYPE.finditer(text):
            names[m[1]].add("type")
        for m in MEMBER.finditer(text):
            if m[1] not in WORDS:
                names[m[1]].add("member")
    return names, words


def table():
    names, words = declared()
    turned = {n: snake(n) for n in names if snake(n) != n}
    meeting = collections.defaultdict(set)
    for n, new in turned.items():
        meeting[new].add(n)
    found = {}
    for new, olds in sorted(meeting.items()):
        # definitions first: the plain name is theirs
        order = sorted(olds, key=lambda n: ("defined" not in names[n], "-" in n, n))
        there = names.get(new)
        if there and there <= {"shown", "member"} and "defined" in names[order[0]]:
            found[new] = new + "_lem"
            taken = False
        else:
            taken = there is not None or (new in words and "defined" not in names[order[0]])
        for n in order:
            found[n] = new + "_lem" * taken
            taken = True
        if len(order) > 1 or there or found[order[0]] != new:
            print("fall together:", *(f"{n} -> {found.get(n, n)}" for n in (new, *order)))
        elif new in words:
            print("look: a word of that spelling was there:", new, "from", *order)
    return found, {n for n in names if "member" in names[n]}


def turn(text, names, members=(), walk=False):
    def one(m):
        head = text[max(0, m.start() - 200) : m.start()]
        # what the check makes, and a module of a path, keep their names; in a walk a word behind a dot is a member or the check's
        if m[0] not in names or MADE.search(head) or PATH.search(head):
            return m[0]
        if walk and head.endswith(".") and m[0] not in members:
            return m[0]
        return names[m[0]]

    return WORD.sub(one, text)


def pieces(text):
    """Code and comments in turn."""
    at = 0
    for m in COMMENT.finditer(text):
        yield False, text[at : m.start()]
        yield True, m[0]
        at = m.end()
    yield False, text[at:]


def turned_file(path, names, members):
    text = path.read_text()
    if path.suffix == ".edit":
        return "\n".join(turn(line, names) if re.match(r"(old|new):", line) else line for line in text.split("\n"))
    if path.suffix == ".rt":
        # clauses and ghost items alone
        clause = re.compile(r"(?:requires|ensures)\*?\s*(?:\w+\s*)?\{[^{}]*(?:\{[^{}]*\}[^{}]*)*\}|ghost\s+use\b[^;]*;|ghost [^{};]*\{[^{}]*\}")
        camel = {n: new for n, new in names.items() if "-" not in n}
        text = clause.sub(lambda m: turn(m[0], names), text)
        return re.sub(r"//[^\n]*", lambda m: turn(m[0], camel), text)
    own = {path.name for path in (ROOT / "crates").iterdir()}
    brought = {
        word
        for m in BROUGHT.finditer(text)
        if not re.match(rf"Rattle\.({'|'.join(own)})\.", m[1]) or ".declared." in m[1]
        for word in re.split(r"[,\s]+", m[2])
    }
    names = {n: new for n, new in names.items() if n not in brought}
    camel = {n: new for n, new in names.items() if "-" not in n}
    return "".join(turn(piece, camel if is_comment else names, members, is_walk(path)) for is_comment, piece in pieces(text))


def main():
    names, members = table()
    places = [*sorted((ROOT / "crates").rglob("*.antt")), *sorted((ROOT / "crates").rglob("*.rt")), *sorted((ROOT / "crates").rglob("*.edit")), *sorted((ROOT / "tests").rglob("*.edit"))]
    changed = 0
    for path in places:
        text = path.read_text()
        new = turned_file(path, names, members)
        if new != text:
            changed += 1
            if "--check" not in sys.argv:
                path.write_text(new)
    print(f"{len(names)} names, {changed} files")


if __name__ == "__main__":
    main()
