"""Tests of the documents: the places, links, what git ignores, the Python that is asked for."""

import ast
import re
import shutil
import subprocess

import text_form
from checks import APART, ROOT
from test_guide import blocks

PLACES = ROOT / "docs" / "PLACES.md"
NUMBERS = {1, 2, 3, 10, 11, 12, 13, 15, 16, *range(20, 39), *range(40, 52)}
STOP = [4, 5, 19]
RANGE = ROOT / "docs" / "RANGE.md"
QUERY_NUMBERS = set(range(60, 83)) - {63, 68, 69, 75}
QUERY_LINES = set(range(138, 215)) - {156, 200, 205, 206, 212}  # those are brackets
PYTHON = (3, 9)
DOCUMENTS = [path for folder in (ROOT, ROOT / "docs") for path in sorted(folder.glob("*.md"))]


def rows_of(text):
    """The places that have a row, in order."""
    named = []
    for first, last in re.findall(r"^\| (\d+)(?: to (\d+))? \|", text, re.M):
        named += range(int(first), int(last or first) + 1)
    return named


def places(checks):
    checks.group("documents: the places")
    text = PLACES.read_text()
    checks.equal("each of 01's places has its row, once and in order, then those of the stop", rows_of(text), sorted(NUMBERS) + STOP)
    for word in ("## A split in pictures", "## A join in pictures", "route", "base", "main", "neighbour"):
        checks.that(f"it has '{word}'", word in text)
    words = len(text.split("## Stopping joins")[0].split())
    checks.that("it is read in ten minutes, but for the stop", words < 2300, words)
    readme = (ROOT / "README.md").read_text()
    checks.that("the README leads there more than once", readme.count("docs/PLACES.md") >= 2)
    _, table, lines = re.split(r"^## The places$|^## Lines 138 to 214, one by one$", RANGE.read_text(), flags=re.M)
    checks.equal("each place of a query has its row, once and in order", rows_of(table), sorted(QUERY_NUMBERS))
    told = set()
    for cell in re.findall(r"^\| ([\d–, ]+)(?: \(|\|)", lines.partition("\n## ")[0], re.M):
        for first, last in re.findall(r"(\d+)(?:–(\d+))?", cell):
            told |= set(range(int(first), int(last or first) + 1))
    checks.equal("and each line of a query", sorted(QUERY_LINES - told), [])
    checks.that("the README leads there too", "docs/RANGE.md" in readme)


def listings(checks):
    """The pictures show listings; each is what the proved library gives for the schedule above it."""
    import bench

    checks.group("documents: the pictures of the places")
    found = re.findall(r"```schedule\n(.*?)```\n+```listing\n(.*?)```", PLACES.read_text(), re.S)
    checks.that("there are some", len(found) >= 6, len(found))
    before = ""
    for schedule, listing in found:
        before = before + schedule if schedule.startswith("# on:") else schedule
        run = bench.answers(text_form.encode(before.encode(), "PLACES.md"), 1, 0)
        checks.equal(schedule.splitlines()[0], (run.refusal, run.whole.listing), (0, listing))


def links(checks):
    checks.group("documents: links and commands")
    for path in DOCUMENTS:
        for link in re.findall(r"\]\(([^)#]+)[^)]*\)", path.read_text()):
            if not link.startswith("http"):
                checks.that(f"{path.name}: {link}", (path.parent / link).exists())
    for name in ("README.md", "CONTRIBUTING.md"):
        for command in re.findall(r"(?:^|`|\s)((?:tools|tests|bench|fuzz)/[a-z_/-]+[a-z])\b(?![./])", (ROOT / name).read_text()):
            checks.that(f"{name}: {command} is there", (ROOT / command).exists())
    readme = (ROOT / "README.md").read_text()
    checks.that("the README says which Python", f"Python {PYTHON[0]}.{PYTHON[1]}" in readme)
    checks.that("and how long the gate takes", re.search(r"tests/run.*\n?.*minutes", readme))
    checks.that("the change log is named", "docs/LANDINGS.md" in (ROOT / "CHANGELOG.md").read_text())


def ignored(checks):
    checks.group("documents: what git ignores")
    written = set(re.findall(r"(?:-o|--html|--svg) (\S+)", "\n".join(command for command, _ in blocks())))
    for name in ("README.md", "CONTRIBUTING.md"):
        written |= set(re.findall(r"(?:-o|--html|--svg) ([\w.-]+\.\w+)", (ROOT / name).read_text()))
    written |= {"mine.txt", "target/x", "tools/lib/__pycache__/x.pyc"}
    checks.that("the guides write files", len(written) >= 5, written)
    folder = APART / "ignored"
    shutil.rmtree(folder, ignore_errors=True)
    folder.mkdir(parents=True)
    shutil.copy(ROOT / ".gitignore", folder / ".gitignore")
    subprocess.run(["git", "init", "-q", folder], check=True)
    for name in sorted(written):
        ran = subprocess.run(["git", "check-ignore", "-q", name], cwd=folder)
        checks.equal(f"{name} is ignored", ran.returncode, 0)
    for name in ("examples/mine.txt", "tests/vectors/0000.schedule", "tools/lib/page.html", "README.md", "crates.txt"):
        ran = subprocess.run(["git", "check-ignore", "-q", name], cwd=folder)
        checks.equal(f"{name} is not", ran.returncode, 1)


def python(checks):
    checks.group("documents: the Python that is asked for")
    for path in [ROOT / "tools" / "schedule", ROOT / "tools" / "install", *sorted((ROOT / "tools" / "lib").glob("*.py"))]:
        text = path.read_text()
        try:
            ast.parse(text, feature_version=PYTHON)
            fine = "match " not in "".join(line for line in text.splitlines() if re.match(r"\s*match .*:$", line))
        except SyntaxError:
            fine = False
        checks.that(f"{path.name} is of Python {PYTHON[0]}.{PYTHON[1]}", fine)


def all_of(checks):
    places(checks)
    listings(checks)
    links(checks)
    ignored(checks)
    python(checks)
