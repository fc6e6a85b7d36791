"""Tests of builds under test: the one that is named answers, and `check` says where it differs."""

import os
import shutil
import signal
import subprocess
import sys
import time

import bench
import builds
import check
from checks import EXAMPLES, OUT, TOOL, VECTORS, examples, running, tool

PRINTED_RUN = EXAMPLES / "printed-run.txt"
JOIN = EXAMPLES / "join.txt"
RIGHT = PRINTED_RUN.with_suffix(".printed").read_bytes()
WRONG = RIGHT.replace(b"t0 split 3 yes", b"t0 split 3 no")
LIMIT = "5"
WAIT = 120  # seconds for what is at once on a machine that does nothing else
HELPERS = OUT.parent / "tools" / "turns-"


def named(checks, made):
    checks.group("builds: the one that is named answers")
    checks.that("crates/bench/out/bench is there", bench.PROGRAM.is_file() or os.environ.get("HANDS_ON_WITHOUT_PROGRAM"))
    checks.equal("none named: the proved library, and nothing said", tool("run", PRINTED_RUN), (0, RIGHT, ""))
    for name, right in (("wrong.a", WRONG), ("wrong.so", WRONG), ("good.a", RIGHT), ("good.so", RIGHT), ("plain.so", RIGHT)):
        path = made[name]
        said = f"schedule: asking {path}, named by"
        given = tool("run", PRINTED_RUN, env={"NUXALDER_LIB": str(path)})
        checks.equal(f"NUXALDER_LIB={name}", given, (0, right, f"{said} NUXALDER_LIB\n"))
    path = made["wrong.a"]
    given = tool("run", PRINTED_RUN, "--library", path, env={"NUXALDER_LIB": "/nowhere.a"})
    checks.equal("--library goes before it", given, (0, WRONG, f"schedule: asking {path}, named by --library\n"))
    given = tool("run", PRINTED_RUN, env={"NUXALDER_LIB": os.path.relpath(made["wrong.so"])})
    checks.equal("a path from here", given[:2], (0, WRONG))
    page = OUT / "builds" / "page.html"
    for name in ("good.a", "full.a"):
        checks.equal(f"trace by a build, {name}", tool("trace", PRINTED_RUN, "--library", made[name])[1], tool("trace", PRINTED_RUN)[1])
        status, _, err = tool("show", PRINTED_RUN, "--html", page, "--library", made[name])
        checks.that("a page by a build says so", status == 0 and f"asked of {name}" in page.read_text() and name in err, err)
    chatty = tool("run", PRINTED_RUN, "--library", made["chatty.a"])
    checks.equal("what a build prints itself is not taken for its answer", chatty[:2], (0, RIGHT))

    text = OUT / "builds" / "text.a"
    text.write_text("no library\n")
    for what, path, says in (
        ("missing", "/nowhere/vendor.a", "No such file"),
        ("a folder", str(OUT), "Is a directory"),
        ("text", str(text), "neither an archive nor a shared library"),
        ("without nuxalder_list", str(made["nolist.a"]), "nuxalder_list"),
        ("crash", str(made["crash.a"]), "signal 6 (SIGABRT)"),
        ("quit", str(made["quit.so"]), "ended the process"),
        ("scribble", str(made["scribble.a"]), "bytes after the rows"),
        ("liar", str(made["liar.a"]), "more rows than"),
    ):
        status, out, err = tool("run", JOIN, env={"NUXALDER_LIB": path})
        fine = status == 1 and out == b"" and says in err and path in err and "Traceback" not in err
        checks.that(f"a build that is no good: {what}", fine, (status, out, err))

    path = OUT / "builds" / "same.a"
    for name, right in (("good.a", RIGHT), ("wrong.a", WRONG), ("good.a", RIGHT)):
        shutil.copyfile(made[name], path)
        os.utime(path, (0, 0))
        checks.equal(f"another build at the same path, {name}, no newer", tool("run", PRINTED_RUN, "--library", path)[1], right)


def programs(checks, made):
    checks.group("builds: a program that is named")
    copy = OUT / "builds" / "program"
    shutil.copy(bench.PROGRAM, copy)
    given = tool("run", PRINTED_RUN, env={"NUXALDER_BENCH": str(copy)})
    checks.equal("it answers", given, (0, RIGHT, f"schedule: asking {copy}, named by NUXALDER_BENCH\n"))
    status, out, err = tool("run", PRINTED_RUN, env={"NUXALDER_BENCH": "/nowhere/bench"})
    checks.that("a missing one is an error", (status, out) == (1, b"") and "/nowhere/bench" in err, (status, out, err))
    status, out, err = tool("run", PRINTED_RUN, "--library", made["good.a"], env={"NUXALDER_BENCH": str(copy)})
    checks.that("not with a library as well", (status, out) == (2, b"") and "both name" in err, (status, out, err))


def gallery(checks, made):
    checks.group("check: the gallery and single files")
    count = len(examples())
    checks.equal("the proved library passes", tool("check"), (0, f"{count} passed, 0 failed\n".encode(), ""))
    for name in ("good.so",):
        status, out, err = tool("check", "--library", made[name])
        checks.equal(f"{name} passes", (status, out), (0, f"{count} passed, 0 failed\n".encode()))
        checks.equal(f"{name} is named", err, f"schedule: asking {made[name]}, named by --library\n")

    status, out, _ = tool("check", "--library", made["wrong.so"])
    *told, last = out.decode().splitlines()
    failed = sum(line.startswith("FAILED ") for line in told)
    checks.equal("wrong.so fails", (status, last), (1, f"{count - failed} passed, {failed} failed"))
    checks.that("more than a few files", failed > 5, failed)

    for name, what in (
        ("wrong.a", ["join.txt:9: record 12, t0 step", "row t0 split 3, answer 1", "row t0 split 3, answer 0"]),
        ("crash.a", ["join.txt:11: record 19, t0 step", "carried out", "it crashed, signal 6 (SIGABRT)"]),
        ("quit.so", ["join.txt:11: record 19, t0 step", "carried out", "it ended the process before its answer was whole"]),
        ("hang.so", ["join.txt:11: record 19, t0 step", "carried out", f"no answer in {LIMIT} s"]),
    ):
        since = time.time()
        status, out, _ = tool("check", "--limit", LIMIT, "--library", made[name], EXAMPLES / "empty.txt", JOIN)
        where, expected, got = what
        right = f"FAILED {EXAMPLES}/{where}\n    expected  {expected}\n    got       {got}\n1 passed, 1 failed\n"
        checks.equal(f"{name}: the first difference", (status, out.decode()), (1, right))
        checks.that(f"{name}: in time", time.time() - since < WAIT)
    checks.equal("no build is left running", running(HELPERS), [])

    deep = [EXAMPLES / f"depth-{name}.txt" for name in ("lookup", "replaced")]
    status, out, _ = tool("check", "--library", made["deep.a"], EXAMPLES / "join.txt", *deep)
    says = [f"{deep[0]}:11: record 15, t1 step", "expected  row t1 lookup 9, answer 1, depth 0\n", "got       row t1 lookup 9, answer 1, depth 1\n"]
    checks.equal("a set in a row", check.row_words(0, 1, 3, 1, 640, 8), "row t0 lookup 3, answer 1, depth 640, set 8")
    checks.that("another depth in a row", status == 1 and all(word in out.decode() for word in says), out)
    checks.that("version 1 has none, and a run without lookups passes", out.endswith(b"2 passed, 1 failed\n"), out)
    printed = tool("run", deep[0], "--library", made["deep.a"])[1]
    checks.that("the depth that the build found is printed", b"t2 lookup 3 yes 814\nt3 lookup 4 no\n" in printed, printed)

    status, out, _ = tool("check", "--library", made["late.a"], EXAMPLES / "refused-11-busy.txt")
    says = ["expected  refused, 11: a start of a busy thread", "got       refused, 12: a step of an idle thread", "record "]
    checks.that("another refusal", status == 1 and all(word in out.decode() for word in says), out)


def stated(checks, made):
    """Builds whose states are no good."""
    checks.group("builds: states of the one that is named")
    page = OUT / "builds" / "page.html"
    for name, says in (
        ("wild.a", "turn 12: the states before and after it fit no step of the places"),
        ("round.a", "turn 12: the states before and after it fit no step of the places"),
        ("wrong.a", "node 3 of a state has a kind or a stage that is none"),
        ("scribble.a", "bytes after the "),
        ("liar.a", "more rows than"),
        ("crash.a", "signal 6 (SIGABRT)"),
        ("late.a", "the start of a run is not carried out as the whole run is"),
        ("nolist.a", "nuxalder_"),
    ):
        for words in (["trace", JOIN], ["show", JOIN, "--html", page], ["cover", JOIN]):
            status, out, err = tool(*words, "--library", made[name])
            checks.that(f"{words[0]} by {name}", status == 1 and says in err and "Traceback" not in err, (status, out, err))


def merges(checks, made):
    checks.group("builds: merge by the one that is named")
    files = [EXAMPLES / f"merge-{name}.txt" for name in ("first", "second")]
    _, right, err = tool("merge", *files)
    checks.that("none named: the proved library, and nothing said", right and not err, err)
    for name, same in (("good.a", True), ("good.so", True), ("wrong.a", False)):
        status, out, err = tool("merge", *files, "--library", made[name])
        said = f"schedule: asking {made[name]}, named by --library\n"
        checks.equal(name, (status, out == right, bool(out), err), (0, same, True, said))
    for name, says in (("crash.a", "signal 6 (SIGABRT)"), ("nolist.a", "nuxalder_merge")):
        status, out, err = tool("merge", *files, env={"NUXALDER_LIB": str(made[name])})
        checks.that(name, (status, out) == (1, b"") and says in err and "Traceback" not in err, (status, out, err))


def interrupted(checks, made):
    checks.group("builds: a run that hangs, ended by hand")
    for number in (signal.SIGINT, signal.SIGTERM):
        command = [sys.executable, TOOL, "run", JOIN, "--library", made["hang.a"]]
        process = subprocess.Popen(command, stdout=subprocess.PIPE, stderr=subprocess.PIPE)
        end = time.time() + WAIT
        while not any(command.startswith(str(HELPERS)) for command in running(HELPERS)) and time.time() < end:
            time.sleep(0.02)
        process.send_signal(number)
        out, err = process.communicate(timeout=WAIT)
        fine = (process.returncode, out) == (130, b"") and err.endswith(b"schedule: interrupted\n")
        checks.that(f"{number.name}", fine and len(err.splitlines()) == 2, (process.returncode, out, err))
        # what was killed may take a moment to go
        end = time.time() + WAIT
        while running(HELPERS) and time.time() < end:
            time.sleep(0.02)
        checks.equal(f"{number.name}: nothing goes on", running(HELPERS), [])


def folders(checks, made):
    checks.group("check: folders, files and expected runs")
    count = len(list(VECTORS.glob("*.schedule")))
    checks.equal("the vectors", tool("check", VECTORS), (0, f"{count} passed, 0 failed\n".encode(), ""))
    folder = OUT / "builds" / "mine"
    folder.mkdir()
    status, out, err = tool("check", folder)
    checks.that("a folder with nothing to check", (status, out) == (1, b"") and str(folder) in err, (status, out, err))
    shutil.copy(PRINTED_RUN, folder / "a.txt")
    (folder / "a.printed").write_bytes(RIGHT)
    tool("encode", PRINTED_RUN, "-o", folder / "b.schedule")
    (folder / "b.printed").write_bytes(RIGHT.replace(b"used 6", b"used 7"))
    shutil.copy(PRINTED_RUN, folder / "c.txt")
    status, out, _ = tool("check", folder)
    right = f"FAILED {folder}/b.schedule: line 9 of b.printed\n    expected  stored 2 used 7\n    got       stored 2 used 6\n1 passed, 1 failed\n"
    checks.equal("text and bytes, those with an expected run", (status, out.decode()), (1, right))
    status, out, _ = tool("check", folder / "a.txt", folder / "a.printed", folder / "c.txt")
    checks.that("a file that is named needs one", status == 1 and b"c.printed" in out and b"1 passed, 1 failed" in out, out)
    (folder / "a.txt").write_text("t0 stop\n")
    status, out, _ = tool("check", folder / "a.txt")
    checks.that("a bad text fails", status == 1 and b"a.txt:1:4: 'stop'" in out and b"0 passed, 1 failed" in out, out)
    status, _, err = tool("check", "--limit", "0")
    checks.that("a limit is over 0", status == 2 and "--limit" in err, err)


def all_of(checks):
    made = builds.make()
    named(checks, made)
    programs(checks, made)
    stated(checks, made)
    merges(checks, made)
    gallery(checks, made)
    interrupted(checks, made)
    folders(checks, made)
