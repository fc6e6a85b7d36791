"""Tests of the library for C: the header's constants and words, the install, the example, threads and stack."""

import os
import re
import shutil
import subprocess

import bench
import library
from checks import OUT, ROOT, VECTORS

HOME = OUT / "c"
HEADER = ROOT / "include" / "nuxalder.h"
EXAMPLE = ROOT / "examples" / "step.c"
LINES_MOST = 30
STRICT = ["-Wall", "-Wextra", "-Wpedantic", "-Werror"]

PRINTS = """thread 0, action 2, station 9: yes
record 5 refused, 12: a step of an idle thread
0 normal 9
set 9
"""

# Prints what the header says, for comparison with the papers' numbers and the tool's words.
ASKS = """#include <nuxalder.h>
#include <stdio.h>
int main(void) {
    const uint8_t row[NUXALDER_DEEP_ROW_SIZE] = {0, NUXALDER_LOOKUP, 3, NUXALDER_NO, 0x02, 0x80};
    const uint8_t found[NUXALDER_DEEP_ROW_SIZE] = {1, NUXALDER_RANGE, 0, NUXALDER_YES, 0, 0, 0x80, 0, 0, 0, 0, 0, 0x02, 0x08};
    unsigned n;
    printf("%d %d %d %d %d %d %d %d %d\\n", NUXALDER_FILE_VERSION, NUXALDER_ROW_SIZE, NUXALDER_RECORDS_MOST, NUXALDER_FILE_MOST,
           NUXALDER_NODES_MOST, NUXALDER_STATIONS, NUXALDER_THREADS, NUXALDER_ROWS_BUFFER, NUXALDER_LIST_BUFFER);
    printf("%d %d %d %d %d %d %d\\n", NUXALDER_STEP, NUXALDER_LOOKUP, NUXALDER_INSERT, NUXALDER_REMOVE, NUXALDER_SPLIT, NUXALDER_JOIN,
           NUXALDER_RANGE);
    printf("%d %d %d %d %d %d %d %d\\n", NUXALDER_NO, NUXALDER_YES, NUXALDER_LACKING, NUXALDER_BLOCKED, NUXALDER_LOST,
           NUXALDER_NEIGHBOUR_BLOCKED, NUXALDER_STOOD_DOWN, NUXALDER_STOPPED);
    printf("%d.%d.%d %s\\n", NUXALDER_VERSION_MAJOR, NUXALDER_VERSION_MINOR, NUXALDER_VERSION_PATCH, NUXALDER_VERSION);
    printf("%d %d %d %d %d %u %d %d\\n", NUXALDER_DEEP_FILE_VERSION, NUXALDER_STOP_FILE_VERSION, NUXALDER_DEEP_RECORD_SIZE,
           NUXALDER_DEEP_ROW_SIZE, NUXALDER_DEPTH_MOST, NUXALDER_ROW_DEPTH(row), NUXALDER_STORES_MOST,
           nuxalder_row_set(row) == 0 && nuxalder_row_set(found) == 0x8000000000000208u);
    for (n = 0; n < 40; n++) printf("%u %s\\n", n, nuxalder_refusal_words(n));
    for (n = 0; n < 9; n++) printf("%u %s\\n", n, nuxalder_answer_words(n));
    return 0;
}
"""


# Calls both runs, Tally and State, from the installed files.
CALLS = """#include <nuxalder.h>
#include <stdio.h>
int main(void) {
    const uint8_t schedule[] = {NUXALDER_FILE_VERSION, 0, 3, NUXALDER_FIRST_BYTE(1, NUXALDER_LOOKUP), 9,
                                NUXALDER_FIRST_BYTE(1, NUXALDER_STEP), 0, NUXALDER_FIRST_BYTE(2, NUXALDER_INSERT), 9};
    static struct nuxalder_tally season;
    uint8_t rows[NUXALDER_ROWS_BUFFER], state[NUXALDER_STATE_BUFFER];
    uint64_t report[NUXALDER_TALLY_FIELDS], average[NUXALDER_AVERAGE_FIELDS];
    nuxalder_run(schedule, sizeof schedule, rows, sizeof rows, report);
    printf("%d %s\\n", (int)report[NUXALDER_RUN_RECORDS], nuxalder_refusal_words(report[NUXALDER_RUN_REFUSAL]));
    nuxalder_run_one_writer(schedule, sizeof schedule, rows, sizeof rows, report);
    printf("%d %s\\n", (int)report[NUXALDER_RUN_RECORDS], nuxalder_refusal_words(report[NUXALDER_RUN_REFUSAL]));
    nuxalder_tally(schedule, sizeof schedule, rows, sizeof rows, &season, report);
    nuxalder_average(&season, NUXALDER_LOOKUP, average);
    printf("%d %d %d/%d\\n", (int)season.no[NUXALDER_LOOKUP], (int)season.unfinished[NUXALDER_INSERT],
           (int)average[NUXALDER_AVERAGE_STEPS], (int)average[NUXALDER_AVERAGE_OPERATIONS]);
    season.starts[NUXALDER_INSERT] = UINT32_MAX;
    nuxalder_tally(schedule, sizeof schedule, rows, sizeof rows, &season, report);
    printf("%d %s\\n", (int)season.no[NUXALDER_LOOKUP], nuxalder_refusal_words(report[NUXALDER_TALLY_REFUSAL]));
    nuxalder_state(schedule, sizeof schedule, 3, state, sizeof state, report);
    printf("%d %d %d\\n", (int)report[NUXALDER_STATE_RECORDS], nuxalder_state_thread(state, 2)[NUXALDER_THREAD_PLACE],
           nuxalder_state_node(state, 0)[NUXALDER_NODE_KIND]);
    nuxalder_state(schedule, sizeof schedule, 3, state, sizeof state - 1, report);
    printf("%d %s\\n", (int)report[NUXALDER_STATE_LENGTH], nuxalder_refusal_words(report[NUXALDER_STATE_REFUSAL]));
    return sizeof season != 65 * sizeof(uint32_t);
}
"""


def run(*command, env=None, cwd=None):
    ran = subprocess.run([str(word) for word in command], capture_output=True, text=True, env={**os.environ, **(env or {})}, cwd=cwd)
    return ran.returncode, ran.stdout, ran.stderr


def header(checks):
    checks.group("C: the header")
    asks = HOME / "asks.c"
    asks.write_text(ASKS)
    compilers = [("cc", "-std=c99"), ("cc", "-std=c11"), ("c++", "-x", "c++", "-std=c++11")]
    for command in compilers:
        if command[0] == "c++" and not shutil.which("c++"):
            continue
        status, out, err = run(*command, *STRICT, "-I", ROOT / "include", asks, "-o", HOME / "asks")
        checks.equal(f"{' '.join(command)} takes it with no warning", (status, err), (0, ""))
    lines = run(HOME / "asks")[1].splitlines()
    checks.equal("01's sizes", lines[0], "1 4 4096 16387 256 64 4 28672 8192")
    checks.equal("those of versions 2 and 3", lines[4], "2 3 4 14 9999 640 64 1")
    checks.equal("01's actions, and 02's", lines[1], "0 1 2 3 4 5 6")
    checks.equal("answers", lines[2], "0 1 2 3 4 5 6 7")
    checks.equal("the version is one", *lines[3].split())
    words = dict(line.split(" ", 1) for line in lines[5:45])
    told = {int(number): text for number, text in words.items() if text != "unknown"}
    checks.equal("the words of refusals are the tool's", told, {0: "not refused", **bench.REFUSALS})
    checks.that("each answer has words of its own", len({line[2:] for line in lines[45:]}) == 9, lines[45:])
    checks.that("and no other has", lines[-1] == "8 unknown", lines[-1])
    numbers = dict(re.findall(r"(NUXALDER_REFUSED_\w+) = (\d+)", HEADER.read_text()))
    checks.equal("each refusal has a name", sorted(map(int, numbers.values())), sorted(told))


def install(checks):
    checks.group("C: install, pkg-config and the example")
    prefix, packaged = HOME / "prefix", HOME / "packaged"
    archive = library.OWN.name
    files = {f"lib/{archive}", "include/nuxalder.h", "lib/pkgconfig/nuxalder.pc"}
    files |= {"lib/libnuxalder_drive.a", "lib/libnuxalder_turns.a", "lib/pkgconfig/nuxalder-drive.pc"}
    files |= {"include/nuxalder_drive.h", "include/nuxalder_atomics.h"}

    def below(folder):
        return {str(path.relative_to(folder)) for path in folder.rglob("*") if path.is_file()}

    status, out, err = run(ROOT / "tools" / "install", "--prefix", prefix)
    checks.equal("it installs the library and the driver", (status, err, below(prefix)), (0, "", files))
    checks.that("and names each", all(str(prefix / name) in out for name in files), out)
    run(ROOT / "tools" / "install", env={"PREFIX": "/opt/some", "DESTDIR": str(packaged)})
    checks.equal("PREFIX and DESTDIR", below(packaged), {f"opt/some/{name}" for name in files})
    package = (packaged / "opt/some/lib/pkgconfig/nuxalder.pc").read_text()
    checks.that("the package file names the prefix alone", "prefix=/opt/some\n" in package, package)
    checks.equal("the proved archive", (prefix / "lib" / archive).read_bytes(), library.own().read_bytes())
    begins = re.findall(r"\] \.text\.\S+ .* (\d+)$", run("readelf", "-SW", library.OWN)[1], re.M)
    checks.equal("each function of it begins at 64 bytes", set(begins), {"64"})
    status, _, err = run(ROOT / "tools" / "install", "--prefix", "/dev/null/here")
    checks.that("a prefix that cannot be", status == 1 and "/dev/null/here" in err and "Traceback" not in err, err)

    env = {"PKG_CONFIG_PATH": str(prefix / "lib" / "pkgconfig")}
    if shutil.which("pkg-config"):
        words = run("pkg-config", "--cflags", "--libs", "nuxalder", env=env)[1].split()
        version = run("pkg-config", "--modversion", "nuxalder", env=env)[1].strip()
        checks.equal("pkg-config has the header's version", f'#define NUXALDER_VERSION "{version}"' in HEADER.read_text(), True)
    else:
        words = [f"-I{prefix}/include", f"-L{prefix}/lib", f"-l{archive[3:-2]}"]
    status, _, err = run("cc", "-std=c99", *STRICT, EXAMPLE, *words, "-o", HOME / "step")
    checks.equal("the example is built from the installed files", (status, err), (0, ""))
    checks.equal("and prints", run(HOME / "step"), (0, PRINTS, ""))
    calls = HOME / "calls.c"
    calls.write_text(CALLS)
    built = run("cc", "-std=c99", *STRICT, calls, *words, "-o", HOME / "calls")
    checks.equal("a program with both runs, a tally and states is built from them", built, (0, "", ""))
    told = f"3 not refused\n2 {bench.REFUSALS[24]}\n1 1 1/1\n1 {bench.REFUSALS[19]}\n3 1 0\n0 {bench.REFUSALS[25]}\n"
    checks.equal("the runs differ in 24, it tallies, and it tells a state", run(HOME / "calls"), (0, told, ""))
    code = EXAMPLE.read_text()
    checks.that(f"it has at most {LINES_MOST} lines", len(code.splitlines()) <= LINES_MOST)
    readme = (ROOT / "README.md").read_text()
    checks.that("the README shows it", f"```c\n{code}```" in readme)
    checks.that("and what it prints", PRINTS in readme)
    run(ROOT / "tools" / "install", "--prefix", prefix, "--uninstall")
    checks.equal("uninstall", below(prefix), set())


def threads(checks):
    checks.group("C: several threads at once, and the stack")
    program = HOME / "threads"
    built = run("cc", "-std=c11", "-O1", *STRICT, "-I", ROOT / "include", ROOT / "tests" / "c" / "threads.c", library.own(),
                "-lpthread", "-o", program)  # fmt: skip
    checks.equal("it is built", built, (0, "", ""))
    files = sorted(VECTORS.glob("*.schedule"))
    status, out, err = run(program, *files)
    told = dict(zip(out.split()[::2], map(int, out.split()[1::2])))
    checks.equal("every answer is that of a call alone", (status, told.get("wrong"), told.get("files")), (0, 0, len(files) + 2))
    checks.that("a deep tree of versions 1 and 2 is among them", told["deepest"] >= 55, out)
    checks.that("and merges that are not refused", told["merged"] >= 50, out)
    checks.that("and runs written as histories", told["written"] >= 50, out)
    checks.that("and histories of both verdicts", len(files) // 2 <= told["accepted"] < len(files), out)
    checks.that("and one-writer runs that end at a barred record, and others", 20 <= told["barred"] < len(files), out)
    checks.that("and tallies with inserts", told["averaged"] >= 50, out)
    checks.that("and states halfway and at the end", told["halfway"] >= 50, out)
    stack = int(re.search(r"#define NUXALDER_STACK (\d+)", HEADER.read_text())[1])
    most = max(told[name] for name in ("run", "one-writer", "tally", "list", "state", "merge", "history", "judge"))
    # A tree of 63 routes, the deepest there can be, is a few frames of 48 bytes deeper than the one measured: 128 are allowed for each.
    left = 128 * (63 - told["deepest"])
    checks.that(f"the stack used is what the header says: {out.strip()}", stack / 4 < most and most + left < stack)
    checks.that("the header says that threads may call", "from several threads at once" in HEADER.read_text())


def all_of(checks):
    shutil.rmtree(HOME, ignore_errors=True)
    HOME.mkdir(parents=True)
    header(checks)
    install(checks)
    threads(checks)
