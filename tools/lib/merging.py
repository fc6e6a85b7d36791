"""Two schedules into one, by the proved library's Merge and the C helper merge.c."""

import asking
import bench
import processes
import text_form
from faults import Fault

THREADS = ("t0 and t1", "t2 and t3")


class NotMerged(Fault):
    """Two files that Merge refuses; says which file, and which record where it is one."""


NOT_VERSION_1 = "a version other than 1; only version 1 can be merged"
BOTH_REFUSALS = {
    3: "counts that total over 4,096",
    18: "an output buffer under 3 + 4 * the smaller count bytes",
}


def _file_words(number, file):
    """What a refusal of one of the two says."""
    if number != 2:
        return bench.words(number, file)
    deep = text_form.is_deep(text_form.version_of(file))
    return NOT_VERSION_1 + (": without its depths and its version line this one is of version 1" if deep else "")


def _words(number, files, names, at_fault, record):
    if number == 17:
        found = text_form.records_of(files[at_fault - 1])[record - 1]
        return (
            f"{names[at_fault - 1]}: record {record}, '{text_form.record_text(*found)}', is refused with 17: "
            f"a thread that is not its file's; the {('first', 'second')[at_fault - 1]} file is for {THREADS[at_fault - 1]}"
        )
    if at_fault:
        return f"{names[at_fault - 1]}: the file is refused with {number}: {_file_words(number, files[at_fault - 1])}"
    counts = " and ".join(f"{name} {len(text_form.records_of(file))}" for name, file in zip(names, files))
    return f"refused with {number}: {BOTH_REFUSALS[number]} (records: {counts})"


def merged(files, names):
    """The merged file of two; `names` stand in the messages of NotMerged."""
    for file, name in zip(files, names):
        if len(file) >= bench.FILE_MOST:
            raise bench.BenchError(f"{name} has {len(file)} bytes, far more than any schedule")
    command = [bench.helper("merge"), str(len(files[0]))]
    status, out, _ = processes.communicate(command, files[0] + files[1])
    head, _, whole = out.partition(b"\n")
    word, *numbers = head.decode().split() or [""]
    if status or word not in ("merged", "refused"):
        raise asking.NoAnswer(processes.ended(status))
    if word == "refused":
        number, at_fault, record = map(int, numbers)
        raise NotMerged(_words(number, files, names, at_fault, record))
    return whole
