"""`t0 finish` in the text form: how many steps end a thread's operation, by asking the proved library.

The proved library is asked also where a build under test is to run the schedule: a text means the same file for all.
"""

import subprocess

import asking
import bench
import library
import processes
import text_form
from faults import BenchError

IDLE = 12


class Endless(Exception):
    """The operation cannot be stepped to its end; the message says why."""


class Finisher:
    """Asks how operations go on; the helper is started at the first question."""

    def __init__(self):
        self.process = None

    def close(self):
        if self.process:
            self.process.stdin.close()
            self.process.stdout.close()
            self.process.wait()
            self.process = None

    def _ask(self, version, records, thread):
        if self.process is None:
            program = asking.helper("finish.c", library.own())
            self.process = subprocess.Popen([program], stdin=subprocess.PIPE, stdout=subprocess.PIPE)
        count = len(records) // text_form.RECORD[version]
        self.process.stdin.write(bytes([thread, version]) + count.to_bytes(2, "big") + records)
        self.process.stdin.flush()
        numbers = self.process.stdout.readline().split()
        if len(numbers) != 6:
            raise BenchError(f"schedule: the library gave no answer: {processes.ended(self.process.wait())}")
        return [int(number) for number in numbers]

    def steps(self, version, records, thread, most):
        """How many steps end the operation that `thread` has open after `records` of a version; Endless where none do."""
        before = len(records) // text_form.RECORD[version]
        left = most - before
        refusal, done, rows, refusal_on, done_on, rows_on = self._ask(version, bytes(records), thread)
        if refusal:
            words = bench.words(refusal, bytes([version]))
            raise Endless(f"record {done + 1} above is refused, {refusal}: {words}; no record after it is carried out")
        if left == 0:
            raise Endless(f"the schedule has its {most} records, and none is left for a step")
        if refusal_on == IDLE:
            if done_on == before:
                raise Endless(f"t{thread} is idle here: it has no operation to finish")
            return done_on - before
        if refusal_on:
            words = bench.words(refusal_on, bytes([version]))
            raise Endless(f"step {done_on - before + 1} of t{thread} here is refused, {refusal_on}: {words}")
        if rows_on > rows:
            return left
        raise Endless(f"the operation of t{thread} does not end within the {left} record{'' if left == 1 else 's'} left")
