"""Writing results: a file or standard output, where what cannot be written is named."""

import os
import sys

from faults import Fault


class ReaderGone(Exception):
    """Standard output is a pipe that nobody reads any more."""


def prepare():
    """A descriptor that is closed must not become some other file's: the null device stands in for it."""
    for number in (0, 1, 2):
        try:
            os.fstat(number)
        except OSError:
            os.open(os.devnull, os.O_RDWR)
    if sys.stderr is None:
        sys.stderr = open(os.devnull, "w")


def write(name, data):
    """Writes all of the data to the file or, for None and '-', to standard output."""
    if name is None or name == "-":
        if sys.stdout is None:
            raise Fault("schedule: standard output is closed: nothing was written")
        try:
            sys.stdout.buffer.write(data)
            sys.stdout.buffer.flush()
        except BrokenPipeError:
            raise ReaderGone from None
        except OSError as error:
            raise Fault(f"schedule: standard output cannot be written: {error.strerror}") from None
        return
    try:
        with open(name, "wb") as stream:
            stream.write(data)
    except OSError as error:
        raise Fault(f"schedule: {name} cannot be written: {error.strerror}") from None


def leave(status):
    """Ends the program; all output was flushed or given up before."""
    try:
        sys.stderr.flush()
    except OSError:
        pass
    os._exit(status)
