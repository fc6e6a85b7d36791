"""What ends a command, and the exit status that says so."""

FAULT = 1  # something cannot be read, written, built or asked
USAGE = 2  # the command line is wrong
REFUSED = 3  # the run was refused: the schedule or one of its records
INTERRUPTED = 130
READER_GONE = 141


class Fault(Exception):
    """A message for standard error; it ends the command with exit status 1."""


class BenchError(Fault):
    """The library or the program cannot be asked."""


class Usage(Fault):
    """A command line that says two things at once; exit status 2."""
