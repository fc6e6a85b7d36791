"""Commands in a session of their own, so that they can be ended with all that they started."""

import contextlib
import os
import signal
import subprocess

STOP_SECONDS = 2


def start(command, **words):
    return subprocess.Popen(command, start_new_session=True, **words)


def stop(process):
    """Ends a command that `start` gave and all that it started: politely, then not."""
    for number, seconds in ((signal.SIGTERM, STOP_SECONDS), (signal.SIGKILL, None)):
        with contextlib.suppress(ProcessLookupError, PermissionError):
            os.killpg(process.pid, number)
        with contextlib.suppress(subprocess.TimeoutExpired):
            process.wait(seconds)
            break
    with contextlib.suppress(ProcessLookupError, PermissionError):
        os.killpg(process.pid, signal.SIGKILL)


def communicate(command, data, limit=None):
    """Runs a command on input; gives its exit status (None: the time was over) and what it wrote."""
    process = start(command, stdin=subprocess.PIPE, stdout=subprocess.PIPE, stderr=subprocess.PIPE)
    try:
        out, err = process.communicate(data, limit)
        return process.returncode, out, err
    except subprocess.TimeoutExpired:
        stop(process)
        out, err = process.communicate()
        return None, out, err
    except BaseException:
        stop(process)
        raise


def ended(status):
    """An exit status in words."""
    if status < 0:
        try:
            return f"it crashed, signal {-status} ({signal.Signals(-status).name})"
        except ValueError:
            return f"it crashed, signal {-status}"
    return f"it ended with exit status {status}"
