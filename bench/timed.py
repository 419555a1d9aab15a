"""Runs a command, and says what that took."""
import os
import select
import subprocess
import tempfile
import time
from typing import NamedTuple

SECONDS = 60


class Took(NamedTuple):
    """What a run took, and its exit status: None where it was stopped, since it had no end.

    The kilobytes are the most that it had, and never less than this process has: they count what it
    was before it became the command.
    """

    status: int | None
    elapsed: float
    processor: float
    kilobytes: int


def once(command, given, written=subprocess.DEVNULL, said=None, seconds=SECONDS):
    """A run of a command on a file, for at most so many seconds."""
    given.seek(0)
    began = time.monotonic()
    ran = subprocess.Popen(command, stdin=given, stdout=written, stderr=said)
    watched = os.pidfd_open(ran.pid)
    has_ended = bool(select.select([watched], [], [], seconds)[0])
    os.close(watched)
    if not has_ended:
        ran.kill()
    _, status, used = os.wait4(ran.pid, 0)
    elapsed = time.monotonic() - began
    ran.returncode = os.waitstatus_to_exitcode(status)
    return Took(ran.returncode if has_ended else None, elapsed, used.ru_utime + used.ru_stime,
                used.ru_maxrss)


def several(command, script, runs):
    """So many runs of a command on these bytes."""
    with tempfile.TemporaryFile() as given:
        given.write(script)
        return [once(command, given) for _ in range(runs)]


def failure(runs, seconds=SECONDS):
    """How the first of some runs ended that wasn't done, in words, or no word."""
    for ran in runs:
        if ran.status is None:
            return f"   no end within {seconds} s"
        if ran.status:
            return f"   ended with {ran.status}"
    return ""
