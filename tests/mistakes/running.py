"""Commands that are ended with the run that began them, when it is told to end."""
import contextlib
import os
import signal
import subprocess
import sys
import threading

BEGUN = set()
ENDING = threading.Event()


class Ended(Exception):
    """The run is ending, so a command has no answer."""


def told(command, folder):
    """What a command writes, on either output; it is run in a folder, without input."""
    run = subprocess.Popen(command, cwd=folder, stdin=subprocess.DEVNULL, stdout=subprocess.PIPE, stderr=subprocess.STDOUT,
                           text=True, errors='replace', start_new_session=True)
    BEGUN.add(run)
    if ENDING.is_set():
        end(run)
    said = run.communicate()[0]
    BEGUN.discard(run)
    if ENDING.is_set():
        raise Ended
    return said


def end(run):
    """Ends a command and what it began."""
    with contextlib.suppress(ProcessLookupError):
        os.killpg(run.pid, signal.SIGTERM)


def end_with_signals():
    """From here on, what ends this run by a signal that can be caught ends what it began too."""
    def end_all(number, _):
        ENDING.set()
        for run in list(BEGUN):
            end(run)
        sys.exit(128 + number)

    for number in (signal.SIGINT, signal.SIGTERM, signal.SIGHUP):
        signal.signal(number, end_all)
