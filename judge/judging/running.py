"""Runs a program on a case, whatever it does: it is stopped at a stated time and after so many bytes."""

import os
import resource
import signal
import subprocess
import tempfile
from contextlib import suppress
from typing import IO, Sequence

from .verdicts import Run

MOST_BYTES = 1 << 26


class NoProgram(Exception):
    """There is no program that can be started; the message says why."""


class Failed(Exception):
    """A run that did not end by itself with an exit status."""


def ended(process: subprocess.Popen[bytes], seconds: float) -> int:
    """The exit status of a process. After so many seconds it is stopped, and at its end all that it started is."""
    try:
        with suppress(ProcessLookupError):
            resource.prlimit(process.pid, resource.RLIMIT_FSIZE, (MOST_BYTES, MOST_BYTES))
        return process.wait(seconds)
    except subprocess.TimeoutExpired:
        raise Failed(f"did not end within {seconds:g} seconds and was stopped") from None
    finally:
        with suppress(ProcessLookupError):
            os.killpg(process.pid, signal.SIGKILL)
        process.wait()


def content(file: IO[bytes]) -> bytes:
    """What was written to a file."""
    if os.fstat(file.fileno()).st_size >= MOST_BYTES:
        raise Failed(f"wrote {MOST_BYTES} bytes or more, and was stopped there")
    file.seek(0)
    return file.read()


def run_program(program: str, words: Sequence[str], data: bytes, seconds: float) -> Run:
    """How a run of the program ended, what it wrote, and how much it read."""
    with tempfile.TemporaryFile() as given, tempfile.TemporaryFile() as out, tempfile.TemporaryFile() as err:
        given.write(data)
        given.seek(0)
        try:
            process = subprocess.Popen([program, *words], stdin=given, stdout=out, stderr=err, start_new_session=True)
        except OSError as error:
            raise NoProgram(f"{program}: {error.strerror}") from None
        status = ended(process, seconds)
        # The program shares the offset of the file that it was given.
        run = Run(status, content(out), content(err), os.lseek(given.fileno(), 0, os.SEEK_CUR))
    if status < 0:
        raise Failed(f"crashed: ended by {signal.Signals(-status).name}, with {run.err[:200]!r}")
    return run
