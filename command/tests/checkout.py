"""A small checkout for the tests: the command's files, three crates without code, and a program and an `rt` that only say
what they were given."""
from __future__ import annotations

import os
import shutil
import signal
import subprocess
import sys
import tempfile
from pathlib import Path

# (what started these tests may have told its children to ignore an interrupt; the runs here must not)
signal.signal(signal.SIGINT, signal.default_int_handler)

sys.dont_write_bytecode = True
TOP = Path(__file__).resolve().parent.parent.parent
BUILT = TOP / "crates/bc_prog/out/bc_prog"

# The program writes its words, each ended by a NUL, and then its input. It ends as the environment says.
PROGRAM = r"""#!/bin/sh
for word in "$@"; do printf '%s\000' "$word"; done
[ "${1-}" = trial ] || cat
[ -z "${LINE-}" ] || echo "$LINE" >&2
exit "${STATUS-0}"
"""

# `rt` notes each call with its folder. `rt all` proves both crates, `rt run` makes the program, and `rt try` runs it.
RT = r"""#!/bin/sh
echo "${PWD##*/}: $*" >>"$CALLS"
case $1 in
  all)
    for name in bc_low bc_prog; do sleep "${PAUSE-0}"; printf '== %s\nlogic=proved of %s\n' $name $name; done
    echo '== summary'
    [ -z "${FAILING-}" ] || { echo "bc_low: $FAILING"; exit 1; }
    ;;
  run)
    [ "${RUN-0}" -eq 0 ] || { echo 'no proof of bc_prog'; exit "$RUN"; }
    cp "$MADE" out/bc_prog
    cat >/dev/null
    ;;
  try)
    [ -z "${REFUSED-}" ] || { echo 'error: the crate is refused' >&2; echo 'run=none proved=no' >&2; exit 1; }
    shift 2
    "$MADE" "$@"
    status=$?
    echo "checked: ended status=$status" >&2
    echo "run=ended status=$status runners=1 proved=no" >&2
    exit $status
    ;;
esac
"""


class Checkout:
    """A folder with a checkout in it and another folder to call it from."""

    def __init__(self, built: bool = True) -> None:
        self.folder = tempfile.TemporaryDirectory(prefix="bcsg tests ")
        self.top, self.cwd = Path(self.folder.name, "the checkout"), Path(self.folder.name, "it's a \"work\" folder")
        self.made, self.calls, self.bin = Path(self.folder.name, "made"), Path(self.folder.name, "calls"), Path(self.folder.name, "bin")
        for name in ("bc_low", "bc_prog", "bc_test"):
            (self.top / "crates" / name / "src").mkdir(parents=True)
            (self.top / "crates" / name / "src/lib.rt").write_text("//! Nothing.\n")
        for folder in (self.cwd, self.bin, self.top / "examples", self.top / "crates/bc_prog/out"):
            folder.mkdir(parents=True)
        (self.top / "crates.txt").write_text("# the crates\nbc_low:\nbc_test: bc_low\nbc_prog: bc_low itoa\n")
        shutil.copy(TOP / "bcsg", self.top)
        shutil.copytree(TOP / "command", self.top / "command", ignore=shutil.ignore_patterns("tests"))
        shutil.copy(TOP / "examples/disc.ngc", self.top / "examples")
        executable(self.made, PROGRAM)
        executable(self.bin / "rt", RT)
        self.program = self.top / "crates/bc_prog/out/bc_prog"
        if built:
            shutil.copy(self.made, self.program)

    def environment(self, **more: str) -> dict[str, str]:
        return {**os.environ, "PATH": f"{self.bin}:{os.environ['PATH']}", "CALLS": str(self.calls), "MADE": str(self.made), **more}

    def run(self, *words: str | bytes, given: bytes = b"", command: Path | None = None, **more: str) -> tuple[int, bytes, str]:
        """The status, standard output and standard error of a call, from a folder that is not the checkout."""
        ran = subprocess.run(
            [command or self.top / "bcsg", *words], input=given, capture_output=True, cwd=self.cwd, env=self.environment(**more), timeout=60
        )
        return ran.returncode, ran.stdout, ran.stderr.decode()

    def write(self, name: str, text: bytes) -> str:
        (self.cwd / name).write_bytes(text)
        return name

    def names(self) -> list[str]:
        return sorted(it.name for it in self.cwd.iterdir())

    def called(self) -> list[str]:
        return self.calls.read_text().splitlines() if self.calls.exists() else []

    def close(self) -> None:
        self.folder.cleanup()


def executable(file: Path, text: str) -> None:
    file.write_text(text)
    file.chmod(0o755)


def said(*words: str | bytes, given: bytes = b"") -> bytes:
    """What the program of the tests writes."""
    return b"".join((it.encode() if isinstance(it, str) else it) + b"\0" for it in words) + given
