"""Programs that are missing, hang, write for ever or crash, a right one, and cases that are made small."""

import contextlib
import os
import subprocess
import sys
import tempfile
import time
import unittest
from pathlib import Path
from typing import Iterator

from judging.answers import answer
from judging.cases import MAKERS, Case, make_case
from judging.plants import Plant, missed
from judging.requests import bytes_taken
from judging.running import Failed, NoProgram, run_program
from judging.shrinking import shrunk
from judging.verdicts import verdict

JUDGE = Path(__file__).resolve().parent.parent
RIGHT = f"""import os, sys
sys.path.insert(0, {str(JUDGE)!r})
from judging.answers import answer
from judging.requests import bytes_taken
words, data = sys.argv[1:], sys.stdin.buffer.read()
os.lseek(0, bytes_taken(words, data), 0)
run = answer(words, data)
sys.stdout.buffer.write(run.out)
sys.stderr.buffer.write(run.err)
sys.exit(run.status)
"""


@contextlib.contextmanager
def program(body: str) -> Iterator[str]:
    """A program in a file."""
    with tempfile.TemporaryDirectory() as folder:
        path = Path(folder) / "program"
        path.write_text(f"#!{sys.executable}\n{body}")
        os.chmod(path, 0o755)
        yield str(path)


class RunningTest(unittest.TestCase):
    """Ends of runs."""

    def test_no_program(self) -> None:
        with tempfile.NamedTemporaryFile() as plain:
            for path, told in (("/no/such/program", "No such file"), (plain.name, "denied"), ("/tmp", "denied")):
                with self.assertRaisesRegex(NoProgram, told):
                    run_program(path, [], b"", 1)

    def test_runs_that_do_not_end_by_themselves(self) -> None:
        deaf = (
            "import os, signal\nsignal.signal(signal.SIGXFSZ, signal.SIG_IGN)\n"
            "while True:\n try: os.write(1, b'x' * 65536)\n except OSError: pass"
        )
        for body, seconds, told in (
            ("import time; time.sleep(60)", 0.5, "^did not end within 0.5 seconds and was stopped$"),
            ("import os, time; os.close(1); os.close(2); time.sleep(60)", 0.5, "^did not end within 0.5 seconds"),
            ("import os, time; os.fork() and time.sleep(60)", 0.5, "^did not end within 0.5 seconds"),
            ("import os\nwhile True: os.write(1, b'x' * 65536)", 60, "^wrote 67108864 bytes or more, and was stopped"),
            ("import os\nwhile True: os.write(2, b'x' * 65536)", 60, "^wrote 67108864 bytes or more, and was stopped"),
            (deaf, 2, "^did not end within 2 seconds"),
            ("import os; os.kill(os.getpid(), 11)", 60, "^crashed: ended by SIGSEGV, with b''$"),
            ("import os; os.write(2, b'panic'); os.abort()", 60, "^crashed: ended by SIGABRT, with b'panic'$"),
        ):
            with self.subTest(body), program(body) as path, self.assertRaisesRegex(Failed, told):
                run_program(path, ["upgrade"], b"union(){}" * 100_000, seconds)

    def test_runs_that_end_wrongly(self) -> None:
        done = "sys.stdout.buffer.write(b'// bcsg 2 solid\\nunion() {\\n}\\n')"
        for body, told in (
            (f"import sys; sys.stdin.buffer.read(); {done}", None),
            (f"import os, sys; os.read(0, 5); os.close(0); {done}", "5 bytes of the input were read, not 9"),
            ("import sys; sys.stdin.buffer.read(); sys.stdout.buffer.write(b'// \\xff')", "is b'\\xff', which no text"),
            ("import sys; sys.stdin.buffer.read(); sys.stderr.buffer.write(b'\\xff')", "exit 0 with b'\\xff' on"),
            ("import sys; sys.stdin.buffer.read(); sys.exit(101)", "exit 101 with b'' on standard error, not exit 0"),
        ):
            with self.subTest(body), program(body) as path:
                fault = verdict(["upgrade"], b"union(){}", run_program(path, ["upgrade"], b"union(){}", 60))
                self.assertEqual(fault is None, told is None, fault)
                self.assertIn(told or "", fault or "")

    def test_what_a_program_starts_ends_with_it(self) -> None:
        with tempfile.NamedTemporaryFile() as file:
            body = f"import os, time\nif not os.fork():\n time.sleep(1); open({file.name!r}, 'w').write('late')"
            with program(body) as path:
                self.assertEqual(run_program(path, [], b"", 60).status, 0)
            time.sleep(1.2)
            self.assertEqual(file.read(), b"")

    def test_bytes_that_are_read(self) -> None:
        for words, data, count in (
            ("convert", b"G1", 0),
            ("trial off 1", b"G1", 0),
            ("ask 0 0 0 9999999999999", b"?", 0),
            ("upgrade", b"?", 1),
            ("convert contour", b" " * 1_048_576, 1_048_576),
            ("prism", b" " * 1_048_599, 1_048_577),
        ):
            self.assertEqual(bytes_taken(words.split(), data), count)

    def test_a_right_program_and_a_wrong_one(self) -> None:
        for body, status, told in (
            (RIGHT, 0, " 0 differences"),
            (RIGHT.replace("run.out", "run.out[1:]"), 1, "judge-"),
            ("", 1, "exit 0 with b'' on standard error"),
            ("while True: pass", 1, "did not end within 0.5 seconds and was stopped"),
            ("import os; os.abort()", 1, "crashed: ended by SIGABRT"),
        ):
            with program(body) as path, tempfile.TemporaryDirectory() as keep:
                seconds = 0.5 if "while" in body else 60
                words = f"--count 3 --command upgrade --keep {keep}/judge-x --seconds {seconds} --most 1 --shrink 1"
                ended = subprocess.run([JUDGE / "run", path, *words.split()], capture_output=True, text=True)
                self.assertEqual((ended.returncode, ended.stderr), (status, ""))
                self.assertIn(told, ended.stdout)
        ended = subprocess.run([JUDGE / "run", "/no/such/program"], capture_output=True, text=True)
        self.assertEqual((ended.returncode, "no program to run" in ended.stderr), (2, True))

    def test_refuse(self) -> None:
        with tempfile.NamedTemporaryFile() as file:
            file.write(b"G01 X1 X2\n")
            file.flush()
            ended = subprocess.run([JUDGE / "refuse", "convert contour", file.name], capture_output=True, text=True)
        self.assertEqual(ended.stdout, "exit 2\nrefused: TwinWord line 1 word 3\n")

    def test_shrinking(self) -> None:
        text = b"".join(b"G01 X%d Y%d\n" % (k, k) for k in range(300)) + b"G18 (x)\n" + b"M5\n" * 90
        self.assertEqual(shrunk(text, lambda less: b"G18" in less, 9), b"G18")

    def test_lawful_answers_of_generated_cases(self) -> None:
        for command in MAKERS:
            for number in range(8):
                words, data = make_case(command, 3, number)
                self.assertIsNone(verdict(words, data, answer(words, data), 10), f"{command} {number}")

    def test_selfcheck(self) -> None:
        ended = subprocess.run([JUDGE / "selfcheck"], capture_output=True, text=True)
        self.assertEqual((ended.returncode, ended.stderr), (0, ""), ended.stdout)
        right = answer(["upgrade"], b"union(){}")
        for wrong, told in ((right, "is not spoiled"), (right._replace(read=None), "not found")):
            plant = Plant("x", Case(["upgrade"], b"union(){}"), right, wrong)
            self.assertIn(told, " ".join(missed(plant)))


if __name__ == "__main__":
    unittest.main()
