"""What the command says of itself, without a program and without `rt`."""
from __future__ import annotations

import os
import re
import shutil
import subprocess
import tempfile
import unittest
from pathlib import Path

from checkout import BUILT, TOP, Checkout, said

ASKED = [["--help"], ["-h"], ["help"]]


def overview() -> str:
    return subprocess.run([TOP / "bcsg", "--help"], capture_output=True, text=True, check=True).stdout


def about(command: str) -> str:
    return subprocess.run([TOP / "bcsg", "help", command], capture_output=True, text=True, check=True).stdout


def commands() -> list[str]:
    """The commands that the overview lists."""
    return re.findall(r"^  ([a-z]+) .*  +\w", overview().split("bcsg help")[0], re.M)


class Help(unittest.TestCase):
    def setUp(self) -> None:
        self.checkout = Checkout(built=False)
        self.addCleanup(self.checkout.close)

    def test_help_needs_no_program(self) -> None:
        for words in ASKED:
            self.assertEqual(self.checkout.run(*words), (0, overview().encode(), ""))
        self.assertEqual(self.checkout.called(), [])

    def test_each_command_has_its_help(self) -> None:
        self.assertEqual({"convert", "factor", "carve", "combine", "prism", "side", "ask", "audit", "upgrade", "trial"}, set(commands()))
        for command in commands():
            with self.subTest(command):
                text = about(command)
                self.assertTrue(text.startswith(f"Usage: bcsg {command}"))
                self.assertEqual(re.findall(r"^(Reads|Writes|Refuses|Example)  ", text, re.M), ["Reads", "Writes", "Refuses", "Example"])
                for words in ([command, "--help"], [command, "-h"]):
                    self.assertEqual(self.checkout.run(*words), (0, text.encode(), ""))

    def test_an_unknown_command_has_none(self) -> None:
        for words in (["help", "nothing"], ["nothing", "-h"]):
            self.assertEqual(self.checkout.run(*words), (3, b"", "bcsg: there is no command nothing; bcsg --help lists them\n"))

    def test_lines_fit_a_terminal(self) -> None:
        for text in [overview(), *map(about, commands())]:
            self.assertLessEqual(max(map(len, text.splitlines())), 100)

    def test_the_programs_own_words_stay_its_own(self) -> None:
        shutil.copy(self.checkout.made, self.checkout.program)
        for words in (["usage"], ["help", "convert", "off"], ["--help", "convert"], ["--version", "2"], ["--build", "again"], ["-h", "-h", "-h"]):
            self.assertEqual(self.checkout.run(*words), (0, said(*words), ""))

    @unittest.skipUnless(BUILT.exists(), "the program is not built")
    def test_the_examples_run(self) -> None:
        for command in commands():
            example = re.findall(r"^Example  (\./bcsg .*)$", about(command), re.M)
            self.assertEqual(len(example), 1)
            with self.subTest(example[0]), tempfile.TemporaryDirectory() as folder:
                shutil.copy(TOP / "bcsg", folder)
                shutil.copy(TOP / "crates.txt", folder)
                Path(folder, "examples").symlink_to(TOP / "examples")
                Path(folder, "crates/bc_prog/out").mkdir(parents=True)
                Path(folder, "crates/bc_prog/out/bc_prog").symlink_to(BUILT)
                os.utime(Path(folder, "crates.txt"), (0, 0))
                ran = subprocess.run(["sh", "-c", example[0]], cwd=folder, capture_output=True, text=True, timeout=60)
                self.assertEqual((ran.returncode, ran.stderr), (0, ""))
                wrote = re.search(r"-o (\S+)$", example[0])
                self.assertTrue(Path(folder, wrote[1]).stat().st_size if wrote else ran.stdout)


class Version(unittest.TestCase):
    def setUp(self) -> None:
        self.checkout = Checkout(built=False)
        self.addCleanup(self.checkout.close)

    def git(self, *words: str) -> str:
        names = ["-c", "user.name=one", "-c", "user.email=one@example.org"]
        return subprocess.run(["git", "-C", self.checkout.top, *names, *words], capture_output=True, text=True, check=True).stdout.strip()

    def test_the_version_is_that_of_the_texts(self) -> None:
        number = re.match(r"// bcsg (\d+) contour\n", (TOP / "examples/disc.scad").read_text())
        self.assertTrue(number)
        self.assertEqual(self.checkout.run("--version"), (0, f"bcsg {number[1] if number else None}\n".encode(), ""))
        self.assertEqual(self.checkout.called(), [])

    def test_the_commit_stands_behind_it(self) -> None:
        self.git("init", "-q")
        self.git("add", "bcsg", "crates.txt")
        self.git("commit", "-q", "-m", "one")
        commit = self.git("rev-parse", "--short=12", "HEAD")
        self.assertEqual(self.checkout.run("--version"), (0, f"bcsg 2 {commit}\n".encode(), ""))
        (self.checkout.top / "crates.txt").write_text("bc_prog:\n")
        self.assertEqual(self.checkout.run("--version"), (0, f"bcsg 2 {commit}-dirty\n".encode(), ""))


if __name__ == "__main__":
    unittest.main()
