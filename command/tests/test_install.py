"""What an install puts where, and the manual page and the completion that come with it."""
from __future__ import annotations

import re
import shutil
import subprocess
import unittest
from pathlib import Path

from checkout import TOP, Checkout, said
from test_help import about, commands, overview

PAGE = TOP / "man/bcsg.1"
PUT = ["bin/bcsg", "libexec/bcsg/bc_prog", "libexec/bcsg/commit", "share/bash-completion/completions/bcsg", "share/man/man1/bcsg.1"]


class Install(unittest.TestCase):
    def setUp(self) -> None:
        self.checkout = Checkout()
        self.addCleanup(self.checkout.close)
        shutil.copytree(TOP / "man", self.checkout.top / "man")
        shutil.copy(TOP / "Makefile", self.checkout.top)
        self.to = Path(self.checkout.folder.name, "it's a root")

    def make(self, *words: str, **more: str) -> subprocess.CompletedProcess[str]:
        return subprocess.run(["make", "-s", *words], cwd=self.checkout.top, env=self.checkout.environment(**more), capture_output=True, text=True, timeout=60)

    def files(self) -> list[str]:
        return sorted(str(it.relative_to(self.to)) for it in self.to.rglob("*") if it.is_file())

    @unittest.skipUnless(shutil.which("make"), "make is not installed")
    def test_make_installs_and_removes(self) -> None:
        # (as words of make, and as variables around it)
        named = {"DESTDIR": str(self.to), "PREFIX": "/opt/two words"}
        calls: list[tuple[list[str], dict[str, str]]] = [([f"{name}={value}" for name, value in named.items()], {}), ([], named)]
        for words, more in calls:
            self.assertEqual(self.make("install", *words, **more).stderr, "")
            self.assertEqual(self.files(), [f"opt/two words/{it}" for it in PUT])
            self.assertEqual(self.make("uninstall", *words, **more).stderr, "")
            self.assertEqual(self.files(), [])
            self.assertFalse((self.to / "opt/two words/libexec/bcsg").exists())

    def install(self) -> tuple[int, str]:
        words = [self.checkout.top / "command/install"]
        ran = subprocess.run(words, env=self.checkout.environment(DESTDIR=str(self.to), PREFIX="/usr"), capture_output=True, text=True, timeout=60)
        return ran.returncode, ran.stderr

    def test_the_installed_command_runs_from_another_folder(self) -> None:
        self.assertEqual(self.install(), (0, ""))
        # (the checkout may go)
        shutil.rmtree(self.checkout.top)
        command = self.to / "usr/bin/bcsg"
        (self.checkout.cwd / "it's").write_bytes(b"input")
        self.assertEqual(self.checkout.run("convert", "off", "it's", "-o", "a b", command=command), (0, b"", ""))
        self.assertEqual((self.checkout.cwd / "a b").read_bytes(), said("convert", "off", given=b"input"))
        self.assertEqual(self.checkout.run("convert", "off", "it's", "-o", "a b", command=command, STATUS="2")[0], 2)
        self.assertEqual((self.checkout.cwd / "a b").read_bytes(), said("convert", "off", given=b"input"))
        self.assertEqual(self.checkout.run("--help", command=command), (0, overview().encode(), ""))
        self.assertEqual(self.checkout.run("--version", command=command), (0, b"bcsg 2\n", ""))
        for word in ("--build", "--unproved"):
            self.assertEqual(self.checkout.run(word, command=command), (1, b"", f"bcsg: {word} works in a checkout of the sources; this program is installed\n"))
        (self.to / "usr/libexec/bcsg/bc_prog").unlink()
        self.assertRegex(self.checkout.run("upgrade", command=command)[2], r"^bcsg: the program is missing from .*; install it again\n$")

    def test_the_commit_is_installed(self) -> None:
        for words in (["init", "-q"], ["add", "bcsg"], ["-c", "user.name=one", "-c", "user.email=one@example.org", "commit", "-q", "-m", "one"]):
            subprocess.run(["git", "-C", self.checkout.top, *words], check=True)
        self.assertEqual(self.install(), (0, ""))
        self.assertEqual(self.checkout.run("--version", command=self.to / "usr/bin/bcsg"), self.checkout.run("--version"))

    def test_an_old_or_missing_program_is_not_installed(self) -> None:
        source = self.checkout.top / "crates/bc_low/src/lib.rt"
        source.write_text("")
        status, err = self.install()
        self.assertEqual(status, 1)
        self.assertIn("crates/bc_low/src/lib.rt is newer than the program", err)
        self.checkout.program.unlink()
        self.assertEqual(self.install(), (1, "install: the program is not built; ./bcsg --build builds it\n"))
        self.assertFalse(self.to.exists())


def plain(line: str) -> str:
    """A line of mdoc without its macros."""
    words = [it for it in line.split() if it not in (".It", "Ic", "Ar", "Cm")]
    text = " ".join(words).replace("Fl ", "-").replace("Oo ", "[").replace(" Oc", "]")
    return text.removeprefix(".Dl ")


class Page(unittest.TestCase):
    def setUp(self) -> None:
        self.text = PAGE.read_text()
        self.parts = dict(re.findall(r"^\.Sh ([A-Z ]+)\n(.*?)(?=^\.Sh |\Z)", self.text, re.M | re.S))

    def test_each_command_is_there_as_help_has_it(self) -> None:
        usages = [f"Usage: bcsg {plain(it)}" for it in re.findall(r"^\.It Ic .*$", self.parts["COMMANDS"], re.M)]
        self.assertEqual(usages, [about(it).splitlines()[0] for it in commands()])
        sentences = " ".join(self.parts["COMMANDS"].split())
        for command in commands():
            self.assertIn(" ".join(about(command).split("\n\n")[1].split()), sentences)

    def test_each_example_is_there(self) -> None:
        shown = [plain(it) for it in re.findall(r"^\.Dl .*$", self.parts["EXAMPLES"], re.M)]
        self.assertEqual(shown, [about(it).rpartition("Example  ")[2].strip() for it in commands()])

    def test_each_status_is_there_as_help_has_it(self) -> None:
        page = re.findall(r"^\.It (\d)\n(.*)\.$", self.parts["EXIT STATUS"], re.M)
        self.assertEqual([(number, text[0].lower() + text[1:]) for number, text in page], statuses())

    def test_each_option_is_there(self) -> None:
        for option in set(re.findall(r"--([a-z]+)", overview())):
            self.assertRegex(self.parts["SYNOPSIS"], rf"Fl -{option}\b" if option != "help" else "Fl -help")
            self.assertRegex(self.parts["DESCRIPTION"], rf"(?m)^\.It Fl -{option}\b")

    def test_limits_are_those_of_the_formats(self) -> None:
        formats = (TOP / "docs/formats.md").read_text()
        for number in re.findall(r"\d[\d,]*\d(?!\^)|2\^\d+", self.parts["LIMITS"]):
            self.assertIn(number, formats)

    @unittest.skipUnless(shutil.which("mandoc"), "mandoc is not installed")
    def test_mandoc_has_nothing_to_say(self) -> None:
        ran = subprocess.run(["mandoc", "-T", "lint", PAGE], capture_output=True, text=True, timeout=60)
        self.assertEqual((ran.returncode, ran.stdout, ran.stderr), (0, "", ""))


def statuses() -> list[tuple[str, str]]:
    """The statuses of the overview, each with what it says."""
    text = overview().rpartition("Exit status: ")[2]
    return re.findall(r"(\d) ([^;.]+)[;.]", " ".join(text.split()))


@unittest.skipUnless(shutil.which("bash"), "bash is not installed")
class Completion(unittest.TestCase):
    def offered(self, *words: str) -> list[str]:
        script = f'. {TOP}/command/completion; COMP_WORDS=("$@"); COMP_CWORD=$(($# - 1)); _bcsg; printf "%s\\n" "${{COMPREPLY[@]}}"'
        return subprocess.run(["bash", "-c", script, "bash", "bcsg", *words], capture_output=True, text=True, check=True).stdout.split()

    def test_words_are_offered(self) -> None:
        rows: list[tuple[list[str], list[str]]] = [
            (["con"], ["convert"]),
            (["--v"], ["--version"]),
            (["help", ""], commands()),
            (["convert", ""], ["contour", "off"]),
            (["side", "o"], ["off"]),
            (["combine", "d"], ["difference"]),
            (["combine", "union", ""], ["contour", "off"]),
            (["--unproved", "tr"], ["trial"]),
            (["--unproved", "trial", "c"], ["contour"]),
            (["convert", "off", ""], []),
            (["audit", ""], []),
            (["convert", "off", "-o", "c"], []),
        ]
        for words, wanted in rows:
            with self.subTest(words=words):
                self.assertEqual(sorted(self.offered(*words)), sorted(wanted))

    def test_each_command_and_option_is_offered(self) -> None:
        options = [f"--{it}" for it in ("help", "version", "build", "unproved")]
        self.assertEqual(sorted(self.offered("")), sorted([*commands(), "help", *options]))


if __name__ == "__main__":
    unittest.main()
