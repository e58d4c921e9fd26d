"""How the command builds the program, notes that it is old, and runs without a proof; `rt` is the one of the tests."""
from __future__ import annotations

import importlib.machinery
import importlib.util
import io
import os
import re
import subprocess
import sys
import time
import unittest
from contextlib import redirect_stderr
from types import ModuleType

from checkout import TOP, Checkout, said


def load() -> ModuleType:
    loader = importlib.machinery.SourceFileLoader("build", str(TOP / "command/build"))
    spec = importlib.util.spec_from_loader("build", loader)
    assert spec
    made = importlib.util.module_from_spec(spec)
    loader.exec_module(made)
    return made


build = load()
CALLS = [r"bc_prog: all check --jobs \d", "bc_prog: run -- convert contour"]


class Building(unittest.TestCase):
    def setUp(self) -> None:
        self.checkout = Checkout(built=False)
        self.addCleanup(self.checkout.close)

    def assert_built(self) -> None:
        called = self.checkout.called()
        self.assertEqual(len(called), 2)
        for line, pattern in zip(called, CALLS):
            self.assertRegex(line, f"^{pattern}$")

    def test_the_first_call_builds_and_runs(self) -> None:
        status, out, err = self.checkout.run("convert", "off", given=b"input")
        self.assertEqual((status, out), (0, said("convert", "off", given=b"input")))
        self.assertRegex(err, r"^bcsg: proving and building the program: 2 crates, \d at a time")
        self.assertRegex(err, r"\nbcsg: the program is proved and built, in \d+:\d\d minutes; from now on calls only run it\n$")
        self.assert_built()
        self.assertEqual(self.checkout.run("convert", "off", given=b"input"), (0, said("convert", "off", given=b"input"), ""))
        self.assert_built()

    def test_words_and_files_are_looked_at_before_a_build(self) -> None:
        for words in (["convert", "off", "no such"], ["upgrade", "-o", "no/such"], ["audit", "-", "-"], ["--unproved"]):
            self.assertNotEqual(self.checkout.run(*words)[0], 0)
        self.assertEqual(self.checkout.called(), [])

    def test_a_failed_proof_ends_the_build(self) -> None:
        status, out, err = self.checkout.run("convert", "off", FAILING="failed (1)")
        self.assertEqual((status, out, len(self.checkout.called())), (1, b"", 1))
        self.assertRegex(err, r"logic=proved of bc_low\nbcsg: the build failed in bc_low, as the lines above say; crates/bc_prog/out/build.log has all lines\n$")
        self.assertFalse(self.checkout.program.exists())

    def test_a_check_that_was_killed_is_tried_by_itself(self) -> None:
        for word in ("failed (-9)", "failed (2)"):
            self.assertEqual(self.checkout.run("--build", FAILING=word)[0], 0)
            self.assert_built()
            self.checkout.calls.unlink()

    def test_a_failed_run_ends_the_build(self) -> None:
        status, out, err = self.checkout.run("convert", "off", RUN="1")
        self.assertEqual((status, out), (1, b""))
        self.assertIn("no proof of bc_prog\nbcsg: the build failed in bc_prog", err)

    def test_without_rt_a_sentence_says_so(self) -> None:
        (self.checkout.bin / "rt").unlink()
        for words in (["convert", "off"], ["--build"], ["--unproved", "convert", "off"]):
            # (this machine's own `rt` is not on the path)
            status, _, err = self.checkout.run(*words, PATH=f"{self.checkout.bin}:/usr/bin:/bin")
            self.assertEqual((status, err), (1, "bcsg: rt, the command of the Rattle toolchain, is not on the path; it is needed to build\n"))

    def test_progress_is_reported(self) -> None:
        environment = self.checkout.environment(PAUSE="0.6")
        code = f"import sys; sys.argv[0] = {str(self.checkout.top / 'command/build')!r}; exec(open(sys.argv[0]).read().replace('EVERY = 30.0', 'EVERY = 0.4'), {{'__name__': '__main__', '__file__': sys.argv[0]}})"
        ran = subprocess.run([sys.executable, "-B", "-c", code], env=environment, capture_output=True, text=True, timeout=60)
        self.assertEqual((ran.returncode, ran.stdout), (0, ""))
        self.assertRegex(ran.stderr, r"bcsg: 0 of 2 crates are done after 0:\d\d minutes, at work on bc_low\n")
        self.assertRegex(ran.stderr, r"bcsg: 1 of 2 crates are done after 0:\d\d minutes, at work on bc_prog\n")

    def test_an_interrupted_build_says_that_it_goes_on(self) -> None:
        environment = self.checkout.environment(PAUSE="20")
        with subprocess.Popen([self.checkout.top / "command/build"], env=environment, stderr=subprocess.PIPE, text=True, start_new_session=True) as ran:
            while not self.checkout.called():
                time.sleep(0.01)
            time.sleep(0.1)
            os.killpg(ran.pid, 2)
            self.assertIn("the next call goes on from there", ran.communicate(timeout=20)[1])
        self.assertEqual(ran.returncode, 130)


class Order(unittest.TestCase):
    def test_only_what_the_program_needs_is_proved(self) -> None:
        uses = build.read_uses((TOP / "crates.txt").read_text())
        order = build.turns("bc_prog", uses)
        self.assertEqual(order[-1], "bc_prog")
        for name in order:
            self.assertTrue(set(uses[name]) <= set(order[: order.index(name)]), name)
        for name in uses:
            self.assertEqual(name in order, name == "bc_prog" or name in build.below("bc_prog", uses))
        self.assertFalse([name for name in order if name.endswith(("_tests", "_rows", "_bench"))])

    def test_crates_that_wait_are_not_at_work(self) -> None:
        uses = {"a": [], "b": ["a"], "c": ["a"], "d": ["b", "c"]}
        for done, lanes, wanted in [("", 4, "a"), ("a", 1, "b"), ("a", 4, "bc"), ("ab", 2, "c"), ("abc", 2, "d"), ("abcd", 2, "")]:
            self.assertEqual("".join(build.at_work(list("abcd"), set(done), lanes, uses)), wanted)

    def test_a_report_says_how_far_it_is(self) -> None:
        with redirect_stderr(io.StringIO()) as told:
            progress = build.Progress(["a", "b"], 2, {"a": [], "b": ["a"]}, 0.05)
            time.sleep(0.2)
            progress.done |= {"a", "b"}
            time.sleep(0.2)
            progress.close()
        lines = told.getvalue().splitlines()
        self.assertIn("bcsg: 0 of 2 crates are done after 0:00 minutes, at work on a", lines)
        self.assertIn("bcsg: 2 of 2 crates are done after 0:00 minutes, linking the program", lines)


class Old(unittest.TestCase):
    def setUp(self) -> None:
        self.checkout = Checkout()
        self.addCleanup(self.checkout.close)

    def change(self, name: str) -> None:
        file = self.checkout.top / name
        file.parent.mkdir(parents=True, exist_ok=True)
        file.write_text("")
        later = time.time() + 5
        os.utime(file, (later, later))

    def test_a_changed_source_is_noticed_and_the_program_runs(self) -> None:
        for name in ("crates/bc_low/src/lib.rt", "crates/bc_low/specs/A.antt", "crates/bc_low/proofs/f/Answers.antt", "crates.txt"):
            with self.subTest(name):
                self.change(name)
                line = f"bcsg: {name} is newer than the program, which runs as it was built; ./bcsg --build builds it anew\n"
                self.assertEqual(self.checkout.run("upgrade", given=b"a"), (0, said("upgrade", given=b"a"), line))
                (self.checkout.top / name).unlink()

    def test_what_no_program_is_made_of_is_not_noticed(self) -> None:
        for name in ("crates/bc_low/out/rlib/stamp", "crates/bc_low/must-fail/one.edit", "docs/page.md", "bcsg.txt"):
            self.change(name)
        self.assertEqual(self.checkout.run("upgrade"), (0, said("upgrade"), ""))

    def test_a_build_ends_the_notice(self) -> None:
        self.change("crates/bc_low/src/lib.rt")
        # (the source's time lies ahead: the build comes later)
        now = time.time() - 5
        os.utime(self.checkout.top / "crates/bc_low/src/lib.rt", (now, now))
        os.utime(self.checkout.program, (now - 5, now - 5))
        self.assertRegex(self.checkout.run("upgrade")[2], "is newer than the program")
        self.assertEqual(self.checkout.run("--build")[0], 0)
        self.assertEqual(self.checkout.run("upgrade"), (0, said("upgrade"), ""))


class Unproved(unittest.TestCase):
    def setUp(self) -> None:
        self.checkout = Checkout(built=False)
        self.addCleanup(self.checkout.close)

    def test_the_sources_run_and_the_user_is_told(self) -> None:
        (self.checkout.cwd / "it's").write_bytes(b"input")
        for status in range(7):
            got = self.checkout.run("--unproved", "convert", "off", "it's", STATUS=str(status), LINE="a line")
            self.assertEqual(got[:2], (status, said("convert", "off", given=b"input")))
            self.assertRegex(got[2], r"^bcsg: nothing is proved of this run: [^\n]*\na line\n$")
        self.assertEqual({*self.checkout.called()}, {"bc_prog: try -- convert off"})

    def test_files_and_streams_serve_as_in_other_calls(self) -> None:
        (self.checkout.cwd / "one").write_bytes(b"1")
        self.assertEqual(self.checkout.run("--unproved", "upgrade", given=b"a")[1], said("upgrade", given=b"a"))
        self.assertEqual(self.checkout.run("--unproved", "audit", "one", "-", given=b"2")[1], said("audit", given=b"1\n====\n2"))
        self.assertEqual(self.checkout.run("--unproved", "upgrade", "one", "-o", "two")[:2], (0, b""))
        self.assertEqual((self.checkout.cwd / "two").read_bytes(), said("upgrade", given=b"1"))
        self.assertEqual(self.checkout.run("--unproved", "trial", "off", "3")[1], said("trial", "off", "3"))

    def test_a_source_that_does_not_compile_is_reported(self) -> None:
        status, out, err = self.checkout.run("--unproved", "convert", "off", REFUSED="yes")
        self.assertEqual((status, out), (1, b""))
        self.assertRegex(err, r"error: the crate is refused\nrun=none proved=no\nbcsg: rt try gave no answer, as reported above\n$")

    def test_a_command_has_to_follow(self) -> None:
        self.assertEqual(self.checkout.run("--unproved"), (3, b"", "bcsg: --unproved stands before a command; bcsg --help lists them\n"))


if __name__ == "__main__":
    unittest.main()
