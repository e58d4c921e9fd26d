"""What the command does with words, streams and files: python3 -m unittest discover command/tests"""
from __future__ import annotations

import os
import signal
import subprocess
import time
import unittest

from checkout import Checkout, executable, said

BYTES = bytes(range(256)) * 3
# names that a careless script would take apart
NAMES = ["part.off", "two words.off", "it's.off", 'a "quote".off', "a\nline.off", "$HOME.off", "*.off", "back\\slash.off", "ü.off", "./-o"]
# the words of each command that reads one input
ONE_INPUT = [
    "convert contour",
    "convert off",
    "factor contour",
    "factor off",
    "carve contour",
    "carve off",
    "side contour -1 2 0 1",
    "side off -1 -2 -3 4",
    "ask -1 2 -3 4",
    "prism",
    "upgrade",
]
TWO_INPUTS = ["audit", "combine union contour", "combine difference off"]


class Case(unittest.TestCase):
    def setUp(self) -> None:
        self.checkout = Checkout()
        self.addCleanup(self.checkout.close)
        self.run_it, self.write = self.checkout.run, self.checkout.write


class HandedOn(Case):
    def test_words_and_streams_are_handed_on_byte_for_byte(self) -> None:
        calls: list[list[str | bytes]] = [
            [],
            ["convert", "off"],
            ["usage"],
            ["convert"],
            ["convert", "off", "a", "b"],
            ["audit", "a", "b", "c"],
            ["no", "such", " two words ", "", "a\nline", "it's", '"', "$HOME", "*", "\\"],
            [b"\xff\xfe", "--", "-x", "--help me"],
            ["convert", "off", "-x"],
            ["convert", "off", ""],
            ["combine", "union", "off", "a", "-x"],
            ["convert", "off", "-o"],
            ["side", "off", "-1", "-2", "-3", "-4"],
            ["ask", "-1", "2", "3"],
        ]
        for words in calls:
            with self.subTest(words=words):
                self.assertEqual(self.run_it(*words, given=BYTES), (0, said(*words, given=BYTES), ""))

    def test_statuses_and_lines_are_kept(self) -> None:
        for status in (0, 1, 2, 3, 4, 5, 6, 77, 255):
            got = self.run_it("convert", "off", given=BYTES, STATUS=str(status), LINE="refused: Short line 1")
            self.assertEqual(got, (status, said("convert", "off", given=BYTES), "refused: Short line 1\n"))

    def test_a_signal_is_kept(self) -> None:
        executable(self.checkout.program, "#!/bin/sh\nkill -KILL $$\n")
        self.assertEqual(self.run_it("convert", "off")[0], -signal.SIGKILL)
        self.assertEqual(self.run_it("convert", "off", "-o", "kept")[0], 128 + signal.SIGKILL)
        self.assertEqual(self.checkout.names(), [])

    def test_streams_that_are_closed_stay_closed(self) -> None:
        executable(self.checkout.program, "#!/bin/sh\nfor it in 0 1 2; do [ -e /proc/self/fd/$it ] || exit 9$it; done\n")
        for number in (0, 1, 2):
            shell = f'"$0" convert off {number}>&-'
            ran = subprocess.run(["sh", "-c", shell, self.checkout.top / "bcsg"], env=self.checkout.environment(), timeout=60)
            self.assertEqual(ran.returncode, int(f"9{number}"))

    def test_a_link_to_the_command_serves_as_well(self) -> None:
        link = self.checkout.cwd / "a link"
        link.symlink_to(self.checkout.top / "bcsg")
        self.assertEqual(self.run_it("upgrade", command=link), (0, said("upgrade"), ""))


class Inputs(Case):
    def test_a_file_takes_the_place_of_standard_input(self) -> None:
        for line in ONE_INPUT:
            for name in NAMES if line == "convert off" else NAMES[:1]:
                with self.subTest(line, name=name):
                    words = line.split()
                    self.write(name, BYTES)
                    self.assertEqual(self.run_it(*words, name, given=b"unread"), (0, said(*words, given=BYTES), ""))

    def test_a_dash_is_standard_input(self) -> None:
        for line in ONE_INPUT:
            words = line.split()
            self.assertEqual(self.run_it(*words, "-", given=BYTES), (0, said(*words, given=BYTES), ""))

    def test_two_files_are_joined(self) -> None:
        one, two = self.write("it's one", b"a\nb\n"), self.write("two", BYTES)
        for line in TWO_INPUTS:
            words = line.split()
            wanted = (0, said(*words, given=b"a\nb\n====\n" + BYTES), "")
            self.assertEqual(self.run_it(*words, one, two), wanted)
            self.assertEqual(self.run_it(*words, "-", two, given=b"a\nb\n"), wanted)
            self.assertEqual(self.run_it(*words, one, "-", given=BYTES), wanted)
            joined = self.write("joined", b"a\nb\n====\n" + BYTES)
            self.assertEqual(self.run_it(*words, joined), wanted)

    def test_the_line_between_two_files_stands_by_itself(self) -> None:
        for text, wanted in [(b"", b"====\nz"), (b"a", b"a\n====\nz"), (b"a\n", b"a\n====\nz"), (b"a\n\n", b"a\n\n====\nz"), (b"\0", b"\0\n====\nz"), (b"a\r", b"a\r\n====\nz")]:
            with self.subTest(text=text):
                one, two = self.write("one", text), self.write("two", b"z")
                self.assertEqual(self.run_it("audit", one, two), (0, said("audit", given=wanted), ""))
                self.assertEqual(self.run_it("audit", "-", two, given=text), (0, said("audit", given=wanted), ""))

    def test_what_cannot_be_read_is_reported_in_one_sentence(self) -> None:
        file = self.write("file", b"")
        for words, line in [
            (["convert", "off", "no such"], "there is no file no such"),
            (["audit", file, "no such"], "there is no file no such"),
            (["audit", "no such", file], "there is no file no such"),
            (["convert", "off", "."], ". is a folder"),
            (["audit", "-", "-"], "only one of the two inputs can be standard input"),
        ]:
            with self.subTest(words=words):
                self.assertEqual(self.run_it(*words), (1, b"", f"bcsg: {line}\n"))

    def test_no_temporary_file_is_left(self) -> None:
        folder = self.checkout.cwd / "temporary"
        folder.mkdir()
        one = self.write("one", b"a")
        for words in (["audit", one, one], ["audit", one, one, "-o", "kept"], ["--unproved", "audit", one, one], ["--unproved", "upgrade", one, "-o", "kept"]):
            for status in "01":
                self.run_it(*words, STATUS=status, TMPDIR=str(folder))
                self.assertEqual(list(folder.iterdir()), [])


class Outputs(Case):
    def test_the_answer_is_written_to_a_file(self) -> None:
        self.write("part.off", BYTES)
        for name in NAMES[1:]:
            with self.subTest(name=name):
                for words in (["convert", "off", "part.off", "-o", name], ["-o", name, "convert", "off", "part.off"], ["convert", "-o", name, "off", "part.off"]):
                    self.assertEqual(self.run_it(*words), (0, b"", ""))
                    self.assertEqual((self.checkout.cwd / name).read_bytes(), said("convert", "off", given=BYTES))
                    (self.checkout.cwd / name).unlink()
        self.assertEqual(self.checkout.names(), ["part.off"])

    def test_a_failure_leaves_no_file_and_changes_none(self) -> None:
        for status in (1, 2, 3, 4, 6, 77):
            got = self.run_it("convert", "off", "-o", "part.scad", STATUS=str(status), LINE="refused: NotOff line 1 word 1")
            self.assertEqual((got, self.checkout.names()), ((status, b"", "refused: NotOff line 1 word 1\n"), []))
        self.write("part.scad", b"before")
        self.assertEqual(self.run_it("convert", "off", "-o", "part.scad", STATUS="2")[0], 2)
        self.assertEqual((self.checkout.names(), (self.checkout.cwd / "part.scad").read_bytes()), (["part.scad"], b"before"))

    def test_the_input_may_be_the_output(self) -> None:
        self.write("part.scad", b"before")
        self.assertEqual(self.run_it("upgrade", "part.scad", "-o", "part.scad"), (0, b"", ""))
        self.assertEqual((self.checkout.cwd / "part.scad").read_bytes(), said("upgrade", given=b"before"))

    def test_a_link_stays_a_link(self) -> None:
        self.write("part.scad", b"before")
        link = self.checkout.cwd / "link"
        link.symlink_to("part.scad")
        self.assertEqual(self.run_it("trial", "off", "3", "-o", "link"), (0, b"", ""))
        self.assertTrue(link.is_symlink())
        self.assertEqual((self.checkout.cwd / "part.scad").read_bytes(), said("trial", "off", "3"))

    def test_a_device_is_written_and_not_replaced(self) -> None:
        self.assertEqual(self.run_it("upgrade", "-o", "/dev/null"), (0, b"", ""))
        self.assertTrue(os.path.exists("/dev/null") and not os.path.isfile("/dev/null"))
        self.assertEqual(self.run_it("upgrade", "-o", "-"), (0, said("upgrade"), ""))

    def test_a_full_disk_is_reported_in_one_sentence(self) -> None:
        self.write("part.scad", b"before")
        got = self.run_it("upgrade", "-o", "part.scad", STATUS="5", LINE="write fault")
        self.assertEqual(got, (1, b"", "bcsg: part.scad could not be written; the disk may be full\n"))
        self.assertEqual((self.checkout.names(), (self.checkout.cwd / "part.scad").read_bytes()), (["part.scad"], b"before"))

    def test_what_cannot_be_written_is_reported_before_anything_runs(self) -> None:
        for name, line in [("no/such", "there is no folder for no/such"), (".", ". is a folder"), ("", "there is no folder for ")]:
            self.assertEqual(self.run_it("upgrade", "-o", name), (1, b"", f"bcsg: {line}\n"))

    def test_a_new_file_has_the_rights_that_the_user_asks_for(self) -> None:
        for mask, rights in [(0o022, 0o644), (0o077, 0o600)]:
            old = os.umask(mask)
            self.run_it("trial", "off", "3", "-o", f"{mask}")
            os.umask(old)
            self.assertEqual((self.checkout.cwd / f"{mask}").stat().st_mode & 0o777, rights)

    def test_an_interrupted_run_leaves_no_file(self) -> None:
        executable(self.checkout.program, "#!/bin/sh\necho begun\nexec sleep 30\n")
        for number, status in [(signal.SIGINT, 130), (signal.SIGTERM, 143), (signal.SIGHUP, 129)]:
            ran = subprocess.Popen(
                [self.checkout.top / "bcsg", "upgrade", "-o", "kept"], cwd=self.checkout.cwd, env=self.checkout.environment(), stderr=subprocess.DEVNULL, start_new_session=True
            )
            # (the answer is begun once the file beside it has bytes)
            while not any(it.stat().st_size for it in self.checkout.cwd.iterdir()):
                time.sleep(0.01)
            os.killpg(ran.pid, number)
            self.assertEqual((ran.wait(timeout=20), self.checkout.names()), (status, []))


if __name__ == "__main__":
    unittest.main()
