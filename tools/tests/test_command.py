"""The command: its lines, its statuses, its words, and devices that fail."""

from __future__ import annotations

import contextlib
import io
import os
import struct
import subprocess
import sys
import time
import unittest
from pathlib import Path

from common import FROM, Case, call
from boundaries.command import main
from making import box, off_text, plate_with_hole, stl_bytes, stl_text


class LinesTest(Case):
    """What stands on which stream."""

    def test_the_lines_of_a_mesh(self) -> None:
        ran = call(self.file("part.stl", stl_text(box(1500, 40.5, 30))))
        self.assertEqual(ran.returncode, 0)
        self.assertTrue(ran.stdout.startswith("OFF\n8 6 12\n"))
        self.assertEqual(ran.stderr, "scale 2/3 2/3 2/3 move 0 0 0\nmoved 0\nplanes 6\n")

    def test_the_lines_of_a_section(self) -> None:
        ran = call("--plane", "1", self.file("part.stl", stl_text(box(40, 30, 20))))
        self.assertEqual(ran.stdout.count("G01"), 4)
        self.assertEqual(ran.stderr, "scale 1 1 move 0 0\nmoved 0\nlines 4 discs 0\n")

    def test_numbers_have_no_exponent(self) -> None:
        ran = call(self.file("part.stl", stl_text(box(40e-9, 30.5e-9, 20e-9), "{:.4e}")))
        self.assertRegex(ran.stderr, r"^scale \d+ \d+ \d+ move 0 0 0\nmoved 0\n")

    def test_names_with_spaces_and_quotes(self) -> None:
        for name in ("my 'best' part.stl", 'a "b" $c;d.STL', "-x.stl", "\nq.stl"):
            path = self.file(name, stl_text(box(4, 3, 2)))
            ran = subprocess.run([sys.executable, "-B", str(FROM), "--", name], cwd=path.parent, capture_output=True, check=False)
            self.assertEqual(ran.returncode, 0, ran.stderr)


class RefusalTest(Case):
    """Status 2, nothing on standard output, and one line that names the file."""

    def why(self, *words: str | Path) -> str:
        out, err = io.StringIO(), io.StringIO()
        with contextlib.redirect_stdout(out), contextlib.redirect_stderr(err):
            status = main([str(it) for it in words])
        self.assertEqual((status, out.getvalue()), (2, ""), err.getvalue())
        self.assertEqual(err.getvalue().count("\n"), 1, err.getvalue())
        self.assertTrue(err.getvalue().startswith("from: "), err.getvalue())
        return err.getvalue()

    def test_files_that_cannot_be_read(self) -> None:
        self.assertIn("No such file", self.why(self.folder / "none.stl"))
        (self.folder / "folder.stl").mkdir()
        self.assertIn("directory", self.why(self.folder / "folder.stl"))
        self.assertIn(".stl, .ply, .obj, .off and .dxf", self.why(self.file("part.step", b"")))
        self.assertIn("empty", self.why(self.file("part.stl", b"")))

    def test_words_that_are_refused(self) -> None:
        part = self.file("part.stl", stl_text(box(4, 3, 2)))
        wrong: list[list[str | Path]] = [[], ["--what", part], [part, part], ["--factor", part], ["--fac", "2", part]]
        for words in wrong:
            self.assertIn("usage: ", self.why(*words))
        for option, value in [("factor", "0"), ("factor", "-1"), ("factor", "x"), ("factor", "1/0"), ("factor", "1,2,3,4"), ("join", "0"), ("plane", "y")]:
            self.assertIn(f"--{option} wants", self.why(f"--{option}={value}", part))
        self.assertIn("2 numbers", self.why("--factor", "1,2", part))
        self.assertIn("--layer is for drawings", self.why("--layer", "cut", part))

    def test_a_million_facets_are_told_soon(self) -> None:
        path = self.folder / "large.stl"
        with open(path, "wb") as file:
            file.write(b"".ljust(80) + struct.pack("<I", 1_000_000))
            file.truncate(84 + 50 * 1_000_000)
        begin = time.monotonic()
        ran = call(path)
        self.assertIn("1,000,000 facets", ran.stderr)
        self.assertEqual((ran.returncode, ran.stdout), (2, ""))
        self.assertLess(time.monotonic() - begin, 10)

    def test_more_bytes_than_are_read(self) -> None:
        path = self.folder / "large.off"
        with open(path, "wb") as file:
            file.truncate(200 * 1024 * 1024)
        self.assertIn("128 MiB", self.why(path))

    def test_files_of_noise(self) -> None:
        noise = bytes((k * k * 7 + k // 3) % 256 for k in range(3000))
        for ending in ("stl", "ply", "obj", "off"):
            self.why(self.file(f"noise.{ending}", noise))
            self.why(self.file(f"short.{ending}", noise[:5]))


class DeviceTest(Case):
    """Status 1 where standard output fails."""

    def test_a_full_disk(self) -> None:
        part = self.file("part.off", off_text(box(4, 3, 2)))
        with open("/dev/full", "w", encoding="ascii") as full:
            ran = subprocess.run([sys.executable, "-B", str(FROM), str(part)], stdout=full, stderr=subprocess.PIPE, text=True, check=False)
        self.assertEqual(ran.returncode, 1)
        self.assertEqual(ran.stderr, "from: standard output: No space left on device\n")

    def test_closed_streams(self) -> None:
        part = self.file("part.off", off_text(box(4, 3, 2)))
        ran = subprocess.run(["sh", "-c", '"$0" -B "$1" "$2" >&-', sys.executable, str(FROM), str(part)], capture_output=True, text=True, check=False)
        self.assertEqual((ran.returncode, ran.stderr), (1, "from: standard output is closed\n"))
        ran = subprocess.run(["sh", "-c", '"$0" -B "$1" "$2" 2>&-', sys.executable, str(FROM), str(part)], capture_output=True, text=True, check=False)
        self.assertEqual(ran.returncode, 0)

    def test_a_reader_that_has_left(self) -> None:
        part = self.file("part.stl", stl_text(plate_with_hole(24)))
        read, write = os.pipe()
        os.close(read)
        with os.fdopen(write, "w") as pipe:
            ran = subprocess.run([sys.executable, "-B", str(FROM), str(part)], stdout=pipe, stderr=subprocess.PIPE, text=True, check=False)
        self.assertEqual((ran.returncode, ran.stderr), (1, "from: standard output: its reader has left\n"))

    def test_help(self) -> None:
        ran = call("--help")
        self.assertEqual(ran.returncode, 0)
        self.assertIn("--factor", ran.stdout)

    def test_the_same_text_at_each_run(self) -> None:
        part = self.file("part.stl", stl_bytes(plate_with_hole(12, 4.3)))
        self.assertEqual(call(part).stdout, call(part).stdout)


if __name__ == "__main__":
    unittest.main()
