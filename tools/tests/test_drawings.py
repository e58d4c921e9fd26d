"""The tests of drawings, by a Python that has ezdxf: this one, or Debian's own; else they are skipped, which is said."""

from __future__ import annotations

import os
import subprocess
import unittest
from importlib.util import find_spec
from pathlib import Path

from common import Case
from boundaries.command import DEBIAN, main
from boundaries.dxf import INSTALL

HERE = Path(__file__).resolve().parent
PROBE = "import importlib.util as it, sys; sys.exit(it.find_spec('ezdxf') is None)"


def other_has_ezdxf() -> bool:
    """Whether Debian's own Python has ezdxf."""
    return os.access(DEBIAN, os.X_OK) and subprocess.run([DEBIAN, "-c", PROBE], check=False).returncode == 0


class DrawingsTest(Case):
    """All of drawings_suite."""

    def test_drawings(self) -> None:
        if find_spec("ezdxf") is not None:
            loaded = unittest.defaultTestLoader.loadTestsFromName("drawings_suite")
            result = unittest.TestResult()
            loaded.run(result)
            self.assertEqual([text for _, text in result.failures + result.errors], [])
        elif other_has_ezdxf():
            words = [DEBIAN, "-B", "-m", "unittest", "-q", "drawings_suite"]
            ran = subprocess.run(words, cwd=HERE, capture_output=True, text=True, check=False)
            self.assertEqual(ran.returncode, 0, ran.stderr)
        else:
            print("the tests of DXF drawings are skipped, since ezdxf is not installed; on Debian: apt-get install python3-ezdxf")
            self.skipTest("skipped: ezdxf is not installed; on Debian: apt-get install python3-ezdxf")

    def test_without_ezdxf_it_is_asked_for(self) -> None:
        self.assertIn("apt-get install python3-ezdxf", INSTALL)
        self.assertTrue(callable(main))


if __name__ == "__main__":
    unittest.main()
