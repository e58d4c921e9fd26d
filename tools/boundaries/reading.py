"""Which reader a file needs: the ending of its name decides."""

from __future__ import annotations

import re
from pathlib import Path
from typing import Callable

from .faults import Refused
from .mesh import Mesh
from .obj import read_obj
from .off import read_off
from .ply import read_ply
from .stl import read_stl

READERS: dict[str, Callable[[bytes], Mesh]] = {".stl": read_stl, ".ply": read_ply, ".obj": read_obj, ".off": read_off}
DRAWING = ".dxf"
MOST_BYTES = 128 * 1024 * 1024


def ending(path: Path) -> str:
    """The ending of a name that is known, in small letters."""
    found = path.suffix.lower()
    if found not in READERS and found != DRAWING:
        raise Refused("the ending of the name says the format, and it is none of .stl, .ply, .obj, .off and .dxf")
    return found


def contents(path: Path) -> bytes:
    """The bytes of a file."""
    try:
        with open(path, "rb") as file:
            data = file.read(MOST_BYTES + 1)
    except OSError as error:
        raise Refused(f"the file cannot be read: {error.strerror or error}") from None
    except ValueError as error:
        # (a name with a byte 0)
        raise Refused(f"the file cannot be read: {error}") from None
    if len(data) > MOST_BYTES:
        raise Refused(f"the file has more than {MOST_BYTES // 1024 // 1024} MiB, and at most that is read; export it coarser")
    return data


def read_mesh(form: str, data: bytes) -> Mesh:
    """The mesh of a file; a fault in a last line without an end is that of a file which was cut off there."""
    try:
        return READERS[form](data)
    except Refused as fault:
        place = re.match(r"line (\d+): ", str(fault))
        if place is None or data.endswith((b"\n", b"\r")) or int(place[1]) < data.count(b"\n") + 1:
            raise
        raise Refused(f"the file is cut off in line {place[1]}: {str(fault)[place.end():]}") from None
