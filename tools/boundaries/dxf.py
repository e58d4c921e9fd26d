"""DXF: the lines, arcs, circles and polylines of model space, also those in blocks, as pieces of outlines. ezdxf reads the file.

Places of all entities but LINE and three-dimensional polylines are given about an extrusion; (0, 0, -1) mirrors x.
"""

from __future__ import annotations

from collections import Counter
from dataclasses import dataclass, field, replace
from fractions import Fraction
from importlib import import_module
from pathlib import Path
from typing import Any, Iterable

from .faults import Refused
from .decimals import from_double, near
from .pieces import MIRROR, Map, Piece, Spot, bulge_centre, direction, turning

CURVES = {"SPLINE", "ELLIPSE", "HELIX", "MLINE"}
BODIES = {"3DFACE", "MESH", "3DSOLID", "BODY", "REGION", "SURFACE", "EXTRUDEDSURFACE", "LOFTEDSURFACE", "REVOLVEDSURFACE", "SWEPTSURFACE"}
READ = {"LINE", "ARC", "CIRCLE", "LWPOLYLINE", "POLYLINE"}
DEEPEST = 30
MOST_PIECES = 20_000
UNITS = {
    1: "inches", 2: "feet", 3: "miles", 4: "millimetres", 5: "centimetres", 6: "metres", 7: "kilometres", 8: "microinches",
    9: "mils", 10: "yards", 11: "angstroms", 12: "nanometres", 13: "micrometres", 14: "decimetres",
}  # fmt: skip
INSTALL = "a DXF file is read with ezdxf, which is not installed for this Python; on Debian: apt-get install python3-ezdxf"


@dataclass
class Drawing:
    """What was read: pieces of outlines, and what there is to say about the rest."""

    pieces: list[Piece] = field(default_factory=list)
    layers: dict[str, str] = field(default_factory=dict)
    left_out: Counter[str] = field(default_factory=Counter)
    notes: list[str] = field(default_factory=list)


def read_dxf(path: Path, layer: str | None) -> Drawing:
    """The outlines of a drawing, of one layer or of all."""
    document = opened(path)
    reader = Reader(document, layer)
    reader.take_all(document.modelspace(), Map(), None, 0)
    drawing = reader.drawing
    if layer is not None and layer.casefold() not in drawing.layers:
        raise Refused(f"the layer {layer!r} has no outline; {layers_of(drawing)}")
    if not drawing.pieces:
        raise Refused(f"the drawing has no lines, arcs, circles or polylines in model space{left(drawing)}")
    units = int(document.header.get("$INSUNITS", 0))
    if units in UNITS:
        drawing.notes.append(f"the head of the drawing says {UNITS[units]}; numbers are taken as they stand")
    if drawing.left_out:
        drawing.notes.append(f"left out: {listed(drawing)}")
    heights = {it.height for it in drawing.pieces}
    if len(heights) > 1:
        drawing.notes.append(f"outlines stand at {len(heights)} heights, from {near(min(heights))} to {near(max(heights))}; all are taken as one plane")
    return drawing


def layers_of(drawing: Drawing) -> str:
    """The layers with outlines, for a message."""
    names = sorted(drawing.layers.values())
    return "layers with outlines: " + ", ".join(map(repr, names)) if names else "no layer has one"


def listed(drawing: Drawing) -> str:
    """What was left out, for a message."""
    return ", ".join(f"{count} {kind}" for kind, count in sorted(drawing.left_out.items()))


def left(drawing: Drawing) -> str:
    """The same as the end of a sentence."""
    return f"; left out: {listed(drawing)}" if drawing.left_out else ""


def opened(path: Path) -> Any:
    """The document of a file."""
    try:
        ezdxf = import_module("ezdxf")
    except ImportError:
        raise Refused(INSTALL) from None
    try:
        return ezdxf.readfile(str(path))
    except ezdxf.DXFError as error:
        raise Refused(f"ezdxf cannot read the drawing: {one_line(error)}") from None
    except UnicodeError:
        raise Refused("the drawing has bytes that are no text in its encoding") from None
    except OSError as error:
        raise Refused(f"the file is not a DXF drawing: {error.strerror or one_line(error)}") from None
    except (ValueError, LookupError, TypeError, AttributeError, StopIteration) as error:
        # (what ezdxf lets out where tags are missing or of another kind)
        raise Refused(f"the drawing is damaged, and ezdxf cannot read it: {one_line(error)}") from None


def one_line(error: Exception) -> str:
    """A message as one line."""
    return " ".join(str(error).split())[:200] or type(error).__name__


class Reader:
    """The pieces that were found so far."""

    def __init__(self, document: Any, layer: str | None) -> None:
        self.document = document
        self.wanted = layer.casefold() if layer is not None else None
        self.drawing = Drawing()
        self.outlines = 0

    def take_all(self, entities: Iterable[Any], placed: Map, owner: str | None, depth: int) -> None:
        """The entities of model space, or of a block whose INSERT has the layer `owner`."""
        for entity in entities:
            kind = str(entity.dxftype())
            layer = str(entity.dxf.get("layer", "0"))
            if layer == "0" and owner is not None:
                layer = owner
            if kind == "INSERT":
                self.take_insert(entity, placed, layer, depth)
            elif kind in READ | CURVES | BODIES:
                self.take(entity, kind, placed, layer)
            else:
                self.drawing.left_out[kind] += 1

    def take(self, entity: Any, kind: str, placed: Map, layer: str) -> None:
        """An entity that is a piece of an outline, or should be one."""
        self.drawing.layers.setdefault(layer.casefold(), layer)
        if self.wanted is not None and layer.casefold() != self.wanted:
            return
        name = f"{kind} {entity.dxf.get('handle', '?')} on layer {layer!r}"
        if kind in CURVES:
            raise Refused(f"{name} is a curve that is neither a line nor an arc; turn it into arcs or lines first")
        if kind in BODIES:
            raise Refused(f"{name} is a body in space; only outlines in the plane are read")
        made = self.pieces_of(entity, kind, placed, name)
        self.drawing.pieces += [replace(it, source=name, layer=layer) for it in made]
        if len(self.drawing.pieces) > MOST_PIECES:
            raise Refused(f"the drawing has more than {MOST_PIECES:,} lines and arcs, and bcsg takes at most 512")

    def pieces_of(self, entity: Any, kind: str, placed: Map, name: str) -> list[Piece]:
        """The pieces of an entity."""
        if kind == "LINE":
            return line_pieces(entity, placed, name)
        if kind == "POLYLINE":
            return self.polyline(entity, placed, name)
        whole = placed.after(extrusion(entity, name))
        if kind == "LWPOLYLINE":
            corners = [(exact(x, name), exact(y, name), exact(b, name)) for x, y, b in entity.get_points("xyb")]
            return self.chain(corners, bool(entity.closed), exact(entity.dxf.get("elevation", 0), name), whole, name)
        return round_pieces(entity, kind, whole, name)

    def polyline(self, entity: Any, placed: Map, name: str) -> list[Piece]:
        """The pieces of an old polyline."""
        if entity.is_polygon_mesh or entity.is_poly_face_mesh:
            raise Refused(f"{name} is a mesh in space; only outlines in the plane are read")
        # (corners of the frame of a spline are not drawn)
        vertices = [it for it in entity.vertices if not it.dxf.get("flags", 0) & 16]
        corners, heights = [], []
        for it in vertices:
            x, y, z = (exact(value, name) for value in it.dxf.location)
            corners.append((x, y, exact(it.dxf.get("bulge", 0), name) if entity.is_2d_polyline else Fraction(0)))
            heights.append(z)
        if entity.is_3d_polyline:
            if len(set(heights)) > 1:
                raise Refused(f"{name} does not lie flat: its corners have the heights {near(min(heights))} to {near(max(heights))}")
            whole = placed
        else:
            whole = placed.after(extrusion(entity, name))
        height = heights[0] if heights else Fraction(0)
        return self.chain(corners, bool(entity.is_closed), height, whole, name)

    def chain(self, corners: list[tuple[Fraction, Fraction, Fraction]], is_closed: bool, height: Fraction, whole: Map, name: str) -> list[Piece]:
        """The pieces between corners, each with the bulge on the way to the next one."""
        found = []
        ends = corners[1:] + (corners[:1] if is_closed else [])
        for (x, y, bulge), (to_x, to_y, _) in zip(corners, ends):
            if (x, y) == (to_x, to_y):
                continue
            start, end = whole.spot(x, y), whole.spot(to_x, to_y)
            if bulge == 0:
                found.append(Piece(start, end))
                continue
            check_round(whole, name)
            bulge = -bulge if whole.mirrors else bulge
            found.append(Piece(start, end, bulge_centre(start, end, bulge), 1 if bulge > 0 else -1))
        is_whole = len(found) > 1 and found[0].start == found[-1].end
        self.outlines += is_whole
        outline = self.outlines if is_whole else None
        return [replace(it, outline=outline, height=whole.height(height)) for it in found]

    def take_insert(self, entity: Any, placed: Map, layer: str, depth: int) -> None:
        """The entities of a block, as often as its INSERT says."""
        name = f"INSERT {entity.dxf.get('handle', '?')} on layer {layer!r}"
        if depth > DEEPEST:
            raise Refused(f"{name} is nested more than {DEEPEST} deep")
        block = self.document.blocks.get(str(entity.dxf.name))
        if block is None:
            raise Refused(f"{name} names the block {entity.dxf.name!r}, which the drawing does not have")
        get = entity.dxf.get
        base, at = block.block.dxf.get("base_point", (0, 0, 0)), get("insert", (0, 0, 0))
        bx, by, bz = (exact(it, name) for it in base)
        x, y, z = (exact(it, name) for it in at)
        sx, sy, sz = (exact(get(it, 1), name) for it in ("xscale", "yscale", "zscale"))
        turned = turning(exact(get("rotation", 0), name))
        outer = placed.after(extrusion(entity, name)).after(Map(x0=x, y0=y, z0=z)).after(turned)
        inner = Map(a=sx, d=sy, e=sz).after(Map(x0=-bx, y0=-by, z0=-bz))
        columns, rows = max(1, int(get("column_count", 1))), max(1, int(get("row_count", 1)))
        if columns * rows > MOST_PIECES:
            raise Refused(f"{name} has {columns:,} columns and {rows:,} rows")
        wide, high = exact(get("column_spacing", 0), name), exact(get("row_spacing", 0), name)
        for column in range(columns):
            for row in range(rows):
                whole = outer.after(Map(x0=column * wide, y0=row * high)).after(inner)
                self.take_all(block, whole, layer, depth + 1)


def exact(value: Any, name: str) -> Fraction:
    """The decimal of a number that ezdxf gives."""
    number = float(value)
    if not abs(number) < 1e100:
        raise Refused(f"{name} has a number that is not finite")
    return from_double(number)


def extrusion(entity: Any, name: str) -> Map:
    """The map that an extrusion makes; one that is neither up nor down is refused."""
    x, y, z = (float(it) for it in entity.dxf.get("extrusion", (0, 0, 1)))
    if abs(x) > 1e-9 * abs(z) or abs(y) > 1e-9 * abs(z):
        raise Refused(f"{name} does not lie flat: its extrusion is ({x:g}, {y:g}, {z:g})")
    return MIRROR if z < 0 else Map()


def check_round(whole: Map, name: str) -> None:
    """Refuses an arc that a block stretches."""
    if not whole.keeps_circles:
        raise Refused(f"{name} is round, and the INSERT of its block stretches it to an ellipse")


def line_pieces(entity: Any, placed: Map, name: str) -> list[Piece]:
    """The piece of a LINE."""
    (ax, ay, az), (bx, by, bz) = (tuple(exact(it, name) for it in spot) for spot in (entity.dxf.start, entity.dxf.end))
    if az != bz:
        raise Refused(f"{name} does not lie flat: its ends have the heights {near(az)} and {near(bz)}")
    start, end = placed.spot(ax, ay), placed.spot(bx, by)
    return [Piece(start, end, height=placed.height(az))] if start != end else []


def round_pieces(entity: Any, kind: str, whole: Map, name: str) -> list[Piece]:
    """The piece of an ARC or a CIRCLE."""
    check_round(whole, name)
    x, y, z = (exact(it, name) for it in entity.dxf.center)
    radius = exact(entity.dxf.radius, name)
    if radius <= 0:
        raise Refused(f"{name} has the radius {near(radius)}")
    first, last = Fraction(0), Fraction(360)
    if kind == "ARC":
        first, last = exact(entity.dxf.start_angle, name), exact(entity.dxf.end_angle, name)
    start, end = (whole.spot(*on_circle(x, y, radius, it)) for it in (first, last))
    turn = -1 if whole.mirrors else 1
    return [Piece(start, start if (last - first) % 360 == 0 else end, whole.spot(x, y), turn, height=whole.height(z))]


def on_circle(x: Fraction, y: Fraction, radius: Fraction, degrees: Fraction) -> Spot:
    """The point of a circle at an angle."""
    cosine, sine = direction(degrees)
    return (x + radius * cosine, y + radius * sine)
