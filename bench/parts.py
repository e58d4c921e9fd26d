"""Parts with arcs, as a shop makes them, each a contour text from a function of its own; bench/run counts what is made of them.

Arcs begin and end at whole places, mostly of circles that go through many: (63, 16), (60, 25), (56, 33) and (52, 39) are on
that of radius 65, and so is each that is mirrored."""
from outlines import Arc, circle, oblong, outline, path

ORIGIN = (0, 0)


def spun(step, quarters):
    """A place or an arc, turned round the origin by quarter turns."""
    if isinstance(step, Arc):
        return Arc(spun(step.to, quarters), spun(step.centre, quarters), step.clockwise)
    x, y = step
    return [(x, y), (-y, x), (-x, -y), (y, -x)][quarters % 4]


def four_times(steps):
    """The steps of a quarter, and these turned for each other quarter."""
    return [spun(step, k) for k in range(4) for step in steps]


def stadium(x, y, half, radius):
    """A slot along x round a centre."""
    ends = [(x + half, y - radius), (x + half, y + radius), (x - half, y + radius), (x - half, y - radius)]
    return outline(ends[0], Arc(ends[1], (x + half, y)), ends[2], Arc(ends[3], (x - half, y)), ends[0])


def rounded(wide, high, radius):
    """A rectangle round the origin with round corners, from half its sides."""
    x, y = wide - radius, high - radius
    right = [Arc((wide, -y), (x, -y)), (wide, y), Arc((x, high), (x, y)), (-x, high)]
    return outline((x, -high), *right, *(spun(step, 2) for step in right))


# ---- plates and flanges


def bolted_plate():
    """Round corners, a bolt hole in each, and a bore."""
    bolts = "".join(circle(x, y, 10) for x in (-100, 100) for y in (-60, 60))
    return rounded(130, 90, 30) + bolts + circle(0, 0, 45)


def slotted_plate():
    """Two slots, and a hole between them."""
    return path(oblong(-150, -80, 150, 80)) + stadium(0, 45, 90, 12) + stadium(0, -45, 90, 12) + circle(0, 0, 15)


def square_flange():
    """A square with a round lug at each corner, a hole in each, and a bore."""
    lug = [Arc((230, 40), (200, 0)), (40, 230)]
    holes = "".join(circle(*spun((200, 0), k), 22) for k in range(4))
    return outline((230, -40), *four_times(lug)) + holes + circle(0, 0, 60)


def notched_disc():
    """A round plate with a square notch, a flat bore, and two holes."""
    rim = outline((63, -16), (40, -16), (40, 16), (63, 16), Arc((63, -16), ORIGIN))
    bore = outline((24, 7), Arc((24, -7), ORIGIN), (24, 7))
    return rim + bore + circle(0, 42, 9) + circle(0, -42, 9)


def gasket():
    """An eight round two bores, with a small hole on each side between them."""
    rim = outline((20, 48), Arc((20, -48), (-16, 0)), Arc((20, 48), (56, 0)))
    return rim + circle(-16, 0, 30) + circle(56, 0, 30) + circle(20, 32, 5) + circle(20, -32, 5)


# ---- gears and wheels


def gear():
    """Eight teeth between a root and a tip circle, and a bore."""
    first = [(84, -13), Arc((84, 13), ORIGIN), (63, 16), Arc((52, 39), ORIGIN)]
    second = [(68, 51), Arc((51, 68), ORIGIN), (39, 52), Arc((16, 63), ORIGIN)]
    return outline((63, -16), *four_times(first + second)) + circle(0, 0, 25)


def sprocket():
    """Eight round bites out of a rim, and a bore."""
    bites = [Arc((63, 16), (70, 0), True), Arc((52, 39), ORIGIN), Arc((39, 52), (52, 52), True), Arc((16, 63), ORIGIN)]
    return outline((63, -16), *four_times(bites)) + circle(0, 0, 20)


def ratchet():
    """Eight slanted teeth whose roots are arcs, and a keyed bore."""
    teeth = [(50, 0), Arc((48, 14), ORIGIN), (52, 39), (40, 30), Arc((30, 40), ORIGIN), (0, 65)]
    bore = outline((24, 7), Arc((24, -7), ORIGIN), (30, -7), (30, 7), (24, 7))
    return outline((65, 0), *four_times(teeth)) + bore


def geneva():
    """A wheel with four slots and four hollows between them, and a bore."""
    quarter = [(24, -7), Arc((24, 7), (24, 0), True), (60, 7), (60, 25), Arc((25, 60), (60, 60), True), (7, 60)]
    return outline((60, -7), *four_times(quarter)) + circle(0, 0, 12)


def bearing():
    """Two rings with six balls between them."""
    balls = "".join(circle(x, y, 9) for x, y in ((60, 0), (30, 52), (-30, 52), (-60, 0), (-30, -52), (30, -52)))
    return circle(0, 0, 90) + circle(0, 0, 72) + circle(0, 0, 48) + circle(0, 0, 30) + balls


def spoked_wheel():
    """A rim, a hub with a bore, and four windows between the spokes."""
    window = [(60, 25), Arc((25, 60), ORIGIN), (7, 24), Arc((24, 7), ORIGIN, True), (60, 25)]
    windows = "".join(outline(*(spun(step, k) for step in window)) for k in range(4))
    return circle(0, 0, 85) + circle(0, 0, 10) + windows


# ---- slots, keyholes, washers


def kidney():
    """A round plate with two kidney slots."""
    slot = [(52, -39), Arc((52, 39), ORIGIN), Arc((28, 21), (40, 30)), Arc((28, -21), ORIGIN, True), Arc((52, -39), (40, -30))]
    return circle(0, 0, 85) + outline(*slot) + outline(*(spun(step, 2) for step in slot))


def keyhole():
    """An escutcheon with a keyhole and two screws."""
    hole = outline((7, -24), Arc((-7, -24), ORIGIN), (-12, -80), Arc((12, -80), (0, -80)), (7, -24))
    return stadium(0, -30, 40, 80) + hole + circle(0, 35, 6) + circle(0, -101, 6)


def tab_washer():
    """A ring with two tabs."""
    rim = [(100, -16), (100, 16), (63, 16), Arc((-16, 63), ORIGIN), (-16, 90), (-33, 90), (-33, 56), Arc((63, -16), ORIGIN)]
    return outline((63, -16), *rim) + circle(0, 0, 34)


def slotted_washer():
    """A ring that is open on one side, with a hole opposite."""
    rim = outline((60, 25), Arc((60, -25), ORIGIN), (24, -10), Arc((24, 10), ORIGIN, True), (60, 25))
    return rim + circle(-45, 0, 8)


# ---- links, levers, wrenches


def link():
    """Two eyes and a waist between them."""
    rim = outline((40, 30), (160, 30), Arc((160, -30), (200, 0), True), (40, -30), Arc((40, 30), ORIGIN, True))
    return rim + circle(0, 0, 25) + circle(200, 0, 25)


def cam():
    """A round base and a nose with tangents between, and a keyed bore."""
    lobe = outline((40, 30), Arc((40, -30), ORIGIN), (58, -6), Arc((58, 6), (50, 0)), (40, 30))
    return lobe + outline((24, 7), Arc((24, -7), ORIGIN), (30, -7), (30, 7), (24, 7))


def bell_crank():
    """Two arms at a right angle with a fillet in their corner, and three eyes."""
    arm = [Arc((0, -20), ORIGIN), (150, -20), Arc((150, 20), (150, 0)), (50, 20)]
    other = [Arc((20, 50), (50, 50), True), (20, 120), Arc((-20, 120), (0, 120)), (-20, 0)]
    return outline((-20, 0), *arm, *other) + circle(0, 0, 10) + circle(150, 0, 10) + circle(0, 120, 10)


def wrench():
    """An open jaw, a handle, and a hole at its end."""
    jaw = [(10, 16), (10, -16), (-63, -16), Arc((56, -33), ORIGIN)]
    handle = [(300, -33), Arc((300, 33), (300, 0)), (56, 33), Arc((-63, 16), ORIGIN)]
    return outline((-63, 16), *jaw, *handle) + circle(300, 0, 15)


def ring_spanner():
    """Two heads, with holes of eight sides in different sizes."""
    rim = outline((56, 33), (248, 20), Arc((248, -20), (269, 0), True), (56, -33), Arc((56, 33), ORIGIN, True))
    return rim + nut(0, 40, 17) + nut(269, 17, 7)


def nut(middle, far, near):
    """A path of eight sides round a place of the x axis."""
    return path([(middle + x, y) for x, y in four_times([(far, -near), (far, near)])])


def hook():
    """A shank with an eye, and a half ring with a round tip."""
    ring = [Arc((-40, 0), ORIGIN, True), Arc((-60, 0), (-50, 0)), Arc((60, 0), ORIGIN)]
    return outline((40, 0), *ring, (60, 150), Arc((40, 150), (50, 150)), (40, 0)) + circle(50, 150, 5)


# ---- round shapes


def clover():
    """Four leaves that overlap, and a hole in each."""
    holes = "".join(circle(*spun((60, 0), k), 10) for k in range(4))
    return outline((40, -40), *four_times([Arc((40, 40), (30, 0))])) + holes


def cross():
    """Four arms with round ends, hollow corners between, and a bore."""
    arm = [Arc((100, 20), (100, 0)), (40, 20), Arc((20, 40), (40, 40), True), (20, 100)]
    return outline((100, -20), *four_times(arm)) + circle(0, 0, 15)


def crescent():
    """A sickle between two circles that cross."""
    return outline((16, 63), Arc((16, -63), ORIGIN), Arc((16, 63), (52, 0), True))


PARTS = [
    *(bolted_plate, slotted_plate, square_flange, notched_disc, gasket, gear, sprocket, ratchet, geneva, bearing, spoked_wheel),
    *(kidney, keyhole, tab_washer, slotted_washer, link, cam, bell_crank, wrench, ring_spanner, hook, clover, cross, crescent),
]


def texts():
    """The name of each part, and its contour text."""
    return [(make.__name__.replace("_", " "), make() + "M30\n") for make in PARTS]
