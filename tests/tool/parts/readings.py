"""What the options make of a reading: part, shrinking, narrowing, the expected size, the points of a cell."""
from . import pictures
from .check import DOUBTFUL, FILE, NO_BOARD, OK, USAGE
from .formats import objects

PLACE = "top left pitch_down pitch_across rows columns".split()


def place(told):
    return [told[name] for name in PLACE]


def one(c, *words):
    return objects(c.run("--json", *words))[0]


def parts(c):
    """The same board in a larger picture: coordinates are of the picture as it came in."""
    c.equal("drawn", place(one(c, "drawn.png")), pictures.READ)
    desk = pictures.Picture(900, 700, (90, 90, 90))
    desk.fill(300, 400, 236, 260, pictures.BACKGROUND)
    pictures.draw_board(desk, 330, 435, 9, 10, 20, 20)
    c.make("desk.png", desk.png())
    told = one(c, "--box", "260x236+400+300", "desk.png")
    c.equal("a part: its place", place(told), [329, 434, *pictures.READ[2:]])
    c.equal("a part: the sides are the picture's", [told["width"], told["height"]], [900, 700])
    c.equal("a part: the same cells", told["cells"], one(c, "drawn.png")["cells"])
    told = one(c, "--box", "260x236+400+300", "--expect", "13x14", "desk.png")
    c.check("cells in the picture, but not in its part", any(cell is None for row in told["cells"] for cell in row)
            and "cells of the grid lie off the part that is read" in told["reasons"], told)
    for box in ("901x10+0+0", "10x701+0+0", "10x10+891+0", "10x10+0+691"):
        ran = c.run("--box", box, "desk.png")
        c.ends(f"a box that is not in the picture, {box}", ran, USAGE, 1)
        c.equal(f"a box that is not in the picture, {box}: prints nothing", ran.out, b"")
    c.equal("a box that is in one of two", c.run("--quiet", "--box", "260x236+400+300", "drawn.png", "desk.png").status, USAGE)


def tight(c):
    """A box with less than 6 pixels around the board is warned of, and read all the same."""
    ran = c.run("--json", "--box", "211x191+30+25", "drawn.png")
    c.check("a tight box: it is warned of", ran.err.count(b"\n") == 1 and b"box" in ran.err and b"6 pixels" in ran.err, ran.err)
    c.equal("a tight box: it is read", len(objects(ran)), 1)
    quiet = c.run("--json", "--quiet", "--box", "211x191+30+25", "drawn.png")
    c.equal("a tight box --quiet", [quiet.err, quiet.out, quiet.status], [b"", ran.out, ran.status])
    c.ends("a box with room", c.run("--box", "230x210+20+15", "drawn.png"), OK)
    # lines of one pixel, from row 30 to 210 and column 35 to 235: so many pixels are left outside of them
    plain = pictures.Picture(260, 236)
    pictures.draw_lines(plain, range(30, 211, 20), range(35, 236, 20))
    c.make("plain.png", plain.png())
    for side, sides in enumerate(("none", "above", "below", "at the left", "at the right")):
        above, below, left, right = (5 if side == at else 6 for at in (1, 2, 3, 4))
        ran = c.run("--json", "--box", f"{left + 201 + right}x{above + 181 + below}+{35 - left}+{30 - above}", "plain.png")
        c.equal(f"5 pixels {sides}: warned of", b"less than 6 pixels" in ran.err, side > 0)
        c.equal(f"5 pixels {sides}: lines said", ran.err.count(b"\n"), int(side > 0))
        c.equal(f"5 pixels {sides}: its place", place(objects(ran)[0]), pictures.READ)


def beyond(c):
    """A picture that is larger than what is read has a part that is not."""
    wide = pictures.Picture(4500, 236)
    pictures.draw_board(wide, 30, 4235, *pictures.DRAWN[4:])
    c.make("beyond.png", wide.png())
    ran = c.run("--text", "beyond.png")
    c.ends("4,500 columns", ran, FILE, 1)
    c.check("4,500 columns: the limit and what to do", all(word in ran.err for word in (b"4096", b"--box", b"4500")), ran.err)
    told = one(c, "--box", "260x236+4200+0", "beyond.png")
    c.equal("a part of 4,500 columns: its place", place(told), [29, 4234, *pictures.READ[2:]])
    c.equal("a part of 4,500 columns: the same cells", told["cells"], one(c, "drawn.png")["cells"])


def shrunk(c):
    """Cells of 240 pixels: above the largest pitch, until they are shrunk. Columns and rows left over fall away."""
    small = pictures.board(312, 252, 15, 30, 3, 4, 60, 60)
    c.make("small.png", small.png())
    c.make("large.png", small.enlarged(4, 3, 2).png())
    near, far = one(c, "small.png"), one(c, "--shrink", "4", "large.png")
    c.equal("shrunk by 4: its place", place(far)[:4], [4 * value for value in place(near)[:4]])
    c.equal("shrunk by 4: the same cells", far["cells"], near["cells"])
    c.equal("shrunk by 4: the sides are the picture's", [far["width"], far["height"]], [1251, 1010])
    part = one(c, "--shrink=4", "--box=1243x1002+8+8", "large.png")
    c.equal("a part, shrunk by 4", place(part)[:2] + part["cells"], place(far)[:2] + far["cells"])
    c.ends("not shrunk", c.run("large.png"), NO_BOARD, 1)
    c.ends("shrunk to nothing", c.run("--shrink=64", "blank.png"), USAGE, 1)
    for words, why in ((["--shrink=60"], "what is read has 1 by 1 pixels, at least 12 a side are needed; give a smaller --shrink"),
                       (["--box=10x11+3+4"], "what is read has 10 by 11 pixels, at least 12 a side are needed; give a larger --box"),
                       (["--box=70x50+3+4"], "nothing like a grid covers more than a third of the box; give a closer --box"),
                       ([], "nothing like a grid covers more than a third of the picture; give its part with --box")):
        ran = c.run(*words, "blank.png")
        c.ends(f"no board in what is left, {words}", ran, NO_BOARD, 1)
        c.equal(f"no board in what is left, {words}: why", ran.err.decode(), f"folgutan: blank.png: no board: {why}\n")


def points(c):
    """A cell of two colours in its middle: one point takes one of them, many their mean."""
    picture = pictures.board(*pictures.DRAWN)
    for x in range(9):
        for y in range(10):
            for row in range(20 * x + 33, 20 * x + 48):
                picture.fill(row, 20 * y + 38, 1, 15, (200, 100, 0) if row % 2 else (0, 100, 200))
    c.make("striped.png", picture.png())
    one_point = {cell for row in one(c, "striped.png")["cells"] for cell in row}
    c.check("one point of a cell", one_point <= {"#c86400", "#0064c8"} and one_point, one_point)
    means = {cell for row in one(c, "--size", "2", "striped.png")["cells"] for cell in row}
    c.check("the mean of four points differs", means and means.isdisjoint(one_point), means)
    c.equal("the same grid", place(one(c, "--size", "24", "striped.png")), place(one(c, "striped.png")))


def statuses(c):
    """With several pictures, the largest."""
    for files, status in ((["first.screen", "drawn.png"], OK), (["first.screen", "blank.png"], NO_BOARD),
                          (["blank.png", "first.screen"], NO_BOARD), (["blank.png", "missing.png", "first.screen"], FILE)):
        c.equal(f"status of {files}", c.run("--quiet", *files).status, status)
    mixed = c.run("--quiet", "--expect", "9x10", "first.screen", "blank.png", "drawn.png")
    c.equal("status of unlike, no board, as expected", mixed.status, DOUBTFUL)
    c.equal("status of one as expected", c.run("--expect", "9x10", "drawn.png").status, OK)
    c.ends("no board", c.run("blank.png"), NO_BOARD, 1)
    c.ends("no board --quiet", c.run("--quiet", "blank.png"), NO_BOARD)
    c.check("no board: why, and of which file", c.run("blank.png").err.startswith(b"folgutan: blank.png: no board"))
    c.ends("no file --quiet", c.run("--quiet", "missing.png"), FILE, 1)
    c.ends("a folder", c.run("named"), FILE, 1)


def run(c):
    parts(c)
    tight(c)
    beyond(c)
    shrunk(c)
    points(c)
    statuses(c)
