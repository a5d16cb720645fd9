"""The overlay, by its pixels, and the file it is written to."""
import os
import resource
import signal
import stat
import subprocess
import time

from . import pictures
from .check import FILE, NO_BOARD, OK, USAGE
from .formats import objects

MAGENTA, CYAN, YELLOW, BLACK, ORANGE = (255, 0, 255), (0, 255, 255), (255, 255, 0), (0, 0, 0), (255, 128, 0)


def overlay(c, name, *words):
    ran = c.run("--json", "--overlay", name, *words)
    return ran, pictures.read_png(c.content(name))


def all_of(picture, colour):
    found, colour = [], bytes(colour)
    for row, line in enumerate(picture.rows):
        at = line.find(colour)
        while at >= 0:
            if at % 3 == 0:
                found.append((row, at // 3))
            at = line.find(colour, at + 1)
    return found


def lines(c):
    ran, seen = overlay(c, "seen.png", "drawn.png")
    c.ends("an overlay", ran, OK)
    c.equal("an overlay: the text is the same", ran.out, c.run("--json", "drawn.png").out)
    c.equal("an overlay: sides", (seen.width, seen.height), (260, 236))
    to_be = {(row, column) for row in range(29, 210) for column in range(34, 235) if (row - 29) % 20 == 0 or (column - 34) % 20 == 0}
    c.equal("an overlay: the lines", set(all_of(seen, MAGENTA)), to_be)
    drawn = pictures.read_png(c.content("drawn.png"))
    same = [place for place in ((0, 0), (28, 33), (210, 235), (30, 35), (235, 259)) if seen.at(*place) == drawn.at(*place)]
    c.equal("an overlay: elsewhere it is the picture", len(same), 5)


def fractions(c):
    """Pitches of 20.75 and 21.25: lines are drawn at the pixel that is nearest."""
    picture = pictures.Picture(320, 280)
    pictures.draw_lines(picture, [33 + int(20.75 * k + 0.5) for k in range(11)], [37 + int(21.25 * k + 0.5) for k in range(12)])
    c.make("fractions.png", picture.png())
    ran, seen = overlay(c, "fractions_seen.png", "fractions.png")
    (told,) = objects(ran)
    c.equal("fractions: the pitches", [told["pitch_down"], told["pitch_across"]], [20.75, 21.25])
    tops = [int(told["top"] + 20.75 * x + 0.5) for x in range(told["rows"] + 1)]
    lefts = [int(told["left"] + 21.25 * y + 0.5) for y in range(told["columns"] + 1)]
    found = set(all_of(seen, MAGENTA))
    c.equal("fractions: the lines", found, {(row, column) for row in range(tops[0], tops[-1] + 1) for column in range(lefts[0], lefts[-1] + 1)
                                            if row in tops or column in lefts})


def points(c):
    """A yellow pixel lies where the cell's colour was taken, with a ring around."""
    for file, *words in (["drawn.png"], ["first.screen"], ["sample.screen"], ["wide.png"], ["large.png", "--shrink", "4"]):
        ran, seen = overlay(c, "points.png", file, *words)
        (told,) = objects(ran)
        found = all_of(seen, YELLOW)
        c.equal(f"{file}: a point a cell", len(found), told["rows"] * told["columns"])
        drawn = (screen if file.endswith(".screen") else pictures.read_png)(c.content(file))
        flat = [cell for row in told["cells"] for cell in row]
        places = {}
        for row, column in found:
            x, y = int((row - told["top"]) // told["pitch_down"]), int((column - told["left"]) // told["pitch_across"])
            places[x * told["columns"] + y] = "#%02x%02x%02x" % drawn.at(row, column)
        c.equal(f"{file}: the pixel of a point is the cell's colour", [places.get(i) for i in range(len(flat))], flat)
        ring = [seen.at(row + i, column + j) for row, column in found for i in (-1, 0, 1) for j in (-1, 0, 1) if i or j]
        c.check(f"{file}: rings", all(colour == BLACK for colour in ring))
    _, seen = overlay(c, "points.png", "--size", "3", "drawn.png")
    c.equal("nine points a cell", len(all_of(seen, YELLOW)), 9 * 9 * 10)
    for size in ("20", "24"):
        _, seen = overlay(c, "points.png", "--size", size, "drawn.png")
        drawn = {(row, column) for row in range(29, 210) for column in range(34, 235)}
        to_be = {(row, column) for row, column in drawn if (row - 29) % 20 == 0 or (column - 34) % 20 == 0}
        c.equal(f"{size} points a side: the lines are over them", set(all_of(seen, MAGENTA)), to_be)
        c.equal(f"{size} points a side: a point a pixel", set(all_of(seen, YELLOW)), drawn - to_be)


def screen(data):
    height, width = map(int, data.split(b"\n")[1].split())
    pixels, picture = data[-4 * height * width:], pictures.Picture(width, height)
    for row in range(height):
        line = pixels[4 * row * width:4 * (row + 1) * width]
        picture.rows[row] = bytearray(line[4 * i + 2 - k] for i in range(width) for k in range(3))
    return picture


def boxes(c):
    ran, seen = overlay(c, "box.png", "--box", "260x236+400+300", "desk.png")
    c.equal("a part: status", ran.status, OK)
    c.equal("a part: the whole picture", (seen.width, seen.height), (900, 700))
    border = {(row, column) for row in range(300, 536) for column in range(400, 660) if row in (300, 535) or column in (400, 659)}
    c.equal("a part: the box", set(all_of(seen, CYAN)), border)
    c.check("a part: the grid", seen.at(329, 434) == seen.at(509, 634) == seen.at(340, 454) == MAGENTA and seen.at(328, 434) != MAGENTA)
    ran, seen = overlay(c, "none.png", "--box", "60x50+10+5", "blank.png")
    c.equal("no board: status", ran.status, NO_BOARD)
    c.equal("no board: the box alone", {seen.at(row, column) for row in range(60) for column in range(80)}, {CYAN, pictures.BACKGROUND})
    c.equal("no board: corners", [seen.at(5, 10), seen.at(54, 69), seen.at(4, 10), seen.at(55, 69), seen.at(6, 11)],
            [CYAN, CYAN, *[pictures.BACKGROUND] * 3])
    ran, seen = overlay(c, "none.png", "blank.png")
    c.equal("no board and no box: the picture", seen.rows, pictures.Picture(80, 60).rows)


def extended(c):
    """An extended grid is orange, clipped to the picture, and points are where cells are."""
    _, seen = overlay(c, "extended.png", "--box", "260x236+0+0", "--expect", "13x14", "drawn.png")
    found = all_of(seen, ORANGE)
    c.equal("extended: nothing is magenta", all_of(seen, MAGENTA), [])
    c.check("extended: lines", {(29, 20), (49, 20), (35, 34), (35, 254), (1, 14), (234, 14)} <= set(found), len(found))
    c.check("extended: lines only there", all(row % 20 == 9 or column % 20 == 14 for row, column in found))
    c.equal("extended: its points", len(all_of(seen, YELLOW)), 11 * 13)
    # some of the points of the last row, and of the outer columns, are in the picture, but not all
    _, seen = overlay(c, "extended.png", "--size", "3", "--box", "260x236+0+0", "--expect", "13x14", "drawn.png")
    c.equal("extended: nine points of a cell, or none", len(all_of(seen, YELLOW)), 9 * 11 * 12)


def large(c):
    """Above 2,000 pixels a side, lines are two pixels wide and points three."""
    c.make("long.png", pictures.board(2100, 160, 20, 300, 6, 70, 20, 20).png())
    _, seen = overlay(c, "long_seen.png", "--box", "1600x160+200+0", "long.png")
    c.equal("large: a line", [seen.at(30, column) == MAGENTA for column in range(499, 503)], [False, True, True, False])
    c.equal("large: its points", len(all_of(seen, YELLOW)), 9 * 6 * 70)


def limited():
    resource.setrlimit(resource.RLIMIT_FSIZE, (500, 500))


def files(c):
    """The file is there as a whole, or as it was; nothing else is left beside it."""
    before = set(os.listdir(c.folder))
    # a program that is wrong replaces what is there: that must be a file of this folder, and no device
    os.mkfifo(os.path.join(c.folder, "pipe.png"))
    for name, word in (("nowhere/seen.png", b"No such file"), ("named", b"directory"), ("pipe.png", b"regular"),
                       ("drawn.png/seen.png", b"Not a directory")):
        ran = c.run("--overlay", name, "drawn.png")
        c.ends(f"an overlay to {name}", ran, FILE, 1)
        c.check(f"an overlay to {name}: why", name.encode() in ran.err and word in ran.err, ran.err)
        c.equal(f"an overlay to {name}: the text is printed", ran.out, c.run("drawn.png").out)
    c.check("a pipe is what it was", stat.S_ISFIFO(os.stat(os.path.join(c.folder, "pipe.png")).st_mode))
    c.equal("an overlay of a file that is not there", c.run("--overlay", "new.png", "missing.png").status, FILE)
    content = c.content("drawn.png")
    os.symlink("drawn.png", os.path.join(c.folder, "link.png"))
    for name in ("drawn.png", "./drawn.png", "link.png"):
        ran = c.run("--overlay", name, "drawn.png")
        c.ends(f"an overlay over the picture, {name}", ran, USAGE, 1)
        c.equal(f"an overlay over the picture, {name}: prints nothing", ran.out, b"")
    with open(os.path.join(c.folder, "drawn.png"), "rb") as read:
        c.ends("an overlay over standard input", c.run("--overlay", "drawn.png", "-", stdin=read), USAGE, 1)
    c.equal("the picture is as it was", c.content("drawn.png"), content)
    c.make("old.png", b"old")
    ran = c.run("--overlay", "old.png", "drawn.png", preexec_fn=limited)
    c.ends("an overlay that does not fit", ran, FILE, 1)
    c.check("an overlay that does not fit: why", b"File too large" in ran.err, ran.err)
    c.equal("what was there still is", c.content("old.png"), b"old")
    os.chmod(os.path.join(c.folder, "old.png"), 0o640)
    os.symlink("old.png", os.path.join(c.folder, "to_old.png"))
    c.ends("an overlay over a file, by a link", c.run("--overlay", "to_old.png", "drawn.png"), OK)
    c.equal("it is the same overlay", c.content("old.png"), c.content("seen.png"))
    c.check("the link stays", os.path.islink(os.path.join(c.folder, "to_old.png")))
    c.equal("the old mode stays", stat.S_IMODE(os.stat(os.path.join(c.folder, "old.png")).st_mode), 0o640)
    os.symlink("away.png", os.path.join(c.folder, "to_away.png"))
    os.symlink("round.png", os.path.join(c.folder, "round.png"))
    for name, word in (("to_away.png", b"a link to a file that is not there"), ("round.png", b"symbolic links")):
        ran = c.run("--overlay", name, "drawn.png")
        c.ends(f"an overlay by a link that leads nowhere, {name}", ran, FILE, 1)
        c.check(f"an overlay by a link that leads nowhere, {name}: why, and the link stays",
                word in ran.err and os.path.islink(os.path.join(c.folder, name)), ran.err)
    c.equal("a new file's mode", stat.S_IMODE(os.stat(os.path.join(c.folder, "seen.png")).st_mode), 0o644)
    c.equal("nothing else is left", set(os.listdir(c.folder)) - before,
            {"pipe.png", "old.png", "link.png", "to_old.png", "to_away.png", "round.png"})


def ended(c):
    """A signal while a large overlay is written: the file is there as a whole, and nothing beside it."""
    c.make("plane.png", plane := pictures.Picture(6000, 4000).png())
    for number in (signal.SIGINT, signal.SIGTERM, signal.SIGHUP):
        before = set(os.listdir(c.folder))
        name = f"ended_{number}.png"
        for _ in range(5):  # until the signal came in time
            with subprocess.Popen([c.program, "--quiet", "--box", "60x60+9+9", "--overlay", name, "plane.png"], cwd=c.folder,
                                  stdin=subprocess.DEVNULL, stdout=subprocess.DEVNULL, stderr=subprocess.PIPE) as ran:
                while ran.poll() is None and not any(file.startswith(name + ".") for file in os.listdir(c.folder)):
                    time.sleep(0.0005)
                ran.send_signal(number)
                said = ran.stderr.read()
            if ran.returncode != NO_BOARD:
                break
        c.equal(f"ended by signal {number}: status", (ran.returncode, said), (-number, b""))
        c.equal(f"ended by signal {number}: what is there", set(os.listdir(c.folder)) - before, {name})
        c.equal(f"ended by signal {number}: its end", c.has(name) and c.content(name)[-12:], plane[-12:])


def run(c):
    lines(c)
    fractions(c)
    points(c)
    boxes(c)
    extended(c)
    large(c)
    files(c)
    ended(c)
