"""What is printed: against the stored files, and by readers of JSON and CSV."""
import csv
import io
import json
import os

from .check import DOUBTFUL, FILE, NO_BOARD, OK

KEYS = ("file width height answer status reasons rows columns top left pitch_down pitch_across votes_down votes_across narrowed factor "
        "extended cells").split()
FORMATS = ("text", "json", "csv", "map")
NAMES = {  # bytes of a name: what the text shows, what the JSON gives
    b"plain.screen": (b"plain.screen", "plain.screen"),
    b"a b,c.screen": (b"a b,c.screen", "a b,c.screen"),
    b'say "x".screen': (b'say "x".screen', 'say "x".screen'),
    b"back\\slash.screen": (b"back\\slash.screen", "back\\slash.screen"),
    b"line\nfeed.screen": (b"line?feed.screen", "line\nfeed.screen"),
    b"return\rtab\tescape\x1b.screen": (b"return?tab?escape?.screen", "return\rtab\tescape\x1b.screen"),
    b"delete\x7f.screen": (b"delete?.screen", "delete\x7f.screen"),
    b"next line \xc2\x85, escape \xc2\x9b31m, last \xc2\x9f, space \xc2\xa0.screen": (
        b"next line ??, escape ??31m, last ??, space \xc2\xa0.screen", "next line \x85, escape \x9b31m, last \x9f, space \xa0.screen"),
    "umlaut \u00fc, \u20ac, \U0001f600.screen".encode(): ("umlaut \u00fc, \u20ac, \U0001f600.screen".encode(),
                                                          "umlaut \u00fc, \u20ac, \U0001f600.screen"),
    b"bad \xff\xc3.screen": (b"bad ??.screen", "bad \ufffd\ufffd.screen"),
    b"long form \xc0\xaf.screen": (b"long form ??.screen", "long form \ufffd\ufffd.screen"),
    b"long form \xe0\x9f\xbf.screen": (b"long form ???.screen", "long form \ufffd\ufffd\ufffd.screen"),
    b"long form \xf0\x8f\xbf\xbf.screen": (b"long form ????.screen", "long form \ufffd\ufffd\ufffd\ufffd.screen"),
    b"surrogate \xed\xa0\x80.screen": (b"surrogate ???.screen", "surrogate \ufffd\ufffd\ufffd.screen"),
    b"above \xf4\x90\x80\x80.screen": (b"above ????.screen", "above \ufffd\ufffd\ufffd\ufffd.screen"),
    b"cut \xf0\x9f\x98": (b"cut ???", "cut \ufffd\ufffd\ufffd"),
    b"cut \xe2\x82": (b"cut ??", "cut \ufffd\ufffd"),
}


def objects(ran):
    return [json.loads(line) for line in ran.out.decode().split("\n") if line]


def stored(c):
    for format in FORMATS:
        for name, files, status, lines in (("first", ["first.screen"], OK, 0), ("drawn", ["drawn.png"], OK, 0),
                                           ("blank", ["blank.png"], NO_BOARD, 1),
                                           ("three", ["first.screen", "blank.png", "drawn.png"], NO_BOARD, 1)):
            ran = c.run("--" + format, *files)
            c.ends(f"{name} as {format}", ran, status, lines)
            c.prints(f"{name}.{format}", ran)
    unread = c.run("--text", "missing.png", "first.screen")
    c.ends("a file that is not there, and one that is", unread, FILE, 1)
    c.equal("the second is printed alone", unread.out, c.run("first.screen").out)


def doubtful(c):
    """What the text and the JSON say, the others leave to standard error."""
    for name, words in (("unlike", ["--expect", "5x4", "first.screen"]), ("sample", ["sample.screen"])):
        (told,) = objects(c.run("--json", *words))
        c.check(f"{name}: doubtful", told["status"] == "doubtful" and told["answer"] == 0 and told["reasons"], told)
        for format in FORMATS:
            ran = c.run("--" + format, *words)
            lines = len(told["reasons"]) if format in ("csv", "map") else 0
            c.ends(f"{name} as {format}: doubtful", ran, DOUBTFUL, lines)
            c.check(f"{name} as {format}: why", all(reason.encode() in ran.out + ran.err for reason in told["reasons"]), ran.out, ran.err)
            c.prints(f"{name}.{format}", ran, True)
            c.ends(f"{name} as {format} --quiet", c.run("--" + format, "--quiet", *words), DOUBTFUL)
    (told,) = objects(c.run("--json", "--expect", "5x4", "first.screen"))
    c.check("unlike: the reason", len(told["reasons"]) == 1 and "5 by 4" in told["reasons"][0] and "9 by 11" in told["reasons"][0], told)
    (told,) = objects(c.run("--json", "sample.screen"))
    c.equal("several reasons in the text", c.run("sample.screen").out.decode().splitlines()[5], "reasons " + "; ".join(told["reasons"]))
    c.check("sample: several reasons", len(told["reasons"]) > 1, told)


def extended(c):
    """A grid of the expected size in a box that is too small for it. Its first row, last row and last column have their middle off the
    picture; its first column begins off the picture, and has its middle in it."""
    words = ("--box", "260x236+0+0", "--expect", "13x14", "drawn.png")
    (told,) = objects(c.run("--json", *words))
    c.equal("extended: its place", [told[key] for key in "extended rows columns top left pitch_down pitch_across".split()],
            [True, 13, 14, -11, -6, 20, 20])
    c.check("extended: what is off the picture", all((cell is None) == (x in (0, 12) or y == 13)
                                                     for x, row in enumerate(told["cells"]) for y, cell in enumerate(row)), told["cells"])
    (own,) = objects(c.run("--json", "drawn.png"))
    c.equal("extended: the library's own cells", [row[2:12] for row in told["cells"][2:11]], own["cells"])
    for format in FORMATS:
        ran = c.run("--" + format, *words)
        c.prints(f"extended.{format}", ran, True)
        said = b"not the proved reading" in (ran.out if format == "text" else ran.err)
        c.equal(f"extended as {format}: it is said what it is", said, format != "json")
    (told,) = objects(c.run("--json", "--box", "230x210+20+15", "--expect", "9x10", "drawn.png"))
    c.equal("as expected: the library's own", told, {**own, "extended": False})


def wide(c):
    text = c.run("wide.png")
    c.ends("84 columns as text", text, OK)
    c.prints("wide.text", text)
    c.equal("84 columns as text: what to do", text.out.splitlines()[-1], b"map more than 80 columns: --csv and --json have all cells")
    alone = c.run("--map", "wide.png", "first.screen")
    c.ends("84 columns as a map", alone, FILE, 1)
    c.equal("84 columns as a map: only the other is printed", alone.out, c.run("--map", "first.screen").out)
    c.check("84 columns as a map: the limit", b"80 columns" in alone.err and b"84" in alone.err, alone.err)
    c.equal("84 columns, text --quiet", c.run("--quiet", "wide.png").out, text.out)
    c.equal("84 columns, a map --quiet", c.run("--quiet", "--map", "wide.png").err.count(b"\n"), 1)
    c.equal("84 columns as CSV", c.run("--csv", "wide.png").out.count(b"\n"), 1 + 30 * 84)


def agree(c):
    """The formats tell the same of the same picture."""
    for file in ("first.screen", "sample.screen", "drawn.png", "blank.png", "wide.png"):
        (told,) = objects(c.run("--json", file))
        c.equal(f"{file}: keys in order", list(told), KEYS)
        board = told["status"] != "no board"
        cells = told["cells"]
        c.equal(f"{file}: rows", len(cells), told["rows"] or 0)
        c.check(f"{file}: columns", all(len(row) == told["columns"] for row in cells))
        lines = list(csv.reader(io.StringIO(c.run("--csv", file).out.decode())))
        c.equal(f"{file}: CSV header", lines[0], "row column red green blue".split())
        flat = [[str(x), str(y), *(str(int(cell[k:k + 2], 16)) for k in (1, 3, 5))]
                for x, row in enumerate(cells) for y, cell in enumerate(row)]
        c.equal(f"{file}: CSV cells", lines[1:], flat)
        values = [line.split(" ", 1) for line in c.run("--text", file).out.decode().splitlines()[:len(KEYS) - 1]]
        c.equal(f"{file}: names of the text", [name for name, _ in values], KEYS[:-1])
        shown = {**told, "reasons": "; ".join(told["reasons"])}
        c.equal(f"{file}: values of the text", {name: value for name, value in values},
                {name: "none" if shown[name] in (None, "") else str(shown[name]).lower() if name == "extended" else
                 f"{shown[name]:g}" if isinstance(shown[name], float) else str(shown[name]) for name in KEYS[:-1]})
        if not board:
            c.check(f"{file}: what there is without a board", told["extended"] is False and isinstance(told["narrowed"], int)
                    and told["factor"] == 3 and told["answer"] > 0 and len(told["reasons"]) == 1, told)


def names(c):
    os.mkdir(os.path.join(c.folder, "named"))
    content = c.content("first.screen")
    for name, (text, told) in NAMES.items():
        file = b"named/" + name
        c.make(file, content)
        line = c.run("--text", file).out.split(b"\n")[:2]
        c.equal(f"{name} in the text", line, [b"file named/" + text, b"width 162"])
        ran = c.run("--json", file)
        c.equal(f"{name} in JSON: one line", ran.out.count(b"\n"), 1)
        c.equal(f"{name} in JSON", objects(ran)[0]["file"], "named/" + told)
        said = c.run(b"named/no " + name).err.splitlines()
        c.equal(f"{name} in a message", said, [b"folgutan: named/no " + text + b": cannot be opened: there is no such file"])
    files = [b"named/" + name for name in NAMES]
    ran = c.run("--csv", *files)
    rows = list(csv.reader(io.StringIO(ran.out.decode("latin-1"), newline="")))
    c.equal("the file is the first column", rows[0], "file row column red green blue".split())
    c.equal("names in CSV", [row[0].encode("latin-1") for row in rows[1::99]], files)
    c.check("a name is quoted where it must be", b'\n"named/say ""x"".screen",0,0,' in ran.out and b"\nnamed/plain.screen,0,0," in ran.out)
    c.equal("no carriage returns but the name's", ran.out.count(b"\r"), 99)


def run(c):
    stored(c)
    doubtful(c)
    extended(c)
    wide(c)
    agree(c)
    names(c)
