"""Draws boards and writes and reads PNGs, by zlib alone."""
import struct
import zlib

BACKGROUND = (200, 200, 190)
LINE = (30, 30, 30)
COLOURS = [(60, 120, 180), (90, 170, 70), (190, 80, 60), (190, 180, 60)]
# Width, height, top, left, rows, columns, and both pitches.
FIRST = (162, 132, 11, 15, 9, 11, 12, 12)
DRAWN = (260, 236, 30, 35, 9, 10, 20, 20)
READ = [29, 34, 20, 20, 9, 10]  # of DRAWN: the library's corner, one pixel before the line, pitches, rows and columns
SIGNATURE = b"\x89PNG\r\n\x1a\n"


class Picture:
    """Rows of red, green, blue."""

    def __init__(self, width, height, colour=BACKGROUND):
        self.width, self.height = width, height
        self.rows = [bytearray(bytes(colour) * width) for _ in range(height)]

    def at(self, row, column):
        return tuple(self.rows[row][3 * column:3 * column + 3])

    def fill(self, top, left, height, width, colour):
        for row in self.rows[top:top + height]:
            row[3 * left:3 * (left + width)] = bytes(colour) * width

    def enlarged(self, by, right, below):
        """Each pixel becomes `by` by `by`; then come more columns at the right, and rows below."""
        out = Picture(by * self.width + right, by * self.height + below)
        for row in range(by * self.height):
            line = self.rows[row // by]
            out.rows[row][:3 * by * self.width] = b"".join(bytes(line[at:at + 3]) * by for at in range(0, len(line), 3))
        return out

    def png(self):
        header = struct.pack(">IIBBBBB", self.width, self.height, 8, 2, 0, 0, 0)
        data = b"".join(b"\0" + bytes(row) for row in self.rows)
        return SIGNATURE + chunk(b"IHDR", header) + chunk(b"IDAT", zlib.compress(data, 1)) + chunk(b"IEND", b"")

    def screen(self):
        pixels = bytearray()
        for row in self.rows:
            for at in range(0, len(row), 3):
                pixels += bytes((row[at + 2], row[at + 1], row[at], 255))
        return f"height width\n{self.height} {self.width}\n".encode() + pixels


def chunk(name, data):
    return struct.pack(">I", len(data)) + name + data + struct.pack(">I", zlib.crc32(name + data))


def shifted(colour, by):
    return tuple(min(255, max(0, value + by)) for value in colour)


def draw_board(picture, top, left, rows, columns, down, across):
    """Cells with a bright rim above and at the left and a dark one below and at the right, lines between."""
    for x in range(rows):
        for y in range(columns):
            colour, at, aside = COLOURS[(3 * x + y) % len(COLOURS)], top + x * down, left + y * across
            picture.fill(at, aside, down, across, shifted(colour, -60))
            picture.fill(at, aside, down - 2, across - 2, shifted(colour, 60))
            picture.fill(at + 3, aside + 3, down - 5, across - 5, colour)
            picture.fill(at, aside, down, 1, LINE)
            picture.fill(at, aside, 1, across, LINE)
    picture.fill(top + rows * down, left, 1, columns * across + 1, LINE)
    picture.fill(top, left + columns * across, rows * down + 1, 1, LINE)


def draw_lines(picture, tops, lefts):
    """Plain cells of different heights and widths, between lines."""
    for x, top in enumerate(tops[:-1]):
        for y, left in enumerate(lefts[:-1]):
            picture.fill(top, left, tops[x + 1] - top, lefts[y + 1] - left, COLOURS[(3 * x + y) % len(COLOURS)])
    for top in tops:
        picture.fill(top, lefts[0], 1, lefts[-1] - lefts[0] + 1, LINE)
    for left in lefts:
        picture.fill(tops[0], left, tops[-1] - tops[0] + 1, 1, LINE)


def board(width, height, *place):
    picture = Picture(width, height)
    draw_board(picture, *place)
    return picture


def paeth(a, b, c):
    p = a + b - c
    pa, pb, pc = abs(p - a), abs(p - b), abs(p - c)
    return a if pa <= pb and pa <= pc else b if pb <= pc else c


def unfiltered(kind, line, above):
    if kind == 0:
        return bytearray(line)
    if kind == 2:
        return bytearray((a + b) & 255 for a, b in zip(line, above))
    out = bytearray(line)
    for i, value in enumerate(line):
        left, up, corner = (out[i - 3] if i > 2 else 0), above[i], (above[i - 3] if i > 2 else 0)
        out[i] = (value + (0, left, up, (left + up) // 2, paeth(left, up, corner))[kind]) & 255
    return out


def read_png(data):
    """A PNG of 8 bits red, green, blue."""
    assert data[:8] == SIGNATURE
    at, body = 8, b""
    while at < len(data):
        length, name = struct.unpack(">I4s", data[at:at + 8])
        content = data[at + 8:at + 8 + length]
        assert struct.unpack(">I", data[at + 8 + length:at + 12 + length])[0] == zlib.crc32(name + content)
        if name == b"IHDR":
            width, height, depth, colour, _, _, interlaced = struct.unpack(">IIBBBBB", content)
            assert (depth, colour, interlaced) == (8, 2, 0)
        if name == b"IDAT":
            body += content
        at += 12 + length
    body, stride = zlib.decompress(body), 1 + 3 * width
    assert len(body) == height * stride
    picture, above = Picture(width, height), bytearray(3 * width)
    for row in range(height):
        line = body[row * stride:(row + 1) * stride]
        above = picture.rows[row] = unfiltered(line[0], line[1:], above)
    return picture
