"""Writes PNG files, whole ones and such as no encoder would write."""
import struct
import zlib

SIGNATURE = b"\x89PNG\r\n\x1a\n"
GREY, RGB, PALETTE, GREY_ALPHA, RGBA = 0, 2, 3, 4, 6
CHANNELS = {GREY: 1, RGB: 3, PALETTE: 1, GREY_ALPHA: 2, RGBA: 4}
PASSES = [(0, 0, 8, 8), (4, 0, 8, 8), (0, 4, 4, 8), (2, 0, 4, 4), (0, 2, 2, 4), (1, 0, 2, 2), (0, 1, 1, 2)]


def chunk(name, data=b"", crc=None):
    value = zlib.crc32(name + data) if crc is None else crc
    return struct.pack(">I", len(data)) + name + data + struct.pack(">I", value)


def header(width, height, depth, colour, interlaced=False):
    return SIGNATURE + chunk(b"IHDR", struct.pack(">IIBBBBB", width, height, depth, colour, 0, 0, interlaced))


def packed(row, depth):
    """The bytes of a row: a list of pixels, each a list of samples."""
    samples = [sample for pixel in row for sample in pixel]
    if depth == 16:
        return struct.pack(">%dH" % len(samples), *samples)
    if depth == 8:
        return bytes(samples)
    out = bytearray((len(samples) * depth + 7) // 8)
    for i, sample in enumerate(samples):
        out[i * depth // 8] |= sample << (8 - depth - i * depth % 8)
    return bytes(out)


def filtered(rows, depth, colour):
    """The rows as bytes, with each of the five filters in turn."""
    step = max(1, CHANNELS[colour] * depth // 8)
    out, above = bytearray(), None
    for y, row in enumerate(rows):
        now = packed(row, depth)
        above = bytes(len(now)) if above is None else above
        kind = y % 5
        out.append(kind)
        for i, value in enumerate(now):
            left = now[i - step] if i >= step else 0
            corner = above[i - step] if i >= step else 0
            up = above[i]
            estimate = left + up - corner
            paeth = min((left, up, corner), key=lambda v: abs(estimate - v))
            out.append((value - (0, left, up, (left + up) // 2, paeth)[kind]) & 255)
        above = now
    return bytes(out)


def image_data(rows, depth, colour, interlaced=False):
    if not interlaced:
        return filtered(rows, depth, colour)
    out = b""
    for x, y, across, down in PASSES:
        some = [row[x::across] for row in rows[y::down]]
        if some and some[0]:
            out += filtered(some, depth, colour)
    return out


def png(rows, depth, colour, interlaced=False, before=b"", idat=97):
    """A whole file; `before` are the chunks before the image data, which comes in chunks of `idat` bytes."""
    data = zlib.compress(image_data(rows, depth, colour, interlaced), 9)
    parts = b"".join(chunk(b"IDAT", data[i:i + idat]) for i in range(0, len(data), idat))
    return header(len(rows[0]), len(rows), depth, colour, interlaced) + before + parts + chunk(b"IEND")


def exif(orientation, big=True, kind=3, count=1):
    """An Exif block with another tag and the orientation."""
    order = ">" if big else "<"
    value = struct.pack(order + "HH", orientation, 0)
    return ((b"MM" if big else b"II") + struct.pack(order + "HIH", 42, 8, 2)
            + struct.pack(order + "HHII", 0x0100, 4, 1, 7)
            + struct.pack(order + "HHI", 0x0112, kind, count) + value + struct.pack(order + "I", 0))
