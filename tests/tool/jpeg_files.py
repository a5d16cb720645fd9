"""Writes JPEG files of blocks of 8 by 8 pixels that each have one level: all but the first coefficient are 0, so that what has to come
out is known."""
import struct

SOI, EOI = b"\xff\xd8", b"\xff\xd9"
SOF0, SOF1, SOF2, DHT, DQT, SOS, APP1, APP14 = 0xC0, 0xC1, 0xC2, 0xC4, 0xDB, 0xDA, 0xE1, 0xEE


def segment(mark, data):
    return struct.pack(">BBH", 0xFF, mark, len(data) + 2) + data


class Bits:
    def __init__(self):
        self.value, self.count = 0, 0

    def put(self, value, count):
        self.value = self.value << count | value
        self.count += count

    def bytes(self):
        """Padded with ones, and a zero behind each 255."""
        pad = -self.count % 8
        whole = (self.value << pad | (1 << pad) - 1).to_bytes((self.count + pad) // 8, "big")
        return whole.replace(b"\xff", b"\xff\x00")


# First coefficients: the 12 categories have codes of 4 bits. All others: "end of block" is 00, "2^14 blocks have ended" 01.
TABLES = (segment(DQT, b"\x00" + b"\x01" * 64)
          + segment(DHT, b"\x00" + bytes([0, 0, 0, 12] + [0] * 12) + bytes(range(12)))
          + segment(DHT, b"\x10" + bytes([0, 2] + [0] * 14) + b"\x00\xe0"))


def put_first(bits, value, last):
    difference = value - last
    category = abs(difference).bit_length()
    bits.put(category, 4)
    bits.put(difference if difference >= 0 else difference + (1 << category) - 1, category)


def frame(kind, width, height, parts, precision=8):
    """The parts: (across, down) sampling factors of each component."""
    out = struct.pack(">BHHB", precision, height, width, len(parts))
    for i, (across, down) in enumerate(parts):
        out += bytes([i + 1, across << 4 | down, 0])
    return segment(kind, out)


def scan_head(numbers, first=0, last=63):
    return segment(SOS, bytes([len(numbers)]) + b"".join(bytes([n + 1, 0]) for n in numbers) + bytes([first, last, 0]))


def blocks(parts, number, width, height):
    """The rows and columns of blocks of a component that has a scan of its own."""
    across, down = parts[number]
    most_across, most_down = max(p[0] for p in parts), max(p[1] for p in parts)
    return -(-(-(-height * down // most_down)) // 8), -(-(-(-width * across // most_across)) // 8)


def scan(levels, parts, numbers, width, height, progressive):
    """A scan of the components `numbers`, interleaved. levels[n][row][column] is the level of a block, 0 to 255."""
    bits, last = Bits(), {n: 0 for n in numbers}
    most_across, most_down = max(p[0] for p in parts), max(p[1] for p in parts)
    alone = len(numbers) == 1
    if alone:
        rows, columns = blocks(parts, numbers[0], width, height)
    else:
        rows, columns = -(-height // (8 * most_down)), -(-width // (8 * most_across))
    for my in range(rows):
        for mx in range(columns):
            for n in numbers:
                across, down = (1, 1) if alone else parts[n]
                for v in range(down):
                    for h in range(across):
                        row = levels[n][min(my * down + v, len(levels[n]) - 1)]
                        value = 8 * (row[min(mx * across + h, len(row) - 1)] - 128)
                        put_first(bits, value, last[n])
                        last[n] = value
                        if not progressive:
                            bits.put(0, 2)
    return scan_head(numbers, 0, 0 if progressive else 63) + bits.bytes()


def exif_segment(block):
    return segment(APP1, b"Exif\0\0" + block)


def jpeg(levels, width, height, parts=None, progressive=False, apart=False, before=b"", more=b""):
    """A whole file: its components in one scan, or `apart` in one each; in a progressive one, the scans in which all other coefficients
    are 0 follow; then `more`."""
    parts = parts or [(1, 1)] * len(levels)
    numbers = list(range(len(levels)))
    groups = [[n] for n in numbers] if apart else [numbers]
    return (SOI + before + TABLES + frame(SOF2 if progressive else SOF0, width, height, parts)
            + b"".join(scan(levels, parts, g, width, height, progressive) for g in groups)
            + b"".join(ended_scan(n, *blocks(parts, n, width, height)) for n in numbers if progressive) + more + EOI)


def ended_scan(number, rows, columns):
    """A scan of a progressive file in which all the blocks of a component have nothing: it takes few bytes, and a pass."""
    bits = Bits()
    for _ in range(-(-rows * columns // (1 << 14))):
        bits.put(1, 2)
        bits.put(0, 14)
    return scan_head([number], 1, 63) + bits.bytes()
