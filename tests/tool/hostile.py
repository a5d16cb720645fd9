"""Files that are damaged, or made to take memory or time."""
import itertools
import os
import struct
import zlib

import jpeg_files as jf
import png_files as pf
from running import Ran, check

MEMORY, SECONDS = 105, 1.0  # MB, and seconds of processor time
measure = sanitized = False
MB = 1 << 20


def check_cost(ran, what):
    check(ran.seconds <= SECONDS, *what, "took %.2f s" % ran.seconds)
    if not sanitized:
        check(ran.memory <= MEMORY, *what, "took %.0f MB" % ran.memory)
    if measure:
        print("%-70s status %d  %5.3f s  %6.1f MB  %s" % (" ".join(map(str, what)), ran.status, ran.seconds, ran.memory,
                                                         ran.lines[0].split(": ", 2)[2] if ran.lines else ""))


def check_refused(ran, name, *what, status=4, words="", cost=False):
    """One line, which names the file, and the status."""
    right = ran.status == status and len(ran.lines) == 1 and ran.lines[0].startswith("folgutan: %s: " % name) and words in ran.lines[0]
    check(right, *what, "status", ran.status, ran.lines[:12])
    if ran.wrote is not None:
        check(ran.wrote == 0, *what, "wrote something")
    if cost:
        check_cost(ran, what)


def write(path, *parts):
    with open(path, "wb") as file:
        for part in parts:
            file.write(part)


def run(program, path, *words):
    return Ran([program, path, *words], keep=False, measured=True)


def keep(program, path):
    return Ran([program, path], measured=True)


def small_png(before=b"", after=b"", data=None, width=16, height=12):
    rows = [[[(7 * y + x) & 255] for x in range(width)] for y in range(height)]
    data = zlib.compress(pf.image_data(rows, 8, pf.GREY)) if data is None else data
    return pf.header(width, height, 8, pf.GREY) + before + pf.chunk(b"IDAT", data) + after + pf.chunk(b"IEND")


def small_jpeg(**more):
    return jf.jpeg([[[10, 200, 90], [60, 70, 255]]], 24, 16, **more)


def small_screen():
    return b"height width\n3 4\n" + bytes(range(48))


def flat_jpeg(kind, width, height, parts, scans):
    """Every block is grey: all its bits are zeros."""
    numbers = range(len(parts))
    blocks = -(-width // 8) * -(-height // 8) * len(parts)
    bits = 4 if kind == jf.SOF2 else 6
    first = jf.scan_head(numbers, 0, 0 if kind == jf.SOF2 else 63) + bytes(blocks * bits // 8 + 1)
    return jf.SOI + jf.TABLES + jf.frame(kind, width, height, parts) + first + b"".join(scans) + jf.EOI


def check_sides(program, path):
    words = "4096 a side: give a part of it with --box, or make it smaller with --shrink"
    never = "65535 a side or 67108864 in all: cut it to its board in another program"
    for kind, depth in ((pf.GREY, 1), (pf.RGBA, 16)):
        for interlaced in (False, True):
            for width, height, most in ((65535, 65535, never), (4097, 1, words), (1, 4097, words), (8192, 8192, words), (8192, 8193, never),
                                        (65535, 1024, words), (65536, 1, never), (0x7FFFFFFF, 0x7FFFFFFF, never)):
                write(path, pf.header(width, height, depth, kind, interlaced), pf.chunk(b"IDAT", b"x"))
                what = ("PNG of", width, height, kind, depth, interlaced)
                check_refused(run(program, path), path, *what, words="%d by %d pixels, more than %s" % (width, height, most), cost=True)
    for kind in (jf.SOF0, jf.SOF2):
        write(path, jf.SOI + jf.TABLES + jf.frame(kind, 65535, 65535, [(1, 1)] * 3) + jf.scan_head([0, 1, 2]) + bytes(9000))
        for more in ((), ("9x9+1+1",), ("9",), ("9x9+1+1", "9", "whole")):
            check_refused(run(program, path, *more), path, "JPEG of 65535 65535", more, words="65535 a side or 67108864 in all", cost=True)
    write(path, jf.SOI + jf.TABLES + jf.frame(jf.SOF0, 16, 0, [(1, 1)]) + jf.scan_head([0]) + bytes(90) + jf.EOI)
    check_refused(run(program, path), path, "JPEG of 16 0", words="no picture", cost=True)
    write(path, b"height width\n9999 9999\n", bytes(9000))
    check_refused(run(program, path), path, "screen file of 9999 9999", words=never, cost=True)
    check_refused(run(program, path, "12x12+3+3"), path, "screen file of 9999 9999 with a box", words="67108864 in all", cost=True)
    write(path, pf.header(65535, 65535, 8, pf.RGB), pf.chunk(b"IDAT", b"x"))
    check_refused(run(program, path, "16x16+2+2"), path, "PNG of 65535 65535 with a box", words="67108864 in all", cost=True)
    write(path, pf.header(65536, 2, 8, pf.RGB), pf.chunk(b"IDAT", b"x"))
    check_refused(run(program, path, "9"), path, "PNG of 65536 2, shrunk", words="65535 a side", cost=True)
    write(path, pf.header(8192, 8192, 8, pf.RGB), pf.chunk(b"IDAT", b"x"))
    check_refused(run(program, path, "4097x9+0+0"), path, "PNG, a box of 4097", words="4097 by 9 pixels, more than 4096", cost=True)
    check_refused(run(program, path, "8192x8192+0+0", "1"), path, "PNG, a box of 8192", words="8192 by 8192 pixels", cost=True)
    check_refused(run(program, path, "2"), path, "PNG of 8192, shrunk, damaged", cost=True)
    for box in ("9x9+8184+0", "9x9+0+8184", "8193x1+0+0", "1x8193+0+0", "1x1+8192+0", "1x1+18446744073709551615+0",
                "18446744073709551615x1+1+0", "2x2+0+18446744073709551614"):
        check_refused(run(program, path, box), path, "PNG, box", box, status=2, words="which has 8192 by 8192 pixels", cost=True)
    check_refused(run(program, path, "8193"), path, "PNG, shrunk by 8193", status=2, words="nothing is left", cost=True)
    check_refused(run(program, path, "20x7+1+1", "8"), path, "PNG, a box shrunk by 8", status=2, words="nothing is left", cost=True)


def check_kept(program, path):
    """Larger pictures than are read, of which all pixels are held: a JPEG, or for the overlay. A part of them helps no more."""
    grey = [(1, 1)]
    turned = jf.exif_segment(pf.exif(6))

    def png(width, height):
        return pf.header(width, height, 8, pf.GREY) + pf.chunk(b"IDAT", zlib_zeros(height * (width + 1))) + pf.chunk(b"IEND")

    def jpeg(width, height, before=b""):
        return jf.SOI + before + flat_jpeg(jf.SOF0, width, height, grey, [])[2:]
    most, twice = 6144 * 4096, 4096 * 4096
    for name, data, again, least in (("PNG", png(6144, 4097), False, most), ("JPEG", jpeg(6144, 4097), True, most),
                                     ("JPEG", jpeg(4096, 6145), True, most), ("turned JPEG", jpeg(4104, 4096, turned), False, twice)):
        write(path, data)
        for more in (("9x9+3+3",), ("64",), ()):
            what = (name, "with more than", least, "pixels", more)
            check_refused(run(program, path, *more, "whole"), path, *what, "whole", words="%d with --overlay: cut it" % least, cost=True)
            if again:
                words = "%d of a JPEG file: save it as PNG, or cut it" % least
                check_refused(run(program, path, *more), path, *what, words=words, cost=True)
            elif more:
                check(run(program, path, *more).status == 0, *what)
    for name, data in (("PNG", png(6144, 4096)), ("JPEG", jpeg(6144, 4096)), ("JPEG", jpeg(4096, 6144)),
                       ("turned JPEG", jpeg(4096, 4096, turned)), ("turned JPEG", jpeg(8192, 2048, turned))):
        write(path, data)
        for more in (("9x9+3+3",), ("64",), ("9x9+3+3", "whole")):
            ran = run(program, path, *more)
            what = (name, "of as many pixels as are held", more)
            check(ran.status == 0 and not ran.lines, *what, ran.lines)
            if "turned" not in name or "whole" not in more:
                check_cost(ran, what)


def check_bombs(program, path):
    write(path, small_png())
    plain = keep(program, path)
    check(plain.status == 0 and len(plain.out) == len("16 12 16 12\n") + 16 * 12 * 4, "the small PNG")
    deep = zlib_zeros(4 * MB)[:-6] * 256
    chunks = {"zTXt": b"a\0\0" + deep, "iCCP": b"a\0\0" + deep, "iTXt": b"a\0\1\0\0\0" + deep, "tEXt": b"a\0" + bytes(12 * MB),
              "sPLT": b"a\0\x08" + bytes(6 * MB), "eXIf": b"MM" + bytes(12 * MB), "abcd": bytes(12 * MB), "hIST": bytes(3 * MB)}
    for name, data in chunks.items():
        write(path, small_png(before=pf.chunk(name.encode(), data)))
        ran = keep(program, path)
        check(ran.status == 0 and not ran.lines and ran.out == plain.out, "PNG with", name, ran.lines)
        check_cost(ran, ("PNG with much", name, len(data), "bytes"))
    write(path, small_png(before=pf.chunk(b"abcd", bytes(17 * MB))))
    check_refused(run(program, path), path, "PNG with 17 MB before its picture", words="bytes before its picture", cost=True)
    write(path, small_png(before=b"".join(pf.chunk(b"eXIf", pf.exif(1)) for _ in range(20000))))
    check_cost(run(program, path), ("PNG with 20000 eXIf chunks",))
    write(path, small_png(before=pf.chunk(b"tEXt", b"a\0b") * (15 * MB // 15)))
    check_cost(run(program, path), ("PNG with a million tEXt chunks",))
    write(path, small_png(data=zlib_zeros(9000)))
    ran = keep(program, path)
    right = ran.status == 0 and ran.out == b"16 12 16 12\n" + b"\0\0\0\xff" * 192
    check(right, "PNG with data for 9000 bytes", ran.status, ran.lines)
    write(path, small_png(data=b"\x78\xda" + packed_zeros(MB) * 1024 + b"\x03\x00"))
    check_refused(run(program, path), path, "small PNG with data for 1 GB", words="more data than its picture can have", cost=True)
    write(path, small_png(data=zlib.compress(pf.image_data([[[9]] * 16] * 12, 8, pf.GREY)) + bytes(3 * MB)))
    check_refused(run(program, path), path, "PNG with 3 MB behind its picture", words="more data than its picture", cost=True)
    write(path, pf.header(4096, 4096, 8, pf.GREY), pf.chunk(b"IDAT", zlib.compress(bytes(4096 * 4097), 0)), pf.chunk(b"IEND"))
    check(run(program, path).status == 0, "PNG of 4096 4096, not compressed")
    for colour, depth, interlaced in ((pf.GREY, 1, False), (pf.RGB, 8, False), (pf.RGBA, 8, True)):
        pixel = pf.CHANNELS[colour] * depth
        data = zlib_zeros(4096 * (4096 * pixel // 8 + (2 if interlaced else 1)))
        write(path, pf.header(4096, 4096, depth, colour, interlaced), pf.chunk(b"IDAT", data), pf.chunk(b"IEND"))
        ran = run(program, path)
        check(ran.status == 0, "PNG of 4096 4096 zeros", colour, depth, interlaced, ran.lines)
        check_cost(ran, ("PNG of 4096 4096 zeros", colour, depth, interlaced))
    write(path, pf.header(8192, 8192, 8, pf.RGB, True), pf.chunk(b"IDAT", b"x"))
    check_refused(run(program, path, "16x16+2+2"), path, "PNG of 8192 8192, interlaced", words="without interlacing", cost=True)


def zlib_zeros(count):
    squeeze = zlib.compressobj(9)
    pieces = [squeeze.compress(bytes(min(MB, count - i))) for i in range(0, count, MB)]
    return b"".join(pieces) + squeeze.flush()


def packed_zeros(count):
    """A part of a deflate stream that can be repeated."""
    squeeze = zlib.compressobj(9, zlib.DEFLATED, -15)
    return squeeze.compress(bytes(count)) + squeeze.flush(zlib.Z_FULL_FLUSH)


def check_scans(program, path):
    more = [jf.ended_scan(n % 3, 512, 512) for n in range(31)]
    for words, scans, status in (("33 scans, more than 32", more + [more[0]], 4), ("501 scans", more * 16 + more[:4], 4), ("", [], 0)):
        write(path, flat_jpeg(jf.SOF2, 4096, 4096, [(1, 1)] * 3, scans))
        ran = run(program, path)
        if status == 4:
            check_refused(ran, path, "JPEG with many scans", len(scans) + 1, words=words, cost=True)
        else:
            check(ran.status == 0, "progressive JPEG of 4096 4096", ran.lines)
            check(ran.seconds <= SECONDS, "progressive JPEG of 4096 4096 took", ran.seconds)
    whole = flat_jpeg(jf.SOF2, 4096, 4096, [(1, 1)] * 3, more)
    write(path, whole[:-3])
    check_refused(run(program, path), path, "progressive JPEG of 4096 4096, cut short at its end", cost=True)
    whole = flat_jpeg(jf.SOF0, 4096, 4096, [(1, 1)] * 3, [])
    write(path, whole[:2], jf.exif_segment(pf.exif(6)), whole[2:-3])
    check_refused(run(program, path), path, "turned JPEG of 4096 4096, cut short at its end", cost=True)
    write(path, flat_jpeg(jf.SOF2, 4104, 4096, [(1, 1)] * 3, []))
    check_refused(run(program, path, "16x16+2+2"), path, "progressive JPEG of 4104 4096", words="without progression", cost=True)
    write(path, flat_jpeg(jf.SOF0, 4104, 4096, [(1, 1)], [jf.scan_head([0]) + bytes(9)]))
    check_refused(run(program, path, "16x16+2+2"), path, "JPEG of 4104 4096 in two scans", words="without progression", cost=True)
    write(path, flat_jpeg(jf.SOF0, 4096, 4096, [(1, 1)] * 3, []))
    ran = run(program, path)
    check(ran.status == 0, "JPEG of 4096 4096", ran.lines)
    check_cost(ran, ("JPEG of 4096 4096",))
    for parts, kind, words in (([(1, 1)] * 4, jf.SOF0, "CMYK"), ([(1, 1)] * 2, jf.SOF0, "neither grey"), ([(1, 1)] * 3, 0xC3, ""),
                               ([(1, 1)] * 3, 0xC5, "")):
        write(path, flat_jpeg(kind, 64, 64, parts, []))
        check_refused(run(program, path), path, "JPEG", kind, parts, words=words, cost=True)
    write(path, jf.SOI + jf.segment(jf.APP14, b"Adobe\0\x64\0\0\0\0\x02") + flat_jpeg(jf.SOF0, 64, 64, [(1, 1)] * 4, [])[2:])
    check_refused(run(program, path), path, "YCCK JPEG", words="YCCK", cost=True)
    write(path, jf.SOI + jf.TABLES + jf.frame(jf.SOF0, 64, 64, [(1, 1)]) + jf.EOI)
    check_refused(run(program, path), path, "JPEG without a scan", words="no picture data", cost=True)
    write(path, jf.SOI + jf.TABLES + jf.EOI)
    check_refused(run(program, path), path, "JPEG without a frame", words="how large", cost=True)
    write(path, jf.SOI + jf.TABLES + jf.frame(jf.SOF1, 64, 64, [(1, 1)], 12) + jf.scan_head([0]) + bytes(99) + jf.EOI)
    check_refused(run(program, path), path, "JPEG of 12 bits", words="8 bits", cost=True)


def check_damage(program, path):
    """Cut short at each byte; then with bits turned."""
    step = 5 if sanitized else 1
    png, jpeg, screen = small_png(), small_jpeg(), small_screen()
    progressive = jf.jpeg([[[10, 200], [60, 70]]] * 3, 16, 16, progressive=True)
    exif = small_jpeg(before=jf.exif_segment(pf.exif(6)))
    passes = pf.png([[[y, x, 9] for x in range(9)] for y in range(9)], 8, pf.RGB, True)
    text = small_png(before=pf.chunk(b"tEXt", b"Title\0of a mat") + pf.chunk(b"eXIf", pf.exif(6)))
    files = {"PNG": png, "PNG with text": text, "interlaced PNG": passes, "JPEG": jpeg, "progressive JPEG": progressive,
             "JPEG with Exif": exif, "screen file": screen}
    for name, whole in files.items():
        for length in {*range(0, len(whole), step), *range(len(whole) - 14, len(whole))}:
            write(path, whole[:length])
            ran = Ran([program, path], keep=False)
            check_refused(ran, path, name, "cut to", length, "of", len(whole))
        write(path, whole)
        check(Ran([program, path], keep=False).status == 0, name, "whole")
        for bit in {*range(0, 8 * len(whole), 11 * step), *range(8 * len(whole) - 96, 8 * len(whole), 5)}:
            turned = bytearray(whole)
            turned[bit // 8] ^= 1 << bit % 8
            write(path, turned)
            ran = Ran([program, path], keep=False)
            if ran.status == 0:
                check(not ran.lines, name, "bit", bit, ran.lines)
                check("PNG" not in name, name, "bit", bit, "was not seen")
            else:
                check_refused(ran, path, name, "bit", bit)


def check_behind(program, path):
    """Chunks behind a PNG's image data, before its last chunk: they are read, up to a limit, and may not turn the picture."""
    write(path, small_png())
    plain = keep(program, path)
    for name, after in (("text", pf.chunk(b"tEXt", b"a\0b")), ("12 MB", pf.chunk(b"abcd", bytes(12 * MB))),
                        ("an empty IDAT", pf.chunk(b"IDAT")), ("upright", pf.chunk(b"eXIf", pf.exif(1))),
                        ("no Exif block", pf.chunk(b"eXIf", b"MM"))):
        write(path, small_png(after=after))
        ran = keep(program, path)
        check(ran.status == 0 and not ran.lines and ran.out == plain.out, "PNG with", name, "behind its picture", ran.lines)
        check_cost(ran, ("PNG with", name, "behind its picture"))
    for orientation in range(2, 9):
        write(path, small_png(after=pf.chunk(b"eXIf", pf.exif(orientation))))
        check_refused(run(program, path), path, "PNG turned behind its picture", orientation, words="how it is turned", cost=True)
    write(path, small_png(before=pf.chunk(b"eXIf", pf.exif(6)), after=pf.chunk(b"eXIf", pf.exif(6))))
    ran = keep(program, path)
    check(ran.status == 0 and ran.out.startswith(b"12 16 12 16\n"), "PNG turned before and behind its picture", ran.lines)
    write(path, small_png(after=pf.chunk(b"abcd", bytes(17 * MB))))
    check_refused(run(program, path), path, "PNG with 17 MB behind its picture", words="bytes behind its picture", cost=True)
    write(path, small_png(after=pf.chunk(b"abcd", b"", 5)))
    check_refused(run(program, path), path, "PNG with a wrong sum behind its picture", words="damaged", cost=True)
    write(path, small_png()[:-1])
    check_refused(run(program, path), path, "PNG without its last byte", words="before its last chunk does", cost=True)
    write(path, small_png()[:-12] + pf.chunk(b"IEND", b"", 5))
    check_refused(run(program, path), path, "PNG with a wrong sum at its end", words="damaged", cost=True)


def check_files(program, path):
    write(path)
    check_refused(run(program, path), path, "an empty file", words="empty", cost=True)
    check_refused(run(program, "-"), "-", "empty standard input", words="empty", cost=True)
    folder = os.path.dirname(path)
    check_refused(run(program, folder), folder, "a folder", words="a directory, no picture file", cost=True)
    check_refused(run(program, path + ".no"), path + ".no", "no file", words="no such file", cost=True)
    check_refused(run(program, path + "/no"), path + "/no", "a file in a file", words="cannot be opened", cost=True)
    check_refused(run(program, path + "\n\x1b[31m\x7f\x80é"), path + "??[31m???é", "a name that is no text", cost=True)
    check_refused(run(program, "/dev/zero"), "/dev/zero", "/dev/zero", words="neither PNG, JPEG nor a screen file", cost=True)
    write(path, small_png())
    os.chmod(path, 0)
    try:
        ran = Ran([program, path], user=65534 if os.geteuid() == 0 else None)
        check_refused(ran, path, "no permission", words="no permission")
    except PermissionError:
        print("pictures: no permission: left out, the program cannot be run as another user")
    os.remove(path)


def check_endless(program, path):
    png, jpeg, screen = small_png(), small_jpeg(), small_screen()
    head = pf.header(4096, 4096, 16, pf.RGBA)
    stored = b"\0\0\0\xff\xff"
    many = b"\x78\x01" + stored
    for name, given, again, status in (
            ("zeros", b"", bytes(MB), 4),
            ("text", b"", b"abcdefgh" * 9000, 4),
            ("PNG's first bytes, then zeros", pf.SIGNATURE, bytes(MB), 4),
            ("PNG's first bytes, then itself", b"", pf.SIGNATURE * 9000, 4),
            ("PNG, then small chunks", head, pf.chunk(b"tEXt") * 90000, 4),
            ("PNG, then a chunk without end", head + struct.pack(">I", 0x7FFFFFFF) + b"tEXt", bytes(MB), 4),
            ("PNG, then empty IDATs", head, pf.chunk(b"IDAT") * 90000, 4),
            ("PNG, then IDATs of one byte", head + pf.chunk(b"IDAT", many[:2]), b"".join(pf.chunk(b"IDAT", stored[i:i + 1])
                                                                                        for i in range(5)) * 20000, 4),
            ("PNG, then empty blocks", head + struct.pack(">I", 0x7FFFFFFF) + b"IDAT" + many[:2], stored * 200000, 4),
            ("small PNG, then empty blocks", pf.header(9, 9, 8, pf.RGB) + struct.pack(">I", 0x7FFFFFFF) + b"IDAT" + many[:2],
             stored * 200000, 4),
            ("PNG, then a row and empty IDATs", head + pf.chunk(b"IDAT", b"\x78\xda"),
             pf.chunk(b"IDAT", packed_zeros(4096 * 8 + 1)) + pf.chunk(b"IDAT") * 2500, 4),
            ("PNG, then a row and empty blocks", pf.header(4096, 4096, 8, pf.GREY) + struct.pack(">I", 0x7FFFFFFF) + b"IDAT\x78\xda",
             packed_zeros(4097) + stored * 6000, 4),
            ("PNG, then zeros that are packed", pf.header(1024, 1024, 8, pf.RGBA) + struct.pack(">I", 0x7FFFFFFF) + b"IDAT\x78\xda",
             packed_zeros(MB) * 500, 4),
            ("small PNG, then zeros that are packed", pf.header(9, 9, 8, pf.GREY, True) + struct.pack(">I", 0x7FFFFFFF) + b"IDAT\x78\xda",
             packed_zeros(MB) * 500, 4),
            ("PNG, then small chunks behind", png[:-12], pf.chunk(b"tEXt") * 90000, 4),
            ("PNG, then empty IDATs behind", png[:-12], pf.chunk(b"IDAT") * 90000, 4),
            ("PNG, then eXIf chunks behind", png[:-12], pf.chunk(b"eXIf", pf.exif(1)) * 30000, 4),
            ("PNG, then a chunk without end behind", png[:-12] + struct.pack(">I", 0x7FFFFFFF) + b"tEXt", bytes(MB), 4),
            ("PNG, then a last chunk without end", png[:-12] + struct.pack(">I", 0x7FFFFFFF) + b"IEND", bytes(MB), 4),
            ("whole PNG, then zeros", png, bytes(MB), 0),
            ("whole PNG, then itself", png, png * 1000, 0),
            ("JPEG's first bytes, then zeros", b"\xff\xd8\xff", bytes(MB), 4),
            ("JPEG's first bytes, then themselves", b"\xff\xd8\xff", b"\xff\xd8\xff" * 300000, 4),
            ("JPEG, then comments", jpeg[:2], jf.segment(0xFE, b"") * 200000, 4),
            ("JPEG, then scans", jpeg[:-2], jf.scan_head([0]) * 90000, 4),
            ("whole JPEG, then zeros", jpeg, bytes(MB), 4),
            ("whole JPEG, then itself", jpeg, jpeg * 1000, 4),
            ("screen file's first bytes, then zeros", screen[:13], bytes(MB), 4),
            ("screen file's first bytes, then digits", screen[:13], b"1" * MB, 4),
            ("whole screen file, then zeros", screen, bytes(MB), 0)):
        ran = Ran([program, "-"], given, again, keep=False, measured=True)
        if status == 0:
            check(ran.status == 0 and not ran.lines, "endless:", name, ran.status, ran.lines)
            check_cost(ran, ("endless:", name))
        else:
            check_refused(ran, "-", "endless:", name, cost=True)
        if measure:
            print("    %.1f MB were written" % (ran.written / MB))


def check_memory(program, path):
    """Good pictures where memory is short; the sanitizers need more than that."""
    if sanitized:
        return
    exif = jf.exif_segment(pf.exif(6))
    jpeg = flat_jpeg(jf.SOF0, 2048, 4096, [(1, 1)], [])
    passes = pf.header(4096, 2048, 8, pf.GREY, True) + pf.chunk(b"IDAT", zlib_zeros(2048 * 4098)) + pf.chunk(b"IEND")
    pictures = {"PNG": passes, "JPEG": jpeg, "turned JPEG": jpeg[:2] + exif + jpeg[2:],
                "screen file": b"height width\n2048 4096\n" + bytes(2048 * 4096 * 4)}
    for (name, data), words in itertools.product(pictures.items(), ((), ("2000x2000+0+0",), ("2", "whole"))):
        write(path, data)
        refused = 0
        for megabytes in (12, 20, 40, 60, 80, 100, 140):
            ran = Ran(["/bin/sh", "-c", 'ulimit -v "$0" && exec "$@"', str(megabytes * 1024), program, path, *words], nowhere=True)
            if ran.status == 0:
                check(not ran.lines, name, words, "in", megabytes, "MB")
            else:
                refused += 1
                check_refused(ran, path, name, words, "in", megabytes, "MB", words="emory")
        check(0 < refused < 7, name, words, "refused", refused)


def check_all(program, path):
    for part in (check_sides, check_kept, check_bombs, check_scans, check_damage, check_behind, check_files, check_endless, check_memory):
        part(program, path)
