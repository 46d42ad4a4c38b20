"""Makes the files of GrafX2, Pike and TwelveMonkeys: python3 outside/make_others.py FOLDER

Needs Debian's grafx2, xvfb, xdotool, pike8.0-core, pike8.0-image, libtwelvemonkeys-java,
openjdk-17-jdk-headless and netpbm. Each program is handed a picture as PNG or PPM and saves
it. Beside the file stands the PPM that ilbmtoppm reads from it, which must be the pixels
that were handed over, and a PBM with 1 for those that show if one colour was transparent;
or the number with which the papers have the library refuse it. Beside netpbm's pictures of
hold-and-modify stands the PPM that Pike reads, which follows 003 and Ask 5.
"""

import pathlib
import struct
import sys
import tempfile
import zlib

from make import PLANES, colour, numbers, pbm, ppm, run
from others import grafx2

HERE = pathlib.Path(__file__).parent / "others"
FILES = pathlib.Path(__file__).parent / "files"
NAMES = "common-lang", "common-io", "common-image", "imageio-core", "imageio-iff"
JARS = ":".join(f"/usr/share/java/{name}.jar" for name in NAMES)
CLEAR = 5  # the transparent colour of one picture
SHAPES = {"grafx2_texts": pbm(37, [int(k != CLEAR) for k in numbers(37, 11, 16)])}
REFUSED = {"grafx2_bytes": 20, "pike_true24": 41, "java_packed": 7, "java_plain": 7}


def chunk(name, data):
    return struct.pack(">I", len(data)) + name + data + struct.pack(">I", zlib.crc32(name + data))


def png(width, height, colours, palette, more=b""):
    lines = (bytes([0, *colours[n : n + width]]) for n in range(0, width * height, width))
    head = struct.pack(">IIBBBBB", width, height, 8, 3, 0, 0, 0)
    parts = chunk(b"IHDR", head), chunk(b"PLTE", palette), more, chunk(b"IDAT", zlib.compress(b"".join(lines)))
    return b"\x89PNG\r\n\x1a\n" + b"".join(parts) + chunk(b"IEND", b"")


def given(width, height, colours, palette=None, more=b"", steps=19):
    """A picture as PNG and as PPM."""
    palette = palette or b"".join(map(colour, range(colours)))
    found = list(numbers(width, height, colours, steps))
    pixels = b"".join(palette[3 * k : 3 * k + 3] for k in found)
    return png(width, height, found, palette, more), b"P6\n%d %d\n255\n" % (width, height) + pixels


def texts():
    """Three ranges to cycle and a transparent colour."""
    ranges = b"".join(struct.pack(">HHBB", *one) for one in ((78, 1, 1, 4), (780, 3, 5, 9), (0, 0, 10, 15)))
    return chunk(b"tRNS", b"\xff" * CLEAR + b"\0") + chunk(b"crNg", ranges)


def for_grafx2():
    """The name of each file with its picture, the format and the comment."""
    for planes, (width, height) in PLANES.items():
        yield f"planes{planes}", given(width, height, 2**planes), "lbm", ""
    yield "texts", given(37, 11, 16, more=texts()), "lbm", "Rings from GrafX2"
    bright = b"".join(map(colour, range(32)))
    yield "half", given(45, 8, 64, palette=bright + bytes(v // 2 for v in bright)), "lbm", ""
    yield "wide", given(2300, 1, 2, steps=1100), "lbm", ""
    yield "tall", given(3, 310, 4), "lbm", ""
    yield "bytes", given(37, 11, 16), "pbm", ""


def by_grafx2(work):
    with grafx2.Screen() as screen:
        for name, (picture, shown), kind, comment in for_grafx2():
            (work / "given.png").write_bytes(picture)
            yield f"grafx2_{name}", screen.saved(work / "given.png", kind, comment), shown


def by_pike(work):
    for planes, (width, height) in [*PLANES.items(), (0, (37, 11))]:
        shown = ppm(width, height, 2**planes if planes else 16)
        (work / "given.ppm").write_bytes(shown)
        how = "palette" if planes else "direct"
        run("pike8.0", HERE / "ilbm.pike", "write", work / "given.ppm", work / "saved", how)
        yield f"pike_planes{planes}" if planes else "pike_true24", (work / "saved").read_bytes(), shown


def by_java(work):
    for how in "packed", "plain":
        picture, shown = given(37, 11, 16)
        (work / "given.png").write_bytes(picture)
        run("java", "-cp", JARS, HERE / "Ilbm.java", "write", work / "given.png", work / "saved", how)
        yield f"java_{how}", (work / "saved").read_bytes(), shown


def held_by_pike(folder, work):
    """Pike's pixels of netpbm's pictures with 6 and 8 planes."""
    given, shown = work / "held", work / "shown"
    given.mkdir()
    shown.mkdir()
    for file in FILES.glob("ham[68]_*.ilbm"):
        (given / file.name).write_bytes(file.read_bytes())
    run("pike8.0", HERE / "ilbm.pike", "read", given, shown)
    for file in shown.iterdir():
        (folder / file.name).with_suffix(".pike.ppm").write_bytes(file.read_bytes())


def keep(folder, name, file, shown):
    """The file, with the number or the pixels beside it."""
    (folder / name).with_suffix(".ilbm" if file[8:12] == b"ILBM" else ".lbm").write_bytes(file)
    if name in REFUSED:
        (folder / f"{name}.refused").write_text(f"{REFUSED[name]}\n")
        return
    read = run("ppmtoppm", given=run("ilbmtoppm", "-quiet", given=file))
    assert read == shown, f"{name}: other pixels than were handed over"
    (folder / f"{name}.ppm").write_bytes(read)
    if name in SHAPES:
        (folder / f"{name}.pbm").write_bytes(SHAPES[name])


def main():
    folder = pathlib.Path(sys.argv[1])
    folder.mkdir(parents=True, exist_ok=True)
    with tempfile.TemporaryDirectory() as work:
        for program in by_grafx2, by_pike, by_java:
            for name, file, shown in program(pathlib.Path(work)):
                keep(folder, name, file, shown)
        held_by_pike(folder, pathlib.Path(work))


if __name__ == "__main__":
    main()
