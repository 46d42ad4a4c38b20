"""Makes the files of another program: python3 outside/make.py FOLDER

Needs Debian's netpbm. ppmtoilbm writes each picture, and ilbmtoppm reads it back to the
PPM that stands beside it; the mask that was handed in, if there is one, stands there as
PBM, with 1 for the pixels that show. Where 01 has the library refuse the rows, the number
stands beside it too, and the PPM, if there is one, has the palette; where Ask 5 has it
refuse the colours, the number stands beside it alone.
"""

import pathlib
import subprocess
import sys

PLANES = {1: (13, 7), 2: (17, 5), 3: (31, 9), 4: (37, 11), 5: (23, 6), 6: (45, 8), 7: (50, 9), 8: (61, 11)}
TEXTS = "-name Ring -author me -copyright 1985 -annotation Rings. -text odd -lace -hires".split()


def numbers(width, height, colours, run=19):
    """Runs on the even lines and noise on the odd ones, in so many colours."""
    for n in range(width * height):
        x, y = n % width, n // width
        yield (x * x // 7 + 3 * y + x * y // 11 if y % 2 else x // run + y) % colours


def pbm(width, bits):
    """A plain PBM of these bits."""
    lines = [" ".join(map(str, bits[n : n + width])) + "\n" for n in range(0, len(bits), width)]
    return f"P1\n{width} {len(lines)}\n{''.join(lines)}".encode()


def colour(k):
    return bytes([k * 37 % 256, (k * 91 + 13) % 256, 255 - k * 53 % 256])


def ppm(width, height, colours, run=19):
    pixels = b"".join(map(colour, numbers(width, height, colours, run)))
    return b"P6\n%d %d\n255\n" % (width, height) + pixels


MASK = pbm(37, [int(n % 3 > 0) for n in range(37 * 11)])


def run(*words, given=b""):
    return subprocess.run(words, input=given, check=True, capture_output=True).stdout


def pictures(mask):
    """The name of each file with its picture and the words for ppmtoilbm."""
    for planes, (width, height) in PLANES.items():
        for method in "byterun1", "none":
            name = f"planes{planes}_" + {"none": "plain", "byterun1": "packed"}[method]
            yield name, ppm(width, height, 2**planes), ["-fixplanes", str(planes), "-cmethod", method]
    sixteen, many = ppm(37, 11, 16), ppm(61, 11, 256)
    for method, name in ("byterun1", "packed"), ("none", "plain"):
        words = ["-cmethod", method, "-fixplanes", "4"]
        yield f"mask_{name}", sixteen, words + ["-mmethod", "plane", "-maskfile", mask]
        yield f"ham6_{name}", many, ["-ham6", "-cmethod", method]
        yield f"ham8_{name}", many, ["-ham8", "-cmethod", method]
    for planes in "5", "7":
        yield f"ham{planes}", many, ["-hamplanes", planes, "-hamforce"]
    yield "texts", sixteen, ["-fixplanes", "4", *TEXTS]
    yield "wide", ppm(2300, 1, 2, run=1100), ["-fixplanes", "1"]
    yield "map_only", sixteen, ["-cmaponly"]
    yield "planes9", sixteen, ["-fixplanes", "9"]
    yield "direct15", sixteen, ["-dcforce"]
    yield "true24", sixteen, ["-24force"]


REFUSED = {"map_only": 25, "planes9": 41, "direct15": 41, "true24": 41}
NO_COLOURS = {"ham5": 46, "ham7": 46}


def main():
    folder = pathlib.Path(sys.argv[1])
    folder.mkdir(parents=True, exist_ok=True)
    mask = folder / "mask.pbm"
    mask.write_bytes(MASK)
    for name, picture, words in pictures(str(mask)):
        file = run("ppmtoilbm", "-quiet", *words, given=picture)
        (folder / f"{name}.ilbm").write_bytes(file)
        if "-maskfile" in words:
            (folder / f"{name}.pbm").write_bytes(MASK)
        if name in REFUSED:
            (folder / f"{name}.refused").write_text(f"{REFUSED[name]}\n")
        if name in NO_COLOURS:
            (folder / f"{name}.colours").write_text(f"{NO_COLOURS[name]}\n")
        elif REFUSED.get(name) != 41:
            shown = run("ilbmtoppm", "-quiet", given=file)
            (folder / f"{name}.ppm").write_bytes(run("ppmtoppm", given=shown))
    mask.unlink()


if __name__ == "__main__":
    main()
