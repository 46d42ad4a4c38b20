"""Makes the sample files: python3 samples/make.py FOLDER SAMPLE

SAMPLE is compare's program `sample`: the second reader writes the picture, and
the listing that stands beside each file.
"""

import pathlib
import subprocess
import sys


def chunk(name, data=b"", pad=b"\0"):
    """A chunk with its size, and the pad byte if the size is odd."""
    return name + len(data).to_bytes(4, "big") + data + pad * (len(data) % 2)


def group(name, kind, *members):
    return chunk(name, kind + b"".join(members))


def nested():
    """LIST, PROPs, filler, CAT, FORMs in FORMs, odd sizes, trailing bytes."""
    colours = chunk(b"CMAP", bytes(range(9)), pad=b"\x7f")
    inner = group(b"FORM", b"8SVX", chunk(b"NAME", b"odd", pad=b"\xff"), chunk(b"VHDR"))
    outer = group(
        b"FORM", b"ANIM", chunk(b"ab~!", b"\1"), group(b"CAT ", b"8SVX", inner, chunk(b"    ", b"gap"))
    )
    file = group(
        b"LIST",
        b"ILBM",
        chunk(b"    ", b"12345"),
        group(b"PROP", b"ILBM", colours),
        chunk(b"    "),
        group(b"PROP", b"8SVX"),
        group(b"FORM", b"ILBM", chunk(b"TINY", b"tiny")),
        outer,
    )
    return file + b"trailing"


def second_prop():
    """Refused: two PROPs of one type in a LIST."""
    prop = group(b"PROP", b"ILBM")
    return group(b"LIST", b"JJJJ", prop, prop)


def bmhd(width, planes, masking=0, compression=0):
    """The header of a picture of two lines, on a page of 320 by 200."""
    fields = [width, 2, 0, 0, planes << 8 | masking, compression << 8, 0, 0x0A0B, 320, 200]
    return chunk(b"BMHD", b"".join(field.to_bytes(2, "big") for field in fields))


def two_levels():
    """The outer PROP has BMHD and CMAP, the inner one only a CMAP; forty pictures of
    8 by 2 pixels and 4 colours have neither."""
    greys = chunk(b"CMAP", bytes(85 * (n // 3) for n in range(12)))
    colours = chunk(b"CMAP", b"\0\0\0" b"\xff\0\0" b"\0\xff\0" b"\0\0\xff")
    rows = (bytes([n, 0, 6 * n, 0, 255 - n, 0, 3 * n, 0]) for n in range(40))
    pictures = (group(b"FORM", b"ILBM", chunk(b"BODY", row)) for row in rows)
    inner = group(b"LIST", b"ILBM", group(b"PROP", b"ILBM", colours), *pictures)
    return group(b"LIST", b"ILBM", group(b"PROP", b"ILBM", bmhd(8, 2), greys), inner)


def headers():
    """Pictures that are refused with 41, 42, 43 and 24 for one field of the header, one
    with all these faults, refused with 41, and one that is shown."""
    rows = bytes.fromhex("a0006000 50009000")
    fields = [(3, 9, 0, 0), (3, 2, 4, 0), (3, 2, 0, 2), (0, 2, 0, 0), (0, 255, 255, 255), (3, 2, 0, 0)]
    pictures = [group(b"FORM", b"ILBM", bmhd(*one), chunk(b"BODY", rows)) for one in fields]
    return group(b"CAT ", b"ILBM", *pictures)


def rows(planes, *lines):
    """The plane rows of lines of up to sixteen colour numbers, not packed."""
    words = (
        sum((number >> plane & 1) << 15 - x for x, number in enumerate(line))
        for line in lines
        for plane in range(planes)
    )
    return b"".join(word.to_bytes(2, "big") for word in words)


def colours():
    """Pictures of 4 by 2 pixels under one palette of three entries: hold-and-modify with 6
    planes and with 8, half-bright, the same numbers with no CAMG, and hold-and-modify with
    5 planes, of which no colours are told."""
    held = [0x2A, 0x01, 0x1F, 0x31], [0x1F, 0x03, 0x2F, 0x30]
    finer = [0xBF, 0x4F, 0xD0, 0x02], [0x60, 0x00, 0xFF, 0x80]
    bright = [1, 33, 2, 34], [0, 32, 63, 3]
    pictures = [
        group(b"FORM", b"ILBM", bmhd(4, planes), mode, chunk(b"BODY", rows(planes, *lines)))
        for planes, lines, mode in [
            (6, held, chunk(b"CAMG", b"\0\0\x08\0")),
            (8, finer, chunk(b"CAMG", b"\0\0\x08\0")),
            (6, bright, chunk(b"CAMG", b"\0\0\0\x80")),
            (6, bright, b""),
            (5, held, chunk(b"CAMG", b"\0\0\x08\0")),
        ]
    ]
    palette = chunk(b"CMAP", bytes.fromhex("112233 ff8000 0040ff"))
    return group(b"LIST", b"ILBM", group(b"PROP", b"ILBM", palette), *pictures)


def accepted(chunks, end, trailing=0):
    return f"answer=0\nplace=0\nchunks={chunks}\nend={end}\ntrailing={trailing}\n"


def run(*words, given=b""):
    return subprocess.run(words, input=given, check=True, capture_output=True).stdout


def main():
    folder, sample = pathlib.Path(sys.argv[1]), sys.argv[2]
    folder.mkdir(parents=True, exist_ok=True)
    picture = run(sample, "picture")
    samples = {
        "colours": (colours(), accepted(22, 454)),
        "form": (group(b"FORM", b"ILBM"), accepted(1, 12)),
        "headers": (headers(), accepted(19, 348)),
        "nested": (nested(), accepted(15, 178, 8)),
        "picture": (picture, accepted(4, len(picture))),
        "second_prop": (second_prop(), "answer=12\nplace=24\n"),
        "two_levels": (two_levels(), accepted(87, 1236)),
    }
    for name, (file, known) in samples.items():
        listing = run(sample, "list", given=file).decode()
        assert listing.startswith(known), name
        (folder / f"{name}.iff").write_bytes(file)
        (folder / f"{name}.txt").write_text(listing)


if __name__ == "__main__":
    main()
