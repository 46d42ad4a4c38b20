"""Opens a file once and prints each of its pictures: size, origins, colours, pixels of the first line."""

import sys

import florinhado
from florinhado import Origin


def origin(what, told):
    if told.origin == Origin.SHARED:
        return f"{what} of the PROP at {told.shared}"
    return f"{what} of its own" if told.origin == Origin.OWN else f"{what} absent"


def told(picture):
    """What is told of a picture that is not refused."""
    header, colours = picture.header(), picture.palette()
    yield f"{header.value.width} by {header.value.height}"
    yield origin("header", header)
    yield origin("palette", colours)
    yield f"{len(colours.value) // 3} colours"
    try:
        yield "pixels " + " ".join(map(str, picture.frame()[: header.value.width]))
    except florinhado.Refused as refused:
        if refused.number != 25:
            yield f"refusal {refused.number} at {refused.place}, {refused.meaning}"


def main():
    try:
        file = florinhado.open(sys.argv[1])
    except florinhado.Refused as refused:
        print(f"refusal {refused.number} at {refused.place}, {refused.meaning}")
        return 1
    with file:
        for number, picture in enumerate(file.pictures()):
            refused = picture.refusal
            words = told(picture) if refused is None else [f"refusal {refused.number}", refused.meaning]
            print(f"picture {number} at {picture.place}: " + ", ".join(words))
    return 0


if __name__ == "__main__":
    sys.exit(main())
