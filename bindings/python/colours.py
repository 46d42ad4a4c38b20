"""Opens a file once and prints each of its pictures in colours: red, green, blue of each pixel, line by line."""

import sys

import florinhado

BLACK_AND_WHITE = bytes([0, 0, 0, 255, 255, 255])


def main():
    try:
        file = florinhado.open(sys.argv[1])
    except florinhado.Refused as refused:
        print(f"refusal {refused.number} at {refused.place}, {refused.meaning}")
        return 1
    with file:
        for number, picture in enumerate(file.pictures()):
            print(f"picture {number}")
            try:
                for line in picture.colour_lines(BLACK_AND_WHITE):
                    print(line.hex(" ", -3))
            except florinhado.Refused as refused:
                print(f"refusal {refused.number} at {refused.place}, {refused.meaning}")
    return 0


if __name__ == "__main__":
    sys.exit(main())
