"""Prints the listing of the file that the command line names."""

import pathlib
import sys

import florinhado


def print_chunk(number, record):
    print(f"chunk={number}\nlevel={record.level}\nkind={record.kind.name}")
    print(f"name={record.name.decode()}\nat={record.place}\nsize={record.size}")


def main():
    file = pathlib.Path(sys.argv[1]).read_bytes()
    try:
        accepted = florinhado.check(file)
    except florinhado.Refused as refused:
        print(f"answer={refused.number}\nplace={refused.place}")
        return 1
    print("answer=0\nplace=0")
    for key, value in accepted._asdict().items():
        print(f"{key}={value}")
    print(f"pictures={florinhado.count_pictures(file)}")
    for number, record in enumerate(florinhado.records(file)):
        print_chunk(number, record)
    return 0


if __name__ == "__main__":
    sys.exit(main())
