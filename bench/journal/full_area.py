"""Writes an area of 64 MiB that is full of records: FILE BODY, where BODY is how many bytes the body of each record has."""

import sys

LENGTH = 64 << 20


def main():
    path, body = sys.argv[1], int(sys.argv[2])
    record = b"\xa5" + body.to_bytes(4, "big") + b"Z" * body
    front = b"\xa5\x01" + (1).to_bytes(8, "big") + (0).to_bytes(8, "big")
    count = (LENGTH - len(front) - 1) // len(record)
    area = front + record * count
    with open(path, "wb") as file:
        file.write(area + b"\0" * (LENGTH - len(area)))


main()
