#!/usr/bin/env python3
"""Writes a listing to standard output.

usage: bench/make_listing.py small COUNT | empty COUNT | large BYTES
  small      so many files of up to 199 bytes each, in 20 folders
  empty      so many files of no bytes, in 20 folders
  large      one file of so many bytes
"""
import sys


def draws(seed):
    x = seed
    while True:
        x = (x * 6364136223846793005 + 1442695040888963407) % 2**64
        yield x >> 32


def line(path, text):
    return "%s %s\n" % (path.encode().hex(), text.hex() or "-")


def lines(kind, number):
    draw = draws(7)
    if kind == "large":
        text = b"".join(next(draw).to_bytes(4, "big") for _ in range(number // 4 + 1))[:number]
        yield line("large.bin", text)
        return
    for i in range(number):
        length = 0 if kind == "empty" else next(draw) % 200
        text = bytes(next(draw) % 256 for _ in range(length))
        yield line("d%d/f%d" % (i % 20, i), text)


def main():
    sys.stdout.writelines(lines(sys.argv[1], int(sys.argv[2])))


if __name__ == "__main__":
    main()
