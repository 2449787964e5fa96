#!/usr/bin/env python3
"""Writes a dump of about so many bytes to standard output.

usage: bench/make_dump.py KIND SERVICES BYTES
KIND is one of
  chain      a chain as long as the bytes allow, each position voted once by all services
  turns      a chain in which every second member is a plan, so that others vote behind it
  contested  a chain whose positions saw three ballots each, of which the last was chosen
  short      one position, with ever greater ballots that no majority took
  spread     Prepares alone, each at a position of its own
  foreign    entries that are no records, in short lines
  repeated   one position and one ballot: its Prepare, and then its Accept over and over
"""
import hashlib
import struct
import sys

GENESIS = bytes(32)


def push(before, number):
    return b"U" + before + struct.pack(">II", 0, number) + hashlib.sha256(struct.pack(">I", number)).digest()


def prepare(position, round_, client):
    return b"P" + struct.pack(">III", position, round_, client)


def accept(position, round_, client, entry):
    return b"A" + struct.pack(">III", position, round_, client) + entry


def chain(services):
    before, position = GENESIS, 1
    while True:
        entry = push(before, position)
        for service in range(services):
            yield service, prepare(position, 1, 0)
            yield service, accept(position, 1, 0, entry)
        before, position = hashlib.sha256(entry).digest(), position + 1


def contested(services):
    before, position = GENESIS, 1
    while True:
        entry = push(before, position)
        for round_ in (1, 2):
            for service in range(services):
                yield service, prepare(position, round_, round_)
            yield round_ % services, accept(position, round_, round_, push(before, position + 1000000 * round_))
        for service in range(services):
            yield service, prepare(position, 3, 0)
            yield service, accept(position, 3, 0, entry)
        before, position = hashlib.sha256(entry).digest(), position + 1


def short(services):
    round_ = 1
    while True:
        for service in range(services):
            yield service, prepare(1, round_, 0)
        yield round_ % services, accept(1, round_, 0, push(GENESIS, round_ % 7))
        round_ += 1


def spread(services):
    position = 1
    while True:
        yield position % services, prepare(position, 1, 0)
        position += 1


def foreign(services):
    at = 0
    while True:
        yield at % services, b""
        at += 1


def repeated(services):
    for service in range(services):
        yield service, prepare(1, 1, 0)
    while True:
        for service in range(services):
            yield service, accept(1, 1, 0, push(GENESIS, 1))


def turns(services):
    """A chain in which every second member is a plan, each of other services, of which a bare majority votes behind it."""
    before, position, voters = GENESIS, 1, list(range(services))
    while True:
        entry = push(before, position)
        if position % 2:
            named = sorted({position % services, (position // 2) % services, (position // 3) % services})
            rows = b"".join(struct.pack(">IQ", service, 1) for service in named)
            entry = b"L" + entry[1:] + struct.pack(">IIIQI", 1, 1, 1, 1, len(named)) + rows
        for service in voters[: len(voters) // 2 + 1]:
            yield service, accept(position, 1, 0, entry)
        voters = named if position % 2 else voters
        before, position = hashlib.sha256(entry).digest(), position + 1


KINDS = {"chain": chain, "turns": turns, "contested": contested, "short": short, "spread": spread, "foreign": foreign, "repeated": repeated}


def dump(kind, services, size):
    out = ["metasync-dump 1 %d %s" % (services, GENESIS.hex())]
    length = len(out[0]) + 1
    for service, text in KINDS[kind](services):
        line = "%d %s" % (service, text.hex() or "-")
        length += len(line) + 1
        if length > size:
            break
        out.append(line)
    return "\n".join(out) + "\n"


def main():
    sys.stdout.write(dump(sys.argv[1], int(sys.argv[2]), int(sys.argv[3])))


if __name__ == "__main__":
    main()
