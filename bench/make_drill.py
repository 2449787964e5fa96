#!/usr/bin/env python3
"""Writes a schedule of so many events over 16 services and 16 clients to standard output.

usage: bench/make_drill.py COUNT
The clients push in turn, each behind what it has learned of the others; each bid and each offer reaches nine services.
"""
import hashlib
import itertools
import struct
import sys

SERVICES = CLIENTS = 16
MAJORITY = SERVICES // 2 + 1


def events():
    logs = [0] * SERVICES
    learned = [0] * CLIENTS
    sent = 0
    empty = b"D\0\0\0\0"
    version = b"V" + struct.pack(">IIB", 0, 1, 0) + hashlib.sha256(empty).digest()
    name = hashlib.sha256(version).hexdigest()
    for client in range(CLIENTS):
        yield "start %d" % client
    for text in (empty, version):
        logs[0] += 1
        yield "place 0 1 %s" % text.hex()
    position = 0
    while True:
        position += 1
        client = position % CLIENTS

        def read():
            return ["read %d %d %d" % (client, s, logs[s]) for s in voters]

        voters = [(position + s) % SERVICES for s in range(MAJORITY)]
        yield from ["read %d %d %d" % (client, s, logs[s]) for s in range(SERVICES)]
        yield from ["learn %d" % client] * (position - 1 - learned[client])
        for ask in ("bid %d %d %d %s" % (client, position, position, name), "offer %d" % client):
            yield ask
            for service in voters:
                logs[service] += 1
                yield "deliver %d" % (sent + service)
            sent += SERVICES
            yield from read()
        yield "learn %d" % client
        learned[client] = position


def edges():
    """Schedules over one service and one client, each with its title: long in one thing alone."""
    empty = b"D\0\0\0\0"
    version = b"V" + struct.pack(">IIB", 0, 1, 0) + hashlib.sha256(empty).digest()
    name = hashlib.sha256(version).hexdigest()
    begun = ["start 0", "place 0 1 %s" % empty.hex(), "place 0 1 %s" % version.hex()]
    bid = "bid 0 1 1 %s" % name

    def chain(members):
        log = 2
        for position in range(1, members + 1):
            yield "bid 0 %d %d %s" % (position, position, name)
            for ask in range(2):
                log += 1
                yield from ["deliver %d" % (2 * position - 2 + ask), "read 0 0 %d" % log]
                if ask == 0:
                    yield "offer 0"
            yield "learn 0"

    def lasting(log):
        return ["deliver 0", "read 0 0 %d" % (log + 1), "offer 0", "deliver 1", "read 0 0 %d" % (log + 2), "learn 0"]

    for title, lines in {
        "one request delivered 9,996 times": [*begun, bid, *["deliver 0"] * 9996],
        "one Accept delivered 9,990 times": [*begun, bid, "deliver 0", "read 0 0 3", "offer 0", *["deliver 1"] * 9990, "read 0 0 5000", "learn 0"],
        "9,990 puts on one service": [*begun, *["place 0 1 %s" % (b"B%d" % at).hex() for at in range(9988)], bid, *lasting(9990)],
        "a chain of 1,428 members": [*begun, *chain(1428)],
        "an object of 8 MB beside a bid": [*begun, "place 0 1 %s" % (b"B" + bytes(8380000)).hex(), bid, *lasting(3)],
    }.items():
        yield title, "".join(line + "\n" for line in ["metasync-drill 1 1 1 1", *lines])


def schedule(count):
    head = "metasync-drill 1 %d %d 1" % (SERVICES, CLIENTS)
    return "".join(line + "\n" for line in [head, *itertools.islice(events(), count)])


def main():
    sys.stdout.write(schedule(int(sys.argv[1])))


if __name__ == "__main__":
    main()
