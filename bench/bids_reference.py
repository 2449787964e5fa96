#!/usr/bin/env python3
"""What a client's first bid comes to under up to two faults, computed on its own by the rules of bids in docs/PROTOCOL.md.

    bids_reference.py SERVICES
    bids_reference.py --compare FILE
    bids_reference.py --records

The first form prints a table over SERVICES services; the second compares the tables of three and of four services with
the rows of FILE, crates/bid_tests/src/table_tests.rt, and ends with 1 where they differ; the third prints the version, the
Prepare and the Accept of the first proposal of the tests, spelled by docs/FORMATS.md.

A fault befalls one call of the bid: its keeping, each Prepare, each first look, each Accept, each second look, and within
each the services in their order. A keeping or a look fails. An append is lost; or it is done, and answered as one that
failed; or it is done twice. So there are 1 + 8 * SERVICES faults, counted from 1 in this order.

Row 0 has the bid without a fault and with each one fault; row F has the bids with the fault F and one more behind it that
befalls another call. For each bid a row has the letter of its answer: D decided, M no majority, K the keeper's fault,
O outbid, U unlisted. Behind them are the first 16 hexadecimal digits of the SHA-256 of the row's text. It has for each bid
the letter, the numbers of the services that failed where there was no majority, the client's kept round, the keeper's
round, the vote lists, each closed by `|`, and a newline. In a list P is a Prepare of the bid, and A an Accept of it.
"""
import hashlib
import re
import struct
import sys

BALLOT = (1, 0)
ENTRY = "the entry of the bid"


class Failed(Exception):
    pass


class World:
    """Services with their vote lists, a keeper, and the faults of calls; a call is its kind and its service."""

    def __init__(self, services, faults):
        self.lists = [[] for _ in range(services)]
        self.kept = 0
        self.faults = dict(faults)

    def keep(self, round_):
        if ("keep", 0) in self.faults:
            raise Failed
        self.kept = round_

    def append(self, kind, service, record):
        fault = self.faults.get((kind, service), "done")
        if fault != "lost":
            self.lists[service].append(record)
        if fault == "twice":
            self.lists[service].append(record)
        if fault in ("lost", "unheard"):
            raise Failed

    def look(self, kind, service):
        if (kind, service) in self.faults:
            raise Failed
        return list(self.lists[service])


def sight(records, ballot):
    """Whether the ballot's Prepare is promised and the Best before its first such place, whether its Accept is taken, and the
    greatest ballot."""
    promised, best, taken, top, vote = False, None, False, None, None
    for kind, own, entry in records:
        stands = top is None or own >= top
        if stands and kind == "P" and own == ballot and not promised:
            promised, best = True, vote
        if stands and kind == "A":
            taken = taken or own == ballot
            if vote is None or own >= vote[0]:
                vote = (own, entry)
        if stands:
            top = own
    return promised, best, taken, top


def is_majority(count, voters):
    return 2 * count > voters


def end_without_majority(sights, shows, failed, ballot):
    """The end of a round of looks in which no majority showed what is sought."""
    if 2 * len(failed) >= len(sights):
        return "M", sorted(failed)
    for service, seen in enumerate(sights):
        if seen and seen[3] is not None and seen[3] > ballot:
            return "O", [service]
    return "U", [next(s for s, seen in enumerate(sights) if s not in failed and not shows(seen))]


def go_round(world, sends, looks, record, failed):
    """Sends the record to each voter that did not fail, and looks at the list of each that has not failed by then."""
    services = range(len(world.lists))
    for service in services:
        if service not in failed:
            try:
                world.append(sends, service, record)
            except Failed:
                failed.add(service)
    sights = [None] * len(world.lists)
    for service in services:
        if service not in failed:
            try:
                sights[service] = sight(world.look(looks, service), record[1])
            except Failed:
                failed.add(service)
    return sights


def bid(world):
    """A letter of the answer with numbers of services, and the client's kept round."""
    try:
        world.keep(BALLOT[0])
    except Failed:
        return "K", [], 0
    failed = set()
    voters = len(world.lists)
    sights = go_round(world, "prepare", "first look", ("P", BALLOT, None), failed)
    if not is_majority(sum(1 for seen in sights if seen and seen[0]), voters):
        return *end_without_majority(sights, lambda seen: seen[0], failed, BALLOT), BALLOT[0]
    bests = [seen[1] for seen in sights if seen and seen[0] and seen[1]]
    entry = max(bests, key=lambda vote: vote[0])[1] if bests else ENTRY
    sights = go_round(world, "accept", "second look", ("A", BALLOT, entry), failed)
    if not is_majority(sum(1 for seen in sights if seen and seen[2]), voters):
        return *end_without_majority(sights, lambda seen: seen[2], failed, BALLOT), BALLOT[0]
    return "D", [], BALLOT[0]


def all_faults(services):
    appends = ("lost", "unheard", "twice")
    faults = [(("keep", 0), "fails")]
    for sends, looks in (("prepare", "first look"), ("accept", "second look")):
        faults += [((sends, service), fault) for service in range(services) for fault in appends]
        faults += [((looks, service), "fails") for service in range(services)]
    return faults


def told(services, faults):
    world = World(services, faults)
    letter, numbers, round_ = bid(world)
    lists = "".join("".join(record[0] for record in records) + "|" for records in world.lists)
    numbers = "".join(map(str, numbers))
    return letter, f"{letter}{numbers}{round_}{world.kept}{lists}\n"


def rows(services):
    faults = all_faults(services)
    groups = [[[]] + [[fault] for fault in faults]]
    for place, first in enumerate(faults):
        groups.append([[first, second] for second in faults[place + 1:] if second[0] != first[0]])
    for number, group in enumerate(groups):
        if group:
            cases = [told(services, case) for case in group]
            text = "".join(case[1] for case in cases)
            yield number, "".join(case[0] for case in cases), hashlib.sha256(text.encode()).hexdigest()[:16]


def compare(name):
    with open(name, encoding="utf-8") as file:
        text = file.read()
    found = re.findall(r'Row\(\s*(\d+),\s*"([DMKOU]*)",\s*0x([0-9a-f]{16}),?\s*\)', text)
    wanted = [(str(number), letters, digest) for services in (3, 4) for number, letters, digest in rows(services)]
    if found != wanted:
        print(f"{name}: the tables differ")
        return 1
    print(f"{name}: {len(wanted)} rows, {sum(len(row[1]) for row in wanted)} bids")
    return 0


def name_of(text):
    return hashlib.sha256(text).digest()


def first_records():
    """The version over the empty directory, the Prepare and the Accept of client 0's first proposal over three services, whose
    genesis names nothing and has one copy on each."""
    version = b"V" + struct.pack(">IIB", 0, 1, 0) + name_of(bytes.fromhex("4400000000"))
    plan = struct.pack(">IIIQI", 1, 1, 1, 1, 3) + b"".join(struct.pack(">IQ", service, 1) for service in range(3))
    genesis = b"L" + bytes(32) + struct.pack(">II", 0, 0) + bytes(32) + plan
    entry = b"U" + name_of(genesis) + struct.pack(">II", 0, 1) + name_of(version)
    prepare = b"P" + struct.pack(">III", 1, *BALLOT)
    return version, prepare, b"A" + prepare[1:] + entry


def main(words):
    if words[0] == "--records":
        for text in first_records():
            print(text.hex(), name_of(text).hex())
        return 0
    if words[0] == "--compare":
        return compare(words[1])
    for number, letters, digest in rows(int(words[0])):
        print(f'    Row({number}, "{letters}", 0x{digest}),')
    return 0


if __name__ == "__main__":
    sys.exit(main(sys.argv[1:]))
