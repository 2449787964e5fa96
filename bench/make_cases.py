#!/usr/bin/env python3
"""Writes the cases of bench/cases: dumps and schedules, each beside what is to be printed for it.

usage: bench/make_cases.py
CASE.dump and CASE.drill are inputs; CASE.told has the status in its first line and then what is printed. Each case says below
how its report ends, in its author's words; what is printed in full is that of the references, which have to agree with that.
"""
import os
import struct

import audit_reference
import drill_reference
from audit_reference import name
from drill_reference import LAST, Refused, World, parse_event, sha

FOLDER = os.path.join(os.path.dirname(os.path.abspath(__file__)), "cases")
Z = bytes(32)
V = bytes([0x11]) * 32


def keep(case, kind, text, told, status):
    for ending, content in ((kind, text), ("told", "%d\n%s" % (status, told))):
        with open(os.path.join(FOLDER, "%s.%s" % (case, ending)), "w") as file:
            file.write(content)


def check(case, told, status, ends):
    lines = told.splitlines()
    wanted = [ends] if isinstance(ends, str) else list(ends)
    got = [" ".join(line.split()[: len(want.split())]) for line, want in zip(lines[-len(wanted):], wanted)]
    assert got == wanted, (case, status, told, wanted)


# Dumps.


def push(before, client, number):
    return b"U" + before + struct.pack(">II", client, number) + V


def plan(before, client, number, generation, format_, replicas, services):
    rows = b"".join(struct.pack(">IQ", service, 1) for service in services)
    return b"L" + push(before, client, number)[1:] + struct.pack(">IIIQI", generation, format_, replicas, 1, len(services)) + rows


def prepare(position, round_, client):
    return b"P" + struct.pack(">III", position, round_, client)


def accept(position, round_, client, entry):
    return b"A" + struct.pack(">III", position, round_, client) + entry


X, Y = push(Z, 0, 1), push(Z, 1, 1)
L = plan(Z, 0, 1, 1, 1, 1, [0])
L_OF_TWO = plan(Z, 0, 1, 1, 1, 1, [0, 1])
L_ELSEWHERE = plan(Z, 0, 1, 1, 1, 1, [3])
M = plan(Z, 0, 1, 1, 2, 1, [0])
Q, Q2 = push(sha(L), 0, 2), push(sha(L), 1, 2)

# case: (services, votes, how the report ends)
DUMPS = {
    "audit_of_the_head_alone": (3, [], "end 0"),
    "two_of_four_is_no_majority": (4, [(0, accept(1, 1, 0, X)), (1, accept(1, 1, 0, X))], "end 0"),
    "accept_below_a_promise_is_not_taken": (3, [(0, prepare(1, 2, 1)), (0, accept(1, 1, 0, X)), (1, accept(1, 1, 0, X))], "end 0"),
    "votes_count_under_one_ballot": (3, [(0, accept(1, 1, 0, X)), (1, accept(1, 2, 1, X))], "end 0"),
    "votes_count_under_one_ballot.both": (3, [(0, accept(1, 2, 1, X)), (1, accept(1, 2, 1, X))], "end 1"),
    "two_chosen_entries_are_a_split": (1, [(0, accept(1, 1, 0, X)), (0, accept(1, 2, 1, Y))], "split 1 %s %s" % (name(X), name(Y))),
    "two_chosen_entries_are_a_split.no_chain": (1, [(0, accept(2, 1, 0, X)), (0, accept(2, 2, 1, Y))], "end 0"),
    "repeats_and_foreign_entries_change_nothing": (
        3,
        [(s, t) for s in (0, 1) for t in (prepare(1, 1, 0), accept(1, 1, 0, X), accept(1, 1, 0, X), prepare(1, 1, 0))] + [(1, b""), (1, b"\xff")],
        "end 1",
    ),
    "voters_follow_the_plan": (3, [(0, accept(1, 1, 0, L)), (1, accept(1, 1, 0, L)), (0, accept(2, 2, 0, Q))], "end 2"),
    "votes_of_former_voters": (3, [(0, accept(1, 1, 0, L)), (1, accept(1, 1, 0, L)), (1, accept(2, 2, 0, Q)), (2, accept(2, 2, 0, Q))], "end 1"),
    "votes_of_the_proposed_voters_alone": (3, [(0, accept(1, 1, 0, L))], "end 0"),
    "half_of_two_voters_is_no_majority": (
        3,
        [(0, accept(1, 1, 0, L_OF_TWO)), (1, accept(1, 1, 0, L_OF_TWO)), (0, accept(2, 2, 0, push(sha(L_OF_TWO), 0, 2)))],
        "end 1",
    ),
    "split_behind_a_plan": (
        3,
        [(0, accept(1, 1, 0, L)), (1, accept(1, 1, 0, L)), (0, accept(2, 2, 0, Q)), (0, accept(2, 3, 1, Q2))],
        "split 2 %s %s" % (name(Q), name(Q2)),
    ),
    "split_of_former_voters_is_none": (
        3,
        [(0, accept(1, 1, 0, L)), (1, accept(1, 1, 0, L))] + [(s, accept(2, r, r, q)) for s in (1, 2) for r, q in ((2, Q), (3, Q2))],
        "end 1",
    ),
    "split_behind_a_member_that_does_not_link_on": (
        1,
        [(0, accept(1, 1, 0, Q)), (0, accept(2, 1, 0, X)), (0, accept(2, 2, 1, Y))],
        "end 0",
    ),
    "plan_of_a_service_that_is_not_there": (3, [(0, accept(1, 1, 0, L_ELSEWHERE)), (1, accept(1, 1, 0, L_ELSEWHERE))], "end 0"),
    "plan_of_format_2": (3, [(0, accept(1, 1, 0, M)), (1, accept(1, 1, 0, M)), (0, accept(2, 1, 0, push(sha(M), 0, 2)))], "end 2"),
    "plan_back_to_format_1": (3, [(0, accept(1, 1, 0, M)), (1, accept(1, 1, 0, M)), (0, accept(2, 1, 0, plan(sha(M), 0, 2, 1, 1, 1, [0])))], "end 1"),
    "plan_of_format_3_is_no_record": (1, [(0, accept(1, 1, 0, plan(Z, 0, 1, 1, 3, 1, [0])))], "end 0"),
    "plan_below_the_generation": (
        1,
        [(0, accept(1, 1, 0, plan(Z, 0, 1, 2, 1, 1, [0]))), (0, accept(2, 1, 0, plan(sha(plan(Z, 0, 1, 2, 1, 1, [0])), 0, 2, 1, 1, 1, [0])))],
        "end 1",
    ),
    "greatest_numbers": (16, [(s, accept(1, LAST, 15, push(Z, 15, 4294967295))) for s in range(9)], "end 1"),
}


def dump_of(services, votes):
    lines = ["metasync-dump 1 %d %s" % (services, Z.hex())]
    return "".join(line + "\n" for line in lines + ["%d %s" % (service, text.hex() or "-") for service, text in votes])


def make_dumps():
    for case, (services, votes, ends) in DUMPS.items():
        text = dump_of(services, votes)
        told, status = audit_reference.audit(text.encode())
        check(case, told, status, ends)
        keep(case, "dump", text, told, status)


# Schedules.


def tree(format_, number, files):
    """The texts of a version and of what it reaches, the version last; files are (directory or none, label, blobs)."""
    tags = b"BFDV" if format_ == 1 else b"CGEW"
    texts = []

    def add(text):
        texts.append(text)
        return sha(text)

    def directory(rows):
        body = b""
        for kind, label, size, named in sorted(rows, key=lambda row: row[1]):
            body += kind + bytes([len(label)]) + label + (struct.pack(">Q", size) if format_ == 2 else b"") + named
        return add(tags[2:3] + struct.pack(">I", len(rows)) + body)

    def file_row(label, blobs):
        size = sum(map(len, blobs))
        named = b"".join(add(tags[:1] + blob) for blob in blobs)
        return (b"f", label, size, add(tags[1:2] + struct.pack(">QI", size, len(blobs)) + named))

    inner = [file_row(label, blobs) for where, label, blobs in files if where]
    rows = [file_row(label, blobs) for where, label, blobs in files if not where]
    if inner:
        rows.append((b"d", b"docs", sum(row[2] for row in inner), directory(inner)))
    add(tags[3:] + struct.pack(">IIB", 0, number, 0) + directory(rows))
    return texts


class Schedule:
    """The lines of a schedule, and the world that they leave, for the numbers of requests and the lengths of logs."""

    def __init__(self, services, clients, replicas):
        head = "metasync-drill 1 %d %d %d" % (services, clients, replicas)
        self.lines, self.world = [head], World(head.encode(), services, clients, replicas)

    def add(self, line):
        self.lines.append(line)
        try:
            self.world.step(parse_event(line.encode()))
        except Refused:
            pass

    def place(self, texts, generation=1, services=(0,)):
        """Places the texts, and answers the name of the last, which is their version."""
        for service in services:
            for text in texts:
                self.add("place %d %d %s" % (service, generation, text.hex()))
        return sha(texts[-1]).hex()

    def ask(self, line, services):
        """An event that sends requests, of which those to these services arrive."""
        first = len(self.world.requests)
        self.add(line)
        for at, (service, _) in enumerate(self.world.requests[first:], first):
            if service in services:
                self.add("deliver %d" % at)

    def read(self, client, services):
        for service in services:
            self.add("read %d %d %d" % (client, service, len(self.world.logs[service])))

    def bid(self, client, line, promising, taking=None):
        """A whole bid: promises of these services, an offer, votes of those, and what it learns of it."""
        taking = promising if taking is None else taking
        self.ask(line, promising)
        self.read(client, promising)
        self.ask("offer %d" % client, taking)
        self.read(client, taking)
        self.add("learn %d" % client)

    def push(self, client, round_, number, version, promising, taking=None):
        self.bid(client, "bid %d %d %d %s" % (client, round_, number, version), promising, taking)

    def text(self):
        return "".join(line + "\n" for line in self.lines)


ONE_FILE = [(None, b"a", [b"one"])]
TWO = [(None, b"a", [b"one"]), ("docs", b"b", [b"three"])]


def turn_to_one_service():
    """Behind a turn from three services to one, one vote chooses."""
    s = Schedule(3, 1, 1)
    s.add("start 0")
    empty = s.place(tree(1, 0, []))
    version = s.place(tree(1, 1, ONE_FILE))
    assert empty == s.world.genesis["version"].hex()
    s.bid(0, "turn 0 1 1 1 1 0", (1, 2))
    s.push(0, 2, 2, version, (0,))
    return s, ["end 2", "client 0 knows 2"]


def turn_of_the_proposed_voters_alone():
    """The vote of the one service that a plan names does not choose that plan."""
    s = Schedule(3, 1, 1)
    s.add("start 0")
    s.place(tree(1, 0, []))
    s.bid(0, "turn 0 1 1 1 1 0", (0, 1), (0,))
    return s, "event %d chosen" % (len(s.lines) - 1)


def turn_to_services_that_never_voted():
    s = Schedule(5, 2, 1)
    s.add("start 0")
    s.add("start 1")
    s.place(tree(1, 0, []), services=(3,))
    version = s.place(tree(1, 1, ONE_FILE), services=(3, 4))
    s.bid(0, "turn 0 1 1 1 1 3,4", (0, 1, 2))
    s.read(1, range(5))
    s.add("learn 1")
    s.push(1, 1, 1, version, (3, 4))
    return s, ["end 2", "client 0 knows 1", "client 1 knows 2"]


def half_of_the_new_voters():
    """Of two voters one is no majority."""
    s = Schedule(3, 1, 1)
    s.add("start 0")
    s.place(tree(1, 0, []))
    version = s.place(tree(1, 1, ONE_FILE))
    s.bid(0, "turn 0 1 1 1 1 0,2", (0, 1))
    s.push(0, 2, 2, version, (0, 2), (2,))
    return s, "event %d chosen" % (len(s.lines) - 1)


def former_voters_promise_nothing():
    """Of the services that voted before, none is asked, and no promise of theirs counts."""
    s = Schedule(3, 1, 1)
    s.add("start 0")
    s.place(tree(1, 0, []))
    s.bid(0, "turn 0 1 1 1 1 0", (0, 1, 2))
    s.add("bid 0 2 -")
    s.read(0, (0, 1, 2))
    s.add("offer 0")
    return s, "event %d promises" % (len(s.lines) - 1)


def stale_voter_with_an_old_accept():
    """Service 2 alone took an entry under a smaller ballot, before a plan that leaves it as the only voter."""
    s = Schedule(3, 3, 1)
    for client in range(3):
        s.add("start %d" % client)
    s.place(tree(1, 0, []), services=(0, 2))
    version = s.place(tree(1, 1, ONE_FILE), services=(0, 2))
    s.ask("bid 0 1 1 %s" % version, (0, 2))
    s.read(0, (0, 2))
    s.ask("offer 0", (2,))
    s.bid(1, "turn 1 2 1 1 1 2", (0, 1))
    s.push(1, 3, 2, version, (2,))
    s.read(2, (0, 1, 2))
    s.add("learn 2")
    s.add("learn 2")
    s.bid(0, "bid 0 4 -", (0, 2))
    return s, ["end 2", "client 0 knows 1", "client 1 knows 2", "client 2 knows 2"]


def clients_with_different_voters():
    """Client 1 has not learnt of the turn and asks all three services; client 0 asks one."""
    s = Schedule(3, 2, 1)
    s.add("start 0")
    s.add("start 1")
    s.place(tree(1, 0, []))
    version = s.place(tree(1, 1, ONE_FILE))
    s.bid(0, "turn 0 1 1 1 1 0", (0, 1))
    s.ask("bid 0 2 2 %s" % version, (0,))
    assert len(s.world.requests) == 7
    s.ask("bid 1 2 -", (0, 1, 2))
    assert len(s.world.requests) == 10
    s.read(0, (0,))
    s.ask("offer 0", (0,))
    s.read(0, (0,))
    s.add("learn 0")
    s.read(1, (0, 1, 2))
    s.ask("offer 1", (1, 2))
    s.read(1, (1, 2))
    s.add("learn 1")
    return s, ["end 2", "client 0 knows 2", "client 1 knows 1"]


def requests_are_to_voters_alone():
    """Behind the turn one request is sent, and not three."""
    s = Schedule(3, 1, 1)
    s.add("start 0")
    s.place(tree(1, 0, []))
    s.bid(0, "turn 0 1 1 1 1 0", (0, 1))
    s.add("bid 0 2 -")
    s.add("deliver 7")
    return s, "event %d request" % (len(s.lines) - 1)


def migrated(clients=1):
    """A migration that is chosen, with one file in both formats."""
    s = Schedule(3, clients, 2)
    for client in range(clients):
        s.add("start %d" % client)
    old, new = s.place(tree(1, 1, TWO), services=(0, 2)), s.place(tree(2, 2, TWO), services=(0, 1))
    s.push(0, 1, 1, old, (0, 1))
    s.bid(0, "migrate 0 2 2 %s" % new, (0, 1))
    return s, old, new


def migration_is_chosen():
    s, _, _ = migrated()
    version = s.place(tree(2, 3, ONE_FILE), services=(1, 2))
    s.push(0, 3, 3, version, (1, 2))
    return s, ["end 3", "client 0 knows 3"]


def push_of_format_1_behind_a_migration():
    s, old, _ = migrated()
    s.add("bid 0 3 3 %s" % old)
    return s, "event %d placed" % (len(s.lines) - 1)


def push_of_format_2_before_a_migration():
    s = Schedule(3, 1, 2)
    s.add("start 0")
    s.add("bid 0 1 1 %s" % s.place(tree(2, 1, ONE_FILE), services=(0, 1)))
    return s, "event %d placed" % (len(s.lines) - 1)


def migration_of_a_version_of_format_1():
    s = Schedule(3, 1, 2)
    s.add("start 0")
    s.add("migrate 0 1 1 %s" % s.place(tree(1, 1, ONE_FILE), services=(0, 1)))
    return s, "event %d placed" % (len(s.lines) - 1)


def migration_twice():
    s, _, new = migrated()
    s.add("migrate 0 3 3 %s" % new)
    return s, "event %d plan" % (len(s.lines) - 1)


def migration_twice_by_one_who_did_not_learn():
    """Client 1 does not know of the migration: it may ask for one, and then offers the one that was chosen."""
    s, old, new = migrated(2)
    s.read(1, (0, 1))
    s.add("learn 1")
    s.bid(1, "migrate 1 3 9 %s" % new, (1, 2))
    s.add("migrate 1 4 9 %s" % new)
    return s, "event %d plan" % (len(s.lines) - 1)


def migration_with_a_wrong_round():
    s, _, new = migrated()
    s.add("migrate 0 2 3 %s" % new)
    return s, "event %d round" % (len(s.lines) - 1)


def collection_after_a_migration():
    """A turn behind a migration has its format, and all that is below its generation may then be dropped."""
    s, _, new = migrated()
    texts = tree(2, 2, TWO)
    s.place(texts, 2, (1, 2))
    s.bid(0, "turn 0 3 3 2 2 0,1,2", (0, 1, 2))
    for service in range(3):
        s.add("drop %d 2" % service)
    s.push(0, 4, 4, new, (0, 2))
    return s, ["end 4", "client 0 knows 4"]


def collection_before_its_turn():
    s, _, _ = migrated()
    s.add("drop 0 2")
    return s, "event %d turned" % (len(s.lines) - 1)


def turn_behind_a_migration_wants_its_format():
    """The version of generation 2 is there in format 1 alone."""
    s, _, _ = migrated()
    s.place(tree(1, 1, TWO), 2, (1, 2))
    s.add("turn 0 3 3 2 2 0,1,2")
    return s, "event %d placed" % (len(s.lines) - 1)


def bid_with_another_blob(blob):
    """Behind a migration, a bid with a version of format 2 whose one file names that blob."""
    s, _, _ = migrated()
    texts = tree(2, 3, ONE_FILE)
    file_ = texts[1][:13] + sha(blob)
    root = texts[2][:-32] + sha(file_)
    version = texts[3][:-32] + sha(root)
    s.add("bid 0 3 3 %s" % s.place([blob, file_, root, version], services=(0, 1)))
    return s, "event %d placed" % (len(s.lines) - 1)


def blob_of_format_1_under_a_file_of_format_2():
    return bid_with_another_blob(b"Bone")


def empty_blob_of_format_2():
    return bid_with_another_blob(b"C")


def bid_without_a_blob():
    """A version of two blobs and two directories, of which one blob is on one service alone."""
    s = Schedule(3, 1, 2)
    s.add("start 0")
    texts = tree(1, 1, TWO)
    s.place(texts, services=(0,))
    s.place(texts[1:], services=(2,))
    s.add("bid 0 1 1 %s" % sha(texts[-1]).hex())
    return s, "event %d placed" % (len(s.lines) - 1)


def bid_with_each_blob_where_it_likes():
    s = Schedule(3, 1, 2)
    s.add("start 0")
    texts = tree(1, 1, TWO)
    s.place(texts, services=(0,))
    s.place(texts[1:], services=(2,))
    version = s.place(texts[:1] + texts[-1:], services=(1,))
    s.push(0, 1, 1, version, (1, 2))
    return s, ["end 1", "client 0 knows 1"]


def chain_of_six():
    """Three clients push in turn, each behind what it learnt, and the last settles what another began."""
    s = Schedule(5, 3, 1)
    versions = [s.place(tree(1, number, ONE_FILE), services=(number % 5,)) for number in range(1, 7)]
    for client in range(3):
        s.add("start %d" % client)
    for at, version in enumerate(versions[:5]):
        client = at % 3
        s.read(client, range(5))
        for _ in range(at - len(s.world.clients[client]["chain"])):
            s.add("learn %d" % client)
        s.push(client, 2 * at + 1, at, version, [(at + i) % 5 for i in (0, 1, 2)], [(at + i) % 5 for i in (1, 2, 3)])
    s.read(2, range(5))
    s.add("learn 2")
    s.add("learn 2")
    s.ask("bid 2 20 9 %s" % versions[5], (0, 1, 4))
    s.read(2, (0, 1, 4))
    s.ask("offer 2", (4,))
    s.read(0, range(5))
    s.add("learn 0")
    s.bid(0, "bid 0 21 -", (2, 3, 4))
    return s, ["end 6", "client 0 knows 6", "client 1 knows 5", "client 2 knows 5"]


def sixteen_services_and_sixteen_clients():
    """A turn over 16 services, a push of each client behind it, and then one service less at each turn."""
    s = Schedule(16, 16, 16)
    s.place(tree(1, 0, []), services=range(16))
    version = s.place(tree(1, 1, ONE_FILE), services=range(16))
    for client in range(16):
        s.add("start %d" % client)
    s.bid(0, "turn 0 1 1 1 16 %s" % ",".join(map(str, range(16))), range(9))
    for client in range(1, 16):
        s.read(client, range(16))
        for _ in range(client):
            s.add("learn %d" % client)
        s.push(client, client + 1, client, version, [(client + i) % 16 for i in range(9)])
    for least in range(1, 6):
        voters = range(least - 1, 16)
        s.bid(15, "turn 15 %d 1 1 1 %s" % (20 + least, ",".join(map(str, range(least, 16)))), list(voters)[: len(voters) // 2 + 1])
    return s, ["end 21"] + ["client %d knows %d" % (c, c + 1) for c in range(15)] + ["client 15 knows 21"]


def nothing_happens():
    return Schedule(16, 16, 16), ["end 0"] + ["client %d knows 0" % c for c in range(16)]


def drill_of_one_service():
    s = Schedule(1, 1, 1)
    s.add("start 0")
    directory = b"D\0\0\0\0"
    version = b"V" + struct.pack(">IIB", 0, 1, 0) + sha(directory)
    for text in (directory, version):
        s.add("place 0 1 %s" % text.hex())
    for line in ("bid 0 1 1 %s" % sha(version).hex(), "deliver 0", "read 0 0 3", "offer 0", "deliver 1", "deliver 1", "read 0 0 5", "learn 0"):
        s.add(line)
    return s, ["end 1", "client 0 knows 1"]


def offer_needs_promises():
    s = Schedule(3, 2, 1)
    for line in ("start 0", "bid 0 1 -", "deliver 0", "deliver 1", "read 0 0 1", "offer 0"):
        s.add(line)
    return s, "event 6 promises"


def offer_of_nothing():
    s = Schedule(3, 2, 1)
    for line in ("start 0", "bid 0 1 -", "deliver 0", "deliver 1", "read 0 0 1", "read 0 1 1", "offer 0"):
        s.add(line)
    return s, "event 7 nothing"


# The first word of a refused event, by a line that is refused behind those before it.
REFUSED = {
    "client": (["start 2"], "event 1 client"),
    "on": (["start 0", "start 0"], "event 2 on"),
    "off": (["stop 0"], "event 1 off"),
    "round": (["start 0", "bid 0 0 -"], "event 2 round"),
    "last_round": (["start 0", "bid 0 4294967294 -", "bid 0 4294967295 -"], "event 3 round"),
    "request": (["deliver 0"], "event 1 request"),
    "service": (["start 0", "read 0 3 0"], "event 2 service"),
    "prefix": (["start 0", "read 0 0 1"], "event 2 prefix"),
    "bid": (["start 0", "offer 0"], "event 2 bid"),
    "generation": (["place 0 0 44"], "event 1 generation"),
    "below_the_floor": (["place 0 1 44", "drop 0 1", "place 0 1 44", "drop 0 0", "place 0 4294967294 44", "place 0 4294967295 44"], "event 6 generation"),
    "plan": (["start 0", "turn 0 1 1 1 1 3"], "event 2 plan"),
    "turned": (["drop 0 1", "drop 0 2"], "event 2 turned"),
    "chosen": (["start 0", "learn 0"], "event 2 chosen"),
    "placed": (["start 0", "bid 0 1 1 %s" % Z.hex()], "event 2 placed"),
}

# case: (lines behind a right first line, what is printed)
LINES = {
    "no_event_line": ([""], "bad input 2"),
    "migrate_without_a_version": (["start 0", "migrate 0 1 1 -"], "bad input 3"),
    "turn_whose_services_do_not_rise": (["turn 0 1 1 1 1 1,0"], "bad input 2"),
    "turn_of_generation_0": (["turn 0 1 1 0 1 0"], "bad input 2"),
    "turn_of_too_many_replicas": (["turn 0 1 1 1 3 0,1"], "bad input 2"),
    "place_of_nothing": (["place 0 1 -"], "bad input 2"),
    "number_past_u32": (["start 4294967296"], "bad input 2"),
    "number_past_u64": (["deliver 18446744073709551616"], "bad input 2"),
    "greatest_request": (["deliver 18446744073709551615"], "event 1 request"),
    "zero_before_a_number": (["start 00"], "bad input 2"),
}


def drills():
    for make in (
        turn_to_one_service, turn_of_the_proposed_voters_alone, turn_to_services_that_never_voted, half_of_the_new_voters,
        former_voters_promise_nothing, stale_voter_with_an_old_accept, clients_with_different_voters, requests_are_to_voters_alone,
        migration_is_chosen, push_of_format_1_behind_a_migration, push_of_format_2_before_a_migration,
        migration_of_a_version_of_format_1, migration_twice, migration_twice_by_one_who_did_not_learn, migration_with_a_wrong_round,
        collection_after_a_migration, collection_before_its_turn, turn_behind_a_migration_wants_its_format,
        blob_of_format_1_under_a_file_of_format_2, empty_blob_of_format_2, bid_without_a_blob, bid_with_each_blob_where_it_likes, chain_of_six,
        sixteen_services_and_sixteen_clients, nothing_happens, drill_of_one_service, offer_needs_promises, offer_of_nothing,
    ):
        schedule, ends = make()
        yield make.__name__, schedule.text(), ends
    for word, (lines, ends) in REFUSED.items():
        yield "event_%s" % word, "".join(line + "\n" for line in ["metasync-drill 1 3 2 1"] + lines), ends
    for case, (lines, ends) in LINES.items():
        yield case, "".join(line + "\n" for line in ["metasync-drill 1 3 2 1"] + lines), ends


def make_drills():
    for case, text, ends in drills():
        told, status = drill_reference.drill(text.encode())
        check(case, told, status, ends)
        keep(case, "drill", text, told, status)


if __name__ == "__main__":
    os.makedirs(FOLDER, exist_ok=True)
    make_dumps()
    make_drills()
