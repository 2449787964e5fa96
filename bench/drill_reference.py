#!/usr/bin/env python3
"""An independent drill: runs a schedule and prints what `metasync drill` has to print.

usage: bench/drill_reference.py FILE
The exit status is that of the program. Nothing of the program is read.
"""
import hashlib
import re
import struct
import sys

LAST = 4294967294
U32 = 4294967295
U64 = 18446744073709551615


def sha(text):
    return hashlib.sha256(text).digest()


class Bad(Exception):
    pass


class Refused(Exception):
    pass


def number(word, most):
    if not re.fullmatch(rb"0|[1-9][0-9]*", word) or int(word) > most:
        raise Bad
    return int(word)


def name(word):
    if not re.fullmatch(rb"[0-9a-fA-F]{64}", word):
        raise Bad
    return bytes.fromhex(word.decode())


def plan(generation, replicas, services):
    rows = [(s, 1) for s in services]
    rising = all(a < b for a, b in zip(services, services[1:]))
    if not (1 <= generation <= LAST and 1 <= len(rows) <= 16 and rising and services[-1] < 16):
        raise Bad
    if not 1 <= replicas <= len(rows):
        raise Bad
    return {"generation": generation, "format": 1, "replicas": replicas, "services": services}


def plan_text(p):
    rows = b"".join(struct.pack(">IQ", s, 1) for s in p["services"])
    return struct.pack(">IIIQI", p["generation"], p["format"], p["replicas"], 1, len(p["services"])) + rows


def entry_text(e):
    tag = b"U" if e["plan"] is None else b"L"
    text = tag + e["before"] + struct.pack(">II", e["client"], e["number"]) + e["version"]
    return text + (b"" if e["plan"] is None else plan_text(e["plan"]))


def entry_name(e):
    return sha(entry_text(e))


def parse_event(line):
    words = line.split(b" ")
    word, rest = words[0], words[1:]
    kinds = {
        b"start": [U32], b"stop": [U32], b"offer": [U32], b"learn": [U32], b"deliver": [U64],
        b"read": [U32, U32, U64], b"drop": [U32, U32],
    }
    if word in kinds:
        if len(rest) != len(kinds[word]):
            raise Bad
        return (word.decode(),) + tuple(number(w, most) for w, most in zip(rest, kinds[word]))
    if word == b"bid":
        if len(rest) == 3 and rest[2] == b"-":
            return ("bid", number(rest[0], U32), number(rest[1], U32), None)
        if len(rest) != 4:
            raise Bad
        return ("bid", number(rest[0], U32), number(rest[1], U32), (number(rest[2], U32), name(rest[3])))
    if word == b"migrate":
        if len(rest) != 4:
            raise Bad
        return ("migrate", number(rest[0], U32), number(rest[1], U32), number(rest[2], U32), name(rest[3]))
    if word == b"turn":
        if len(rest) != 6:
            raise Bad
        client, round_, count, generation, replicas = (number(w, U32) for w in rest[:5])
        services = [number(w, U32) for w in rest[5].split(b",")]
        return ("turn", client, round_, count, plan(generation, replicas, services))
    if word == b"place":
        if len(rest) != 3 or not re.fullmatch(rb"([0-9a-fA-F]{2})+", rest[2]):
            raise Bad
        return ("place", number(rest[0], U32), number(rest[1], U32), bytes.fromhex(rest[2].decode()))
    raise Bad


def parse(text):
    lines = text.split(b"\n")
    if lines[-1] == b"":
        lines.pop()
    if not lines:
        return ("bad", 1)
    head = lines[0].split(b" ")
    try:
        if len(head) != 5 or head[0] != b"metasync-drill" or head[1] != b"1":
            raise Bad
        n, c, r = (number(w, 16) for w in head[2:])
        if min(n, c, r) < 1 or r > n:
            raise Bad
    except Bad:
        return ("bad", 1)
    if len(lines) - 1 > 10000:
        return ("limit", len(lines) - 1)
    events = []
    for at, line in enumerate(lines[1:], 2):
        try:
            events.append(parse_event(line))
        except Bad:
            return ("bad", at)
    return ("drill", lines[0], n, c, r, events)


def part(label):
    try:
        label.decode()
    except UnicodeDecodeError:
        return False
    return 1 <= len(label) <= 200 and label not in (b".", b"..") and b"/" not in label and b"\0" not in label


# By the first byte of an object: its kind and format.
KINDS = {
    b"B": ("blob", 1), b"F": ("file", 1), b"D": ("dir", 1), b"V": ("version", 1),
    b"C": ("blob", 2), b"G": ("file", 2), b"E": ("dir", 2), b"W": ("version", 2),
}
BLOB = {1: 65536, 2: 1048576}
FILE = {1: 67108864, 2: 1073741824}


def rows_of(text, format_):
    """What a directory names, or None."""
    count, at, before, rows = struct.unpack(">I", text[1:5])[0], 5, None, []
    if count > 100000:
        return None
    size = {1: 0, 2: 8}[format_]
    for _ in range(count):
        kind, length = text[at:at + 1], text[at + 1:at + 2]
        if kind not in (b"f", b"d") or not length:
            return None
        label_end = at + 2 + length[0]
        label, end = text[at + 2:label_end], label_end + size + 32
        if end > len(text) or not part(label) or (before is not None and label <= before):
            return None
        rows.append((text[end - 32:end], "file" if kind == b"f" else "dir"))
        before, at = label, end
    return rows if at == len(text) else None


def children(text, format_):
    """The kind of an object of that format and what it names, or None."""
    kind, of = KINDS.get(text[:1], (None, None))
    if of != format_:
        return None
    if kind == "blob":
        fits = len(text) - 1 <= BLOB[format_] and (format_ == 1 or len(text) > 1)
        return ("blob", []) if fits else None
    if kind == "file" and len(text) >= 13:
        size, count = struct.unpack(">QI", text[1:13])
        if size <= FILE[format_] and count == -(-size // BLOB[format_]) and len(text) == 13 + 32 * count:
            return "file", [(text[13 + 32 * i:45 + 32 * i], "blob") for i in range(count)]
    if kind == "dir" and len(text) >= 5:
        rows = rows_of(text, format_)
        return None if rows is None else ("dir", rows)
    if kind == "version" and len(text) >= 10:
        client, _, parents = struct.unpack(">IIB", text[1:10])
        if client <= 15 and parents <= 2 and len(text) == 42 + 32 * parents:
            return "version", [(text[-32:], "dir")]
    return None


class World:
    def __init__(self, head, n, c, r):
        empty = sha(b"V" + struct.pack(">IIB", 0, 0, 0) + sha(b"D\0\0\0\0"))
        first = {"generation": 1, "format": 1, "replicas": r, "services": list(range(n))}
        self.n, self.c = n, c
        self.genesis = {"before": sha(head), "client": 0, "number": 0, "version": empty, "plan": first}
        self.logs = [[] for _ in range(n)]
        self.requests = []
        self.clients = [{"on": False, "kept": 0, "known": [], "chain": [], "bid": None} for _ in range(c)]

    def plan_after(self, chain):
        return [e["plan"] for e in [self.genesis] + chain if e["plan"] is not None][-1]

    def last(self, chain):
        return ([self.genesis] + chain)[-1]

    def placed(self, p, version):
        todo, seen = [(version, "version")], set()
        while todo:
            wanted = todo.pop()
            if wanted in seen:
                continue
            seen.add(wanted)
            puts = [(s, e[3]) for s in range(self.n) for e in self.logs[s] if e[0] == "put" and e[1] == p["generation"] and e[2] == wanted[0]]
            if not puts or len({s for s, _ in puts} & set(p["services"])) < p["replicas"]:
                return False
            read = children(puts[0][1], p["format"])
            if read is None or read[0] != wanted[1]:
                return False
            todo += read[1]
        return True

    @staticmethod
    def counted(log, position):
        """The records at a position that count, in order, with their places among the records."""
        top, out = (0, -1), []
        for e in log:
            if e[0] == "rec" and e[1]["position"] == position:
                if e[1]["ballot"] >= top:
                    top = e[1]["ballot"]
                    out.append(e[1])
        return out

    def chosen(self, logs, chain):
        """The entry that most voters have taken under one ballot behind that chain, or None."""
        votes, voters = {}, self.voters(chain)
        for s in voters:
            for record in self.counted(logs[s], len(chain) + 1):
                if record["entry"] is not None:
                    votes.setdefault((record["ballot"], entry_text(record["entry"])), (record["entry"], set()))[1].add(s)
        for entry, services in votes.values():
            if 2 * len(services) > len(voters):
                return entry
        return None

    def voters(self, chain):
        """Who votes behind that chain: the services of the plan in force at its end."""
        return self.plan_after(chain)["services"]

    def links(self, chain, entry):
        if entry["before"] != entry_name(self.last(chain)):
            return False
        p, now = entry["plan"], self.plan_after(chain)
        return p is None or (max(p["services"]) < self.n and p["generation"] >= now["generation"] and p["format"] >= now["format"])

    def chain(self):
        chain = []
        while True:
            entry = self.chosen(self.logs, chain)
            if entry is None or not self.links(chain, entry):
                return chain
            chain.append(entry)

    def up(self, client):
        if client >= self.c:
            raise Refused("client")
        if not self.clients[client]["on"]:
            raise Refused("off")
        return self.clients[client]

    def send(self, client, record):
        self.requests += [(s, record) for s in self.voters(client["chain"])]

    def bid(self, who, client, round_, want):
        position = len(client["chain"]) + 1
        client["kept"] = round_
        client["bid"] = {"position": position, "round": round_, "want": want, "offered": False}
        self.send(client, {"position": position, "ballot": (round_, who), "entry": None})

    def may_bid(self, client, round_):
        if len(client["chain"]) + 1 > LAST:
            raise Refused("position")
        if not client["kept"] < round_ <= LAST:
            raise Refused("round")

    def step(self, event):
        getattr(self, "do_" + event[0])(*event[1:])

    def do_start(self, who):
        if who >= self.c:
            raise Refused("client")
        client = self.clients[who]
        if client["on"]:
            raise Refused("on")
        client.update(on=True, known=[0] * self.n, chain=[], bid=None)

    def do_stop(self, who):
        self.up(who)["on"] = False

    def do_bid(self, who, round_, push):
        client = self.up(who)
        self.may_bid(client, round_)
        want = None
        if push is not None:
            if not self.placed(self.plan_after(client["chain"]), push[1]):
                raise Refused("placed")
            want = {"before": entry_name(self.last(client["chain"])), "client": who, "number": push[0], "version": push[1], "plan": None}
        self.bid(who, client, round_, want)

    def do_turn(self, who, round_, count, p):
        client = self.up(who)
        self.may_bid(client, round_)
        now = self.plan_after(client["chain"])
        p = {**p, "format": now["format"]}
        if max(p["services"]) >= self.n or p["generation"] < now["generation"]:
            raise Refused("plan")
        self.bid_plan(who, round_, count, p, self.last(client["chain"])["version"])

    def do_migrate(self, who, round_, count, version):
        client = self.up(who)
        self.may_bid(client, round_)
        now = self.plan_after(client["chain"])
        if now["format"] != 1:
            raise Refused("plan")
        self.bid_plan(who, round_, count, {**now, "format": 2}, version)

    def bid_plan(self, who, round_, count, p, version):
        client = self.clients[who]
        if not self.placed(p, version):
            raise Refused("placed")
        before = entry_name(self.last(client["chain"]))
        self.bid(who, client, round_, {"before": before, "client": who, "number": count, "version": version, "plan": p})

    def do_deliver(self, request):
        if request >= len(self.requests):
            raise Refused("request")
        service, record = self.requests[request]
        self.logs[service].append(("rec", record))

    def do_read(self, who, service, upto):
        client = self.up(who)
        if service >= self.n:
            raise Refused("service")
        if not client["known"][service] <= upto <= len(self.logs[service]):
            raise Refused("prefix")
        client["known"][service] = upto

    def known_logs(self, client):
        return [log[:k] for log, k in zip(self.logs, client["known"])]

    def do_offer(self, who):
        client = self.up(who)
        bid = client["bid"]
        if bid is None or bid["offered"]:
            raise Refused("bid")
        ballot, bests, promised = (bid["round"], who), [], 0
        logs, voters = self.known_logs(client), self.voters(client["chain"])
        for s in voters:
            best = None
            for record in self.counted(logs[s], bid["position"]):
                if record["entry"] is not None:
                    best = (record["ballot"], record["entry"])
                elif record["ballot"] == ballot:
                    promised += 1
                    if best is not None:
                        bests.append(best)
                    break
        if 2 * promised <= len(voters):
            raise Refused("promises")
        entry = max(bests, key=lambda b: b[0])[1] if bests else bid["want"]
        if entry is None:
            raise Refused("nothing")
        bid["offered"] = True
        self.send(client, {"position": bid["position"], "ballot": ballot, "entry": entry})

    def do_learn(self, who):
        client = self.up(who)
        entry = self.chosen(self.known_logs(client), client["chain"])
        if entry is None or not self.links(client["chain"], entry):
            raise Refused("chosen")
        client["chain"].append(entry)
        client["bid"] = None

    def do_place(self, service, generation, text):
        if service >= self.n:
            raise Refused("service")
        floor = max([e[1] for e in self.logs[service] if e[0] == "drop"], default=0)
        if not max(1, floor) <= generation <= LAST:
            raise Refused("generation")
        self.logs[service].append(("put", generation, sha(text), text))

    def do_drop(self, service, floor):
        if service >= self.n:
            raise Refused("service")
        if floor > 1 and floor > self.plan_after(self.chain())["generation"]:
            raise Refused("turned")
        self.logs[service].append(("drop", floor))

    def report(self):
        out = ["0 %s" % entry_name(self.genesis).hex()]
        chain = self.chain()
        for k, e in enumerate(chain, 1):
            kind = "push" if e["plan"] is None else "plan"
            line = "%d %s %s %d %d %s" % (k, entry_name(e).hex(), kind, e["client"], e["number"], e["version"].hex())
            out.append(line + ("" if e["plan"] is None else " %d" % e["plan"]["generation"]))
        out.append("end %d" % len(chain))
        out += ["client %d knows %d" % (i, len(c["chain"])) for i, c in enumerate(self.clients)]
        return "".join(line + "\n" for line in out)


def drill(text):
    """What is printed, and the status."""
    read = parse(text)
    if read[0] == "bad":
        return "bad input %d\n" % read[1], 2
    if read[0] == "limit":
        return "limit events %d\n" % read[1], 11
    world = World(*read[1:5])
    for at, event in enumerate(read[5], 1):
        try:
            world.step(event)
        except Refused as refused:
            return "event %d %s\n" % (at, refused), 16
    return world.report(), 0


if __name__ == "__main__":
    with open(sys.argv[1], "rb") as f:
        lines, status = drill(f.read())
    sys.stdout.write(lines)
    sys.exit(status)
