"""Random schedules, some of them faulty: `schedule(rng)` is the text of one.

It is built along a world of the reference, so that most events can happen; one that cannot ends some of them.
"""
import struct

from drill_reference import Refused, World, parse_event, sha

EMPTY = b"D\0\0\0\0"


def tree_of(format_, rng, number):
    """The texts of a tree of one file with one blob, or of an empty one, and of its version, which is the last."""
    tags, size = (b"BFDV", b"") if format_ == 1 else (b"CGEW", struct.pack(">Q", 1))
    if rng.random() < 0.1:
        tags = bytes(rng.choice(pair) for pair in zip(b"BFDV", b"CGEW"))
    blob = tags[:1] + bytes([number])
    file_ = tags[1:2] + struct.pack(">QI", 1, 1) + sha(blob)
    empty = tags[2:3] + bytes(4)
    tree = tags[2:3] + struct.pack(">I", 1) + b"f\1a" + size + sha(file_)
    root = empty if rng.random() < 0.5 else tree
    version = tags[3:] + struct.pack(">IIB", 0, number, 0) + sha(root)
    return [blob, file_, empty, tree, version]


def versions(rng):
    """Objects of small trees of both formats: their texts, and the names of their versions."""
    texts, names = [EMPTY], []
    for number in range(3):
        for format_ in (1, 1, 2):
            texts += tree_of(format_, rng, number)
            names.append(sha(texts[-1]))
    empty = b"V" + struct.pack(">IIB", 0, 0, 0) + sha(EMPTY)
    return list(dict.fromkeys(texts + [empty])), names


def draw(rng, world, texts, names):
    client, service = rng.randrange(world.c), rng.randrange(world.n)
    c = world.clients[client]
    kind = rng.random()
    if not c["on"]:
        return "start %d" % client
    if kind < 0.25 and world.requests:
        fresh = max(0, len(world.requests) - 3 * world.n)
        return "deliver %d" % rng.randrange(fresh if rng.random() < 0.8 else 0, len(world.requests))
    if kind < 0.5:
        known, length = c["known"][service], len(world.logs[service])
        return "read %d %d %d" % (client, service, length if rng.random() < 0.8 else rng.randint(known, length))
    if kind < 0.62:
        return "offer %d" % client
    if kind < 0.72:
        return "learn %d" % client
    if kind < 0.82:
        round_ = c["kept"] + rng.choice([1, 1, 2, 3])
        if rng.random() < 0.3:
            return "bid %d %d -" % (client, round_)
        return "bid %d %d %d %s" % (client, round_, rng.randrange(5), rng.choice(names).hex())
    if kind < 0.84:
        return "migrate %d %d %d %s" % (client, c["kept"] + 1, rng.randrange(5), rng.choice(names).hex())
    if kind < 0.88:
        services = sorted(rng.sample(range(world.n), rng.randint(1, world.n)))
        generation = world.plan_after(c["chain"])["generation"] + rng.choice([0, 0, 1])
        words = client, c["kept"] + 1, rng.randrange(5), generation, rng.randint(1, len(services)), ",".join(map(str, services))
        return "turn %d %d %d %d %d %s" % words
    if kind < 0.96:
        return "place %d %d %s" % (service, rng.choice([1, 1, 1, 2, 2, 3]), rng.choice(texts).hex())
    if kind < 0.98:
        return "drop %d %d" % (service, rng.choice([0, 1, 2, 2, 3]))
    return "stop %d" % client


def want(rng, world, client, names):
    """The line of a bid of that client."""
    c = world.clients[client]
    kind, round_ = rng.random(), c["kept"] + rng.choice([1, 1, 2])
    plan = world.plan_after(c["chain"])
    if kind < 0.15:
        return "bid %d %d -" % (client, round_)
    if kind < 0.3:
        return "migrate %d %d %d %s" % (client, round_, rng.randrange(5), rng.choice(names).hex())
    if kind < 0.5:
        services = sorted(rng.sample(range(world.n), rng.randint(1, world.n)))
        words = client, round_, rng.randrange(5), plan["generation"] + rng.choice([0, 0, 1]), rng.randint(1, len(services)), ",".join(map(str, services))
        return "turn %d %d %d %d %d %s" % words
    return "bid %d %d %d %s" % (client, round_, rng.randrange(5), rng.choice(names).hex())


def passes(rng, world, names):
    """The lines of a pass: a client reads and learns, bids, offers and learns, and some requests are lost on the way."""
    client, luck = rng.randrange(world.c), rng.choice([1, 1, 0.8, 0.5])
    yield "start %d" % client
    for ask in (None, want(rng, world, client, names), "offer %d" % client):
        first = len(world.requests)
        if ask is not None:
            yield ask
        for at in range(first, len(world.requests)):
            if rng.random() < luck:
                yield "deliver %d" % at
        for service in range(world.n):
            if rng.random() < luck:
                yield "read %d %d %d" % (client, service, len(world.logs[service]))
        if ask is None or ask.startswith("offer"):
            yield "learn %d" % client
            yield "learn %d" % client


def lines_of(rng, world, texts, names):
    """One event, or the lines of a pass."""
    if rng.random() < 0.7:
        yield draw(rng, world, texts, names)
    else:
        yield from passes(rng, world, names)


def schedule(rng):
    n, c = rng.randint(1, 4), rng.randint(1, 3)
    head = "metasync-drill 1 %d %d %d" % (n, c, rng.randint(1, n))
    world = World(head.encode(), n, c, int(head.split()[-1]))
    texts, names = versions(rng)
    lines = [head]
    if rng.random() < 0.8:
        for service in range(n):
            for text in texts:
                for generation in (1, 2):
                    if rng.random() < 0.8:
                        lines.append("place %d %d %s" % (service, generation, text.hex()))
    for line in lines[1:]:
        world.step(parse_event(line.encode()))
    end = len(lines) + rng.randint(1, 300)
    while len(lines) < end:
        for line in lines_of(rng, world, texts, names):
            try:
                world.step(parse_event(line.encode()))
                lines.append(line)
            except Refused:
                if rng.random() < 0.005:
                    lines.append(line)
                    end = 0
                    break
    if rng.random() < 0.05:
        lines.append(rng.choice(["", "start", "offer 0 ", "read 0 0", "turn 0 1 1 1 1 0,0", "place 0 1 -", "bid 0 1 -1 -", "migrate 0 1 0 -"]))
    return "".join(line + "\n" for line in lines).encode()
