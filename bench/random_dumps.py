"""Small random dumps, some of them faulty: `dump(rng)` is the text of one."""
import hashlib
import struct

GENESIS = bytes(32)


def entry(rng, before):
    client, number, version = rng.randrange(2), rng.randrange(3), bytes([rng.randrange(2)]) * 32
    body = before + struct.pack(">II", client, number) + version
    if rng.random() < 0.7:
        return b"U" + body
    services = sorted(rng.sample(range(5), rng.randint(1, 3)))
    rows = b"".join(struct.pack(">IQ", s, 1000 * rng.randint(1, 16)) for s in services)
    plan = struct.pack(">IIIQI", rng.randint(1, 3), rng.choice([1, 1, 1, 2, 2, 3]), rng.randint(1, len(services)), 1000, len(services)) + rows
    return b"L" + body + plan


def record(rng, known):
    head = struct.pack(">III", rng.randint(1, 4), rng.randint(1, 4), rng.randrange(3))
    if rng.random() < 0.35:
        return b"P" + head
    if rng.random() < 0.4 or len(known) == 1:
        known.append(entry(rng, hashlib.sha256(rng.choice(known)).digest() if rng.random() < 0.7 and len(known) > 1 else GENESIS))
    return b"A" + head + rng.choice(known[1:])


def mangled(rng, text):
    text = bytearray(text)
    for _ in range(rng.choice([0, 0, 0, 0, 1, 1, 2])):
        at = rng.randrange(len(text))
        kind = rng.random()
        if kind < 0.4:
            text[at] = rng.randrange(256)
        elif kind < 0.7:
            del text[at]
            if not text:
                text = bytearray(b"P")
        else:
            text.insert(at, rng.randrange(256))
    return bytes(text)


def dump(rng):
    services = rng.choice([1, 1, 2, 3, 3, 4, 5])
    known = [b""]
    lines = ["metasync-dump 1 %d %s" % (services, GENESIS.hex())]
    for _ in range(rng.choice([2, 6, 12, 30])):
        message = record(rng, known)
        for service in range(services):
            for _ in range(rng.choice([0, 1, 1, 1, 2])):
                text = message if rng.random() < 0.9 else mangled(rng, message)
                lines.append("%d %s" % (service, text.hex() or "-"))
    if rng.random() < 0.3:
        body = lines[1:]
        rng.shuffle(body)
        lines[1:] = body
    text = "\n".join(lines).encode() + rng.choice([b"\n", b""])
    if rng.random() < 0.15:
        text = mangled(rng, text)
    return text
