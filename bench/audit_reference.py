#!/usr/bin/env python3
"""An independent `audit`: reads a dump and prints what `metasync audit` is to print, and ends with its status.

It shares no code with the program. It follows docs/FORMATS.md and docs/PROTOCOL.md literally: use it to find the expected
lines of an example, or through `bench/program_tests.py` on many random dumps.
"""
import hashlib
import struct
import sys

LAST = 4294967294


class BadLine(Exception):
    pass


def lines_of(text):
    pieces = text.split(b"\n")
    if pieces[-1] == b"":
        pieces.pop()
    return pieces


def number(word, most):
    if not word or not all(48 <= b <= 57 for b in word) or (word[0] == 48 and len(word) > 1):
        raise BadLine
    value = int(word)
    if value > most:
        raise BadLine
    return value


def digits(word):
    if len(word) < 2 or len(word) % 2 or any(b not in b"0123456789abcdefABCDEF" for b in word):
        raise BadLine
    return bytes.fromhex(word.decode())


def read_dump(text):
    """(services, genesis, lists), or the number of the first wrong line."""
    lines = lines_of(text)
    if not lines:
        return 1
    try:
        words = lines[0].split(b" ")
        if len(words) != 4 or words[0] != b"metasync-dump" or words[1] != b"1" or len(words[3]) != 64:
            raise BadLine
        services = number(words[2], 16)
        genesis = digits(words[3])
        if services == 0:
            raise BadLine
    except BadLine:
        return 1
    lists = [[] for _ in range(services)]
    for at, line in enumerate(lines[1:], 2):
        try:
            words = line.split(b" ")
            if len(words) != 2:
                raise BadLine
            service = number(words[0], services - 1)
            lists[service].append(b"" if words[1] == b"-" else digits(words[1]))
        except BadLine:
            return at
    return services, genesis, lists


def parse_plan(text):
    if len(text) < 24:
        return None
    generation, format_, replicas, unit, count = struct.unpack(">IIIQI", text[:24])
    if len(text) != 24 + 12 * count:
        return None
    rows = [struct.unpack(">IQ", text[24 + 12 * i : 36 + 12 * i]) for i in range(count)]
    good = (
        1 <= generation <= LAST
        and format_ in (1, 2)
        and unit >= 1
        and 1 <= count <= 16
        and 1 <= replicas <= count
        and all(s < 16 and 1 <= c // unit <= 16 for s, c in rows)
        and all(a[0] < b[0] for a, b in zip(rows, rows[1:]))
    )
    return {"generation": generation, "format": format_, "rows": rows} if good else None


def parse_entry(text):
    if len(text) < 73:
        return None
    before, client, number_, version = text[1:33], *struct.unpack(">II", text[33:41]), text[41:73]
    plan = None
    if text[:1] == b"U":
        if len(text) != 73:
            return None
    elif text[:1] == b"L":
        plan = parse_plan(text[73:])
        if plan is None:
            return None
    else:
        return None
    if client > 15:
        return None
    return {"bytes": text, "before": before, "client": client, "number": number_, "version": version, "plan": plan}


def parse_record(text):
    """(position, ballot, entry or None), or None."""
    if len(text) < 13 or text[:1] not in (b"P", b"A"):
        return None
    position, round_, client = struct.unpack(">III", text[1:13])
    if not (1 <= position <= LAST and 1 <= round_ <= LAST and client <= 15):
        return None
    if text[:1] == b"P":
        return (position, (round_, client), None) if len(text) == 13 else None
    entry = parse_entry(text[13:])
    return None if entry is None else (position, (round_, client), entry)


def taken_accepts(votes):
    """The Accepts that are taken of the records of one service at one position, each with its ballot."""
    taken, top = [], None
    for ballot, entry in votes:
        if top is not None and ballot < top:
            continue
        top = ballot
        if entry is not None:
            taken.append((ballot, entry["bytes"]))
    return taken


def chosen_at(lists, position, voters):
    """The chosen entries in order of ballot, then bytes, each with its ballot: those that most of the voters have taken."""
    holders = {}
    for service in voters:
        for vote in taken_accepts(lists[service].get(position, [])):
            holders.setdefault(vote, set()).add(service)
    return sorted(vote for vote, services in holders.items() if 2 * len(services) > len(voters))


def by_position(texts):
    """The records of a vote list by their positions, in order. Entries that are no record are skipped."""
    found = {}
    for text in texts:
        record = parse_record(text)
        if record is not None:
            found.setdefault(record[0], []).append(record[1:])
    return found


def goes_on(plan, generation, format_, services):
    """Whether a plan may follow one of that generation and format."""
    known = all(service < services for service, _ in plan["rows"])
    return known and plan["generation"] >= generation and plan["format"] >= format_


def name(entry):
    return hashlib.sha256(entry).hexdigest()


def audit(text):
    read = read_dump(text)
    if isinstance(read, int):
        return "bad input %d\n" % read, 2
    services, genesis, texts = read
    lists = [by_position(entries) for entries in texts]
    out, before, generation, format_, voters, position = ["0 " + genesis.hex()], genesis, 1, 1, range(services), 1
    while True:
        entries = [entry for _, entry in chosen_at(lists, position, voters)]
        others = [entry for entry in entries if entry != entries[0]]
        if others:
            return "split %d %s %s\n" % (position, name(entries[0]), name(others[0])), 10
        if not entries:
            break
        entry = parse_entry(entries[0])
        plan = entry["plan"]
        if entry["before"] != before:
            break
        if plan is not None:
            if not goes_on(plan, generation, format_, services):
                break
            generation, format_, voters = plan["generation"], plan["format"], [service for service, _ in plan["rows"]]
        kind = "push" if plan is None else "plan"
        line = "%d %s %s %d %d %s" % (position, name(entry["bytes"]), kind, entry["client"], entry["number"], entry["version"].hex())
        out.append(line if plan is None else line + " %d" % plan["generation"])
        before = hashlib.sha256(entry["bytes"]).digest()
        position += 1
    out.append("end %d" % (position - 1))
    return "\n".join(out) + "\n", 0


def main():
    with open(sys.argv[1], "rb") as file:
        text = file.read()
    said, status = ("limit input 16777217\n", 11) if len(text) > 16777216 else audit(text)
    sys.stdout.write(said)
    sys.exit(status)


if __name__ == "__main__":
    main()
