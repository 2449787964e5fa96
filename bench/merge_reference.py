#!/usr/bin/env python3
"""The merge of base, ours and theirs with a tag, by docs/PROTOCOL.md alone: no line of this repository's code is used.

usage: python3 merge_reference.py BASE OURS THEIRS TAG    the merge of three listings (docs/FORMATS.md, listing), as a listing
       python3 merge_reference.py --laws COUNT            random maps: that the merge keeps the directory rule and loses no change
"""
import random
import sys


def read_listing(name):
    files = {}
    for line in open(name):
        path, text = line.split()
        files[bytes.fromhex(path)] = b"" if text == "-" else bytes.fromhex(text)
    return files


def directories(path):
    return [path[:at] for at in range(len(path)) if path[at : at + 1] == b"/"]


def tagged_name(path, tag, taken):
    number = 1
    while True:
        name = path + b"." + tag + (b"" if number == 1 else b".%d" % number)
        if name not in taken:
            taken.add(name)
            return name
        number += 1


def merge(base, ours, theirs, tag):
    paths = set(base) | set(ours) | set(theirs)
    taken = paths | {directory for path in paths for directory in directories(path)}
    result, conflicts = {}, []
    for path in sorted(paths):
        b, o, t = base.get(path), ours.get(path), theirs.get(path)
        if o == t:
            side = o
        elif o == b:
            side = t
        elif t == b:
            side = o
        elif o is None or t is None:
            side = o if t is None else t
        else:
            side = t
            conflicts.append(path)
        if side is not None:
            result[path] = side
    names = []
    for path in conflicts:
        name = tagged_name(path, tag, taken)
        names.append(name)
        result[name] = ours[path]
    above = {directory for path in result for directory in directories(path)}
    for path in sorted(set(result) & above):
        name = tagged_name(path, tag, taken)
        names.append(name)
        result[name] = result.pop(path)
    return result, names


def keeps_rule(files):
    return not any(directory in files for path in files for directory in directories(path))


def is_name_of(path, tag, name):
    rest = name[len(path) + 1 + len(tag) :]
    return name.startswith(path + b"." + tag) and (rest == b"" or (rest[:1] == b"." and rest[1:].isdigit()))


def loses_nothing(base, side, result, tag):
    for path, text in side.items():
        if base.get(path) != text and result.get(path) != text:
            if not any(kept == text and is_name_of(path, tag, name) for name, kept in result.items()):
                return False
    return True


def random_files(chance, tag):
    parts = [b"a", b"b", b"a." + tag, b"a." + tag + b".2", b"a-", b"b." + tag, b"a." + tag + b"." + tag]
    files = {}
    for _ in range(chance.randrange(7)):
        path = b"/".join(chance.choice(parts) for _ in range(chance.choice([1, 1, 1, 2, 2, 3])))
        if path not in files and keeps_rule({**files, path: b""}):
            files[path] = chance.choice([b"1", b"2", b"3"])
    return files


def laws(count):
    chance = random.Random(2026)
    for _ in range(count):
        tag = chance.choice([b"ann", b"2", b"2"])
        base = random_files(chance, tag)
        ours = {**base} if chance.random() < 0.3 else random_files(chance, tag)
        theirs = {**base} if chance.random() < 0.1 else random_files(chance, tag)
        result, _ = merge(base, ours, theirs, tag)
        case = (base, ours, theirs, tag, result)
        assert keeps_rule(result), case
        assert loses_nothing(base, ours, result, tag) and loses_nothing(base, theirs, result, tag), case
    print("merges", count)


def main():
    if sys.argv[1] == "--laws":
        return laws(int(sys.argv[2]))
    base, ours, theirs = (read_listing(name) for name in sys.argv[1:4])
    result, _ = merge(base, ours, theirs, sys.argv[4].encode())
    for path in sorted(result):
        print(path.hex(), result[path].hex() or "-")


if __name__ == "__main__":
    main()
