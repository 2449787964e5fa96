#!/usr/bin/env python3
"""The order of a plan's services for an object, computed on its own.

    mapping_reference.py SLOT UNIT SERVICE:CAPACITY ..
    mapping_reference.py NAME UNIT SERVICE:CAPACITY ..

SLOT is a number below 1,024, NAME the 64 hexadecimal digits of an object's name. Prints the services in order; with
--keys each copy's key, service and copy too.
"""
import hashlib
import sys


def slot_of(name):
    return int(name[:4], 16) % 1024


def sorted_copies(slot, unit, rows):
    copies = [(service, copy) for service, capacity in rows for copy in range(capacity // unit)]
    return sorted((hashlib.md5(b"%d/%d/%d" % (slot, service, copy)).digest(), service, copy) for service, copy in copies)


def order(slot, unit, rows):
    return list(dict.fromkeys(service for _, service, _ in sorted_copies(slot, unit, rows)))


def main(words):
    show_keys = "--keys" in words
    place, unit, *rows = [word for word in words if word != "--keys"]
    slot = slot_of(place) if len(place) == 64 else int(place)
    rows = [tuple(int(part) for part in row.split(":")) for row in rows]
    if show_keys:
        for key, service, copy in sorted_copies(slot, int(unit), rows):
            print(key.hex(), f"{slot}/{service}/{copy}")
    print(*order(slot, int(unit), rows))


if __name__ == "__main__":
    main(sys.argv[1:])
