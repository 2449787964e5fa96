#!/usr/bin/env python3
"""The root of the tree of some files, by docs/FORMATS.md alone: no line of this repository's code is used.

usage: python3 tree_root.py LISTING

LISTING is a file of lines `HEX HEX` or `HEX -`, a path's bytes and its file's. Prints how many files there are,
how many different objects their tree has, and the SHA-256 of the root directory.
"""
import hashlib
import sys

BLOB = 65536


def read_listing(name):
    files = {}
    for line in open(name):
        path, text = line.split()
        files[bytes.fromhex(path)] = b"" if text == "-" else bytes.fromhex(text)
    return files


def keep(objects, text):
    name = hashlib.sha256(text).digest()
    objects[name] = text
    return name


def file_object(objects, text):
    blobs = [keep(objects, b"B" + text[at : at + BLOB]) for at in range(0, len(text), BLOB)]
    return keep(objects, b"F" + len(text).to_bytes(8, "big") + len(blobs).to_bytes(4, "big") + b"".join(blobs))


def directory_object(objects, tree):
    rows = []
    for label in sorted(tree):
        inner = isinstance(tree[label], dict)
        name = (directory_object if inner else file_object)(objects, tree[label])
        rows.append((b"d" if inner else b"f") + len(label).to_bytes(1, "big") + label + name)
    return keep(objects, b"D" + len(rows).to_bytes(4, "big") + b"".join(rows))


def tree_of(files):
    tree = {}
    for path, text in files.items():
        *directories, last = path.split(b"/")
        inner = tree
        for part in directories:
            inner = inner.setdefault(part, {})
        inner[last] = text
    return tree


def main():
    files = read_listing(sys.argv[1])
    objects = {}
    root = directory_object(objects, tree_of(files))
    print("files", len(files))
    print("objects", len(objects))
    print("root", root.hex())


main()
