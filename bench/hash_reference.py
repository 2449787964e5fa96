#!/usr/bin/env python3
"""An independent `hash`, by docs/FORMATS.md alone: no line of this repository's code is used.

usage: bench/hash_reference.py FILE
Prints what `metasync hash` has to print, and ends with its status. `edges()` are listings made by hand, each with a title, and
`random_listing(rng)` is a small random one.
"""
import hashlib
import itertools
import sys

MOST_INPUT, MOST_PATH, MOST_PART, MOST_LEVELS = 16777216, 1024, 200, 64
MOST_FILE, MOST_FILES, MOST_TOTAL = 67108864, 100000, 1073741824
BLOB = 65536
DIGITS = frozenset(b"0123456789abcdefABCDEF")


class Refused(Exception):
    """The line that is printed, and the status."""


def wrong(line):
    raise Refused("bad input %d\n" % line, 2)


def check(word, value, most):
    if value > most:
        raise Refused("limit %s %d\n" % (word, value), 11)


# The listing.


def lines_of(text):
    pieces = text.split(b"\n")
    return pieces[:-1] if pieces[-1] == b"" else pieces


def hex_of(word):
    """The bytes of a word of digits, or None."""
    if len(word) < 2 or len(word) % 2 or not DIGITS.issuperset(word):
        return None
    return bytes.fromhex(word.decode("ascii"))


def row_of(line):
    """A path's bytes and its file's, or None."""
    words = line.split(b" ")
    if len(words) != 2:
        return None
    path, text = hex_of(words[0]), b"" if words[1] == b"-" else hex_of(words[1])
    return None if path is None or text is None else (path, text)


def is_path(path):
    try:
        path.decode("utf-8")
    except UnicodeDecodeError:
        return False
    return b"\0" not in path and not any(part in (b"", b".", b"..") for part in path.split(b"/"))


def directories_of(path):
    return [path[:at] for at, byte in enumerate(path) if byte == ord("/")]


class Files:
    def __init__(self):
        self.texts, self.directories, self.total = {}, set(), 0

    def add(self, number, line):
        """Adds the file of a line, judged by the rules in their order."""
        row = row_of(line)
        if row is None:
            wrong(number)
        path, text = row
        if not is_path(path):
            wrong(number)
        if path in self.texts:
            wrong(number)
        parts = path.split(b"/")
        check("path", len(path), MOST_PATH)
        for part in parts:
            check("part", len(part), MOST_PART)
        check("levels", len(parts), MOST_LEVELS)
        check("file", len(text), MOST_FILE)
        check("files", len(self.texts) + 1, MOST_FILES)
        check("total", self.total + len(text), MOST_TOTAL)
        above = directories_of(path)
        if path in self.directories or any(directory in self.texts for directory in above):
            wrong(number)
        self.texts[path] = text
        self.directories.update(above)
        self.total += len(text)


# The objects.


def name_of(objects, text):
    name = hashlib.sha256(text).digest()
    objects[name] = len(text)
    return name


def file_name(objects, text):
    blobs = [name_of(objects, b"B" + text[at : at + BLOB]) for at in range(0, len(text), BLOB)]
    return name_of(objects, b"F" + len(text).to_bytes(8, "big") + len(blobs).to_bytes(4, "big") + b"".join(blobs))


def directory_name(objects, files):
    """The name of the directory of these files, whose paths are lists of parts."""
    below = {}
    for parts, text in files:
        below.setdefault(parts[0], []).append((parts[1:], text))
    rows = [b"D", len(below).to_bytes(4, "big")]
    for label in sorted(below):
        inner = below[label]
        alone = len(inner) == 1 and inner[0][0] == []
        name = file_name(objects, inner[0][1]) if alone else directory_name(objects, inner)
        rows += [b"f" if alone else b"d", bytes([len(label)]), label, name]
    return name_of(objects, b"".join(rows))


def hash_listing(text):
    """The lines and the status of `hash` of a text; None for a text that can't be read."""
    try:
        if text is None:
            raise Refused("fault input\n", 3)
        check("input", min(len(text), MOST_INPUT + 1), MOST_INPUT)
        files = Files()
        for number, line in enumerate(lines_of(text), 1):
            files.add(number, line)
    except Refused as refused:
        return refused.args
    objects = {}
    root = directory_name(objects, [(path.split(b"/"), text) for path, text in files.texts.items()])
    return "files %d\nobjects %d\nroot %s\n" % (len(files.texts), len(objects), root.hex()), 0


# The edges.


def line(path, text=b""):
    path = path.encode() if isinstance(path, str) else path
    return b"%s %s" % (path.hex().encode(), text.hex().encode() or b"-")


def listing(*lines, end=b"\n"):
    return b"\n".join(lines) + end


def pattern(length):
    return (bytes(range(251)) * (length // 251 + 1))[:length]


def form_edges():
    yield "empty text", b""
    for text in ["\n", "\n\n", "61 62", "61 62\n", "61 62\n\n", "\n61 62\n", "61 62\n\n62 63\n", "61 -", "61 -\r\n", "61 -\r", "61\r -",
                 "\r\n", "61", "61 ", " 61 62", "61 62 ", "61  62", "61  -", "61 62 63", "61\t62", "61 62\t", "6 62", "61 6", "616 62",
                 "61 626", "6g 62", "61 6g", "- 62", "- -", "61 --", "61 -1", "61 +1", "0x61 62", "61 0x62", "61 \n", " \n", "6A 6a",
                 "6B 62\n6b 62", "C3A9 FF", "c3A9 fF\nC3a9 Ff", "61 62\n61 62", "61 62\n61 63", "61 62\n61 -", "61 62\n61 6", "61 62\n6",
                 "61 62\0", "61\0 62", "61 62\f", "\ufeff61 62", "61 \u0662", "\u0666\u0661 62", "61 \uff16\uff12", "61\u00a062",
                 "61 62\u2028 62 63", "61 62\v62 63\n", "61 62\x1c62 63\n", "61 62\x85"]:
        yield "form %r" % text, text.encode()
    yield "form of bytes above 127", b"61 6\xff\n"


def path_edges():
    good = ["a", "a/b", "...", "a/...", ".a", "a.", "..a", "a..", ". ", " ", "a b", "-", "~", "a\nb", "a\rb", "a\\b", "\x01", "\x7f", "é", "é/ü",
            "\u20ac", "\U00010348", "\U0010ffff", "\ufffd", "\ud7ff", "\ue000", "\x80", "\u0800", "a:b", "*", "\u202e"]
    bad = [b"/", b"//", b"/a", b"a/", b"a//b", b".", b"..", b"./a", b"../a", b"a/.", b"a/..", b"a/./b", b"a/../b", b"\0", b"a\0", b"\0a", b"a/\0/b",
           b"\xff", b"\x80", b"a\xc3", b"\xc3/\xa9", b"\xc0\x80", b"\xc0\xaf", b"\xe0\x80\xaf", b"\xed\xa0\x80", b"\xed\xbf\xbf", b"\xf4\x90\x80\x80",
           b"\xf8\x88\x80\x80\x80", b"\xe2\x82", b"\xf0\x9f\x98", b"a/\xff", b"\xff/a", b"\xf5\x80\x80\x80", b"\xc1\xbf", b"\xf0\x80\x80\x80"]
    for path in [path.encode() for path in good] + bad:
        yield "path %r" % path, listing(line(path, b"x"))
        yield "path %r after a" % path, listing(line("q", b"x"), line(path, b"y"), line("z/" * 3 + "z"))


def clash_edges():
    for lines in [["a", "a/b"], ["a/b", "a"], ["a/b", "a/b/c"], ["a/b/c", "a/b"], ["a/b/c", "a"], ["a", "a/b/c"], ["a", "b", "a"],
                  ["a/b", "a/c"], ["a/b", "a/b"], ["a/b", "a!"], ["a!", "a/b"], ["a", "a!/b"], ["a0/b", "a"], ["a/b/c", "a/b0"], ["a/b!", "a/b/c"],
                  ["a-b", "a", "a.b", "a0"], ["a-b/c", "a", "a.b/c", "a0/c"], ["aa/b", "a/b"], ["ab", "a/b"], ["a/b", "ab"], ["b", "a/b/b"],
                  ["a!", "a!b", "a/x", "a"], ["a", "a!", "a!b", "a/x"], ["a/x", "a\x01", "a", "a\x01/y"], ["a/a/a", "a/a!/a", "a/a"],
                  ["a!", "a-", "a.", "a,", "a/b/c", "a/b", "a"]]:
        yield "clash %r" % lines, listing(*[line(path, path.encode()) for path in lines])


def order_edges():
    for paths in itertools.permutations(["a!", "a/x", "a.txt", "a0"]):
        yield "order %r" % (paths,), listing(*[line(path, path.encode()) for path in paths])
    for paths in itertools.permutations(["a/b", "a!/b", "a\x01", "a/c!", "a/c/d"]):
        yield "order %r" % (paths,), listing(*[line(path, b"same") for path in paths])
    yield "order by bytes, not by letters", listing(*[line(path) for path in ["Z", "a", "é", "z", "\ue000", "\U00010000", "\x7f", "\x80"]])


def limit_edges():
    def parts(count, length=1):
        return "/".join("x" * length for _ in range(count))

    def long(length):
        """A path of so many bytes, in parts of at most 200."""
        whole = ("y" * 100 + "/") * 20
        return whole[:length] if whole[length - 1] != "/" else whole[: length - 2] + "zz"

    clash = line("x", b"x")
    yield "64 parts", listing(line(parts(64), b"x"))
    yield "65 parts", listing(line(parts(65), b"x"))
    yield "66 parts", listing(line(parts(66), b"x"))
    yield "63 parts and 64", listing(line(parts(63) + "/y"), line(parts(63) + "/z", b"1"), line("q"))
    yield "65 parts under a file", listing(clash, line(parts(65)))
    yield "64 parts under a file", listing(clash, line(parts(64)))
    yield "65 parts, one empty", listing(line(parts(64) + "//x"))
    yield "65 parts, the last is ..", listing(line(parts(64) + "/.."))
    for length in (1023, 1024, 1025, 2000):
        yield "path of %d bytes" % length, listing(line(long(length), b"x"))
        yield "path of %d bytes under a file" % length, listing(line("y" * 100), line(long(length)))
        yield "path of %d bytes with a NUL" % length, listing(line(long(length - 1) + "\0"))
        yield "path of %d bytes with a slash at its end" % length, listing(line(long(length - 1) + "/"))
        yield "path of %d bytes in 65 parts" % length, listing(line(parts(64) + "/" + long(length - 128)))
        yield "path of %d bytes twice" % length, listing(line(long(length)), line(long(length)))
    yield "path of 1025 bytes and part of 201", listing(line("q" * 201 + "/" + long(823)))
    yield "path of 1024 bytes and part of 201", listing(line("q" * 201 + "/" + long(822)))
    yield "path of 1025 bytes in one part", listing(line("q" * 1025))
    for lengths in [(200,), (201,), (200, 200), (200, 201), (201, 200), (202, 201), (201, 202), (1, 203, 202, 204), (200, 1, 201), (1024,), (255,), (256,), (300,)]:
        path = "/".join("p" * length for length in lengths)
        yield "parts of %r bytes" % (lengths,), listing(line(path, b"x"))
        yield "parts of %r bytes under a file" % (lengths,), listing(line("p" * lengths[0]), line(path + "/q"))
    yield "part of 201 and 65 parts", listing(line(parts(64) + "/" + "q" * 201))
    yield "part of 201 bytes, 101 letters", listing(line("é" * 100 + "e"))
    yield "part of 200 bytes, 100 letters", listing(line("é" * 100))
    yield "part of 202 bytes, 101 letters", listing(line("é" * 101))
    yield "two faults, limit first", listing(line(parts(65)), b"6")
    yield "two faults, form first", listing(b"6", line(parts(65)))
    yield "a long path with a bad text", listing(line(long(1025)) + b"0")


def many(count):
    return [line("%05x" % i) for i in range(count)]


def files_edges():
    full = many(100000)
    yield "100000 files", listing(*full)
    yield "100000 files, no LF at the end", listing(*full, end=b"")
    yield "100001 files", listing(*full, line("q"))
    yield "100002 files", listing(*full, line("q"), line("r"))
    yield "100000 files and a wrong line", listing(*full, b"zz")
    yield "100000 files and a path twice", listing(*full, full[7])
    yield "100000 files and a clash", listing(*full, line("00007/q"))
    yield "100000 files and a bad path", listing(*full, line("q/.."))
    yield "100000 files and a long path", listing(*full, line("q/" * 600 + "q"))
    yield "100000 files and 65 parts", listing(*full, line("q/" * 64 + "q"))
    yield "100000 files and an empty line", listing(*full, b"")
    yield "99999 files and a clash", listing(*full[:99999], line("00007/q"))
    yield "100000 files in folders", listing(*[line("%02x/%02x/%d" % (i % 250, i // 250, i), b"%d" % (i % 7)) for i in range(100000)])


def size_edges():
    for length in (0, 1, 65535, 65536, 65537, 131071, 131072, 131073, 6 * 1024 * 1024, 6 * 1024 * 1024 + 1):
        yield "file of %d bytes" % length, listing(line("f", pattern(length)))
        yield "file of %d zero bytes" % length, listing(line("f", bytes(length)), line("g/h", bytes(length)))
    yield "three files with equal blobs", listing(line("a", pattern(65536)), line("b", pattern(65536) + b"x"), line("c", b"x"), line("d/c", b"x"), line("d/e"))
    yield "equal folders", listing(*[line("%s/%s" % (folder, file), b"x") for folder in "abc" for file in "xyz"])
    yield "a file that is the text of the folder", listing(line("a/a", b"x"), line("b", b"Bx"), line("c", bytes.fromhex("4400000000")))
    head, most = b"61 ", MOST_INPUT
    for length, end in [(most - 1, b""), (most, b"\n")]:
        yield "listing of %d bytes" % length, head + b"6" * (length - len(head) - len(end)) + end
    yield "listing of %d bytes with an odd digit" % most, head + b"6" * (most - len(head))
    yield "listing of %d bytes with an empty line" % most, head + b"6" * (most - len(head) - 3) + b"\n\n\n"
    for length in (most + 1, most + 2, 2 * most):
        yield "listing of %d bytes" % length, head + b"6" * (length - len(head))
        yield "listing of %d bytes, LF at the end" % length, head + b"6" * (length - len(head) - 1) + b"\n"
    yield "listing of %d bytes, the first line wrong" % (most + 1), b"\n" + b"6" * most
    yield "listing of %d bytes of LF" % most, b"\n" * most
    yield "listing of %d bytes, a limit in the first line" % (most + 1), (line("q" * 201) + b"\n" + b"6" * most)[: most + 1]


def edges():
    return itertools.chain(form_edges(), path_edges(), clash_edges(), order_edges(), limit_edges(), files_edges(), size_edges())


# The random listings.

PARTS = [b"a", b"b", b"a!", b"a0", b"a.txt", b"a-", b"ab", b"A", b"\xc3\xa9", b"...", b".a", b"\x01", b"\xf0\x90\x80\x80", b"\xee\x80\x80"]
BAD_PARTS = [b"", b".", b"..", b"\0", b"a\0", b"\xff", b"\xc3", b"\xed\xa0\x80"]


def random_path(rng, bad):
    parts = [rng.choice(PARTS) for _ in range(rng.choice([1, 1, 2, 2, 3, 4]))]
    if bad and rng.random() < 0.5:
        parts[rng.randrange(len(parts))] = rng.choice(BAD_PARTS)
    if bad and rng.random() < 0.4:
        at = rng.randrange(len(parts))
        parts[at : at + 1] = [b"q" * rng.choice([1, 199, 200, 201, 202])] * rng.choice([1, 1, 2, 5, 6])
    if bad and rng.random() < 0.2:
        parts += [b"w"] * (rng.choice([63, 64, 65, 66]) - len(parts))
    return b"/".join(parts)


def random_text(rng):
    length = rng.choice([0, 0, 1, 1, 1, 2, 3, 20])
    if rng.random() < 0.01:
        length = rng.choice([65535, 65536, 65537, 131072])
    return bytes(rng.choice([0, 66, 255]) for _ in range(length)) if length < 100 else bytes([rng.randrange(2)]) * length


def random_digits(rng, line):
    return bytes(rng.choice([byte, ord(chr(byte).upper())]) for byte in line)


def mangled(rng, text):
    text = bytearray(text)
    for _ in range(rng.choice([1, 1, 2])):
        at = rng.randrange(len(text) + 1)
        kind = rng.random()
        if kind < 0.3 and at < len(text):
            text[at] = rng.choice(b" \n\r0f-gF\0/")
        elif kind < 0.6 and at < len(text):
            del text[at]
        else:
            text.insert(at, rng.choice(b" \n\r0f-gF\0"))
    return bytes(text)


def random_listing(rng):
    """Mostly lines that may stand behind the ones before them, then perhaps a fault or two."""
    files, lines = Files(), []
    bad = rng.random() < 0.4
    for _ in range(rng.choice([1, 2, 5, 10, 25])):
        row = line(random_path(rng, bad and rng.random() < 0.1), random_text(rng))
        if rng.random() < 0.2:
            row = random_digits(rng, row)
        if rng.random() < 0.98:
            try:
                files.add(1, row)
            except Refused:
                if rng.random() < (0.9 if not bad else 0.6):
                    continue
        lines.append(row)
    if rng.random() < 0.2:
        lines.insert(rng.randrange(len(lines) + 1), rng.choice([b"", b"61", b"61  62", b"6 62", b"61 62\r", b"- 61", b"61 62 63"]))
    if rng.random() < 0.3:
        rng.shuffle(lines)
    text = listing(*lines, end=rng.choice([b"\n", b"\n", b""]))
    return mangled(rng, text) if rng.random() < 0.2 else text


def main():
    with open(sys.argv[1], "rb") as file:
        said, status = hash_listing(file.read())
    sys.stdout.write(said)
    sys.exit(status)


if __name__ == "__main__":
    main()
