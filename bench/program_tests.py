#!/usr/bin/env python3
"""Tests of the built program: what each call prints, its exit status, and that standard error stays empty.

usage: bench/program_tests.py [--seed N] [--random N] [--only WORD] PROGRAM..
Each PROGRAM is a build of `metasync`, and all get the same calls. What is wanted of a call comes from bench/cases, from the
references, which share no line with the program, or from the documents: each block of commands in README.md and docs/ that is
followed by a block of text has to print this text. --random sets how many random inputs there are for each command, and --only
tries the calls alone whose title has that word. The last line is 'N passed, M failed'; the status is 1 where one failed.
"""
import argparse
import collections
import concurrent.futures
import itertools
import os
import random
import re
import shutil
import subprocess
import sys
import tempfile

import audit_reference
import drill_reference
import hash_reference
import make_drill
import make_dump
import make_listing
import random_dumps
import random_schedules

TOP = os.path.dirname(os.path.dirname(os.path.abspath(__file__)))
CASES = os.path.join(TOP, "bench", "cases")
MOST = 16777216
SECONDS = 120
USAGE, FAULT, LIMIT = ("usage\n", 1), ("fault input\n", 3), ("limit input 16777217\n", 11)


class Call:
    """One call of the program. `words` follow its name; `text` is the file `input` in its folder, if there is one; `wanted` has what
    it prints and its status, None for what the reference says of the text. `output` is a path that standard output goes to, in place
    of being read."""

    def __init__(self, title, words, text, wanted, output=None):
        self.title, self.words, self.text, self.wanted, self.output = title, words, text, wanted, output

    def got(self, program, folder):
        if self.text is not None:
            with open(os.path.join(folder, "input"), "wb") as file:
                file.write(self.text)
        with open(self.output or os.path.join(folder, "printed"), "wb") as out:
            done = subprocess.run([program, *self.words], cwd=folder, stdin=subprocess.DEVNULL, stdout=out, stderr=subprocess.PIPE, timeout=SECONDS)
        printed = ""
        if self.output is None:
            with open(os.path.join(folder, "printed"), "rb") as file:
                printed = file.read().decode("utf-8", "replace")
        return printed, done.returncode, done.stderr.decode("utf-8", "replace")

    def faults(self, programs):
        """Of each program why the call is not as wanted, or nothing."""
        wanted = wanted_of(self.words[0], self.text) if self.wanted is None else self.wanted
        return [self.fault(program, (*wanted, "")) for program in programs]

    def fault(self, program, wanted):
        with tempfile.TemporaryDirectory() as folder:
            try:
                got = self.got(program, folder)
            except subprocess.TimeoutExpired:
                return "did not end within %d seconds" % SECONDS
        return "" if got == wanted else "wanted %r, got %r" % (wanted, got)


class Shown:
    """A block of commands in a document, and the text that it prints. `rt try --` and `rt run --` stand for the program too."""

    def __init__(self, title, commands, text):
        self.title, self.commands, self.text = title, commands, text

    def faults(self, programs):
        return [self.fault(program) for program in programs]

    def fault(self, program):
        with tempfile.TemporaryDirectory() as folder:
            for name, content in (("metasync", 'exec "%s" "$@"' % program), ("rt", 'while [ "$1" != -- ]; do shift; done\nshift\nexec "%s" "$@"' % program)):
                path = os.path.join(folder, name)
                with open(path, "w") as file:
                    file.write("#!/bin/sh\n%s\n" % content)
                os.chmod(path, 0o755)
            place = {**os.environ, "PATH": folder + os.pathsep + os.environ["PATH"]}
            try:
                done = subprocess.run(["bash", "-c", self.commands], cwd=TOP, env=place, stdin=subprocess.DEVNULL, capture_output=True, timeout=SECONDS)
            except subprocess.TimeoutExpired:
                return "did not end within %d seconds" % SECONDS
        got = done.stdout.decode("utf-8", "replace"), done.stderr.decode("utf-8", "replace")
        return "" if got == (self.text, "") else "wanted %r, got %r" % ((self.text, ""), got)


# What is wanted of each command.


def wanted_of(command, text):
    if len(text) > MOST:
        return LIMIT
    return {"audit": audit_reference.audit, "drill": drill_reference.drill, "hash": hash_reference.hash_listing}[command](text)


def call(command, title, text):
    return Call("%s: %s" % (command, title), [command, "input"], text, None)


# The calls.


def cases():
    for name in sorted(os.listdir(CASES)):
        case, kind = os.path.splitext(name)
        if kind == ".told":
            continue
        with open(os.path.join(CASES, name), "rb") as file:
            text = file.read()
        with open(os.path.join(CASES, case + ".told")) as file:
            status, told = file.read().split("\n", 1)
        command = {".dump": "audit", ".drill": "drill"}[kind]
        yield Call("%s: case %s" % (command, case), [command, "input"], text, (told, int(status)))


def words():
    """Command lines that are none, and files that cannot be read."""
    good = {"audit": b"metasync-dump 1 1 " + b"0" * 64, "drill": b"metasync-drill 1 1 1 1", "hash": b"61 62"}
    yield Call("words: none", [], None, USAGE)
    for line in (["audit"], ["AUDIT", "input"], ["audit", "-x"], ["audit", "-"], ["audit", "--", "input"], ["audit", "input", "input"], ["push"], [""],
                 ["help"], ["--help"], ["-h"], ["--version"], ["audit input"], [" audit", "input"], ["audit", "input", ""], ["input", "audit"],
                 ["drill"], ["hash"], ["drill", "-x"], ["hash", "-x"], ["hash", "--lanes", "2", "input"], ["audits", "input"], ["\u0430udit", "input"]):
        yield Call("words: %r" % line, line, good["audit"], USAGE)
    for line in ([b"\xff"], [b"audit\xff", b"input"], [b"audit", b"\xff"], [b"\xff", b"input"], [b"audit", b"input", b"\xc3"], [b"audit", b"\xed\xa0\x80"]):
        yield Call("words: %r" % line, line, good["audit"], USAGE)
    for command, text in good.items():
        yield Call("%s: an absent file" % command, [command, "absent"], None, FAULT)
        yield Call("%s: a folder" % command, [command, "."], None, FAULT)
        yield Call("%s: a file below a file" % command, [command, "input/x"], text, FAULT)
        yield Call("%s: an empty name" % command, [command, ""], None, FAULT)
        yield Call("%s: a name of 300 bytes" % command, [command, "n" * 300], None, FAULT)
        yield Call("%s: a name of blanks" % command, [command, " "], None, FAULT)
        yield Call("%s: ./input" % command, [command, "./input"], text, wanted_of(command, text))
        yield Call("%s: an absolute name" % command, [command, os.path.join(CASES, "no_such_case")], None, FAULT)
        yield Call("%s: /dev/null" % command, [command, "/dev/null"], None, wanted_of(command, b""))
        if not os.path.exists("/dev/full"):
            continue
        yield Call("%s: a full device" % command, [command, "input"], text, ("", 3), "/dev/full")
        yield Call("%s: a refusal on a full device" % command, [command, "absent"], None, ("", 3), "/dev/full")
    if os.path.exists("/dev/full"):
        yield Call("words: none, on a full device", [], None, ("", 3), "/dev/full")


HEADS = {"audit": b"metasync-dump 1 3 " + b"Ab" * 32, "drill": b"metasync-drill 1 3 2 1", "hash": b"61 62"}
LINES = {"audit": b"0 -", "drill": b"start 0", "hash": b"62 -"}


def texts():
    """Edges of line texts, of each command."""
    for command, head in HEADS.items():
        line = LINES[command]
        for title, text in {
            "empty": b"", "one LF": b"\n", "two LF": b"\n\n", "no LF at the end": head, "LF at the end": head + b"\n", "two LF at the end": head + b"\n\n",
            "a line": head + b"\n" + line, "an empty line between": head + b"\n\n" + line, "CRLF": head + b"\r\n" + line + b"\r\n",
            "CRLF behind the first line": head + b"\n" + line + b"\r\n", "CR alone": head + b"\r" + line, "NUL": head + b"\n" + line + b"\0\n",
            "NUL in the first line": head[:3] + b"\0" + head[3:], "NUL alone": b"\0", "a blank before": b" " + head, "a blank behind": head + b" ",
            "two blanks": head.replace(b" ", b"  ", 1), "a tab": head.replace(b" ", b"\t", 1), "a byte order mark": b"\xef\xbb\xbf" + head,
            "no UTF-8": head + b"\n" + line + b"\xff", "no UTF-8 alone": b"\xff", "an end of transmission": head + b"\n\x04", "a form feed": head + b"\f" + line,
        }.items():
            yield call(command, title, text)
        for at in range(len(head)):
            yield call(command, "the first %d bytes" % at, head[:at])
        for title, words in {"a number with a zero before it": (b" 3", b" 03"), "a sign": (b" 3", b" +3"), "a point": (b" 3", b" 3.0"), "17": (b" 3", b" 17"),
                             "0": (b" 3", b" 0"), "16": (b" 3", b" 16"), "2^32": (b" 3", b" 4294967296"), "another format": (b" 1 ", b" 2 "),
                             "one letter": (b"metasync", b"Metasync")}.items():
            yield call(command, title, head.replace(*words, 1))


def sizes():
    """Inputs near the limit of an input, and a line as long as one."""
    for command, head in HEADS.items():
        fill = {"audit": b"0 ff\n", "drill": b"start 0\n", "hash": b""}[command]
        for size in (MOST - 1, MOST, MOST + 1, 2 * MOST):
            yield call(command, "a line of %d bytes" % size, b"6" * size)
            yield call(command, "a right first line and one of %d bytes" % (size - len(head) - 2), head + b"\n" + b"0" * (size - len(head) - 2) + b"\n")
        yield call(command, "%d LF" % MOST, b"\n" * MOST)
        yield call(command, "%d NUL" % MOST, bytes(MOST))
        if fill:
            yield call(command, "many lines, then a wrong one", head + b"\n" + fill * 9999 + b"x")
    word = b"0 " + b"a5" * ((MOST - 100) // 2)
    yield call("audit", "one entry of 8 MiB", HEADS["audit"] + b"\n" + word)
    yield call("hash", "one file of 8 MiB", b"61 " + b"a5" * ((MOST - 4) // 2) + b"\n")
    yield call("drill", "one object of 8 MiB", HEADS["drill"] + b"\nplace 0 1 " + b"a5" * ((MOST - 60) // 2))


def large():
    """Runs near the limits, of each command."""
    for kind, services in (("chain", 3), ("turns", 5), ("contested", 3), ("short", 16), ("spread", 3), ("foreign", 16), ("chain", 16), ("turns", 16)):
        yield call("audit", "%s over %d services" % (kind, services), make_dump.dump(kind, services, MOST // 4).encode())
    for kind in ("chain", "repeated"):
        yield call("audit", "%s, 16 MiB" % kind, make_dump.dump(kind, 3, MOST).encode())
    for count in (1000, 10000, 10001, 10002):
        yield call("drill", "%d events" % count, make_drill.schedule(count).encode())
    for title, text in make_drill.edges():
        yield call("drill", title, text.encode())
    yield call("drill", "10,001 events, all wrong", HEADS["drill"] + b"\n" * 10002)
    yield call("drill", "10,001 events behind a wrong first line", b"x" + b"\n" * 10002)
    for count in (2000, 20000):
        yield call("hash", "%d files" % count, "".join(make_listing.lines("small", count)).encode())
    yield call("hash", "one file of 6 MiB", "".join(make_listing.lines("large", 6291456)).encode())


def hashes():
    for title, text in hash_reference.edges():
        yield call("hash", "edge: " + title, text)


def randoms(count, seed):
    for command, make in (("audit", random_dumps.dump), ("drill", random_schedules.schedule), ("hash", hash_reference.random_listing)):
        rng = random.Random(seed)
        for at in range(count):
            yield call(command, "random %d of seed %d" % (at, seed), make(rng))


BLOCKS = re.compile(r"^```sh\n((?:(?!```).*\n)*)```\n\s*```text\n((?:(?!```).*\n)*)```$", re.M)


def shown():
    docs = os.path.join(TOP, "docs")
    for path in [os.path.join(TOP, "README.md")] + [os.path.join(docs, name) for name in sorted(os.listdir(docs))]:
        with open(path, encoding="utf-8") as file:
            for commands, text in BLOCKS.findall(file.read()):
                yield Shown("%s: %s" % (os.path.relpath(path, TOP), commands.strip().split("\n")[0]), commands, text)


def main():
    parser = argparse.ArgumentParser(description=__doc__, formatter_class=argparse.RawDescriptionHelpFormatter)
    parser.add_argument("--seed", type=int, default=1)
    parser.add_argument("--random", type=int, default=150)
    parser.add_argument("--only", default="")
    parser.add_argument("program", nargs="+")
    args = parser.parse_args()
    programs = [os.path.abspath(it) for it in args.program]
    lacking = [it for it in programs if shutil.which(it) is None]
    if lacking:
        sys.exit("no program: %s" % " ".join(lacking))
    sources = [cases(), words(), texts(), shown(), randoms(args.random, args.seed), hashes(), sizes(), large()]
    passed = failed = 0
    with concurrent.futures.ProcessPoolExecutor(os.cpu_count()) as pool:
        waiting = collections.deque()

        def settle(most):
            nonlocal passed, failed
            while len(waiting) > most:
                title, found = waiting.popleft()
                for program, fault in zip(programs, found.result()):
                    passed, failed = passed + (not fault), failed + bool(fault)
                    if fault:
                        print("FAILED %s (%s): %s" % (title, os.path.basename(program), fault[:1500]), flush=True)

        for it in itertools.chain.from_iterable(sources):
            if args.only in it.title:
                waiting.append((it.title, pool.submit(it.faults, programs)))
                settle(2 * os.cpu_count())
        settle(0)
    print("%d passed, %d failed" % (passed, failed))
    sys.exit(1 if failed else 0)


if __name__ == "__main__":
    main()
