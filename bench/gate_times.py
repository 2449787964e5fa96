#!/usr/bin/env python3
"""Where the gate's time goes: processor seconds by crate, for its proof, its tests and its edits. See bench/gate.sh.

`rt ci` tells no times, so this looks twice a second at the checks that it runs: each names its crate, those of tests have the
word --test, and those of edits run in a folder that is named after them; what a check starts is counted with it. What a check uses after the last look at it is not
seen, so the sums are a little low.
"""
import collections
import contextlib
import os
import subprocess
import sys
import time

TICKS = os.sysconf("SC_CLK_TCK")
COLUMNS = ("proof", "tests", "edits")


def read(path):
    try:
        with open(path, "rb") as file:
            return file.read()
    except OSError:
        return b""


def processes():
    """Of each process: its parent and start, and the processor seconds that it has used."""
    found = {}
    for pid in filter(str.isdigit, os.listdir("/proc")):
        stat = read("/proc/%s/stat" % pid)
        if stat:
            fields = stat[stat.rindex(b")") + 2 :].split()
            found[int(pid)] = int(fields[1]), int(fields[19]), (int(fields[11]) + int(fields[12])) / TICKS
    return found


def below(top, found):
    """The processes that descend from one, it among them."""
    children = collections.defaultdict(list)
    for pid, (parent, _, _) in found.items():
        children[parent].append(pid)
    todo, seen = [top], []
    while todo:
        pid = todo.pop()
        seen.append(pid)
        todo += children[pid]
    return seen


def work_of(pid):
    """The crate and the column of a check or a build, or None."""
    words = read("/proc/%d/cmdline" % pid).split(b"\0")
    if b"--crate-name" not in words[:-1]:
        return None
    crate = words[words.index(b"--crate-name") + 1].decode()
    try:
        folder = os.readlink("/proc/%d/cwd" % pid)
    except OSError:
        folder = ""
    column = "edits" if "/rt-edit-" in folder else "tests" if b"--test" in words else "proof"
    return crate, column


def watch(top, goes_on):
    """Looks until it ends or is interrupted: the seconds by crate and column, and those of the wall."""
    used, begun = {}, time.time()
    with contextlib.suppress(KeyboardInterrupt):
        while goes_on():
            found, works = processes(), {}
            for pid in below(top, found):
                if pid in found:
                    parent, start, seconds = found[pid]
                    earlier = used.get((pid, start), (None, 0))
                    works[pid] = work_of(pid) or earlier[0] or works.get(parent)
                    used[pid, start] = works[pid], seconds
            time.sleep(0.5)
    sums = collections.defaultdict(lambda: dict.fromkeys(COLUMNS, 0.0))
    for work, seconds in used.values():
        if work is not None:
            sums[work[0]][work[1]] += seconds
    return sums, time.time() - begun


def table(sums, wall):
    lines = ["%-16s %8s %8s %8s %8s" % ("crate", *COLUMNS, "together")]
    rows = sorted(sums.items(), key=lambda row: -sum(row[1].values()))
    whole = {column: sum(row[column] for _, row in rows) for column in COLUMNS}
    for crate, row in [*rows, ("all", whole)]:
        lines.append("%-16s %8.0f %8.0f %8.0f %8.0f" % (crate, *(row[column] for column in COLUMNS), sum(row.values())))
    model = [line.split(b":")[1].strip().decode() for line in read("/proc/cpuinfo").splitlines() if line.startswith(b"model name")][:1]
    when = time.strftime("%Y-%m-%d", time.gmtime())
    lines.append("%.0f minutes on %d processors (%s), %s; seconds of processor time" % (wall / 60, os.cpu_count(), "".join(model), when))
    return "\n".join(lines)


def main():
    words = sys.argv[1:]
    if words[:1] == ["--watch"]:
        top = int(words[1])
        start = processes().get(top, (0, 0, 0))[1]
        print(table(*watch(top, lambda: processes().get(top, (0, None, 0))[1] == start)))
        return 0
    with subprocess.Popen(["rt", "ci", *words]) as gate:
        sums, wall = watch(gate.pid, lambda: gate.poll() is None)
    print(table(sums, wall))
    return gate.returncode


if __name__ == "__main__":
    sys.exit(main())
