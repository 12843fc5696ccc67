"""What the gate's processes work on: processor seconds by crate and kind of work, and the longest chain of crates."""

import collections
import os
import re
import threading
import time

TICKS = os.sysconf("SC_CLK_TCK")
KINDS = ("proof", "edits", "runs")


def text_of(path):
    try:
        with open(path, "rb") as file:
            return file.read().decode(errors="replace")
    except OSError:
        return ""


def link_of(path):
    try:
        return os.readlink(path)
    except OSError:
        return ""


class Process:
    """A process that was seen: its parent, its processor time so far, and what it works on."""

    def __init__(self, parent):
        self.parent, self.seconds, self.work = parent, 0.0, None


def work_of(pid, crates):
    """The crate and the kind of work of a process, as far as its own arguments and folder say."""
    words = text_of(f"/proc/{pid}/cmdline").split("\0")
    folder = link_of(f"/proc/{pid}/cwd")
    if "--crate-name" in words:
        crate = words[words.index("--crate-name") + 1]
        return crate, "edits" if "/edit-" in folder else "proof"
    run = next(filter(None, (re.search(r"/rt-run-[^/]+/bin/(\w+)$", it) for it in words)), None)
    if run:
        return run[1], "runs"
    return None


class Watch(threading.Thread):
    """Reads the processes below one, every so many seconds, until all have ended."""

    def __init__(self, top, crates, seconds):
        super().__init__(daemon=True)
        self.top, self.crates, self.seconds, self.seen, self.ended = top, crates, seconds, {}, threading.Event()
        self.since, self.spans = time.monotonic(), {}

    def run(self):
        while not self.ended.wait(self.seconds):
            self.read()

    def read(self):
        now = {}
        for pid in filter(str.isdigit, os.listdir("/proc")):
            fields = text_of(f"/proc/{pid}/stat").rpartition(")")[2].split()
            if fields:
                now[int(pid)] = int(fields[1]), fields[19], (int(fields[11]) + int(fields[12])) / TICKS
        for pid, (parent, begun, seconds) in now.items():
            if self.is_below(pid, now):
                one = self.seen.setdefault((pid, begun), Process(parent and (parent, now.get(parent, (0, ""))[1])))
                one.seconds = max(one.seconds, seconds)
                one.work = one.work or work_of(pid, self.crates)
                if one.work:
                    self.note(one.work[1])

    def note(self, kind):
        """Notes that work of this kind is going on."""
        now = time.monotonic() - self.since
        self.spans[kind] = self.spans.get(kind, (now,))[0], now

    def is_below(self, pid, now):
        while pid in now:
            if pid == self.top:
                return True
            pid = now[pid][0]
        return False

    def sums(self):
        """Seconds by crate and kind. A process without work of its own counts for its parent's."""
        sums = collections.Counter()
        for one in self.seen.values():
            at = one
            while at and not at.work:
                at = self.seen.get(at.parent)
            sums[at.work if at else None] += one.seconds
        return sums


def libraries_of(folder):
    """The crates of a repository, lowest first, each with its libraries among them."""
    lines = [it.partition("#")[0].strip() for it in text_of(f"{folder}/crates.txt").split("\n")]
    words = [re.findall(r"\w+(?!\w*=)", it) for it in lines if it]
    names = {it[0] for it in words}
    below = {it[0]: [name for name in it[1:] if name in names and name != it[0]] for it in words}
    order = {}
    for name in below:
        put_below(name, below, order)
    return order


def put_below(name, below, order):
    for it in below[name]:
        if it not in order:
            put_below(it, below, order)
    order[name] = below[name]


def longest_chain(libraries, sums):
    """The chain of crates that takes longest, each with its part. A crate waits for the proofs of its libraries."""
    until, before = {}, {}
    for name, below in libraries.items():
        before[name] = max(below, key=until.get, default=None)
        until[name] = until.get(before[name], 0) + sums[name, "proof"]
    parts, at = [], max(libraries, key=until.get)
    while at:
        parts.append((at, sums[at, "proof"]))
        at = before[at]
    return parts[::-1]


def chain_text(chain):
    """The chain in minutes."""
    return f"{sum(it for _, it in chain) / 60:.0f} minutes: " + ", ".join(f"{name} {seconds / 60:.1f}" for name, seconds in chain)
