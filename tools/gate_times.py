#!/usr/bin/env python3
"""Runs a command, and says how many processor seconds the provers that it started took, by crate and kind of work.

    tools/gate_times.py rt ci --anew         the whole gate: builds, tests and must-fail edits of each crate, the largest first
    tools/gate_times.py rt check             one crate

Only what the command started counts, so that other work on the machine changes little but the time by the clock. Each half a second the times of
the provers that run are noted; one that ends sooner may be missed.
"""
import collections
import os
import subprocess
import sys
import time

TICKS = os.sysconf("SC_CLK_TCK")


def status(process):
    """The fields of a process behind its name: the second is its parent, the twelfth and thirteenth its ticks."""
    with open(f"/proc/{process}/stat") as file:
        return file.read().rsplit(")", 1)[1].split()


def descendants(root):
    children = collections.defaultdict(list)
    for name in os.listdir("/proc"):
        if name.isdigit():
            try:
                children[int(status(name)[1])].append(int(name))
            except OSError:
                pass
    found, waiting = [], [root]
    while waiting:
        found += children[waiting[-1]]
        waiting += children[waiting.pop()]
    return found


def work_of(process, crates):
    """The crate and the kind of work of a prover, or None for another program."""
    with open(f"/proc/{process}/cmdline") as file:
        words = file.read().split("\0")
    if not words[0].endswith("rattle") or "--crate-name" not in words:
        return None
    crate = words[words.index("--crate-name") + 1]
    in_place = os.readlink(f"/proc/{process}/cwd").startswith(crates)
    if words[1] == "check" and not in_place:
        return crate, "edit"
    return crate, "test" if words[1] == "test" or "--test" in words else "build"


def main():
    if len(sys.argv) < 2:
        sys.exit(__doc__)
    began, crates, seconds = time.time(), os.path.join(os.getcwd(), "crates"), {}
    command = subprocess.Popen(sys.argv[1:])
    while command.poll() is None:
        for process in descendants(command.pid):
            try:
                work = work_of(process, crates)
                if work:
                    seconds[process, work] = sum(map(int, status(process)[11:13])) / TICKS
            except (OSError, IndexError):
                pass
        time.sleep(0.5)
    of_work, of_kind = collections.Counter(), collections.Counter()
    for (_, (crate, kind)), took in seconds.items():
        of_work[crate, kind] += took
        of_kind[kind] += took
    for (crate, kind), took in of_work.most_common():
        print(f"{took:8.0f} {kind:5} {crate}")
    print(", ".join(f"{kind}s {took / 60:.0f}" for kind, took in of_kind.most_common()), end="")
    print(f": {sum(of_kind.values()) / 60:.0f} processor minutes; {(time.time() - began) / 60:.0f} by the clock")
    sys.exit(command.returncode)


if __name__ == "__main__":
    main()
