#!/usr/bin/env python3
"""Runs the gate and tells what each crate costs it: processor seconds for its proof, its tests and its must-fail edits.

Whatever the toolchain kept on this machine makes the figures smaller, so measure a clean clone with nothing else running:

    bench/gate.py [--anew] [CRATE ...]

The words are handed to `rt ci`, whose output goes to the standard output as it comes; the table follows it. Ends with the
gate's status. Processes that live for less than a quarter of a second are not seen.
"""
import collections
import os
import pathlib
import re
import subprocess
import sys
import threading
import time

ROOT = pathlib.Path(__file__).resolve().parent.parent
TICK = os.sysconf("SC_CLK_TCK")
KINDS = ("proof", "tests", "edits")


def sort_of(process):
    """The crate and the kind of work of a process of the prover, or None."""
    try:
        words = (process / "cmdline").read_bytes().decode(errors="replace").split("\0")
        if not words[0].endswith("/rattle") or "--crate-name" not in words:
            return None
        name = words[words.index("--crate-name") + 1]
        if "/rt-edit" in os.readlink(process / "cwd"):
            return name, "edits"
        return name, "tests" if "--test" in words else "proof"
    except (OSError, IndexError):
        return None


def processes():
    """The fields of each process's `stat` behind its name, by number."""
    found = {}
    for process in pathlib.Path("/proc").glob("[0-9]*"):
        try:
            found[process.name] = (process / "stat").read_text().rsplit(")", 1)[1].split()
        except OSError:
            pass
    return found


def below(name, root, found):
    """Whether a process stems from this one."""
    while name in found and name != root:
        name = found[name][1]
    return name == root


def watch(done, root, spent):
    """Keeps the processor seconds of each process that is seen below the root, until done."""
    sorts = {}
    while not done.wait(0.25):
        found = processes()
        for name, fields in found.items():
            key = name, fields[19]
            if not sorts.get(key) and below(name, root, found):
                # (a process is the gate's own before it becomes a prover)
                sorts[key] = sort_of(pathlib.Path("/proc") / name)
            if sorts.get(key):
                spent[key] = sorts[key], (int(fields[11]) + int(fields[12])) / TICK


def lines_of(crate):
    """Lines of code without proofs: sources and definitions."""
    files = [it for part in ("src", "specs") for it in (crate / part).rglob("*") if re.fullmatch(r"\.(rt|antt)", it.suffix)]
    return sum(len(it.read_text().splitlines()) for it in files)


def main():
    done, spent, start = threading.Event(), {}, time.monotonic()
    gate = subprocess.Popen(["rt", "ci", *sys.argv[1:]], cwd=ROOT)
    watcher = threading.Thread(target=watch, args=(done, str(gate.pid), spent))
    watcher.start()
    status = gate.wait()
    done.set()
    watcher.join()
    costs = collections.defaultdict(lambda: dict.fromkeys(KINDS, 0.0))
    for (name, kind), seconds in spent.values():
        costs[name][kind] += seconds
    print(f"{'crate':16} {'lines':>6} " + " ".join(f"{kind:>7}" for kind in KINDS))
    for name, cost in sorted(costs.items(), key=lambda it: -sum(it[1].values())):
        print(f"{name:16} {lines_of(ROOT / 'crates' / name):6} " + " ".join(f"{cost[kind]:7.0f}" for kind in KINDS))
    total = sum(sum(cost.values()) for cost in costs.values()) / 60
    lines = sum(lines_of(it) for it in (ROOT / "crates").iterdir())
    print(f"{lines} lines, {total:.0f} minutes of processor time, {(time.monotonic() - start) / 60:.0f} minutes")
    return status


if __name__ == "__main__":
    sys.exit(main())
