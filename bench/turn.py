#!/usr/bin/env python3
"""Times turns: workers raise one number under a `worker_turn::Turn`, and under std's `Mutex`.

Builds `bench/turn` over the repository's `clean_base` and `worker_turn` in a folder of its own, which takes some minutes,
and prints millions of turns a second for 1, 2 and 4 workers that work for 0, 100, 1,000 and 10,000 ns between two turns,
beside as many processes that share nothing. Each figure is the best of three. Run it on a machine with four processors
and nothing else running:

    bench/turn.py [FOLDER]

FOLDER is kept, so that a second run builds nothing.
"""
import pathlib
import shutil
import subprocess
import sys
import tempfile
import time

ROOT = pathlib.Path(__file__).resolve().parent.parent
CRATES = "clean_base: thiserror\nworker_turn: clean_base atomic_table\nturn_bench: clean_base worker_turn\n"
SECONDS = 0.4


def build(folder):
    """The program, built in this folder."""
    program = folder / "crates/turn_bench/out/turn_bench"
    if not program.exists():
        for name in ("clean_base", "worker_turn"):
            shutil.copytree(ROOT / "crates" / name, folder / "crates" / name, ignore=shutil.ignore_patterns("out", "must-fail"))
        bench = folder / "crates/turn_bench"
        (bench / "src").mkdir(parents=True)
        (bench / "proofs/raises").mkdir(parents=True)
        shutil.copy(ROOT / "bench/turn/main.rt.txt", bench / "src/main.rt")
        shutil.copy(ROOT / "bench/turn/raises.antt.txt", bench / "proofs/raises/Invariants.antt")
        shutil.copy(ROOT / "HANDLES", folder / "HANDLES")
        (folder / "crates.txt").write_text(CRATES)
        subprocess.run(["git", "init", "-q", "."], cwd=folder, check=True)
        subprocess.run(["rt", "run", "--", "turn", "1", "0", "1"], cwd=bench, check=True, stdout=subprocess.DEVNULL)
    return program


def wall(program, kind, workers, work, rounds, processes=1):
    """The least seconds of three runs of so many processes side by side."""
    seconds = []
    for _ in range(3):
        start = time.perf_counter()
        words = [program, kind, str(workers), str(work), str(rounds)]
        for process in [subprocess.Popen(words) for _ in range(processes)]:
            process.wait()
        seconds.append(time.perf_counter() - start)
    return min(seconds)


def loops_in(program, nanoseconds):
    """How often the program's loop of work runs in so many nanoseconds."""
    loops, rounds = 10000, 2000
    loop = wall(program, "mutex", 1, loops, rounds) / (loops * rounds)
    return round(nanoseconds / 1e9 / loop)


def main():
    folder = pathlib.Path(sys.argv[1] if len(sys.argv) > 1 else tempfile.mkdtemp())
    folder.mkdir(parents=True, exist_ok=True)
    program = build(folder)
    print("workers  ns of work  turn, M/s  mutex, M/s  apart, M/s")
    for nanoseconds in (0, 100, 1000, 10000):
        work = loops_in(program, nanoseconds)
        rounds = round(SECONDS * 1e9 / max(nanoseconds, 100))
        for workers in (1, 2, 4):
            runs = (("turn", workers, 1), ("mutex", workers, 1), ("mutex", 1, workers))
            turn, mutex, apart = (workers * rounds / wall(program, kind, n, work, rounds, processes) / 1e6 for kind, n, processes in runs)
            print(f"{workers:7}  {nanoseconds:10}  {turn:9.2f}  {mutex:10.2f}  {apart:10.2f}", flush=True)


if __name__ == "__main__":
    main()
