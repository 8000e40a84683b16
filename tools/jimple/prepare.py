"""Class texts of Soot made ready for `clean`, with a list of what was changed and what was left out."""

import argparse
import os
import signal
import sys
from collections import Counter
from concurrent.futures import ProcessPoolExecutor
from pathlib import Path
from typing import Iterable, Iterator, List, NamedTuple, Optional

from jimple.folders import WrongWords, check_output, names_of
from jimple.mend import CALLS, CONSTANTS, NAMES, prepared
from jimple.places import Fault, place_of

# What `clean` takes of all class files together.
ROOM = 268_435_456
FILES_AT_ONCE = 16

DESCRIPTION = "Writes class texts that clean accepts out of those that Soot wrote, and changes nothing of the input."
EPILOG = """
OUT is a new or an empty folder; what was done is written to OUT.list too.
Status: 0 if all files were taken, 1 if some were left out, 2 if that could not be done.
"""


class Job(NamedTuple):
    """A text by its name below the folder of outputs, where it stands, and where it goes."""

    name: str
    source: Path
    target: Path


class Done(NamedTuple):
    """What was changed in a file, or why it was left out."""

    name: str
    changes: Counter
    refusal: Optional[str] = None


def read(source: Path) -> bytes:
    if source.stat().st_size > ROOM:
        raise Fault(0, "longer than %d bytes" % ROOM)
    return source.read_bytes()


def do(job: Job) -> Done:
    """Prepares one file."""
    try:
        text = read(job.source)
    except Fault as fault:
        return Done(job.name, Counter(), ": " + fault.reason)
    except OSError as error:
        return Done(job.name, Counter(), ": can't be read: %s" % error.strerror)
    try:
        text, changes = prepared(text)
    except Fault as fault:
        place = place_of(text, fault.at)
        return Done(job.name, Counter(), ":%d:%d: %s" % (place.line, place.column, fault.reason))
    job.target.parent.mkdir(parents=True, exist_ok=True)
    job.target.write_bytes(text)
    return Done(job.name, +changes)


def done_by(jobs: List[Job]) -> Iterator[Done]:
    """What comes of each job, in their order; with many of them several processes work."""
    if len(jobs) <= FILES_AT_ONCE:
        yield from map(do, jobs)
        return
    # An interrupt ends the work where the processes are waited for.
    with ProcessPoolExecutor(initializer=signal.signal, initargs=(signal.SIGINT, signal.SIG_IGN)) as pool:
        yield from pool.map(do, jobs, chunksize=FILES_AT_ONCE)


def shown(done: Iterable[Done], number: int) -> Iterator[Done]:
    """Hands on what is done, and shows on a terminal how far the work is."""
    on_terminal = sys.stderr.isatty()
    for place, one in enumerate(done, 1):
        if on_terminal:
            sys.stderr.write("\r\x1b[K[%-40s] %d of %d files" % ("#" * (40 * place // number), place, number))
            sys.stderr.flush()
        yield one
    if on_terminal:
        sys.stderr.write("\r\x1b[K")


def told(changes: Counter) -> str:
    return ", ".join("%s %d" % (what, changes[what]) for what in (NAMES, CALLS, CONSTANTS) if changes[what])


def run(inputs: List[Path], output: Path) -> int:
    """Prepares the texts of the inputs, prints what was done, and gives the status."""
    record = output.resolve().with_name(output.resolve().name + ".list")
    check_output(output, record, inputs)
    jobs = [Job(name.as_posix(), source, output / name) for name, source in sorted(names_of(inputs).items())]
    output.mkdir(parents=True, exist_ok=True)
    done = list(shown(done_by(jobs), len(jobs)))
    changed = [one for one in done if one.changes and not one.refusal]
    left_out = [one for one in done if one.refusal]
    total = sum((one.changes for one in changed), Counter())
    lines = [
        "taken %d" % (len(done) - len(left_out)),
        "changed %d%s" % (len(changed), ": " + told(total) if total else ""),
        "left out %d" % len(left_out),
        *("left out %s%s" % (one.name, one.refusal) for one in left_out),
    ]
    sys.stdout.buffer.write(encoded(lines))
    record.write_bytes(encoded(lines + ["changed %s: %s" % (one.name, told(one.changes)) for one in changed]))
    return 1 if left_out else 0


def encoded(lines: Iterable[str]) -> bytes:
    return b"".join(os.fsencode(line + "\n") for line in lines)


def main() -> int:
    parser = argparse.ArgumentParser(prog="prepare", description=DESCRIPTION, epilog=EPILOG)
    parser.add_argument("inputs", metavar="IN", nargs="+", type=Path, help="a class text, or a folder with some in it")
    parser.add_argument("output", metavar="OUT", type=Path, help="a folder that is empty or isn't there")
    words = parser.parse_args()
    try:
        return run(words.inputs, words.output)
    except (WrongWords, OSError) as error:
        print("prepare: %s" % error, file=sys.stderr)
        return 2
    except KeyboardInterrupt:
        return 130
