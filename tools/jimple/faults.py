"""The first fault of each of many class texts, by `clean check`, with the line of the text in which it stands."""

import argparse
import os
import sys
from concurrent.futures import ThreadPoolExecutor
from pathlib import Path
from typing import Iterator, List, Optional

from jimple.folders import WrongWords, texts_of
from jimple.places import place_of
from jimple.program import Refusal, check, program

DESCRIPTION = "Tells the first fault of each class text, by clean check, and shows its line with a mark at the place."
EPILOG = "CLEAN names the program, else it is ./clean. Status: 0 without a fault, 1 with one, 2 for wrong words."


def told(file: Path, refusal: Refusal) -> str:
    if refusal.at is None:
        return "%s: %s" % (file, refusal.reason)
    place = place_of(file.read_bytes(), refusal.at)
    return "%s:%d:%d: %s\n%s" % (file, place.line, place.column, refusal.reason, place.shown())


def faults(files: List[Path]) -> Iterator[str]:
    """What is told of each file with a fault, in their order; each processor has a file at work."""
    command = program()

    def fault(file: Path) -> Optional[str]:
        refusal = check(command, file)
        return told(file, refusal) if refusal else None

    with ThreadPoolExecutor(os.cpu_count()) as pool:
        yield from filter(None, pool.map(fault, files))


def main() -> int:
    parser = argparse.ArgumentParser(prog="faults", description=DESCRIPTION, epilog=EPILOG)
    parser.add_argument("files", metavar="FILE", nargs="+", type=Path, help="a class text, or a folder with some in it")
    words = parser.parse_args()
    status = 0
    try:
        for fault in faults([file for given in words.files for file in texts_of(given)]):
            status = 1
            sys.stdout.buffer.write(os.fsencode(fault + "\n"))
            sys.stdout.buffer.flush()
    except (WrongWords, OSError) as error:
        print("faults: %s" % error, file=sys.stderr)
        return 2
    except KeyboardInterrupt:
        return 130
    return status
