"""Runs `clean`: the program that the variable CLEAN names, else the launcher beside these tools."""

import os
import re
import subprocess
from pathlib import Path
from typing import NamedTuple, Optional

from jimple.folders import WrongWords

ROOT = Path(__file__).resolve().parents[2]
LAUNCHER = ROOT / "clean"
BUILT = ROOT / ".clean-build" / "crates" / "clean_cli" / "out" / "clean_cli"
ACCEPTED = 0
PLACED = re.compile(rb"clean: (?P<file>.*): (?P<reason>[^:]*) at (?P<at>[0-9]+)\n", re.DOTALL)


class Refusal(NamedTuple):
    """Why a file was refused, and the byte of the file where it shows, if that is told."""

    reason: str
    at: Optional[int]


def program() -> str:
    """The program's path. The launcher isn't called before it has built, which takes long and wants to be seen."""
    named = os.environ.get("CLEAN")
    if not named and not os.access(BUILT, os.X_OK):
        raise WrongWords("clean isn't built yet: call ./clean once, or name the program in CLEAN")
    return named or str(LAUNCHER)


def check(command: str, file: Path) -> Optional[Refusal]:
    """The fault for which `clean check` refuses a file, if any."""
    try:
        done = subprocess.run([command, "check", "--", str(file)], stdin=subprocess.DEVNULL, capture_output=True)
    except OSError as error:
        raise WrongWords("%s: %s" % (command, error.strerror)) from None
    if done.returncode == ACCEPTED:
        return None
    placed = PLACED.fullmatch(done.stderr)
    if placed:
        return Refusal(placed["reason"].decode(), int(placed["at"]))
    line = os.fsdecode(done.stderr).strip() or "ended with status %d" % done.returncode
    return Refusal(line.replace("clean: %s: " % file, "", 1).replace("clean: ", "", 1), None)
