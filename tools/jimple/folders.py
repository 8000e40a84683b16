"""The class texts that words name, and where what is made of them goes."""

import os
from pathlib import Path
from typing import Dict, List

SUFFIX = ".jimple"


class WrongWords(Exception):
    """Why what the words ask can't be done."""


def texts_of(given: Path) -> List[Path]:
    """A file, or all class texts of a folder and of those in it."""
    if not os.path.lexists(given):
        raise WrongWords("%s: no such file or folder" % given)
    if not given.is_dir():
        return [given]
    texts = [Path(folder, name) for folder, _, names in os.walk(given) for name in names if name.endswith(SUFFIX)]
    if not texts:
        raise WrongWords("%s: no %s file" % (given, SUFFIX))
    return sorted(texts)


def names_of(inputs: List[Path]) -> Dict[Path, Path]:
    """The name that the text made of each text has in a folder of outputs: that in the input's folder."""
    texts: Dict[Path, Path] = {}
    for given in inputs:
        folder = given if given.is_dir() else given.parent
        for path in texts_of(given):
            name = path.relative_to(folder)
            if name in texts:
                raise WrongWords("%s and %s would have one name" % (texts[name], path))
            texts[name] = path
    return texts


def check_output(folder: Path, record: Path, inputs: List[Path]) -> None:
    """Refuses a folder that holds anything or lies in an input, and a list that is there: nothing is written over."""
    if os.path.lexists(folder) and (not folder.is_dir() or any(folder.iterdir())):
        raise WrongWords("%s: there already, and no empty folder" % folder)
    if os.path.lexists(record):
        raise WrongWords("%s: there already" % record)
    for given in inputs:
        if given.resolve() in [folder.resolve(), *folder.resolve().parents]:
            raise WrongWords("%s: lies in the input %s" % (folder, given))
