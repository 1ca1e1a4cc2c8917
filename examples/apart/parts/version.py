"""The version of this repository, which the file VERSION at its top has, and the kit that proved it."""

import os
import pathlib
import sys
from typing import List

FILE = pathlib.Path(__file__).resolve().parent / "../../../VERSION"


def version_of(name: str) -> str:
    """What a tool of this name says for --version. A folder that was copied alone has no version."""
    try:
        number, kit = FILE.read_text().splitlines()[:2]
    except (OSError, ValueError):
        number, kit = "of no version", "a kit that isn't known here"
    return f"{name} (Puchreus) {number}\na tool without proof; the crates of this version are proved with {kit}"


def answer(name: str, about: str, words: List[str]) -> None:
    """Writes what --help and --version ask for, if one of them is among the words, and ends."""
    if not {"-h", "--help", "--version"} & set(words):
        return
    data = ((version_of(name) if "--version" in words else about.strip()) + "\n").encode()
    try:
        while data:
            data = data[os.write(1, data):]
    except OSError as error:
        print(f"{name}: can't write: {error.strerror}", file=sys.stderr)
        sys.exit(1)
    sys.exit(0)
