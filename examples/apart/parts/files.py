"""Files that a tool makes, and terminals that it writes to."""

from __future__ import annotations

import os
from pathlib import Path

from parts.errors import Wrong


def write_new(path: Path, data: bytes) -> None:
    """Writes a file that wasn't there, for nobody else to read."""
    try:
        with open(path, "xb") as file:
            file.write(data)
    except OSError as error:
        raise Wrong(f"can't write {path}: {error.strerror}") from error


def write_over(path: Path, data: bytes) -> None:
    """Writes a file, so that after a power cut it is the old one or the new one."""
    beside = path.with_name(path.name + ".new")
    try:
        with open(beside, "wb") as file:
            file.write(data)
            file.flush()
            os.fsync(file.fileno())
        os.replace(beside, path)
    except OSError as error:
        raise Wrong(f"can't write {path}: {error.strerror}") from error
