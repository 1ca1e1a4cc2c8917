"""What a run of a program takes: time, memory and instructions."""
import os
import re
import subprocess
import sys
import tempfile
from typing import NamedTuple

HERE = os.path.dirname(os.path.realpath(__file__))
TOP = os.path.dirname(HERE)
sys.path.append(os.path.join(TOP, "examples"))

import tool

# What counts instructions, and how it tells them; the first that works is taken.
COUNTERS = [
    ("perf stat -x , -e instructions:u", r"^(\d+),,instructions"),
    ("valgrind --tool=cachegrind --cache-sim=no --cachegrind-out-file=/dev/null", r"I\s+refs:\s+([\d,]+)"),
]


class Taken(NamedTuple):
    """The seconds by the clock and of all processors, and the most memory in MB."""

    clock: float
    work: float
    memory: float


def taken(words, path):
    """What one run of a program over a file takes."""
    apart = [sys.executable, "-IS", os.path.join(HERE, "one_run.py"), path, *words]
    code, *figures = subprocess.run(apart, check=True, stdout=subprocess.PIPE).stdout.split()
    if int(code):
        raise subprocess.CalledProcessError(int(code), words)
    return Taken(*map(float, figures))


def best(runs):
    """The least times of several runs, and the most memory of any."""
    clock, work, memory = zip(*runs)
    return Taken(min(clock), min(work), max(memory))


def best_over(words, text, times):
    """The best of so many runs over some bytes."""
    with tempfile.NamedTemporaryFile() as file:
        file.write(text)
        file.flush()
        return best([taken(words, file.name) for _ in range(times)])


def counted(words, path, counter):
    """How many instructions one run takes, by a counter."""
    command, told = counter
    with open(path, "rb") as file:
        ran = subprocess.run([*command.split(), *words], stdin=file, stdout=subprocess.DEVNULL, stderr=subprocess.PIPE,
                             env={**os.environ, "LC_ALL": "C"}, check=True)
    found = re.search(told, ran.stderr.decode(errors="replace"), re.MULTILINE)
    return int(found[1].replace(",", "")) if found else None


def counter():
    """A counter that works here, or None."""
    for it in COUNTERS:
        try:
            if counted(["true"], os.devnull, it):
                return it
        except (OSError, subprocess.CalledProcessError):
            pass
    return None


def proved():
    """The program that is proved from these sources."""
    subprocess.run([os.path.join(TOP, "prove")], stdout=subprocess.DEVNULL, check=True)
    return tool.program_path(os.path.join(TOP, "talek"))
