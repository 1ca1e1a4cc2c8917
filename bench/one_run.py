"""Runs a program over a file and prints how it ended, the seconds by the clock and of all processors, and the most
memory in MB.

The memory of a process counts from what it was forked from: so this one is started apart, and imports little.
"""
import os
import sys
import time


def become(words, path):
    """Becomes the program."""
    try:
        os.dup2(os.open(path, os.O_RDONLY), 0)
        os.dup2(os.open(os.devnull, os.O_WRONLY), 1)
        os.execv(words[0], words)
    finally:
        os._exit(127)


def main(path, *words):
    began = time.monotonic()
    child = os.fork()
    if child == 0:
        become(words, path)
    _, status, used = os.wait4(child, 0)
    clock = time.monotonic() - began
    print(os.waitstatus_to_exitcode(status), clock, used.ru_utime + used.ru_stime, used.ru_maxrss / 1024)


main(*sys.argv[1:])
