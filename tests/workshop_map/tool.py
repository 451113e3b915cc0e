"""The workshop's tool as the tests call it, and what its answers say."""

import os
import re
import subprocess

TOOL = os.environ["WORKSHOP"]


def ask(*words, allowed=()):
    """Runs a command and gives its exit status and what it prints, or the no; one that is not expected breaks the test off."""
    run = subprocess.run([TOOL, *words], capture_output=True, text=True)
    if run.returncode not in (0, *allowed):
        raise AssertionError(f"{words} ended with {run.returncode}: {run.stdout}{run.stderr}")
    return run.returncode, run.stderr if run.returncode else run.stdout


def checked(file):
    """What check tells of a block: the cells used, those free, and the labels held."""
    told = ask("check", file)[1]
    numbers = re.fullmatch(
        r"sound, (\d+) cells, edition [12]\n"
        r"cells: (\d+) usable, (\d+) used, (\d+) free\n"
        r"slots in use: .*\n"
        r"labels held: (\d+)\n",
        told,
    )
    cells, usable, used, free, labels = map(int, numbers.groups())
    assert usable == cells - 2 and used + free == usable, told
    return used, free, labels


def taken(printed):
    """How many cells an entry or a removal says that it took."""
    return int(re.search(r", (\d+) cells? taken$", printed.strip()).group(1))
