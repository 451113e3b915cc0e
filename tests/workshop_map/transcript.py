"""Runs the commands that a text shows, and compares what they print with what it shows.

A line indented by four spaces that starts with '$ ' is a command. The indented lines below it are all that it prints, and last its
exit status where that is not 0. Blocks of commands go on where the one before ended, in one folder.
"""

import os
import subprocess
import sys

INDENT = "    "
PROMPT = INDENT + "$ "


def steps(text):
    """The commands of a text, each with the lines that it prints; empty lines at the end are not told apart."""
    found, open_step = [], False
    for line in text.splitlines():
        if line.startswith(PROMPT):
            found.append((line[len(PROMPT):], []))
            open_step = True
        elif open_step and (line.startswith(INDENT) or not line):
            found[-1][1].append(line[len(INDENT):])
        else:
            open_step = False
    return [(command, "\n".join(lines).rstrip("\n")) for command, lines in found]


def outcome(command):
    """What a command prints, and its exit status where that is not 0."""
    shell = 'workshop() { "$WORKSHOP" "$@"; }; ' + command
    run = subprocess.run(["bash", "-c", shell], stdout=subprocess.PIPE, stderr=subprocess.STDOUT, text=True)
    printed = run.stdout + (f"status {run.returncode}\n" if run.returncode else "")
    return printed.rstrip("\n")


def main():
    """Compares each command of the text named, and tells how many there were."""
    name = sys.argv[1]
    with open(name, encoding="utf-8") as file:
        commands = steps(file.read())
    for command, shown in commands:
        printed = outcome(command)
        if printed != shown:
            sys.exit(f"{name}: '{command}' prints\n{printed}\nand not\n{shown}")
    print(f"{os.path.basename(name)}: {len(commands)} commands print what it shows")


if __name__ == "__main__":
    main()
