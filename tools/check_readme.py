#!/usr/bin/env python3
"""Runs the commands that README.md shows, and compares what they write.

    tools/check_readme.py README.md ...

A block of commands is an indented block with lines that begin with `$ `; the lines behind such a line, up to the next one, are
what it writes. The commands of a file are run in order, in one scratch folder that has the examples and `./xls`. Prints the
first difference, and ends with 1.
"""

import os
import shutil
import subprocess
import sys
import tempfile

TOP = os.path.dirname(os.path.dirname(os.path.abspath(__file__)))
INDENT = "    "


def commands(text):
    """Each command with what it writes."""
    found, inside = [], False
    for line in text.split("\n"):
        shown = line[len(INDENT):]
        if not line.startswith(INDENT):
            inside = False
        elif shown.startswith("$ "):
            found.append((shown[2:], []))
            inside = True
        elif inside:
            found[-1][1].append(shown)
    return found


def main():
    # An unproved program writes a line of its own, which no page shows.
    ran = subprocess.run([os.path.join(TOP, "xls")], capture_output=True, text=True, check=False)
    if "not proved" in ran.stderr:
        print("the pages show what the proved program writes, and there is none of these sources: run ./build")
        sys.exit(1)
    count = 0
    for path in sys.argv[1:]:
        with open(path, encoding="utf-8") as file:
            shown = commands(file.read())
        with tempfile.TemporaryDirectory() as folder:
            shutil.copytree(os.path.join(TOP, "examples"), os.path.join(folder, "examples"))
            with open(os.path.join(folder, "xls"), "w", encoding="utf-8") as file:
                file.write(f'#!/bin/sh\nexec "{TOP}/xls" "$@"\n')
            os.chmod(os.path.join(folder, "xls"), 0o755)
            for command, lines in shown:
                done = subprocess.run(command, shell=True, cwd=folder, stdout=subprocess.PIPE, stderr=subprocess.STDOUT,
                                      text=True, check=False)
                wanted = "".join(line + "\n" for line in lines)
                if done.stdout != wanted:
                    print(f"{path}: {command}\n--- shown\n{wanted}--- written\n{done.stdout}")
                    sys.exit(1)
                count += 1
    if count == 0:
        print("no command is shown")
        sys.exit(1)
    print(f"{count} commands write what is shown")


if __name__ == "__main__":
    main()
