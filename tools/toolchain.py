#!/usr/bin/env python3
"""The toolchain's command: `rt`, or the command that RT names.

usage: tools/toolchain.py [COMMAND ...]

It reports on standard error, and exits with status 1, if the toolchain is missing or too old, or if one of the COMMANDs is
missing, which building needs as well.
"""
import os
import re
import shlex
import shutil
import subprocess
import sys

RT = shlex.split(os.environ.get("RT", "rt"))
MISSING = f"To prove and build, the Rattle toolchain's command `{RT[0]}` has to be on the PATH: see the README."
# The oldest release that proves everything here.
OLDEST = (13, "b")
# The package that has a command, if their names differ.
PACKAGES = {"ar": "binutils", "objcopy": "binutils", "cc": "a C compiler"}


def release():
    """Returns the number and the letter of the toolchain's release, or None if it doesn't report them."""
    try:
        ended = subprocess.run([*RT, "version"], stdin=subprocess.DEVNULL, capture_output=True, text=True, errors="replace", timeout=60, check=False)
    except (OSError, subprocess.TimeoutExpired):
        return None
    found = re.search(r"\brattle-kit-(\d+)([a-z]*)", ended.stdout)
    return found and (int(found[1]), found[2])


def problem():
    """Returns why nothing can be proved, or None."""
    if shutil.which(RT[0]) is None:
        return MISSING
    found = release()
    if found and found < OLDEST:
        return f"The Rattle toolchain is rattle-kit-{found[0]}{found[1]}, which is too old: rattle-kit-{OLDEST[0]}{OLDEST[1]} or later is needed."
    return None


def lacking(commands):
    """Returns why nothing can be built with these commands, or None."""
    for command in commands:
        name = shlex.split(command)[0]
        if shutil.which(name) is None:
            package = PACKAGES.get(os.path.basename(name))
            return f"To build the libraries, `{name}` has to be on the PATH{f' (it is part of {package})' if package == 'binutils' else ''}."
    return None


if __name__ == "__main__":
    sys.exit(problem() or lacking(sys.argv[1:]))
