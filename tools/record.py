"""A record of what was proved: the commit, the toolchain and the result. `make test` writes it, and a release contains it."""
import contextlib
import json
import os
import subprocess

from crates import ROOT
from stamp import git
from toolchain import RT

# (the next `make test` removes it, like everything that was built)
FILE = f"{ROOT}/crates/boruvka/out/gate.json"


def commit():
    """Returns the commit that is checked out, or None if it is unknown or files differ from it."""
    return git("rev-parse", "HEAD") if git("status", "--porcelain") == "" else None


def kit():
    """Returns the toolchain's version, or None if there is no toolchain."""
    try:
        ended = subprocess.run([*RT, "version"], capture_output=True, text=True, check=False)
    except OSError:
        return None
    return None if ended.returncode else ended.stdout.strip()


class Run:
    """A run of `make test`. It is made before the first proof, and removes an older record."""

    def __init__(self):
        with contextlib.suppress(OSError):
            os.remove(FILE)
        self.commit = commit()

    def keep(self, lines):
        """Writes the last lines of a run in which nothing failed, if the same commit was checked out all the time."""
        if self.commit and commit() == self.commit:
            os.makedirs(os.path.dirname(FILE), exist_ok=True)
            with open(FILE, "w", encoding="utf-8") as it:
                json.dump({"commit": self.commit, "kit": kit(), "lines": lines}, it, indent=1)


def kept():
    """Returns the record of a `make test` that passed on the commit that is checked out, or None."""
    try:
        with open(FILE, encoding="utf-8") as it:
            found = json.load(it)
    except (OSError, ValueError):
        return None
    return found if found["commit"] == commit() else None
