#!/usr/bin/env python3
"""Prints a file as it is installed: with the version, and with the folders in it.

usage: tools/stamp.py page
       tools/stamp.py FILE PREFIX LIBDIR INCLUDEDIR

`page` is the manual page. Its date is SOURCE_DATE_EPOCH if that is set, and otherwise that of the commit. If neither is
known, the page has no date. FILE is one that helps others to find the libraries: boruvka.pc or boruvka_within.pc for
pkg-config, or boruvka-config.cmake or boruvka-config-version.cmake for CMake. If LIBDIR is below PREFIX, the paths in FILE
are relative to FILE, so that the whole PREFIX can be moved. A folder outside PREFIX is named by its full path.
"""
import os
import re
import subprocess
import sys
import time

sys.dont_write_bytecode = True

from crates import ROOT

VERSION = "crates/program_words/src/version.rt"
PAGE = "man/boruvka.1"
PC = "include/boruvka.pc.in"
# The libraries, and their descriptions for pkg-config.
ABOUT = {"boruvka": "Minimum spanning forests in the caller's memory", "boruvka_within": "Minimum spanning forests within memory that the caller gives up"}
CMAKE = ("boruvka-config.cmake", "boruvka-config-version.cmake")


def text_of(path):
    with open(f"{ROOT}/{path}", encoding="utf-8") as it:
        return it.read()


def version():
    """Returns the version's number."""
    return re.search(r'^pub const RELEASE: &str = "(\d+\.\d+\.\d+)";$', text_of(VERSION), re.M)[1]


def git(*words):
    """Returns what git prints about this checkout, or None: there may be no git, or no checkout."""
    if not os.path.exists(f"{ROOT}/.git"):
        return None
    try:
        ended = subprocess.run(["git", "-C", ROOT, *words], capture_output=True, text=True, check=False)
    except OSError:
        return None
    return None if ended.returncode else ended.stdout.strip()


def seconds():
    """Returns the time of the release in seconds since 1970, or None if it isn't known."""
    told = os.environ.get("SOURCE_DATE_EPOCH") or git("log", "-1", "--format=%ct")
    return int(told) if told else None


def page():
    """Returns the manual page, with the date and the version in its first line."""
    at = seconds()
    date = "" if at is None else time.strftime("%Y-%m-%d", time.gmtime(at))
    made, count = re.subn(r'^\.TH BORUVKA 1 "" "boruvka" ', f'.TH BORUVKA 1 "{date}" "boruvka {version()}" ', text_of(PAGE), flags=re.M)
    if count != 1:
        sys.exit(f"tools/stamp.py: {PAGE} has no line for the date and the version")
    return made


def full(folder):
    """Returns the full path of a folder, as boruvka.pc has it."""
    return os.path.abspath(folder or "/").replace(" ", "\\ ")


def place(folder, prefix):
    """Returns the name of a folder in boruvka.pc: relative to the prefix, if it is below that."""
    below = os.path.relpath(folder or "/", prefix or "/")
    return full(folder) if below.split("/")[0] == ".." else "${prefix}/" + below.replace(" ", "\\ ")


def stamped(template, values):
    """Returns a template of include/ with these values filled in."""
    version_too = {"VERSION": version(), "MAJOR": version().split(".")[0], **values}
    return re.sub("@([A-Z]+)@", lambda it: version_too[it[1]], text_of(template))


def pc(name, prefix, libdir, includedir):
    """Returns the file with which pkg-config finds a library."""
    lib = place(libdir, prefix)
    # from LIBDIR/pkgconfig, which has the file
    up = os.path.relpath(prefix or "/", f"{libdir}/pkgconfig")
    values = {
        "PREFIX": f"${{pcfiledir}}/{up}" if lib.startswith("${prefix}") else full(prefix),
        "LIBDIR": lib,
        "INCLUDEDIR": place(includedir, prefix),
        "NAME": name,
        "ABOUT": ABOUT[name],
    }
    return stamped(PC, values)


def cmake(name, prefix, libdir, includedir):
    """Returns a file with which CMake finds the libraries. It will be in LIBDIR/cmake/boruvka."""
    can_move = all(place(it, prefix).startswith("${prefix}") for it in (libdir, includedir))
    near = os.path.relpath(includedir, f"{libdir}/cmake/boruvka")
    return stamped(f"include/{name}.in", {"INCLUDE": near if can_move else os.path.abspath(includedir)})


def main(words):
    if words == ["page"]:
        print(page(), end="")
    elif len(words) == 4 and words[0].removesuffix(".pc") in ABOUT:
        print(pc(words[0].removesuffix(".pc"), *words[1:]), end="")
    elif len(words) == 4 and words[0] in CMAKE:
        print(cmake(*words), end="")
    else:
        print(__doc__, end="", file=sys.stderr)
        return 2
    return 0


if __name__ == "__main__":
    sys.exit(main(sys.argv[1:]))
