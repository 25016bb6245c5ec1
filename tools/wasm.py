#!/usr/bin/env python3
"""Proves and builds the static library boruvka_within, and then its WebAssembly module boruvka.wasm, in the same folder.

usage: tools/wasm.py

The module is built from the same crate in a build directory below .git, whose crates.txt has `wasm64` instead of
`staticlib`. Everything else is the same. So what was proved for the library stays proved, and the module takes less than a
minute. It lacks the names of functions, which only a debugger would show. The same sources give the same bytes.

If the crate isn't proved, or the module can't be built, the script prints the output of `rt` to standard error and exits
with status 1.
"""
import os
import shutil
import subprocess
import sys
import tempfile

sys.dont_write_bytecode = True

import prove
from crates import ROOT, below, crate_lines

CRATE = "boruvka_within"
OWN = f"crates/{CRATE}"
MODULE = f"{ROOT}/{OWN}/out/boruvka.wasm"


def fill(room, lines):
    """Copies the files of the crate and of those that it depends on, with what was built of them."""
    names = below(CRATE, lines)
    with open(f"{room}/crates.txt", "w", encoding="utf-8") as it:
        it.write("".join(lines[name] for name in names) + lines[CRATE].replace(" staticlib", " wasm64", 1))
    shutil.copy(f"{ROOT}/HANDLES", room)
    for name in [*names, CRATE]:
        for part in prove.PARTS:
            if os.path.isdir(f"{ROOT}/crates/{name}/{part}"):
                shutil.copytree(f"{ROOT}/crates/{name}/{part}", f"{room}/crates/{name}/{part}")
    for name in names:
        prove.linked(f"{ROOT}/crates/{name}/out/rlib", f"{room}/crates/{name}/out/rlib")
    prove.linked(f"{ROOT}/{OWN}/out", f"{room}/{OWN}/out")


def number_at(content, at):
    """Returns the LEB128 number that begins there, and where it ends."""
    value = shift = 0
    while True:
        byte = content[at]
        value, shift, at = value | (byte & 127) << shift, shift + 7, at + 1
        if byte < 128:
            return value, at


def without_names(content):
    """Returns the module without the sections of function names and of its producers, which no engine needs."""
    kept, at = content[:8], 8
    while at < len(content):
        size, begins = number_at(content, at + 1)
        section, name = content[at : begins + size], b""
        if section[0] == 0:
            length, first = number_at(content, begins)
            name = content[first : first + length]
        kept, at = kept + (b"" if name in (b"name", b"producers") else section), begins + size
    return kept


def main(words):
    if words:
        print(__doc__, end="", file=sys.stderr)
        return 2
    status = prove.main([CRATE])
    if status:
        return status
    inside = f"{ROOT}/.git" if os.path.isdir(f"{ROOT}/.git") else f"{ROOT}/{OWN}/out"
    with tempfile.TemporaryDirectory(prefix="wasm-", dir=inside) as room:
        fill(room, crate_lines())
        made = subprocess.run([*prove.RT, "lib"], cwd=f"{room}/{OWN}", stdin=subprocess.DEVNULL, capture_output=True, text=True, errors="replace")
        if made.returncode:
            print(f"{made.stdout}{made.stderr}the WebAssembly module was not built", file=sys.stderr)
            return 1
        with open(f"{room}/{OWN}/out/{CRATE}.wasm", "rb") as it:
            content = without_names(it.read())
        with open(MODULE, "wb") as it:
            it.write(content)
    return 0


if __name__ == "__main__":
    sys.exit(main(sys.argv[1:]))
