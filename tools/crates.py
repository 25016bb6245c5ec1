"""The crates of crates.txt, and what each depends on."""
import os
import re

ROOT = os.path.dirname(os.path.dirname(os.path.realpath(__file__)))


def crate_lines():
    """Maps the name of each crate to its line."""
    with open(f"{ROOT}/crates.txt", encoding="utf-8") as it:
        lines = [line for line in it if line.strip() and not line.startswith("#")]
    return {re.match(r"\w+", line)[0]: line for line in lines}


def below(crate, lines):
    """Returns the crates that a crate depends on, lowest first."""
    found = []
    for name in lines[crate].partition(":")[2].split():
        if name in lines:
            found += [it for it in [*below(name, lines), name] if it not in found]
    return found
