#!/usr/bin/env python3
"""`make test`: runs `rt ci`, the tests of the built program (tests/program.py) and of the page (tests/web.py), in this order.

It prints their output except their last lines, then how long it took, and then each case that was skipped, with the reason.
The last line is `N passed, M failed` over all three, and no other line after that of `rt ci` has this form. The exit status
is 0 only if nothing failed. Then a record of the run is kept for a release (tools/record.py).

`rt ci` removes what `make` built. What isn't built again by the end is restored, also after an interruption.
"""
import contextlib
import glob
import os
import re
import resource
import shutil
import subprocess
import sys
import tempfile
import time

HERE = os.path.dirname(os.path.realpath(__file__))
ROOT = os.path.dirname(HERE)
PROGRAM = "crates/boruvka/out/boruvka"
LAST = re.compile(r"(\d+) passed, (\d+) failed\n?")
BUILT = ("crates/boruvka/out/boruvka", "crates/bench/out/bench", "crates/boruvka_c/out/libboruvka.*", "crates/boruvka_within/out/libboruvka_within.a", "crates/boruvka_within/out/boruvka.wasm")
SKIPPED = re.compile(r"(\w+: .*): skipped: (.*)\n?")
sys.dont_write_bytecode = True
sys.path.insert(0, f"{ROOT}/tools")

import toolchain
from record import Run


def shown(words, skipped):
    """Runs a command, prints its output except its line of results, and returns the exit status and the results. Adds the
    cases that it skipped to `skipped`."""
    told = None
    with subprocess.Popen(words, cwd=ROOT, stdout=subprocess.PIPE, stderr=subprocess.STDOUT, errors="replace") as started:
        for line in started.stdout:
            found = LAST.fullmatch(line)
            if found:
                told = int(found[1]), int(found[2])
            else:
                print(line, end="", flush=True)
                skipped += SKIPPED.findall(line)
    return started.returncode, told


@contextlib.contextmanager
def what_was_built():
    """Restores at the end what was built before, unless it was built again."""
    inside = f"{ROOT}/.git" if os.path.isdir(f"{ROOT}/.git") else None
    with tempfile.TemporaryDirectory(prefix="built-", dir=inside) as aside:
        paths = [it for pattern in BUILT for it in glob.glob(f"{ROOT}/{pattern}")]
        for number, path in enumerate(paths):
            shutil.copy2(path, f"{aside}/{number}")
        try:
            yield
        finally:
            for number, path in enumerate(paths):
                if not os.path.lexists(path) and os.path.isdir(os.path.dirname(os.path.dirname(path))):
                    os.makedirs(os.path.dirname(path), exist_ok=True)
                    shutil.copy2(f"{aside}/{number}", path)


def minutes_since(begun):
    used = resource.getrusage(resource.RUSAGE_CHILDREN)
    return f"{(used.ru_utime + used.ru_stime) / 60:.0f} processor minutes, {(time.monotonic() - begun) / 60:.0f} minutes"


def results(name, status, told):
    """Returns how many passed and failed. If a command failed but reported no failure, or no results at all, that counts as
    one failure."""
    passed, failed = told or (0, 0)
    if told is None:
        print(f"{name} ended without its results")
    return passed, failed + (told is None or status != 0 and not failed)


def by_reason(skipped):
    """Returns a line for each reason why cases were skipped."""
    reasons = {why: [name for name, other in skipped if other == why] for _, why in skipped}
    return [f"skipped, as {why}: {', '.join(names)}" for why, names in reasons.items()] or ["no case was skipped"]


def main():
    why = toolchain.problem()
    if why:
        print(why, file=sys.stderr)
        print("0 passed, 1 failed")
        return 1
    record, begun, skipped = Run(), time.monotonic(), []
    status, told = shown([*toolchain.RT, "ci"], skipped)
    found = {"rt ci": results("rt ci", status, told)}
    print(f"rt ci took {minutes_since(begun)}", flush=True)
    if not status and not os.access(f"{ROOT}/{PROGRAM}", os.X_OK):
        subprocess.run(["make", PROGRAM], cwd=ROOT, check=False)
    for name in ("program.py", "web.py"):
        found[f"tests/{name}"] = results(f"tests/{name}", *shown([sys.executable, f"{HERE}/{name}"], skipped))
    print(f"make test took {minutes_since(begun)}", flush=True)
    left_out = by_reason(skipped)
    print(*left_out, sep="\n")
    counts = [f"{name}: {passed} passed, {failed} failed" for name, (passed, failed) in found.items()]
    passed, failed = (sum(it) for it in zip(*found.values()))
    last = f"{passed} passed, {failed} failed"
    if not failed:
        record.keep([*counts, *left_out, last])
    print(last, flush=True)
    return 1 if failed else 0


if __name__ == "__main__":
    try:
        with what_was_built():
            sys.exit(main())
    except KeyboardInterrupt:
        print("interrupted; run the same command to continue", file=sys.stderr)
        sys.exit(130)
