#!/usr/bin/env python3
"""Proves and builds a crate and the crates that it depends on. Independent crates are proved in parallel.

usage: tools/prove.py [--jobs N] [--dry-run] [CRATE]

CRATE is a static library or a program; the default is boruvka. A program is run too, with the arguments in its file `args`
and the input in its file `stdin`, if it has these. `rt` allows only one command at a time in a crate and in those that it
depends on. So each library is proved in a build directory of its own: a copy of its files under .git, next to what was
built for it. (Without .git, it is under CRATE's out/.) The result goes into the library's own out/, as if `rt lib` had run
there. A crate that was proved before, and whose files are the same, takes a second. CRATE itself comes last, by `rt run` or
`rt lib` in its own folder. To continue an interrupted run, run the same command: what was proved stays.

  --jobs N    run at most N checks in parallel (default: the number of processors, but at most one for each 2.5 GB of
              free memory). The check that the longest chain of others waits for gets N processes, and every other check
              gets one. More processes end a check sooner, but take more processor time in total.
  --dry-run   only show in which order the crates would be proved, and how many processes each would get

The script prints what it will do to standard error, and then its progress: on a terminal one line that is overwritten,
otherwise a line per minute. If a crate isn't proved, it also prints the output of `rt`, and the exit status is 1. RT is the
command that proves (default: `rt`).
"""
import contextlib
import fcntl
import os
import re
import shutil
import signal
import subprocess
import sys
import time

sys.dont_write_bytecode = True

import toolchain
from crates import ROOT, below, crate_lines
from toolchain import RT

EACH = 2_500_000_000  # bytes of free memory for each check
PROCESS = 1_250_000_000  # bytes of free memory for each further process of a check
LARGE = 300  # lines of code and proofs from which on more than one process helps
LATER = ["nice", "-n", "5"]  # for checks that fewer others wait for: they use the processors that are left
SECONDS = 60  # between two lines of progress, if they aren't overwritten
# How long it took on other machines, from nothing.
ELSEWHERE = "10 to 30 minutes on four processors, once"
OF_LIBRARIES = {
    "boruvka_c": "5 to 15 minutes on four processors, once; 3 of them after `make run`",
    "boruvka_within": "2 minutes after the other libraries, once",
}
PARTS = ("src", "specs", "proofs")


class NotProved(Exception):
    pass


def free_memory():
    with open("/proc/meminfo", encoding="utf-8") as it:
        return 1024 * int(re.search(r"MemAvailable:\s+(\d+)", it.read())[1])


def lanes():
    """Returns how many checks can run in parallel."""
    try:
        return max(1, min(len(os.sched_getaffinity(0)), free_memory() // EACH))
    except (AttributeError, OSError, TypeError):
        return 1


def lines_of(crate):
    """Counts the lines of a crate's code, definitions and proofs."""
    count = 0
    for part in PARTS:
        for at, _, files in os.walk(f"{ROOT}/crates/{crate}/{part}"):
            for name in files:
                with open(f"{at}/{name}", "rb") as it:
                    count += it.read().count(b"\n")
    return count


class Plan:
    """Which crates wait for which, and how many lines the longest chain of dependents of each has."""

    def __init__(self, top, lines, most):
        self.top, self.lines, self.most = top, lines, most
        self.room = max(most, free_memory() // PROCESS)
        self.names = [*below(top, lines), top]
        self.below = {name: below(name, lines) for name in self.names}
        self.count = {name: lines_of(name) for name in self.names}
        self.chain = {}
        for name in reversed(self.names):
            self.chain[name] = self.count[name] + max([self.chain[it] for it in self.names if name in self.below[it]], default=0)

    def ready(self, begun, done):
        """Returns the libraries that can begin, the one with the longest chain of dependents first."""
        found = [it for it in self.names[:-1] if it not in begun and all(name in done for name in self.below[it])]
        return sorted(found, key=lambda it: -self.chain[it])

    def processes(self, name, taken, is_ahead):
        """Returns how many processes a check gets, if so many are in use and memory allows."""
        return min(self.most, max(1, self.room - taken)) if is_ahead and self.count[name] >= LARGE else 1

    def is_ahead(self, name, parallel):
        """Returns whether it has the longest chain of dependents of those that run."""
        return all(self.chain[it] <= self.chain[name] for it in parallel)


class Progress:
    """Prints the progress."""

    def __init__(self, count):
        self.count, self.begun, self.said, self.is_open = count, time.monotonic(), None, False
        self.shows = sys.stderr.isatty()

    def report(self, done, under_way):
        now = time.monotonic()
        if self.said is not None and now - self.said < (1 if self.shows else SECONDS):
            return
        self.said = now
        text = f"{done} of {self.count} crates proved, {(now - self.begun) / 60:.0f} min; at work on {', '.join(under_way)}"
        if self.shows:
            text = f"\r\x1b[K{text[: shutil.get_terminal_size().columns - 1]}"
        print(text, end="" if self.shows else "\n", file=sys.stderr, flush=True)
        self.is_open = self.shows

    def end(self):
        """Removes the line that is overwritten."""
        if self.is_open:
            print("\r\x1b[K", end="", file=sys.stderr, flush=True)
            self.is_open = False


def linked(folder, to):
    """Copies what was built, as links if possible: `rt` removes such a file before it writes it again."""

    def copy(one, other):
        try:
            os.link(one, other)
        except OSError:
            shutil.copy2(one, other)

    shutil.copytree(folder, to, copy_function=copy)


class Room:
    """A copy of a library, with what was built for it, in which `rt lib` runs."""

    def __init__(self, crate, plan, rooms):
        self.crate, self.room = crate, f"{rooms}/{crate}"
        self.folder, self.log = f"{self.room}/crates/{crate}", f"{self.room}/log"
        os.makedirs(self.folder)
        with open(f"{self.room}/crates.txt", "w", encoding="utf-8") as it:
            it.write("".join(plan.lines[name] for name in [*plan.below[crate], crate]))
        if os.path.exists(f"{ROOT}/HANDLES"):
            shutil.copy(f"{ROOT}/HANDLES", self.room)
        for name in [*plan.below[crate], crate]:
            for part in PARTS:
                if os.path.isdir(f"{ROOT}/crates/{name}/{part}"):
                    shutil.copytree(f"{ROOT}/crates/{name}/{part}", f"{self.room}/crates/{name}/{part}")
        for name in plan.below[crate]:
            linked(f"{ROOT}/crates/{name}/out/rlib", f"{self.room}/crates/{name}/out/rlib")
        if os.path.isdir(f"{ROOT}/crates/{crate}/out"):
            shutil.move(f"{ROOT}/crates/{crate}/out", f"{self.folder}/out")

    def begin(self, processes, is_ahead):
        self.processes = processes
        with open(self.log, "wb") as log:
            words = [*([] if is_ahead else LATER), *RT, "lib", "--jobs", str(processes)]
            # in a session of its own, so that all its processes can be ended
            self.process = subprocess.Popen(words, cwd=self.folder, stdin=subprocess.DEVNULL, stdout=log, stderr=log, start_new_session=True)

    def ended(self):
        """Returns whether it has ended. If so, moves what it built to the crate."""
        if self.process.poll() is None:
            return False
        with open(self.log, encoding="utf-8", errors="replace") as it:
            said = it.read()
        self.leave()
        if self.process.returncode:
            raise NotProved(f"{said}{self.crate} is not proved, so nothing was built")
        return True

    def leave(self):
        if self.process.poll() is None:
            with contextlib.suppress(OSError):
                os.killpg(self.process.pid, signal.SIGTERM)
            with contextlib.suppress(subprocess.TimeoutExpired):
                self.process.wait(10)
            with contextlib.suppress(OSError):
                os.killpg(self.process.pid, signal.SIGKILL)
            self.process.wait()
        put_back(self.crate, self.room)


def put_back(crate, room):
    """Moves what was built from a build directory to the crate, and removes the directory."""
    made, own = f"{room}/crates/{crate}/out", f"{ROOT}/crates/{crate}/out"
    if os.path.isdir(made) and not os.path.lexists(own) and os.path.isdir(os.path.dirname(own)):
        shutil.move(made, own)
    shutil.rmtree(room, ignore_errors=True)


@contextlib.contextmanager
def alone_in(crates):
    """Locks these crates' folders against other commands of `rt`, and waits until none works there."""
    held = []
    try:
        for crate in sorted(crates):
            held.append(os.open(f"{ROOT}/crates/{crate}", os.O_RDONLY))
            try:
                fcntl.flock(held[-1], fcntl.LOCK_EX | fcntl.LOCK_NB)
            except BlockingIOError:
                print(f"waiting for another command that is at work in crates/{crate}", file=sys.stderr, flush=True)
                fcntl.flock(held[-1], fcntl.LOCK_EX)
            except OSError:
                # some file systems have no locks
                pass
        yield
    finally:
        for it in held:
            os.close(it)


def recover(plan):
    """Restores what a killed `rt ci` had set aside. A lock shows whether it still runs."""
    aside, lock = f"{ROOT}/.git/rt-aside", f"{ROOT}/.git/rt-ci.lock"
    if not os.path.isdir(aside) or os.path.islink(aside):
        return
    with contextlib.suppress(OSError), open(lock, "w", encoding="utf-8") as held:
        fcntl.flock(held, fcntl.LOCK_EX | fcntl.LOCK_NB)
        for name in plan.names:
            for part in ("incremental", "rlib"):
                one, other = f"{aside}/{name}/{part}", f"{ROOT}/crates/{name}/out/{part}"
                if os.path.isdir(one) and not os.path.lexists(other):
                    os.makedirs(os.path.dirname(other), exist_ok=True)
                    shutil.move(one, other)


def prove_libraries(plan, progress):
    rooms = f"{ROOT}/.git/rooms" if os.path.isdir(f"{ROOT}/.git") else f"{ROOT}/crates/{plan.top}/out/rooms"
    with alone_in(plan.names):
        # left by a run that was killed
        for crate in os.listdir(rooms) if os.path.isdir(rooms) else []:
            put_back(crate, f"{rooms}/{crate}")
        recover(plan)
        running, done = {}, set()
        try:
            while len(done) < len(plan.names) - 1:
                begun = plan.ready({*running, *done}, done)[: plan.most - len(running)]
                parallel = [*running, *begun]
                for name in begun:
                    is_ahead = plan.is_ahead(name, parallel)
                    processes = plan.processes(name, sum(it.processes for it in running.values()), is_ahead)
                    running[name] = Room(name, plan, rooms)
                    running[name].begin(processes, is_ahead)
                progress.report(len(done), running)
                time.sleep(0.2)
                for name in [it for it in running if running[it].ended()]:
                    del running[name]
                    done.add(name)
        finally:
            for it in running.values():
                it.leave()
            shutil.rmtree(rooms, ignore_errors=True)


def is_program(crate):
    return os.path.isfile(f"{ROOT}/crates/{crate}/src/main.rt")


def is_static_library(crate, lines):
    return "staticlib" in lines[crate].partition(":")[0].split()


def arguments_of(folder):
    """Returns the arguments of a program: the lines of its file `args`."""
    if not os.path.isfile(f"{folder}/args"):
        return []
    with open(f"{folder}/args", encoding="utf-8") as it:
        return ["--", *it.read().splitlines()]


def prove_top(plan, progress):
    folder = f"{ROOT}/crates/{plan.top}"
    source = f"{folder}/stdin"
    log = f"{folder}/out/log"
    os.makedirs(f"{folder}/out", exist_ok=True)
    with open(source if os.path.isfile(source) else os.devnull, "rb") as given, open(log, "w+b") as said:
        words = [*RT, "run" if is_program(plan.top) else "lib", "--jobs", str(plan.processes(plan.top, 0, True)), *arguments_of(folder)]
        process = subprocess.Popen(words, cwd=folder, stdin=given, stdout=said, stderr=said, start_new_session=True)
        try:
            while process.poll() is None:
                progress.report(len(plan.names) - 1, [plan.top])
                with contextlib.suppress(subprocess.TimeoutExpired):
                    process.wait(0.2)
        finally:
            if process.poll() is None:
                with contextlib.suppress(OSError):
                    os.killpg(process.pid, signal.SIGTERM)
                process.wait()
        said.seek(0)
        text = said.read().decode(errors="replace")
    os.remove(log)
    if process.returncode:
        raise NotProved(f"{text}{plan.top} is not proved{', or its run failed' if is_program(plan.top) else ''}")


def show_order(plan):
    """Simulates `prove_libraries`: each check takes as long as its crate has lines."""
    ends, processes, done, now, number = {}, {}, set(), 0, 0
    while len(done) < len(plan.names) - 1:
        begun = plan.ready({*ends, *done}, done)[: plan.most - len(ends)]
        parallel = [*ends, *begun]
        for name in begun:
            number += 1
            is_ahead = plan.is_ahead(name, parallel)
            processes[name] = plan.processes(name, sum(processes[it] for it in ends), is_ahead)
            others = f"{'in parallel with ' if ends else 'alone'}{', '.join(ends)}{'' if is_ahead else ', at lower priority'}"
            print(f"{name} ({number} of {len(plan.names)}): {processes[name]} processes, {others}")
            ends[name] = now + plan.count[name]
        now = min(ends.values())
        for name in [it for it in ends if ends[it] == now]:
            del ends[name]
            done.add(name)
    print(f"{plan.top} ({len(plan.names)} of {len(plan.names)})")


def main(words):
    most, is_dry, names = None, False, []
    while words:
        word = words.pop(0)
        if word == "--jobs" and words and words[0].isdigit() and int(words[0]):
            most = int(words.pop(0))
        elif word == "--dry-run":
            is_dry = True
        elif not word.startswith("-"):
            names.append(word)
        else:
            print(__doc__, end="", file=sys.stderr)
            return 2
    lines = crate_lines()
    top = names[0] if names else "boruvka"
    if len(names) > 1 or top not in lines or not (is_program(top) or is_static_library(top, lines)):
        print(f"tools/prove.py: crates.txt has no program or static library {' '.join(names)}", file=sys.stderr)
        return 2
    plan = Plan(top, lines, most or lanes())
    if is_dry:
        show_order(plan)
        return 0
    why = toolchain.problem()
    if why:
        print(why, file=sys.stderr)
        return 1
    signal.signal(signal.SIGTERM, lambda *_: sys.exit(143))
    print(f"proves {len(plan.names)} crates, then builds; {OF_LIBRARIES.get(top, ELSEWHERE)}", file=sys.stderr, flush=True)
    progress = Progress(len(plan.names))
    try:
        prove_libraries(plan, progress)
        prove_top(plan, progress)
    except NotProved as error:
        progress.end()
        print(error, file=sys.stderr)
        return 1
    except KeyboardInterrupt:
        progress.end()
        print("interrupted; run the same command to continue", file=sys.stderr)
        return 130
    progress.end()
    return 0


if __name__ == "__main__":
    sys.exit(main(sys.argv[1:]))
