#!/usr/bin/env python3
"""Mutation tests: each wrong body has to be rejected by the prover. Many are tried in one check.

Each `crates/NAME/wrong-bodies/*.edit` changes the body of a function. Edits of functions with different names go into one
copy of the crate, and one `rt check` of that copy has to report each of these functions as not proved. That works because a
body changes no contract, so each function is judged by itself. An edit that conflicts with another, or that changes more
than bodies, has a copy of its own.

A function counts as refused only for a reason of its own: a clause, a condition or a bound that isn't proved in its body or
in its proof files. Otherwise it is tried alone before it counts as survived, since the prover may wait for the function of
another edit. If its proof files only miss names that the edit removed, it is reported as suspicious.

An edit has the form that `rt must-fail` reads, after a first line `why:` with the clause that refuses it and the reason why
that matters:

    why: `FUNCTION`: `clause` refuses it: the reason
    file: src/FILE.rt
    old: a text that occurs once in that file
    new: the text that replaces it

First each crate is checked unchanged. Then its `out/` and those of the crates that it depends on are copied, so that only
what an edit touches is proved again. RT is the command that checks (default: `rt`). The last line, over all crates, is
`N wrong bodies refused, M survived`. The exit status is 0 only if none survived and every edit could be tried.
"""
import argparse
import os
import re
import resource
import shutil
import signal
import subprocess
import sys
import tempfile
import threading
import time
from collections import Counter
from concurrent.futures import ThreadPoolExecutor
from dataclasses import dataclass

ROOT = os.path.dirname(os.path.dirname(os.path.realpath(__file__)))
sys.dont_write_bytecode = True
sys.path.insert(0, f"{ROOT}/tools")

import toolchain
from crates import below, crate_lines
from toolchain import RT

FUNCTION = re.compile(r'(?m)^( *)(?:pub(?:\([^)]*\))? )?(?:const )?(?:unsafe )?(?:ghost )?(?:extern "C" )?fn (\w+)')
# The errors of a proof file that names something that the edit removed.
NAMES_ALONE = re.compile(r"has no field|is not in scope|has no `|was not admitted")
EACH = 4_000_000_000  # bytes of free memory for each crate that is tried
RUNNING, STOPPED = set(), threading.Event()


class Interrupted(Exception):
    pass


@dataclass
class Edit:
    name: str
    why: str
    changes: list  # tuples of a file, an old text and a new one
    touched: set  # the names of its functions; empty if it changes more than bodies


def functions_of(text):
    """Yields each function of a file in the layout of `rt fmt`: its names, where it begins, and where its body begins and
    ends.

    Errors of mutually recursive functions are reported under the name in their `#[cycle(..)]`."""
    for it in FUNCTION.finditer(text):
        cycle = re.search(r"#\[cycle\((\w+)\)\]\s*\Z", text[: it.start()])
        body = re.compile(rf"(?m)^{it[1]}(?! ).*\{{$").search(text, it.start())
        end = re.compile(rf"(?m)^{it[1]}\}}").search(text, body.end() if body else len(text))
        if end:
            yield {it[2], *(cycle.groups() if cycle else ())}, it.start(), body.end(), end.end()


def function_at(text, at):
    """Returns the innermost function at a position."""
    return max((it for it in functions_of(text) if it[1] <= at < it[3]), key=lambda it: it[1], default=None)


def read_edit(path):
    said, changes = {}, []
    with open(path, encoding="utf-8") as it:
        for word, text in re.findall(r"(?m)^(why|file|old|new): ?(.*)$", it.read()):
            if word == "new":
                changes.append((said.get("file", "").strip(), said.pop("old", None), text))
            said[word] = text
    return Edit(os.path.basename(path)[: -len(".edit")], said.get("why", "").strip(), changes, set())


def why_unusable(edit, texts):
    """Returns why an edit can't be tried, or None. Then it records which functions the edit touches."""
    if not edit.changes:
        return "it has no pair of an old and a new text"
    if not edit.why:
        return "it has no line that says why"
    made, touched = dict(texts), set()
    for file, old, new in edit.changes:
        if not file.startswith("src/") or file not in texts:
            return f"there is no file {file} of code"
        if old is None:
            return "a new text has no old one before it"
        # each change is looked up in the text that the earlier changes made
        text = made[file]
        if text.count(old) != 1:
            return "an old text doesn't occur exactly once in its file"
        made[file] = text.replace(old, new)
        it = function_at(text, text.index(old))
        # (everything outside the body, clauses included, has to be unchanged)
        is_body = it and made[file].startswith(text[: it[2]]) and made[file].endswith(text[it[3] - 1 :])
        touched |= it[0] if is_body else {None}
    edit.touched = set() if None in touched else touched
    return None


def applied(edits, texts):
    """Returns the texts after these edits, or None if an old text doesn't occur exactly once."""
    made = dict(texts)
    for file, old, new in (change for edit in edits for change in edit.changes):
        if made[file].count(old) != 1:
            return None
        made[file] = made[file].replace(old, new)
    return made


def packed(edits, texts):
    """Divides the edits among copies of the crate: those of a copy touch functions of different names."""
    copies = []
    for edit in edits:
        for copy in copies:
            if edit.touched and all(it.touched and not it.touched & edit.touched for it in copy) and applied([*copy, edit], texts):
                copy.append(edit)
                break
        else:
            copies.append([edit])
    return copies


def ran(flags, folder):
    """Returns the exit status and the output of `rt check`."""
    if STOPPED.is_set():
        raise Interrupted
    how = {"stdin": subprocess.DEVNULL, "stdout": subprocess.PIPE, "stderr": subprocess.STDOUT, "errors": "replace"}
    with subprocess.Popen([*RT, "check", *flags], cwd=folder, **how) as check:
        RUNNING.add(check)
        said = check.communicate()[0]
        RUNNING.discard(check)
    if STOPPED.is_set():
        raise Interrupted
    return check.returncode, said


def cut_off(*_):
    """Ends the checks, so that none continues without this script."""
    STOPPED.set()
    for it in list(RUNNING):
        it.terminate()


def texts_of(folder):
    """Maps the paths of a crate's code, relative to its folder, to their texts."""
    texts = {}
    for at, _, files in os.walk(f"{folder}/src"):
        for name in files:
            with open(f"{at}/{name}", encoding="utf-8") as it:
                texts[os.path.relpath(f"{at}/{name}", folder)] = it.read()
    return texts


class Room:
    """Copies a crate, and those that it depends on, into a folder of its own."""

    def __init__(self, crate, lines, folder, flags):
        self.source, self.folder, self.flags = f"{ROOT}/crates/{crate}", f"{folder}/crates/{crate}", flags
        names = below(crate, lines)
        for name in [*names, crate]:
            skipped = ["incremental", "must-fail", "wrong-bodies", *(["out"] if name == crate else [])]
            shutil.copytree(f"{ROOT}/crates/{name}", f"{folder}/crates/{name}", ignore=shutil.ignore_patterns(*skipped))
        with open(f"{folder}/crates.txt", "w", encoding="utf-8") as it:
            it.write("".join(lines[name] for name in [*names, crate]))
        if os.path.exists(f"{ROOT}/HANDLES"):
            shutil.copy(f"{ROOT}/HANDLES", folder)
        self.texts = texts_of(self.folder)

    def check(self, texts):
        """Returns the output of `rt check` for the crate with these texts, and its verdict. It reuses the crate's own checks."""
        shutil.rmtree(f"{self.folder}/out", ignore_errors=True)
        if os.path.isdir(f"{self.source}/out/incremental"):
            shutil.copytree(f"{self.source}/out/incremental", f"{self.folder}/out/incremental")
        for file, text in texts.items():
            with open(f"{self.folder}/{file}", "w", encoding="utf-8") as it:
                it.write(text)
        status, said = ran(self.flags, self.folder)
        last = next((it for it in reversed(said.split("\n")) if it.startswith("logic=")), "")
        # (it is a verdict only if the exit status agrees with that line)
        return said, last if last.startswith({0: "logic=proved", 1: "logic=not-proved"}.get(status, "\n")) else ""


def named(path):
    """Returns the function that a path names, and for a closure the function that contains it: `fn`, that one, its own."""
    # (the folder of a recursive function begins with a plus sign)
    return {path[-1].removeprefix("+"), *(it.removeprefix("+") for before, it in zip(path, path[1:]) if before == "fn")}


def verdict(edit, texts, said):
    """Returns 'refused', 'named' (only names are missing) or 'survived', and the reason that was reported."""
    names = ""
    for line in said.split("\n"):
        told = re.match(r"(?:note: |error: )?(?:\./)?((?:src|proofs)/\S+?):(\d+):\d+: (.*)", line)
        of = re.match(r"fn \w+::(\S+): (?:no proof|not proved)(.*)", line)
        if told and told[1].startswith("src/"):
            text = texts.get(told[1], "")
            function = function_at(text, len("\n".join(text.split("\n")[: int(told[2])])))
            own, is_refused = function[0] if function else set(), "it is not proved" in told[3]
        elif told and told[3].startswith("error"):
            own, is_refused = named(told[1].split("/")[:-1]), not NAMES_ALONE.search(told[3])
        elif of:
            own, is_refused = named(of[1].split("::")), "did not prove" in of[2]
        else:
            continue
        if not edit.touched or own & edit.touched:
            if is_refused:
                return "refused", line
            names = names or (line if told and told[1].startswith("proofs/") else "")
    return ("named", names) if names else ("survived", "")


def say(line):
    # (in one call: `print` writes the line feed separately, so another thread could write in between)
    sys.stdout.write(f"{line}\n")
    sys.stdout.flush()


def edits_of(crate, folders, texts, count):
    """Yields the edits of a crate that can be tried. Reports and counts the others."""
    for part in folders:
        where = f"{ROOT}/crates/{crate}/{part}"
        for name in sorted(os.listdir(where)) if os.path.isdir(where) else []:
            edit = read_edit(f"{where}/{name}")
            why = why_unusable(edit, texts) if name.endswith(".edit") else "its name doesn't end in .edit"
            if why:
                say(f"{crate}/{part}/{name}: BAD EDIT: {why}")
                count["unfit"] += 1
            else:
                yield edit


def try_crate(crate, lines, folders, flags):
    """Returns how many edits were refused, survived, and couldn't be tried."""
    count = Counter()
    with tempfile.TemporaryDirectory(prefix="wrong-bodies-") as folder:
        room = Room(crate, lines, folder, flags)
        queue = packed(list(edits_of(crate, folders, room.texts, count)), room.texts)
        while queue:
            copy = queue.pop(0)
            texts = applied(copy, room.texts)
            said, last = room.check(texts)
            for edit in copy:
                how_it_ended, line = verdict(edit, texts, said) if last.startswith("logic=not-proved") else ("survived", "")
                if len(copy) > 1 and how_it_ended != "refused":
                    # alone, so that the prover doesn't wait for another wrong body, and no name is missing because of another
                    queue.append([edit])
                elif not last:
                    first = next((it for it in said.split("\n") if "error" in it), said.strip().replace("\n", "; "))
                    say(f"{crate}/{edit.name}: BAD EDIT: it did not reach the prover: {first[:200]}")
                    count["unfit"] += 1
                elif how_it_ended == "survived":
                    say(f"{crate}/{edit.name}: SURVIVED")
                    count["survived"] += 1
                else:
                    note = " (SUSPICIOUS: only a proof file's names are missing; turn a value in its place)" if how_it_ended == "named" else ""
                    say(f"{crate}/{edit.name}: refused{note}: {line[:160]}")
                    count["refused"] += 1
    return count


def in_parallel():
    """Returns how many crates are tried in parallel by default."""
    with open("/proc/meminfo", encoding="utf-8") as it:
        free = 1024 * int(re.search(r"MemAvailable:\s+(\d+)", it.read())[1])
    return max(1, min(len(os.sched_getaffinity(0)) // 2, free // EACH))


def never_tried(lines):
    """Yields the edits that no run tries: in a folder of another name, or of a crate that isn't in crates.txt."""
    for at, _, files in os.walk(f"{ROOT}/crates"):
        crate, _, part = os.path.relpath(at, f"{ROOT}/crates").partition("/")
        if crate not in lines or part not in ("must-fail", "wrong-bodies"):
            yield from (f"{crate}/{part}/{name}" for name in files if name.endswith(".edit") and part.split("/")[0] != "out")


def changed_since(commit):
    """Returns the crates with a file that is new or differs from the commit, or None if git knows no such commit."""
    found = []
    for words in [["diff", "--name-only", commit, "--", "crates"], ["ls-files", "--others", "--exclude-standard", "crates"]]:
        told = subprocess.run(["git", "-C", ROOT, *words], capture_output=True, text=True, check=False)
        if told.returncode:
            return None
        found += told.stdout.splitlines()
    return {it.split("/")[1] for it in found}


def main():
    parser = argparse.ArgumentParser(description=__doc__, formatter_class=argparse.RawDescriptionHelpFormatter)
    parser.add_argument("--jobs", type=int, default=in_parallel(), help="crates in parallel (default: by processors and memory)")
    parser.add_argument("--must-fail", action="store_true", help="also the edits of must-fail/ (`rt must-fail` tries one at a time)")
    parser.add_argument("--since", metavar="COMMIT", help="only crates with a file that differs from this commit")
    parser.add_argument("crates", nargs="*", metavar="CRATE", help="only these crates")
    words, lines, begun = parser.parse_args(), crate_lines(), time.monotonic()
    changed = lines if words.since is None else changed_since(words.since)
    missing = [f"crates.txt has no crate {it}" for it in words.crates if it not in lines]
    missing += [f"git knows no commit {words.since}"] * (changed is None)
    if missing:
        print(f"tests/wrong_bodies.py: {missing[0]}", file=sys.stderr)
        return 2
    why = toolchain.problem()
    if why:
        print(why, file=sys.stderr)
        return 1
    names = [name for name in words.crates or lines if name in changed]
    if not names:
        say(f"no crate changed since {words.since}\n0 wrong bodies refused, 0 survived")
        return 0
    for it in (signal.SIGINT, signal.SIGTERM):
        signal.signal(it, cut_off)
    count = Counter()
    for name in sorted(never_tried(lines)) if names == list(lines) else []:
        say(f"{name}: BAD EDIT: it is in a folder whose edits are not tried")
        count["unfit"] += 1
    folders, proved = ["wrong-bodies"] + ["must-fail"] * words.must_fail, []
    # before any copy is made, because the check of a crate builds those that it depends on
    for name in names:
        if any(os.path.isdir(f"{ROOT}/crates/{name}/{part}") for part in folders):
            if ran([], f"{ROOT}/crates/{name}")[0]:
                say(f"{name}: the crate itself is not proved, so nothing was tried")
                count["unfit"] += 1
            else:
                proved.append(name)
    jobs = max(1, min(words.jobs, len(proved)))
    flags = ["--jobs", str(max(1, (os.cpu_count() or 1) // jobs))] if jobs > 1 else []
    with ThreadPoolExecutor(jobs) as pool:
        for found in pool.map(lambda name: try_crate(name, lines, folders, flags), proved):
            count += found
    used = resource.getrusage(resource.RUSAGE_CHILDREN)
    say(f"{time.monotonic() - begun:.0f} s, {used.ru_utime + used.ru_stime:.0f} s of processor time")
    if count["unfit"]:
        say(f"{count['unfit']} could not be tried")
    say(f"{count['refused']} wrong bodies refused, {count['survived']} survived")
    return 1 if count["survived"] or count["unfit"] else 0


if __name__ == "__main__":
    try:
        sys.exit(main())
    except Interrupted:
        sys.exit("interrupted")
