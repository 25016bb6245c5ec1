"""The scripts around the proofs, in small repositories with stand-ins for `rt`: `make test` fails if a part of it fails, it
keeps a record for a release, no crate is proved before those that it depends on, and wrong bodies are counted correctly."""
import collections
import json
import os
import re
import shutil
import signal
import stat
import subprocess
import sys
import time

import wrong_bodies
from crates import crate_lines

from cases.running import ROOT, SECONDS, SMALL_FOREST, TESTS, Skipped, case


def expect(found, wanted):
    if found != wanted:
        raise AssertionError(f"wanted {wanted}\n    found  {found}")


class Folder:
    """A small repository."""

    def __init__(self, room, copied):
        self.room = room
        for path in copied:
            os.makedirs(os.path.dirname(f"{room}/{path}"), exist_ok=True)
            shutil.copy(f"{ROOT}/{path}", f"{room}/{path}")

    def put(self, path, text):
        os.makedirs(os.path.dirname(f"{self.room}/{path}"), exist_ok=True)
        with open(f"{self.room}/{path}", "w", encoding="utf-8") as it:
            it.write(text)

    def put_program(self, path, text):
        self.put(path, f"#!/bin/sh\n{text}\n")
        os.chmod(f"{self.room}/{path}", stat.S_IRWXU)

    def read(self, path):
        with open(f"{self.room}/{path}", encoding="utf-8") as it:
            return it.read()

    def commit(self):
        """Commits everything, and returns the commit."""
        git = ["git", "-C", self.room, "-c", "user.name=a name", "-c", "user.email=", "-c", "commit.gpgsign=false"]
        for words in [["init", "-q"], ["add", "-A"], ["commit", "-q", "-m", "all"]]:
            subprocess.run([*git, *words], check=True, timeout=SECONDS)
        return subprocess.run([*git, "rev-parse", "HEAD"], check=True, capture_output=True, text=True, timeout=SECONDS).stdout.strip()


# ---- make test


class Gated(Folder):
    """A repository with only tests/gate.py, and a built program."""

    def __init__(self, room):
        super().__init__(room, ["tests/gate.py", "tools/record.py", "tools/stamp.py", "tools/crates.py", "tools/toolchain.py"])
        self.put_program("crates/boruvka/out/boruvka", "exit 1")

    def run(self, of_ci, of_program, of_web=("0", "0 passed, 0 failed")):
        """Returns the exit status and the lines of tests/gate.py, if `rt`, program.py and web.py print and exit like this."""
        shown = " ".join(f"'{it}'" for it in of_ci[1:])
        self.put_program("bin/rt", f"[ \"$*\" = ci ] || exit 9\nprintf '%s\\n' {shown}\nexit {of_ci[0]}")
        for name, (status, *lines) in [("program", of_program), ("web", of_web)]:
            self.put(f"tests/{name}.py", f"print({chr(10).join(lines)!r})\nraise SystemExit({status})\n")
        env = {**os.environ, "PATH": f"{self.room}/bin:{os.environ['PATH']}", "RT": "rt"}
        words = [sys.executable, f"{self.room}/tests/gate.py"]
        ended = subprocess.run(words, env=env, stdin=subprocess.DEVNULL, capture_output=True, text=True, timeout=SECONDS, check=False)
        return ended.returncode, ended.stdout.splitlines()

    def expect(self, of_ci, of_program, status, last, *of_web):
        """Expects this status and last line, and no other line of results."""
        found = self.run(of_ci, of_program, *of_web)
        results = [it for it in found[1] if re.fullmatch(r"\d+ passed, \d+ failed", it)]
        before = [it for it in of_program[1:] if re.fullmatch(r"\d+ passed, \d+ failed", it)]
        if found[0] != status or found[1][-1:] != [last] or len(results) > 1 + len(before) or of_ci[-1] in results[:-1]:
            raise AssertionError(f"wanted {status} and {last}, found {found}")
        return found[1]


@case
def make_test_fails_if_a_part_fails_or_reports_nothing(room):
    it = Gated(room)
    passed, program = ["0", "rt: all is proved", "12 passed, 0 failed"], ["0", "3 passed, 0 failed"]
    expect(it.expect(passed, program, 0, "15 passed, 0 failed")[:1], ["rt: all is proved"])
    for of_ci, of_program, last in [
        (["1", "11 passed, 1 failed"], program, "14 passed, 1 failed"),
        (["3", "12 passed, 0 failed"], program, "15 passed, 1 failed"),
        (["0", "rt: all is proved"], program, "3 passed, 1 failed"),
        (["0", "12 passed, 0 failed, 1 skipped"], program, "3 passed, 1 failed"),
        (passed, ["1", "2 passed, 1 failed"], "14 passed, 1 failed"),
        (passed, ["0", "a word"], "12 passed, 1 failed"),
        (passed, ["1", "3 passed, 0 failed"], "15 passed, 1 failed"),
    ]:
        it.expect(of_ci, of_program, 1, last)
    it.expect(passed, program, 1, "17 passed, 1 failed", ["1", "2 passed, 1 failed"])
    it.expect(passed, program, 1, "15 passed, 1 failed", ["0", "a word"])


@case
def make_test_lists_last_what_was_skipped(room):
    it = Gated(room)
    passed = ["0", "12 passed, 0 failed"]
    program = ["0", "program: one: ok, 0.1 s", "program: two: skipped: there is no fish", "program: three: skipped: no Python has numpy", "3 passed, 0 failed"]
    web = ["0", "web: four: skipped: there is no fish", "1 passed, 0 failed"]
    wanted = ["skipped, as there is no fish: program: two, web: four", "skipped, as no Python has numpy: program: three", "16 passed, 0 failed"]
    expect(it.expect(passed, program, 0, wanted[-1], web)[-3:], wanted)
    expect(it.expect(passed, ["0", "3 passed, 0 failed"], 0, "15 passed, 0 failed")[-2:], ["no case was skipped", "15 passed, 0 failed"])


@case
def make_test_records_what_a_commit_passed(room):
    if not shutil.which("git"):
        raise Skipped("there is no git")
    it = Gated(room)
    it.put(".gitignore", "out/\nbin/\ntests/program.py\ntests/web.py\n")
    head, record = it.commit(), "crates/boruvka/out/gate.json"
    passed, program = ["0", "12 passed, 0 failed"], ["0", "3 passed, 0 failed"]
    it.expect(passed, program, 0, "15 passed, 0 failed")
    found = json.loads(it.read(record))
    lines = [f"{name} passed, 0 failed" for name in ("rt ci: 12", "tests/program.py: 3", "tests/web.py: 0")]
    lines += ["no case was skipped", "15 passed, 0 failed"]
    expect((found["commit"], found["lines"]), (head, lines))
    it.expect(passed, ["1", "2 passed, 1 failed"], 1, "14 passed, 1 failed")
    expect(os.path.exists(f"{room}/{record}"), False)


@case
def make_test_restores_what_was_built(room):
    it = Gated(room)
    it.put("crates/boruvka_c/out/libboruvka.so.1", "an old one")
    it.put("crates/boruvka_within/out/boruvka.wasm", "a module")
    removes = f"rm -r '{room}/crates/boruvka_c/out' '{room}/crates/boruvka_within/out'"
    for name in ("program", "web"):
        it.put(f"tests/{name}.py", "print('1 passed, 0 failed')\n")
    # once with nothing built again, once with one of them
    for again, wanted in [("", "an old one"), (f"mkdir '{room}/crates/boruvka_c/out'; echo new > '{room}/crates/boruvka_c/out/libboruvka.so.1'", "new\n")]:
        it.put_program("removes", f"{removes}\n{again}")
        it.put("crates/boruvka_c/out/libboruvka.so.1", "an old one")
        it.put_program("bin/rt", f"[ \"$*\" = ci ] || exit 9\n'{room}/removes'\necho '12 passed, 0 failed'")
        env = {**os.environ, "PATH": f"{room}/bin:{os.environ['PATH']}", "RT": "rt"}
        subprocess.run([sys.executable, f"{room}/tests/gate.py"], env=env, stdin=subprocess.DEVNULL, capture_output=True, timeout=SECONDS, check=False)
        expect((it.read("crates/boruvka_c/out/libboruvka.so.1"), it.read("crates/boruvka_within/out/boruvka.wasm")), (wanted, "a module"))


@case
def an_interrupted_run_says_so_in_one_line(room):
    gate, chain, bodies = Gated(f"{room}/gate"), Chain(f"{room}/chain"), Bodies(f"{room}/bodies")
    bodies.put_edit("a", turned("give(1)", "give(7)"))
    go_on = "interrupted; run the same command to continue"
    for folder, words, told in [(gate, ["tests/gate.py"], go_on), (chain, ["tools/prove.py", "program"], go_on), (bodies, ["tests/wrong_bodies.py"], "interrupted")]:
        folder.put_program("waits", f"[ $1 = version ] && exit 0\ntrap 'exit 1' INT\ntouch '{folder.room}/begun'\nwhile :; do sleep 0.1; done")
        command = [sys.executable, *(f"{folder.room}/{it}" if "/" in it else it for it in words)]
        how = {"stdin": subprocess.DEVNULL, "stdout": subprocess.PIPE, "stderr": subprocess.STDOUT, "text": True, "start_new_session": True}
        with subprocess.Popen(command, env={**os.environ, "RT": f"{folder.room}/waits"}, **how) as begun:
            until = time.monotonic() + SECONDS
            while not os.path.exists(f"{folder.room}/begun") and time.monotonic() < until:
                time.sleep(0.05)
            os.killpg(begun.pid, signal.SIGINT)
            said = begun.communicate(timeout=SECONDS)[0].splitlines()
        expect((words, begun.returncode != 0, said[-1:], [it for it in said if "Traceback" in it]), (words, True, [told], []))


class Begun(Folder):
    """A repository with only .ci/run, and stand-ins for what it calls. `calls` has the calls of apt-get."""

    def __init__(self, room):
        super().__init__(room, [".ci/run"])
        os.mkdir(f"{room}/bin")
        for name in ("bash", "sh", "dirname", "id", "timeout"):
            os.symlink(shutil.which(name), f"{room}/bin/{name}")
        self.put_program("bin/make", 'echo "made $*"\nexit 7')
        self.put_program("bin/sudo", '[ "$1" = -n ] && shift && exec "$@"')
        for name in ("zsh", "fish", "mawk", "gawk", "busybox", "cmake", "lintian", "chromium", "chromedriver", "python"):
            self.put_program(f"bin/{name}", "")
        for name in ("firefox-esr", "eslint", "WebKitWebDriver", "Xvfb", "tsc"):
            self.put_program(f"bin/{name}", "")
        # (one folder has all of PostgreSQL)
        self.put_program("bin/pg_config", f'[ "$1" = --version ] && echo "PostgreSQL 16.1" || echo "{room}/postgres"')
        for name in ("initdb", "extension/pgrouting.control"):
            self.put(f"postgres/{name}", "")

    def put_apt_get(self, body):
        self.put_program("bin/apt-get", f'echo "$*" | tr " " "\\n" | tail -n 1 >> "{self.room}/calls"\n{body}')
        for name in ("tr", "tail"):
            if not os.path.exists(f"{self.room}/bin/{name}"):
                os.symlink(shutil.which(name), f"{self.room}/bin/{name}")

    def run(self):
        """Returns the lines that it prints, the last of which is printed by `make`, and the calls of apt-get."""
        self.put("calls", "")
        env = {"PATH": f"{self.room}/bin", "PYTHON": f"{self.room}/bin/python"}
        ended = subprocess.run([f"{self.room}/.ci/run"], env=env, stdin=subprocess.DEVNULL, capture_output=True, text=True, timeout=SECONDS, check=False)
        *lines, last = ended.stdout.splitlines()
        expect((ended.returncode, last, ended.stderr), (7, "made test", ""))
        return lines, self.read("calls").split()


@case
def what_cases_would_skip_is_installed(room):
    it = Begun(room)
    expect(it.run(), ([], []))
    it.put_apt_get("exit 0")
    expect(it.run(), ([], []))
    for name in ("fish", "chromedriver", "WebKitWebDriver", "tsc"):
        os.remove(f"{room}/bin/{name}")
    it.put_program("bin/python", "exit 1")
    os.remove(f"{room}/postgres/extension/pgrouting.control")
    modules = ("scipy", "sklearn", "pandas", "matplotlib", "pytest", "psycopg2", "gdal", "dask", "distributed", "networkx", "mypy")
    lacking = ["fish", "chromium-driver", "webkit2gtk-driver", "libwebkit2gtk-4.1-0", "node-typescript", *(f"python3-{name}" for name in modules)]
    lacking += ["postgresql-16-pgrouting"]
    expect(it.run(), ([f"installing {' '.join(lacking)}"], ["update", *lacking]))
    # without a network, with an unknown package, and without apt-get, `make test` runs anyway
    it.put_apt_get("exit 100")
    expect(it.run(), ([f"installing {' '.join(lacking)}", *(f"{name} can't be installed here" for name in lacking)], ["update", *lacking]))
    it.put_apt_get('case "$*" in *fish) exit 100;; esac')
    expect(it.run()[0][1:], ["fish can't be installed here"])
    os.remove(f"{room}/bin/pg_config")
    expect(it.run()[1][-3:], ["postgresql-15", "postgresql-server-dev-15", "postgresql-15-pgrouting"])
    os.remove(f"{room}/bin/apt-get")
    expect(it.run(), ([], []))


# ---- what needs the toolchain, and what runs before any proof


class Made(Folder):
    """A repository with the Makefile and its tools, and built libraries."""

    def __init__(self, room):
        tools = [f"tools/{it}" for it in os.listdir(f"{ROOT}/tools") if it.endswith(".py")]
        super().__init__(room, ["Makefile", "crates.txt", "tests/gate.py", "tests/wrong_bodies.py", "crates/program_words/src/version.rt", *tools])
        self.put("crates/boruvka/src/main.rt", "")
        for name in ("libboruvka.a", "libboruvka.so"):
            self.put(f"crates/boruvka_c/out/{name}", "")
            os.utime(f"{room}/crates/boruvka_c/out/{name}", (0, 0))

    def make(self, target, rt):
        """Returns exit status, standard output and standard error, with this command as `rt`."""
        env = {it: word for it, word in os.environ.items() if it not in ("MAKEFLAGS", "MAKELEVEL", "MFLAGS")}
        ended = subprocess.run(["make", "-C", self.room, "--no-print-directory", target], env={**env, "RT": rt}, capture_output=True, text=True, timeout=SECONDS, check=False)
        return ended.returncode, ended.stdout, ended.stderr


@case
def what_needs_the_toolchain_says_so(room):
    it = Made(room)
    said = "To prove and build, the Rattle toolchain's command `no-such-command` has to be on the PATH: see the README."
    old = it.room + "/old"
    it.put_program("old", "echo rattle-kit-13a logic 0")
    too_old = "The Rattle toolchain is rattle-kit-13a, which is too old: rattle-kit-13b or later is needed."
    for target in ("try", "run", "lib", "wasm", "test", "wrong"):
        for rt, wanted in [("no-such-command", said), (old, too_old)]:
            status, output, errors = it.make(target, rt)
            told = [line for line in errors.splitlines() if not line.startswith("make: ")]
            expect((target, status != 0, told, output), (target, True, [wanted], "0 passed, 1 failed\n" if target == "test" else ""))
    # nothing that was built is lost
    expect(sorted(os.listdir(f"{room}/crates/boruvka_c/out")), ["libboruvka.a", "libboruvka.so"])


@case
def the_release_of_the_toolchain_is_compared(room):
    it = Folder(room, ["tools/toolchain.py"])
    for printed, is_old in [
        ("rattle-kit-13b logic 0", False), ("rattle-kit-13f logic 0", False), ("rattle-kit-14 logic 0", False), ("rattle-kit-13a", True),
        ("rattle-kit-13", True), ("rattle-kit-9z", True), ("another toolchain", False),
    ]:
        it.put_program("rt", f"[ $1 = version ] && echo {printed}")
        words = [sys.executable, f"{room}/tools/toolchain.py"]
        ended = subprocess.run(words, env={**os.environ, "RT": f"{room}/rt"}, capture_output=True, text=True, timeout=SECONDS, check=False)
        expect((printed, ended.returncode, "is too old" in ended.stderr), (printed, int(is_old), is_old))


@case
def what_a_library_needs_is_looked_for_first(room):
    it = Made(room)
    it.put_program("bin/rt", f"echo called >> '{room}/calls'")
    for name in ("make", "python3", "find", "sed", "sh", "rm", "cc", "ar", "objcopy"):
        os.symlink(shutil.which(name), f"{room}/bin/{name}")
    for name, wanted in [("objcopy", "`objcopy` has to be on the PATH (it is part of binutils)"), ("ar", "`ar` has to be on the PATH (it is part of binutils)"), ("cc", "`cc` has to be on the PATH.")]:
        os.remove(f"{room}/bin/{name}")
        ended = subprocess.run(["make", "-C", room, "lib"], env={"PATH": f"{room}/bin", "RT": f"{room}/bin/rt"}, capture_output=True, text=True, timeout=SECONDS, check=False)
        expect((name, ended.returncode != 0, wanted in ended.stderr), (name, True, True))
        os.symlink(shutil.which(name), f"{room}/bin/{name}")
    # the toolchain was only asked for its release
    expect(it.read("calls"), "called\n" * 3)


@case
def a_try_proves_nothing_and_says_so(room):
    it = Made(room)
    it.put_program("bin/rt", 'echo "$(basename "$PWD"): $*"')
    status, output, errors = it.make("try", f"{room}/bin/rt")
    expect((status, output), (0, "boruvka: try --data small.gr=../../examples/small.gr -- --plain small.gr\n"))
    expect(errors, "Nothing is proved yet: this run only has checks of memory, of indices and of overflow. It takes about two minutes.\n")


@case
def a_try_has_the_forest_of_the_example(_room):
    if not shutil.which("rt"):
        raise Skipped("there is no rt")
    env = {it: word for it, word in os.environ.items() if it not in ("MAKEFLAGS", "MAKELEVEL", "MFLAGS")}
    words = ["make", "-s", "-C", ROOT, "try"]
    ended = subprocess.run(words, env=env, stdin=subprocess.DEVNULL, capture_output=True, timeout=20 * SECONDS, check=False)
    is_told = b" proved=no\n" in ended.stdout + ended.stderr
    expect((ended.returncode, ended.stdout[: len(SMALL_FOREST)], is_told), (0, SMALL_FOREST, True))


# ---- tools/prove.py

# It appends each call to CALLS: its arguments and its crate. A crate is proved if those that it depends on were built next to
# it, and BAD doesn't name it; then it gets out/rlib. If MEET names crates, each of them waits until all have started. `run`
# writes its arguments and its input to out/ran.
RT = r"""
import os, re, sys, time
if sys.argv[1] == "version":
    sys.exit()
crate, calls = os.path.basename(os.getcwd()), os.environ["CALLS"]
with open(calls, "a", encoding="utf-8") as it:
    it.write(f"{' '.join(sys.argv[1:])}: {crate}\n")
with open("../../crates.txt", encoding="utf-8") as it:
    below = next(line.partition(":")[2].split() for line in it if re.match(rf"{crate}\b", line))
meet = os.environ.get("MEET", "").split()
for _ in range(200):
    with open(calls, encoding="utf-8") as it:
        begun = {line.split()[-1] for line in it}
    if crate not in meet or begun >= set(meet):
        break
    time.sleep(0.1)
else:
    sys.exit(f"{crate}: alone")
for name in below:
    if not os.path.isfile(f"../{name}/out/rlib/{name}"):
        sys.exit(f"{crate}: {name} was not built")
if crate in os.environ.get("BAD", "").split():
    print("a goal is left")
    sys.exit(1)
os.makedirs("out/rlib", exist_ok=True)
if sys.argv[1] == "run":
    with open("out/ran", "w", encoding="utf-8") as it:
        it.write(" ".join(sys.argv[2:]) + "\n" + sys.stdin.read())
open(f"out/rlib/{crate}", "w").close()
"""
CRATES = "# a comment\nlow:\nleft: low\nright: low\nprogram: left right\narchive staticlib: left\nboruvka_c staticlib: left\nother: low\n"


class Chain(Folder):
    """A repository with a program and a static library over three libraries, and one more library."""

    def __init__(self, room):
        super().__init__(room, ["tools/prove.py", "tools/crates.py", "tools/toolchain.py"])
        self.put("rt.py", RT)
        self.put("crates.txt", CRATES)
        for crate in ("low", "left", "right", "archive", "boruvka_c", "other"):
            self.put(f"crates/{crate}/src/lib.rt", f"// {crate}\n")
        self.put("crates/program/src/main.rt", "// program\n")
        self.put("crates/program/args", "--one\ntwo words\n")
        self.put("crates/program/stdin", "what it reads\n")

    def run(self, words, **more):
        """Returns exit status, standard error, and each call of `rt`, without the number of its processes."""
        self.put("calls", "")
        env = {**os.environ, "RT": f"'{sys.executable}' '{self.room}/rt.py'", "CALLS": f"{self.room}/calls", **more}
        words = [sys.executable, f"{self.room}/tools/prove.py", "--jobs", "2", *words]
        ended = subprocess.run(words, env=env, capture_output=True, text=True, timeout=SECONDS, check=False)
        expect(ended.stdout, "")
        calls = [line.split() for line in self.read("calls").splitlines()]
        return ended.returncode, ended.stderr, [" ".join([it[0], it[-1]]) for it in calls]

    def built(self):
        """Returns the crates that were built in their folders. Expects that no build directory is left."""
        crates = f"{self.room}/crates"
        expect([it for it, folders, _ in os.walk(self.room) if "rooms" in folders], [])
        return {it for it in os.listdir(crates) if os.path.isfile(f"{crates}/{it}/out/rlib/{it}")}


@case
def a_program_and_a_static_library_come_after_their_dependencies(room):
    it = Chain(room)
    status, told, calls = it.run(["program"], MEET="left right")
    expect((status, calls[:1], sorted(calls[1:3]), calls[3:]), (0, ["lib low"], ["lib left", "lib right"], ["run program"]))
    expect(it.built(), {"low", "left", "right", "program"})
    ran = it.read("crates/program/out/ran").split("\n", 1)
    expect((ran[0].partition(" -- ")[2], ran[1]), ("--one two words", "what it reads\n"))
    said = told.splitlines()
    expect(said[:2], ["proves 4 crates, then builds; 10 to 30 minutes on four processors, once", "0 of 4 crates proved, 0 min; at work on low"])
    status, _, calls = it.run(["archive"])
    expect((status, calls[-1:], "archive" in it.built()), (0, ["lib archive"], True))
    # the library for C has another estimate
    _, told, _ = it.run(["boruvka_c"])
    expect(told.splitlines()[0], "proves 3 crates, then builds; 5 to 15 minutes on four processors, once; 3 of them after `make run`")


@case
def what_a_killed_check_set_aside_is_found_again(room):
    it = Chain(room)
    it.put(".git/rt-aside/left/rlib/from_before", "")
    it.put(".git/rt-aside/left/incremental/from_before", "")
    it.put("crates/low/out/rlib/newer", "")
    it.put(".git/rt-aside/low/rlib/older", "")
    expect(it.run(["program"])[0], 0)
    found = [os.path.isfile(f"{room}/crates/{path}") for path in ("left/out/rlib/from_before", "left/out/incremental/from_before", "low/out/rlib/newer", "low/out/rlib/older")]
    expect(found, [True, True, True, False])


@case
def nothing_is_proved_over_a_crate_that_is_not(room):
    it = Chain(room)
    status, told, calls = it.run(["program"], BAD="left", MEET="left right")
    expect((status, sorted(calls)), (1, ["lib left", "lib low", "lib right"]))
    expect(told.endswith("a goal is left\nleft is not proved, so nothing was built\n"), True)
    expect(it.built() & {"left", "program"}, set())
    # what was proved stays, and the next run continues
    expect("low" in it.built(), True)
    expect(it.run(["program"])[0], 0)
    expect(it.built(), {"low", "left", "right", "program"})
    status, told, _ = it.run(["program"], BAD="program")
    expect((status, told.endswith("a goal is left\nprogram is not proved, or its run failed\n")), (1, True))
    for name in ("other", "nothing"):
        expect(it.run([name]), (2, f"tools/prove.py: crates.txt has no program or static library {name}\n", []))


# ---- wrong bodies

# It judges each function of src/lib.rt by its body: `give(N)` is right if the clause says N. It appends each check to CALLS. In
# a copy, it ends as ENDS says (an exit status and a last line).
PROVER = r"""
import os, re, sys
if sys.argv[1] == "version":
    sys.exit()
is_copy, wrong = "/wrong-bodies-" in os.getcwd(), False
with open(os.environ["CALLS"], "a", encoding="utf-8") as calls:
    calls.write(f"{os.getpid()} {os.path.basename(os.getcwd())}\n")
with open("src/lib.rt", encoding="utf-8") as it:
    text = it.read()
if is_copy and "ENDS" in os.environ:
    status, last = os.environ["ENDS"].split(" ", 1)
    print(last)
    sys.exit(int(status))
for it in re.finditer(r"fn (\w+)\(\) -> u8\n    ensures \|it\| it == (\d),\n\{\n    (.*)\n\}", text):
    name, number, value = it.groups()
    line = text.count("\n", 0, it.start(3)) + 1
    if value == "noted()":
        print(f"note: src/lib.rt:{line}:5: it is not proved at first that the clause holds")
    if value in (f"give({number})", "passes()", "noted()"):
        continue
    wrong = True
    if value == "gone()":
        print(f"proofs/{name}/body.oantt:1:1: error: `gone` is not in scope")
    elif value == "told()":
        print(f"fn small::{name}: not proved: `auto` did not prove it")
    elif value == "closed()":
        print(f"proofs/fn/{name}/all/body.oantt:1:1: error: a goal is left")
    elif value == "closed_told()":
        print(f"fn small::fn::{name}::all: not proved: `auto` did not prove it")
    elif value == "elsewhere()":
        print("src/lib.rt:4:5: error: it is not proved that the clause holds")
        print("proofs/one/body.oantt:1:1: error: a goal is left")
        print("fn small::one: not proved: `auto` did not prove it")
    elif value != "waits()":
        print(f"src/lib.rt:{line}:5: error: it is not proved that the clause holds")
print("logic=not-proved functions=1" if wrong else "logic=proved functions=1")
sys.exit(wrong)
"""
GOAL = "error: it is not proved that the clause holds"


def function(name, number, before=""):
    return f"{before}pub fn {name}() -> u8\n    ensures |it| it == {number},\n{{\n    give({number})\n}}\n"


def turned(old, new, why="why: `one`: its clause refuses it\n", file="src/lib.rt"):
    return f"{why}file: {file}\nold: {old}\nnew: {new}\n"


class Bodies(Folder):
    """A repository with the crates `small`, which has three functions, and `other`, which has one."""

    def __init__(self, room):
        super().__init__(room, ["tests/wrong_bodies.py", "tools/crates.py", "tools/toolchain.py"])
        self.put("crates.txt", "small:\nother: small\n")
        self.put("prover.py", PROVER)
        self.put("crates/small/src/lib.rt", function("one", 1) + function("two", 2) + function("three", 3))
        self.put("crates/other/src/lib.rt", function("four", 4))

    def put_edit(self, name, text, crate="small", folder="wrong-bodies"):
        self.put(f"crates/{crate}/{folder}/{name}.edit", text)

    def expect(self, status, lines, checks, words=("--jobs", "1"), **more):
        """Returns its exit status, its lines without the one with times (sorted, except the last), and the number of checks."""
        self.put("calls", "")
        env = {**os.environ, "RT": f"'{sys.executable}' '{self.room}/prover.py'", "CALLS": f"{self.room}/calls", **more}
        words = [sys.executable, f"{self.room}/tests/wrong_bodies.py", *words]
        ended = subprocess.run(words, env=env, stdin=subprocess.DEVNULL, stdout=subprocess.PIPE, stderr=subprocess.STDOUT, text=True, timeout=SECONDS, check=False)
        said = [it for it in ended.stdout.splitlines() if not it.endswith(" s of processor time")]
        found = ended.returncode, sorted(said[:-1]), said[-1:], len(self.read("calls").splitlines())
        expect(found, (status, sorted(lines[:-1]), lines[-1:], checks))


@case
def wrong_bodies_of_several_functions_share_a_copy(room):
    it = Bodies(room)
    it.put_edit("a", turned("give(1)", "give(7)"))
    it.put_edit("b", turned("give(2)", "told()"))
    it.put_edit("c", turned("give(3)", "give(7)"), folder="must-fail")
    it.put_edit("d", turned("give(4)", "give(7)"), crate="other")
    own = "fn small::two: not proved: `auto` did not prove it"
    small = [f"small/a: refused: src/lib.rt:4:5: {GOAL}", f"small/b: refused: {own}"]
    other = [f"other/d: refused: src/lib.rt:4:5: {GOAL}"]
    # a check of each crate, then one of each copy
    it.expect(0, [*small, *other, "3 wrong bodies refused, 0 survived"], 4)
    it.expect(0, [*small, *other, "3 wrong bodies refused, 0 survived"], 4, ["--jobs", "2"])
    it.expect(0, [*small, "2 wrong bodies refused, 0 survived"], 2, ["--jobs", "1", "small"])
    third = f"small/c: refused: src/lib.rt:14:5: {GOAL}"
    it.expect(0, [*small, third, "3 wrong bodies refused, 0 survived"], 2, ["--jobs", "1", "--must-fail", "small"])


@case
def each_wrong_body_can_be_tried(_room):
    """Only what can be seen without the prover: `make wrong` tries them, but `make test` doesn't."""
    count = collections.Counter()
    for crate in crate_lines():
        texts = wrong_bodies.texts_of(f"{ROOT}/crates/{crate}")
        count["fit"] += len([*wrong_bodies.edits_of(crate, ["wrong-bodies"], texts, count)])
    expect((count["unfit"], count["fit"] > 500), (0, True))


@case
def a_body_that_is_proved_survives(room):
    it = Bodies(room)
    it.put_edit("a", turned("give(1)", "give(7)"))
    it.put_edit("b", turned("give(2)", "passes()"))
    # it is tried again, alone
    it.expect(1, [f"small/a: refused: src/lib.rt:4:5: {GOAL}", "small/b: SURVIVED", "1 wrong bodies refused, 1 survived"], 3)
    # if the verdict says that all is proved, other lines refuse nothing
    it.put_edit("a", turned("give(1)", "noted()"))
    os.remove(f"{room}/crates/small/wrong-bodies/b.edit")
    it.expect(1, ["small/a: SURVIVED", "0 wrong bodies refused, 1 survived"], 2)


@case
def a_body_is_refused_for_a_reason_of_its_own(room):
    it = Bodies(room)
    it.put_edit("a", turned("give(2)", "elsewhere()"))
    it.put_edit("b", turned("give(3)", "waits()"))
    it.expect(1, ["small/a: SURVIVED", "small/b: SURVIVED", "0 wrong bodies refused, 2 survived"], 4)
    it.put_edit("a", turned("give(2)", "gone()"))
    it.put_edit("b", turned("give(3)", "give(7)"))
    named = "small/a: refused (SUSPICIOUS: only a proof file's names are missing; turn a value in its place): proofs/two/body.oantt:1:1: error: `gone` is not in scope"
    it.expect(0, [f"small/b: refused: src/lib.rt:14:5: {GOAL}", named, "2 wrong bodies refused, 0 survived"], 3)


@case
def a_body_is_refused_by_its_closures_proof(room):
    it = Bodies(room)
    it.put_edit("a", turned("give(1)", "closed()"))
    it.put_edit("b", turned("give(2)", "closed_told()"))
    told = ["proofs/fn/one/all/body.oantt:1:1: error: a goal is left", "fn small::fn::two::all: not proved: `auto` did not prove it"]
    it.expect(0, [*(f"small/{name}: refused: {line}" for name, line in zip("ab", told)), "2 wrong bodies refused, 0 survived"], 2)


@case
def a_wrong_body_that_cannot_be_tried_is_reported(room):
    it = Bodies(room)
    right = turned("give(1)", "give(7)")
    for name, text, why in [
        ("a", turned("give(9)", "give(7)"), "an old text doesn't occur exactly once in its file"),
        ("b", turned("give", "take"), "an old text doesn't occur exactly once in its file"),
        ("c", turned("give(1)", "give(7)", why=""), "it has no line that says why"),
        ("d", turned("give(1)", "give(7)", file="src/gone.rt"), "there is no file src/gone.rt of code"),
        ("e", "why: `one`: its clause\nfile: src/lib.rt\nnew: give(7)\n", "a new text has no old one before it"),
        ("f", "why: `one`: its clause\nfile: src/lib.rt\nold: give(1)\n", "it has no pair of an old and a new text"),
    ]:
        it.put_edit(name, text)
        it.expect(1, [f"small/wrong-bodies/{name}.edit: BAD EDIT: {why}", "1 could not be tried", "0 wrong bodies refused, 0 survived"], 1)
        os.remove(f"{room}/crates/small/wrong-bodies/{name}.edit")
    it.put("crates/small/wrong-bodies/a.edits", right)
    it.put_edit("b", right, folder="wrong_bodies")
    it.put_edit("c", right, crate="third")
    told = ["small/wrong-bodies/a.edits: BAD EDIT: its name doesn't end in .edit"]
    told += [f"{it}.edit: BAD EDIT: it is in a folder whose edits are not tried" for it in ("small/wrong_bodies/b", "third/wrong-bodies/c")]
    it.expect(1, [*told, "3 could not be tried", "0 wrong bodies refused, 0 survived"], 1)
    it.expect(2, ["tests/wrong_bodies.py: crates.txt has no crate third"], 0, ["third"])


@case
def a_check_without_a_verdict_refuses_nothing(room):
    it = Bodies(room)
    it.put_edit("a", turned("give(1)", "give(7)"))
    for ends in ["2 logic=not-proved functions=1", "0 logic=not-proved functions=1", "1 logic=proved functions=1", "1 error: killed", "0 done"]:
        bad = f"small/a: BAD EDIT: it did not reach the prover: {ends[2:]}"
        it.expect(1, [bad, "1 could not be tried", "0 wrong bodies refused, 0 survived"], 2, ENDS=ends)
    it.put("crates/small/src/lib.rt", function("one", 1) + function("two", 2).replace("give", "take"))
    it.expect(1, ["small: the crate itself is not proved, so nothing was tried", "1 could not be tried", "0 wrong bodies refused, 0 survived"], 1)


@case
def the_crates_that_changed_since_a_commit_are_tried(room):
    if not shutil.which("git"):
        raise Skipped("there is no git")
    it = Bodies(room)
    it.put_edit("a", turned("give(1)", "give(7)"))
    it.put_edit("b", turned("give(4)", "give(7)"), crate="other")
    it.put(".gitignore", "calls\n")
    head = it.commit()
    it.expect(0, ["no crate changed since " + head, "0 wrong bodies refused, 0 survived"], 0, ["--since", head])
    it.put_edit("c", turned("give(4)", "give(8)"), crate="other")
    refused = [f"other/{name}: refused: src/lib.rt:4:5: {GOAL}" for name in "bc"]
    it.expect(0, [*refused, "2 wrong bodies refused, 0 survived"], 3, ["--jobs", "1", "--since", head])
    it.expect(2, ["tests/wrong_bodies.py: git knows no commit nowhere"], 0, ["--since", "nowhere"])


# ---- tools/shorten.py

# It proves each line that doesn't search for `hard`, and appends each check to CALLS. A last check ends as LAST says.
SEARCHER = r"""
import os, sys
with open(os.environ["CALLS"], "a", encoding="utf-8") as calls:
    calls.write(" ".join(sys.argv[1:]) + "\n")
with open("proofs/Small.antt", encoding="utf-8") as it:
    wrong = [at for at, line in enumerate(it, 1) if "hard" in line and "search" in line]
for at in wrong:
    print(f"proofs/Small.antt:{at}:1: error: `search` found no proof")
if not wrong:
    print("logic=proved functions=1" if "--allow-holes" in sys.argv else os.environ.get("LAST", "logic=proved functions=1"))
"""
LONG = """-- what is easy and what is hard
use Rattle.std.proofs.Common.{◌≡◌, ℕ}

-- it is one search already
easy : (a : ℕ) → a ≡ a
easy a = search arith

pub long : (a : ℕ) → a ≡ a
long a =
    let b = easy a in
    b

pub hard : (a : ℕ) → a ≡ a
hard a =
    let b = long a in
    by_cases b

pub by_cases : (a : ℕ) → a ≡ a
by_cases zero = easy zero
by_cases (suc a) = easy (suc a)
"""
SHORT = """-- what is easy and what is hard
use Rattle.std.proofs.Common.{◌≡◌, ℕ, arith}

pub long : (a : ℕ) → a ≡ a
long a = search arith

pub hard : (a : ℕ) → a ≡ a
hard a =
    let b = long a in
    by_cases b

pub by_cases : (a : ℕ) → a ≡ a
by_cases a1 = search arith
"""


class Proofs(Folder):
    """A repository with a crate of three lemmas that are written out. A search proves two of them."""

    def __init__(self, room):
        super().__init__(room, ["tools/shorten.py", "tools/crates.py", "tools/toolchain.py"])
        self.put("crates.txt", "small:\n")
        self.put("searcher.py", SEARCHER)
        self.put("crates/small/proofs/Small.antt", LONG)

    def run(self, *words, **more):
        """Returns exit status, standard output and standard error, and the lines of the proof file and of the checks."""
        self.put("calls", "")
        env = {**os.environ, "RT": f"'{sys.executable}' '{self.room}/searcher.py'", "CALLS": f"{self.room}/calls", **more}
        words = [sys.executable, f"{self.room}/tools/shorten.py", *words]
        ended = subprocess.run(words, env=env, capture_output=True, text=True, timeout=SECONDS, check=False)
        return ended.returncode, ended.stdout, ended.stderr, self.read("crates/small/proofs/Small.antt"), len(self.read("calls").splitlines())


@case
def proofs_that_a_search_finds_get_shorter(room):
    it = Proofs(room)
    told = "small, check 1: 2 of 3 edits kept, 3 lines fewer\nsmall, check 1: 1 lemmas taken out, 0 needed\n"
    expect(it.run("small"), (0, "small: 2 of 3 edits, 1 lemmas, 7 of 20 lines gone, proved\n", told, SHORT, 3))
    # only the hard one is left
    expect(it.run("small")[1:2], ("small: 0 of 1 edits, 0 lemmas, 0 of 13 lines gone, proved\n",))
    expect(it.run("large")[:3], (1, "", "tools/shorten.py: crates.txt has no crate large\n"))


@case
def what_the_last_check_rejects_is_undone(room):
    it = Proofs(room)
    status, said, told, text, _ = it.run("small", LAST="logic=not-proved functions=1")
    expect((status, said, text), (1, "small: 2 of 3 edits, 1 lemmas, 0 of 20 lines gone, NOT PROVED, put back\n", LONG))
    expect(told.endswith("logic=not-proved functions=1\n"), True)
    # a check without a verdict leaves nothing either
    it.put("searcher.py", "print('no room is left')")
    expect(it.run("small")[:4], (1, "", "tools/shorten.py: no verdict on small:\nno room is left\n\n", LONG))
