"""The extension for PostgreSQL compiles with PGXS without a warning, and its tests pass on a server that they start. The cases
are skipped if the server's headers aren't installed."""
import gzip
import json
import os
import re
import shutil
import sys

from cases.embedding import LIBRARIES, compiler, libraries
from cases.release import KIT, PLAIN, expect_proved, files_below, is_so, needs, version
from cases.running import ROOT, Program, Skipped, case, expect, run

SOURCES = f"{ROOT}/postgres"
PLACES = {"LIBBORUVKA": f"{LIBRARIES}/libboruvka.a", "HEADERS": f"{ROOT}/include"}


def configured(name):
    """A folder of the installed PostgreSQL, which has everything that the extension needs."""
    if not shutil.which("pg_config"):
        raise Skipped("there is no pg_config")
    words = ["pg_config", "--pgxs", "--bindir", f"--{name}"]
    rules, programs, folder = run(words, env=PLAIN)[1].decode().splitlines()
    if not os.path.exists(rules) or not os.path.exists(f"{programs}/initdb") or not compiler():
        raise Skipped("PostgreSQL's server, its headers or a C compiler isn't installed")
    return folder


def copied(room):
    """A copy of the extension, built once, so that nothing is built in the repository."""
    configured("bindir")
    libraries()
    folder = f"{room}/../postgres"
    if not os.path.exists(folder):
        shutil.copytree(SOURCES, f"{folder}-new", ignore=shutil.ignore_patterns("*.o", "*.so", "__pycache__"))
        status, _, errors = run(["make", "-s", "-C", f"{folder}-new"], env={**PLAIN, **PLACES})
        expect((status, b"", errors), 0, b"", b"")
        os.rename(f"{folder}-new", folder)
    return folder


def sources():
    return sorted(it for it in os.listdir(SOURCES) if it.endswith((".c", ".h")))


def tested(room, *names):
    """Runs the tests of these names, which have to pass. A skipped test skips the case."""
    status, output, errors = run(["make", "-s", "-C", copied(room), "installcheck", f"NAMES={' '.join(names)}"], env={**PLAIN, **PLACES}, seconds=600)
    text = output.decode()
    if status or not re.search(r"^\d+ passed, 0 failed\n\Z", text, re.M):
        raise AssertionError((text + errors.decode())[-6000:])
    skipped = re.search(r": skipped: (.*)", text)
    if skipped:
        raise Skipped(skipped[1])


@case
def the_extension_compiles_without_a_warning(_room):
    words = [compiler(), "-fsyntax-only", "-std=gnu11", "-Wall", "-Wextra", "-Werror", "-isystem", configured("includedir-server"), f"-I{ROOT}/include"]
    expect(run([*words, *(it for it in sources() if it.endswith(".c"))], cwd=SOURCES, env=PLAIN), 0, b"", b"")


@case
def the_functions_of_the_extension_are_short(_room):
    long = []
    for name in sources():
        with open(f"{SOURCES}/{name}", encoding="utf-8") as it:
            text = it.read()
        long += [f"{name}: a line of {len(line)} characters" for line in text.splitlines() if len(line) > 130]
        for head, body in re.findall(r"^(\w[^\n;]*\) \{)\n(.*?)^\}", text, re.M | re.S):
            if body.count("\n") > 38:
                long.append(f"{name}: {head}")
    if long:
        raise AssertionError(long)


@case
def the_sentences_of_the_extensions_page_are_short(_room):
    from cases.documents import MOST_IN_A_SENTENCE, thoughts  # (here, as importing them earlier would run those cases first)
    sentences = [it for part in thoughts("postgres/README.md") for it in re.split(r"(?<=[.?!:])\s", part)]
    is_so([it for it in sentences if len(it.split()) > MOST_IN_A_SENTENCE], [])
    is_so(len(sentences) > 50, True)


@case
def the_extensions_own_tests(room):
    tested(room, "pg_regress", "drawn tables", "drawn tables in small batches")


@case
def the_extension_in_trouble(room):
    tested(room, "timeouts", "a cancel", "little work mem", "memory after errors", "no memory", "many clients", "a killed process")


@case
def the_extension_beside_pgrouting(room):
    tested(room, "pgRouting")


@case
def one_version_of_the_extension(_room):
    """The version is the same in the control file, in META.json, and in the name of the last script."""
    with open(f"{SOURCES}/boruvka.control", encoding="utf-8") as it:
        number = re.search(r"^default_version = '(.*)'$", it.read(), re.M)[1]
    with open(f"{SOURCES}/META.json", encoding="utf-8") as it:
        meta = json.load(it)
    scripts = {it for it in os.listdir(SOURCES) if it.endswith(".sql")}
    is_so((meta["version"], meta["provides"]["boruvka"]["version"]), (f"{number}.0", f"{number}.0"))
    is_so((meta["provides"]["boruvka"]["file"] in scripts, any(it.endswith(f"--{number}.sql") for it in scripts)), (True, True))
    with open(f"{SOURCES}/Makefile", encoding="utf-8") as it:
        is_so(set(re.search(r"^DATA = (.*)$", it.read(), re.M)[1].split()), scripts)


# A program that packs only the extension.
PACK = """
import sys
sys.path.insert(0, "tools")
import dist
name, content = dist.extension(dist.Release(sys.argv[1], sys.argv[2]), sys.argv[3])
dist.put(f"{sys.argv[3]}/{name}", content)
print(name)
"""
# A program that runs a query with the extension of a package on a server of the tests.
PACKAGE = """
import sys
sys.path.insert(0, sys.argv[1])
from server import Server
with Server(library=sys.argv[2]) as server:
    print(server.expect("SELECT boruvka_forest(id, source, target, cost) FROM (VALUES (1, 1, 2, 3.5), (2, 2, 3, 1), (3, 3, 1, 2)) it (id, source, target, cost)"), end="")
"""


@case
def the_package_of_the_extension_is_whole_and_runs(room):
    needs("dpkg-deb")
    share, code, number = configured("sharedir"), configured("pkglibdir"), re.search(r"\d+", configured("version"))[0]
    libraries()
    name, at, root = f"postgresql-{number}-boruvka", f"{room}/packed", f"{room}/empty"
    path = f"{at}/{name}_{version()}_amd64.deb"
    os.mkdir(at)
    os.mkdir(root)
    expect(run([sys.executable, "-B", "-c", PACK, Program.path, LIBRARIES, at], env=KIT, cwd=ROOT), 0, f"{os.path.basename(path)}\n".encode(), b"")
    expect(run(["dpkg-deb", "-x", path, root]), 0, b"", b"")
    expect(run(["dpkg-deb", "-e", path, f"{room}/control"]), 0, b"", b"")
    scripts = [f"{share}/extension/{it}" for it in os.listdir(SOURCES) if it.endswith((".sql", ".control"))]
    about = [f"/usr/share/doc/{name}/{it}" for it in ("copyright", "changelog.gz", "PROVED.txt", "README.md.gz")]
    is_so(files_below(root), dict.fromkeys(it[1:] for it in [f"{code}/boruvka.so", *scripts, *about]))
    fields = dict(it.split(": ", 1) for it in run(["dpkg-deb", "-f", path])[1].decode().splitlines() if not it.startswith(" "))
    is_so([fields[it] for it in ("Package", "Version", "Architecture")], [name, version(), "amd64"])
    is_so(re.fullmatch(rf"libc6 \(>= 2\.\d+\), postgresql-{number}", fields["Depends"]) is not None, True)
    with open(f"{room}/control/md5sums", encoding="utf-8") as it:
        is_so({line.split()[1] for line in it}, set(files_below(root)))
    expect(run(["md5sum", "--quiet", "-c", f"{room}/control/md5sums"], cwd=root), 0, b"", b"")
    expect_proved(f"{root}/usr/share/doc/{name}/PROVED.txt")
    with gzip.open(f"{root}/usr/share/doc/{name}/README.md.gz", "rt", encoding="utf-8") as it:
        is_so(it.readline(), "# boruvka for PostgreSQL\n")
    expect(run([sys.executable, "-B", "-c", PACKAGE, f"{SOURCES}/tests", f"{root}{code}/boruvka.so"], env=PLAIN), 0, b"{2,3}\n", b"")
    if shutil.which("lintian"):
        status, output, errors = run(["lintian", "--allow-root", "--no-cfg", "--fail-on", "error", path], env={**PLAIN, "LC_ALL": "C.UTF-8"}, seconds=300)
        is_so((status, re.findall(rb"^[EW]: .*", output + errors, re.M)), (0, []))
