"""The version, `make install`, the commands in the heads of examples/embed, completions, and the packages of `make dist`. These
are made from the built program and libraries, and tested after unpacking them into empty folders."""
import base64
import gzip
import hashlib
import os
import pty
import re
import select
import shlex
import shutil
import signal
import subprocess
import sys
import tarfile
import time
import zipfile
import zlib

from cases.embedding import ENVIRONMENT, LIBRARIES, compiler, libraries
from cases.running import ROOT, SMALL_FOREST, SMALL_NET, Program, Skipped, case, expect, ran, run, written
from cases.within import module

sys.path.insert(0, f"{ROOT}/tools")

from stamp import PAGE, PC, VERSION, text_of, version

EMBED = f"{ROOT}/examples/embed"
# the documents and examples that are installed
TEXTS = [
    "LICENSE", "README.md", "SECURITY.md", "CHANGELOG.md", "CONTRIBUTING.md", "docs/roads.svg", "docs/rounds.svg",
    *(f"docs/{it}.md" for it in ("ARCHITECTURE", "DECISIONS", "GR_FORMAT", "HEADLINE", "PERFORMANCE", "PROMISES", "PROTOCOL", "RECIPES")),
    "examples/small.gr", "examples/roads.gr", *(f"examples/embed/forest.{it}" for it in ("c", "cpp", "py", "rs")), "examples/embed/within.c",
]
AT = 1_700_000_000  # 2023-11-14, instead of the commit's time
SET = ("PREFIX", "BINDIR", "LIBDIR", "INCLUDEDIR", "MANDIR", "DOCDIR", "PAGEDIR", "BASHDIR", "ZSHDIR", "FISHDIR", "PKG_CONFIG_PATH", "LD_LIBRARY_PATH")
PLAIN = {it: word for it, word in ENVIRONMENT.items() if it not in SET}
KIT = {**PLAIN, "SOURCE_DATE_EPOCH": str(AT), "RT": "echo a-kit", "UNPROVED": "1"}  # its command `version` prints `a-kit version`
SHELLS = {"bash": "completions/boruvka.bash", "zsh": "completions/_boruvka", "fish": "completions/boruvka.fish"}
NUMBERS = {"--workers": [str(2**it) for it in range(7)] + ["0"], "--shards": [str(2**it) for it in range(13)], "--threads": [str(2**it) for it in range(7)]}


def is_so(found, wanted):
    if found != wanted:
        raise AssertionError(f"wanted {wanted!r:.900}\n    found  {found!r:.900}")


def needs(name):
    """Returns the command of this name. If it isn't installed, the case is skipped."""
    if not shutil.which(name):
        raise Skipped(f"there is no {name}")
    return name


def major():
    return version().split(".")[0]


def files_below(root):
    """Maps the paths of everything below a folder except folders to the targets of links, and None for files."""
    found = {}
    for at, _, files in os.walk(root):
        for name in files:
            path = f"{at}/{name}"
            found[os.path.relpath(path, root)] = os.readlink(path) if os.path.islink(path) else None
    return found


PAGE_AND_MODULE = ["boruvka.html", "boruvka.wasm"]


def installed_program(bin_="bin", share="share", man="share/man", zsh="share/zsh/site-functions"):
    """Returns what installing the program puts below the prefix."""
    return dict.fromkeys([
        f"{bin_}/boruvka",
        f"{man}/man1/boruvka.1",
        f"{share}/bash-completion/completions/boruvka",
        f"{zsh}/_boruvka",
        f"{share}/fish/vendor_completions.d/boruvka.fish",
    ])


def installed_libraries(lib="lib", include="include"):
    """Returns what installing the libraries puts there."""
    files = ["libboruvka.a", "libboruvka_within.a", f"libboruvka.so.{version()}"]
    files += [f"pkgconfig/{it}.pc" for it in ("boruvka", "boruvka_within")]
    files += [f"cmake/boruvka/{it}.cmake" for it in ("boruvka-config", "boruvka-config-version")]
    return {
        **{f"{lib}/{it}": None for it in files},
        f"{lib}/libboruvka.so": f"libboruvka.so.{major()}",
        f"{lib}/libboruvka.so.{major()}": f"libboruvka.so.{version()}",
        f"{include}/boruvka.h": None,
        f"{include}/boruvka.hpp": None,
    }


def installed(bin_="bin", lib="lib", include="include", share="share", man="share/man", zsh="share/zsh/site-functions", doc="share/doc/boruvka/"):
    """Returns what installing everything puts there."""
    more = [f"{share}/boruvka/{it}" for it in PAGE_AND_MODULE] + [f"{doc}{it}" for it in TEXTS]
    return {**installed_program(bin_, share, man, zsh), **installed_libraries(lib, include), **dict.fromkeys(more)}


def expect_no_dead_links(root, doc, include):
    """Each link of a document leads to a file. The links to the header and to other documents are there, and all pictures."""
    found = set()
    for path in (it for it in TEXTS if it.endswith(".md")):
        with open(f"{root}/{doc}{path}", encoding="utf-8") as it:
            text = it.read()
        links = re.findall(r"\]\(([^()\s#]+)(?:#[^()\s]*)?\)", text)
        is_so((path, re.findall(r"!\[[^]]*\]", text)), (path, re.findall(r"!\[[^]]*\]", text_of(path))))
        dead = [it for it in links if not os.path.exists(f"{root}/{doc}{os.path.dirname(path)}/{it}")]
        is_so((path, dead), (path, []))
        found |= {os.path.relpath(f"{root}/{doc}{os.path.dirname(path)}/{it}", root) for it in links}
    wanted = {f"{include}/boruvka.h", f"{doc}docs/PROMISES.md", f"{doc}examples/embed", f"{doc}LICENSE", f"{doc}docs/roads.svg"}
    is_so(wanted - found, set())


def make(*words, program=None, library=f"{LIBRARIES}/libboruvka", wasm=None):
    """Returns exit status, standard output and standard error of make, which mustn't prove or build anything."""
    files = {"PROGRAM": program or Program.path, "LIBRARY": library, "WASM": wasm or module()}
    names = [f"{name}={os.path.relpath(path, ROOT)}" for name, path in files.items()]
    told = run(["make", "-s", "-C", ROOT, *names, *words], env={**PLAIN, "RT": "false"})
    if b"proving" in told[2]:
        raise AssertionError(f"it proves: {told[2]!r:.300}")
    return told


def flags(folder, env=PLAIN, name="boruvka"):
    """Returns what pkg-config prints for the .pc file of a folder, with normalized paths, and its version."""
    env = {**env, "PKG_CONFIG_PATH": folder}
    told = subprocess.run(["pkg-config", "--cflags", "--libs", name], env=env, check=True, capture_output=True, text=True).stdout
    number = subprocess.run(["pkg-config", "--modversion", name], env=env, check=True, capture_output=True, text=True).stdout
    is_so(number, f"{version()}\n")
    return [it[:2] + os.path.normpath(it[2:]) if it[:2] in ("-I", "-L") else it for it in shlex.split(told)]


def expect_example(room, include, lib):
    """The C example compiles with this header and runs with the static and with the shared library."""
    source = f"{EMBED}/forest.c"
    os.makedirs(room)
    expect(run([compiler(), f"-I{include}", "-o", f"{room}/static", source, f"{lib}/libboruvka.a"]), 0, b"", b"")
    expect(run([f"{room}/static"], env=PLAIN), 0, SMALL_FOREST, b"")
    expect(run([compiler(), f"-I{include}", "-o", f"{room}/shared", source, f"-L{lib}", "-lboruvka"]), 0, b"", b"")
    # the program names the library only with its first number
    with open(f"{room}/shared", "rb") as it:
        is_so(f"\0libboruvka.so.{major()}\0".encode() in it.read(), True)
    os.mkdir(f"{room}/lib")
    os.symlink(f"{lib}/libboruvka.so.{version()}", f"{room}/lib/libboruvka.so.{major()}")
    expect(run([f"{room}/shared"], env={**PLAIN, "LD_LIBRARY_PATH": f"{room}/lib"}), 0, SMALL_FOREST, b"")


def expect_examples(room, doc, include, lib):
    """The examples in the package compile with its headers and libraries, and run."""
    embed, flags_of = f"{doc}/examples/embed", ["-Wall", "-Wextra", "-Werror", f"-I{include}", "-o"]
    os.makedirs(room)
    for tool, words in [
        (compiler(), [*flags_of, f"{room}/c", f"{embed}/forest.c", f"{lib}/libboruvka.a"]),
        (compiler(), [*flags_of, f"{room}/within", f"{embed}/within.c", f"{lib}/libboruvka_within.a"]),
        ("c++", ["-std=c++20", *flags_of, f"{room}/spans", f"{embed}/forest.cpp", f"{lib}/libboruvka.a"]),
        ("rustc", ["--edition", "2024", "-D", "warnings", "-L", lib, "-o", f"{room}/rust", f"{embed}/forest.rs"]),
    ]:
        if shutil.which(tool):
            expect(run([tool, *words]), 0, b"", b"")
            expect(run([words[words.index("-o") + 1]], env=PLAIN), 0, SMALL_FOREST, b"")
    expect(run([sys.executable, "-B", f"{embed}/forest.py", f"{lib}/libboruvka.so.{major()}"], env=PLAIN), 0, SMALL_FOREST, b"")


# The version


@case
def one_file_has_the_version(_room):
    files = [f"{at}/{name}" for folder in ("include", "man", "completions", "tools", "examples/embed") for at, _, names in os.walk(f"{ROOT}/{folder}") for name in names]
    for path in [*files, f"{ROOT}/Makefile"]:
        with open(path, encoding="utf-8", errors="replace") as it:
            if version() in it.read():
                raise AssertionError(f"{path} has the version, which stands in {VERSION}")
    is_so(re.search(r"^#define BORUVKA_VERSION (\d+) ", text_of("include/boruvka.h"), re.M)[1], major())


@case
def the_program_prints_the_version(_room):
    for words in [["--version"], ["-V"], ["--plain", "--version"]]:
        expect(ran(words, SMALL_NET), 0, f"boruvka {version()}\n".encode(), b"")


@case
def the_installed_page_has_the_version_and_the_date(room):
    page = text_of(PAGE)
    told = run([sys.executable, f"{ROOT}/tools/stamp.py", "page"], env={**PLAIN, "SOURCE_DATE_EPOCH": str(AT)})
    expect((told[0], b"", told[2]), 0, b"", b"")
    found = [(old, new) for old, new in zip(page.splitlines(), told[1].decode().splitlines(), strict=True) if old != new]
    is_so(found, [('.TH BORUVKA 1 "" "boruvka" "User Commands"', f'.TH BORUVKA 1 "2023-11-14" "boruvka {version()}" "User Commands"')])
    written(f"{room}/boruvka.1", told[1])
    for path in [f"{ROOT}/{PAGE}", f"{room}/boruvka.1"]:
        if shutil.which("groff"):
            expect(run(["groff", "-man", "-Tutf8", "-ww", "-z", path]), 0, b"", b"")


# make install


@case
def an_install_of_what_is_built(room):
    libraries()
    none = f"{room}/none"
    said = [b"The program is not built yet: `make run` ", b"The libraries are not built yet: `make lib` ", b"The page has no module yet: `make wasm` "]
    texts = {f"share/doc/boruvka/{it}": None for it in TEXTS}
    pages = {f"share/boruvka/{it}": None for it in PAGE_AND_MODULE}
    for number, (words, files, missing) in enumerate([
        ({"program": none}, {**installed_libraries(), **pages}, [0]),
        ({"library": none}, {**installed_program(), **pages}, [1]),
        ({"wasm": none}, {**installed_program(), **installed_libraries()}, [2]),
        ({"library": none, "wasm": none}, installed_program(), [1, 2]),
    ]):
        status, output, errors = make(f"PREFIX={room}/{number}", "install", **words)
        is_so((status, output, [it in errors for it in said]), (0, b"", [it in missing for it in range(3)]))
        is_so(files_below(f"{room}/{number}"), {**texts, **files})
    before = os.listdir(room)
    status, output, errors = make(f"PREFIX={room}/prefix", "install", program=none, library=none, wasm=none)
    is_so((status != 0, output, [it in errors for it in said], b"nothing was installed" in errors), (True, b"", [True] * 3, True))
    # only the static library
    shutil.copy(f"{LIBRARIES}/libboruvka.a", f"{room}/half.a")
    status, _, errors = make(f"PREFIX={room}/prefix", "install", program=none, library=f"{room}/half", wasm=none)
    is_so((status != 0, said[1] in errors, sorted(os.listdir(room))), (True, True, sorted([*before, "half.a"])))


@case
def an_install_copies_and_is_taken_away(room):
    libraries()
    prefix = f"{room}/a user's prefix"
    # as old as possible: an install doesn't build again
    program = shutil.copy(Program.path, f"{room}/program")
    os.utime(program, (0, 0))
    expect(make(f"PREFIX={prefix}", "install", program=program), 0, b"", b"")
    is_so(files_below(prefix), installed())
    expect(run([f"{prefix}/bin/boruvka", "--plain"], SMALL_NET), 0, SMALL_FOREST, b"")
    for path, of in [("include/boruvka.h", "include/boruvka.h"), ("include/boruvka.hpp", "include/boruvka.hpp"), ("share/zsh/site-functions/_boruvka", SHELLS["zsh"])]:
        with open(f"{prefix}/{path}", encoding="utf-8") as it:
            is_so(it.read(), text_of(of))
    with open(f"{prefix}/share/man/man1/boruvka.1", encoding="utf-8") as it:
        is_so(f'" "boruvka {version()}" "User' in it.readline(), True)
    expect_no_dead_links(prefix, "share/doc/boruvka/", "include")
    # once more over it, next to a file of somebody else
    written(f"{prefix}/lib/libboruvka_other.so", b"")
    expect(make(f"PREFIX={prefix}", "install", program=program), 0, b"", b"")
    expect(make(f"PREFIX={prefix}", "uninstall"), 0, b"", b"")
    is_so(files_below(prefix), {"lib/libboruvka_other.so": None})
    is_so([it for it in ("share/doc/boruvka", "share/boruvka", "lib/cmake/boruvka") if os.path.exists(f"{prefix}/{it}")], [])


@case
def an_install_into_folders_of_ones_own(room):
    libraries()
    words = ["PREFIX=/opt/b", "LIBDIR=/opt/b/lib/x86", "INCLUDEDIR=/srv/include", "MANDIR=/srv/man", "BINDIR=/b", f"DESTDIR={room}/root"]
    expect(make(*words, "install"), 0, b"", b"")
    wanted = installed("b", "opt/b/lib/x86", "srv/include", "opt/b/share", "srv/man", "opt/b/share/zsh/site-functions", "opt/b/share/doc/boruvka/")
    is_so(files_below(f"{room}/root"), wanted)
    with open(f"{room}/root/opt/b/lib/x86/pkgconfig/boruvka.pc", encoding="utf-8") as it:
        is_so(it.read().splitlines()[:3], ["prefix=${pcfiledir}/../../..", "libdir=${prefix}/lib/x86", "includedir=/srv/include"])
    expect(make(*words, "uninstall"), 0, b"", b"")
    is_so(files_below(f"{room}/root"), {})
    # a LIBDIR outside PREFIX doesn't say where PREFIX is
    told = run([sys.executable, f"{ROOT}/tools/stamp.py", "boruvka.pc", "/opt/b", "/usr/lib", "/opt/b/include"], env=PLAIN)
    is_so(told[1].decode().splitlines()[:3], ["prefix=/opt/b", "libdir=/usr/lib", "includedir=${prefix}/include"])
    told_too = run([sys.executable, f"{ROOT}/tools/stamp.py", "boruvka.pc", "/a user/b", "/usr/lib", "/a user/b/include"], env=PLAIN)
    is_so(told_too[1].decode().splitlines()[:3], ["prefix=/a\\ user/b", "libdir=/usr/lib", "includedir=${prefix}/include"])
    for name in ("boruvka", "boruvka_within"):
        told = run([sys.executable, f"{ROOT}/tools/stamp.py", f"{name}.pc", "/opt/b", "/usr/lib", "/opt/b/include"], env=PLAIN)[1].decode()
        wanted = [f"Name: {name}", f"Version: {version()}", "Cflags: -I${includedir}", f"Libs: -L${{libdir}} -l{name}"]
        is_so([it for it in told.splitlines()[4:] if not it.startswith("Description: ")], wanted)
    for include, wanted in [("/opt/b/include", "../../../include"), ("/srv/include", "/srv/include")]:
        told = run([sys.executable, f"{ROOT}/tools/stamp.py", "boruvka-config.cmake", "/opt/b", "/opt/b/lib", include], env=PLAIN)[1].decode()
        is_so(set(re.findall(r'\(boruvka_INCLUDE_DIR "([^"$]+)"', told)), {wanted})


@case
def an_installed_prefix_can_be_moved(room):
    libraries()
    needs("pkg-config")
    # (older versions of pkg-config can't have a space there)
    for old, new in [("first", "second")] + [("a prefix", "b prefix")] * bool(shutil.which("pkgconf")):
        expect(make(f"PREFIX={room}/{old}", "install"), 0, b"", b"")
        is_so(flags(f"{room}/{old}/lib/pkgconfig"), [f"-I{room}/{old}/include", f"-L{room}/{old}/lib", "-lboruvka"])
        os.rename(f"{room}/{old}", f"{room}/{new}")
        is_so(flags(f"{room}/{new}/lib/pkgconfig"), [f"-I{room}/{new}/include", f"-L{room}/{new}/lib", "-lboruvka"])
        expect_example(f"{room}/of {new}", f"{room}/{new}/include", f"{room}/{new}/lib")
        within = flags(f"{room}/{new}/lib/pkgconfig", name="boruvka_within")
        is_so(within, [f"-I{room}/{new}/include", f"-L{room}/{new}/lib", "-lboruvka_within"])
        expect(run([compiler(), "-o", f"{room}/within of {new}", f"{EMBED}/within.c", *within]), 0, b"", b"")
        expect(run([f"{room}/within of {new}"]), 0, SMALL_FOREST, b"")


CMAKE = """cmake_minimum_required(VERSION 3.13)
project(uses C CXX)
set(CMAKE_CXX_STANDARD 20)
find_package(boruvka %s REQUIRED)
find_package(boruvka)
foreach(it IN ITEMS shared.c.boruvka static.c.static shared.cpp.boruvka static.cpp.static within.c.within)
  string(REPLACE "." ";" parts ${it})
  list(GET parts 0 name)
  list(GET parts 1 ending)
  list(GET parts 2 library)
  set(source forest.${ending})
  if(name STREQUAL within)
    set(source within.c)
  endif()
  add_executable(${name}_${ending} ${source})
  target_link_libraries(${name}_${ending} boruvka::${library})
endforeach()
"""


@case
def cmake_finds_the_libraries(room):
    """In a prefix with a space in its path, which was moved. A version that isn't installed isn't found."""
    libraries()
    needs("cmake")
    needs("c++")
    prefix, top = f"{room}/a user's prefix", f"{room}/top"
    expect(make(f"PREFIX={room}/first", "install"), 0, b"", b"")
    os.rename(f"{room}/first", prefix)
    os.mkdir(top)
    for name in ("forest.c", "forest.cpp", "within.c"):
        shutil.copy(f"{EMBED}/{name}", top)

    def configured(asked):
        written(f"{top}/CMakeLists.txt", (CMAKE % asked).encode())
        shutil.rmtree(f"{room}/made", ignore_errors=True)
        return run(["cmake", f"-DCMAKE_PREFIX_PATH={prefix}", "-S", top, "-B", f"{room}/made"], env=PLAIN)

    later = f"{int(major()) + 1}.0"
    for asked in (later, "0.9", f"{major()}.999", f"{major()}.0...<{version()}", f"{major()}.0...{major()}.0.5"):
        status, _, errors = configured(asked)
        is_so((asked, status != 0, b"boruvka" in errors), (asked, True, True))
    for asked in ("COMPONENTS openmp", "COMPONENTS within openmp"):
        status, _, errors = configured(asked)
        is_so((asked, status != 0, b"no openmp" in errors), (asked, True, True))
    for asked in ("", major(), version(), f"{version()} EXACT", "COMPONENTS static within OPTIONAL_COMPONENTS openmp"):
        status, _, errors = configured(asked)
        is_so((asked, status, errors), (asked, 0, b""))
    is_so(run(["cmake", "--build", f"{room}/made"], env=PLAIN, seconds=120)[0], 0)
    for name in ("shared_c", "static_c", "shared_cpp", "static_cpp", "within_c"):
        expect(run([f"{room}/made/{name}"], env=PLAIN), 0, SMALL_FOREST, b"")


@case
def cmake_finds_the_libraries_through_links(room):
    """A link from /lib to /usr/lib, where a search for /bin begins, and a link from a prefix to libraries elsewhere."""
    libraries()
    needs("cmake")
    os.makedirs(f"{room}/root/usr/lib/x86_64-linux-gnu")
    os.symlink("usr/lib", f"{room}/root/lib")
    os.makedirs(f"{room}/store/lib")
    os.mkdir(f"{room}/prefix")
    os.symlink("../store/lib", f"{room}/prefix/lib")
    expect(make("PREFIX=/usr", "LIBDIR=/usr/lib/x86_64-linux-gnu", f"DESTDIR={room}/root", "install"), 0, b"", b"")
    expect(make(f"PREFIX={room}/prefix", "install"), 0, b"", b"")
    written(f"{room}/CMakeLists.txt", b"""cmake_minimum_required(VERSION 3.13)
project(uses C)
find_package(boruvka REQUIRED)
add_executable(forest forest.c)
target_link_libraries(forest boruvka::boruvka)
""")
    shutil.copy(f"{EMBED}/forest.c", room)
    for number, prefix in enumerate(["root", "root/usr", "prefix"]):
        made = f"{room}/made{number}"
        words = ["cmake", f"-DCMAKE_PREFIX_PATH={room}/{prefix}", "-DCMAKE_LIBRARY_ARCHITECTURE=x86_64-linux-gnu", "-S", room, "-B", made]
        status, _, errors = run(words, env=PLAIN)
        is_so((prefix, status, errors), (prefix, 0, b""))
        is_so(run(["cmake", "--build", made], env=PLAIN, seconds=120)[0], 0)
        expect(run([f"{made}/forest"], env=PLAIN), 0, SMALL_FOREST, b"")


@case
def the_heads_of_the_examples_say_how_to_run_them(room):
    """Each paragraph of commands in a head is run as it is, with a PREFIX."""
    libraries()
    prefix = f"{room}/prefix"
    expect(make(f"PREFIX={prefix}", "install"), 0, b"", b"")
    found = []
    for name, mark, tools in [("forest.c", " * ", ["cc", "pkg-config"]), ("forest.cpp", " * ", ["c++"]), ("forest.rs", "//! ", ["rustc"]), ("forest.py", "", ["python3"]), ("within.c", " * ", ["cc"])]:
        head = re.split(r"^(?:#include|use|import) ", text_of(f"examples/embed/{name}").replace(" */\n", "\n"), flags=re.M)[0]
        shown = [it[len(mark) + 4 :] if it.startswith(mark + "    ") else "" for it in head.splitlines()]
        for number, commands in enumerate(filter(None, re.split(r"\n\n+", "\n".join(shown).strip("\n")))):
            found.append(name)
            if not all(shutil.which(it) for it in tools):
                continue
            here = f"{room}/{name}{number}"
            os.makedirs(here)
            shutil.copy(f"{EMBED}/{name}", here)
            # without a PREFIX the system finds the libraries
            env = PLAIN if "PREFIX" in commands else {**PLAIN, "PKG_CONFIG_PATH": f"{prefix}/lib/pkgconfig", "LD_LIBRARY_PATH": f"{prefix}/lib"}
            expect(run(["sh", "-ec", commands.replace("PREFIX", prefix)], cwd=here, env=env), 0, SMALL_FOREST, b"")
    is_so(found, ["forest.c"] * 3 + ["forest.cpp", "forest.rs", "forest.py", "within.c"])


# Completions


@case
def each_completion_has_the_options_of_the_help(_room):
    table = ran(["--help"])[1].decode().split("\nOptions:\n")[1].split("\n\n")[0]
    wanted = set(re.findall(r"(?:^|, )\s*(--?[A-Za-z]+)", table, re.M))
    bash, zsh, fish = (text_of(SHELLS[it]) for it in ("bash", "zsh", "fish"))
    is_so(set(re.search(r"for option in (.*); do", bash)[1].split()), wanted)
    is_so(set(re.findall(r"(?<=['{,])--?\w+", zsh)), wanted)
    is_so({f"-{it}" for it in re.findall(r" -s (\w)", fish)} | {f"--{it}" for it in re.findall(r" -l (\w+)", fish)}, wanted)


@case
def completions_of_bash(_room):
    script = f'source "$1/{SHELLS["bash"]}"; shift; complete -p boruvka; COMP_WORDS=("$@"); COMP_CWORD=$(($# - 1)); _boruvka; printf "%s\\n" "${{COMPREPLY[@]}}"'
    longs = ["--workers", "--shards", "--plain", "--threads", "--report", "--progress", "--help", "--version"]
    for words, wanted in [
        (["--"], longs),
        (["-"], [*longs, "-h", "-V"]),
        (["--sh"], ["--shards"]),
        (["--plain", "--threads", ""], NUMBERS["--threads"]),
        (["--threads", "=", "6"], ["64"]),
        (["--workers", ""], NUMBERS["--workers"]),
        (["--workers", "3"], ["32"]),
        (["--workers", "="], NUMBERS["--workers"]),
        (["--shards", "=", "10"], ["1024"]),
        (["--plain", "--shards", ""], NUMBERS["--shards"]),
        (["--workers", "=", "2", "--plain", "--"], ["--shards", "--threads", "--report", "--progress", "--help", "--version"]),
        (["--workers", "x"], []),
        (["--", "--"], []),
        ([""], []),
        (["net"], []),
        (["--plain", "a.gr", "net"], []),
        (["--plain", "a.gr", "b.gr", "--th"], ["--threads"]),
    ]:
        told = run([needs("bash"), "--norc", "--noprofile", "-c", script, "-", ROOT, "boruvka", *words], env=PLAIN)
        expect((told[0], b"", told[2]), 0, b"", b"")
        first, *found = told[1].decode().split("\n")
        is_so((words, first, sorted(filter(None, found))), (words, "complete -o default -F _boruvka boruvka", sorted(wanted)))


def shown_by_zsh(room, line, wanted):
    """Returns what zsh shows when TAB is pressed after a line, until everything wanted is there or 20 seconds are over."""
    env = {**PLAIN, "TERM": "xterm", "HOME": room, "ZDOTDIR": room, "LC_ALL": "C"}
    child, terminal = pty.fork()
    if not child:
        try:
            os.execvpe("zsh", ["zsh", "-f", "-i"], env)
        finally:
            os._exit(127)
    found, ends = b"", time.monotonic() + 20

    def wait_for(texts):
        nonlocal found
        found = b""
        while not all(it.encode() in found for it in texts) and time.monotonic() < ends:
            if select.select([terminal], [], [], 0.2)[0]:
                found += os.read(terminal, 65536)

    try:
        setup = f"fpath=({shlex.quote(ROOT)}/completions $fpath); autoload -Uz compinit && compinit -u -D; LISTMAX=0; PS1=; print rea''dy\n"
        os.write(terminal, setup.encode())
        wait_for(["ready\r\n"])
        os.write(terminal, f"{line}\t".encode())
        wait_for(wanted)
    except OSError:
        pass
    finally:
        os.kill(child, signal.SIGKILL)
        os.waitpid(child, 0)
        os.close(terminal)
    return found.decode(errors="replace")


@case
def completions_of_zsh(room):
    needs("zsh")
    for name in ["net.gr", "road.gr"]:
        written(f"{room}/{name}", SMALL_NET)
    for line, wanted in [
        ("boruvka --", ["--workers", "--shards", "--plain", "--threads", "--report", "--progress", "--help", "--version", "0 to 64", "1 to 4096", "1 to 64"]),
        ("boruvka --plain -", ["--workers", "-V", "-h"]),
        ("boruvka --workers ", ["16", "32", "64"]),
        ("boruvka --workers=", ["16", "32", "64"]),
        ("boruvka --plain --threads ", ["16", "32", "64"]),
        ("boruvka --shards 1", ["16", "128", "1024"]),
        (f"boruvka {room}/", ["net.gr", "road.gr"]),
        (f"boruvka --plain {room}/a {room}/b {room}/", ["net.gr", "road.gr"]),
    ]:
        found = shown_by_zsh(room, line, wanted)
        is_so((line, [it for it in wanted if it not in found]), (line, []))


@case
def completions_of_fish(room):
    longs = ["--workers", "--shards", "--plain", "--threads", "--report", "--progress", "--help", "--version"]
    for line, wanted in [
        ("boruvka --", longs),
        ("boruvka -", [*longs, "-h", "-V"]),
        ("boruvka --workers ", NUMBERS["--workers"]),
        ("boruvka --shards=10", ["--shards=1024"]),
        ("boruvka --threads ", NUMBERS["--threads"]),
        ("boruvka --sh", ["--shards"]),
        ("boruvka net", ["net.gr"]),
        ("boruvka --plain net.gr net", ["net.gr"]),
    ]:
        written(f"{room}/net.gr", SMALL_NET)
        words = [needs("fish"), "--no-config", "-c", f"source {shlex.quote(ROOT)}/{SHELLS['fish']}; complete -C {shlex.quote(line)}"]
        told = run(words, cwd=room, env={**PLAIN, "HOME": room})
        is_so((line, told[0], sorted(it.split("\t")[0] for it in told[1].decode().splitlines())), (line, 0, sorted(wanted)))


# make dist


def expect_page(room, share):
    """Expects the module in a folder of a package, and the page as `make page` packs it, with that module in it."""
    built = module()
    expect(run([sys.executable, f"{ROOT}/tools/page.py", built, f"{room}/page.html"]), 0, b"", b"")
    for name, path in zip(PAGE_AND_MODULE, [f"{room}/page.html", built], strict=True):
        with open(f"{share}/{name}", "rb") as found, open(path, "rb") as wanted:
            is_so((name, found.read() == wanted.read()), (name, True))
    with open(f"{share}/boruvka.html", encoding="utf-8") as page, open(built, "rb") as it:
        held = re.search(r'<script type="[^"]*" id="packed-module">\s*(.*?)\s*</script>', page.read(), re.S)
        is_so(bool(held) and zlib.decompress(base64.b64decode(held[1]), -15) == it.read(), True)


def has_postgres():
    """Returns whether the extension for PostgreSQL can be built."""
    return bool(shutil.which("pg_config")) and os.path.exists(run(["pg_config", "--pgxs"], env=PLAIN)[1].decode().strip())


def packages():
    """Returns how many packages are made: a .tar.gz, a wheel, a .deb, one for Debian's Python, and one of the extension."""
    return 2 + (2 + bool(has_postgres()) if shutil.which("dpkg-deb") else 0)


def packed(into, env=KIT, **more):
    """Makes the packages, and maps their names to their bytes."""
    libraries()
    module()
    words = [sys.executable, f"{ROOT}/tools/dist.py", "--program", Program.path, "--libraries", LIBRARIES, into]
    status, output, errors = run(words, env=env, **more)
    said = {2: b"dpkg-deb is not there, so no .deb was made\n", 4: b"PostgreSQL's headers are not there, so no .deb of its extension was made\n", 5: b""}
    expect((status, b"", errors), 0, b"", said[packages()])
    found = {}
    for name in os.listdir(into):
        with open(f"{into}/{name}", "rb") as it:
            found[name] = it.read()
    made_in_turn = sorted(found, key=lambda it: ([".gz", ".whl", ".deb"].index(os.path.splitext(it)[1]), it))
    is_so(output.decode(), "".join(f"{hashlib.sha256(found[it]).hexdigest()}  {it}\n" for it in made_in_turn))
    return found


def expect_proved(path):
    """PROVED.txt has the version, the commit, the toolchain and the result of `make test`."""
    shape = r"boruvka (\S+)\ncommit: ([0-9a-f]{40,}|not known)(, with uncommitted changes)?\ntoolchain: a-kit version\nmake test: (not known to have )?passed"
    with open(path, encoding="utf-8") as it:
        text = it.read()
    if not re.match(shape, text) or text.split()[1] != version():
        raise AssertionError(f"{path}: {text!r:.600}")


@case
def the_same_files_make_the_same_packages(room):
    first = packed(f"{room}/first")
    is_so(len(first), packages())
    # with other modes, another folder and time zone, folders of another install, and a second later
    time.sleep(1.1)
    other = {**KIT, "TZ": "Asia/Tokyo", "LC_ALL": "C", "LIBDIR": "/elsewhere", "TMPDIR": f"{room}/longer"}
    os.mkdir(f"{room}/longer")
    is_so(packed(f"{room}/second", env=other, umask=0o077) == first, True)
    # the time is that of the commit, or the one that is set
    later = packed(f"{room}/third", env={**KIT, "SOURCE_DATE_EPOCH": str(AT + 86400)})
    is_so([it for it in first if later[it] == first[it]], [])


@case
def times_that_no_package_can_have(room):
    """They are rejected before anything is packed."""
    said = "SOURCE_DATE_EPOCH is %s, but the times in a wheel are from 1980 to 2106"
    for at, why in [("0", said), ("315532799", said), ("-5", said), ("4323283200", said), ("abc", "SOURCE_DATE_EPOCH isn't a whole number of seconds"), ("1.5", "SOURCE_DATE_EPOCH isn't a whole number of seconds")]:
        told = f"tools/dist.py: {why % at if '%' in why else why}\n".encode()
        expect(run([sys.executable, f"{ROOT}/tools/dist.py", f"{room}/packed"], env={**KIT, "SOURCE_DATE_EPOCH": at}), 1, b"", told)
        is_so(os.path.exists(f"{room}/packed"), False)


@case
def the_packed_folder_is_whole_and_runs(room):
    name = f"boruvka-{version()}-x86_64-linux"
    content = packed(f"{room}/packed")[f"{name}.tar.gz"]
    # a header without a name and a time
    is_so((content[:4], content[4:8]), (b"\x1f\x8b\x08\x00", bytes(4)))
    os.mkdir(f"{room}/empty")
    with tarfile.open(f"{room}/packed/{name}.tar.gz") as tar:
        members = tar.getmembers()
        tar.extractall(f"{room}/empty")
    is_so([it.name for it in members], sorted((it.name for it in members), key=lambda it: it.split("/")))
    is_so({(it.uid, it.gid, it.uname, it.gname, it.mtime) for it in members}, {(0, 0, "root", "root", AT)})
    for path in ("bin/boruvka", f"lib/libboruvka.so.{version()}"):
        with open(f"{room}/empty/{name}/{path}", "rb") as it:
            is_so((path, b".symtab" in it.read()), (path, False))
    run_by = {f"{name}/bin/boruvka", f"{name}/lib/libboruvka.so.{version()}"}
    is_so({it.name for it in members if it.isfile() and it.mode == 0o755}, run_by)
    is_so({it.mode for it in members if it.isfile() and it.name not in run_by} | {it.mode + 1 for it in members if it.isdir()}, {0o644, 0o756})
    root = f"{room}/empty/{name}"
    is_so(files_below(root), {**installed(doc=""), **dict.fromkeys(["PROVED.txt", "SHA256SUMS"])})
    expect_no_dead_links(root, "", "include")
    expect_page(room, f"{root}/share/boruvka")
    with open(f"{root}/SHA256SUMS", encoding="utf-8") as it:
        told = dict(reversed(line.split()) for line in it)
    found = {}
    for path in [it for it, to in files_below(root).items() if to is None and it != "SHA256SUMS"]:
        with open(f"{root}/{path}", "rb") as it:
            found[path] = hashlib.sha256(it.read()).hexdigest()
    is_so(told, found)
    expect_proved(f"{root}/PROVED.txt")
    expect(run([f"{root}/bin/boruvka", "--plain", f"{root}/examples/small.gr"], env=PLAIN), 0, SMALL_FOREST, b"")
    expect(run([f"{root}/bin/boruvka"], SMALL_NET, env=PLAIN), 0, SMALL_FOREST, b"")
    expect_example(f"{room}/of_c", f"{root}/include", f"{root}/lib")
    expect_examples(f"{room}/packed_examples", root, f"{root}/include", f"{root}/lib")
    if shutil.which("pkg-config"):
        is_so(flags(f"{root}/lib/pkgconfig"), [f"-I{root}/include", f"-L{root}/lib", "-lboruvka"])


@case
def the_package_of_debian_is_whole_and_runs(room):
    needs("dpkg-deb")
    name = f"boruvka_{version()}_amd64.deb"
    packed(f"{room}/packed")
    path, root, lib = f"{room}/packed/{name}", f"{room}/empty", "usr/lib/x86_64-linux-gnu"
    os.mkdir(root)
    expect(run(["dpkg-deb", "-x", path, root]), 0, b"", b"")
    expect(run(["dpkg-deb", "-e", path, f"{room}/control"]), 0, b"", b"")
    wanted = installed("usr/bin", lib, "usr/include", "usr/share", "usr/share/man", "usr/share/zsh/vendor-completions", "usr/share/doc/boruvka/")
    wanted["usr/share/man/man1/boruvka.1.gz"] = wanted.pop("usr/share/man/man1/boruvka.1")
    more = [f"usr/share/doc/boruvka/{it}" for it in ("copyright", "changelog.gz", "PROVED.txt")] + ["usr/share/lintian/overrides/boruvka"]
    is_so(files_below(root), {**wanted, **dict.fromkeys(more)})
    expect_no_dead_links(root, "usr/share/doc/boruvka/", "usr/include")
    expect_page(room, f"{root}/usr/share/boruvka")
    listed = run(["dpkg-deb", "-c", path], env={**PLAIN, "TZ": "UTC"})[1].decode().splitlines()
    is_so({tuple(it.split()[1:2] + it.split()[3:5]) for it in listed}, {("root/root", "2023-11-14", "22:13")})
    fields = dict(it.split(": ", 1) for it in run(["dpkg-deb", "-f", path])[1].decode().splitlines() if not it.startswith(" "))
    is_so([fields[it] for it in ("Package", "Version", "Architecture")], ["boruvka", version(), "amd64"])
    is_so(re.match(r"libc6 \(>= 2\.\d+\)", fields["Depends"]) is not None, True)
    with open(f"{room}/control/md5sums", encoding="utf-8") as it:
        is_so({line.split()[1] for line in it}, {path for path, to in files_below(root).items() if to is None})
    expect((run(["md5sum", "--quiet", "-c", f"{room}/control/md5sums"], cwd=root)), 0, b"", b"")
    with gzip.open(f"{root}/usr/share/man/man1/boruvka.1.gz", "rt", encoding="utf-8") as it:
        is_so(it.readline(), f'.TH BORUVKA 1 "2023-11-14" "boruvka {version()}" "User Commands"\n')
    with open(f"{room}/control/shlibs", encoding="utf-8") as it:
        is_so(it.read(), f"libboruvka {major()} boruvka (>= {version()})\n")
    with gzip.open(f"{root}/usr/share/doc/boruvka/changelog.gz", "rt", encoding="utf-8") as it:
        is_so(it.readline(), f"boruvka ({version()}) unstable; urgency=medium\n")
    with open(f"{root}/usr/share/doc/boruvka/copyright", encoding="utf-8") as it:
        told = it.read()
        is_so(("License: MIT or Apache-2.0\n" in told, "/usr/share/common-licenses/Apache-2.0" in told), (True, True))
    expect_proved(f"{root}/usr/share/doc/boruvka/PROVED.txt")
    expect(run([f"{root}/usr/bin/boruvka", "--plain", f"{root}/usr/share/doc/boruvka/examples/small.gr"], env=PLAIN), 0, SMALL_FOREST, b"")
    expect_example(f"{room}/of_c", f"{root}/usr/include", f"{root}/{lib}")
    expect_examples(f"{room}/packed_examples", f"{root}/usr/share/doc/boruvka", f"{root}/usr/include", f"{root}/{lib}")
    if shutil.which("pkg-config"):
        is_so(flags(f"{root}/{lib}/pkgconfig"), [f"-I{root}/usr/include", f"-L{root}/{lib}", "-lboruvka"])


@case
def lintian_finds_no_error_in_the_package(room):
    needs("dpkg-deb")
    packed(f"{room}/packed")
    words = [needs("lintian"), "--allow-root", "--no-cfg", "--fail-on", "error", f"{room}/packed/boruvka_{version()}_amd64.deb"]
    status, output, errors = run(words, env={**PLAIN, "LC_ALL": "C.UTF-8"}, seconds=300)
    is_so((status, re.findall(rb"^[EW]: .*", output + errors, re.M)), (0, []))


@case
def the_package_of_python_says_what_it_needs(room):
    packed(f"{room}/packed")
    about, number = f"boruvka-{version()}.dist-info", version()
    (name,) = [it for it in os.listdir(f"{room}/packed") if it.endswith(".whl")]
    with zipfile.ZipFile(f"{room}/packed/{name}") as it:
        fields, _, text = it.read(f"{about}/METADATA").decode().partition("\n\n")
        is_so(it.read(f"{about}/LICENSE").decode(), text_of("LICENSE"))
        library = it.read(f"boruvka/libboruvka.so.{major()}")
    fields = [tuple(it.split(": ", 1)) for it in fields.splitlines()]
    is_so([it for it in fields if it[0] in ("Version", "License", "License-File", "Requires-Python")],
          [("Version", number), ("License", "MIT OR Apache-2.0"), ("License-File", "LICENSE"), ("Requires-Python", ">=3.9")])
    is_so(("Classifier", "Programming Language :: Python :: 3.11") in fields, True)
    # the files that its text links to aren't in a wheel
    is_so((re.findall(r"\]\([^()]+\)", text), text.startswith("# boruvka for Python\n")), ([], True))
    is_so(b".symtab" in library, False)


@case
def a_package_says_what_make_test_passed(room):
    """In a small repository: the record of a `make test` that passed is valid only for its commit."""
    needs("git")
    libraries()
    built = module()
    top = f"{room}/top"
    for name in ["Makefile", "README.md", "SECURITY.md", "CHANGELOG.md", "CONTRIBUTING.md", "LICENSE", "docs", "tools", "include", "man", "completions", "examples", "python", "postgres", "web", VERSION]:
        copy = shutil.copytree if os.path.isdir(f"{ROOT}/{name}") else shutil.copy
        os.makedirs(os.path.dirname(f"{top}/{name}"), exist_ok=True)
        copy(f"{ROOT}/{name}", f"{top}/{name}")
    shutil.copy(f"{ROOT}/.gitignore", top)
    git = ["git", "-C", top, "-c", "user.name=a name", "-c", "user.email=", "-c", "commit.gpgsign=false"]
    expect(run([*git, "init", "-q"]), 0, b"", b"")

    def committed(text):
        written(f"{top}/note", text)
        expect(run([*git, "add", "-A"]), 0, b"", b"")
        expect(run([*git, "commit", "-q", "-m", "a note"]), 0, b"", b"")

    def gate(between="pass"):
        code = f"import sys; sys.path.insert(0, 'tools'); import record; gate = record.Run(); {between}; gate.keep(['1 passed, 0 failed'])"
        expect(run([sys.executable, "-B", "-c", code], cwd=top, env=KIT), 0, b"", b"")

    def told():
        code = "import sys; sys.path.insert(0, 'tools'); import dist; print(*dist.Release('', '').proved(), sep='\\n')"
        status, output, errors = run([sys.executable, "-B", "-c", code], cwd=top, env=KIT)
        expect((status, b"", errors), 0, b"", b"")
        return output.decode().splitlines()

    def refused(why):
        """Without UNPROVED=1 nothing is packed, and `make dist` says so before it proves."""
        shutil.rmtree(f"{top}/dist", ignore_errors=True)
        told = f"tools/dist.py: {why}\n".encode()
        for arguments in ([], ["--may"]):
            expect(run([*words, *arguments], env=env), 1, b"", told)
        status, output, errors = run(["make", "-s", "-C", top, "dist"], env={**env, "RT": "no-such-command"})
        is_so((status != 0, output, errors.startswith(told), b"no-such-command" in errors, os.path.exists(f"{top}/dist")), (True, b"", True, False, False))
        expect(run([*words, "--may"], env={**env, "UNPROVED": "1"}), 0, b"", b"")

    words, env = [sys.executable, "-B", f"{top}/tools/dist.py"], {it: word for it, word in KIT.items() if it not in ("SOURCE_DATE_EPOCH", "UNPROVED")}
    changes = re.sub(r"^## \S+", f"## {version()}", text_of("CHANGELOG.md"), count=1, flags=re.M)
    written(f"{top}/CHANGELOG.md", changes.encode())
    committed(b"one\n")
    refused("`make test` isn't known to have passed on this commit: run it, or set UNPROVED=1")
    first = run([*git, "rev-parse", "HEAD"])[1].decode().strip()
    head = [f"boruvka {version()}", f"commit: {first}", "toolchain: a-kit version"]
    passed = ["make test: passed on this commit, with a-kit version", "    1 passed, 0 failed"]
    unknown = ["make test: not known to have passed on this commit; packed anyway, because UNPROVED=1 was set"]
    is_so(told(), head + unknown)
    gate()
    is_so(told(), head + passed)
    # a package has the record, and the commit's time
    os.makedirs(f"{top}/crates/boruvka_c/out")
    shutil.copy(Program.path, f"{top}/crates/boruvka/out/boruvka")
    for name in ("libboruvka.a", f"libboruvka.so.{version()}"):
        shutil.copy(f"{LIBRARIES}/{name}", f"{top}/crates/boruvka_c/out/{name}")
    os.makedirs(f"{top}/crates/boruvka_within/out")
    shutil.copy(f"{ROOT}/crates/boruvka_within/out/libboruvka_within.a", f"{top}/crates/boruvka_within/out")
    expect(run(words, env=env), 1, b"", b"tools/dist.py: The page has no module yet: `make wasm` proves and builds it.\n")
    shutil.copy(built, f"{top}/crates/boruvka_within/out")
    status, output, _ = run(words, env=env)
    is_so((status, output.count(b"\n")), (0, packages()))
    name = f"boruvka-{version()}-x86_64-linux"
    with tarfile.open(f"{top}/dist/{name}.tar.gz") as tar:
        member = tar.getmember(f"{name}/PROVED.txt")
        is_so(str(member.mtime), run([*git, "log", "-1", "--format=%ct"])[1].decode().strip())
        is_so(tar.extractfile(member).read().decode().splitlines(), head + passed)
    # changes of a coming version
    written(f"{top}/CHANGELOG.md", changes.replace("## ", "## Next\n- a change\n\n## ", 1).encode())
    refused(f"CHANGELOG.md begins with Next, but {VERSION} has {version()}: make them equal, or set UNPROVED=1")
    written(f"{top}/CHANGELOG.md", changes.encode())
    is_so(told(), head + passed)
    # an uncommitted change, and another commit
    written(f"{top}/note", b"two\n")
    is_so(told(), [head[0], f"{head[1]}, with uncommitted changes", head[2], *unknown])
    committed(b"two\n")
    is_so(told()[3:], unknown)
    gate()
    is_so(told()[3:], passed)
    # a `make test` that didn't end, one with an uncommitted change, and one during which a file changed
    expect(run([sys.executable, "-B", "-c", "import sys; sys.path.insert(0, 'tools'); import record; record.Run()"], cwd=top), 0, b"", b"")
    is_so(told()[3:], unknown)
    written(f"{top}/note", b"three\n")
    gate()
    written(f"{top}/note", b"two\n")
    is_so(told()[3:], unknown)
    gate("open('note', 'w').write('four')")
    written(f"{top}/note", b"two\n")
    is_so(told()[3:], unknown)
