"""The package for Python: what its wheel has, that pip installs it, and its own tests on the wheel.

They run in a Python that has numpy, and are skipped if there is none. A test that needs another missing package is
skipped too.
"""
import ast
import base64
import configparser
import csv
import hashlib
import io
import os
import re
import shutil
import subprocess
import sys
import time
import zipfile

from cases.embedding import LIBRARIES, TEXTS
from cases.release import AT, PLAIN, expect_proved, files_below, is_so, major, needs, packed, version
from cases.running import ROOT, Program, Skipped, case, expect, run, written
from cases.within import module

PACKAGE = f"{ROOT}/python"
PYTHONS = (sys.executable, "/usr/bin/python3", "/usr/local/bin/python3")
USED = ("numpy", "scipy", "networkx", "sklearn", "matplotlib", "pandas", "dask", "distributed")
WITHOUT = {it: word for it, word in PLAIN.items() if it != "BORUVKA_LIBRARY"}


# prints the version of Python, that of its networkx, the folder of networkx, and the one that describes it
NETWORKX = """
import importlib.metadata, networkx, os, sys
print(*sys.version_info[:2])
print(*networkx.__version__.split(".")[:2])
print(os.path.dirname(networkx.__file__))
print(importlib.metadata.distribution("networkx")._path)
"""


def python():
    """The Python that has numpy and the most of the other packages."""
    code = "import importlib.util, sys; print(*(importlib.util.find_spec(it) is not None for it in sys.argv[1:]))"
    found = []
    for path in filter(os.path.exists, PYTHONS):
        printed = run([path, "-c", code, *USED], env=WITHOUT)[1].decode().split()
        if printed[:1] == ["True"]:
            found.append((printed.count("True"), path))
    if not found:
        raise Skipped("no Python has numpy")
    return max(found, key=lambda it: it[0])[1]


def wheel(room):
    """The path of the wheel, which is built once."""
    folder = f"{os.path.dirname(room)}/wheel"
    if not os.path.exists(folder):
        packed(f"{room}/packed")
        os.mkdir(folder)
        for name in os.listdir(f"{room}/packed"):
            if name.endswith(".whl"):
                shutil.copy(f"{room}/packed/{name}", folder)
    (name,) = os.listdir(folder)
    return f"{folder}/{name}"


def site(room):
    """A folder with the unpacked wheel."""
    with zipfile.ZipFile(wheel(room)) as it:
        it.extractall(f"{room}/site")
    return f"{room}/site"


def borrowed_networkx(room, python):
    """A folder with a networkx that has backends, from any Python of the same version: it has no compiled parts."""
    expected = run([python, "-c", "import sys; print(*sys.version_info[:2])"], env=WITHOUT)[1].decode().strip()
    printed = [run([it, "-c", NETWORKX], env=WITHOUT)[1].decode().splitlines() for it in filter(os.path.exists, PYTHONS)]
    folders = next((it[2:] for it in printed if it and it[0] == expected and tuple(map(int, it[1].split())) >= (3, 2)), None)
    if not folders:
        raise Skipped(f"no Python {expected} has networkx 3.2 or later")
    os.mkdir(f"{room}/borrowed")
    for it in folders:
        os.symlink(it, f"{room}/borrowed/{os.path.basename(it)}")
    return f"{room}/borrowed"


def networkx_if_there(room):
    """Its folder, for tests of which only a few need it."""
    try:
        return [borrowed_networkx(room, python())]
    except Skipped:
        return []


def expect_tests(room, *names, more=()):
    """These of the package's tests pass on the wheel.

    The reasons of skipped tests are printed; if all are skipped, so is the case.
    """
    path = os.pathsep.join([site(room), *more, *filter(None, [os.environ.get("PYTHONPATH")])])
    env = {**WITHOUT, "PYTHONPATH": path, "PYTHONDONTWRITEBYTECODE": "1", "MPLCONFIGDIR": os.path.dirname(room)}
    status, _, printed = run([python(), "-m", "unittest", "-v", *names], env=env, cwd=f"{PACKAGE}/tests", seconds=300)
    shape = re.search(r"^Ran (\d+) tests? in .*\n\nOK(?: \(skipped=(\d+)\))?\s*$", printed.decode(), re.M)
    if status or not shape or shape[1] == "0":
        raise AssertionError(printed.decode()[-3000:])
    reasons = {*re.findall(r"\.\.\. skipped ['\"](.*)['\"]$", printed.decode(), re.M)}
    if shape[1] == shape[2]:
        raise Skipped(min(reasons))
    for why in sorted(reasons):
        print(f"program: some of {' and '.join(names)}: skipped: {why}", flush=True)


@case
def the_wheel_is_whole(room):
    path = wheel(room)
    is_so(os.path.basename(path), f"boruvka-{version()}-py3-none-manylinux2014_x86_64.whl")
    with zipfile.ZipFile(path) as it:
        files = {entry.filename: it.read(entry) for entry in it.infolist()}
        is_so({(entry.date_time, entry.external_attr >> 16) for entry in it.infolist()}, {(time.gmtime(AT)[:6], 0o100644)})
    about = f"boruvka-{version()}.dist-info"
    modules = {f"boruvka/{it}" for it in os.listdir(f"{PACKAGE}/boruvka") if it.endswith(".py")} | {"_boruvka_networkx.py"}
    kept = {f"{about}/{it}" for it in ("METADATA", "WHEEL", "RECORD", "LICENSE", "PROVED.txt", "entry_points.txt")}
    library = f"libboruvka.so.{major()}"
    is_so(set(files), modules | kept | {"boruvka/py.typed", "boruvka/boruvka.html", f"boruvka/{library}"})
    for name in [*modules, f"boruvka/{library}"]:
        with open(f"{LIBRARIES}/{library}" if name.endswith(library) else f"{PACKAGE}/{name}", "rb") as it:
            is_so(files[name] == it.read(), True)
    rows = list(csv.reader(io.StringIO(files[f"{about}/RECORD"].decode())))
    is_so(sorted(it[0] for it in rows), sorted(files))
    for name, printed, size in rows:
        found = base64.urlsafe_b64encode(hashlib.sha256(files[name]).digest()).decode().rstrip("=")
        is_so((printed, size), ("", "") if name.endswith("RECORD") else (f"sha256={found}", str(len(files[name]))))
    head, _, readme = files[f"{about}/METADATA"].decode().partition("\n\n")
    fields = [tuple(it.split(": ", 1)) for it in head.splitlines()]
    is_so([it for it in fields if it[0] in ("Name", "Version")], [("Name", "boruvka"), ("Version", version())])
    is_so([it[1] for it in fields if it[0] == "Requires-Dist" and ";" not in it[1]], ["numpy>=1.21"])
    extras = [it[1] for it in fields if it[0] == "Provides-Extra"]
    is_so(extras, ["dask", "matplotlib", "networkx", "pandas", "scikit-learn", "scipy"])
    needed = [it[1] for it in fields if it[0] == "Requires-Dist" and ";" in it[1]]
    is_so([re.fullmatch(r'(\S+?)>=[\d.]+; extra == "(\S+)"', it).groups() for it in needed], [(it, it) for it in extras])
    with open(f"{PACKAGE}/README.md", encoding="utf-8") as it:
        is_so(readme, it.read())
    # networkx finds the backend and its description by these
    entries = configparser.ConfigParser()
    entries.read_string(files[f"{about}/entry_points.txt"].decode())
    found = {(section, *it) for section in entries.sections() for it in entries.items(section)}
    is_so(found, {("networkx.backends", "boruvka", "boruvka.networkx_backend"), ("networkx.backend_info", "boruvka", "_boruvka_networkx:info")})
    is_so(b"\ndef info()" in files["_boruvka_networkx.py"], True)
    written(f"{room}/PROVED.txt", files[f"{about}/PROVED.txt"])
    expect_proved(f"{room}/PROVED.txt")


@case
def the_page_is_in_the_wheel(room):
    """It is the page of the other packages, and `boruvka.show` finds it."""
    expect(run([sys.executable, f"{ROOT}/tools/page.py", module(), f"{room}/page.html"]), 0, b"", b"")
    with open(f"{site(room)}/boruvka/boruvka.html", "rb") as found, open(f"{room}/page.html", "rb") as expected:
        is_so(found.read() == expected.read(), True)
    code = "import boruvka; print(boruvka.show([[0, 0], [3, 4]], into='shown.html'))"
    os.mkdir(f"{room}/home")
    expect(run([python(), "-c", code], env={**WITHOUT, "PYTHONPATH": f"{room}/site", "HOME": f"{room}/home"}, cwd=room), 0, b"shown.html\n", b"")
    with open(f"{room}/shown.html", encoding="utf-8") as it:
        is_so("points.csv.gz" in it.read(), True)


@case
def the_debian_package_of_python_is_whole_and_runs(room):
    """With the package of the library, as `dpkg -i` of both installs them, in Debian's own Python."""
    needs("dpkg-deb")
    packed(f"{room}/packed")
    root, name = f"{room}/empty", f"python3-boruvka_{version()}_all.deb"
    for it in (name, f"boruvka_{version()}_amd64.deb"):
        expect(run(["dpkg-deb", "-x", f"{room}/packed/{it}", root]), 0, b"", b"")
    expect(run(["dpkg-deb", "-x", f"{room}/packed/{name}", f"{room}/alone"]), 0, b"", b"")
    expect(run(["dpkg-deb", "-e", f"{room}/packed/{name}", f"{room}/control"]), 0, b"", b"")
    there = "usr/lib/python3/dist-packages"
    modules = {f"{there}/boruvka/{it}" for it in os.listdir(f"{PACKAGE}/boruvka") if it.endswith((".py", ".typed"))}
    about = {f"{there}/boruvka-{version()}.dist-info/{it}" for it in ("METADATA", "entry_points.txt")}
    documents = {f"usr/share/doc/python3-boruvka/{it}" for it in ("copyright", "changelog.gz", "PROVED.txt")}
    is_so(set(files_below(f"{room}/alone")), modules | about | documents | {f"{there}/_boruvka_networkx.py"})
    expect_proved(f"{root}/usr/share/doc/python3-boruvka/PROVED.txt")
    fields = dict(it.split(": ", 1) for it in run(["dpkg-deb", "-f", f"{room}/packed/{name}"])[1].decode().splitlines() if not it.startswith(" "))
    is_so([fields[it] for it in ("Package", "Version", "Architecture")], ["python3-boruvka", version(), "all"])
    is_so(fields["Depends"].startswith(f"boruvka (>= {version()}), python3"), True)
    expect(run(["md5sum", "--quiet", "-c", f"{room}/control/md5sums"], cwd=f"{room}/alone"), 0, b"", b"")
    for script in ("postinst", "prerm"):
        expect(run(["sh", "-n", f"{room}/control/{script}"]), 0, b"", b"")
    code = "import boruvka; print(boruvka.__version__, boruvka.minimum_spanning_forest([0, 1, 2], [1, 2, 0], [3, 1, 2]).index); boruvka.show([[0, 0]], into='shown.html')"
    env = {**WITHOUT, "PYTHONPATH": f"{root}/{there}", "LD_LIBRARY_PATH": f"{root}/usr/lib/x86_64-linux-gnu", "BORUVKA_PAGE": f"{root}/usr/share/boruvka/boruvka.html"}
    expect(run([debians_python(), "-B", "-c", code], env=env, cwd=room), 0, f"{version()} [1 2]\n".encode(), b"")


def debians_python():
    """The Python for which Debian's packages are, with numpy."""
    if run(["/usr/bin/python3", "-c", "import numpy"], env=WITHOUT)[0]:
        raise Skipped("Debian's Python isn't installed, or has no numpy")
    return "/usr/bin/python3"


@case
def lintian_finds_no_error_in_the_debian_package_of_python(room):
    needs("dpkg-deb")
    packed(f"{room}/packed")
    command = [needs("lintian"), "--allow-root", "--no-cfg", "--fail-on", "error", f"{room}/packed/python3-boruvka_{version()}_all.deb"]
    status, output, errors = run(command, env={**PLAIN, "LC_ALL": "C.UTF-8"}, seconds=300)
    is_so((status, re.findall(rb"^[EW]: .*", output + errors, re.M)), (0, []))


@case
def the_wheel_needs_no_more_than_its_tag_says(_room):
    """By the symbols of the library: manylinux2014 has version 2.17 of the C library."""
    if not shutil.which("objdump"):
        raise Skipped("there is no objdump")
    shared = f"{LIBRARIES}/libboruvka.so"
    symbols = subprocess.run(["objdump", "-T", shared], check=True, capture_output=True, text=True).stdout
    versions = {tuple(map(int, it.split("."))) for it in re.findall(r"\(?GLIBC_([\d.]+)", symbols)}
    heads = subprocess.run(["objdump", "-p", shared], check=True, capture_output=True, text=True).stdout
    is_so((bool(versions), {it for it in versions if it > (2, 17)}), (True, set()))
    is_so(set(re.findall(r"NEEDED +(\S+)", heads)) - {"libc.so.6", "ld-linux-x86-64.so.2"}, set())


@case
def a_fresh_environment_installs_the_wheel(room):
    """By pip, without a network, on a system that has numpy."""
    made = run([python(), "-m", "venv", "--system-site-packages", f"{room}/fresh"], env=WITHOUT)
    if made[0]:
        raise Skipped("this Python makes no environment with pip")
    pip = [f"{room}/fresh/bin/python", "-m", "pip", "--disable-pip-version-check", "--quiet"]
    env = {it: word for it, word in WITHOUT.items() if not it.startswith(("PIP_", "PYTHON"))}
    expect(run([*pip, "install", "--no-index", wheel(room)], env=env), 0, b"", b"")
    code = "import boruvka; print(boruvka.__file__); print(boruvka.minimum_spanning_forest(3, [0, 1, 2], [1, 2, 0], [3, 1, 2]).index); print(boruvka.__version__)"
    status, output, errors = run([f"{room}/fresh/bin/python", "-c", code], env=env, cwd=room)
    expect((status, output.split(b"\n")[1:], errors), 0, [b"[1 2]", version().encode(), b""], b"")
    is_so(output.startswith(f"{os.path.realpath(room)}/fresh/".encode()), True)
    expect(run([*pip, "uninstall", "--yes", "boruvka"], env=env), 0, b"", b"")
    is_so(run([f"{room}/fresh/bin/python", "-c", "import boruvka"], env=env, cwd=room)[0], 1)


@case
def forests_of_arrays(room):
    expect_tests(room, "test_forest", more=networkx_if_there(room))


@case
def forests_of_frames(room):
    expect_tests(room, "test_frames")


@case
def names_of_vertices(room):
    expect_tests(room, "test_names")


@case
def paths_bottlenecks_and_replacements(room):
    expect_tests(room, "test_paths")


@case
def drawn_edges_in_every_way(room):
    expect_tests(room, "test_drawn_edges")


@case
def gr_files(room):
    expect_tests(room, "test_gr")


@case
def errors_as_the_program_reports_them(room):
    """The line and the name of each error in test_gr, after the name of the file."""
    code = "import sys; sys.path.insert(0, sys.argv[1]); import test_gr; print([it[0] for it in test_gr.ERRORS])"
    status, printed, errors = run([python(), "-c", code, f"{PACKAGE}/tests"], env={**WITHOUT, "PYTHONPATH": site(room)})
    texts = ast.literal_eval(printed.decode()) if status == 0 else []
    is_so((status, errors, len(texts) > 20), (0, b"", True))
    code = "import boruvka, sys\nfor it in sys.argv[1:]:\n    try:\n        boruvka.read_gr(it)\n    except ValueError as error:\n        print(error)"
    paths = [f"{room}/{number}.gr" for number in range(len(texts))]
    for path, text in zip(paths, texts):
        written(path, text)
    printed = run([python(), "-c", code, *paths], env={**WITHOUT, "PYTHONPATH": f"{room}/site"})[1].decode().splitlines()
    expected = [run([Program.path, "--plain", it])[2].decode() for it in paths]
    is_so([f"{it}\n" for it in printed], [f"{path}{it.removeprefix('boruvka')}" for path, it in zip(paths, expected)])


@case
def errors_as_the_library_names_them(room):
    env = {**WITHOUT, "PYTHONPATH": site(room), "PYTHONDONTWRITEBYTECODE": "1"}
    code = "from boruvka import _library\nfor code in range(-22, 4):\n    print(code, _library.error_text(code))"
    expect(run([python(), "-c", code], env=env), 0, TEXTS, b"")


@case
def mistakes_that_people_make(room):
    expect_tests(room, "test_mistakes", more=networkx_if_there(room))


@case
def typical_uses(room):
    """They run, whether mypy is installed or not."""
    expect(run([python(), f"{PACKAGE}/tests/typed_uses.py"], env={**WITHOUT, "PYTHONPATH": site(room)}, cwd=room), 0, b"", b"")


@case
def types_by_mypy(room):
    """`mypy --strict` finds nothing in the package and in typical uses, and exactly the marked lines in mistakes."""
    if run([python(), "-m", "mypy", "--version"], env=WITHOUT)[0]:
        raise Skipped("the Python that has numpy has no mypy")
    written(f"{room}/mypy.ini", f"[mypy]\nstrict = True\ncache_dir = {room}/cache\n[mypy-{'.*,'.join(USED)}.*,pandas.*]\nignore_missing_imports = True\n".encode())
    env = {**WITHOUT, "MYPYPATH": site(room)}
    command = [python(), "-m", "mypy", "--config-file", f"{room}/mypy.ini", "--no-error-summary"]
    expect(run([*command, f"{room}/site/boruvka"], env=env, cwd=room, seconds=300), 0, b"", b"")
    expect(run([*command, f"{PACKAGE}/tests/typed_uses.py"], env=env, cwd=room, seconds=300), 0, b"", b"")
    mistakes = f"{PACKAGE}/tests/typed_mistakes.py"
    printed = run([*command, mistakes], env=env, cwd=room, seconds=300)[1].decode()
    with open(mistakes, encoding="utf-8") as lines:
        expected = {number for number, line in enumerate(lines, 1) if "# wrong" in line}
    is_so(({int(it) for it in re.findall(r"^\S+\.py:(\d+): error: ", printed, re.M)}, len(expected) > 20), (expected, True))


@case
def forests_of_chunks_and_by_threads(room):
    expect_tests(room, "test_chunks")


@case
def rows_of_dask_frames_in_one_process(room):
    expect_tests(room, "test_dask.OneProcess", "test_dask.Page")


@case
def rows_of_dask_frames_in_two_processes(room):
    expect_tests(room, "test_dask.TwoProcesses")


@case
def linkage_and_clusters(room):
    expect_tests(room, "test_linkage.Worked", "test_linkage.Rejected", "test_linkage.Drawn")


@case
def exact_trees_of_points(room):
    expect_tests(room, "test_linkage.Exact")


@case
def trees_under_each_metric(room):
    expect_tests(room, "test_linkage.Metrics")


@case
def trees_of_clustered_points_and_their_lengths(room):
    expect_tests(room, "test_linkage.Clustered", "test_linkage.Lengths")


@case
def drawn_points_and_clusters(room):
    expect_tests(room, "test_drawn_points")


@case
def drawn_cases_report_what_is_wrong(room):
    """`make soak` on the wheel's library: right cases pass, and a planted one is reported with the arguments that
    repeat it.
    """
    command = [sys.executable, f"{ROOT}/tests/soak_python.py", "--minutes", "0.05", "--seed", "7", f"{LIBRARIES}/libboruvka.so"]
    status, printed, errors = run(command, env=PLAIN)
    last = re.fullmatch(r"(\d+) cases, 0 mismatches", printed.decode().splitlines()[-1])
    is_so((status, bool(last) and int(last[1]) > 1, errors), (0, True, b""))
    written(f"{room}/drawn_wrong.py", b"def wrong(draw):\n    raise AssertionError(int(draw.integers(100)))\n\n\nSORTS = {'planted': wrong}\n")
    command += ["--drawn", room]
    status, printed, _ = run(command, env=PLAIN)
    first = re.search(r"^soak: --seed 7 --sort 'planted' --case 0\n(?s:.*?)AssertionError: (\d+)$", printed.decode(), re.M)
    is_so((status, bool(first)), (1, True))
    again = run([*command, "--sort", "planted", "--case", "0"], env=PLAIN)[1].decode()
    is_so((f"AssertionError: {first[1]}\n" in again, again.splitlines()[-1]), (True, "1 cases, 1 mismatches"))


@case
def ctrl_c_ends_a_long_call(room):
    expect_tests(room, "test_interrupt")


@case
def linkage_compared_with_scipys(room):
    expect_tests(room, "test_linkage.Scipys")


@case
def estimators_of_scikit_learn(room):
    expect_tests(room, "test_cluster")


@case
def sparse_matrices_compared_with_scipys(room):
    expect_tests(room, "test_sparse")


# what networkx, from version 3.2 on, does with backends when it is imported
STARTED = """
from importlib.metadata import entry_points
found = entry_points()
found = found.select(group="networkx.backend_info") if hasattr(found, "select") else found.get("networkx.backend_info", ())
infos = {it.name: it.load()() for it in found if it.name == "boruvka"}
"""


@case
def networkx_starts_without_loading_the_package(room):
    """The backend can also be imported first.

    A replacement for networkx does what networkx does, so any Python can run this.
    """
    os.makedirs(f"{room}/stand-in/networkx")
    written(f"{room}/stand-in/networkx/__init__.py", STARTED.encode())
    env = {**WITHOUT, "PYTHONPATH": os.pathsep.join([f"{room}/stand-in", site(room)]), "PYTHONDONTWRITEBYTECODE": "1"}
    code = "import networkx, sys; print(*networkx.infos['boruvka']['functions'], *sorted({'boruvka', 'numpy'} & {*sys.modules}))"
    names = [f"{least}_spanning_{what}" for what in ("edges", "tree") for least in ("minimum", "maximum")]
    expect(run([python(), "-c", code], env=env), 0, f"{' '.join(names)}\n".encode(), b"")
    code = "import boruvka.networkx_backend as it, networkx; print({*networkx.infos['boruvka']['functions']} - {*vars(it)})"
    expect(run([python(), "-W", "error", "-c", code], env=env), 0, b"set()\n", b"")


@case
def graphs_of_networkx_compared_with_its_own(room):
    expect_tests(room, "test_networkx.Functions", more=[borrowed_networkx(room, python())])


@case
def networkx_finds_the_backend(room):
    expect_tests(room, "test_networkx.Found", more=[borrowed_networkx(room, python())])


@case
def docstrings_readme_and_pictures(room):
    expect_tests(room, "test_documents")


@case
def points_in_the_page(room):
    expect_tests(room, "test_page")


@case
def each_class_of_the_packages_tests_is_run(_room):
    """A case names its file, or the class itself."""
    with open(__file__, encoding="utf-8") as it:
        cases = it.read()
    names, lacking = [it.removesuffix(".py") for it in os.listdir(f"{PACKAGE}/tests") if it.startswith("test_")], []
    for name in names:
        with open(f"{PACKAGE}/tests/{name}.py", encoding="utf-8") as it:
            classes = [f"{name}.{each}" for each in re.findall(r"^class (\w+)\(unittest\.TestCase\)", it.read(), re.M)]
        lacking += [each for each in classes or [name] if f'"{name}"' not in cases and f'"{each}"' not in cases]
    is_so((lacking, len(names) > 5), ([], True))
