"""The code of the page: types, a linter, lengths of lines and files, unused exports, colours and state."""
import os
import re
import shutil
import subprocess

from browsing.page import WEB, is_so
from cases.running import Skipped, case

MOST_IN_LINE = 120
MOST_IN_FILE = 400
# Debian's modules, which another build of Node doesn't look for
MODULES = "/usr/share/nodejs:/usr/lib/nodejs"


def scripts():
    return sorted(it for it in os.listdir(WEB) if it.endswith(".js"))


def text_of(name):
    with open(f"{WEB}/{name}", encoding="utf-8") as it:
        return it.read()


def checker():
    """TypeScript's checker, in the version that the page was written for."""
    program = shutil.which("tsc")
    if not program:
        raise Skipped("there is no tsc")
    version = subprocess.run([program, "--version"], capture_output=True, text=True, check=False).stdout.split()[-1]
    if not version.startswith("4."):
        raise Skipped(f"tsc is {version}: web/globals.d.ts adds to the library of version 4")
    return program


def ran(words, folder):
    ended = subprocess.run(words, cwd=folder, capture_output=True, text=True, check=False, env={**os.environ, "NODE_PATH": MODULES})
    return ended.stdout + ended.stderr, ended.returncode


@case
def the_scripts_keep_their_types_and_pass_the_linter(room):
    """The types are in JSDoc and web/types.js. ESLint reads the checker's output for older browsers. Both tools are first shown
    to find a mistake."""
    tsc, program = checker(), shutil.which("eslint")
    output, _ = ran([tsc, "-p", f"{WEB}/tsconfig.json", "--noEmit", "false", "--target", "es2019", "--outDir", f"{room}/es"], room)
    # (those had no numbers like 1n, which the checker leaves unchanged)
    is_so([it for it in output.splitlines() if "error TS2737" not in it], [])
    shutil.copytree(WEB, f"{room}/web")
    with open(f"{room}/web/wrong.js", "w", encoding="utf-8") as it:
        it.write("import { state } from './state.js';\nstate.zoom = 3;\n")
    output, _ = ran([tsc, "--noEmit", "--allowJs", "--checkJs", "--target", "es2022", "--moduleResolution", "node", "--lib", "es2022,dom,dom.iterable", it.name], room)
    is_so("'zoom' does not exist on type 'State'" in output, True)
    if not program:
        raise Skipped("there is no eslint; the types are right")
    with open(f"{room}/es/wrong.js", "w", encoding="utf-8") as it:
        it.write("export const double = it => it * lost;\n")
    lint = [program, "--format", "unix", "--no-eslintrc", "--config", f"{WEB}/eslintrc.json"]
    output, _ = ran([*lint, "wrong.js"], f"{room}/es")
    is_so(("id-blacklist" in output, "no-undef" in output), (True, True))
    os.unlink(f"{room}/es/wrong.js")
    is_so(ran([*lint, *sorted(os.listdir(f"{room}/es"))], f"{room}/es"), ("", 0))


@case
def lines_and_files_are_short(_room):
    names = [*scripts(), "page.css", "index.html"]
    long_lines = [(name, number) for name in names for number, line in enumerate(text_of(name).splitlines(), 1) if len(line) > MOST_IN_LINE]
    long_files = [name for name in names if text_of(name).count("\n") > MOST_IN_FILE]
    is_so((long_lines, long_files), ([], []))


@case
def each_script_is_used(_room):
    """Every export is used by another script or by a test."""
    here = os.path.dirname(os.path.realpath(__file__))
    tests = "".join(open(f"{here}/{it}", encoding="utf-8").read() for it in os.listdir(here) if it.endswith((".py", ".js")))
    unused = []
    for name in scripts():
        others = "".join(text_of(it) for it in scripts() if it != name) + tests
        for exported in re.findall(r"^export (?:const|class|(?:async )?function\*?) (\w+)", text_of(name), re.M):
            if not re.search(rf"\b{exported}\b", others):
                unused.append((name, exported))
    is_so(unused, [])


@case
def colours_are_written_once(_room):
    """Each colour is written once, in page.css. The scripts read it there, or compute it."""
    found = {name: re.findall(r"#[0-9a-f]{6}\b", text_of(name)) for name in [*scripts(), "index.html"]}
    is_so({name: it for name, it in found.items() if it}, {})
    colours = re.findall(r"(--[\w-]+): #[0-9a-f]{6}\b", text_of("page.css"))
    is_so((len(colours), len(set(colours)), len(re.findall(r"#[0-9a-f]{6}\b", text_of("page.css")))), (20, 20, 20))


@case
def state_is_in_one_place(_room):
    """Only state.js has changing state; the other modules have only constants. Three variables are exceptions."""
    found = [(name, line) for name in scripts() for line in text_of(name).splitlines() if re.match(r"(export )?(let|var) ", line)]
    is_so(found, [("solver.js", "let underway = 1;"), ("worker.js", "let module;"), ("worker.js", "let seen; // the result that pictures show")])
