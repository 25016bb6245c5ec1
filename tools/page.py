#!/usr/bin/env python3
"""Packs the page of web/ with the module into one HTML file, which a browser opens from any folder.

usage: tools/page.py MODULE INTO

MODULE is boruvka.wasm, which `make wasm` builds. INTO gets the page. The same files give the same bytes.

The page accepts data in two ways, and reads both like a file that is opened:

- In the page, in the place of the empty element DATA: `<script type="application/json" id="data">{"name": "towns.csv",
  "base64": ".."}</script>`. The base64 is that of the file's bytes, compressed by gzip or not. The name ends as the file's
  would. Each `<` is written as `\\u003c`. The page itself saves such files, and opens them as they were left. For this the
  JSON may also have:
  - `columns`: how to read the table, as the choices of web/columns.js, so that the page doesn't ask
  - `places`: the `name` and `base64` of a .co file, for a graph
  - `clusters` and `smallest`: the number of clusters, and the least number of points of a cluster that gets a colour
  - `view`: the point in the middle of the picture, and the magnification: `[x, y, times]`
  - `scale`: the scale of heights, `root`, `even` or `log`
- In its address, after `#d=`: the text of a table of up to 5,000 points, compressed by raw deflate and written as base64url
  without `=`. It may be followed by `&k=` clusters, `&s=` smallest, `&v=` view with commas, and `&h=` scale.

A policy in the page's head has the hashes of its scripts and its style. The browser runs nothing else, and loads nothing.
"""
import base64
import hashlib
import os
import re
import sys
import zlib

sys.dont_write_bytecode = True

from crates import ROOT

WEB = f"{ROOT}/web"
SCRIPT = '<script type="module" src="page.js"></script>'
STYLE = '<link rel="stylesheet" href="page.css">'
DATA = '<script type="application/json" id="data"></script>'


def read(name):
    with open(f"{WEB}/{name}", encoding="utf-8") as it:
        return it.read()


def parts(name, before=()):
    """Returns a script and all that it imports, each after its own imports."""
    names = []
    for it in re.findall(r"^import .* from '\./(.*)';$", read(name), re.M):
        names += parts(it, [*before, *names])
    return [*names, name] if name not in [*before, *names] else names


def variable(name):
    return f"from_{name.removesuffix('.js')}"


def without_comments(text):
    """Returns a script without comments and indentation. No string in it spans lines."""
    text = re.sub(r"^ *//.*\n|^ */\*\*(?:(?!\*/)[\s\S])*\*/\n", "", text, flags=re.M)
    text = re.sub(r"/\*\* @[^`]*?\*/ ?", "", text)
    # (a comment after code follows `;`, `,` or a bracket outside quotes)
    text = re.sub(r"^(.*[;,{(\[]) +// .*$", lambda it: it[0] if any(it[1].count(mark) % 2 for mark in "'\"`") else it[1], text, flags=re.M)
    if any(line.count("`") % 2 for line in text.splitlines()):
        raise SystemExit("tools/page.py: a text in backticks goes over several lines")
    return re.sub(r"^ +|^\n", "", text, flags=re.M)


def enclosed(name):
    """Returns a script as a function that is called once and returns what the script exports."""
    text = without_comments(read(name))
    text = re.sub(r"^import (.*) from '\./(.*)';$", lambda it: f"const {it[1]} = {variable(it[2])};", text, flags=re.M)
    exports = re.findall(r"^export (?:const|class|(?:async )?function\*?) (\w+)", text, re.M)
    text = re.sub(r"^export ", "", text, flags=re.M)
    if re.search(r"^(import|export)\b", text, re.M):
        raise SystemExit(f"tools/page.py: {name} imports or exports in a way that isn't known here")
    return f"const {variable(name)} = (() => {{\n{text}return {{ {', '.join(exports)} }};\n}})();\n"


def joined(name):
    """Returns a script and all that it imports as one script."""
    return "\n".join(map(enclosed, parts(name)))


def held(name, content):
    """Returns an element with bytes that scripts of the page decompress: raw deflate in base64."""
    packer = zlib.compressobj(9, zlib.DEFLATED, -15)
    text = base64.b64encode(packer.compress(content) + packer.flush()).decode()
    return f'<script type="text/plain" id="{name}">{text}</script>\n'


def policy(*scripts, style):
    """Returns the policy that lets a browser run these texts, and nothing else."""
    sums = {it: f"'sha256-{base64.b64encode(hashlib.sha256(it.encode()).digest()).decode()}'" for it in [*scripts, style]}
    of_scripts = " ".join(sums[it] for it in scripts)
    return f"default-src 'none'; script-src {of_scripts} 'wasm-unsafe-eval'; worker-src blob:; style-src {sums[style]}; img-src data: blob:; media-src blob:; base-uri 'none'; form-action 'none'"


def replaced(page, old, new):
    if page.count(old) != 1:
        raise SystemExit(f"tools/page.py: index.html has {page.count(old)} of {old}")
    return page.replace(old, new)


def packed(module):
    """Returns the page, with these bytes as its module."""
    script, style = f"\n{joined('page.js')}", f"\n{re.sub(r'^ +', '', read('page.css'), flags=re.M)}"
    inside = [held("packed-module", module), held("packed-worker", joined("worker.js").encode()), f"{DATA}\n"]
    page = replaced(read("index.html"), SCRIPT, "".join(inside) + f'<script type="module">{script}</script>')
    page = replaced(page, STYLE, f"<style>{style}</style>")
    (open_policy,) = re.findall(r'http-equiv="Content-Security-Policy" content="([^"]*)"', page)
    return page.replace(open_policy, policy(script, style=style))


def main(module, into):
    if not os.path.exists(module):
        raise SystemExit(f"tools/page.py: there is no module {module}: `make wasm` builds it")
    with open(module, "rb") as it:
        page = packed(it.read())
    os.makedirs(os.path.dirname(into) or ".", exist_ok=True)
    with open(into, "w", encoding="utf-8") as it:
        it.write(page)


if __name__ == "__main__":
    if len(sys.argv) != 3:
        sys.exit(__doc__.split("\n\n")[1])
    main(*sys.argv[1:])
