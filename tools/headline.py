#!/usr/bin/env python3
"""Writes the table of docs/HEADLINE.md: the definitions that the main theorem depends on and that the page doesn't quote.

usage: tools/headline.py

It finds all definitions that these depend on: the clause that the page explains, the conditions of its call, and what the
contract of a line says about `faithful`. Those that the page quotes are left out. The others are listed by file, with the
number of their lines. A file that is in the table keeps its row, and new files come last. The script also writes the line
below the table, which adds up the lines. tests/cases/headline.py uses the same functions.
"""
import re
import sys

sys.dont_write_bytecode = True

from crates import ROOT

PAGE = "docs/HEADLINE.md"
LINES, LINE = "crates/forest_run/src/lines.rt", "crates/wires/src/line.rt"


def text_of(name):
    with open(f"{ROOT}/{name}", encoding="utf-8") as it:
        return it.read()


def code_of(block):
    """Returns a definition's lines, without comments, imports and the line of its type."""
    lines = [it for it in block.split("\n") if it.strip() and not it.strip().startswith("--") and not it.startswith(("use ", "pub use "))]
    return lines[1:] if lines and re.match(r"(abbrev|unfoldable) pub \S+ :", lines[0]) else lines


def definitions(name):
    """Maps the first line of each definition of a file to the definition."""
    found = [code_of(it) for it in re.split(r"\n\s*\n", text_of(name))]
    return {it[0]: it for it in found if it}


def expect_whole(name, lines):
    """Expects the lines to be whole definitions of the file, one after the other."""
    all_of = definitions(name)
    at = 0
    while at < len(lines):
        wanted = all_of.get(lines[at], [])
        if not wanted or lines[at:at + len(wanted)] != wanted:
            raise AssertionError(f"{name} has no definition that begins so and goes on as quoted: {lines[at]}")
        at += len(wanted)


def expect_lines(name, lines):
    """Expects the lines in the file one after the other, apart from comments and blank lines."""
    every = [it for it in text_of(name).split("\n") if it.strip() and not it.strip().startswith("//")]
    if not any(every[at:at + len(lines)] == lines for at in range(len(every))):
        raise AssertionError(f"{name} has no such lines: {lines}")


def parts_of(page):
    """Yields the quotes of a page, each with its file and its lines."""
    for block in re.findall(r"^```text\n(.*?)^```$", page, re.M | re.S):
        if not block.startswith("-- crates/"):
            raise AssertionError(f"a block names no file: {block:.80}")
        for part in re.split(r"^-- (?=crates/)", block, flags=re.M)[1:]:
            name, *lines = part.rstrip("\n").split("\n")
            yield name, lines


def table_of(page):
    """Returns the rows of a page's table, each with its file, its names and the number of their lines."""
    rows = re.findall(r"^\| `(crates/[^`]+)` \| (.*) \| (\d+) \|$", page, re.M)
    return [(name, re.findall(r"`([^`]+)`", names), int(count)) for name, names, count in rows]


def owners(name):
    """Maps each name that a file of specs/ defines, constructors included, to the name and the text of its definition."""
    found = {}
    for block in re.split(r"\n\s*\n", text_of(name)):
        block = re.sub(r"^\s*--.*\n?|\s--.*$|^(pub )?use .*\n?", "", block, flags=re.M)
        head = re.match(r"(?:abbrev|unfoldable) pub (\S+) :|pub record (\S+)|pub data (\S+)", block)
        if head:
            own = head[1] or head[2] or head[3]
            found.update({it: (own, block) for it in [own, *(re.findall(r"^  (\w+) :", block, re.M) if head[3] else [])]})
    return found


def imports(name):
    """Maps each name that a file imports from the crates' specs/ to the file that it comes from."""
    uses = re.findall(r"^(?:pub |ghost )?use Rattle\.(\w+)\.specs\.(?!declared)([\w.]+)\.\{([^}]*)\}", text_of(name), re.M)
    files = [(f"crates/{crate}/specs/{module.replace('.', '/')}.antt", names) for crate, module, names in uses if crate != "std"]
    return {it: file for file, names in files for it in re.split(r",\s*", names)}


def rests_on(name, text):
    """Returns the definitions of specs/ that a text in this file depends on, each as its file and its name."""
    found, waiting = set(), [(name, text)]
    while waiting:
        name, text = waiting.pop()
        here, there = owners(name) if name.endswith(".antt") else {}, imports(name)
        for word in set(re.findall(r"[^\W\d]\w*", text)):
            file = name if word in here else there.get(word)
            # a file may re-export what it imports
            while file and word not in owners(file):
                file = imports(file).get(word)
            own, its = owners(file)[word] if file else ("", "")
            if file and (file, own) not in found:
                found.add((file, own))
                waiting.append((file, its))
    return found


def named(name, names):
    """Returns how many lines the definitions of these names have. All are in the file."""
    count = 0
    for it in names:
        bodies = [lines for first, lines in definitions(name).items() if re.match(rf"(pub (record|data) )?{re.escape(it)}(\s|$)", first)]
        if len(bodies) != 1:
            raise AssertionError(f"{name} has {len(bodies)} definitions of {it}")
        count += len(bodies[0])
    return count


def clause_and_rest():
    """Returns the clause that the page explains, what a line's contract says about `faithful`, and all definitions that
    they and the conditions of the call depend on."""
    contract = re.search(r"\npub fn run_lines<.*?\n\{\n", text_of(LINES), re.S)[0]
    clause = re.search(r"    ensures served \{(?:.|\n)*?\}\n", contract)[0]
    serves = re.search(r"    ghost serves: .*", text_of(LINE))[0]
    conditions = "".join(re.findall(r"    requires .*\n", contract))
    return clause, serves, rests_on(LINES, clause + conditions) | rests_on(LINE, serves)


def quoted_by(page):
    """Returns the definitions that the page quotes, each as its file and its name."""
    found = set()
    for name, quoted in parts_of(page):
        if name.endswith(".antt"):
            found |= {(name, own) for own, text in owners(name).values() if code_of(text)[0] in quoted}
    return found


def sum_of(page):
    """Returns the line that adds up the quoted lines and the lines that the table counts."""
    here = sum(len(lines) for _, lines in parts_of(page))
    there = sum(count for _, _, count in table_of(page))
    return f"{here} lines are quoted here, and {there} are in the files of the table: {here + there} in all."


def rows(page):
    """Yields the rows that the table has to have."""
    wanted = clause_and_rest()[2] - quoted_by(page)
    files = [name for name, _, _ in table_of(page)]
    for name in [*(it for it in files if any(it == file for file, _ in wanted)), *sorted({it for it, _ in wanted} - {*files})]:
        places = {own: text_of(name).index(code_of(text)[0]) for own, text in owners(name).values()}
        names = sorted((own for file, own in wanted if file == name), key=places.get)
        yield f"| `{name}` | {', '.join(f'`{it}`' for it in names)} | {named(name, names)} |"


def main():
    page = text_of(PAGE)
    head, rule = "| File | Definitions | Lines |", "|---|---|---|"
    before, after = page.split(f"{head}\n{rule}\n")
    after = re.sub(r"\A(\|.*\n)*", "", after)
    page = "\n".join([f"{before}{head}", rule, *rows(page), after])
    page = re.sub(r"^\d+ lines are quoted here, .*? in all\.", sum_of(page), page, flags=re.M)
    with open(f"{ROOT}/{PAGE}", "w", encoding="utf-8") as it:
        it.write(page)


if __name__ == "__main__":
    main()
