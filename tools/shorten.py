#!/usr/bin/env python3
"""Shortens the proofs of a crate: it replaces what is written out by `search`, if `search` finds it.

usage: tools/shorten.py [--rounds N] [--jobs N] [--files WORD] CRATE

First it tries whether `search` proves a clause, arm or field of more than one line, or a lemma with several clauses, by the
lemmas that it cites. Then it removes lemmas that are one `search` themselves, if only other searches cite them: these then
cite what the lemma cites. Statements don't change.

One check tries one edit in each declaration of all proof files of the crate, since a proof that fails is reported at its own
lines and doesn't affect the others. Edits that fail are undone. If a check reports lines that no edit touched, the script
tries the first half of the edits again, and then the second half.

  --rounds N    run at most N checks that try edits (default: until nothing is left to try)
  --jobs N      use N processes in each check (default: 2)
  --files WORD  change only proof files with WORD in their path

The files have to be proved before, and are changed in place. At the end the crate is checked as it is. The last line gives
the number of edits and lines removed, and the exit status is 0 only if everything is proved. What the last check rejects is
undone completely. RT is the command that checks (default: `rt`).
"""
import argparse
import os
import re
import signal
import subprocess
import sys
from collections import defaultdict
from dataclasses import dataclass

sys.dont_write_bytecode = True

from crates import ROOT, crate_lines
from toolchain import RT

HINTS = 8  # most lemmas in the list of one search
LONGEST = 200  # most characters of a line in a proof file
HEAD = re.compile(r"^( *)((?:pub |abbrev |unfoldable )*)([^\s:(){}=]+)((?: [^\s:(){}=]+)*) : ")
IMPORT = re.compile(r"^(?:pub )?use ([\w.+-]+)\.\{(.*)\}")
ERROR = re.compile(r"(?m)^(?:\./)?(proofs/[^:\n]+\.antt):(\d+):\d+: error")
SEARCH = re.compile(r"search \(([^()]*)\)")
LEMMA = re.compile(r"^\S+(?: [^=]*)? = search (?:arith|\((arith(?:, [^\s,()]+)*)\))$")
DATA = re.compile(r"(ℕ|ℤ|List|Option|Bool|Ordering|Type|Result|String|Set|LinkSet)\b")
# Words of a body that aren't lemmas to search by.
WORDS = set(
    "search grind omega cc simp rw refl sym ap subst arith rules ints tt absurd elim let in record where as"
    " pos suc length take drop map inl inr true false get_or".split()
)


@dataclass
class Declaration:
    name: str
    indent: int
    first: int
    last: int
    clauses: list  # from the first line of each to the line after it


@dataclass
class Edit:
    path: str
    first: int
    last: int
    new: list
    owner: tuple  # the outermost declaration, by its first line and its name
    key: tuple  # identifies it once it was tried

    @property
    def gain(self):
        return self.last - self.first - len(self.new)


def indent(line):
    return len(line) - len(line.lstrip(" "))


def is_whole(text):
    return all(text.count(a) == text.count(b) for a, b in ("()", "[]", "{}"))


def past_patterns(text):
    """Returns where a clause's patterns end: the index of its ` = `, or -1."""
    depth = 0
    for at, it in enumerate(text):
        depth += (it in "([{") - (it in ")]}")
        if it == "=" and depth == 0 and text[at - 1] == " " and text[at + 1 : at + 2] in ("", " ", "\n"):
            return at
    return -1


def end_of_clause(lines, at, depth):
    """Returns the line after a clause that begins here."""
    at += 1
    while at < len(lines) and (not lines[at].strip() or indent(lines[at]) > depth or (indent(lines[at]) == depth and lines[at].strip()[0] in ")]}")):
        at += 1
    return at


def clauses_of(lines, at, depth, name):
    """Returns the clauses of a declaration whose signature ends here."""
    own, found = re.compile(re.escape(name) + r"( |$)"), []
    while at < len(lines):
        line = lines[at].strip()
        if not line:
            after = next((k for k in range(at, len(lines)) if lines[k].strip()), None)
            if after is None or indent(lines[after]) != depth or not own.match(lines[after].strip()) or HEAD.match(lines[after]):
                break
            at = after
        elif (line.startswith("--") and indent(lines[at]) >= depth) or (indent(lines[at]) == depth and line.startswith("unfolding ")):
            at += 1
        elif indent(lines[at]) == depth and own.match(line):
            end = at = end_of_clause(lines, begin := at, depth)
            while end > begin + 1 and not lines[end - 1].strip():
                end -= 1
            found.append((begin, end))
        else:
            break
    return found


def declarations(lines):
    """Yields each declaration that has clauses."""
    for at, line in enumerate(lines):
        head = HEAD.match(line)
        if not head or line.strip().startswith(("let ", "record ", "| ", "λ")) or re.search("abbrev|unfoldable", head[2]):
            continue
        depth, end = len(head[1]), at + 1
        while end < len(lines) and (not lines[end].strip() or indent(lines[end]) > depth):
            end += 1
        clauses = clauses_of(lines, end, depth, head[3])
        if clauses:
            yield Declaration(head[3], depth, at, clauses[-1][1], clauses)


def owners(lines):
    """Returns the outermost declaration of each line, or None."""
    found = [None] * len(lines)
    for it in sorted(declarations(lines), key=lambda it: (it.first, -it.last)):
        for at in range(it.first, it.last):
            found[at] = found[at] or (it.first, it.name)
    return found


class Scope:
    """Returns the lemmas that each line of a file may cite."""

    def __init__(self, lines):
        self.known, self.inner = {}, defaultdict(list)
        for line in lines:
            it = IMPORT.match(line)
            if it and ".proofs." in it[1]:
                names = [name.strip().split(" as ")[-1] for name in it[2].split(",")]
                self.known.update({name: -1 for name in names if name[:1].islower()})
        every = list(declarations(lines))
        for it in every:
            around = [end for other in every for begin, end in other.clauses if other is not it and begin <= it.first < end]
            if around:
                self.inner[it.name].append((it.first, min(around)))
            elif it.name[0].islower() or it.name[0] == "◌":
                self.known.setdefault(it.name, it.first)

    def has(self, name, at):
        return self.known.get(name, at) < at or any(begin < at < end for begin, end in self.inner.get(name, ()))

    def search(self, body, at, apart=(), also=()):
        """Returns a search by the lemmas that a body cites."""
        lets = set(re.findall(r"let ([\w'_-]+)", body))
        hints = []
        for name in (it.rstrip(".") for it in re.findall(r"[^\s(){}\[\];,λ]+", body)):
            if self.has(name, at) and name not in WORDS and name not in lets and name not in apart and name not in hints:
                hints.append(name)
        ints = ["ints"] if re.search(r"(?<![\w-])ints(?![\w-])", body) else []
        hints = ["arith", *hints[:HINTS], *ints, *also]
        return "search arith" if len(hints) == 1 else f"search ({', '.join(hints)})"


def is_data(lines, it):
    """Returns whether a declaration is a value, not a proof."""
    signature, depth, last = " ".join(lines[it.first : it.clauses[0][0]]).partition(" : ")[2], 0, 0
    for at, char in enumerate(signature):
        depth += (char in "([{") - (char in ")]}")
        if char == "→" and depth == 0:
            last = at + 1
    return bool(DATA.match(signature[last:].strip()))


def names_within(lines, first, last):
    return [head[3] for head in map(HEAD.match, lines[first + 1 : last]) if head]


def of_clauses(lines, scope, it):
    """For each clause of more than a line, yields one that searches: its first line, the line after it, and the new text."""
    for first, last in it.clauses:
        text = "\n".join(lines[first:last])
        at = past_patterns(text)
        head, body = text[:at].rstrip(), text[at + 1 :].strip()
        if at < 0 or "\n" in head or sum(bool(line.strip()) for line in lines[first:last]) < 2:
            continue
        own = rf"(?<![\w.-])({re.escape(it.name)}(?: (?:\([^()]*\)|[^\s(){{}}\[\];,]+))+)"
        calls = [re.split(r" (?:in|∙|≡|↦|\||=)(?: |$)", call)[0] for call in re.findall(own, body)]
        calls = [call for call in dict.fromkeys(calls) if call != it.name][:2]
        yield first, last, [f"{head} = {scope.search(body, first, [it.name, *names_within(lines, first, last)], calls)}"]


def joined(lines, scope, it):
    """For a declaration of several clauses, yields one that searches for all of them."""
    first, last = it.clauses[0][0], it.clauses[-1][1]
    texts = ["\n".join(lines[begin:end]) for begin, end in it.clauses]
    bodies = "\n".join(text[past_patterns(text) + 1 :] for text in texts)
    if len(it.clauses) < 2 or past_patterns(texts[0]) < 0 or re.search(rf"(?<![\w.-]){re.escape(it.name)}(?![\w-])", bodies):
        return
    words, depth = [""], 0
    for char in texts[0][: past_patterns(texts[0])].strip()[len(it.name) :]:
        depth += (char in "([{") - (char in ")]}")
        if char == " " and depth == 0:
            words.append("")
        else:
            words[-1] += char
    words = [word for word in words if word and not word.startswith("{")]
    if not any("\n" in word for word in words):
        names = " ".join([it.name, *(f"a{at + 1}" for at in range(len(words)))])
        apart = [it.name, *names_within(lines, first, last)]
        yield first, last, [f"{' ' * it.indent}{names} = {scope.search(bodies, first, apart)}"]


def of_parts(lines, scope):
    """For each arm and field of several lines, yields one that searches."""
    for first, line in enumerate(lines):
        it = re.match(r"^( +)(\| [^↦]* ↦ |[\w_-]+ = )(.*)$", line)
        if not it or (it[2][0] != "|" and it[3].rstrip().endswith(";")):
            continue
        depth, last = len(it[1]), first + 1
        if it[2][0] == "|":
            while last < len(lines) and lines[last].strip() and indent(lines[last]) > depth:
                last += 1
            whole = last < len(lines) and lines[last].strip() not in ("}", "},")
        else:
            ended = False
            while last < len(lines) and lines[last].strip() and indent(lines[last]) >= depth and not ended:
                last += 1
                ended = lines[last - 1].rstrip().endswith(";") and is_whole("\n".join([it[3], *lines[first + 1 : last]]))
            whole = ended
        body = "\n".join([it[3], *lines[first + 1 : last]])
        if whole and last - first > 1 and is_whole(body):
            yield first, last, [f"{it[1]}{it[2]}{scope.search(body, first)}{';' if it[2][0] != '|' else ''}"]


def edits_of(path, lines, tried):
    """Yields at most one edit per declaration of a file: of those not tried yet, the one that saves most."""
    scope, own, found, taken = Scope(lines), owners(lines), [], set()
    for it in declarations(lines):
        if not is_data(lines, it):
            found += [*of_clauses(lines, scope, it), *joined(lines, scope, it)]
    found += of_parts(lines, scope)
    for first, last, new in sorted(found, key=lambda it: it[0] - it[1]):
        key = (path, own[first] and own[first][1], *lines[first:last], *new)
        short = last - first > len(new) and all(len(line) <= LONGEST for line in new)
        if own[first] and own[first] not in taken and key not in tried and short:
            taken.add(own[first])
            yield Edit(path, first, last, new, own[first], key)


def with_arith(lines):
    """Returns the lines of a file with an import of `arith`, and how many lines were added at the top."""
    if any(re.search(r"[{ ]arith[,}]", line) for line in lines if line.startswith("use ")):
        return lines, 0
    for at, line in enumerate(lines):
        if re.match(r"^use Rattle\.std\.proofs\.Common\.\{.*\}$", line):
            return [*lines[:at], f"{line[:-1]}, arith}}", *lines[at + 1 :]], 0
    at = next((at for at, line in enumerate(lines) if line.startswith("use ")), 0)
    return [*lines[:at], "use Rattle.std.proofs.Common.{arith}", *lines[at:]], 1


class Crate:
    def __init__(self, name, jobs, word):
        self.at, self.name, self.jobs, self.files = f"{ROOT}/crates/{name}", name, jobs, {}
        for at, _, names in os.walk(f"{self.at}/proofs"):
            for path in sorted(f"{at}/{name}" for name in names if name.endswith(".antt") and name != "Lib.antt"):
                if word in path:
                    with open(path, encoding="utf-8") as it:
                        self.files[path] = it.read().split("\n")

    def lines(self):
        return sum(len(lines) - 1 for lines in self.files.values())

    def check(self, *words):
        """Returns what `rt` prints about the crate."""
        return subprocess.run([*RT, "check", *words, "--jobs", str(self.jobs)], cwd=self.at, stdout=subprocess.PIPE, stderr=subprocess.STDOUT, text=True).stdout

    def errors(self, files):
        """Returns the files and lines where a check of these files reports errors. Afterwards the crate's files are restored."""
        self.write(files)
        try:
            told = self.check("--allow-holes")
        finally:
            self.write(self.files)
        if "logic=" not in told and not ERROR.search(told):
            sys.exit(f"tools/shorten.py: no verdict on {self.name}:\n{told[-2000:]}")
        return [(f"{self.at}/{it[1]}", int(it[2]) - 1) for it in ERROR.finditer(told)]

    def failed(self, files):
        """Returns the files and names of the declarations that a check of these files doesn't prove."""
        own = {path: owners(lines) for path, lines in files.items()}
        found = [(path, own[path][at] if at < len(own.get(path, [])) else None) for path, at in self.errors(files)]
        return {(path, owner and owner[1]) for path, owner in found}

    def apply(self, edits):
        """Returns the files with these edits, and for each of their lines the edit that it belongs to."""
        files, judged = dict(self.files), {}
        for path in {it.path for it in edits}:
            here = {it.owner: it for it in edits if it.path == path}
            marks = [here.get(owner) for owner in owners(self.files[path])]
            lines, more = with_arith(self.files[path])
            marks = [*([None] * more), *marks] if more else marks
            for it in sorted(here.values(), key=lambda it: -it.first):
                lines = [*lines[: it.first + more], *it.new, *lines[it.last + more :]]
                marks[it.first + more : it.last + more] = [it] * len(it.new)
            files[path], judged[path] = lines, marks
        return files, judged

    def judge(self, edits):
        """Returns the edits that a check proves."""
        if not edits:
            return []
        files, judged = self.apply(edits)
        refused, stray = [], False
        for path, at in self.errors(files):
            mark = judged[path][at] if at < len(judged.get(path, [])) else None
            refused, stray = refused + [mark], stray or not mark
        if not stray:
            return [it for it in edits if it not in refused]
        half = len(edits) // 2
        return self.judge(edits[:half]) + self.judge(edits[half:]) if half else []

    def keep(self, files):
        self.files = files
        self.write(files)

    def write(self, files):
        for path, lines in files.items():
            with open(path, "w", encoding="utf-8") as it:
                it.write("\n".join(lines))


def search_instead(crate, rounds):
    """Inserts searches that prove what is written out. Returns how many it tried and kept."""
    tried, kept = set(), 0
    for number in range(1, rounds + 1):
        edits = [it for path, lines in crate.files.items() for it in edits_of(path, lines, tried)]
        if not edits:
            break
        tried |= {it.key for it in edits}
        good = crate.judge(edits)
        crate.keep(crate.apply(good)[0])
        kept += len(good)
        report(f"{crate.name}, check {number}: {len(good)} of {len(edits)} edits kept, {sum(it.gain for it in good)} lines fewer")
    return len(tried), kept


def mention(name):
    return re.compile(rf"(?<![^\s(){{}}\[\];,]){re.escape(name)}(?![^\s(){{}}\[\];,])")


@dataclass
class Lemma:
    path: str
    name: str
    first: int
    last: int
    hints: list
    cited: set  # the files and names of the declarations that cite it


def lemmas(crate):
    """Returns the lemmas that are one search, and that only other searches of the crate cite."""
    outside, found = texts_outside(crate), []
    for path, lines in crate.files.items():
        for it in declarations(lines):
            here = LEMMA.match(lines[it.clauses[0][0]])
            alone = it.indent == 0 and len(it.clauses) == 1 and it.last == it.clauses[0][0] + 1
            if alone and here and "goal." not in lines[it.first] and not is_data(lines, it) and not mention(it.name).search(outside):
                hints = [hint for hint in (here[1] or "").split(", ")[1:] if hint]
                found.append(Lemma(path, it.name, it.first, it.last, hints, set()))
    names = [it.name for it in found]
    return [it for it in found if names.count(it.name) == 1 and is_only_hint(crate, it)]


def texts_outside(crate):
    """Returns the code and definitions of the crate, and all texts that mention its proofs."""
    texts = []
    for at, folders, names in os.walk(f"{ROOT}/crates"):
        folders[:] = [it for it in folders if it != "out" and f"{at}/{it}" != f"{crate.at}/proofs"]
        for name in names:
            if name.endswith((".antt", ".rt")):
                with open(f"{at}/{name}", encoding="utf-8") as it:
                    texts.append(it.read())
    return "\n".join(it for it in texts if f"Rattle.{crate.name}.proofs" in it or "crate::proofs" in it)


def is_only_hint(crate, lemma):
    """Returns whether the lemma is named only in imports and in lists of searches, and records these."""
    pattern = mention(lemma.name)
    for path, lines in crate.files.items():
        own = owners(lines)
        for at, line in enumerate(lines):
            within = path == lemma.path and lemma.first <= at < lemma.last
            if within or not pattern.search(line) or line.strip().startswith("--") or IMPORT.match(line):
                continue
            if len(pattern.findall(line)) != sum(it[1].split(", ").count(lemma.name) for it in SEARCH.finditer(line)):
                return False
            lemma.cited.add((path, own[at] and own[at][1]))
    return True


def without(crate, gone):
    """Returns the files without these lemmas: what they cite replaces them."""
    files = {path: list(lines) for path, lines in crate.files.items()}
    for it in gone:
        lines = files[it.path]
        first = it.first
        while first and lines[first - 1] and lines[first - 1].startswith("--") and not lines[first - 1].startswith("-- ----"):
            first -= 1
        blank = it.last < len(lines) and lines[it.last] == "" and (first == 0 or lines[first - 1] in ("", None))
        lines[first : it.last + blank] = [None] * (it.last + blank - first)
    for path, lines in files.items():
        for it in gone:
            cites = any(line and mention(it.name).search(line) for line in lines)
            files[path] = lines = [line and replaced(line, it) for line in lines]
            if cites and path != it.path:
                files[path] = lines = with_imports(crate, lines, it)
                publish(files[it.path], it.hints)
    return {path: [line for line in lines if line is not None] for path, lines in files.items()}


def replaced(line, lemma):
    """Returns a line with what the lemma cites instead of its name."""
    it = IMPORT.match(line)
    if it:
        names = [name for name in it[2].split(", ") if name != lemma.name]
        return line.replace(f"{{{it[2]}}}", f"{{{', '.join(names)}}}") if names else None

    def listed(found):
        hints = [hint for name in found[1].split(", ") for hint in (lemma.hints if name == lemma.name else [name])]
        return "search arith" if set(hints) == {"arith"} else f"search ({', '.join(dict.fromkeys(hints))})"

    return SEARCH.sub(listed, line)


def with_imports(crate, lines, lemma):
    """Returns the lines of a file with imports of what the lemma cites."""
    imports = {name.split(" as ")[-1]: it[1] for it in map(IMPORT.match, crate.files[lemma.path]) if it for name in it[2].split(", ")}
    module = f"Rattle.{crate.name}.proofs.{os.path.relpath(lemma.path, f'{crate.at}/proofs')[:-5].replace('/', '.')}"
    for hint in lemma.hints:
        start = f"use {imports.get(hint, module)}.{{"
        used = [at for at, line in enumerate(lines) if line and line.startswith("use ")]
        if any(re.search(rf"[{{ ]{re.escape(hint)}[,}}]", lines[at]) for at in used):
            continue
        same = next((at for at in used if lines[at].startswith(start)), None)
        if same is None:
            at = used[-1] + 1 if used else 0
            lines = [*lines[:at], f"{start}{hint}}}", *lines[at:]]
        else:
            lines = [*lines[:same], f"{lines[same][:-1]}, {hint}}}", *lines[same + 1 :]]
    return lines


def publish(lines, names):
    """Makes lemmas of a file public."""
    for at, line in enumerate(lines):
        if line and any(line.startswith(f"{name} : ") for name in names):
            lines[at] = f"pub {line}"


def inline(crate, rounds):
    """Removes lemmas that one search proves. Returns how many."""
    done, count = set(), 0
    for number in range(1, rounds + 1):
        chosen = []
        for it in lemmas(crate):
            if (it.path, it.name) not in done and not any(other.name in it.hints or it.name in other.hints for other in chosen):
                chosen.append(it)
        if not chosen:
            break
        failed = crate.failed(files := without(crate, chosen))
        bad = [it for it in chosen if failed & it.cited] if failed else []
        if failed and len(bad) < len(chosen):
            chosen = [it for it in chosen if it not in bad]
            failed = crate.failed(files := without(crate, chosen))
        done |= {(it.path, it.name) for it in (chosen if failed else bad)}
        if not failed:
            count += len(chosen)
            crate.keep(files)
        report(f"{crate.name}, check {number}: {0 if failed else len(chosen)} lemmas taken out, {len(bad)} needed")
    return count


def report(text):
    print(text, file=sys.stderr, flush=True)


def main():
    words = argparse.ArgumentParser(usage=__doc__.split("usage: ")[1].splitlines()[0], description=__doc__)
    words.add_argument("crate")
    words.add_argument("--rounds", type=int, default=99)
    words.add_argument("--jobs", type=int, default=2)
    words.add_argument("--files", default="")
    asked = words.parse_args()
    for it in (signal.SIGHUP, signal.SIGTERM):
        signal.signal(it, lambda *_: sys.exit("tools/shorten.py: interrupted"))
    if asked.crate not in crate_lines():
        sys.exit(f"tools/shorten.py: crates.txt has no crate {asked.crate}")
    crate = Crate(asked.crate, asked.jobs, asked.files)
    before, lines = crate.files, crate.lines()
    tried, kept = search_instead(crate, asked.rounds)
    gone = inline(crate, asked.rounds)
    told = crate.check()
    proved = "logic=proved" in told
    if not proved:
        crate.keep(before)
        report(told[-2000:].rstrip())
    print(f"{crate.name}: {kept} of {tried} edits, {gone} lemmas, {lines - crate.lines()} of {lines} lines gone, {'proved' if proved else 'NOT PROVED, put back'}")
    sys.exit(not proved)


if __name__ == "__main__":
    main()
