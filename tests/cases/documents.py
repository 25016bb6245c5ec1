"""The documents: runs what README, docs/RECIPES.md and the manual page show, and README's call of a library. Checks the
session in docs/PROTOCOL.md, the names in the manual page, the promises and the map, and the length of sentences."""
import glob
import gzip
import math
import os
import random
import re
import shutil
import struct
import subprocess
import sys

from cases.embedding import libraries
from cases.running import ROOT, SECONDS, Components, Program, case, expect, forest_of, forest_text, ran, run, written

sys.path.insert(0, f"{ROOT}/tools")

from crates import below, crate_lines


def text_of(name):
    with open(f"{ROOT}/{name}", encoding="utf-8") as it:
        return it.read()


def blocks_of(name, heading=""):
    """Returns the fenced blocks of a page, or of the part below a heading, each with its language."""
    text = text_of(name)
    if heading:
        text = text.split(f"\n## {heading}\n")[1].split("\n## ")[0]
    return re.findall(r"^```(\w*)\n(.*?)^```$", text, re.M | re.S)


def shown(language, block):
    """Returns the commands of a block, each with its output. A `sh` block is one command without output. In a `console` block
    each line after `$ ` is a command."""
    if language == "sh":
        return [(block, "")]
    if language != "console" or not block.startswith("$ "):
        raise AssertionError(f"a block that isn't run, of the language {language!r}: {block:.80}")
    commands = [it.partition("\n") for it in re.split(r"^\$ ", block, flags=re.M)[1:]]
    return [(f"{command}\n", output) for command, _, output in commands]


def shell_recipes():
    """Returns the blocks of docs/RECIPES.md that a shell runs. The last removes what the others leave."""
    return [it for it in blocks_of("docs/RECIPES.md") if it[0] != "python"]


def pasted(room, command, shell="sh"):
    """Runs a command of a page in a copy of the repository that has only the examples. Returns its exit status, and its
    output with standard error."""
    if not os.path.isdir(f"{room}/examples"):
        shutil.copytree(f"{ROOT}/examples", f"{room}/examples")
        os.makedirs(f"{room}/bin", exist_ok=True)
        os.symlink(Program.path, f"{room}/bin/boruvka")
    env = {**os.environ, "PATH": f"{room}/bin:{os.environ['PATH']}", "LC_ALL": "C"}
    ended = subprocess.run([shell, "-c", command], cwd=room, env=env, stdin=subprocess.DEVNULL, stdout=subprocess.PIPE, stderr=subprocess.STDOUT, timeout=SECONDS)
    return ended.returncode, ended.stdout.decode()


def expect_shown(room, blocks, shell="sh"):
    """Runs each command of the blocks in order, and expects what the blocks show."""
    count = 0
    for language, block in blocks:
        for command, output in shown(language, block):
            if command.startswith("dot ") and not shutil.which("dot"):
                continue
            found = pasted(room, command, shell)
            if found != (0, output):
                raise AssertionError(f"{shell}: {command}    wanted {(0, output)!r}\n    found  {found!r:.900}")
            count += 1
    return count


@case
def the_first_screen_of_the_readme(room):
    count = expect_shown(room, [it for it in blocks_of("README.md") if it[0] == "console"])
    if count != 2:
        raise AssertionError(f"{count} commands were found")


def awk_folders(room):
    """Returns a folder for each awk that is installed, with a link `awk` to it."""
    found = {it: shutil.which(it) for it in ("mawk", "gawk", "original-awk", "busybox")}
    for name, path in found.items():
        if path:
            os.makedirs(f"{room}/{name}/bin")
            os.symlink(path, f"{room}/{name}/bin/awk")
    return [f"{room}/{name}" for name, path in found.items() if path] or [f"{room}/awk"]


@case
def the_recipes(room):
    *blocks, last = shell_recipes()
    for room in awk_folders(room):
        count = expect_shown(room, blocks)
        if count < 25:
            raise AssertionError(f"only {count} commands were found")
        if shutil.which("dot"):
            with open(f"{room}/roads.svg", encoding="utf-8") as it:
                drawn = it.read()
            # ten villages and thirteen roads, as in the picture of docs/
            for picture in [drawn, text_of("docs/roads.svg")]:
                counts = picture.count('class="node"'), picture.count('class="edge"'), picture.count('stroke-width="3"')
                if counts != (10, 13, 8):
                    raise AssertionError(f"villages, roads and roads of the forest: {counts}")
        # the last block removes whatever the others left
        expect_shown(room, [last])
        left = sorted(os.listdir(room)), sorted(os.listdir(f"{room}/examples"))
        if left != (["bin", "examples"], sorted(os.listdir(f"{ROOT}/examples"))):
            raise AssertionError(f"the recipes leave {left}")


@case
def the_recipes_in_other_shells(room):
    """In zsh, output that is redirected to a file and a pipe goes to both. With `pipefail` a pipe fails exactly if its graph
    can't be read."""
    *blocks, last = shell_recipes()
    [setting] = re.findall(r"`(set -o \w+)`", text_of("docs/RECIPES.md"))
    for shell in filter(shutil.which, ["bash", "zsh"]):
        expect_shown(f"{room}/{shell}", blocks, shell)
        for command, output in [it for block in blocks for it in shown(*block) if it[0].startswith("boruvka --plain examples/roads.gr |")]:
            found = [pasted(f"{room}/{shell}", f"{setting}; {it}", shell) for it in (command, command.replace("roads.gr", "none.gr"))]
            if found[0] != (0, output) or not found[1][0]:
                raise AssertionError(f"{shell}: {command}    found {found!r:.900}")
        expect_shown(f"{room}/{shell}", [last], shell)


@case
def a_clean_up_without_parts(room):
    """In zsh a pattern that matches nothing fails its own command, and no other."""
    _, last = shell_recipes()[-1]
    for shell in filter(shutil.which, ["sh", "bash", "zsh"]):
        names = set(re.findall(r"\w+\.\w+", last))
        for name in names:
            written(f"{room}/{name}", b"")
        run([shell, "-c", last], cwd=room)
        if os.listdir(room):
            raise AssertionError(f"{shell} leaves {os.listdir(room)}")


def recipe(room, *headings):
    """Makes the files of these recipes, and returns the commands of the last one that show output."""
    commands = [it for heading in headings for language, block in blocks_of("docs/RECIPES.md", heading) for it in shown(language, block)]
    for command, output in commands:
        if pasted(room, command) != (0, output):
            raise AssertionError(command)
    return [command for command, output in commands if output]


def csv_recipe(room):
    """Makes the files that the recipe of a CSV needs, and returns its commands that show output."""
    for heading in ["Clusters", "Decimal weights", "Names instead of numbers"]:
        recipe(room, heading)
    return recipe(room, "A CSV with ids")


def expect_rejected(room, command, name, rows, line, told):
    """Expects the command to fail with these lines in its file, and to report exactly the line, its number and the reason."""
    with open(f"{room}/{name}", "w", encoding="utf-8", newline="") as it:
        it.write("\n".join([*rows, ""]))
    status, output = pasted(room, command)
    if not status or not re.fullmatch(rf"line {line}: {re.escape(told)}: [^\n]+\n", output):
        raise AssertionError(f"{command}    {rows}\n    wanted line {line}, found {(status, output)!r:.900}")


@case
def paths_between_what_is_no_vertex(room):
    """They are rejected, and so is a graph that can't be read. No length is printed."""
    for room in awk_folders(room):
        recipe(room, "A bottleneck")
        for file, start, goal, told in [
            *(("roads.gr", *it, "start and goal are vertices, 1 to 10\n") for it in [(11, 12), (1, 11), (0, 8), (11, 11), (1, "x"), ("01", 1), ("", ""), ("1 ", 1)]),
            ("none.gr", 1, 8, "boruvka: cannot open examples/none.gr\n"),
        ]:
            found = pasted(room, f"boruvka --plain examples/{file} | awk -v start='{start}' -v goal='{goal}' -f bottleneck.awk")
            if found != (1, told):
                raise AssertionError(f"from {start} to {goal}: wanted {told!r}, found {found!r:.600}")


@case
def truncated_forests(room):
    """A run that ends while it writes leaves a part of a forest, or nothing. No cluster and no missing path is printed then."""
    for room in awk_folders(room):
        recipe(room, "Clusters")
        recipe(room, "A bottleneck")
        clusters, way = "awk -v clusters=2 -f clusters.awk", "awk -v start=1 -v goal=8 -f bottleneck.awk"
        for lines, told in [(0, ""), (1, "the forest is cut off\n"), (4, "the forest is cut off\n"), (8, "the forest is cut off\n")]:
            for command in (clusters, way):
                found = pasted(room, f"boruvka --plain examples/roads.gr > forest.gr && head -n {lines} forest.gr | {command}")
                if found != (1, told):
                    raise AssertionError(f"{lines} lines, {command}: {found!r:.600}")
        # a path that was found before the end is that of the whole forest
        found = pasted(room, "head -n 4 forest.gr | awk -v start=1 -v goal=3 -f bottleneck.awk")
        if found != (0, "3\n"):
            raise AssertionError(f"{found!r:.600}")


@case
def counts_that_the_recipes_reject(room):
    """A count that is mistyped or missing is an error: no other clusters, and no weights with a moved point."""
    for room in awk_folders(room):
        recipe(room, "Clusters")
        csv = csv_recipe(room)[0]
        for count in ["O4", "4x", "2,5", "1.5", "-2", "two", ""]:
            for command, name in [
                (f"awk -v clusters='{count}' -f clusters.awk forest.gr", "clusters"),
                (f"awk -v digits='{count}' -f point.awk -f whole.awk decimals.gr", "digits"),
                (f"awk -v digits='{count}' -f point.awk -f decimal.awk forest.gr", "digits"),
                (csv.replace("digits=2", f"digits='{count}'"), "digits"),
            ]:
                status, output = pasted(room, command)
                if not status or not re.fullmatch(rf"{name} is a count, as in -v {name}=\d\n", output):
                    raise AssertionError(f"{command}: {(status, output)!r:.600}")
        for count in ["0", "00"]:
            status, output = pasted(room, f"awk -v clusters={count} -f clusters.awk forest.gr")
            if not status or not output.startswith("clusters is a count"):
                raise AssertionError(f"{count} clusters: {(status, output)!r:.600}")


@case
def counts_that_no_clusters_have(room):
    """The roads have ten vertices and two components: by hand."""
    of_components = "".join(f"{v} {1 if v < 9 else 9}\n" for v in range(1, 11))
    for room in awk_folders(room):
        recipe(room, "Clusters")
        for count, status, output in [
            ("20", 1, "20 clusters are more than the 10 vertices\n"), ("11", 1, "11 clusters are more than the 10 vertices\n"),
            ("010", 0, "".join(f"{v} {v}\n" for v in range(1, 11))), ("2", 0, of_components), ("components", 0, of_components),
            ("1", 1, "1 clusters are fewer than the 2 components\n"), ("99999999999999999999", 1, "99999999999999999999 clusters are more than the 10 vertices\n"),
        ]:
            found = pasted(room, f"boruvka --plain examples/roads.gr | awk -v clusters={count} -f clusters.awk")
            if found != (status, output):
                raise AssertionError(f"{count} clusters: wanted {(status, output)!r}, found {found!r:.600}")
        for count, status, output in [("1", 1, "1 clusters are more than the 0 vertices\n"), ("components", 0, "")]:
            found = pasted(room, f"echo p sp 0 0 | boruvka --plain | awk -v clusters={count} -f clusters.awk")
            if found != (status, output):
                raise AssertionError(f"{count} clusters of nothing: {found!r:.600}")


def forest_of_names(rows):
    """Returns the ids of the forest of rows (id, name, name, weight), lightest first, with names ranked as bytes. Of equal
    links the least id counts."""
    rank = {it: at for at, it in enumerate(sorted({name for _, *ends, _ in rows for name in ends}, key=str.encode), 1)}
    least = {}
    for id_, u, v, weight in rows:
        link = (weight, *sorted((rank[u], rank[v])))
        least[link] = min(least.get(link, id_), id_)
    return rank, [least[it] for it in forest_of(len(rank), [(low, high, weight) for weight, low, high in least])]


@case
def the_order_of_rows_changes_nothing(room):
    """Many lengths are equal, some links too: shuffled rows have the same ids, links and clusters."""
    draw = random.Random(31)
    names = [f"{draw.choice(['Ost', 'Ž', 'a', 'Zd', '10', '9'])}{at}" for at in range(40)]
    rows = [(f"p{at}", draw.choice(names), draw.choice(names), draw.randint(0, 3)) for at in range(300)]
    rank, ids = forest_of_names(rows)
    row = {id_: (u, v, weight) for id_, u, v, weight in rows}
    links = "".join(" ".join((*sorted(row[it][:2], key=rank.get), str(row[it][2]))) + "\n" for it in ids)
    for room in awk_folders(room):
        command = csv_recipe(room)[0]
        show, _ = recipe(room, "Names instead of numbers")
        grouped = set()
        for _ in range(4):
            draw.shuffle(rows)
            written(f"{room}/trains.txt", "".join(f"{u} {v} {weight}\n" for _, u, v, weight in rows).encode())
            found = pasted(room, f"awk -f names.awk -f number.awk trains.txt > trains.gr && {show}")
            if found != (0, links):
                raise AssertionError(f"wanted {links!r:.600}\n    found  {found!r:.900}")
            grouped.add(pasted(room, "boruvka --plain trains.gr | awk -v clusters=9 -f clusters.awk | awk -f named.awk names.txt -"))
            written(f"{room}/pipes.csv", "".join(["id,from,to,km\n", *(",".join(map(str, it)) + "\n" for it in rows)]).encode())
            if pasted(room, command) != (0, "".join(f"{it}\n" for it in ids)):
                raise AssertionError(f"wanted {ids}\n    found  {pasted(room, command)!r:.900}")
        joined, left = {name: {name} for name in rank}, len(rank)
        for u, v, _ in map(row.get, ids[: len(rank) - 9]):
            both = joined[u] | joined[v]
            joined.update(dict.fromkeys(both, both))
        wanted = {(0, "".join(f"{name} {min(joined[name], key=rank.get)}\n" for name in rank))}
        if grouped != wanted:
            raise AssertionError(f"wanted {wanted!r:.600}\n    found  {grouped!r:.900}")


@case
def no_rows_with_names(room):
    """They have no names, no links and no clusters, whatever files were there before."""
    for room in awk_folders(room):
        csv = csv_recipe(room)[0]
        show, _ = recipe(room, "Names instead of numbers")
        written(f"{room}/trains.txt", b"")
        written(f"{room}/pipes.csv", b"id,from,to,metres\n")
        for command in [f"awk -f names.awk -f number.awk trains.txt > trains.gr && {show}", csv, "awk -v clusters=components -f clusters.awk forest.gr | awk -f named.awk names.txt -"]:
            if pasted(room, command) != (0, ""):
                raise AssertionError(f"{command}: {pasted(room, command)!r:.600}")


@case
def weights_that_the_recipes_reject(room):
    wrong = ["1,9", "x7", "7x", "", "0.755", "1e3", "nan", "0x1F", "-", ".", "1.", ".5", "+1", "1.2.3", "--1", "1 2", "1.-5", "\u0661"]
    for room in awk_folders(room):
        plain, _, quoted = csv_recipe(room)
        [decimals] = recipe(room, "Decimal weights")
        for weight in wrong:
            arc, row = f"a 1 3 {weight}", f"p9,Old Mill,Gate,{weight}"
            expect_rejected(room, decimals, "decimals.gr", ["p sp 3 2", "a 1 2 0.75", arc], 3, arc)
            expect_rejected(room, plain, "pipes.csv", ["id,from,to,metres", "p1,Old Mill,Gate,0.75", row], 3, row)
            row = f'p9,"Old Mill",Gate,"{weight}"'
            expect_rejected(room, quoted, "quoted.csv", ["id,from,to,metres", row], 2, f"p9\tOld Mill\tGate\t{weight}")


@case
def lines_that_the_recipe_of_a_csv_rejects(room):
    head = "id,from,to,metres"
    for room in awk_folders(room):
        plain, _, quoted = csv_recipe(room)
        for rows, line in [
            (["p1,Old Mill,Gate,1"], 1),
            ([head, "p1,Old Mill,Gate,1", "p2,Old Mill,,1"], 3),
            ([head, "p1,,Gate,1"], 2),
            ([head, "p1,Old Mill,Gate"], 2),
            ([head, "p1,Old Mill,Gate,1,2"], 2),
            ([head, "p1,Old Mill,Gate,1", ""], 3),
            ([head, 'p1,"Old Mill",Gate,1'], 2),
            ([head, "p1,Old Mill,Gate,1", "p2,Old Mill ,Gate,0"], 3),
            ([head, "p1, Old Mill,Gate,1"], 2),
            ([head, "p1,Old Mill, ,1"], 2),
            ([head, "p\t1,Old Mill,Gate,1"], 2),
            ([head, "p1,Old Mill,\tGate,1"], 2),
            ([head, 'p1,"Mill, old",Gate,1'], 2),
            (["id;from;to;metres", "p1;Old Mill;Gate;1"], 1),
        ]:
            expect_rejected(room, plain, "pipes.csv", rows, line, rows[line - 1])
        # with semicolons instead of commas
        semicolons = plain.replace("-F ,", "-F ';'")
        for row in ['p1;"Old Mill";Gate;1', "p\t1;Old Mill;Gate;1"]:
            expect_rejected(room, semicolons, "pipes.csv", [head.replace(",", ";"), "p0;Old Mill;Gate;2", row], 3, row)
        # (csv treats a quote after a space as a part of the field)
        for row, told in [('p1, "Old Mill",Gate,1', 'p1\t "Old Mill"\tGate\t1'), ('p1,"Old Mill","Gate ",1', "p1\tOld Mill\tGate \t1")]:
            expect_rejected(room, quoted, "quoted.csv", [head, row], 2, told)
        for row in ['p1,"Old\tMill",Gate,1', 'p1,"Old\nMill",Gate,1', 'p1,"Old\r\nMill",Gate,1']:
            fields = str(["p1", row.split('"')[1], "Gate", "1"])
            expect_rejected(room, quoted, "quoted.csv", [head, row], 2, fields)
        for row in ['p1,"Old Mill,Gate,1', 'p1,"Old" Mill,Gate,1']:
            with open(f"{room}/quoted.csv", "w", encoding="utf-8") as it:
                it.write(f"{head}\n{row}\n")
            status, output = pasted(room, quoted)
            if not status or not output.splitlines()[-1].startswith("_csv.Error: "):
                raise AssertionError(f"{row}: {(status, output)!r:.900}")


@case
def decimals_that_no_float_tells_apart(room):
    weights = ["90071992547409.93", "90071992547409.92", "-0.01", "-0.00", "0.010", "-92233720368547758.08", "92233720368547758.07"]
    for room in awk_folders(room):
        [command] = recipe(room, "Decimal weights")
        with open(f"{room}/decimals.gr", "w", encoding="utf-8", newline="") as it:
            it.write("p sp 5 6\r\n" + "".join(f"a {u} {v} {weights[w]}\r\n" for u, v, w in [(1, 2, 0), (2, 1, 1), (2, 3, 5), (3, 4, 6), (4, 5, 3), (5, 4, 2)]))
        wanted = "p sp 5 4\na 2 3 -92233720368547758.08\na 4 5 -0.01\na 1 2 90071992547409.92\na 3 4 92233720368547758.07\n"
        if pasted(room, command) != (0, wanted):
            raise AssertionError(f"wanted {wanted}\n    found  {pasted(room, command)}")
        # a point needs digits after it, as the recipe itself requires of a weight; and some awks read a count with a leading
        # zero as octal
        with open(f"{room}/decimals.gr", "w", encoding="utf-8") as it:
            it.write("p sp 2 1\na 1 2 0.0000000019\n")
        found = pasted(room, command.replace("digits=2", "digits=010"))
        if found != (0, "p sp 2 1\na 1 2 0.0000000019\n"):
            raise AssertionError(f"ten digits: {found!r:.600}")
        with open(f"{room}/decimals.gr", "w", encoding="utf-8") as it:
            it.write("p sp 3 2\na 1 2 0\na 2 3 -70\n")
        for digits in ["0", "00"]:
            found = pasted(room, command.replace("digits=2", f"digits={digits}"))
            if found != (0, "p sp 3 2\na 2 3 -70\na 1 2 0\n"):
                raise AssertionError(f"{digits} digits: {found!r:.600}")
        # beyond 64 bits the program rejects the weight, and reports the same line
        with open(f"{room}/decimals.gr", "w", encoding="utf-8") as it:
            it.write("c a line more\np sp 2 1\na 1 2 92233720368547758.08\n")
        if pasted(room, command) != (1, "boruvka: line 3: WeightOutOfRange\n"):
            raise AssertionError(pasted(room, command))


@case
def weights_as_the_program_reads_them(room):
    """Wherever a carriage return is, a weight is negated or its point is moved, and what isn't a weight is rejected."""
    for room in awk_folders(room):
        [turned] = recipe(room, "A maximum spanning forest")
        [scaled] = recipe(room, "Decimal weights")
        for end in ["\n", "\r\n", "\n\r"]:
            rows = ["p sp 4 5", "a 1 2 5", "a 2 3 -0", "a 1 3\t0", "a 3 4 -9223372036854775807", "a 4 1 -9223372036854775806"]
            with open(f"{room}/examples/roads.gr", "w", encoding="utf-8", newline="") as it:
                it.write("".join(f"{row}{end}" for row in rows))
            wanted = "p sp 4 3\na 1 2 5\na 1 3 0\na 1 4 -9223372036854775806\n"
            if pasted(room, turned) != (0, wanted):
                raise AssertionError(f"{end!r}: wanted {wanted!r}, found {pasted(room, turned)!r:.600}")
            with open(f"{room}/decimals.gr", "w", encoding="utf-8", newline="") as it:
                it.write("".join(f"{row}{end}" for row in ["p sp 3 3", "a 1 2 5", "a 2 3 4", "a 1 3 4.5"]))
            if pasted(room, scaled) != (0, "p sp 3 2\na 2 3 4.00\na 1 3 4.50\n"):
                raise AssertionError(f"{end!r}: {pasted(room, scaled)!r:.600}")
        for weight in ["--5", "-+5", "+5", "-", "--", "5x", "-x", "0x5", "1e3", ".5", "5 5", ""]:
            with open(f"{room}/examples/roads.gr", "w", encoding="utf-8") as it:
                it.write(f"p sp 2 1\na 1 2 {weight}\n")
            if pasted(room, turned) != (0, "boruvka: line 2: BadArc\n"):
                raise AssertionError(f"{weight}: {pasted(room, turned)!r:.600}")


@case
def names_in_files_of_others(room):
    """A byte order mark, tabs, CR LF and a last line without LF aren't part of a name. Another column is rejected."""
    trains = ["Brno Praha 205", "Brno\tOlomouc 80", "Olomouc Praha 250", "Wien Brno 9007199254740993", "Wien  Brno 9007199254740992"]
    wanted = "Brno Olomouc 80\nBrno Praha 205\nBrno Wien 9007199254740992\n"
    for room in awk_folders(room):
        recipe(room, "Clusters")
        show, _ = recipe(room, "Names instead of numbers")
        number = "awk -f names.awk -f number.awk trains.txt > trains.gr"
        for text in ["\n".join([*trains, ""]), "\ufeff" + "\r\n".join(trains)]:
            for locale in ["C", "C.UTF-8"]:
                with open(f"{room}/trains.txt", "w", encoding="utf-8", newline="") as it:
                    it.write(text)
                found = pasted(room, f"export LC_ALL={locale}; {number} && {show}")
                if found != (0, wanted):
                    raise AssertionError(f"{text!r}: wanted {wanted!r}, found {found!r:.600}")
        for row in ["Brno Praha 205 180", "New York 5 7", "Brno Praha", "Brno", ""]:
            expect_rejected(room, number, "trains.txt", [trains[0], row], 2, row)


@case
def the_links_that_a_picture_draws_black(room):
    """They are the forest's edges, however the file spells them: by hand."""
    net = [("1", "2", "9007199254740993"), ("1", "02", "9007199254740992"), ("3", "2", "-007"), ("3", "3", "5"), ("9", "010", "05"), ("10", "9", "5")]
    black = ["1 -- 2 [label=9007199254740992", "2 -- 3 [label=-7", "9 -- 10 [label=5"]
    grey = ["1 -- 2 [label=9007199254740993", "3 -- 3 [label=5", "9 -- 10 [label=5"]
    draw = blocks_of("docs/RECIPES.md", "A picture")[0][1]
    for room in awk_folders(room):
        pasted(room, draw)
        for end in ["\n", "\r\n"]:
            with open(f"{room}/examples/roads.gr", "w", encoding="utf-8", newline="") as it:
                it.write(end.join([f"p sp 10 {len(net)}", *(" ".join(("a", *it)) for it in net), ""]))
            if pasted(room, draw) != (0, ""):
                raise AssertionError(f"{pasted(room, draw)!r:.600}")
            with open(f"{room}/roads.dot", encoding="utf-8", newline="") as it:
                lines = it.read().split("\n")
            found = [sorted(it.split(",")[0] for it in lines if ink in it) for ink in ("penwidth=3", "grey60")]
            if found != [black, grey]:
                raise AssertionError(f"wanted {[black, grey]}, found {found}")


@case
def points_of_any_unit(room):
    """The clusters of points don't depend on the unit, from far below one to far above it: by hand."""
    recipe(room, "Clusters")
    recipe(room, "Points")
    for unit in ["1e-300", "1e-9", "0.0001", "1", "1e6", "1e15", "1e100"]:
        with open(f"{room}/points.csv", "w", encoding="utf-8") as it:
            it.write("".join(f"{float(unit) * x!r},{float(unit) * y!r}\n" for x, y in [(0, 0), (3, 4), (30, 0), (33, -4.001), (30, 3)]))
        for clusters, wanted in [(2, [1, 1, 3, 3, 3]), (3, [1, 1, 3, 4, 3]), (4, [1, 2, 3, 4, 3])]:
            found = pasted(room, f"python3 nearest.py 4 < points.csv | boruvka --plain | awk -v clusters={clusters} -f clusters.awk")
            if found != (0, "".join(f"{point} {least}\n" for point, least in enumerate(wanted, 1))):
                raise AssertionError(f"{clusters} clusters, a unit of {unit}: {found!r:.600}")


@case
def points_far_from_zero(room):
    """Times in nanoseconds, where doubles are 256 apart. Most are equal. The distances to the nearest two come from all pairs."""
    recipe(room, "Clusters")
    recipe(room, "Points")
    for seed in (8, 35):
        draw = random.Random(seed)
        points = [(1.7e18, 1.7e18)] * 192 + [tuple(1.7e18 + 256 * draw.randint(-9, 9) for _ in range(2)) for _ in range(8)]
        draw.shuffle(points)
        written(f"{room}/points.csv", "".join(f"{x!r},{y!r}\n" for x, y in points).encode())
        status, output = pasted(room, "python3 nearest.py 2 < points.csv")
        links = [tuple(map(int, it.split()[1:3])) for it in output.splitlines()[1:]]
        for place, point in enumerate(points, 1):
            wanted = sorted(math.dist(point, it) for it in points)[1:3]
            found = sorted(math.dist(points[low - 1], points[high - 1]) for low, high in links if place in (low, high))[:2]
            if (status, found) != (0, wanted):
                raise AssertionError(f"seed {seed}, point {place}: {status}, wanted {wanted}, found {found}")


@case
def lines_that_are_no_points(room):
    """They are reported at once, with their number: a header, an empty line, and infinite or huge coordinates."""
    recipe(room, "Clusters")
    recipe(room, "Points")
    number, range_ = "a line is x,y: two numbers", "coordinates are finite, and at most 1e150"
    for rows, line, told, why in [
        ("x,y 0,0", 1, "x,y", number), ("0,0 1,1  2,2", 3, "", number), ("0,0 1", 2, "1", number), ("0,0 1,2,3", 2, "1,2,3", number),
        ("0,0 1,two", 2, "1,two", number), ("0,0 1;2", 2, "1;2", number),
        ("0,0 1,nan", 2, "1,nan", range_), ("nan,0 1,1", 1, "nan,0", range_), ("0,inf 1,1", 1, "0,inf", range_), ("-inf,0 1,1", 1, "-inf,0", range_),
        ("1,1 1e200,1e200 -1e200,0", 2, "1e200,1e200", range_), ("1e308,0 -1e308,0", 1, "1e308,0", range_),
    ]:
        written(f"{room}/points.csv", (rows.replace(" ", "\n") + "\n").encode())
        found = pasted(room, "timeout 10 python3 nearest.py 1 < points.csv")
        if found != (1, f"line {line}: {told}: {why}\n"):
            raise AssertionError(f"{rows}: {found!r:.600}")
    for rows, count, told in [("", 2, "there are no points\n"), ("0,0\n", 0, "the number of nearest points is 1 or more\n"), ("0,0\n", -1, "the number of nearest points is 1 or more\n")]:
        written(f"{room}/points.csv", rows.encode())
        if pasted(room, f"python3 nearest.py {count} < points.csv") != (1, told):
            raise AssertionError(f"{rows!r}, {count}: {pasted(room, f'python3 nearest.py {count} < points.csv')!r:.600}")
    written(f"{room}/points.csv", b"7,7\n")
    if pasted(room, "python3 nearest.py 3 < points.csv") != (0, "p sp 1 0\n"):
        raise AssertionError(f"one point: {pasted(room, 'python3 nearest.py 3 < points.csv')!r:.600}")


@case
def the_lengths_of_a_tree_of_points(room):
    """All pairs of random points, by Kruskal's algorithm: each length, and their sum."""
    recipe(room, "Clusters")
    recipe(room, "Points")
    draw = random.Random(12)
    points = [(draw.uniform(-9, 9), draw.uniform(0, 1e-3)) for _ in range(60)]
    written(f"{room}/points.csv", "".join(f"{x!r},{y!r}\n" for x, y in points).encode())
    pairs = [(u, v, math.dist(points[u - 1], points[v - 1])) for v in range(1, 61) for u in range(1, v)]
    wanted = forest_of(60, pairs)
    told = "".join(f"{low} {high} {length!r}\n" for length, low, high in wanted) + f"total {math.fsum(it[0] for it in wanted)!r}\n"
    found = pasted(room, "python3 nearest.py 59 < points.csv | boruvka --plain | python3 lengths.py")
    if found != (0, told):
        raise AssertionError(f"wanted {told!r:.600}\n    found  {found!r:.600}")


@case
def the_ids_of_a_drawn_csv(room):
    # no two lengths are equal, so the forest doesn't depend on how names are numbered
    draw = random.Random(79)
    lengths = draw.sample(range(100_000), 900)
    links = [(draw.randint(1, 200), draw.randint(1, 200), length) for length in lengths]
    name = [f"{draw.choice(['New', 'Old', 'Upper'])} Town {it}" for it in range(201)]
    rows = [f"id {at},{name[u]},{name[v]},{length // 100}.{length % 100:02}" for at, (u, v, length) in enumerate(links)]
    id_of = {length: f"id {at}" for at, (_, _, length) in enumerate(links)}
    wanted = "".join(f"{id_of[length]}\n" for length, _, _ in forest_of(200, links))
    for room in awk_folders(room):
        command = csv_recipe(room)[0]
        with open(f"{room}/pipes.csv", "w", encoding="utf-8", newline="") as it:
            it.write("\r\n".join(["\ufeffid,from,to,km", *rows, ""]))
        if pasted(room, command) != (0, wanted):
            raise AssertionError(f"wanted {wanted!r:.300}, found {pasted(room, command)!r:.900}")


@case
def errors_of_a_graph_in_parts(room):
    """Errors of the file are reported before it is split, or with its part, as the program reports them. No forest is
    written."""
    p, *arcs = "p sp 4 5", "a 1 2 3", "a 2 3 4", "a 3 4 1", "a 4 1 2", "a 1 3 9"
    problems = ["p sp 1O 5", "p sp 4 5x", "p sp 4", "p sp 4 5 0", "p edge 4 5", "p sp -4 5", "p sp 4.0 5", "p sp 0x4 5", "p sp four 5", "p sp 4 5e0", "p"]
    for room in awk_folders(room):
        cut, solved = (it.replace(".gr 5 &&", ".gr 3 &&") for it in recipe(room, "Parts of a large graph"))
        # (three lines per part; a problem line is added to each)
        for rows, part, told in [
            ([p, *arcs[:3], "a 4 1 x", arcs[4]], "ab", "line 3: BadArc"),
            ([p, *arcs[:3], "a 4 1 2 5", arcs[4]], "ab", "line 3: BadArc"),
            ([p, *arcs[:2], "x", *arcs[2:]], "ab", "line 2: UnknownLine"),
            ([p, *arcs[:3], "A 4 1 2", *arcs[3:]], "ab", "line 3: UnknownLine"),
            (["p sp 3 5", *arcs[:2], "a 1 2 1", arcs[4], arcs[3]], "ab", "line 4: EndOutOfRange"),
            (["p sp 4 0", "", "", "", "x"], "ab", "line 3: UnknownLine"),
            *((rows, None, "arcs or the problem line are missing, or wrong") for rows in [
                [p, *arcs[:3], p, *arcs[3:]], ["p sp 4 0", p, *arcs], [p, *arcs[:3]], [p, *arcs[:4]], [p, *arcs, arcs[0]],
                [arcs[0], p, *arcs[1:]], [arcs[0], "p sp 4 4", *arcs[1:]], [], ["c no problem line"], arcs, *([it, *arcs] for it in problems),
            ]),
        ]:
            for name in glob.glob(f"{room}/part.*"):
                os.remove(name)
            with open(f"{room}/examples/roads.gr", "w", encoding="utf-8") as it:
                it.write("".join(f"{row}\n" for row in rows))
            # with the name of the part, and if the part is solved alone, without it
            wanted = [(cut, f"boruvka: part.{part}.gr: {told}\n"), (solved, f"boruvka: {told}\n")] if part else [(cut, f"{told}\n")]
            for command, line in wanted:
                status, output = pasted(room, command)
                if not status or output != line:
                    raise AssertionError(f"{command}    {rows}: wanted {line!r}, found {(status, output)!r:.900}")


@case
def a_graph_in_parts_is_the_same_graph(room):
    """Random graphs, one with CR LF, in parts of several lines and of one, compared with the reference."""
    for room in awk_folders(room):
        recipe(room, "Parts of a large graph")
        for seed, size, end in [(91, 7, "\n"), (92, 40, "\r\n"), (93, 1, "\n")]:  # (the first has a count with a leading zero)
            draw = random.Random(seed)
            arcs = [(draw.randint(1, 30), draw.randint(1, 30), draw.randint(-20, 20)) for _ in range(150)]
            rows = ["c drawn", "", f"p sp 30 {'0' * (seed == 91)}150", *(f"a {u} {v} {w}" for u, v, w in arcs)]
            rows.insert(draw.randint(4, 150), "c p sp 3 3")
            with open(f"{room}/drawn.gr", "w", encoding="utf-8", newline="") as it:
                it.write("".join(f"{row}{end}" for row in rows))
            for name in glob.glob(f"{room}/part.*"):
                os.remove(name)
            wanted = forest_text(30, forest_of(30, arcs)).decode()
            if pasted(room, f"sh parts.sh drawn.gr {size} && boruvka --plain part.*.gr") != (0, wanted):
                raise AssertionError(f"{size} lines per part: another forest")
            # a name that awk or split would take for an argument of theirs: the vertices aren't those of standard input
            for name in ["n=5.gr", "-n.gr"]:
                for part in glob.glob(f"{room}/part.*"):
                    os.remove(part)
                shutil.copy(f"{room}/drawn.gr", f"{room}/{name}")
                found = pasted(room, f"printf 'p sp 99 0\\n' | sh parts.sh {name} {size} && boruvka --plain part.*.gr")
                if found != (0, wanted):
                    raise AssertionError(f"{name}: {found!r:.600}")
            # files that are there already aren't joined with the parts of another file
            if pasted(room, f"sh parts.sh drawn.gr {size}") != (1, "part.aa.gr exists already\n"):
                raise AssertionError("parts were written next to others")
        # split has 676 names of two letters; if it needs more, it fails, and nothing is joined
        for name in glob.glob(f"{room}/part.*"):
            os.remove(name)
        with open(f"{room}/drawn.gr", "w", encoding="utf-8") as it:
            it.write("p sp 2 676\n" + "a 1 2 3\n" * 676)
        status, output = pasted(room, "sh parts.sh drawn.gr 1 && boruvka --plain part.*.gr")
        if not status or "p sp" in output:
            raise AssertionError(f"677 parts: {(status, output)!r:.600}")


@case
def the_examples_of_the_manual_page(room):
    page = text_of("man/boruvka.1").replace("\\-", "-").replace("\\e", "\\")
    blocks = [it for it in re.findall(r"^\.EX\n(.*?)^\.EE$", page, re.M | re.S) if it.startswith("$ ")]
    count = expect_shown(room, [("console", it) for it in blocks])
    if count != 4:
        raise AssertionError(f"{count} examples were found")


def frame(kind, head, *numbers):
    """Returns a frame whose body has these two bytes first, or none, and then numbers of four bytes."""
    body = head + struct.pack(f">{len(numbers)}I", *(it % 2**32 for it in numbers))
    return struct.pack(">BI", kind, len(body)) + body


def offers_of(links, labels):
    """Returns a worker's offers: for each component that a link leaves, in order, the first index of the least such link."""
    least = {}
    for index in sorted(range(len(links)), key=lambda it: (links[it], it)):
        _, low, high = links[index]
        for one, other in [(labels[low], labels[high]), (labels[high], labels[low])]:
            if one != other:
                least.setdefault(one, index)
    return sorted(least.items())


def session_of(n, links):
    """Yields the frames of a run over one worker and one shard, whose weights fit 32 bits, each with its sender."""
    yield "<", frame(1, bytes([0, 2]), 0)
    yield ">", frame(2, b"", 0, len(links), *(it for weight, low, high in links for it in (low, high, weight)))
    components, offers, number = Components(n), [None], 0
    while offers:
        number += 1
        roots = [components.root(v) for v in range(n + 1)]
        labels = [roots.index(it) for it in roots]
        offers = offers_of(links, labels)
        yield ">", frame(3, b"", number, 0, n, *labels[1:])
        yield "<", frame(4, b"", number, 0, len(offers), *(it for offer in offers for it in offer))
        for _, index in offers:
            components.join(*links[index][1:])


@case
def the_session_of_the_protocol(_room):
    graph, session = [text for language, text in blocks_of("docs/PROTOCOL.md") if language == "text"][-2:]
    arcs = [[int(it) for it in line.split()[1:]] for line in graph.splitlines() if line.startswith("a ")]
    n = int(graph.split()[2])
    found = []
    for line in session.splitlines():
        shape = re.match(r"([<>])((?: +(?:[0-9a-f]{8}|[0-9a-f]{4}|[0-9a-f]{2})\b)+)(?:   |$)", line)
        if not shape:
            raise AssertionError(f"no bytes are shown: {line}")
        # a line that continues a frame is indented
        if line[2] != " ":
            found.append([shape[1], b""])
        found[-1][1] += bytes.fromhex(shape[2])
    wanted = [list(it) for it in session_of(n, [(weight, u, v) for u, v, weight in arcs])]
    if found != wanted or len(found) < 6:
        raise AssertionError(f"wanted {wanted}\n    found  {found}")


@case
def the_call_of_a_library_is_proved(room):
    """README's crate, with its line of crates.txt, over the built libraries that it depends on."""
    libraries()
    shape = r"with the line `(\w+): (\w+)` in `crates.txt`:\n\n```rust\n(.*?)^```$"
    name, library, code = re.search(shape, text_of("README.md"), re.M | re.S).groups()
    lines = crate_lines()
    names = [*below(library, lines), library]
    for folder in [f"{it}/{part}" for it in names for part in ("src", "specs", "proofs", "out/rlib")]:
        if os.path.isdir(f"{ROOT}/crates/{folder}"):
            shutil.copytree(f"{ROOT}/crates/{folder}", f"{room}/crates/{folder}")
    os.makedirs(f"{room}/crates/{name}/src")
    shutil.copy(f"{ROOT}/HANDLES", room)
    with open(f"{room}/crates.txt", "w", encoding="utf-8") as out:
        out.write("".join(lines[it] for it in names) + f"{name}: {library}\n")
    with open(f"{room}/crates/{name}/src/lib.rt", "w", encoding="utf-8") as out:
        out.write(code)
    ended = run(["rt", "check"], seconds=10 * SECONDS, cwd=f"{room}/crates/{name}")
    if ended[0] or b"logic=proved" not in ended[1] + ended[2]:
        raise AssertionError(f"{name}: {(ended[1] + ended[2])[-900:]!r}")


@case
def compressed_files_that_are_broken(room):
    """A pipe has the exit status of its last command, and gzip reports a wrong checksum only after the whole text."""
    packed = gzip.compress(b"p sp 2 1\na 1 2 17\n", 0)
    page = text_of("man/boruvka.1").replace("\\-", "-")
    for name, found in [("road.gr.gz", re.findall(r"`(gzip [^`]*)`", text_of("README.md"))), ("FILE.gz", re.findall(r"\\fB(gzip .*?)\\fR", page))]:
        [command] = found
        written(f"{room}/{name}", packed)
        if pasted(room, command) != (0, "p sp 2 1\na 1 2 17\n"):
            raise AssertionError(command)
        written(f"{room}/{name}", packed.replace(b"17", b"71"))
        status, output = pasted(room, command)
        if not status or "71" in output:
            raise AssertionError(f"{command}: {(status, output)!r:.600}")


@case
def the_manual_page_names_what_the_help_does(_room):
    page = text_of("man/boruvka.1").replace("\\-", "-")
    told = ran(["--help"])[1].decode()
    options = set(re.findall(r"--[a-z]+", told.split("Exit status:")[0]))
    sections = re.split(r"^\.SH (.*)$", page, flags=re.M)
    section = dict(zip(sections[1::2], sections[2::2]))
    for name, wanted, found in [
        ("options", options, set(re.findall(r"--[a-z]+", section["OPTIONS"]))),
        ("options of the synopsis", options, set(re.findall(r"--[a-z]+", section["SYNOPSIS"]))),
        ("statuses", re.findall(r"^  (\d)  ", told, re.M), re.findall(r"^\.B (\d)$", section["EXIT STATUS"], re.M)),
    ]:
        if wanted != found:
            raise AssertionError(f"{name}: the help has {wanted}, the page {found}")
    if shutil.which("groff"):
        expect(run(["groff", "-man", "-Tutf8", "-ww", "-z", f"{ROOT}/man/boruvka.1"]), 0, b"", b"")


# the documents whose sentences are counted
DOCUMENTS = ["README.md", "SECURITY.md", "CONTRIBUTING.md", "CHANGELOG.md", "man/boruvka.1", "python/README.md", "python/COMING_FROM.md"]
DOCUMENTS += [f"docs/{name}.md" for name in ("ARCHITECTURE", "DECISIONS", "GR_FORMAT", "HEADLINE", "PERFORMANCE", "PROMISES", "PROTOCOL", "RECIPES")]
# the most words of a sentence
MOST_IN_A_SENTENCE = 30


def prose_of(name):
    """Returns the prose of a document: its text without fenced blocks, without the synopsis and the examples of the manual
    page, and without the table of docs/HEADLINE.md, which names definitions."""
    text = text_of(name)
    if name.endswith(".1"):
        return re.sub(r"^\.EX\n.*?^\.EE$|^\.SH SYNOPSIS\n.*?(?=^\.SH)", "", text, flags=re.M | re.S)
    text = re.sub(r"^ *```.*?^ *```$", "", text, flags=re.M | re.S)
    return re.sub(r"^\|.*\n", "", text, flags=re.M) if name == "docs/HEADLINE.md" else text


def thoughts(name):
    """Returns the paragraphs, bullets and cells of a document, each as one text."""
    macro = r"\.(SH|SS|PP|P|LP|TP|IP|RS|RE|EX|EE)\b" if name.endswith(".1") else None
    found, now = [], []
    for line in [*prose_of(name).splitlines(), ""]:
        line = line.strip()
        begins = re.match(macro or r"([-*+]|\d+\.) ", line)
        if begins or not line or (not macro and line[0] in "#|"):
            found.append(" ".join(now))
            now = []
        if not macro and line.startswith("|"):
            found += [] if re.fullmatch(r"[-:| ]+", line) else line.strip("|").split("|")
        elif not (macro and begins) and not (not macro and line.startswith("#")):
            now.append(line)
    return [it for it in found if it.strip()]


@case
def the_sentences_are_short(_room):
    long = []
    for name in DOCUMENTS:
        parts = thoughts(name)
        if len(parts) < 5:
            long.append(f"only {len(parts)} paragraphs, bullets and cells were found in {name}")
        for sentence in [it for part in parts for it in re.split(r"(?<=[.?!:])(?:\*\*)?\s", part)]:
            if len(sentence.split()) > MOST_IN_A_SENTENCE:
                long.append(f"{name} has {len(sentence.split())} words in a sentence: {sentence:.90}")
    if long:
        raise AssertionError("\n    ".join(long))


def ensured(path, text):
    """Returns the names of what functions ensure: of their clauses, and of the fields of a record, or of its abbreviation,
    that is a clause without a name."""
    names, specs = set(re.findall(r"ensures (\w+) ", text)), f"{ROOT}/{path.partition('/src/')[0]}/specs"
    records = set(re.findall(r"ensures \{ ([A-Z]\w+)", text))
    texts = [text_of(f"{os.path.relpath(specs, ROOT)}/{name}") for name in os.listdir(specs)] if records else []
    for text in texts:
        records |= {record for own, record in re.findall(r"^abbrev pub (\w+) :.*\n\1 .*=\s+([A-Z]\w+) ", text, re.M) if own in records}
    for text in texts:
        for record, fields in re.findall(r"^pub record (\w+).*? where\n((?:(?:  .*)?\n)*)", text, re.M):
            names |= set(re.findall(r"^  pub (\w+) :", fields, re.M)) if record in records else set()
    return names


@case
def the_promises_name_what_is_there(_room):
    """Each function, definition and clause that docs/PROMISES.md names is in the file that it links."""
    missed, count = [], 0
    for row in re.findall(r"^\| .* \| (\[.*) \|$", text_of("docs/PROMISES.md"), re.M):
        for name, path, clauses in re.findall(r"\[`([^`]+)`\]\(\.\./([^)]+)\)(: `[^\[;]*`)?", row):
            if not os.path.isfile(f"{ROOT}/{path}"):
                missed.append(f"{name}: there is no {path}")
                continue
            text, count = text_of(path), count + 1
            last = name.rpartition("::")[2]
            if last != "laws" and not re.search(rf"\b(fn|struct|trait|record|abbrev pub) {last}\b", text):
                missed.append(f"{path} has no {name}")
            missed += [f"{path} has no clause {it}" for it in re.findall(r"`(\w+)`", clauses) if it not in ensured(path, text)]
    if missed or count < 80:
        raise AssertionError(f"{count} were looked at\n    " + "\n    ".join(missed))


@case
def the_map_names_what_is_there(_room):
    """docs/ARCHITECTURE.md names each crate, and lists those of the product after all that they depend on. Each module that
    its table names is in the crate named before it, and each statement in the file of specs/ named before it."""
    text, lines = text_of("docs/ARCHITECTURE.md"), crate_lines()
    section = text.split("\n## Crates\n")[1].split("\n## ")[0]
    listed = re.findall(r"^- `(\w+)`: ", section, re.M)
    table = re.findall(r"^\| (.*) \| (.*) \| (.*) \|$", text.split("\n| Subject | ")[1], re.M)
    rows = [re.findall(r"`(\w+)`", it) for _, cell, _ in table for it in cell.split(";")]
    rows = [(crate, modules) for crate, *modules in filter(None, rows)]
    stated = [re.fullmatch(r"`(\w+)/(\w+)`: (.*)", it.strip().removeprefix("also ")) for _, _, cell in table for it in cell.split(";")]
    missed = [f"{it} isn't named" for it in lines if f"`{it}`" not in section]
    missed += [f"there is no crate {it}" for it in [*listed, *(row[0] for row in rows)] if it not in lines]
    for place, name in enumerate(listed):
        later = [it for it in below(name, lines) if it in listed[place:]] if name in lines else []
        missed += [f"{name} stands on {it}, which is listed after it" for it in later]
    count = 0
    for crate, modules in rows:
        missed += [f"{crate} has no {it}" for it in modules if not glob.glob(f"{ROOT}/crates/{crate}/src/**/{it}.rt", recursive=True)]
        count += len(modules)
    for crate, file, told in [it.groups() for it in stated if it]:
        name, its = f"crates/{crate}/specs/{file}.antt", re.findall(r"`(\w+)`", told)
        text = text_of(name) if os.path.isfile(f"{ROOT}/{name}") else ""
        missed += [f"{name} has no {it}" for it in its if not re.search(rf"^(abbrev pub|unfoldable pub|pub record|pub data) {it}\b", text, re.M)]
        count += len(its)
    # a row whose change needs no statement says `none`
    missed += [f"no statement is named: {subject}" for subject, _, cell in table[1:] if cell != "none" and "`: `" not in cell]
    if missed or count < 120:
        raise AssertionError(f"{count} were looked at\n    " + "\n    ".join(missed))
