"""docs/HEADLINE.md quotes files literally. Its quotes and its table together name all definitions that the clause depends on,
and no others. tools/headline.py writes the table."""
import hashlib
import re
import sys

from cases.running import ROOT, case

sys.path.insert(0, f"{ROOT}/tools")

from headline import PAGE, clause_and_rest, expect_lines, expect_whole, named, owners, parts_of, quoted_by, sum_of, table_of, text_of

# The checksum of everything that the page's clause depends on, without comments, when somebody last compared the page with it.
# If you change a definition, compare the page again, and then put the new checksum here.
READ = "8d3388ca4f2e80f5755f9b4d191939e54bcd334dab8ff0ae53bb829e5610ff4c"


@case
def the_headline_quotes_what_is_there(_room):
    page = text_of(PAGE)
    for name, lines in parts_of(page):
        if name.endswith(".antt"):
            expect_whole(name, lines)
        else:
            expect_lines(name, lines)
    for name, names, count in table_of(page):
        if named(name, names) != count:
            raise AssertionError(f"{name} has another number of lines than {count}: {names}")
    if not list(parts_of(page)) or not table_of(page):
        raise AssertionError("the page quotes nothing, or has no table")
    if sum_of(page) not in page:
        raise AssertionError(f"the page doesn't say: {sum_of(page)}")


@case
def the_headline_reads_all_that_it_rests_on(_room):
    """The definitions that the clause, its conditions, and a line's contract for `faithful` depend on."""
    page = text_of(PAGE)
    clause, serves, wanted = clause_and_rest()
    found = {(name, it) for name, names, _ in table_of(page) for it in names} | quoted_by(page)
    for name, quoted in parts_of(page):
        if not name.endswith(".antt") and "\n".join(quoted) + "\n" not in clause + serves + "\n":
            raise AssertionError(f"it is neither the clause nor a line's contract: {quoted}")
    if wanted != found or len(found) < 150:
        raise AssertionError(f"the page lacks {sorted(wanted - found)}, and has {sorted(found - wanted)} besides: {len(found)} in all")
    texts = [clause, serves, *(owners(name)[own][1] for name, own in sorted(wanted))]
    texts += re.findall(r"^pub const .*", text_of("crates/limits/src/lib.rt"), re.M) + re.findall(r"^    ghost .*", text_of("crates/links/src/links.rt"), re.M)
    texts = [" ".join(it.split()) for it in texts]
    if (now := hashlib.sha256("\n".join(texts).encode()).hexdigest()) != READ:
        raise AssertionError(f"the definitions have changed: compare the page with them again, and then set READ to {now}")
