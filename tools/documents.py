#!/usr/bin/env python3
"""Copies documents as they are installed. A link to a file that isn't installed becomes plain text.

usage: tools/documents.py ROOT DOCDIR INCLUDEDIR FILE..

Each FILE is a path from the top of the repository, and is copied to ROOT/DOCDIR/FILE. The headers are in INCLUDEDIR.
"""
import os
import re
import sys

sys.dont_write_bytecode = True

from stamp import text_of

HEADERS = ("include/boruvka.h", "include/boruvka.hpp")
LINK = re.compile(r"!?\[([^][]*)\]\(([^()\s]+)\)")


class Places:
    """Where files of the repository are installed."""

    def __init__(self, docdir, includedir, files):
        self.of = {it: f"{docdir}/{it}" for it in files}
        # (a folder is installed if a file in it is)
        self.of.update({os.path.dirname(it): f"{docdir}/{os.path.dirname(it)}" for it in files if os.path.dirname(it)})
        self.of.update({it: f"{includedir}/{os.path.basename(it)}" for it in HEADERS if includedir is not None})

    def linked(self, path, text):
        """Returns the text of a file, with links that are right where it is installed."""

        def link(found):
            target, mark, part = found[2].partition("#")
            if "://" in target or not target:
                return found[0]
            to = self.of.get(os.path.normpath(os.path.join(os.path.dirname(path), target)))
            if to is None:
                return found[1]
            shown = os.path.relpath(to or "/", os.path.dirname(self.of[path]) or "/")
            return f"{found[0].partition('](')[0]}]({shown}{mark}{part})"

        return LINK.sub(link, text) if path.endswith(".md") else text


def main(words):
    if len(words) < 4:
        print(__doc__, end="", file=sys.stderr)
        return 2
    root, docdir, includedir, *files = words
    places = Places(docdir, includedir, files)
    os.umask(0o022)
    for path in files:
        to = f"{root}{places.of[path]}"
        os.makedirs(os.path.dirname(to), exist_ok=True)
        with open(to, "w", encoding="utf-8") as it:
            it.write(places.linked(path, text_of(path)))
        os.chmod(to, 0o644)
    return 0


if __name__ == "__main__":
    sys.exit(main(sys.argv[1:]))
