"""Applies an edit in the form of the toolchain's must-fail edits: a line `file: PATH`, then pairs of lines `old: TEXT` and `new: TEXT`."""

import os
import sys


def applied(edit, crate):
    """Returns the texts of the crate's files that the edit changes, by path; ends the program where an old text does not stand once."""
    texts, path, old = {}, None, None
    for line in open(edit, encoding="utf-8").read().splitlines():
        if line.startswith("file: "):
            path = os.path.join(crate, line[len("file: ") :])
            texts.setdefault(path, open(path, encoding="utf-8").read())
        elif line.startswith("old: "):
            old = line[len("old: ") :]
            if texts[path].count(old) != 1:
                sys.exit(f"{edit}: `{old}` does not stand once in {path}")
        elif line.startswith("new:"):
            texts[path] = texts[path].replace(old, line[len("new:") :].removeprefix(" "))
    return texts
