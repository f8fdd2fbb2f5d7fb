#!/usr/bin/env python3
"""Tries the planted bugs crates/NAME/planted/*.edit as the toolchain tries must-fail edits: the prover must refuse each.

usage: python3 tools/planted.py [NAME..]        at the top of the repository; with no NAME, each crate that has some
       python3 tools/planted.py --apply         tries nothing, and sees that each still applies to the sources

Each is one more wrong body behind a function that has a must-fail edit. The gate, which tries those at each run, only sees that these
apply; they are tried by hand, after a change to a contract or to what it is proved from.
"""

import glob
import os
import shutil
import subprocess
import sys
import tempfile

from edits import applied


def apply_all(edits):
    for edit in edits:
        crate = os.path.dirname(os.path.dirname(edit))
        if all(open(path, encoding="utf-8").read() == text for path, text in applied(edit, crate).items()):
            sys.exit(f"{edit}: changes nothing")
    print(f"{len(edits)} planted bugs apply")


def try_all(names):
    with tempfile.TemporaryDirectory() as top:
        # in a copy, where they stand in the place of the must-fail edits
        shutil.copy("crates.txt", top)
        shutil.copytree("crates", f"{top}/crates", ignore=shutil.ignore_patterns("out", "must-fail", "planted"))
        for name in names:
            shutil.copytree(f"crates/{name}/planted", f"{top}/crates/{name}/must-fail")
        sys.exit(subprocess.run(["rt", "must-fail", *names], cwd=top).returncode)


edits = sorted(glob.glob("crates/*/planted/*.edit"))
if not edits:
    sys.exit("no planted bugs here")
if sys.argv[1:] == ["--apply"]:
    apply_all(edits)
else:
    try_all(sys.argv[1:] or sorted({edit.split(os.sep)[1] for edit in edits}))
