#!/usr/bin/env python3
"""Tries the edits crates/NAME/moves/*.edit: each uses a session that was moved away, and the checker must refuse it for that.

usage: python3 tools/moves.py        at the top of the repository

Such an edit is refused before anything of it is proved, so the toolchain's own must-fail edits, which are the prover's to refuse,
can't hold it. Each is tried in a copy of the sources, and has the form of a must-fail edit.
"""

import glob
import os
import shutil
import subprocess
import sys
import tempfile

from edits import applied

REFUSAL = "error[borrow-e0382]: use of moved value"


def write(texts):
    for path, text in texts.items():
        open(path, "w", encoding="utf-8").write(text)


def refused(edit, top):
    crate = os.path.join(top, "crates", edit.split(os.sep)[1])
    changed = applied(edit, crate)
    before = {path: open(path, encoding="utf-8").read() for path in changed}
    write(changed)
    run = subprocess.run(["rt", "check"], cwd=crate, capture_output=True, text=True)
    write(before)
    return run.returncode != 0 and REFUSAL in run.stdout + run.stderr


edits = sorted(glob.glob("crates/*/moves/*.edit"))
with tempfile.TemporaryDirectory() as top:
    # one copy for all, so that the crates below are proved once
    shutil.copy("crates.txt", top)
    shutil.copytree("crates", os.path.join(top, "crates"), ignore=shutil.ignore_patterns("out", "must-fail", "planted", "moves"))
    wrong = [edit for edit in edits if not refused(edit, top)]
for edit in wrong:
    print(f"{edit}: not refused as the use of a moved value")
print(f"{len(edits) - len(wrong)} of {len(edits)} misuses of a moved value refused")
sys.exit(1 if wrong or not edits else 0)
