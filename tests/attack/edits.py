#!/usr/bin/env python3
"""The wrong versions that the gate does not try, against the contracts.

Like a crate's must-fail/, its folder in edits/ holds edits that turn the code or a definition into a plausible wrong version. In a
copy of the repository they take the place of those in must-fail/, and the prover has to refuse each.

    python3 tests/attack/edits.py [CRATE ..]

Without a name it tries those of every crate. That takes about a quarter of an hour, so it is no part of the gate. A line tells of
each edit; the last line is `N refused, M not refused`, and the exit status is 0 exactly if M is 0.
"""
import os
import re
import shutil
import subprocess
import sys
import tempfile

HERE = os.path.dirname(os.path.abspath(__file__))
ROOT = os.path.dirname(os.path.dirname(HERE))
EDITS = os.path.join(HERE, "edits")


def main():
    crates = sys.argv[1:] or sorted(os.listdir(EDITS))
    for crate in crates:
        if not os.path.isdir(os.path.join(EDITS, crate)):
            sys.exit(f"tests/attack/edits has none of {crate}")
    with tempfile.TemporaryDirectory() as room:
        copy = os.path.join(room, "copy")
        shutil.copytree(ROOT, copy, ignore=shutil.ignore_patterns(".git", "must-fail", "out", "target"))
        edits = 0
        for crate in crates:
            placed = shutil.copytree(os.path.join(EDITS, crate), os.path.join(copy, "crates", crate, "must-fail"))
            edits += len(os.listdir(placed))
        refused = 0
        with subprocess.Popen(["rt", "must-fail", *crates], cwd=copy, stdout=subprocess.PIPE, text=True) as running:
            for line in running.stdout:
                if re.match(r"rt: (must-fail |\S+ NOT PROVED)", line):
                    print(line[4:], end="", flush=True)
                    refused += ": refused, " in line
    print(f"{refused} refused, {edits - refused} not refused")
    sys.exit(0 if refused == edits else 1)


if __name__ == "__main__":
    main()
