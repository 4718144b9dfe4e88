#!/usr/bin/env python3
"""Wrong versions by the hundred, against the contracts.

In a copy of the repository each comparison, each number and each two arguments side by side in the functions of a crate are
changed, one at a time, and the prover is asked. A version that it proves has to answer the same as the right one; else a
contract has a hole. Those that are known to answer the same stand in same_answers.txt, with the reason.

    python3 tests/attack/attack.py [CRATE ..]

Without a name it tries every crate but the programs, and `script`, by which they read and print. That takes about an hour, so it
is no part of the gate. A line tells of each version that is proved and not known, and of each known one that is not proved; the
exit status is 0 if there is none.
"""
import os
import re
import shutil
import subprocess
import sys
import tempfile

HERE = os.path.dirname(os.path.abspath(__file__))
ROOT = os.path.dirname(os.path.dirname(HERE))
INSTEAD = {
    " < ": (" <= ", " > "),
    " <= ": (" < ",),
    " == ": (" != ",),
    " != ": (" == ",),
    " || ": (" && ",),
    "true": ("false",),
    "false": ("true",),
}
NUMBER = re.compile(r"(?<!; )(?<![\w.'])(\d+)((?:u\d+|usize)?)(?![\w'])")
BYTE = re.compile(r"b'([^'\\])'")
ARGUMENTS = re.compile(r"\b([a-z_]+), ([a-z_]+)(?=[,)])")


def versions(line):
    """The line with one thing changed, in each way."""
    code = line.split("//")[0]
    changes = []
    for word, others in INSTEAD.items():
        changes += [(m, other) for m in re.finditer(re.escape(word), code) for other in others]
    for m in NUMBER.finditer(code):
        changes += [(m, str(n) + m[2]) for n in (int(m[1]) + 1, int(m[1]) - 1) if n >= 0]
    changes += [(m, "b'" + chr(ord(m[1]) + 1) + "'") for m in BYTE.finditer(code)]
    changes += [(m, m[2] + ", " + m[1]) for m in ARGUMENTS.finditer(code) if m[1] != m[2]]
    return [line[: m.start()] + other + line[m.end() :] for m, other in changes]


def bodies(lines):
    """Each function's name, a method's behind its type's, with the numbers of its body's lines."""
    name, margin, inside, of = None, "", False, ""
    for number, line in enumerate(lines):
        block = re.match(r"(?:pub )?(?:impl|trait)\b(?:<[^>]*>)? *(.*) \{$", line)
        if block:
            of = re.split(r"[<:]", block[1].split(" for ")[-1])[0].strip() + "::"
        head = re.match(r'( *)(?:pub )?(?:extern "C" )?fn (\w+)', line)
        if head:
            margin, name = head[1], (of if head[1] else "") + head[2]
        if name and (line == margin + "}" or line.endswith(";") and not inside):
            name, inside = None, False
        if name and inside:
            yield name, number
        if name and (line == margin + "{" or (head or line.startswith(margin + ")")) and line.endswith(" {")):
            inside = True


def known_versions():
    with open(os.path.join(HERE, "same_answers.txt"), encoding="utf-8") as file:
        return {line.rstrip("\n") for line in file if line.strip() and not line.startswith("#")}


def tried_crates():
    """The libraries, but for that by which programs read and print."""
    with open(os.path.join(ROOT, "crates.txt"), encoding="utf-8") as file:
        names = [line.split(":")[0].split()[0] for line in file if ":" in line]
    return [name for name in names if name != "script" and os.path.exists(os.path.join(ROOT, "crates", name, "src", "lib.rt"))]


def verdict(copy, crate):
    done = subprocess.run(["rt", "check"], cwd=os.path.join(copy, "crates", crate), capture_output=True, text=True, check=False)
    told = re.findall(r"^logic=(proved|not-proved)", done.stdout + done.stderr, re.M)
    return told[-1] if told else "not compiled"


def attack(copy, crate, counts):
    """Tries each version of a crate, and gives the names of those that are proved."""
    proved = set()
    source = os.path.join(copy, "crates", crate, "src")
    for file in sorted(os.listdir(source)):
        path = os.path.join(source, file)
        with open(path, encoding="utf-8") as right:
            text = right.read()
        lines = text.split("\n")
        for function, number in bodies(lines):
            for changed in versions(lines[number]):
                with open(path, "w", encoding="utf-8") as wrong:
                    wrong.write("\n".join(lines[:number] + [changed] + lines[number + 1 :]))
                told = verdict(copy, crate)
                counts[told] = counts.get(told, 0) + 1
                if told == "proved":
                    proved.add(f"{crate}::{function}: {lines[number].strip()} => {changed.strip()}")
        with open(path, "w", encoding="utf-8") as right:
            right.write(text)
    return proved


def main():
    crates = sys.argv[1:] or tried_crates()
    known = {name for name in known_versions() if name.split("::")[0] in crates}
    proved, counts = set(), {}
    with tempfile.TemporaryDirectory() as room:
        copy = os.path.join(room, "copy")
        shutil.copytree(ROOT, copy, ignore=shutil.ignore_patterns(".git", "out", "target"))
        for crate in crates:
            if verdict(copy, crate) != "proved":
                sys.exit(f"{crate} itself is not proved")
            proved |= attack(copy, crate, counts)
    for name in sorted(proved - known):
        print(f"proved: {name}")
    for name in sorted(known - proved):
        print(f"in same_answers.txt, and not proved: {name}")
    print(f"{counts.get('not-proved', 0)} refused, {len(known & proved)} answer the same, {counts.get('not compiled', 0)} not compiled")
    sys.exit(0 if proved == known else 1)


if __name__ == "__main__":
    main()
