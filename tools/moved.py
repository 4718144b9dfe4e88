#!/usr/bin/env python3
"""What moved between two commits and what stayed, as Markdown for a change's notes.

    python3 tools/moved.py A B

For each crate: the definitions and statements of its specs/ and the contracts of the functions of its src/, which are new,
changed, gone, or moved to it from another file or crate, and how many stayed; and the lines of proof that were added and removed.
A contract is a function's head: what it takes and answers, requires and ensures. Comments, `use` lines and blank space do not
count. Crates in which nothing moved are only named.
"""
import collections
import os
import re
import subprocess
import sys

ROOT = os.path.dirname(os.path.dirname(os.path.abspath(__file__)))
PLAIN = r"(?:(?:pub|abbrev|unfoldable|opaque|record|data) )"
DEFINITION = re.compile(rf"{PLAIN}+(\S+)|(\S+) : ")
FUNCTION = re.compile(r'( *)(?:pub )?(?:extern "C" )?fn (\w+)')
COMMENT = {".antt": re.compile(r"(^|\s)--.*"), ".rt": re.compile(r"(^|\s)//.*")}
CHANGES = ("new", "changed", "gone", "moved")


def git(*words):
    return subprocess.run(["git", *words], cwd=ROOT, capture_output=True, text=True, check=True).stdout


def definitions(lines):
    """The name and the text of each definition. One begins with a word that marks it, or with its name and type; the lines up to
    the next, its clauses, are its own. The line on how an operator binds counts with the operator."""
    name = None
    for line in lines:
        head = DEFINITION.match(line)
        if re.match(r"(pub )?(use|mod) ", line):
            name = None
        elif re.match(r"infix[lr]? ", line):
            name = None
            yield line.split()[-1], line
        else:
            name = head[1] or head[2] if head else name
            if name:
                yield name, line


def contracts(lines):
    """The name and the head of each function."""
    name = None
    for line in lines:
        head = FUNCTION.match(line)
        if head and not name:
            name, indent, text = head[2], head[1], []
        if name:
            bare = not any(re.match(r" *(requires|ensures)\b", one) for one in [*text, line])
            if line == indent + "{" or (bare and line.endswith((" {", ";"))):
                yield name, " ".join([*text, line.rstrip("{; ")])
                name = None
            else:
                text.append(line)


def read(commit, folder, ending, parts):
    """The text of each part in the crates' folder, by crate, file and name."""
    found = {}
    for path in git("ls-tree", "-r", "--name-only", commit, "crates").split("\n"):
        crate, inner = (path.split("/", 2)[1:] + ["", ""])[:2]
        if inner.startswith(folder) and inner.endswith(ending):
            lines = [COMMENT[ending].sub("", line).rstrip() for line in git("show", f"{commit}:{path}").split("\n")]
            for name, text in parts([line for line in lines if line]):
                found[crate, inner, name] = found.get((crate, inner, name), "") + " " + " ".join(text.split())
    return found


def compare(old, new):
    """For each crate what is new, changed, gone or moved, each name with the file that it came from, and how many stayed."""
    told = collections.defaultdict(lambda: {**{change: [] for change in CHANGES}, "unchanged": 0})
    left, come = {key: old[key] for key in old if key not in new}, {key: new[key] for key in new if key not in old}
    for key in sorted(old.keys() & new.keys()):
        if old[key] == new[key]:
            told[key[0]]["unchanged"] += 1
        else:
            told[key[0]]["changed"].append((key[2], None))
    # what stands elsewhere now: the same name with the same text; then in the same crate; then in any, if it is one only
    for change, same in (
        ("moved", lambda a, b: left[a] == come[b]),
        ("changed", lambda a, b: a[0] == b[0]),
        ("changed", lambda a, b: sum(c[2] == a[2] for c in left) == sum(c[2] == a[2] for c in come) == 1),
    ):
        for key in sorted(come):
            origin = next((a for a in sorted(left) if a[2] == key[2] and same(a, key)), None)
            if origin:
                told[key[0]][change].append((key[2], "/".join(origin[:2])))
                del left[origin], come[key]
    for key in sorted(come):
        told[key[0]]["new"].append((key[2], None))
    for key in sorted(left):
        told[key[0]]["gone"].append((key[2], None))
    return told


def proof_lines(a, b):
    """For each crate the lines of proof that were added and removed; those of a file that moved count where it went."""
    lines = collections.defaultdict(lambda: [0, 0])
    words = git("diff", "--numstat", "-z", "-M", "-l100000", a, b, "--", "crates/*/proofs/*.antt").split("\0")
    while words[0]:
        added, removed, path = words.pop(0).split("\t")
        if not path:
            path = words[1]
            del words[:2]
        crate = path.split("/")[1]
        lines[crate] = [lines[crate][0] + int(added), lines[crate][1] + int(removed)]
    return lines


def counts(told):
    return [len(told[change]) for change in CHANGES] + [told["unchanged"]]


def names(change, entries):
    """One kind of change in words: the names, those that came from one file together."""
    origins = list(dict.fromkeys(origin for _, origin in entries))
    groups = []
    for one in origins:
        group = ", ".join(f"`{name}`" for name, origin in entries if origin == one)
        groups.append(f"{group} (from `{one}`)" if one else group)
    return f"{change} {', '.join(groups)}"


def main():
    if len(sys.argv) != 3:
        sys.exit(__doc__)
    a, b = (git("rev-parse", "--verify", f"{word}^{{commit}}").strip() for word in sys.argv[1:])
    kinds = {
        "Definitions and statements": compare(*(read(commit, "specs/", ".antt", definitions) for commit in (a, b))),
        "Contracts": compare(*(read(commit, "src/", ".rt", contracts) for commit in (a, b))),
    }
    proofs = proof_lines(a, b)
    crates = sorted({crate for told in (*kinds.values(), proofs) for crate in told})
    stayed = [c for c in crates if not any(proofs[c]) and not any(any(counts(told[c])[:4]) for told in kinds.values())]
    heads = " | ".join((*CHANGES, "unchanged"))
    print(f"| crate | definitions: {heads} | contracts: {heads} | proof lines |")
    print("|---" * 12 + "|")
    total = [0] * 12
    for crate in crates:
        figures = [n for told in kinds.values() for n in counts(told[crate])] + proofs[crate]
        total = [x + y for x, y in zip(total, figures)]
        if crate not in stayed:
            print(f"| {crate} | " + " | ".join(map(str, figures[:10])) + f" | +{figures[10]} -{figures[11]} |")
    print("| all crates | " + " | ".join(map(str, total[:10])) + f" | +{total[10]} -{total[11]} |")
    for kind, told in kinds.items():
        print(f"\n{kind}:\n")
        moved = [crate for crate in crates if any(counts(told[crate])[:4])]
        for crate in moved:
            print(f"- {crate}: " + "; ".join(names(change, told[crate][change]) for change in CHANGES if told[crate][change]))
        if not moved:
            print("- all stayed")
    if stayed:
        print(f"\nNothing moved in {', '.join(stayed)}.")


if __name__ == "__main__":
    main()
