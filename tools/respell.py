#!/usr/bin/env python3
"""Respells the names of definitions, lemmas and record fields in the library's spelling, in every crate.

    python3 tools/respell.py           rewrites crates/ and tests/attack/edits in place
    python3 tools/respell.py --list    prints old and new names alone
    python3 tools/respell.py FILE ..   rewrites the names that stand between backticks in these pages too

Words are in snake case, types and facts in upper camel case. A dash stays where it joins the names of two functions, as in
`length-written`; elsewhere an underscore stands, and a lemma that would have a function's name ends in `_lem`. Names of src/ stay, as do those that the prover makes from them. It runs once, over
files whose names are all of the older spelling; a name that would fall together with another one stops it.
"""
import os
import re
import sys

ROOT = os.path.dirname(os.path.dirname(os.path.abspath(__file__)))
W = r"[^\s(){}.;,@\"«»\[\]\\`]+"
HEAD = re.compile(r"^ *(?:(?:abbrev|unfoldable|pub|record|data) )*(?:let )?(%s)(?: [^:=]*)? : " % W)
# names of the library that a lemma may join by a dash
STANDARD = set(
    "length take drop get_or set map append sum replicate reverse min max filter zip fold count_by not cond bytes eqb ltb leb".split()
)
# names that by the rule would fall together with another one, or that a reader would not know again
GIVEN = {
    "T-built": "T_built",
    "T-stale": "T_stale",
    "T-misclassed": "T_misclassed",
    "T-with-1": "T_with_1",
    "T-with-3-0-1": "T_with_3_0_1",
    "FindRefused": "FoundRefused",
    "Newer-part": "NewerPartIs",
    "newer-part": "newer_part_is",
    "Subtree-part": "SubtreePartIs",
    "subtree-part": "subtree_part_is",
    "Nothing-open": "NothingIsOpen",
    "nothing-open": "nothing_is_open",
    "Reads-bars": "AcceptsBars",
    "reads-bars": "accepts_bars",
    "Run-for-C": "RunsForC",
    "run-for-c": "runs_for_c",
    "Odd-byte-stays": "OddByteIsKept",
    "odd-byte-stays": "odd_byte_is_kept",
    "Read-to": "ReadUpTo",
    "read-to": "read_up_to",
    "a-bar-short": "a_bar_short",
    "bars-written": "bars_written",
    "bars-read": "bars_read",
    "four-at-once": "four_at_once",
    "two-read": "two_read",
    "unset-entry": "unset_entry",
    "unset-bytes": "unset_bytes",
}


def files(*endings):
    for top in ("crates", "tests/attack/edits"):
        for folder, dirs, names in os.walk(os.path.join(ROOT, top)):
            dirs[:] = sorted(d for d in dirs if d != "out")
            for name in sorted(names):
                if name.endswith(endings):
                    yield os.path.join(folder, name)


def read(path):
    with open(path, encoding="utf-8", newline="") as it:
        return it.read()


def snake(name):
    return re.sub(r"(?<=[a-z0-9ℕ])(?=[A-Z])", "_", name).lower() if re.match(r"[a-z]", name) else name


def own():
    """The names that files of specs/ and lemma files declare, and which of them are functions of specs/."""
    names, functions = {}, set()
    for path in files(".antt"):
        if path.endswith(("/Proof.antt", "/Invariants.antt", "/Answers.antt")):
            continue
        for line in read(path).split("\n"):
            head = HEAD.match(line)
            if head and not line.lstrip().startswith(("--", "use ", "λ", "∙", "→", "let ")):
                names.setdefault(head[1], []).append(os.path.relpath(path, ROOT))
                if "/specs/" in path and re.match(r"[a-z]", head[1]) and "-" not in head[1] and re.match(r"(abbrev|unfoldable) ", line):
                    functions.add(snake(head[1]))
    return names, functions


def imported():
    """The names that are imported from the library."""
    out = set()
    for path in files(".antt"):
        for module, names in re.findall(r"(?m)^use (\S+)\.\{([^}]*)\}", read(path)):
            if not re.match(r"Rattle\.(?!std\b)", module):
                out |= set(re.split(r"[, ]+", names))
    return out


def respelled(name, functions, facts):
    if name in GIVEN:
        return GIVEN[name]
    if re.match(r"[A-Z]", name):
        return "".join(part[:1].upper() + part[1:] for part in name.split("-")) if "-" in name else name
    parts = [snake(part) for part in name.split("-")]
    if name in facts:
        return "_".join(parts)
    out = parts[0]
    for before, after in zip(parts, parts[1:]):
        joins = before in functions | STANDARD and after in functions | STANDARD
        out += ("-" if joins else "_") + after
    return out


def table():
    names, functions = own()
    for name in imported():
        names.pop(name, None)
    facts = {name[:1].lower() + name[1:].replace("C-", "c-") for name in names if re.match(r"[A-Z]", name) and "-" in name}
    facts |= {name.lower() for name in names if re.match(r"[A-Z]", name) and "-" in name}
    wanted = {name: respelled(name, functions, facts) for name in names} | GIVEN
    words = {new for name, new in wanted.items() if "-" not in name}
    for name, new in wanted.items():
        if "-" in name and name not in GIVEN and new in words:
            wanted[name] = new + "_lem"
    return {name: new for name, new in wanted.items() if name != new}


def clashes(turn):
    """Names of one file that differ and would fall together. In the proof of a function the prover's own names stand too."""
    out = {}
    for path in files(".antt"):
        if path.endswith("/Proof.antt"):
            continue
        code = "\n".join(re.sub(r"--.*|Rattle\.\S+\.(Statement|Tie|Met|Lts)\b", "", line) for line in read(path).split("\n"))
        made = {}
        for token in set(re.findall(W, code)):
            made.setdefault(turn.get(token, token), set()).add(token)
        for new, old in made.items():
            if len(old) > 1:
                out.setdefault((new, tuple(sorted(old))), []).append(os.path.relpath(path, ROOT))
    return sorted(out.items())


def turned(text, turn):
    return re.sub(W, lambda it: turn.get(it[0], it[0]), text)


def in_source(text, turn):
    """Respells what is ghost, and what stands between backticks."""
    out, clause = [], False
    for line in text.split("\n"):
        clause = bool(re.match(r" *(ghost use|requires|ensures|ghost) ?", line)) or (clause and line != "{" and not re.match(r" *\{$", line))
        code, mark, comment = line.partition("//") if not clause else (line, "", "")
        code = turned(code, turn) if clause else code
        out.append(code + mark + quoted(comment, turn))
    return "\n".join(out)


def quoted(text, turn):
    return re.sub(r"`([^`\n]+)`", lambda it: "`" + turned(it[1], turn) + "`", text)


def in_lemmas(text, turn):
    out = []
    for line in text.split("\n"):
        code, mark, comment = re.match(r"(.*?)((?:^|(?<=\s))--\s|(?:^|(?<=\s))--$|$)(.*)", line).groups()
        out.append(turned(code, turn) + mark + quoted(comment, turn))
    return "\n".join(out)


def main(words):
    turn = table()
    if words == ["--list"]:
        for name, new in sorted(turn.items()):
            print(name, new)
        return 0
    same = clashes(turn)
    if same:
        print("names that fall together:", *(f"{new} <- {', '.join(old)}: {' '.join(where)}" for (new, old), where in same), sep="\n  ")
        return 1
    for path in [*files(".antt", ".rt", ".edit"), *words]:
        old = read(path)
        new = in_lemmas(old, turn) if path.endswith(".antt") else in_source(old, turn) if path.endswith(".rt") else turned(old, turn) if path.endswith(".edit") else quoted(old, turn)
        if new != old:
            with open(path, "w", encoding="utf-8", newline="") as it:
                it.write(new)
    return 0


if __name__ == "__main__":
    sys.exit(main(sys.argv[1:]))
