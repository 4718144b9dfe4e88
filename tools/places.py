#!/usr/bin/env python3
"""Counts, in the sources at a commit (or in the checkout, if none is named), the places where an older form could give way to a newer
one: `tools/places.py [COMMIT] [--list]`. A number is what the pattern finds; which of these are such places, docs/DESIGN-PASS.md says."""
import collections
import re
import subprocess
import sys

names = [a for a in sys.argv[1:] if not a.startswith("--")]
commit = names[0] if names else None
listing = "--list" in sys.argv


def read(pattern):
    """The files that match, by path."""
    ask = ["git", "ls-tree", "-r", "--name-only", commit] if commit else ["git", "ls-files"]
    paths = subprocess.run(ask, capture_output=True, text=True, check=True).stdout.split("\n")
    files = {}
    for path in paths:
        if re.fullmatch(pattern, path):
            show = ["git", "show", f"{commit}:{path}"] if commit else ["cat", path]
            files[path] = subprocess.run(show, capture_output=True, text=True).stdout
    return files


sources = read(r"crates/\w+/src/.*\.rt")
proofs = read(r"crates/\w+/proofs/.*\.antt")


def tell(point, what, found):
    print(f"{point}  {len(found):4}  {what}")
    if listing:
        for place in found:
            print(f"         {place}")


def functions():
    """Path, name, parameters and body of each function."""
    for path, text in sources.items():
        for m in re.finditer(r"^( *)(?:pub )?(?:extern \"C\" )?fn (\w+)(?:<[^{]*?>)?\((.*?)\)(?: ->|\n| \{).*?^\1\}", text, re.S | re.M):
            yield path, m[2], re.findall(r"(\w+): ", m[3]), m[0]


def enums():
    for path, text in sources.items():
        for m in re.finditer(r"^(?:pub )?enum (\w+)[^{]*\{\n(.*?)^\}", text, re.S | re.M):
            variants = re.findall(r"^    (\w+)(\(|\s*\{|,)", m[2], re.M)
            yield path, m[1], variants


def either(variants):
    """Two variants of which one at least holds a value, or a variant that holds a refusal: the shape of Option and Result."""
    holds = [v for v, mark in variants if mark != ","]
    return len(variants) == 2 and holds or any(v == "Refused" for v in holds)


tell(1, "enums of the shape of Option or Result", [f"{p}: {n}" for p, n, v in enums() if either(v)])
tell(1, "answers that are passed on by hand, where `?` would", [f"{p}: {m[0]}" for p, t in sources.items() for m in
    re.finditer(r"(\w+)::(?:Refused|Faulty|Unsound|Fault)\((\w+)\) => (?:return )?\w+::\w+\(|\bErr\(\w+\) => (?:return )?(?:Err|(?:\w+::)?refusal_of)\(|let (?:Check|Keeping|Verdict|Stood|Agreed|Compared|Onward|Ok\(\(\)\)|Some)\S* = \w+ else", t)])
tell(1, "fields that hold a number for a kind or a refusal", [f"{p}: {m[0].strip()}" for p, t in sources.items() for m in re.finditer(r"^    pub (?:refusal|kind|code): u\d+", t, re.M)])

rooms = [f"{p}: {n}" for p, n, a, b in functions() if re.search(r"\{\s*\[0u\d+; [\w:]+\]\s*\}", b[b.find("\n{"):])]
tell(2, "functions that make an array and nothing else", rooms)
by_name = collections.defaultdict(list)
for p, n, a, b in functions():
    by_name[n].append((p, a, b))
shape = lambda b: re.sub(r"\b(?:u8|u16|u32|usize|wire::|crate::)|\s+", "", re.sub(r"^.*?\n\{\n", "", b, flags=re.S))
twins = []
for n, places in by_name.items():
    crates = {p.split("/")[1] for p, _, _ in places}
    if len(crates) > 1 and len({tuple(a) for _, a, _ in places}) == 1:
        twins.append(f"{n}: {', '.join(sorted(crates))}")
tell(2, "functions of one name and the same parameters in two crates", twins)
ladder = [f"{p}: {n}" for p, n, a, b in functions() if len(re.findall(r"let mut \w+ = (?:\w+::)*\w+_(?:room|places|heads|form|lacks)\(\)|::<", b)) > 1]
tell(2, "functions that do one thing in rooms of several sizes", ladder)

tell(3, "while loops", [f"{p}: {m[0].strip()}" for p, t in sources.items() for m in re.finditer(r"^\s+(?:'\w+: )?while .*", t, re.M)])
tell(3, "loops over the places of a list", [f"{p}: {m[0].strip()}" for p, t in sources.items() for m in
    re.finditer(r"^\s+(?:'\w+: )?for \w+ in [^{]*(?:\.len\(\)|count\(\w+\)|MARKS|EIGHT|STRIDE) \{", t, re.M)])

tell(4, "functions that only compare, convert or choose", [f"{p}: {n}" for p, n, a, b in functions() if re.fullmatch(
    r"(?:wide|widen|same|shorter|shortest|longer|symbol_at|mark_begin|more|is_fine|alike|agrees|entry|at|byte_at|last|half_at)", n)])
tell(4, "conversions of a number by `as`", [f"{p}: {m[0]}" for p, t in sources.items() for m in re.finditer(r"\bas (?:u8|u16|u32|u64|usize|i32)\b", t)])
tell(4, "types that are no more than Clone and Copy", [f"{p}: {m[1]}" for p, t in sources.items() for m in re.finditer(r"#\[derive\(Clone, Copy\)\]\npub (?:enum|struct) (\w+)", t)])

GROUPS = [("row", "table", "classes"), ("arities", "row", "table", "standing"), ("corrected", "corrected_table", "corrected_classes"),
    ("told", "part", "marks", "lengths"), ("out", "at"), ("heads", "links"), ("list", "heads"), ("places", "many"), ("numbers", "lengths", "rows"),
    ("w", "t", "c"), ("a", "e", "p"), ("arities", "bars", "lacks")]
for group in GROUPS:
    tell(5, f"functions that take {', '.join(group)}", [f"{p}: {n}" for p, n, a, b in functions() if set(group) <= set(a)])

facts = collections.Counter()
for path, name, params, body in functions():
    for m in re.finditer(r"^ +requires (?:\w+ )?\{ (.*) \}$", body.split("\n{\n")[0], re.M):
        for fact in re.split(r" × (?![^()]*\))", m[1]):
            facts[path.split("/")[1], re.sub(r"\.(?:old|now|entry)\b", "", fact.strip())] += 1
tell(5, "facts that three functions of a crate or more ask for", [f"{crate}: {fact} ({n})" for (crate, fact), n in facts.items() if n > 2])

tell(6, "lent lists with a length or a place beside them", [f"{p}: {n}({', '.join(a)})" for p, n, a, b in functions()
    if re.search(r"&mut \[", b.split("\n{")[0]) and {"n", "at", "first", "before", "many"} & set(a)])
tell(7, "parameters that say which step to run", [f"{p}: {n}" for p, n, a, b in functions() if "asked" in a])
tell(8, "proofs written out over every goal", [p for p, t in proofs.items() if p.endswith("/Proof.antt")])
tell(8, "answers that are `search rules` and no more", [f"{p}: {m[0]}" for p, t in proofs.items() for m in re.finditer(r"^[\w-]+ c(?: κs)? = search rules$", t, re.M)])
tell(8, "lines of proofs", [f"{p}" for p, t in proofs.items() for _ in t.split("\n")] if not listing else [])
