#!/usr/bin/env python3
"""How long the check takes: writes docs/CHECK-TIMES.md, each figure with that of the last committed page beside it.

    python3 tools/check_times.py                        runs the gate, on a fresh clone of the last commit
    python3 tools/check_times.py --no-gate [CRATE ..]   runs `rt ci` alone (or for those named, and what they rest on), and only
                                                        prints the table

One run of the gate gives all figures: it is run under a kit that is the installed one, but for a prover that notes the processor
time (user and system) of each call; what other runs have kept is not used. A call belongs to the proof of one crate, or tries one
must-fail edit. The figures are of use only where nothing else runs on the machine.
"""
import os
import re
import shutil
import subprocess
import sys
import tempfile
import time

ROOT = os.path.dirname(os.path.dirname(os.path.abspath(__file__)))
PAGE = "docs/CHECK-TIMES.md"
PROVER = """#!/usr/bin/env python3
import os, sys
_, status, used = os.wait4(os.spawnv(os.P_NOWAIT, {rattle!r}, [{rattle!r}] + sys.argv[1:]), 0)
with open({notes!r}, "a", encoding="utf-8") as notes:
    notes.write("%.2f\\t%s\\n" % (used.ru_utime + used.ru_stime, "\\t".join(sys.argv[1:])))
sys.exit(os.WEXITSTATUS(status) if os.WIFEXITED(status) else 2)
"""
COLUMNS = ("processor seconds", "edits", "their processor seconds")
GATE = ("processor seconds", "seconds on the clock", "last line")


def timed_kit(room, notes):
    """A kit whose prover notes what each call takes; all else in it leads to the installed one, but for the commands, which look for
    their kit where they lie."""
    told = subprocess.run(["rt", "doc"], capture_output=True, text=True, check=True).stdout.strip()
    real, kit = os.path.dirname(told), os.path.join(room, "kit")
    os.makedirs(os.path.join(kit, "bin"))
    for name in os.listdir(real):
        if name != "bin":
            os.symlink(os.path.join(real, name), os.path.join(kit, name))
    for name in os.listdir(os.path.join(real, "bin")):
        if name.startswith("rt"):
            shutil.copy2(os.path.join(real, "bin", name), os.path.join(kit, "bin", name))
        elif name != "rattle":
            os.symlink(os.path.join(real, "bin", name), os.path.join(kit, "bin", name))
    prover = os.path.join(kit, "bin", "rattle")
    with open(prover, "w", encoding="utf-8") as file:
        file.write(PROVER.format(rattle=os.path.join(real, "bin", "rattle"), notes=notes))
    os.chmod(prover, 0o755)
    return kit


def run(command, clone, kit):
    """Runs a command in the clone; gives its processor seconds, its seconds on the clock, and its last line."""
    began, last = time.time(), ""
    own = {**os.environ, "PATH": os.path.join(kit, "bin") + os.pathsep + os.environ["PATH"]}
    with subprocess.Popen(command, cwd=clone, env=own, stdout=subprocess.PIPE, text=True, errors="replace") as running:
        for line in running.stdout:
            sys.stderr.write(line)
            last = line.strip()
        _, status, used = os.wait4(running.pid, 0)
        running.returncode = os.waitstatus_to_exitcode(status)
    if running.returncode:
        sys.exit(f"{' '.join(command)} failed")
    return round(used.ru_utime + used.ru_stime), round(time.time() - began), last


def measured(notes, crates):
    """For each crate: the seconds that it took, how many edits were tried, and their seconds."""
    figures = {crate: [0.0, 0, 0.0] for crate in crates}
    with open(notes, encoding="utf-8") as file:
        for line in file:
            seconds, verb, *words = line.rstrip("\n").split("\t")
            if verb not in ("check", "build") or "--crate-name" not in words:
                continue
            figure = figures[words[words.index("--crate-name") + 1]]
            if any(re.search(r"/rt-edits-[^/]*/\d+$", word) for word in words):
                figure[1] += 1
                figure[2] += float(seconds)
            else:
                figure[0] += float(seconds)
    return {crate: [round(figure[0]), figure[1], round(figure[2])] for crate, figure in figures.items() if figure[0]}


def rows_of(text):
    """The tables of a page: for each row its first cell, and the others by the names in the table's head."""
    head, rows = None, []
    for line in text.split("\n"):
        cells = [cell.strip() for cell in line.strip("| ").split(" | ")] if line.startswith("|") else None
        if not cells:
            head = None
        elif head is None:
            head = cells
        elif not line.startswith("|--"):
            rows.append((head[0], cells[0], dict(zip(head[1:], cells[1:]))))
    return rows


def before():
    """The last committed page: the figures of the crates and of the gate, and the machine."""
    shown = subprocess.run(["git", "show", f"HEAD:{PAGE}"], cwd=ROOT, capture_output=True, text=True, check=False)
    crates, gate = {}, {}
    for kind, name, cells in rows_of(shown.stdout):
        if kind == "crate" and cells.get(COLUMNS[0]) != "-":
            crates[name] = [cells.get(column, "") for column in COLUMNS]
        elif kind == "the whole gate":
            gate[name] = cells.get("now", "")
    # the page as it was before it had a table of the gate
    clock = re.search(r"included: (\d+) minutes (\d+) seconds, (`[^`]*`)", shown.stdout)
    used = re.search(r"used (\d+) minutes of processor time", shown.stdout)
    if clock and used:
        gate = dict(zip(GATE, (60 * int(used[1]), 60 * int(clock[1]) + int(clock[2]), clock[3])))
    on = re.search(r"\bon ([^,;\n]* \(family \d+, model \d+\))", shown.stdout)
    return crates, gate, on[1] if on else "a machine that it does not name"


def machine():
    with open("/proc/cpuinfo", encoding="utf-8") as file:
        told = dict(re.findall(r"^(model name|cpu family|model)\s*: (.*)$", file.read(), re.M))
    return f"{told.get('model name', os.uname().machine)} (family {told.get('cpu family')}, model {told.get('model')})"


def row(name, now, then):
    """A row of a table: each figure with the one before it; `-` for one that there is not."""
    pairs = [str(figure) or "-" for pair in zip(now, then) for figure in pair]
    return f"| {name} | " + " | ".join(pairs) + " |"


def crate_table(now, then, columns):
    none = [""] * len(COLUMNS)
    total = [sum(figures) for figures in zip(*now.values())]
    lines = ["| crate | " + " | ".join(f"{column} | before" for column in columns) + " |", "|---" * (1 + 2 * len(columns)) + "|"]
    gone = {crate: none for crate in then if crate not in now and crate != "all"}
    for crate, figures in {**now, **gone, "all": total}.items():
        lines.append(row(crate, figures[: len(columns)], then.get(crate, none)))
    return lines


def main():
    words = sys.argv[1:]
    gate, named = "--no-gate" not in words, [word for word in words if word != "--no-gate"]
    if any(word.startswith("-") for word in named) or (gate and named):
        sys.exit(__doc__)
    with open(os.path.join(ROOT, "crates.txt"), encoding="utf-8") as file:
        crates = [line.split(":")[0].split()[0] for line in file if ":" in line]
    with tempfile.TemporaryDirectory() as room:
        os.chmod(room, 0o755)
        clone, notes = os.path.join(room, "clone"), os.path.join(room, "notes")
        kit = timed_kit(room, notes)
        subprocess.run(["git", "clone", "-q", ROOT, clone], check=True)
        took = run(["bash", ".ci/run"] if gate else ["rt", "ci", *named], clone, kit)
        now = measured(notes, crates)
    then, gate_then, on = before()
    if not gate:
        same = {crate: figures for crate, figures in then.items() if crate in now or (crate == "all" and not named)}
        print("\n".join(crate_table(now, same, COLUMNS[:1])))
        return
    page = [
        "# How long the check takes",
        "",
        "Processor seconds (user and system) to prove each crate from nothing; its must-fail edits in the gate, how many and their",
        "processor seconds (each begins with what its crate's own check left); and the whole of `bash .ci/run` on a fresh clone, tests of",
        f"the host side included. Measured by `tools/check_times.py` on {machine()}",
        f"with {os.cpu_count()} cores. Beside each figure stands that of the page before this one, `-` where there is none; it was",
        f"measured on {on}. Later changes are measured against the processor seconds,",
        "on such a machine that does nothing else.",
        "",
        *crate_table(now, then, COLUMNS),
        "",
        "| the whole gate | now | before |",
        "|---|---|---|",
        *(row(name, [figure], [gate_then.get(name, "")]) for name, figure in zip(GATE, (*took[:2], f"`{took[2]}`"))),
    ]
    with open(os.path.join(ROOT, PAGE), "w", encoding="utf-8") as file:
        file.write("\n".join(page) + "\n")


if __name__ == "__main__":
    main()
