"""Adds up, for each crate, the processor seconds of the provers that a run of `rt ci` starts.

Words: the process number of that run. Ends with it, and prints a table, the most expensive crate first."""
import os
import re
import sys
import time

TICKS = os.sysconf("SC_CLK_TCK")
KINDS = ("proof", "tests", "edits")


def status_of(pid):
    """The name, the parent, and the ticks of a process and of its children that have ended."""
    with open(f"/proc/{pid}/stat") as it:
        head, _, rest = it.read().rpartition(")")
    fields = rest.split()
    return head.partition("(")[2], int(fields[1]), sum(int(n) for n in fields[11:15])


def work_of(pid):
    """The crate that a prover works on, and for what."""
    with open(f"/proc/{pid}/cmdline", "rb") as it:
        words = it.read().decode(errors="replace").split("\0")
    crate = words[words.index("--crate-name") + 1]
    if "rt-edit" in os.readlink(f"/proc/{pid}/cwd"):
        return crate, "edits"
    return crate, "tests" if "--test" in words else "proof"


def look(root, spent):
    """Notes what each prover below the process `root` has taken by now."""
    seen = {}
    for pid in filter(str.isdigit, os.listdir("/proc")):
        try:
            seen[int(pid)] = status_of(pid)
        except (OSError, ValueError, IndexError):
            continue
    for pid, (name, parent, ticks) in seen.items():
        # the topmost prover among it and those above it, if it stands below the root
        top, at = (pid if name == "rattle" else None), parent
        while at in seen and at != root:
            top, at = (at if seen[at][0] == "rattle" else top), seen[at][1]
        if top is None or at != root:
            continue
        try:
            work = work_of(top)
        except (OSError, ValueError, IndexError):
            continue
        # (a child that has ended is counted by its parent as well, so a child's own count stands only while it runs)
        spent.setdefault(top, [work, {}])[1][pid] = ticks
    for top, (_, ticks) in spent.items():
        for pid in [it for it in ticks if it not in seen and it != top and top in seen]:
            del ticks[pid]


def main(root):
    spent, begun = {}, time.time()
    while os.path.exists(f"/proc/{root}"):
        look(root, spent)
        time.sleep(0.3)
    table = {}
    for (crate, kind), ticks in spent.values():
        row = table.setdefault(crate, dict.fromkeys(KINDS, 0))
        row[kind] += sum(ticks.values()) / TICKS
    print("| crate | proof | tests | edits | all |")
    print("|---|---|---|---|---|")
    row = lambda name, it: print(f"| {name} | " + " | ".join(f"{it[k]:.0f}" for k in KINDS) + f" | {sum(it.values()):.0f} |")
    for crate in sorted(table, key=lambda it: -sum(table[it].values())):
        row(f"`{crate}`", table[crate])
    whole = {k: sum(it[k] for it in table.values()) for k in KINDS}
    row("whole", whole)
    print(f"\n{sum(whole.values()) / 60:.0f} processor minutes in {(time.time() - begun) / 60:.0f} minutes.")


main(int(sys.argv[1]))
