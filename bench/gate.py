#!/usr/bin/env python3
"""Runs the gate and tells what each crate took, in processor minutes:

    bench/gate.py [LOG [COMMAND ..]]

The command is .ci/run. What it writes goes to LOG (gate.log), and the table of docs/PERFORMANCE.md to standard output. It
looks at the processes of the gate four times a second, so a table is right to a few seconds a crate.
"""
import os
import subprocess
import sys
import time

TICKS = os.sysconf("SC_CLK_TCK") * 60
KINDS = ("proof", "edits", "tests", "other")


def read(path):
    try:
        with open(path, "rb") as it:
            return it.read()
    except OSError:
        return b""


def processes():
    """Each process by its number: the number of its parent, when it began, and the ticks that it used."""
    found = {}
    for name in os.listdir("/proc"):
        if name.isdigit():
            fields = read(f"/proc/{name}/stat").rpartition(b") ")[2].split()
            if len(fields) > 20:
                found[int(name)] = int(fields[1]), fields[19], int(fields[11]) + int(fields[12])
    return found


def task_of(number):
    """The crate that a process checks, and for what, or None where it checks none."""
    words = read(f"/proc/{number}/cmdline").decode(errors="replace").split("\0")
    if "--crate-name" not in words:
        return None
    try:
        where = os.readlink(f"/proc/{number}/cwd")
    except OSError:
        return None
    kind = "edits" if "/rt-edit-" in where else "tests" if "--test" in words else "proof"
    return words[words.index("--crate-name") + 1], kind


def main(words):
    log = words[0] if words else "gate.log"
    command = words[1:] or [".ci/run"]
    used, tasks, start = {}, {}, time.time()
    with open(log, "wb") as out:
        gate = subprocess.Popen(command, stdout=out, stderr=out, stdin=subprocess.DEVNULL)
        while gate.poll() is None:
            found = processes()
            for number, (parent, begun, ticks) in found.items():
                line = [number]
                while line[-1] in found and line[-1] != gate.pid and len(line) < 50:
                    line.append(found[line[-1]][0])
                if line[-1] != gate.pid:
                    continue
                key = number, begun
                if key not in tasks or tasks[key] is None:
                    tasks[key] = next((it for it in map(task_of, line) if it), None)
                used[key] = max(ticks, used.get(key, 0))
            time.sleep(0.25)
    table = {}
    for key, ticks in used.items():
        crate, kind = tasks[key] or ("rest", "other")
        table.setdefault(crate, dict.fromkeys(KINDS, 0))[kind] += ticks
    print("| Crate | Proof | Wrong bodies | Tests | In all |\n|---|---|---|---|---|")
    for crate in sorted(table, key=lambda it: (it == "rest", -sum(table[it].values()))):
        row = table[crate]
        print(f"| {crate} | " + " | ".join(f"{row[it] / TICKS:.1f}" if row[it] else "" for it in KINDS[:3]) + f" | {sum(row.values()) / TICKS:.1f} |")
    whole = {kind: sum(row[kind] for row in table.values()) for kind in KINDS}
    print("| all | " + " | ".join(f"{whole[it] / TICKS:.1f}" for it in KINDS[:3]) + f" | {sum(whole.values()) / TICKS:.1f} |")
    print(f"{(time.time() - start) / 60:.1f} minutes by the clock; status {gate.returncode}", file=sys.stderr)
    return gate.returncode


if __name__ == "__main__":
    sys.exit(main(sys.argv[1:]))
