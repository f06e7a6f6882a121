#!/usr/bin/env python3
"""What the gate takes, by crate, and which parts of a crate's proof are dear. Run by hand, at the top of the repository.

    python3 tools/gate_time.py [--to FILE] rt ci  runs the command, and prints for each crate the processor-minutes of its proof, of its tests' proof
                                                  and of its wrong bodies, as the table of docs/GATE.md, the longest chain of proofs, and the whole
                                                  time by the clock of all processes; with a FILE the table is there too, made anew each minute
    python3 tools/gate_time.py --hot [CRATE ..]   after `rt check --jobs 1`: the generated modules of these crates (or of all) that took
                                                  more than 5 seconds; each names a function to cut

The first looks at the running provers once a second, so a figure may lack the last second of each.
"""
import glob
import os
import re
import resource
import signal
import subprocess
import sys
import time

TICKS = os.sysconf("SC_CLK_TCK")
PARTS = ("proof", "tests", "wrong bodies")


def words_of(pid):
    try:
        with open(f"/proc/{pid}/cmdline", "rb") as file:
            return file.read().decode(errors="replace").split("\0")
    except OSError:
        return []


def place_of(words):
    """The crate and the part of the gate that a prover works for, or None."""
    if "--crate-name" not in words or not words[0].endswith("/rattle"):
        return None
    crate = words[words.index("--crate-name") + 1]
    if "--crate-checked" in words:
        return crate, "proof"
    if "--test" in words:
        return crate, "tests"
    if "--incremental" in words or (words[1] == "check" and "-o" not in words):
        return crate, "wrong bodies"
    return crate, "proof"


def processes():
    """Each process with its parent, and its processor time with that of its children that have ended, in seconds."""
    found = {}
    for name in os.listdir("/proc"):
        if name.isdigit():
            try:
                with open(f"/proc/{name}/stat") as file:
                    fields = file.read().rsplit(")", 1)[1].split()
            except (OSError, IndexError):
                continue
            found[int(name)] = int(fields[1]), sum(int(it) for it in fields[11:15]) / TICKS
    return found


def look(own, seen):
    """Takes down what each prover below this process has taken, with all that it has begun."""
    alive, tops = processes(), {}

    def top_of(pid):
        """The uppermost prover at or above a process and below ours, or None where it is not below ours."""
        if pid == own:
            return 0
        if pid not in tops:
            above = top_of(alive[pid][0]) if pid in alive else None
            if above == 0 and place_of(words_of(pid)):
                above = pid
            tops[pid] = above
        return tops[pid]

    sums = {}
    for pid, (_, spent) in alive.items():
        top = top_of(pid)
        if top:
            sums[top] = sums.get(top, 0) + spent
    for top, spent in sums.items():
        place = place_of(words_of(top))
        if place:
            seen[top, place] = max(spent, seen.get((top, place), 0))


def by_crate(seen):
    table = {}
    for (_, (crate, part)), spent in seen.items():
        row = table.setdefault(crate, dict.fromkeys(PARTS, 0))
        row[part] += spent / 60
    return table


def longest_chain(table):
    """The chain of crates, each over the one before, whose proofs take longest one after another, with the last one's tests or wrong bodies."""
    below = {}
    with open("crates.txt") as file:
        for line in file:
            name, colon, rest = line.split("#")[0].partition(":")
            if colon:
                below[name.split()[0]] = rest.split()
    chains = {}

    def chain(name):
        if name not in chains:
            under = max((chain(it) for it in below[name] if it in below), default=(0, []))
            chains[name] = under[0] + table.get(name, {}).get("proof", 0), [*under[1], name]
        return chains[name]

    ends = [(chain(it)[0] + sum(table.get(it, {}).get(part, 0) for part in PARTS[1:]), chain(it)[1]) for it in below]
    return max(ends, default=(0, []))


def text_of(seen, began):
    table = by_crate(seen)
    lines = ["| Crate | Proof | Tests | Wrong bodies | Sum |", "|---|---|---|---|---|"]
    for crate in sorted(table):
        row = [table[crate][it] for it in PARTS]
        lines.append(f"| {crate} | " + " | ".join(f"{it:.1f}" if it else "-" for it in row) + f" | {sum(row):.1f} |")
    sums = [sum(row[it] for row in table.values()) for it in PARTS]
    lines.append("| all | " + " | ".join(f"{it:.1f}" for it in sums) + f" | {sum(sums):.1f} |")
    minutes, chain = longest_chain(table)
    whole = resource.getrusage(resource.RUSAGE_CHILDREN)
    lines += ["", f"longest chain: {minutes:.1f} minutes, {' '.join(chain)}"]
    lines += [f"whole: {(whole.ru_utime + whole.ru_stime) / 60:.1f} processor-minutes, {(time.time() - began) / 60:.1f} minutes by the clock"]
    return "\n".join(lines) + "\n"


def put(file, text):
    if file:
        with open(file, "w") as it:
            it.write(text)


def watch(command, to):
    began, seen, looks = time.time(), {}, 0
    running = subprocess.Popen(command)
    signal.signal(signal.SIGINT, signal.SIG_IGN)
    while running.poll() is None:
        look(running.pid, seen)
        looks += 1
        if looks % 60 == 0:
            put(to, text_of(seen, began))
        time.sleep(1)
    text = text_of(seen, began)
    put(to, text)
    print(text, end="", flush=True)
    return running.returncode


def hot(crates):
    """A check at one job saves each module as it is done, so the times of its files tell what each took."""
    for folder in sorted(glob.glob("crates/*/out/incremental")):
        crate = folder.split("/")[1]
        if crates and crate not in crates:
            continue
        found = []
        for at, _, names in os.walk(folder):
            found += [(os.stat(f"{at}/{it}").st_mtime, it[:-6]) for it in names if it.endswith(".oantt")]
        found.sort()
        # (a longer gap lies between two checks)
        steps = [(later[0] - one[0], later[1]) for one, later in zip(found, found[1:]) if later[0] - one[0] < 900]
        print(f"{crate}: {len(steps)} modules, {sum(it for it, _ in steps):.0f} s")
        for spent, module in sorted(steps, reverse=True):
            if spent > 5 and re.search(r"\.(Lts|Kinds)(\.decls)?$", module):
                print(f"  {spent:6.1f} s  {module}")
    return 0


def main(words):
    if words[:1] == ["--hot"]:
        return hot(words[1:])
    to = words.pop(1) if words[:1] == ["--to"] and len(words) > 1 else None
    words = words[1:] if to else words
    if not words:
        print(__doc__)
        return 2
    return watch(words, to)


sys.exit(main(sys.argv[1:]))
