#!/usr/bin/env python3
"""Runs the commands of examples/README.md with the built programs and compares what they write with the stored texts.

The texts that `cnf` and `lrat` write for the lists of reports, and `reach-cnf` and `reach-lrat` for lengths of answers, are checked by tools/lrat_check.py. Then each command of the documents is run whose files are shipped, on a copy of the examples: it ends with a
result, and not with a refusal. So does the last command of a section with the options that stand behind it in the text, as
`--only count`.

At the top of the repository: python3 tools/examples.py [BACKSPACE INSPECT]. The programs are those that `rt run` built, unless
others are given. Prints a line for each command and ends with 1 where a text or a status is another one.
"""
import os
import re
import shlex
import shutil
import subprocess
import sys
import tempfile

sys.dont_write_bytecode = True
import lrat_check

# program, words, exit status, the file that standard output must equal (or None)
ROWS = [
    ("b", "run shift/netlist.v shift/signature.txt shift/stimulus.txt shift/dump.txt", 0, "shift/report.txt"),
    ("b", "audit shift/netlist.v shift/signature.txt shift/stimulus.txt shift/dump.txt shift/report.txt", 0, None),
    ("b", "dump shift/netlist.v shift/signature.txt shift/stimulus.txt 1 3", 0, "shift/dump.txt"),
    ("b", "wave shift/netlist.v shift/signature.txt shift/stimulus.txt shift/dump.txt shift/report.txt", 0, "shift/waveform.vcd"),
    ("b", "run older/netlist.v older/signature.txt older/stimulus.txt older/dump.txt", 0, None),
    ("b", "audit older/netlist.v older/signature.txt older/stimulus.txt older/dump.txt older/report.txt", 0, None),
    ("b", "dump older/netlist.v older/signature.txt older/stimulus.txt 1 3", 0, "older/dump.txt"),
    ("b", "run toggle/netlist.v toggle/signature.txt toggle/stimulus.txt toggle/dump.txt", 0, None),
    ("b", "audit toggle/netlist.v toggle/signature.txt toggle/stimulus.txt toggle/dump.txt toggle/report.txt", 0, None),
    ("b", "reach counter/netlist.v 0101 12", 0, "counter/reached.txt"),
    ("b", "reach counter/netlist.v 0101 4", 15, "counter/unreached.txt"),
    ("b", "reach counter/netlist.v 0101 12 --conflicts 1", 5, "counter/unknown.txt"),
    ("b", "reach shift/netlist.v 11 5", 0, "shift/reach.txt"),
    ("b", "run counter/netlist.v runs/signature.txt runs/stimulus.txt runs/near_dump.txt", 0, "runs/near.txt"),
    ("b", "run counter/netlist.v runs/signature.txt runs/stimulus.txt runs/far_dump.txt", 3, "runs/far.txt"),
    ("b", "run s27/netlist.v s27/signature.txt s27/stimulus.txt s27/dump.txt", 0, "s27/report.txt"),
    ("b", "audit s27/netlist.v s27/signature.txt s27/stimulus.txt s27/dump.txt s27/report.txt", 0, None),
    ("b", "demo 7", 0, "demo/line.txt"),
    ("b", "run yosys/netlist.v yosys/signature.txt yosys/stimulus.txt yosys/dump.txt --steps 8", 0, "yosys/report.txt"),
    ("b", "audit yosys/netlist.v yosys/signature.txt yosys/stimulus.txt yosys/dump.txt yosys/report.txt", 0, None),
    ("i", "stimulus yosys/netlist.v yosys/sim.vcd --clock ck --scope tb.dut", 0, "yosys/stimulus.txt"),
    ("i", "stimulus yosys/netlist.v yosys/sim.vcd yosys/sim.vcd --clock ck --scope tb.dut", 0, None),
    ("i", "dump yosys/netlist.v yosys/sim.vcd --cycle 88 --scope tb.dut --signature yosys/signature.txt", 0, "yosys/dump.txt"),
    ("i", "trace yosys/netlist.v yosys/report.txt", 0, None),
    ("i", "trace yosys/netlist.v yosys/report.txt --only count[1:0] first[7:4]", 0, None),
    ("i", "wave yosys/netlist.v yosys/report.txt", 0, None),
    ("i", "page yosys/netlist.v yosys/report.txt", 0, None),
    ("b", "run hierarchy/netlist.v hierarchy/signature.txt hierarchy/stimulus.txt hierarchy/dump.txt", 0, "hierarchy/report.txt"),
    ("b", "audit hierarchy/netlist.v hierarchy/signature.txt hierarchy/stimulus.txt hierarchy/dump.txt hierarchy/report.txt", 0, None),
    ("i", "flops hierarchy/netlist.v", 0, None),
    ("i", "trace counter/netlist.v counter/reached.txt", 0, None),
    ("i", "wave counter/netlist.v counter/reached.txt", 0, None),
    ("i", "page counter/netlist.v counter/reached.txt", 0, None),
    ("i", "why counter/netlist.v counter/reached.txt q", 0, None),
]

# netlist, signature, report, step: each list is finished
LISTS = [
    ("shift/netlist.v", "shift/signature.txt", "shift/report.txt", 1),
    ("older/netlist.v", "older/signature.txt", "older/report.txt", 1),
    ("toggle/netlist.v", "toggle/signature.txt", "toggle/report.txt", 1),
    ("s27/netlist.v", "s27/signature.txt", "s27/report.txt", 1),
    ("yosys/netlist.v", "yosys/signature.txt", "yosys/report.txt", 3),
    ("hierarchy/netlist.v", "hierarchy/signature.txt", "hierarchy/report.txt", 1),
]

# netlist, state, answer, length: it is refuted
LENGTHS = [
    ("shift/netlist.v", "11", "shift/reach.txt", 1),
    ("counter/netlist.v", "0101", "counter/reached.txt", 3),
    ("counter/netlist.v", "0101", "counter/unreached.txt", 4),
]


def checked(inspect, words, commands=("cnf", "lrat")):
    """What the strict checker says of the texts of a list, or of all."""
    texts = []
    for command in commands:
        done = subprocess.run([inspect, command, *words.split()], cwd="examples", stdout=subprocess.PIPE, stderr=subprocess.PIPE)
        if done.returncode:
            return f"status {done.returncode} of {command}, not 0"
        texts.append(done.stdout.decode("ascii").splitlines())
    try:
        return f"refuted in {lrat_check.refuted(*map(iter, texts))} clauses"
    except lrat_check.Fault as fault:
        return f"refused: {fault}"


# netlist, stimulus, report, module, its files in Verilog: where iverilog is there, the bench ends in the trace's last state
BENCHES = [
    ("yosys/netlist.v", "yosys/stimulus.txt", "yosys/report.txt", "rx", ["yosys/rx.v"]),
    ("hierarchy/netlist.v", "hierarchy/stimulus.txt", "hierarchy/report.txt", "pair", ["hierarchy/pair.v"]),
]


def benched(inspect, netlist, stimulus, report, top, sources):
    """What the RTL does under the bench of a report: the simulation's last state, beside the last one of the trace."""
    here = os.path.abspath("examples")
    with tempfile.TemporaryDirectory() as folder:
        done = subprocess.run([inspect, "bench", netlist, stimulus, report, top], cwd=here, stdout=subprocess.PIPE, stderr=subprocess.PIPE)
        if done.returncode:
            return f"status {done.returncode}"
        open(os.path.join(folder, "bench.v"), "wb").write(done.stdout)
        files = [os.path.join(here, source) for source in sources]
        subprocess.run(["iverilog", "-o", "bench", "-s", "bench", "bench.v", *files], cwd=folder, check=True)
        said = subprocess.run(["vvp", "bench"], cwd=folder, stdout=subprocess.PIPE, check=True).stdout.decode().splitlines()[-1]
        dump = [inspect, "dump", netlist, os.path.join(folder, "bench.vcd"), "--cycle", said.split()[-1], "--scope", "bench.dut"]
        ended = subprocess.run(dump, cwd=here, stdout=subprocess.PIPE, stderr=subprocess.PIPE).stdout.decode()
    states = [line for line in open(f"examples/{report}", encoding="ascii").read().split("\nlog ")[0].splitlines() if line.startswith("state ")]
    return "ends in the dumped state" if ended == states[-1] + "\n" else f"ends in {ended!r}"


# a document, and the folder of the examples in which its commands stand
DOCUMENTS = {"README.md": "", "examples/README.md": "", "docs/HOW_TO_READ.md": "", "docs/ONE_CRASH.md": "shift", "docs/OWN_CHIP.md": "yosys", "docs/MISTAKES.md": "shift"}
PROGRAMS = {"backspace": "b", "$backspace": "b", "backspace_inspect": "i", "$inspect": "i"}
RESULTS = {0, 3, 4, 5, 15}
FLAGS = {"--all", "--csv"}


def pieces(text):
    """The lines of code and the pieces in backticks, in order, each with whether it is a line; None begins a section."""
    code = False
    for line in text.splitlines():
        if line.startswith("```"):
            code = not code
        elif code:
            yield line.removeprefix("$ "), True
        elif line.startswith("#"):
            yield None, False
        else:
            for piece in re.findall(r"`([^`]+)`", line):
                yield piece, False


def called(piece):
    """The words of a command of the programs, and the file that its output goes to, or None."""
    command, _, target = piece.split("|")[0].partition(">")
    try:
        words = shlex.split(command)
    except ValueError:
        return None
    if len(words) < 3 or words[0] not in PROGRAMS or any(re.fullmatch(r"[A-Z_.\[\]]+|.*[{}].*", word) for word in words[1:]):
        return None
    return words, target.strip()


def commands(text):
    """The commands of a document, and the last one of a section with further options."""
    last = None
    for piece, is_line in pieces(text):
        if piece is None:
            last = None
        elif call := called(piece):
            yield call
            last = call[0] if is_line else last
        elif last and piece.startswith("--") and (piece in FLAGS or " " in piece) and piece.split()[0] not in last:
            yield last + shlex.split(piece), ""


def run_documents(of):
    """Runs the commands of the documents whose files are there, and answers how many there were and how many are wrong."""
    count = wrong = 0
    with tempfile.TemporaryDirectory() as folder:
        shutil.copytree("examples", folder, dirs_exist_ok=True)
        for document, place in DOCUMENTS.items():
            for words, target in commands(open(document, encoding="utf-8").read()):
                place_of = os.path.join(folder, place)
                files = [word for word in words[1:] if re.search(r"\.(v|vcd|txt)$", word)]
                if not all(os.path.exists(os.path.join(place_of, file)) for file in files):
                    continue
                done = subprocess.run([of[PROGRAMS[words[0]]], *words[1:]], cwd=place_of, stdout=subprocess.PIPE, stderr=subprocess.PIPE)
                if target:
                    open(os.path.join(place_of, target), "wb").write(done.stdout)
                right = done.returncode in RESULTS and not done.stdout.startswith((b"refused", b"rejected"))
                count += 1
                wrong += not right
                said = "a result" if right else f"status {done.returncode}: {done.stdout[:60].decode('ascii', 'replace').splitlines()}"
                print(f"{document}: {' '.join(words[1:])}: {said}")
    return count, wrong


def main():
    programs = sys.argv[1:] or ["crates/backspace/out/backspace", "crates/backspace_inspect/out/backspace_inspect"]
    of = {"b": os.path.abspath(programs[0]), "i": os.path.abspath(programs[1])}
    wrong = 0
    for program, words, status, stored in ROWS:
        done = subprocess.run([of[program], *words.split()], cwd="examples", stdout=subprocess.PIPE, stderr=subprocess.PIPE)
        said = "as stored" if stored else "not stored"
        if done.returncode != status:
            said = f"status {done.returncode}, not {status}"
        elif stored and done.stdout != open(f"examples/{stored}", "rb").read():
            said = f"not {stored}"
        wrong += said not in ("as stored", "not stored")
        print(f"{os.path.basename(of[program])} {words}: {said}")
    refuted = [f"{' '.join(files)}{asked}" for *files, step in LISTS for asked in (f" --step {step}", "")]
    for words in refuted:
        said = checked(of["i"], words)
        wrong += not said.startswith("refuted")
        print(f"{os.path.basename(of['i'])} cnf, lrat {words}: {said}")
    lengths = [f"{' '.join(given)}{asked}" for *given, length in LENGTHS for asked in (f" --length {length}", "")]
    for words in lengths:
        said = checked(of["i"], words, ("reach-cnf", "reach-lrat"))
        wrong += not said.startswith("refuted")
        print(f"{os.path.basename(of['i'])} reach-cnf, reach-lrat {words}: {said}")
    benches = BENCHES if shutil.which("iverilog") else []
    for bench in benches:
        said = benched(of["i"], *bench)
        wrong += said != "ends in the dumped state"
        print(f"{os.path.basename(of['i'])} bench {' '.join(bench[:4])}: {said}")
    count, more = run_documents(of)
    wrong += more
    total = len(ROWS) + len(refuted) + len(lengths) + len(benches) + count
    print(f"{total - wrong} of {total} as they should be")
    sys.exit(1 if wrong else 0)


main()
