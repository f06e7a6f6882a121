#!/usr/bin/env python3
"""Whole runs of the two built programs: the last part of the gate, since no row of a test sees `main`, a real file or a great size.

At the top of the repository: python3 tools/programs.py [--small] [--only PART ..] [BACKSPACE INSPECT]. The programs are those that `rt ci` and
`rt run` leave in out/, unless others are given; where they stand nowhere, `rt run` builds them. Each run's whole output, exit code and
note are compared with texts from docs/FORMATS.md and docs/MISTAKES.md, written here by hand or made by tools/models.py; the log of a
report, which is the solver's choice, is judged by `audit`. The first difference is shown, and ends the script with 1.
"""
import os
import random
import re
import resource
import shutil
import stat
import subprocess
import sys
import tempfile
import threading
import time

HERE = os.path.dirname(os.path.abspath(__file__))
sys.dont_write_bytecode = True
sys.path.insert(0, HERE)
import lrat_check
import models

ROOT = os.path.dirname(HERE)
NOBODY = 65534
LIMIT = int(os.environ.get("PROGRAMS_SECONDS", "600"))
MIB = 1_048_576


class Different(Exception):
    pass


# ---- running


class Programs:
    """The programs in a folder of their own, with the files that they are given. Where this script runs as root, they run as nobody."""

    def __init__(self, paths, room):
        self.room, self.count, self.as_nobody = room, 0, {}
        os.chmod(room, 0o755)
        os.mkdir(f"{room}/bin")
        self.of = {}
        for name, path in zip(("backspace", "backspace_inspect"), paths):
            shutil.copyfile(path, f"{room}/bin/{name}")
            os.chmod(f"{room}/bin/{name}", 0o755)
            self.of[name] = f"{room}/bin/{name}"
        if os.geteuid() == 0:
            self.as_nobody = {"user": NOBODY, "group": NOBODY, "extra_groups": []}
            try:
                subprocess.run(["true"], **self.as_nobody, check=True)
            except (OSError, subprocess.SubprocessError):
                self.as_nobody = {}
                print("this is root and cannot become nobody: files without the right to read are not tried")

    def write(self, name, content, mode=0o644):
        path = f"{self.room}/{name}"
        os.makedirs(os.path.dirname(path), exist_ok=True)
        with open(path, "wb") as file:
            for piece in [content] if isinstance(content, (str, bytes, bytearray)) else content:
                file.write(piece.encode() if isinstance(piece, str) else piece)
        os.chmod(path, mode)
        return name

    def run(self, program, words, **how):
        """The exit code, standard output and standard error of a run."""
        given = {"stdin": subprocess.DEVNULL, "stdout": subprocess.PIPE, "stderr": subprocess.PIPE, **self.as_nobody, **how}
        try:
            done = subprocess.run([self.of[program], *words], cwd=self.room, timeout=LIMIT, **given)
        except subprocess.TimeoutExpired:
            raise Different(f"{program} {' '.join(os.fsdecode(word) for word in words[:12])} had not ended after {LIMIT} seconds") from None
        self.count += 1
        return done.returncode, done.stdout or b"", done.stderr or b""

    def tried(self, program, words, code, out, note="", **how):
        """Compares a run with the exit code, the output and the note that are wanted."""
        words = words.split() if isinstance(words, str) else words
        got = self.run(program, words, **how)
        title = " ".join([program, *(os.fsdecode(word) for word in words[:12])])
        same(f"{title}: standard output", out, got[1])
        same(f"{title}: note", note, got[2])
        same(f"{title}: exit code", str(code), str(got[0]))
        return got[1].decode(errors="replace")


def as_bytes(text):
    return text.encode() if isinstance(text, str) else bytes(text)


def cut(line, at):
    """A line around one of its places."""
    start = max(0, at - 60)
    said = line[start : start + 160].decode(errors="backslashreplace")
    return (".." if start else "") + said + (f".. ({len(line)} bytes)" if len(line) > start + 160 else "")


def same(title, wanted, got):
    """Shows the first difference of two texts, and ends there."""
    wanted, got = as_bytes(wanted), as_bytes(got)
    if wanted == got:
        return
    lines = wanted.split(b"\n"), got.split(b"\n")
    first = next((at for at, pair in enumerate(zip(*lines)) if pair[0] != pair[1]), min(map(len, lines)))
    ends = [line[first] if first < len(line) else None for line in lines]
    at = next((k for k, (a, b) in enumerate(zip(*(end or b"" for end in ends))) if a != b), 0)
    text = [f"--- {title}: wanted", "+++ what the program gave", f"@@ line {first + 1} @@"]
    text += [" " + cut(line, 0) for line in lines[0][max(0, first - 3) : first]]
    text += [mark + cut(end, at) for mark, end in zip("-+", ends) if end is not None]
    raise Different("\n".join(text))


# ---- notes


def said(*sentences):
    """A note of these sentences, a line each."""
    return "".join(f"note: {sentence}\n" for sentence in sentences)


def lacking(keys, width):
    """The note on an order of a scan chain that has no line for these flip-flops."""
    named = " ".join(f"`{key}`" for key in keys[:8]) + " .." * (len(keys) > 8)
    return said(f"the order has no line for {len(keys)} of {width} flip-flops: `-` stands for each of them", f"their keys: {named}")


def shown(line):
    return "".join(chr(byte) if 32 <= byte <= 126 else f"\\x{byte:02x}" for byte in as_bytes(line)[:160])


def at_place(path, text, at, sentence, label):
    """A note on a place of a file: the place, the line, and a caret with a few words behind it."""
    text = as_bytes(text)
    start, end = text.rfind(b"\n", 0, at) + 1, text.find(b"\n", at)
    line = text[start : end if end >= 0 else len(text)]
    head = f"{path}:{text.count(10, 0, at) + 1}:{at - start + 1}"
    return said(f"{head}: {sentence}") + f"{shown(line)}\n{' ' * len(shown(line[: at - start]))}^ {label}\n"


USAGES = {
    "run": "usage: backspace run NETLIST SIGNATURE STIMULUS DUMP [--steps L] [--candidates K] [--conflicts B]",
    "audit": "usage: backspace audit NETLIST SIGNATURE STIMULUS DUMP REPORT",
    "wave": "usage: backspace wave NETLIST SIGNATURE STIMULUS DUMP REPORT",
    "dump": "usage: backspace dump NETLIST SIGNATURE STIMULUS RUN CYCLE",
    "demo": "usage: backspace demo NUMBER",
    "reach": "usage: backspace reach NETLIST STATE CYCLES [--conflicts B]",
}
ALL_USAGES = (
    "usage: backspace run NETLIST SIGNATURE STIMULUS DUMP [options], audit NETLIST SIGNATURE STIMULUS DUMP REPORT, wave NETLIST SIGNATURE "
    "STIMULUS DUMP REPORT, dump NETLIST SIGNATURE STIMULUS RUN CYCLE, reach NETLIST STATE CYCLES [--conflicts B], or demo NUMBER"
)
WRITES = {
    "run": "the report of the way back from the dump, state by state",
    "audit": "`accepted`, or `rejected` and the first part of the report that fails",
    "wave": "a valid report's trace as a waveform, every net at every cycle",
    "dump": "the dump that a recorded run gives at that cycle",
    "reach": "a shortest execution from reset to the state, or that none has CYCLES cycles or fewer",
    "demo": "one line about a backtrace on a generated netlist; NUMBER is the seed",
}
HELP = "`backspace_inspect help` tells how the words of each command stand"
REJECTED = said(
    "the line names the first part of the report that fails (docs/FORMATS.md, Validity)",
    "is the report of these very files, in this order, and unchanged?",
)
NO_MEMORY = said("memory ran out, and nothing was written: give the program more, or lower --candidates and --conflicts")
INSPECT_NO_MEMORY = said("memory ran out, and nothing was written: give the program more")


def length_note(steps, lists=0):
    helps = "ask for more with --candidates K, up to 65536, or --conflicts B, up to 2^40, or choose a signature of more parities"
    cut = [f"so many of the lists were cut: {lists}; {helps}"] if lists else []
    return said(f"the budget of steps is spent: this many were made: {steps}", "ask for more with --steps L, up to 65536; the trace so far is right", *cut)


def help_note():
    commands = "".join(f"{USAGES[command]}\nwrites {what}\n" for command, what in WRITES.items())
    others = "`backspace_inspect help` tells how the commands are used that make and show its files"
    return said("backspace 1", "the commands of `backspace`; options stand anywhere behind a command") + commands + said(others)


def output_note(lines, reason):
    return said(
        f"standard output failed after {lines} whole lines: {reason}",
        "what went out is the front of the answer; send it to a file with room, or let the reader read on",
    )


# ---- the shift register of two flip-flops, by hand

NETLIST = """module sh(ck, a);
  input ck, a;
  dff f0(ck, q0, a);
  dff f1(ck, q1, q0);
endmodule
"""
SIGNATURE = "bit q1\n"
STIMULUS = "run a 3\n1\n1\n1\nend\n"
DUMP = "state 11\nsig 1\nend\n"
FOUR = ["n.v", "s.txt", "t.txt", "d.txt"]
STEPS = """step 1
present 11
stored 1
cand 11 input 1
list finished ID
hit 1 2 11
step 2
present 11
stored 0
cand 10 input 1
list finished ID
hit 1 1 10
step 3
present 10
stored 0
cand 00 input 1
list finished ID
hit 1 0 00
stop reset
trace 3
state 00
input 1
state 10
input 1
state 11
input 1
state 11
"""


def base_files(it):
    for name, text in zip(FOUR, (NETLIST, SIGNATURE, STIMULUS, DUMP)):
        it.write(name, text)
    with open(f"{ROOT}/examples/shift/report.txt") as file:
        report = file.read()
    it.write("r.txt", report)
    return report


def without_ids(report):
    """A report up to its log, with the number of each finished list taken out."""
    front, _, _ = report.partition("\nlog ")
    return "".join(("list finished ID" if line.startswith("list finished ") else line) + "\n" for line in front.split("\n"))


def examples(it):
    """The commands of examples/README.md against the stored texts."""
    words = [sys.executable, f"{HERE}/examples.py", it.of["backspace"], it.of["backspace_inspect"]]
    done = subprocess.run(words, cwd=ROOT, stdout=subprocess.PIPE)
    wrong = "".join(line + "\n" for line in done.stdout.decode().splitlines() if not line.endswith(("as stored", "not stored", "as they should be")))
    same("tools/examples.py", "0 ", f"{done.returncode} {wrong if done.returncode else ''}")


def words(it):
    """Words that are a job, also nine and more of them, and words that are none."""
    report = base_files(it)
    run = ["run", *FOUR]
    for given, (l, k, b) in [
        (run, (64, 256, 100_000)),
        (["run", "--", *FOUR], (64, 256, 100_000)),
        ([*run, "--steps", "5", "--candidates", "3", "--conflicts", "7"], (5, 3, 7)),
        (["run", "--conflicts=1099511627776", "n.v", "--steps=65536", "s.txt", "t.txt", "--candidates", "65536", "d.txt"], (65536, 65536, 1 << 40)),
        ([*run, "--conflicts", "1", "--candidates=2", "--steps=3"], (3, 2, 1)),
    ]:
        code, out, note = it.run("backspace", given)
        same(f"backspace {' '.join(given)}", asked(l, k, b) + STEPS, without_ids(out.decode()))
        same(f"backspace {' '.join(given)}: code and note", "0 ", f"{code} {note.decode()}")
        it.write("made.txt", out)
        it.tried("backspace", ["audit", *FOUR, "made.txt"], 0, "accepted\n")
    it.tried("backspace", ["audit", *FOUR, "r.txt"], 0, "accepted\n")
    for steps, trace in ((1, "stop length\ntrace 1\n" + STEPS[-26:]), (2, "stop length\ntrace 2\n" + STEPS[-43:])):
        wanted = asked(steps, 256, 100_000) + STEPS[: STEPS.index(f"step {steps + 1}")] + trace
        judged(it, [*run, "--steps", str(steps)], 0, wanted, length_note(steps))
    value = "wants a number in digits: --steps and --candidates 1 to 65536, --conflicts 1 to 2^40"
    wrong = [
        ([], "there are no words", None),
        (["Run", *FOUR], "word 1, `Run`, is no command", None),
        (["--Help"], "word 1, `--Help`, is no command", None),
        (["run", "--help"], "word 2, `--help`, is no option of this command", "run"),
        (["trace", "n.v", "r.txt"], "word 1, `trace`, is a command of the program `backspace_inspect`", None),
        (["candidates", "n.v", "r.txt"], "word 1, `candidates`, is a command of the program `backspace_inspect`", None),
        (["reach-cnf", "n.v", "11", "a"], "word 1, `reach-cnf`, is a command of the program `backspace_inspect`", None),
        (["run", "n.v", "s.txt", "t.txt"], "the number of words by position behind the command is 3; a file name with a space in it stands in quotes", "run"),
        ([*run, *"123456789"], "the number of words by position behind the command is 13; a file name with a space in it stands in quotes", "run"),
        ([*run, "e", "--steps", "5", "--candidates", "3"], "the number of words by position behind the command is 5; a file name with a space in it stands in quotes", "run"),
        ([*run, "--step", "5"], "word 6, `--step`, is no option of this command", "run"),
        ([*run, "--steps", "5", "--candidates", "3", "--conflict", "7"], "word 10, `--conflict`, is no option of this command", "run"),
        ([*run, "--clock", "ck"], "word 6, `--clock`, is an option of the program `backspace_inspect`", "run"),
        (["audit", "--only=q1", *FOUR, "r.txt"], "word 2, `--only=q1`, is an option of the program `backspace_inspect`", "audit"),
        ([*run, "--clocks", "ck"], "word 6, `--clocks`, is no option of this command", "run"),
        ([*run, "--steps", "0"], f"word 6, `--steps`, {value}", "run"),
        ([*run, "--steps=65537"], f"word 6, `--steps=65537`, {value}", "run"),
        ([*run, "--steps", "01"], f"word 6, `--steps`, {value}", "run"),
        ([*run, "--candidates=65537"], f"word 6, `--candidates=65537`, {value}", "run"),
        ([*run, "--conflicts=1099511627777"], f"word 6, `--conflicts=1099511627777`, {value}", "run"),
        ([*run, "--steps", "5", "--steps=6"], "an option is given twice", "run"),
        (["dump", "n.v", "s.txt", "t.txt", "0", "3"], "RUN lies between 1 and 256 and CYCLE between 0 and 65536, each in digits alone", "dump"),
        (["dump", "n.v", "s.txt", "t.txt", "257", "3"], "RUN lies between 1 and 256 and CYCLE between 0 and 65536, each in digits alone", "dump"),
        (["dump", "n.v", "s.txt", "t.txt", "1", "65537"], "RUN lies between 1 and 256 and CYCLE between 0 and 65536, each in digits alone", "dump"),
        (["audit", *FOUR], "the number of words by position behind the command is 4; a file name with a space in it stands in quotes", "audit"),
        (["wave", *FOUR, "r.txt", "x"], "the number of words by position behind the command is 6; a file name with a space in it stands in quotes", "wave"),
        (["reach", "n.v", "11", "1025"], "STATE is one or more characters 0, 1 and `-`, CYCLES lies between 0 and 1024, in digits alone, and an option is given once", "reach"),
        (["demo", "18446744073709551616"], "NUMBER lies below 2^64, in digits alone", "demo"),
        (["demo", "7", "8"], "the number of words by position behind the command is 2; a file name with a space in it stands in quotes", "demo"),
    ]
    for given, sentence, usage in wrong:
        it.tried("backspace", given, 2, "refused words\n", said(sentence, USAGES.get(usage, ALL_USAGES)))
    for given in (["help"], ["-h"], ["--help"], ["help", "run"], ["version"], ["-V"], ["--version"], ["--version", "n.v"]):
        it.tried("backspace", given, 2, "refused words\n", help_note())
    it.tried("backspace", [b"run", b"\xff.v"], 2, "", said("the words of the command line are no text in UTF-8", ALL_USAGES))
    it.tried("backspace_inspect", [b"flops", b"\xff.v"], 2, "", said("the words of the command line are no text in UTF-8", HELP))
    return report


def codes(it):
    """Each exit code of `backspace` once, but for those of files and outputs."""
    report = base_files(it)
    quiet = "run a 3\n0\n0\n0\nend\n"
    it.write("quiet.txt", quiet)
    asked = "backspace 1\nasked 64 candidates 256 conflicts 100000\n"
    nohit = asked + "step 1\npresent 11\nstored 1\ncand 11 input 1\nlist finished ID\nnohit\nstop nohit\ntrace 0\nstate 11\n"
    never = said("the dump's state itself was never recorded, nor that state read backwards; this alone is no fault: a crash need not be in a run")
    record = "record more or longer runs of what the chip did, or choose a signature that tells more states apart"
    searched = "so many moments of recorded runs were searched, each cycle of each run from 0: 4"
    first = said("no recorded run comes to a state that is listed in step 1", record, searched)
    judged(it, ["run", "n.v", "s.txt", "quiet.txt", "d.txt"], 3, nohit, first + never)
    it.write("z.v", "module z(ck); input ck; and g(d,q,1'b0); dff f(ck,q,d); endmodule\n")
    it.write("none.txt", "")
    it.write("zt.txt", "run a 0\nend\n")
    it.write("zd.txt", "state 1\nsig .\nend\n")
    empty = said(
        "no state with the stored signature leads to the dumped state",
        "look at the dump: its bits are in the order of the netlist's flip-flops, the first on the left; is it of this netlist, and `sig` of this signature?",
    )
    wanted = asked + "step 1\npresent 1\nstored .\nlist finished ID\nnohit\nstop empty\ntrace 0\nstate 1\n"
    judged(it, ["run", "z.v", "none.txt", "zt.txt", "zd.txt"], 4, wanted, empty + never)
    # a list that is cut: one candidate, 10 or 11, and no recorded moment in either
    it.write("ed.txt", "state 11\nsig .\nend\n")
    code, out, note = it.run("backspace", ["run", "n.v", "none.txt", "quiet.txt", "ed.txt", "--candidates", "1"])
    text = without_ids(out.decode()).replace("cand 10 ", "cand 1? ").replace("cand 11 ", "cand 1? ")
    wanted = "backspace 1\nasked 64 candidates 1 conflicts 100000\nstep 1\npresent 11\nstored .\ncand 1? input 1\nlist candidates\nnohit\nstop candidates\ntrace 0\nstate 11\n"
    same("a cut list", wanted, text)
    whole = said("the list was cut, and no recorded moment with the stored signature leads to the state in one cycle, in step 1", record)
    same("a cut list: note", whole + never, note)
    same("a cut list: exit code", "5", str(code))
    it.tried("backspace", ["dump", "n.v", "s.txt", "t.txt", "1", "3"], 0, DUMP)
    it.tried("backspace", ["dump", "n.v", "s.txt", "t.txt", "1", "0"], 0, "state 00\nsig none\nend\n")
    moment = "there is no such moment: the stimulus has so many runs: 1"
    counts = "RUN counts from 1 in the order of the file, and CYCLE from 0 up to the number of cycles"
    it.tried("backspace", ["dump", "n.v", "s.txt", "t.txt", "1", "4"], 9, "refused dump Range\n", said(moment + "; and this run so many cycles: 3", counts))
    it.tried("backspace", ["dump", "n.v", "s.txt", "t.txt", "256", "0"], 9, "refused dump Range\n", said(moment, counts))
    it.tried("backspace", ["demo", "7"], 0, "demo 7 steps 64 finished 64 listed 512 stop length\n")
    unreached = said(
        "no execution of so many cycles from reset, or of fewer, ends in a state with these bits, whatever the inputs",
        "ask for more cycles, up to 1024; the state's bits are in the order of the netlist's flip-flops, the first on the left",
    )
    code, out, note = it.run("backspace", ["reach", "n.v", "11", "1"])
    same("a state that is not reached", "15 reach 1\nasked 1 conflicts 100000\nresult unreached\n" + unreached, f"{code} {out.decode().partition('log')[0]}{note.decode()}")
    it.tried("backspace", ["reach", "n.v", "00", "0"], 0, "reach 1\nasked 0 conflicts 100000\nresult reached 0\nstate 00\nlog 0\nend\n")
    reached = "reach 1\nasked 5 conflicts 100000\nresult reached 2\nstate 00\ninput 1\nstate 10\ninput 1\nstate 11\n"
    code, out, note = it.run("backspace", ["reach", "n.v", "11", "5"])
    same("a state that is reached", "0 " + reached, f"{code} {out.decode().partition('log')[0]}{note.decode()}")
    width = said(
        "the state `111`: 3 bits stand here, and 2 are due: one for each flip-flop of the netlist",
        "the bits stand in the order of the netlist's flip-flops, the first on the left",
    )
    it.tried("backspace", ["reach", "n.v", "111", "5"], 9, "refused state Width\n", width)
    # changed copies of a valid report: rejected, and by the first part that fails
    for old, new, line in [
        ("cand 11 input 1\n", "", "step 1 hit"),
        ("stored 1\n", "stored 0\n", "step 1 stored"),
        ("present 11\nstored 0", "present 10\nstored 0", "step 2 present"),
        ("cand 11 input 1", "cand 11 input 0", "step 1 candidate 1"),
        ("stop reset", "stop length", "stop"),
        ("trace 3\nstate 00", "trace 3\nstate 01", "trace"),
    ]:
        assert report.count(old) >= 1
        it.write("changed.txt", report.replace(old, new, 1))
        it.tried("backspace", ["audit", *FOUR, "changed.txt"], 11, f"rejected {line}\n", REJECTED)
    it.tried("backspace", ["wave", *FOUR, "changed.txt"], 11, "rejected trace\n", REJECTED)
    with open(f"{ROOT}/examples/shift/waveform.vcd") as file:
        it.tried("backspace", ["wave", *FOUR, "r.txt"], 0, file.read())


def judged(it, words, code, wanted, note):
    """Compares a report up to its log, and has `audit` judge the whole."""
    got = it.run("backspace", words)
    title = "backspace " + " ".join(words)
    same(title, wanted, without_ids(got[1].decode()))
    same(f"{title}: note", note, got[2])
    same(f"{title}: exit code", str(code), str(got[0]))
    it.write("judged.txt", got[1])
    it.tried("backspace", ["audit", *words[1:5], "judged.txt"], 0, "accepted\n")
    return got[1].decode()


# ---- files that are refused, and files that do not read

CELL = "cells are dff and dffs (CK, Q, D), dffe (E too), dffr (R too), gates and nand or nor xor xnor buf not: flatten and map to these (docs/FORMATS.md)"
HERE_NOT = (
    "what begins here cannot stand here",
    "is a `;` missing before it? is this RTL or SystemVerilog? synthesize it, as by examples/yosys/synth.sh (docs/FORMATS.md, Netlists)",
)
RTL = (
    "this is a word of SystemVerilog RTL, and no cell",
    "synthesize and map it, as examples/yosys/synth.sh does; in a netlist write wire in place of logic",
)
BEHAVIOUR = ("behavioural Verilog is left out", "synthesize it, and map it to gates and flip-flops, as examples/yosys/synth.sh does both")
ENDS = (
    "the text ends before its module does",
    "is the netlist cut short, or `endmodule` missing? is it empty, as by a shell's `> FILE` of the file that is read?",
)
CLOCK = "all flip-flops take one input port bit as their clock, and no gate and no d, e or r reads it: make a gated clock an enable (dffe), negedge posedge, and keep one clock's part"
TERMINALS = (
    "this gate or cell has other terminals than it takes",
    "a gate has its output first; dff and dffs take (CK, Q, D), dffe (CK, Q, D, E), dffr (CK, Q, D, R), or pins of these names",
)
CONNECT = ("this does not go with a port of the instanced module", "each connection is of a port of its own, with as many bits, and a constant is of no output")
LOOSE = ("a space too many: words are parted by one space, and none stands at an end of a line", "take it out")

# a netlist that is refused: the text, the refusal with the text at which it stands, and what is said there
NETLISTS = [
    (NETLIST.replace("dff f0(ck", "foo f0(ck"), "Unsupported {} Hierarchy", "foo f0", ("no cell of this name is known", CELL)),
    (NETLIST.replace("dff f0(ck", "$_DFF_P_ f0(ck"), "Syntax {}", "$_DFF", (
        "no cell of this name is known",
        "cells are dff and dffs (CK, Q, D), dffe (E too), dffr (R too): flatten and map to these (docs/FORMATS.md, Netlists)")),
    (NETLIST.replace("dff f1(ck", "\\not f1(ck"), "Unsupported {} Hierarchy", "\\not f1", (
        "an escaped name is no gate and no cell: `\\not` is another name than `not`",
        "map cells to gates and take the `\\` out of their names: examples/yosys/synth.sh does both")),
    (NETLIST.replace("dff f0(", "always f0("), "Unsupported {} Behaviour", "always", BEHAVIOUR),
    (NETLIST.replace("dff f0(", "dff #(1) f0("), "Unsupported {} Parameter", "#", ("parameters are left out", "let synthesis settle them")),
    (NETLIST.replace("input ck, a;", "input ck, a; tri z;"), "Unsupported {} NetType", "tri z", (
        "net types other than wire, supply0 and supply1 are left out", "is this RTL? synthesize and map it, as examples/yosys/synth.sh does; else write wire")),
    (NETLIST.replace("dff f0(", "pullup f0("), "Unsupported {} Primitive", "pullup", (
        "tri-state, switch and user primitives are left out", "gates are and nand or nor xor xnor buf not")),
    (NETLIST.replace("input ck, a;", "input ck, a; inout z;"), "Unsupported {} Direction", "inout", ("inout ports are left out", "split it into an input and an output")),
    (NETLIST.replace("dff f0(", "and (strong0, strong1) f0("), "Unsupported {} Strength", "strong0", ("drive strengths are left out", "take it out")),
    (NETLIST.replace("dff f0(", "dff f0[1:0]("), "Unsupported {} Array", "[1:0]", ("arrays of instances are left out", "write each instance")),
    (NETLIST.replace("q0, a)", "q0, ~a)"), "Unsupported {} Expression", "~a", (
        "expressions and concatenations are left out", "a net, a bit of a vector or a constant of one bit may stand here; examples/yosys/synth.sh maps the rest to gates")),
    (NETLIST.replace("input ck, a;", "input ck, a; wire [1:0] v;").replace("q1, q0)", "q1, v)"), "Unsupported {} Width", "v);", (
        "a whole vector or a part of it is left out", "name one bit, as a[0]")),
    (NETLIST.replace("q1, q0)", "q1, 2'b01)"), "Unsupported {} Constant", "2'b01", ("a constant here is 1'b0 or 1'b1", "x, z and wider constants are left out")),
    (NETLIST.replace("q1, q0)", "q1, 1'bx)"), "Unsupported {} Constant", "1'bx", ("a constant here is 1'b0 or 1'b1", "x, z and wider constants are left out")),
    (NETLIST.replace("input ck, a;", "input ck, a; logic r;"), "Unsupported {} Hierarchy", "logic r;", RTL),
    (NETLIST.replace("input ck, a;", "input ck, a; typedef logic r;"), "Unsupported {} Hierarchy", "typedef", RTL),
    (NETLIST.replace("input ck, a;", "input ck, a; enum {I, J} s;"), "Unsupported {} Hierarchy", "enum", RTL),
    (NETLIST.replace("dff f0(ck", "logic_f f0(ck"), "Unsupported {} Hierarchy", "logic_f", ("no cell of this name is known", CELL)),
    *[(NETLIST.replace("  dff f1", f"  {word} begin end\n  dff f1"), "Unsupported {} Hierarchy", word, BEHAVIOUR) for word in ("always_ff", "always_comb", "always_latch")],
    (NETLIST.replace("f1(ck, q1, q0);", "f1;"), "Syntax {}", ";\nendmodule", (
        "a `;` cannot stand here",
        "is something missing before it, as an instance's terminals?")),
    (NETLIST.replace("  dff f1", "`define x\n  dff f1"), "Unsupported {} Directive", "`define", (
        "this compiler directive is left out", "take it out, or run a preprocessor first")),
    (NETLIST.replace("ck, a;", "ck, a"), "Syntax {}", "dff f0", HERE_NOT),
    (NETLIST.replace("endmodule\n", ""), "Syntax {}", None, ENDS),
    ("", "Syntax {}", None, ENDS),
    (b"\xef\xbb\xbf" + NETLIST.encode(), "Syntax {}", b"\xef", (
        "a byte that is no ASCII character, as a mark at the front of a file", "save the file as plain ASCII without a byte order mark")),
    (b"\x1f\x8b\x08" + NETLIST.encode(), "Syntax {}", b"\x1f", ("a byte of a file that gzip has packed", "unpack it first, as by `gzip -dc FILE > TEXT`")),
    (b"\x7fELF", "Syntax {}", b"\x7f", ("a byte that no text has: is this file packed or binary?", "give the text of a structural netlist")),
    (NETLIST.replace("(ck, a)", "(ck, a, b)"), "Port {}", "b);", (
        "each name of the header has one direction, and each direction a name of the header", "declare it as input or output once, and name it in the header")),
    (NETLIST.replace("  dff f0", "  wire w; wire w;\n  dff f0"), "Redeclared {}", "w;\n  dff", (
        "this name is declared before", "one direction and one type are taken, with equal ranges")),
    (NETLIST.replace("  dff f0", "  wire [65535:0] v; wire [65535:0] w;\n  dff f0"), "TooManyNets {}", "w;\n", (
        "there are more than 100000 nets", "split the netlist")),
    (NETLIST.replace("(ck, q1, q0)", "(ck, q1)"), "Terminals {}", "(ck, q1)", TERMINALS),
    (NETLIST.replace("  dff f0", "  wire [1:0] v;\n  dff f0").replace("q1, q0)", "q1, v[2])"), "Index {}", "v[2]", (
        "this index is none of the vector's, or a bound is above 65535", "compare it with the declaration")),
    (NETLIST.replace("q1, q0)", "q1, qo)"), "Undriven qo", "qo", ("the net `qo` is read and has no driver", "is the name misspelt, or a gate missing?")),
    (NETLIST.replace("q1, q0)", "q0, a)"), "SecondDriver q0", "q0, a);\n  dff", (
        "the net `q0` has two drivers", "one input, gate output or flip-flop may drive a net")),
    (NETLIST.replace("  dff f1", "  or g(x, y, a);\n  not h(y, x);\n  dff f1"), "Loop x y", "x, y", (
        "gates read one another in a ring, by their output nets: x y", "a flip-flop must stand in every ring; latches are left out")),
    # a ring of nine, of which the note names eight
    (NETLIST.replace("  dff f1", "".join(f"  buf ({'rstuvwxyz'[k]}, {'zrstuvwxy'[k]});\n" for k in (0, *range(8, 0, -1))) + "  dff f1"), "Loop r s t u v w x y z", "r, z", (
        "gates read one another in a ring, by their output nets: r s t u v w x y", "a flip-flop must stand in every ring; latches are left out")),
    (NETLIST.replace("ck, a", "ck, ck2, a").replace("f1(ck", "f1(ck2"), "ClockMixed ck2", "ck2, a)", ("the net `ck2` is no single clock", CLOCK)),
]
# the same on the whole file
WHOLE = [
    (NETLIST.replace("dff f0(ck, q0, a);\n  dff f1(ck, q1, q0);", "buf b(z, a);"), "NoFlop", "there is no flip-flop: cells are dff, dffs, dffe and dffr (docs/FORMATS.md, Netlists)"),
    (NETLIST + NETLIST.replace(" sh(", " other("), "Tops 2", "one module alone, the top, is instanced by none, and so many are: 2"),
    (NETLIST.replace("  dff f1", f"  and g(z{', a' * 65});\n  dff f1"), "TooMany Terminals 65", "a gate has at most 64 inputs, and one has 65"),
    (
        "module one(ck, q); input ck; output q; not (d, q); dff f(ck, q, d); endmodule\nmodule two(ck); input ck; wire \\s.q , o; one s(ck, o); buf b(\\s.q , o); one t(ck, p); endmodule\n".replace(
            "one(ck, q); input ck; output q; not (d, q); dff f(ck, q, d);", "one(ck, z); input ck; output z; buf (z, q); not (d, q); dff f(ck, q, d);"),
        "NameClash \\s.q", "two nets of the flat design have the key `\\s.q`: give an instance or a net another name"),
]
DESIGN = "module stage(ck, q, a); input ck, a; output q; dff f(ck, q, a); endmodule\nmodule top(ck, a); input ck, a; stage s0(ck, q0, a); stage s1(ck, q1, q0); endmodule\n"
DESIGNS = [
    (DESIGN.replace("s1(ck, q1, q0)", "s0(ck, q1, q0)"), "Twice {}", "s0(ck, q1", ("an earlier module, or an earlier instance in this module, has the same name", "give it a name of its own")),
    (DESIGN.replace("s1(ck, q1, q0)", "s1(ck, q1, q0, a)"), "Connect {}", "a); endmodule\n$", CONNECT),
    (DESIGN.replace("dff f(", "top t(ck, a); dff f("), "Recursion stage top", "stage(ck, q", ("modules instance one another in a ring: stage top", "no module may stand in itself")),
]


def nearest(*keys):
    return "the nearest keys of flip-flops: " + " ".join(keys)


# the other files: the place of the file, its text, code, refusal, the line and the column of the note from 1, and what is said there
TEXTS = [
    (1, "bit q1\r\n", 7, "Line 1", 1, 7, ("a carriage return: lines end with a line feed alone", "take the carriage returns out, as by `tr -d '\\r'`")),
    (1, "bit q1\x01\n", 7, "Line 1", 1, 7, ("a byte that no line of this text may have", "save the file as plain ASCII")),
    (1, "choice mixed\nxor q0\n", 7, "Line 1", 1, 1, (
        "this is a proposal of `backspace_inspect signature`, and more than a signature", "keep its lines `xor` alone, as by `grep ^xor`")),
    (1, "bit\tq1\n", 7, "Line 1", 1, 4, ("a tab: words are parted by one space", "write one space")),
    (1, "bit  q1\n", 7, "Line 1", 1, 4, LOOSE),
    (1, "bit q1\n\n", 7, "Line 2", 2, 1, ("a line of a signature is `bit NAME` or `xor NAME NAME ..`", "a name is the key of a flip-flop's output net, without empty lines between")),
    (1, "# q1\n", 7, "Line 1", 1, 1, ("a signature has no comments", "take the line out")),
    (1, "bit q0 q1\n", 7, "Line 1", 1, 1, (
        "`bit` takes one name", "write `xor NAME NAME ..` for the parity of several; an index is a part of the key, as of `[0]\\a.b`: `backspace_inspect keys` tells it")),
    (1, "bit q1\nxor q0 q2\n", 7, "UnknownFlop 2", 2, 8, ("no flip-flop has the key `q2`, the name of its output net", nearest("q0", "q1"))),
    (1, "bit q1\n" * 257, 7, "TooMany 257", 257, 1, ("a signature has at most 256 items", "this is the 257th")),
    (2, "run a 3\n1\n1\n1\n", 8, "Count 5", 5, 1, ("the text ends inside a run", "a run has as many input lines as its CYCLES, and then `end`")),
    (2, "run a 3\n1\n1\nend\n", 8, "Count 4", 4, 1, (
        "`end` stands here, and an input line is due", "CYCLES of the run's first line is greater than the number of its input lines")),
    (2, "run a 2\n1\n1\n1\nend\n", 8, "Count 4", 4, 1, (
        "an input line stands here, and `end` is due", "CYCLES of the run's first line is less than the number of its input lines, or `end` is missing")),
    (2, "run a 1\n11\nend\n", 8, "Width 2", 2, 1, (
        "2 bits stand here, and 1 are due: one for each data input", "data inputs are all input port bits but the clock, in the order of the ports; `.` stands for none")),
    (2, "run a 1\nx\nend\n", 8, "Line 2", 2, 1, (
        "a bit of an input is 0 or 1, and x or z stands here", "drive each data input from the first cycle on, or write what the chip had")),
    (2, "run a\n1\nend\n", 8, "Line 1", 1, 1, ("a run is `run NAME CYCLES`, as many lines of bits, and `end`", "this is none of these where it stands")),
    (2, f"run {'n' * 65} 1\n1\nend\n", 8, "Line 1", 1, 1, ("a run is `run NAME CYCLES`, as many lines of bits, and `end`", "this is none of these where it stands")),
    (2, "run a 65537\n", 8, "TooManyCycles 1", 1, 1, ("a run has at most 65536 cycles", "a run begins at reset, and can be neither split nor begun later: shorten the way to the failure, or end the run earlier")),
    (2, "run a 0\nend\n" * 257, 8, "TooManyRuns 513", 513, 1, ("a stimulus has at most 256 runs", "this is the 257th")),
    (3, "state 111\nsig 1\nend\n", 9, "Width 1", 1, 1, (
        "3 bits stand here, and 2 are due: one for each flip-flop of the netlist", "is the dump of this netlist, with this signature?")),
    (3, "state 11\nsig 11\nend\n", 9, "Width 2", 2, 1, (
        "2 bits stand here, and 1 are due: one for each item of the signature", "is the dump of this netlist, with this signature?")),
    (3, "state 3\nsig 1\nend\n", 9, "Line 1", 1, 1, (
        "behind the word stand characters 0 and 1, in `state` also `-`, or `sig none`, and this line has something else",
        "write a number of base 16 bit by bit, as 1010 for a; in `state` write `-` where the chip's bit is not known, as for x and z")),
    (3, "state 11\nsigs 1\nend\n", 9, "Line 2", 2, 1, ("the second line of a dump is `sig BITS` or `sig none`", "a bit for each item of the signature")),
    (3, "state 11\nsig 1\n", 9, "Line 3", 3, 1, ("the third line of a dump is `end`", "and nothing follows it")),
    (3, "state 11\nsig 1\nend\nend\n", 9, "Line 4", 4, 1, ("nothing follows the line `end` of a dump", "take it out")),
    (3, "state 11\nsig none\nend\n", 9, "NotReset", 1, 1, (
        "`sig none` goes with the reset state alone, and this is another state",
        "at reset dffs holds 1 and each other cell 0; in any later state the register holds a signature")),
]
KINDS = ["netlist", "signature", "stimulus", "dump", "report"]


def refusals(it):
    """Each refusal of a file with its note."""
    report = base_files(it)
    for texts in (NETLISTS, DESIGNS):
        for text, why, mark, saying in texts:
            at = len(text) if mark is None else as_bytes(text).rindex(as_bytes(mark[:-1])) if mark.endswith("$" if isinstance(mark, str) else b"$") else as_bytes(text).index(as_bytes(mark))
            it.write("x.v", text)
            it.tried("backspace", ["run", "x.v", *FOUR[1:]], 6, f"refused netlist {why.format(at)}\n", at_place("x.v", text, at, *saying))
            it.tried("backspace_inspect", ["flops", "x.v"], 6, f"refused netlist {why.format(at)}\n", at_place("x.v", text, at, *saying))
    for text, why, sentence in WHOLE:
        it.write("x.v", text)
        it.tried("backspace", ["run", "x.v", *FOUR[1:]], 6, f"refused netlist {why}\n", said("x.v: " + sentence))
    for place, text, code, why, line, column, saying in TEXTS:
        name, files = f"x{place}.txt", list(FOUR)
        it.write(name, text)
        files[place] = name
        starts = [0] + [at + 1 for at, byte in enumerate(text) if byte == "\n"]
        note = at_place(name, text, starts[line - 1] + column - 1, *saying)
        it.tried("backspace", ["run", *files], code, f"refused {KINDS[place]} {why}\n", note)
    it.write("x2.txt", "")
    it.tried("backspace", ["run", "n.v", "s.txt", "x2.txt", "d.txt"], 8, "refused stimulus NoRun\n", said("x2.txt: the file has no run"))
    it.write("x2.txt", f"run {'n' * 64} 1\n1\nend\n")
    it.tried("backspace", ["dump", "n.v", "s.txt", "x2.txt", "1", "1"], 0, "state 10\nsig 0\nend\n")
    it.write("x1.txt", "")
    label = "the signature file has no line: is it the right one, and was it emptied?"
    note = at_place("d.txt", DUMP, 9, "1 bits stand here, and 0 are due: one for each item of the signature", label)
    it.tried("backspace", ["run", "n.v", "x1.txt", "t.txt", "d.txt"], 9, "refused dump Width 2\n", note)
    cut_short = report[: report.index("step 2") + 6]
    it.write("rx.txt", cut_short)
    note = at_place("rx.txt", cut_short, len(cut_short), "the text ends before the line `end` of a report is whole", "was the report cut short, as by a full disk?")
    it.tried("backspace", ["audit", *FOUR, "rx.txt"], 10, "refused report Short\n", note)
    it.write("rx.txt", report + "\n")
    more = said("rx.txt: bytes follow the line `end` of the report: a file holds one report and nothing else")
    it.tried("backspace", ["audit", *FOUR, "rx.txt"], 10, "refused report Extra\n", more)
    line = "this line is not of a form that its place in a report allows", "a report is what `run` writes, unchanged (docs/FORMATS.md, Report)"
    numbers = "asked 64 candidates 256 conflicts 100000"
    for most in ("asked 65536 candidates 256 conflicts 100000", "asked 64 candidates 65536 conflicts 1099511627776"):
        it.write("rx.txt", report.replace(numbers, most))
        it.tried("backspace", ["audit", *FOUR, "rx.txt"], 0, "accepted\n")
    for wrong in ("asked 0 candidates 256 conflicts 1", "asked 65537 candidates 256 conflicts 1", "asked 64 candidates 65537 conflicts 1", "asked 64 candidates 1 conflicts 1099511627777"):
        it.write("rx.txt", report.replace(numbers, wrong))
        it.tried("backspace", ["audit", *FOUR, "rx.txt"], 10, "refused report Line 2\n", at_place("rx.txt", report.replace(numbers, wrong), 12, *line))
    order = "the files stand in the order NETLIST SIGNATURE STIMULUS DUMP REPORT"
    note = said(f"s.txt: given as the netlist, this file begins like a signature; {order}")
    it.tried("backspace", ["run", "s.txt", "n.v", "t.txt", "d.txt"], 6, "refused netlist Syntax 0\n", note)
    it.write("a.vcd", "$timescale 1ns $end\n")
    note = said("a.vcd: given as the stimulus, this file begins like a vcd of a simulator; `backspace_inspect stimulus NETLIST VCD --clock NAME` makes a stimulus of one")
    it.tried("backspace", ["run", "n.v", "s.txt", "a.vcd", "d.txt"], 8, "refused stimulus Line 1\n", note)


def files(it):
    """Files that do not read, each with the system's reason; pipes, which do."""
    report = base_files(it)
    os.makedirs(f"{it.room}/folder", exist_ok=True)
    os.symlink("loop", f"{it.room}/loop")
    it.write("locked", NETLIST, 0)
    reasons = [
        ("gone.v", "No such file or directory (os error 2)"),
        ("folder", "Is a directory (os error 21)"),
        ("-", "there is no such file, and standard input is read as /dev/stdin alone"),
    ]
    if it.as_nobody or os.geteuid():
        reasons.append(("locked", "Permission denied (os error 13)"))
    for name, reason in reasons:
        note = said(f"{name}: {reason}")
        for place, kind in enumerate(KINDS):
            given = [*FOUR, "r.txt"]
            given[place] = name
            # what stands behind it is not asked for
            behind = [name, *["gone"] * (4 - place)]
            it.tried("backspace", ["audit", "--", *given[:place], *behind], 12, f"refused {kind} ReadFault\n", note)
        it.tried("backspace_inspect", ["trace", "--", name, "r.txt"], 12, "refused netlist ReadFault\n", note)
        it.tried("backspace_inspect", ["trace", "--", "n.v", name], 12, "refused report ReadFault\n", note)
        it.tried("backspace_inspect", ["stimulus", "--clock", "ck", "--", "n.v", name], 12, "refused vcd ReadFault\n", note)
        it.tried("backspace_inspect", ["signature", "--bits", "1", "--", "n.v", name], 12, "refused stimulus ReadFault\n", note)
        it.tried("backspace_inspect", ["unscan", "--", "n.v", name, "11"], 12, "refused map ReadFault\n", note)
    # a file that is no folder, a link to itself, and a name that the system refuses
    for name, reason in (
        ("n.v/x", "not a directory"),
        ("loop", "filesystem loop or indirection limit (e.g. symlink loop)"),
        ("x" * 300, "invalid filename"),
    ):
        it.tried("backspace", ["run", name, *FOUR[1:]], 12, "refused netlist ReadFault\n", said(f"{shown(name)}: {reason}"))
    # standard input, a pipe by its number, and one by a name
    for name in ("/dev/stdin", "/dev/fd/{}"):
        given, taken = os.pipe()
        if it.as_nobody:
            os.fchown(given, NOBODY, NOBODY)
        os.write(taken, NETLIST.encode())
        os.close(taken)
        it.tried("backspace", ["run", name.format(given), *FOUR[1:]], 0, report_of(it), stdin=given, pass_fds=[given])
        os.close(given)
    os.mkfifo(f"{it.room}/pipe")
    os.chmod(f"{it.room}/pipe", 0o644)

    # a writer that gives a few bytes at a time
    def feed():
        with open(f"{it.room}/pipe", "wb", buffering=0) as pipe:
            for at in range(0, len(report), 7):
                pipe.write(report[at : at + 7].encode())

    writer = threading.Thread(target=feed, daemon=True)
    writer.start()
    it.tried("backspace", ["audit", *FOUR, "pipe"], 0, "accepted\n")
    writer.join(10)


def names(it):
    """Names of files with spaces, capital letters, other characters than ASCII and a thousand bytes, and the empty name; a name that stands twice."""
    base_files(it)
    whole = report_of(it)
    for name in (" N .v ", "-n.v", "Netz-\u00e4.v", "./" * 500 + "n.v", "x" * 200 + ".v"):
        if not name.endswith("/n.v"):
            it.write(name, NETLIST)
        it.tried("backspace", ["run", "--", name, *FOUR[1:]], 0, whole)
        it.tried("backspace_inspect", ["flops", "--", name], 0, "0 q0 0\n1 q1 0\n")
    for name in ("", " n.v", "N.V", "Netz-a\u0308.v", "line\nfeed", "y" * 200):
        note = said(f"{shown(name)}: No such file or directory (os error 2)")
        it.tried("backspace", ["run", name, *FOUR[1:]], 12, "refused netlist ReadFault\n", note)
        it.tried("backspace_inspect", ["flops", name], 12, "refused netlist ReadFault\n", note)
    note = said(f"d.txt: given as the report, this file begins like a dump; the files stand in the order NETLIST SIGNATURE STIMULUS DUMP REPORT")
    it.tried("backspace", ["audit", *FOUR, "d.txt"], 10, "refused report Line 1\n", note)


def report_of(it):
    """What `run` writes of the shift register: its front is judged by `words`, and this very text by `audit`."""
    return it.run("backspace", ["run", *FOUR])[1]


def outputs(it):
    """Outputs that are full, closed or cut: the front of the answer, and code 13."""
    base_files(it)
    whole = report_of(it)
    jobs = [
        ("backspace", ["run", *FOUR], whole),
        ("backspace", ["audit", *FOUR, "gone"], b"refused report ReadFault\n"),
        ("backspace", ["run"], b"refused words\n"),
        ("backspace_inspect", ["stats", "n.v"], None),
        ("backspace_inspect", ["cnf", *FOUR[:2], "r.txt"], None),
        ("backspace_inspect", ["flop", "n.v"], b"refused words\n"),
    ]
    for program, given, _ in jobs:
        with open("/dev/full", "wb") as full:
            it.tried(program, given, 13, "", output_note(0, "no storage space"), stdout=full)
        # a closed descriptor
        it.tried(program, given, 13, "", output_note(0, "uncategorized error"), stdout=subprocess.DEVNULL, preexec_fn=lambda: os.close(1))
        # a standard error that is full or closed takes the note and nothing else
        with open("/dev/full", "wb") as full:
            same(f"{' '.join(given)} with a full note", str(it.run(program, given)[0]), str(it.run(program, given, stderr=full)[0]))
        same(f"{' '.join(given)} with a closed note", str(it.run(program, given)[0]), str(it.run(program, given, stderr=subprocess.DEVNULL, preexec_fn=lambda: os.close(2))[0]))
    # a reader that has gone
    read, wrote = os.pipe()
    os.close(read)
    it.tried("backspace", ["run", *FOUR], 13, "", said("the reader closed standard output after 0 whole lines"), stdout=wrote, restore_signals=False)
    os.close(wrote)
    # a file that takes so many bytes and no more
    for room in (1, 15, 16, 17, len(whole) - 1):
        def limited(room=room):
            resource.setrlimit(resource.RLIMIT_FSIZE, (room, room))

        with tempfile.TemporaryFile() as file:
            got = it.run("backspace", ["run", *FOUR], stdout=file, preexec_fn=limited, restore_signals=False)
            file.seek(0)
            same(f"an output with room for {room} bytes", whole[:room], file.read())
        same(f"an output with room for {room} bytes: code and note", "13 " + output_note(whole[:room].count(b"\n"), "file too large"), f"{got[0]} {got[2].decode()}")
    with tempfile.TemporaryFile() as file:
        got = it.run("backspace", ["run", *FOUR], stdout=file)
        file.seek(0)
        same("an output into a file", b"0" + whole, b"%d" % got[0] + file.read())


# ---- great sizes

SMALL = False


def great(size, small):
    """A great size, or with --small a small one, at which a slow build of the programs shows as much of the texts."""
    return small if SMALL else size



def asked(steps, candidates=256, conflicts=100_000, form=1):
    return f"backspace {form}\nasked {steps} candidates {candidates} conflicts {conflicts}\n"


def way_back(run, states, inputs, cycle, steps, stored, end="finished ID"):
    """The steps of a backtrace of one candidate each along a run, from one of its cycles, and its trace: a report up to its log."""
    text, last = [], max(0, cycle - steps)
    for number, at in enumerate(range(cycle, last, -1), 1):
        text += [f"step {number}", f"present {states[at]}", f"stored {stored(states[at - 1])}", f"cand {states[at - 1]} input {inputs[at - 1]}"]
        text += [f"list {end}", f"hit {run} {at - 1} {states[at - 1]}"]
    text += [f"stop {'length' if last else 'reset'}", f"trace {cycle - last}", f"state {states[last]}"]
    for at in range(last, cycle):
        text += [f"input {inputs[at]}", f"state {states[at + 1]}"]
    return "\n".join(text) + "\n"


LINKS = 22


def long_chip():
    """A shift register of 4,096 flip-flops with chains of 22 gates between them: 5 MB of text, 94,210 nets."""
    text = ["module long(ck, a);\n  input ck, a;\n"]
    turns = []
    for stage in range(great(4_096, 12)):
        before, turned = (f"q{stage - 1}" if stage else "a"), False
        for link in range(LINKS):
            is_not = (7 * stage + 3 * link) % 5 < 2
            turned ^= is_not
            after = f"s{stage:04}_link_of_the_chain_{link:02}"
            text.append(f"  {'not' if is_not else 'buf'} ({after},{before});\n")
            before = after
        text.append(f"  dff f{stage}(ck,q{stage},{before});\n")
        turns.append(turned)
    return "".join(text) + "endmodule\n", turns


def long_netlist(it):
    """A netlist of 5 MB, 4,096 flip-flops, and lines of a report of more than 20,000 bytes."""
    text, turns = long_chip()
    assert len(text) > great(5 * MIB, 0)
    it.write("long.v", text)
    it.write("long.s", f"bit q{len(turns) - 1}\n")
    draws = random.Random(55)
    inputs = ["01"[draws.randrange(2)] for _ in range(6)]
    states = ["0" * len(turns)]
    for given in inputs:
        before = given + states[-1][:-1]
        states.append("".join("01"[(bit == "1") != turned] for bit, turned in zip(before, turns)))
    it.write("long.t", "run long 6\n" + "\n".join(inputs) + "\nend\n")
    four = ["long.v", "long.s", "long.t", "long.d"]
    dump = f"state {states[6]}\nsig {states[5][-1]}\nend\n"
    it.write("long.d", dump)
    it.tried("backspace", ["dump", *four[:3], "1", "6"], 0, dump)
    report = judged(it, ["run", *four], 0, asked(64) + way_back(1, states, inputs, 6, 64, lambda state: state[-1]), "")
    same("a line of more than 20,000 bytes", "True", str(max(map(len, report.split("\n"))) > great(20_000, 0)))
    chip, made = models.Netlist(text), models.Report(report)
    it.write("long.r", report)
    it.tried("backspace", ["wave", *four, "long.r"], 0, models.wave_text(chip, made))
    it.tried("backspace_inspect", ["flops", "long.v"], 0, models.flops_text(chip))
    it.tried("backspace_inspect", ["stats", "long.v"], 0, models.stats_text(chip))
    it.tried("backspace_inspect", ["trace", "long.v", "long.r"], 0, models.trace_text(chip, made))
    # a scan order of all flip-flops, and the keys of 256 names
    keys = chip.flop_keys()
    it.write("long.o", "".join(f"{key}\n" for key in reversed(keys)))
    it.tried("backspace_inspect", ["unscan", "long.v", "long.o", states[6][::-1]], 0, f"state {states[6]}\n")
    it.tried("backspace_inspect", ["keys", "long.v", *keys[-256:]], 0, "".join(f"xor {key}\n" for key in keys[-256:]))
    # a literal of the longest line is gone
    lines = report.split("\n")
    block = max(range(len(lines)), key=lambda at: len(lines[at]))
    lines[block] = lines[block][:-2].rpartition(" ")[0] + " 0"
    it.write("long.x", "\n".join(lines))
    code, out, note = it.run("backspace", ["audit", *four, "long.x"])
    same("a literal less in the longest line", "11 rejected ", f"{code} {out.decode()[:9]}")


STAGES = 18
BUSY = ["module busy(ck, x0, x1, x2);\n  input ck, x0, x1, x2;\n", f"  wire [16:0] c, dc;\n  wire [2:0] p, dp;\n"]
BUSY += [f"  wire [{STAGES - 1}:0] s{k};\n" for k in range(3)]
BUSY += ["  not (dc[0], c[0]);\n  xor (dc[1], c[1], c[0]);\n  buf (t1, c[0]);\n"]
BUSY += [f"  and (t{i}, t{i - 1}, c[{i - 1}]);\n  xor (dc[{i}], c[{i}], t{i});\n" for i in range(2, 17)]
BUSY += [f"  xor (dp[{k}], p[{k}], x{k});\n  dff (ck, p[{k}], dp[{k}]);\n" for k in range(3)]
BUSY += [f"  dff (ck, c[{i}], dc[{i}]);\n" for i in range(17)]
BUSY += [f"  dff (ck, s{k}[{i}], {f's{k}[{i - 1}]' if i else f'x{k}'});\n" for k in range(3) for i in range(STAGES)]
BUSY = "".join(BUSY) + "endmodule\n"
BITS = bytes(48 + (byte & 1) for byte in range(256))


class Busy:
    """A run of the netlist above, a cycle counter, three parities and three shift registers: its columns of input bits, and its states."""

    def __init__(self, draws, cycles):
        self.cycles = cycles
        self.columns = [draws.randbytes(cycles).translate(BITS) for _ in range(3)]

    def lines(self):
        text = bytearray(b"000\n" * self.cycles)
        for k in range(3):
            text[k::4] = self.columns[k]
        return text

    def input(self, cycle):
        return "".join(chr(column[cycle]) for column in self.columns)

    def states(self, first, last):
        """The states at these cycles, in the order of the flip-flops."""
        ones = [column.count(b"1", 0, first) for column in self.columns]
        for cycle in range(first, last + 1):
            state = "".join("01"[count % 2] for count in ones) + f"{cycle:017b}"[::-1][:17]
            for column in self.columns:
                state += (column[max(0, cycle - STAGES) : cycle][::-1].decode()).ljust(STAGES, "0")
            yield state
            if cycle < self.cycles:
                ones = [count + (column[cycle] == 49) for count, column in zip(ones, self.columns)]


def stored_busy(state):
    return "".join(state[20 + STAGES * k + STAGES - 1] for k in range(3))


def way_of(it, runs, number, steps):
    """The way back of so many steps from the end of a run of the stimulus `busy.t`: the report."""
    run = runs[number - 1]
    cycles, first = run.cycles, run.cycles - steps
    states = dict(zip(range(first, cycles + 1), run.states(first, cycles)))
    dump = f"state {states[cycles]}\nsig {stored_busy(states[cycles - 1])}\nend\n"
    it.write("busy.d", dump)
    it.tried("backspace", ["dump", "busy.v", "busy.s", "busy.t", str(number), str(cycles)], 0, dump)
    inputs = {cycle: run.input(cycle) for cycle in range(first, cycles)}
    wanted = asked(steps) + way_back(number, states, inputs, cycles, steps, stored_busy)
    return judged(it, ["run", "busy.v", "busy.s", "busy.t", "busy.d", "--steps", str(steps)], 0, wanted, length_note(steps))


def long_report(it):
    """A report of 4,096 steps, and all that is told of it."""
    draws, steps = random.Random(4_096), great(4_096, 20)
    runs = [Busy(draws, great(65_536, 100)) for _ in range(3)]
    it.write("busy.v", BUSY)
    it.write("busy.s", "".join(f"bit s{k}[{STAGES - 1}]\n" for k in range(3)))
    it.write("busy.t", (piece for run in runs for piece in (f"run r {run.cycles}\n", run.lines(), "end\n")))
    report = way_of(it, runs, 3, steps)
    it.write("busy.r", report)
    chip, made = models.Netlist(BUSY), models.Report(report)
    it.tried("backspace", ["wave", "busy.v", "busy.s", "busy.t", "busy.d", "busy.r"], 0, models.wave_text(chip, made))
    it.tried("backspace_inspect", ["trace", "busy.v", "busy.r"], 0, models.trace_text(chip, made))
    it.tried("backspace_inspect", ["trace", "busy.v", "busy.r", "--csv"], 0, models.trace_table(chip, made))
    it.tried("backspace_inspect", ["steps", "busy.r"], 0, models.steps_text(made))
    first = runs[2].cycles - steps
    it.tried("backspace_inspect", ["wave", "busy.v", "busy.r", "--from", str(first)], 0, models.view_text(chip, made, first))
    told_of(it)
    passed_over(it, runs)


def told_of(it):
    """What else is told of a long report: here that memory suffices for it, and that the clauses of its lists are refuted."""
    for given in (["page"], ["page", "--most", "65536"], ["why", "c"], ["why", "s2", "--depth", "16", "--all"]):
        words = [given[0], "busy.v", "busy.r", *given[1:]]
        code, out, note = it.run("backspace_inspect", words)
        same(" ".join(words), "0 True ", f"{code} {len(out) > 0} {note.decode()}")
    code, out, note = it.run("backspace_inspect", ["novel", "busy.v", "busy.t", "3"])
    same("novel busy.v busy.t 3", "0 True ", f"{code} {len(out) > 0} {note.decode()}")
    for step in ([], ["--step", "1"]):
        texts = [it.run("backspace_inspect", [command, "busy.v", "busy.s", "busy.r", *step]) for command in ("cnf", "lrat")]
        same("the clauses of a long report: code and note", "0 0 ", "".join(f"{code} " for code, _, _ in texts) + "".join(note.decode() for _, _, note in texts))
        try:
            lrat_check.refuted(*(iter(out.decode("ascii").splitlines()) for _, out, _ in texts))
        except lrat_check.Fault as fault:
            raise Different(f"the clauses of a long report are not refuted: {fault}") from None


def passed_over(it, runs):
    """A cut list, and more recorded moments with its signature than are asked about: those that lead to the state under no input are passed over."""
    run = runs[2]
    before, state = run.states(run.cycles - 1, run.cycles)
    stored = lambda state: state[3]
    it.write("busy.c", "bit c[0]\n")
    it.write("busy.e", f"state {state}\nsig {stored(before)}\nend\n")
    states, inputs = {run.cycles - 1: before, run.cycles: state}, {run.cycles - 1: run.input(run.cycles - 1)}
    wanted = asked(1, 1) + way_back(3, states, inputs, run.cycles, 1, stored, "candidates")
    judged(it, ["run", "busy.v", "busy.c", "busy.t", "busy.e", "--candidates", "1", "--steps", "1"], 0, wanted, length_note(1, 1))


def many_runs(it):
    """A stimulus of 67,108,864 bytes, the most that one may have: 256 runs, most of 65,536 cycles."""
    draws = random.Random(256)
    last_run, cycles = great(256, 3), great(65_536, 100)
    runs = [Busy(draws, great(60_000, 90))] + [Busy(draws, cycles) for _ in range(last_run - 1)]
    it.write("busy.v", BUSY)
    it.write("busy.s", "".join(f"bit s{k}[{STAGES - 1}]\n" for k in range(3)))
    heads = [f"run r{number} {run.cycles}\n" for number, run in enumerate(runs, 1)]
    size = lambda: sum(map(len, heads)) + sum(4 * run.cycles + 4 for run in runs)
    # the first run is cut and the names are made longer until the size is that of the limit
    most = great(67_108_864, size() - 100)
    runs[0] = Busy(draws, runs[0].cycles - (size() - most) // 4 - 3)
    heads[0] = f"run r1 {runs[0].cycles}\n"
    heads[0] = heads[0].replace("r1", "r1" + "_" * (most - size()))
    assert size() == most and len(heads[0]) < 80
    it.write("busy.t", (piece for head, run in zip(heads, runs) for piece in (head, run.lines(), "end\n")))
    four = ["busy.v", "busy.s", "busy.t", "busy.d"]
    way_of(it, runs, last_run, great(16, 5))
    for run, cycle in ((1, 1), (last_run - 1, great(12_345, 45))):
        before, state = ([None] + list(runs[run - 1].states(max(0, cycle - 1), cycle)))[-2:]
        wanted = f"state {state}\nsig {stored_busy(before) if cycle else 'none'}\nend\n"
        it.tried("backspace", ["dump", *four[:3], str(run), str(cycle)], 0, wanted)
    if SMALL:
        return
    # one byte more than a stimulus may have
    with open(f"{it.room}/busy.t", "ab") as file:
        file.write(b"\n")
    note = said("busy.t: the file has more bytes than a stimulus may have: 67108864; is it another file, which stands in the wrong place?")
    it.tried("backspace", ["run", *four], 8, "refused stimulus TooLong\n", note)
    os.remove(f"{it.room}/busy.t")


def proposals(it):
    """A proposed signature at moments of runs of 120,000 cycles."""
    draws = random.Random(7)
    runs = [Busy(draws, great(40_000, 40)) for _ in range(3)]
    it.write("busy.v", BUSY)
    it.write("small.t", (piece for run in runs for piece in (f"run r {run.cycles}\n", run.lines(), "end\n")))
    chip = models.Netlist(BUSY)
    states = [list(run.states(0, run.cycles)) for run in runs]
    lost = [20 + STAGES * k + STAGES - 1 for k in range(3)]
    # what a state has lost are the last bits of the shift registers: all others of the one before follow from it
    predecessors = lambda run, cycle, items: 2 ** (3 - models.rank(items, lost))
    it.tried("backspace_inspect", ["signature", "busy.v", "small.t", "--bits", "4"], 0, models.signature_text(chip, states, 4, predecessors))
    inverse, shifted = states[2][-7].translate(str.maketrans("01", "10")), states[1][-11][1:] + "1"
    drawn = "".join(draws.choice("01") for _ in chip.flop_keys())
    # each third bit is not known
    partly = lambda state: "".join("-" if at % 3 == 1 else bit for at, bit in enumerate(state))
    for state in (states[1][len(states[1]) // 3], inverse, shifted, drawn, partly(states[0][-9]), partly(inverse), partly(drawn)):
        it.write("near.d", f"state {state}\n")
        it.tried("backspace_inspect", ["near", "busy.v", "small.t", "near.d"], 0, models.near_text(chip, states, state))


def wide_chip(it):
    """Two stored signatures, 4,096 flip-flops and 4,095 inputs: lines of candidates with 16,403 bytes, and a cut list that has the recorded one."""
    top = great(4_095, 30)
    text = f"module wide(ck, x);\n  input ck;\n  input [0:{top - 1}] x;\n  wire [0:{top}] q;\n"
    text += "".join(f"  dff (ck, q[{i}], x[{i}]);\n" for i in range(top)) + f"  dff (ck, q[{top}], q[0]);\nendmodule\n"
    it.write("wide.v", text)
    it.write("wide.s", f"cycles 2\nbit q[{top}]\n")
    draws = random.Random(2)
    inputs = [draws.randbytes(top).translate(BITS).decode() for _ in range(3)]
    states = ["0" * (top + 1)]
    for given in inputs:
        states.append(given + states[-1][0])
    it.write("wide.t", "run wide 3\n" + "\n".join(inputs) + "\nend\n")
    dump = f"state {states[3]}\nsig {states[2][-1]}\nold {states[1][-1]}\nend\n"
    it.write("wide.d", dump)
    four = ["wide.v", "wide.s", "wide.t", "wide.d"]
    it.tried("backspace", ["dump", *four[:3], "1", "3"], 0, dump)
    code, out, note = it.run("backspace", ["run", *four, "--candidates", "1"])
    report, lines = out.decode(), []
    for line in without_ids(report).split("\n"):
        words = line.split()
        if words[:1] == ["cand"] and "from" in words:
            # a state before the candidate, of the older signature: any, with the input that leads from it
            before, given = words[5], words[7]
            assert len(line) > great(16_384, 0)
            same("the state before a candidate leads to it", words[1], given + before[0])
            line = " ".join(words[:5] + [f"older {before[-1]}"])
        lines.append(line)
    text = ["backspace 2", "asked 64 candidates 1 conflicts 100000"]
    for number, at in enumerate((3, 2, 1), 1):
        text += [f"step {number}", f"present {states[at]}", f"stored {states[at - 1][-1]}", f"older {states[at - 2][-1] if at > 1 else 'none'}"]
        text += [f"cand {states[at - 1]} input {inputs[at - 1]}" + (f" from older {states[at - 2][-1]}" if at > 1 else "")]
        text += ["list candidates", f"hit 1 {at - 1} {states[at - 1]}"]
    text += ["stop reset", "trace 3", f"state {states[0]}"]
    for at in range(3):
        text += [f"input {inputs[at]}", f"state {states[at + 1]}"]
    same("a wide chip of two signatures", "\n".join(text) + "\n", "\n".join(lines))
    same("a wide chip of two signatures: code and note", "0 ", f"{code} {note.decode()}")
    it.write("wide.r", out)
    it.tried("backspace", ["audit", *four, "wide.r"], 0, "accepted\n")


def shift_register(flops):
    return "module far(ck, a);\n  input ck, a;\n" + "".join(f"  dff (ck, q{i}, {f'q{i - 1}' if i else 'a'});\n" for i in range(flops)) + "endmodule\n"


def far_states(it):
    """A state that is reached in 1,024 cycles, and not in 1,023; a search that is too large."""
    far = great(1_024, 20)
    it.write("far.v", shift_register(far))
    state = "0" * (far - 1) + "1"
    code, out, note = it.run("backspace", ["reach", "far.v", state, str(far)])
    lines = ["reach 1", f"asked {far} conflicts 100000", f"result reached {far}", "state " + "0" * far]
    for cycle in range(far):
        lines += [f"input {'0' if cycle else '1'}", "state " + "0" * cycle + "1" + "0" * (far - 1 - cycle)]
    front, _, log = out.decode().partition("log ")
    same(f"a state in {far} cycles", "\n".join(lines) + "\n", front)
    finished(log, far - 1, far)
    same(f"a state in {far} cycles: code and note", "0 ", f"{code} {note.decode()}")
    code, out, note = it.run("backspace", ["reach", "far.v", state, str(far - 1)])
    front, _, log = out.decode().partition("log ")
    same("a state that is not reached", f"15 reach 1\nasked {far - 1} conflicts 100000\nresult unreached\n", f"{code} {front}")
    finished(log, far - 1, far - 1)
    if SMALL:
        return
    # one copy has the nets, a next variable for each flip-flop, and no helper
    for flops in (2_047, 2_048):
        it.write("large.v", shift_register(flops))
        copy = 2 + flops + flops
        if copy * 1_024 > 4_194_304:
            sentence = f"the search is too large: this netlist takes so many variables for each cycle: {copy}"
            note = said(sentence, "ask for fewer cycles: there may be 4194304 variables in all")
            it.tried("backspace", ["reach", "large.v", "1" * flops, "1024"], 6, "refused netlist TooLarge\n", note)
        else:
            code, out, note = it.run("backspace", ["reach", "large.v", "0" * (flops - 1) + "1", "1024"])
            front, _, log = out.decode().partition("log ")
            same("the largest search", "15 reach 1\nasked 1024 conflicts 100000\nresult unreached\n", f"{code} {front}")
            finished(log, 1_024, 1_024)


def finished(log, refuted, steps):
    """A log of so many steps, the first ones each with a finish line."""
    lines = log.split("\n")
    same("a log's number of lines", str(len(lines) - 3), lines[0])
    same("a log's end", "end\n", "\n".join(lines[-2:]))
    ends = [line[0] for line in lines if line[:1] in "er" and line[1:2] == " "]
    same("a log's ends of steps", "er" * refuted + "r" * (steps - refuted), "".join(ends))


def value_changes(it):
    """A text of value changes with 100 MB and 65,536 edges of the clock, and one edge more."""
    draws = random.Random(100)
    edges, noisy = great(65_536, 60), great(1_400, 20)
    run = Busy(draws, edges)
    it.write("busy.v", BUSY)
    it.write("busy.s", "".join(f"bit s{k}[{STAGES - 1}]\n" for k in range(3)))
    head = "$timescale 1ns $end\n$scope module tb $end\n$var wire NOISY ~ noise [LAST:0] $end\n$scope module dut $end\n$var wire 1 ! ck $end\n"
    head = head.replace("NOISY", str(noisy)).replace("LAST", str(noisy - 1))
    head += "".join(f"$var wire 1 {chr(34 + k)} x{k} $end\n" for k in range(3)) + "$var reg 17 % c [16:0] $end\n$var reg 3 & p [2:0] $end\n"
    head += "".join(f"$var reg {STAGES} {chr(39 + k)} s{k} [{STAGES - 1}:0] $end\n" for k in range(3)) + "$upscope $end\n$upscope $end\n$enddefinitions $end\n"
    noise = draws.randbytes(noisy * 512).translate(BITS)

    def pieces():
        yield head
        yield "#0\n0!\n"
        for cycle, state in enumerate(run.states(0, edges)):
            registers = f"b{state[3:20][::-1]} %\nb{state[:3][::-1]} &\n"
            registers += "".join(f"b{state[20 + STAGES * k : 20 + STAGES * (k + 1)][::-1]} {chr(39 + k)}\n" for k in range(3))
            if cycle:
                yield f"#{10 * cycle}\n1!\n"
            yield registers
            at = cycle % 512 * noisy
            yield b"b" + noise[at : at + noisy] + b" ~\n"
            given = run.input(cycle) if cycle < edges else "000"
            yield f"#{10 * cycle + 5}\n0!\n" + "".join(f"{bit}{chr(34 + k)}\n" for k, bit in enumerate(given))

    it.write("busy.vcd", pieces())
    assert os.path.getsize(f"{it.room}/busy.vcd") > great(100_000_000, 0)
    wanted = f"run busy {edges}\n".encode() + bytes(run.lines()) + b"end\n"
    it.tried("backspace_inspect", ["stimulus", "busy.v", "busy.vcd", "--clock", "ck", "--scope", "tb.dut"], 0, wanted)
    for cycle in (0, 1, great(40_000, 40), edges):
        before, state = ([None] + list(run.states(max(0, cycle - 1), cycle)))[-2:]
        wanted = f"state {state}\nsig {stored_busy(before) if cycle else 'none'}\nend\n"
        for when in (["--cycle", str(cycle)], ["--time", str(10 * cycle + 4)]):
            it.tried("backspace_inspect", ["dump", "busy.v", "busy.vcd", *when, "--scope", "tb.dut", "--signature", "busy.s"], 0, wanted)
    if SMALL:
        return
    with open(f"{it.room}/busy.vcd", "ab") as file:
        file.write(b"#700000\n1!\n")
    note = said("busy.vcd: the clock rises more than 65536 times, the most cycles of a run", "is this the netlist's clock? a run begins at reset: shorten the way to the failure, or end the run earlier")
    it.tried("backspace_inspect", ["stimulus", "busy.v", "busy.vcd", "--clock", "ck", "--scope", "tb.dut"], 16, "refused vcd TooManyCycles\n", note)
    os.remove(f"{it.room}/busy.vcd")


# ---- the companion, on the examples

def companion_usages():
    """How the words of each command of the companion stand, by the definition of what `help` writes."""
    with open(f"{ROOT}/crates/bs_inspect_usages/specs/Usages.antt") as file:
        return dict(re.findall(r'stands \(codes "([\w-]+)"\)\s*\(codes "usage: backspace_inspect ([^"]*)"\)', file.read()))


COMPANION = companion_usages()

ANSWER_FORM = (
    "this line is not of a form that its place in an answer allows", "an answer is what `reach` writes, unchanged (docs/FORMATS.md, The answer of reach)")
STAND = (
    "the words do not stand as this command takes them: its files in this order, and each option that it takes as often as it may stand; "
    "--only takes every word up to the next option"
)


def counted(count):
    return f"the number of words by position behind the command is {count}; a file name with a space in it stands in quotes, and --only takes every word up to the next option"


def empty_window(states):
    """The note on a window that has no state of a trace of so many."""
    return said(
        f"none of the states that are asked for is one of the trace, which has so many: {states}",
        "--from and --to count the states from 0, and --last keeps only as many as it says, from the end")


def foreign(number, word):
    return f"word {number}, `{word}`, is no option of this command"


def valueless(number, word):
    return f"word {number}, `{word}`, has no value; one that begins with `-` stands in the same word, behind a `=`"


def again(number, word):
    return f"word {number}, `{word}`, is given a second time"


def second_moment(number, word):
    return f"word {number}, `{word}`, says the moment a second time: `--cycle N` or `--time T` stands once"


# what a line of `cnf` and `lrat` that begins so means
REJECTIONS = {
    "format": ("the report has another depth than the signature", "is it the signature file of this very report?"),
    "stop": ("there are more steps, or lengths, than were asked for", "is the file unchanged?"),
    "step": ("the present state, or a signature, of the step with this number has another width", "is it the report of this netlist and this signature?"),
    "nostep": ("the report has no step of the number behind --step, or the length behind --length was not tried", "`steps` tells the steps of a report"),
    "log": (
        "the line of the log with this number, from 1, is the first that does not follow from those before it",
        "is it of this netlist and this signature or state, and unchanged?"),
    "unfinished": (
        "the log does not finish this list or length, so that it does not show that there is no more",
        "a list that was cut is not finished: `steps` tells how each ended"),
}


def rejection(line):
    """The note on a line `rejected ..` of evidence."""
    return said(*REJECTIONS[line.split()[0]])


# by hand, of the cycles 77 to 84 of run 1 and the dump
RECORDED = "#0\nb00000000000000000000000000000001 !!\nb00000000000000000000000001001101 \"!\n#1\nb00000000000000000000000001001110 \"!\n#2\nb00000000000000000000000001001111 \"!\n#3\nb00000000000000000000000001010000 \"!\n#4\nb00000000000000000000000001010001 \"!\n#5\nb00000000000000000000000001010010 \"!\n#6\nb00000000000000000000000001010011 \"!\n#7\nb00000000000000000000000001010100 \"!\n#8\nbx !!\nbx \"!\n"

# by hand, of the candidates 000, 010 and 011
S27_LISTS = """step 1 candidates 3 differ 2 list finished lemmas 2 hit 1 0
1 same G5 = 0
1 differ G6 = ? in 0 1 1
1 differ G7 = ? in 0 0 1
"""


# by hand: the lane's own flip-flop stands before those of its counter, whose nets are joined to those of the top
# what forces bits in the trace of examples/yosys
WHY_COUNT = """8 count[1:0] = 0x0, since 6, before 0x1 (dump)
    by 5 put = 1, new
    by 5 take = 1, new
    by 5 count[1:0] = 0x1, since 0
    kept by pop = 0, put = 0  6..7
7 pop = 0, as before (run 1 cycle 84)
    by 7 ready = 0, since 6
    whatever take = 1  7
7 put = 0, as before (run 1 cycle 84)
    by 7 phase[1] = 0, since 6
5 count[1:0] = 0x1, since 0 (run 1 cycle 82)
    kept by pop = 0, put = 0  0..4
5 put = 1, before 0 (run 1 cycle 82)
    by 5 tick[1:0] = 0x1, new
    by 5 phase[1:0] = 0x3, since 2
    by 5 count[1] = 0, since 0
    by 5 seen[1] = 1, since 0
"""
WHY_READY = """layer,since,at,kind,cycle,name,value
0,7,7,bit,7,ready,0
0,7,7,cause,7,count[1],0
0,7,7,cause,7,count[0],0
"""
HIERARCHY = """0 \\l0.seen 0 \\full[0]
1 \\at0[0] 0
2 \\at0[1] 0
3 \\at0[2] 0
4 \\at0[3] 0
5 \\l1.seen 0 \\full[1]
6 \\at1[0] 0
7 \\at1[1] 0
8 \\at1[2] 0
9 \\at1[3] 0
"""


def every_state(chip):
    """A function that counts the predecessors of a moment by a look at every state and input."""
    word = lambda count, number: f"{number:0{count}b}" if count else ""
    inputs = [word(len(chip.inputs), number) for number in range(1 << len(chip.inputs))]
    states = [word(len(chip.flops), number) for number in range(1 << len(chip.flops))]
    behind = {state: {chip.step(state, given) for given in inputs} for state in states}

    def counter(runs):
        def predecessors(run, cycle, items):
            present, before = runs[run - 1][cycle], runs[run - 1][cycle - 1]
            signs = lambda state: [sum(state[flop] == "1" for flop in item) % 2 for item in items]
            return sum(present in behind[state] and signs(state) == signs(before) for state in states)

        return predecessors

    return counter


def example_files(it):
    """The files of the examples, and their texts by name."""
    shutil.copytree(f"{ROOT}/examples", f"{it.room}/ex", dirs_exist_ok=True)
    text = {}
    for at, _, names in os.walk(f"{it.room}/ex"):
        os.chmod(at, 0o755)
        for name in names:
            os.chmod(f"{at}/{name}", 0o644)
            if not name.endswith(".png"):
                with open(f"{at}/{name}") as file:
                    text[f"{at[len(it.room) + 1 :]}/{name}"] = file.read()
    return text


SIMULATED = ["--clock", "ck", "--scope", "tb.dut"]


def companion(it):
    """Every request of the companion on the examples."""
    tell = lambda words, code, out, note="": it.tried("backspace_inspect", words, code, out, note)
    text = example_files(it)
    for word in ("help", "-h", "--help"):
        tell([word], 0, "backspace_inspect 1\n" + "".join(f"usage: backspace_inspect {usage}\n" for usage in COMPANION.values()))
    for word in ("version", "-V", "--version"):
        tell([word], 0, "backspace_inspect 1\n")
    for name in ("yosys", "counter", "shift", "s27", "toggle"):
        net, report = f"ex/{name}/netlist.v", f"ex/{name}/report.txt"
        chip = models.Netlist(text[net])
        tell(["flops", net], 0, models.flops_text(chip))
        tell(["inputs", net], 0, models.inputs_text(chip))
        tell(["stats", net], 0, models.stats_text(chip))
        if name != "yosys":
            stimulus = "ex/runs/stimulus.txt" if name == "counter" else f"ex/{name}/stimulus.txt"
            runs = [models.states_of(chip, inputs) for inputs in models.runs_of(text[stimulus])]
            for bits in (1, 2, 256):
                tell(["signature", net, stimulus, "--bits", str(bits)], 0, models.signature_text(chip, runs, bits, every_state(chip)(runs)))
        if report not in text:
            continue
        made = models.Report(text[report])
        tell(["trace", net, report], 0, models.trace_text(chip, made))
        tell(["trace", "--all", net, report], 0, models.trace_text(chip, made, True))
        tell(["trace", net, report, "--csv"], 0, models.trace_table(chip, made))
        tell(["steps", report], 0, models.steps_text(made))
        tell(["candidates", net, report], 0, models.lists_text(chip, made))
        tell(["steps", "--csv", report], 0, models.steps_table(made))
        tell(["wave", net, report], 0, models.view_text(chip, made))
        tell(["wave", net, report, "--all", "--from=77"], 0, models.view_text(chip, made, 77, True))
        four = [f"ex/{name}/{file}.txt" for file in ("signature", "stimulus", "dump")]
        it.tried("backspace", ["wave", net, *four, report], 0, models.wave_text(chip, made))
        for run, inputs in enumerate(models.runs_of(text[four[1]]), 1):
            for cycle in sorted({0, 1, len(inputs) // 2, len(inputs)}):
                it.tried("backspace", ["dump", net, *four[:2], str(run), str(cycle)], 0, models.dump_of(chip, text[four[0]], inputs, cycle))
    tell(["flops", "ex/hierarchy/netlist.v"], 0, HIERARCHY)
    net, report, vcd = "ex/yosys/netlist.v", "ex/yosys/report.txt", "ex/yosys/sim.vcd"
    chip, made = models.Netlist(text[net]), models.Report(text[report])
    only = lambda *names: lambda signal: signal[0] in names
    # nine and more words
    names = "count head tail take first second seen place tick phase".split()
    tell(["trace", net, report, "--only", *names], 0, models.trace_text(chip, made, only=only(*names)))
    tell(["candidates", net, "--only", "count", "head", "line", "--", report], 0, models.lists_text(chip, made, only("count", "head")))
    tell(["candidates", "ex/s27/netlist.v", "ex/s27/report.txt"], 0, S27_LISTS)
    code, out, note = it.run("backspace_inspect", ["wave", net, report, "--only", "count"])
    same("the recorded moments of the states", RECORDED, "".join(line for line in out.decode().splitlines(True) if line[0] == "#" or line.endswith(('!!\n', '"!\n'))))
    tell(["wave", net, report, "--from", "3", "--only", *names], 0, models.view_text(chip, made, 3, only=only(*names)))
    tell(["gtkw", net, report, "t.vcd", "--from", "3", "--only", *names], 0, models.save_text(chip, made, "t.vcd", 3, only=only(*names)))
    tell(["gtkw", net, report, "t.vcd"], 0, models.save_text(chip, made, "t.vcd"))
    row = lambda name, bits: "xor" + "".join(f" {name}[{bit}]" for bit in bits) + "\n"
    wanted = row("count", range(2)) + "xor head\n" + row("first", range(4, 8)) + row("place", [1]) + "xor tail\n"
    tell(["keys", net, "count", "head", "first[7:4]", "place[1]", "tail", "--", "count", "head", "first[7:4]", "place[1]", "tail"], 0, wanted * 2)
    tell(["why", net, report, "count"], 0, WHY_COUNT)
    tell(["why", net, report, "count", "--at=8", "--depth", "1"], 0, "".join(WHY_COUNT.splitlines(True)[:5]))
    tell(["why", "--csv", net, report, "ready", "--at", "7", "--depth", "1"], 0, WHY_READY)
    # the trace of an answer
    answer_files(it)
    places = "0 state reset\n0 flop q0 = 0\n0 flop q1 = 0\n0 input a = 1\n1 state passed\n1 flop q0 = 1\n2 state asked\n2 flop q1 = 1\n"
    tell(["trace", "chain.v", "chain.txt"], 0, places)
    tell(["candidates", "chain.v", "chain.txt"], 0, "")
    reset, passed, asked = ("".join(line for line in places.splitlines(True) if line[0] == at) for at in "012")
    for given, wanted in (
        ("--from 0 --to 65536 --last 65536", places), ("--last 3", places), ("--last=1", asked), ("--last 2", passed + asked), ("--to 0", reset),
        ("--from 1 --to 1", passed), ("--from 2", asked), ("--from 3", ""), ("--from 2 --to 1", ""), ("--to 1 --last 2", passed), ("--to 0 --last 2", ""),
    ):
        tell(["trace", "chain.v", "chain.txt", *given.split()], 0, wanted, "" if wanted else empty_window(3))
    tell(["trace", "chain.v", "chain.txt", "--last", "2", "--all"], 0, "1 state passed\n1 flop q0 = 1\n1 flop q1 = 0\n1 input a = 1\n2 state asked\n2 flop q0 = 1\n2 flop q1 = 1\n")
    rows = ["state,from,run,cycle,q0,q1,a\n", "0,reset,,,0,0,1\n", "1,passed,,,1,0,1\n", "2,asked,,,1,1,\n"]
    tell(["trace", "chain.v", "chain.txt", "--csv"], 0, "".join(rows))
    tell(["trace", "--csv", "--last", "2", "chain.v", "chain.txt"], 0, rows[0] + rows[2] + rows[3])
    tell(["trace", "chain.v", "chain.txt", "--csv", "--to", "0"], 0, rows[0] + rows[1])
    shown = models.window_of(made, 2, 7, 4)
    tell(["trace", net, report, "--from", "2", "--to", "6", "--last", "4"], 0, models.trace_text(chip, made, window=shown))
    tell(["trace", net, report, "--from", "2", "--to", "6", "--last", "4", "--csv"], 0, models.trace_table(chip, made, shown))
    stored = text["ex/yosys/stimulus.txt"]
    tell(["stimulus", net, vcd, *SIMULATED], 0, stored)
    tell(["stimulus", net, *[vcd] * 256, *SIMULATED], 0, stored * 256)
    signature = ["--signature", "ex/yosys/signature.txt"]
    inputs = models.runs_of(stored)[0]
    for cycle in (0, 1, 44, 88):
        wanted = models.dump_of(chip, text["ex/yosys/signature.txt"], inputs, cycle)
        tell(["dump", net, vcd, "--cycle", str(cycle), "--scope", "tb.dut", *signature], 0, wanted)
        tell(["dump", net, vcd, "--cycle", str(cycle), "--clock", "ck", "--scope", "tb.dut"], 0, wanted[: wanted.index("sig")])
    # the clock rises at 5, 15, 25 and so on
    for time_, cycle in ((4, 0), (5, 1), (444, 44), (445, 45)):
        wanted = models.dump_of(chip, text["ex/yosys/signature.txt"], inputs, cycle)
        tell(["dump", net, vcd, "--time", str(time_), "--scope", "tb.dut", *signature], 0, wanted)
    beside(it, tell, text)
    # names that are others in the simulation
    it.write("renamed.vcd", text[vcd].replace(" line $end", " rxd $end").replace(" count [1:0]", " fill [1:0]"))
    it.write("map.txt", "line rxd\n")
    it.write("flops.txt", "count[1] fill[1]\ncount[0] fill[0]\n")
    tell(["stimulus", net, "renamed.vcd", *SIMULATED, "--map", "map.txt"], 0, stored.replace("run sim", "run renamed"))
    state = models.states_of(chip, inputs)[20]
    tell(["dump", net, "renamed.vcd", "--cycle=20", "--scope=tb.dut", "--map=flops.txt"], 0, f"state {state}\n")
    # a scan pattern whose order is the netlist's from behind
    it.write("order.txt", "".join(key + "\n" for key in reversed(chip.flop_keys())))
    tell(["unscan", net, "order.txt", state[::-1]], 0, f"state {state}\n")

    data = said("the clock `line` is a data input of the netlist, and each of its rising edges was taken for a cycle", "the netlist's clock is `ck`")
    tell(["stimulus", net, vcd, "--clock", "line", "--scope", "tb.dut"], 0, "run sim 6\n" + "00\n" * 6 + "end\n", data)


def beside(it, tell, text):
    """Recorded runs beside a simulation: the example, and each mistake of docs/OWN_CHIP.md."""
    net, stimulus, vcd = "ex/yosys/netlist.v", "ex/yosys/stimulus.txt", "ex/yosys/sim.vcd"
    chip, runs = models.Netlist(text[net]), models.runs_of(text[stimulus])
    scope = ["--scope", "tb.dut"]
    agree = "run 1 agree 0..89 flops 37 unknown 0 name sim vcd"
    tell(["check", net, stimulus, vcd, *scope], 0, f"{agree} {vcd}\n")
    tell(["check", net, stimulus, vcd, "--clock=ck", *scope], 0, f"{agree} {vcd}\n")
    # other values at reset, and one of them unknown
    other = "run 1 differ 0 flops 37 unknown 0 name sim vcd other.vcd\n"
    it.write("other.vcd", text[vcd].replace("\nb11 2\n", "\nb0 2\n", 1))
    tell(["check", net, stimulus, "other.vcd", *scope], 11, other + "seen[1:0] run 0x3 vcd 0x0\n")
    it.write("other.vcd", text[vcd].replace("\nb11 2\n", "\nb0x 2\n", 1))
    tell(["check", net, stimulus, "other.vcd", *scope], 11, other + "seen[1:0] run 0x3 vcd 0b0x\n")
    # values that begin late: what stood before time 400 is given there
    head, changes = text[vcd].split("$enddefinitions $end\n")
    early, late = changes.split("#400\n")
    known = {words[-1]: line for line in early.splitlines() for words in [line.split() if line[0] in "bB" else [line[1:]]] if line[0] in "01xzbB"}
    begun = head + "$enddefinitions $end\n#400\n$dumpvars\n" + "".join(line + "\n" for line in known.values()) + "$end\n" + late
    it.write("late.vcd", begun)
    moved = "phase[1:0] run 0x0 vcd 0x3\nshift[7:0] run 0x00 vcd 0x35\ntick[1:0] run 0x0 vcd 0x3\n"
    wanted = f"run 1 differ 0 flops 37 unknown 0 name sim vcd late.vcd\nrun 1 cycles 89 edges 49\nrun 1 begin 400\n{moved}run 1 inputs differ 6\nline run 1 vcd 0\n"
    tell(["check", net, stimulus, "late.vcd", *scope], 11, wanted)
    # inputs that are exchanged
    crossed = [line[::-1] for line in runs[0]]
    it.write("crossed.txt", "run sim 89\n" + "".join(line + "\n" for line in crossed) + "end\n")
    swapped = f"run 1 differ 1 flops 37 unknown 0 name sim vcd {vcd}\nseen[1:0] run 0x2 vcd 0x3\nrun 1 inputs differ 0\nline run 0 vcd 1\ntake run 1 vcd 0\n"
    tell(["check", net, "crossed.txt", vcd, *scope], 11, swapped)
    # another netlist, whose names a file gives
    it.write("named.v", text[net].replace("count", "c0unt"))
    tell(["check", "named.v", stimulus, vcd, *scope], 0, f"run 1 agree 0..89 flops 35 unknown 0 name sim vcd {vcd}\nmissing c0unt[1:0]\n")
    it.write("named.txt", "c0unt[0] count[0]\nc0unt[1] count[1]\n")
    tell(["check", "named.v", stimulus, vcd, *scope, "--map", "named.txt"], 0, f"{agree} {vcd}\n")
    # with the spelling of a netlist whose modules stay
    it.write("spelled.txt", "\\c0unt[0] count[0]\n[1]\\c0unt \\count[1]\n")
    tell(["check", "named.v", stimulus, vcd, *scope, "--map", "spelled.txt"], 0, f"{agree} {vcd}\n")
    # several runs, also where the VCD is another run's, and not as many VCDs
    it.write("twice.txt", text[stimulus] * 2)
    wanted = models.check_text(chip, runs * 2, [("sim", vcd, text[vcd]), ("sim", "late.vcd", begun)], "ck", "tb.dut")
    tell(["check", net, "twice.txt", vcd, "late.vcd", *scope], 11, wanted)
    it.write("both.txt", "".join(open(f"{it.room}/crossed.txt")) + text[stimulus])
    tell(["check", net, "both.txt", vcd, vcd, *scope], 11, f"{swapped}run 1 inputs of run 2\n{agree.replace('run 1', 'run 2')} {vcd}\n")
    count = said("twice.txt: the stimulus has so many runs, each of which needs its VCD: 2; VCDs that are named: 1")
    tell(["check", net, "twice.txt", vcd, *scope], 16, "refused vcd Runs 2\n", count)


def answers(it, tell):
    """What is refused of answers of `reach` that show an execution."""
    answer_files(it)
    none = said("keeper.txt: the answer has no execution: the state was not reached, or the search ended undecided")
    for given in (["trace"], ["trace", "--csv"], ["candidates"], ["wave"], ["page"]):
        tell([*given, "keeper.v", "keeper.txt"], 10, "refused report NoTrace\n", none)
    tell(["why", "keeper.v", "keeper.txt", "q"], 10, "refused report NoTrace\n", none)
    cut = CHAIN_ANSWER.replace("log 6", "log x")
    it.write("cut.txt", cut)
    tell(["trace", "chain.v", "cut.txt"], 10, "refused report Line 9\n", at_place("cut.txt", cut, cut.index("log x"), *ANSWER_FORM))
    it.write("cut.txt", CHAIN_ANSWER[:-4])
    tell(["trace", "chain.v", "cut.txt"], 10, "refused report Short\n", said("cut.txt: the text ends before the line `end` of an answer is whole"))
    it.write("cut.txt", CHAIN_ANSWER + "end\n")
    tell(["trace", "chain.v", "cut.txt"], 10, "refused report Extra\n", said("cut.txt: bytes follow the line `end` of the answer: a file holds one answer and nothing else"))


def companion_refusals(it):
    """What the companion refuses, on the examples."""
    tell = lambda words, code, out, note="": it.tried("backspace_inspect", words, code, out, note)
    text = example_files(it)
    net, report, vcd = "ex/yosys/netlist.v", "ex/yosys/report.txt", "ex/yosys/sim.vcd"
    chip = models.Netlist(text[net])
    it.write("renamed.vcd", text[vcd].replace(" line $end", " rxd $end"))
    it.write("order.txt", "".join(key + "\n" for key in chip.flop_keys()))
    tell([], 2, "refused words\n", said("there are no words", HELP))
    tell(["flop", net], 2, "refused words\n", said("word 1, `flop`, is no command; the nearest: `flops`", HELP))
    for command in ("run", "audit", "reach", "demo"):
        tell([command, net], 2, "refused words\n", said(f"word 1, `{command}`, is a command of the program `backspace`", "`backspace help` tells how the words of its commands stand"))
    tell(["trace", net, report, "--onyl", "q"], 2, "refused words\n", said("word 4, `--onyl`, is no option; the nearest: `--only`", f"usage: backspace_inspect {COMPANION['trace']}"))
    for given in (["--conflicts", "5"], ["--candidates=5"]):
        tell(["trace", net, report, *given], 2, "refused words\n", said(f"word 4, `{given[0]}`, is an option of the program `backspace`", f"usage: backspace_inspect {COMPANION['trace']}"))
    for given, why in (
        (["trace", net], counted(1)),
        (["trace", "--only", "count", net, report], counted(0)),
        (["flops", *[net] * 12], counted(12)),
        (["keys", net], counted(1)),
        (["check", net, "t"], counted(2)),
        (["why", "--at", "3", net, report], counted(2)),
        (["trace", net, report, "--clock", "ck"], foreign(4, "--clock")),
        (["check", "--bits=3", net, "t", vcd], foreign(2, "--bits=3")),
        (["near", net, "t"], counted(2)),
        (["wave", net, report, "--last", "3"], foreign(4, "--last")),
        (["candidates", report], counted(1)),
        (["candidates", net, report, "--csv"], foreign(4, "--csv")),
        (["trace", net, report, "--last", "0"], "word 4, `--last`, wants a number in digits from 1 to 65536"),
        (["trace", "--to=65537", net, report], "word 2, `--to=65537`, wants a number in digits from 0 to 65536"),
        (["trace", net, report, "--from", "1", "--from", "2"], again(6, "--from")),
        (["trace", "--csv", net, report, "--csv"], again(5, "--csv")),
        (["trace", net, report, "--csv=1"], "word 4, `--csv=1`, gives a value to an option that takes none"),
        (["trace", net, report, "--only"], valueless(4, "--only")),
        (["check", net, "t", vcd, "--clock"], valueless(5, "--clock")),
        (["check", net, "t", vcd, "--clock", "ck", "--scope", "--map", "m"], valueless(7, "--scope")),
        (["check", net, "t", vcd, "--map", "m", "--clock=ck", "--map=n"], again(8, "--map=n")),
        (["dump", net, vcd, "--cycle", "3", "--time", "30"], second_moment(6, "--time")),
        (["dump", "--time=30", net, vcd, "--cycle=3"], second_moment(5, "--cycle=3")),
        (["dump", net, vcd, "--cycle", "3", "--cycle", "3"], second_moment(6, "--cycle")),
        (["novel", net, "t", "300"], "RUN, `300`, wants a number in digits from 1 to 256"),
        (["novel", "--most", "5", net, "t", "01"], "RUN, `01`, wants a number in digits from 1 to 256"),
        (["stimulus", net, *[vcd] * 257, "--clock", "ck"], counted(258)),
        (["check", net, "t", *[vcd] * 257], counted(259)),
        (["signature", net, "ex/yosys/stimulus.txt"], "`--bits N` is missing: how many bits the signature has"),
        (["stimulus", net, vcd], "`--clock NAME` is missing: the name that the clock has in the simulation"),
        (["dump", net, vcd], "`--cycle N` or `--time T` is missing: the moment of the dump"),
        (["signature", net, "t", "--bits", "257"], "word 4, `--bits`, wants a number in digits from 1 to 256"),
        (["dump", net, vcd, "--time", "880ns"], "word 4, `--time`, wants a number in digits from 0 to 18446744073709551615"),
        (["dump", net, vcd, "--cycle=70000"], "word 4, `--cycle=70000`, wants a number in digits from 0 to 65536"),
        (["novel", net, "t", "1", "--most", "4097"], "word 5, `--most`, wants a number in digits from 1 to 4096"),
        (["page", net, report, "--most", "0"], "word 4, `--most`, wants a number in digits from 1 to 65536"),
        (["why", net, report, "count", "--at", "65537"], "word 5, `--at`, wants a number in digits from 0 to 65536"),
        (["why", net, report, "count", "--at", "x"], "word 5, `--at`, wants a number in digits from 0 to 65536"),
        (["why", net, report, "count", "--depth=257"], "word 5, `--depth=257`, wants a number in digits from 1 to 256"),
        (["novel", net, "t", "1", "--at", "70000"], foreign(5, "--at")),
        (["dump", net, vcd, "--cycle", "1", "--signature"], valueless(6, "--signature")),
        (["reach-cnf", "--length", "1", net, "0", "a"], "`--length J` stands behind the files, and J is a word of its own"),
        (["reach-lrat", net, "0", "a", "--length=1"], "`--length J` stands behind the files, and J is a word of its own"),
    ):
        tell(given, 2, "refused words\n", said(why, f"usage: backspace_inspect {COMPANION[given[0]]}"))
    near = "the nearest: `count[0]` `count[1]`"
    tell(["trace", net, report, "--only", "head", "cuont"], 18, "refused name Unknown cuont\n", said(
        f"no flip-flop, data input or vector of these has the name `cuont`; {near}",
        "`flops` and `inputs` tell the keys, and `keys` the flip-flops that a wire shows; the name of a vector or memory names its bits"))
    # nets stand in the order of the declaration, from the left bound on
    tell(["keys", net, "cuont"], 18, "refused name NoNet cuont\n", said(
        "no net or vector of nets has the name `cuont`; the nearest: `count[1]` `count[0]`",
        "`flops` and `inputs` tell keys; the name of a vector without an index names its bits"))
    tell(["why", net, report, "cuont"], 18, "refused name NoNet cuont\n", said(
        "no net or vector of nets has the name `cuont`; the nearest: `count[1]` `count[0]`",
        "`flops` and `inputs` tell keys; the name of a vector without an index names its bits"))
    tell(["why", net, report, "take"], 11, "rejected input\n", said(
        "the name is that of data inputs, of the clock, or of nets without a driver: nothing forces them", "ask for a flip-flop, or for the net of a gate"))
    tell(["why", net, report, "count", "--at", "9"], 11, "rejected moment\n", said(
        "the trace has no state with the number behind --at", "its states count from 0: `trace` tells them"))
    # the trace of the report has 9 states: windows without any
    empty = empty_window(9)
    for window in (["--from", "9"], ["--from", "5", "--to", "4"], ["--to", "6", "--last", "2"]):
        tell(["trace", net, report, *window], 0, "", empty)
    tell(["trace", net, report, "--csv", "--only", "count", "--from", "9"], 0, "state,from,run,cycle,count[1:0]\n", empty)
    state = "state 1011011011100110001101011000000000001\ninput 10"
    it.write("changed.txt", text[report].replace(state, state.replace("01\n", "00\n"), 1))
    astray = said(
        "changed.txt: state 0 of the trace does not lead to the next one under its input",
        "is it the report of this very netlist? `backspace audit` says where a report fails")
    for words in (["why", net, "changed.txt", "count"], ["trace", net, "changed.txt"], ["gtkw", net, "changed.txt", "t.vcd"]):
        tell(words, 10, "refused report TraceStep 0\n", astray)
    for given, why in ((["why", net, report], counted(2)), (["why", net, report, "count", "--flops", "--flops"], again(6, "--flops"))):
        tell(given, 2, "refused words\n", said(why, f"usage: backspace_inspect {COMPANION['why']}"))
    answers(it, tell)
    scopes = "the scopes: `tb` `tb.dut` `tb.send` `tb.take_after`"
    variables = "the variables there: `ck` `got` `line` `pop` `put` `take` `ready` `data` `at_middle` `count` `first` `head` `phase` `place` `second` `seen` .."
    clock = f"{vcd}: no variable of one bit in the scope `tb.dut` is the clock `clk`; the nearest: `ck`"
    tell(["stimulus", net, vcd, "--clock", "clk", "--scope", "tb.dut"], 16, "refused vcd NoClock\n", said(clock, scopes, variables))
    tell(["stimulus", net, vcd, "--clock", "ck", "--scope", "tb/dut"], 16, "refused vcd NoClock\n", said(f"{vcd}: there is no scope `tb/dut`; the nearest: `tb.dut`", scopes))
    late = said(f"{vcd}: so often does the clock rise: 89; there is no such cycle", "cycles count from 0, and each edge ends one; is this the netlist's clock?")
    tell(["dump", net, vcd, "--cycle", "90", "--scope", "tb.dut"], 16, "refused vcd NoCycle 89\n", late)
    hint = "the design's scope stands behind --scope; where names are others, a file of lines KEY NAME behind --map"
    missing = "renamed.vcd: no variable in the clock's scope is the data input `line`, by the name `line`; the nearest: "
    code, out, note = it.run("backspace_inspect", ["stimulus", net, "renamed.vcd", *SIMULATED])
    same("a data input that is not there", "16 refused vcd NoInput line\nnote: " + missing, f"{code} {out.decode()}{note.decode()[: 6 + len(missing)]}")
    same("a data input that is not there: what to do", said(hint), note.decode()[-7 - len(hint) :])
    for given, sentence in (
        (b"\x1f\x8b\x08", "this is compressed by gzip: unpack it first, as by `gzip -dc FILE > FILE.vcd`"),
        (b"\0\0\0\0\0\0\0\1I\0", "this is an FST and no VCD: convert it first, as by `fst2vcd FILE > FILE.vcd`"),
        (b"run a 1\n", "this is no VCD: its first word does not begin with `$`"),
    ):
        it.write("other.vcd", given)
        code, out, note = it.run("backspace_inspect", ["stimulus", net, "other.vcd", *SIMULATED])
        same("a file that is no VCD", f"16 refused vcd note: other.vcd: {sentence}", f"{code} {out.decode()[:12]}{note.decode()[: 17 + len(sentence)]}")
    it.write("other.vcd", text[vcd][: text[vcd].index("$enddefinitions")])
    ended = said("other.vcd: the text ends in its declarations, in a comment or behind a value", "was it cut short? `$enddefinitions $end` stands before the first time")
    tell(["stimulus", net, "other.vcd", *SIMULATED], 16, "refused vcd Ended\n", ended)
    it.write("other.vcd", text[vcd].replace("#15\n0$", "#15\nx$"))
    unknown = said("other.vcd: the data input `line` is neither 0 nor 1 before the rising edge at time 25", "drive each data input before the clock rises first: a run begins at reset, and its front cannot be left out")
    tell(["stimulus", net, "other.vcd", *SIMULATED], 16, "refused vcd Unknown line 25\n", unknown)
    at = text[vcd].index("#25\n") + 4
    off = text[vcd][:at] + "$dumpoff\n$end\n" + text[vcd][at:]
    it.write("other.vcd", off)
    switched = at_place("other.vcd", off, at, "the dump is switched off here: cycles behind this line are not in the text", "take `$dumpoff` out of the bench")
    number = off[:at].count("\n") + 1
    tell(["stimulus", net, "other.vcd", *SIMULATED], 16, f"refused vcd DumpOff {number}\n", switched)
    it.write("other.vcd", text[vcd].replace("#0\n", "#2\n", 1))
    begun = said("the values of the run `other` begin at time 2", "edges before that are not in them, and a run begins at reset: begin to dump at time 0, or be sure that the clock did not rise before")
    tell(["stimulus", net, "other.vcd", *SIMULATED], 0, text["ex/yosys/stimulus.txt"].replace("run sim", "run other"), begun)
    early = said("other.vcd: the values begin at time 2, and the states before that are not in the text", "a dump with a signature wants them: take a later cycle, or begin to dump at time 0")
    tell(["dump", net, "other.vcd", "--cycle", "0", "--scope", "tb.dut", "--signature", "ex/yosys/signature.txt"], 16, "refused vcd Late 2\n", early)
    last = [line[1:] for line in text[vcd].splitlines() if line.startswith("#")][-1]
    behind = said(f"{vcd}: the last time of the text is {last}; there is no such time", "times count in the unit that `$timescale` names, as behind `#` in the text")
    tell(["dump", net, vcd, "--time", str(int(last) + 1), "--scope", "tb.dut"], 16, f"refused vcd NoTime {last}\n", behind)
    for lines, why, at, sentence, label in (
        ("line rxd\r\n", "Line 1", 0, "a carriage return: lines end with a line feed alone", "take the carriage returns out, as by `tr -d '\\r'`"),
        ("take take\nlnie rxd\n", "Unknown 2", 10, "no data input has the key `lnie`; the nearest: `line`", "`inputs` tells the keys"),
        ("line rxd\nline rxd\n", "Twice 2", 9, "the key of this line has a line already", "take one of them out"),
    ):
        it.write("map.txt", lines)
        tell(["stimulus", net, "renamed.vcd", *SIMULATED, "--map", "map.txt"], 17, f"refused map {why}\n", at_place("map.txt", lines, at, sentence, label))
    tell(["trace", net, "ex/shift/report.txt"], 10, "refused report TraceState 0\n", said(
        "ex/shift/report.txt: state 0 of the trace has not one bit for each flip-flop of the netlist", "is it the report of this very netlist?"))
    code, out, note = it.run("backspace_inspect", ["unscan", net, "order.txt", "01x"])
    same("a scan pattern with another character", "9 refused state Bits\n", f"{code} {out.decode()}")
    code, out, note = it.run("backspace_inspect", ["unscan", net, "order.txt", "010"])
    same("a scan pattern of another width", "9 refused state Width 3\n", f"{code} {out.decode()}")
    it.write("order.txt", "".join(key + "\n" for key in chip.flop_keys()[:-1]))
    code, out, note = it.run("backspace_inspect", ["unscan", net, "order.txt", "0" * len(chip.flops)])
    same("more bits than an order has lines", f"9 refused state Width {len(chip.flops)}\n", f"{code} {out.decode()}")
    lacks = lacking([chip.flop_keys()[-1]], len(chip.flops))
    tell(["unscan", net, "order.txt", "0" * (len(chip.flops) - 1)], 0, f"state {'0' * (len(chip.flops) - 1)}-\n", lacks)


# ---- clauses for other checkers, against texts by hand


def lines_of(words, end="\n"):
    """The lines that stand here between commas, each with its end."""
    return "".join(f"{line}{end}" for line in words.split(", "))


# A folder of the examples, or a chip, its signature, stimulus and dump, and the report that `run` wrote; the clauses of the transition
# relation; and for some steps, or None for all finished lists, the header, the clauses behind those and the refutation. Each line of a
# clause or of a refutation ends with a 0 that is left out here.
SHIFT_CLAUSES = "-1, -5 2, 5 -2, -6 3, 6 -3, -7 4, 7 -4"
SHIFT_LOG = "s, b 8 -8 -3 -4 0, s, 9 -8 -7 -6 0 4 6 8 0, e 9, r 10, d 8 9 0"
LISTS = {
    "shift": (None, SHIFT_CLAUSES, {
        1: ("p cnf 10 14", "8, 5, 6, 7, -8 -3 -4, -9, -10", "15 -8 -3 -4 0 12, 16 -8 -7 -6 0 4 6 15, 17 0 8 11 10 16"),
        2: ("p cnf 10 14", "9, 5, 6, -7, -9 -3 4, -8, -10",
            "15 -8 -3 -4 0 13, 16 -8 -7 -6 0 4 6 15, 17 -8 0 13, 17 d 15 16, 18 -9 -3 4 0 12, 19 -9 7 -6 0 4 7 18, 20 0 8 11 10 19"),
        3: ("p cnf 10 14", "10, 5, -6, -7, -10 3 4, -8, -9",
            "15 -8 -3 -4 0 13, 16 -8 -7 -6 0 4 6 15, 17 -8 0 13, 17 d 15 16, 18 -9 -3 4 0 14, 19 -9 7 -6 0 4 7 18, 20 -9 0 14, 20 d 18 19, "
            "21 -10 3 4 0 12, 22 -10 7 6 0 5 7 21, 23 0 8 11 10 22"),
        None: ("p cnf 10 20", "-8 -3 -4, -8 5, -8 6, -8 7, -9 -3 4, -9 5, -9 6, -9 -7, -10 3 4, -10 5, -10 -6, -10 -7, 8 9 10",
            "21 -8 -3 -4 0 8, 22 -8 -7 -6 0 4 6 21, 23 -8 0 11 10 22, 23 d 21 22, 24 -9 -3 4 0 12, 25 -9 7 -6 0 4 7 24, 26 -9 0 15 14 25, 26 d 24 25, "
            "27 -10 3 4 0 16, 28 -10 7 6 0 5 7 27, 29 -10 0 19 18 28, 29 d 27 28, 30 0 23 26 29 20"),
    }),
    # a signature of two cycles: the second frame's variables are the first's plus 7, and the link is 15
    "older": (None, "-1, -5 2, 5 -2, -6 3, 6 -3, -7 3, 7 -3, -8, -12 9, 12 -9, -13 10, 13 -10, -14 10, 14 -10, -15 -12 3, -15 12 -3, -15 -13 4, -15 13 -4", {
        1: ("p cnf 18 27", "16, 5, 6, 7, 15, 14, -16 -3 -4, -17, -18", "28 -16 -3 -4 0 25, 29 -15 -16 -14 -6 0 4 13 28 12 17, 30 0 23 19 24 21 29"),
        3: ("p cnf 18 28", "18, 5, -6, -7, -15, -3, -4, -18 3 4, -16, -17",
            "29 -16 -3 -4 0 27, 30 -15 -16 -14 -6 0 4 13 29 12 17, 31 -16 0 27, 31 d 29 30, 32 -17 -3 4 0 28, 33 -15 -17 14 -6 0 4 14 32 11 18, 34 -17 0 28, "
            "34 d 32 33, 35 -18 3 4 0 26, 36 -18 3 4 0 35, 37 0 19 24 25 36"),
        None: ("p cnf 18 38",
            "-16 -3 -4, -16 5, -16 6, -16 7, -16 15, -16 14, -17 -3 4, -17 5, -17 6, -17 7, -17 15, -17 -14, -18 3 4, -18 5, -18 -6, -18 -7, -18 -15, -18 -3, -18 -4, "
            "16 17 18",
            "39 -16 -3 -4 0 19, 40 -15 -16 -14 -6 0 4 13 39 12 17, 41 -16 0 23 24 21 40, 41 d 39 40, 42 -17 -3 4 0 25, 43 -15 -17 14 -6 0 4 14 42 11 18, "
            "44 -17 0 29 30 27 43, 44 d 42 43, 45 -18 3 4 0 31, 46 -18 3 4 0 45, 47 -18 0 36 37 46, 47 d 45 46, 48 0 41 44 47 38"),
    }),
    # an empty list: the and gate has a constant 0 as an input
    "none": (
        ("module z(ck); input ck; and g(d,q,1'b0); dff f(ck,q,d); endmodule\n", "", "run a 0, end", "state 1, sig ., end",
            "backspace 1, asked 64 candidates 256 conflicts 100000, step 1, present 1, stored ., list finished 8, nohit, stop empty, trace 0, state 1, "
            "log 4, s, 8 -5 0 5 6 2 0, e 8, r 9, end"),
        "-2 3, -2 4, 2 -3 -4, -1, -4, -5 2, 5 -2", {
        1: ("p cnf 6 9", "6, 5", "10 -5 0 5 6 2, 11 0 9 10"),
        None: ("p cnf 6 9", "-6 5, 6", "10 -5 0 5 6 2, 11 -6 0 8 10, 12 0 11 9"),
    }),
    # an enable and a clear
    "kept": (
        ("module er(ck,a,e,r); input ck,a,e,r; dffe f0(ck,q0,a,e); dffr f1(ck,q1,q0,r); endmodule\n", "bit q1", "run a 2, 110, 110, end", "state 11, sig 0, end",
            "backspace 1, asked 64 candidates 256 conflicts 100000, step 1, present 11, stored 0, cand 10 input 000, list finished 12, hit 1 1 10, "
            "step 2, present 10, stored 0, cand 00 input 111, cand 10 input 001, list finished 16, hit 1 0 00, stop reset, trace 2, state 00, input 111, "
            "state 10, input 000, state 11, log 16, s, b 11 -10 -5 6 0, s, 12 -10 9 -8 0 6 10 11 0, e 12, r 13, d 11 12 0, s, b 14 -11 -5 6 0, s, "
            "b 15 -11 5 6 0, s, 16 -11 9 0 10 14 15 0, e 16, r 17, d 14 15 16 0, end"),
        "-1, -7 -3 2, 7 -3 -2, -7 3 5, 7 3 -5, -8 5, -8 -4, 8 -5 4, -9 6, 9 -6", {
        1: ("p cnf 11 16", "10, 7, 8, -9, -10 -5 6, -11", "17 -10 -5 6 0 15, 18 -10 9 -8 0 6 10 17, 19 0 11 14 13 18"),
        2: ("p cnf 11 17", "11, 7, -8, -9, -11 -5 6, -11 5 6, -10",
            "18 -10 -5 6 0 17, 19 -10 9 -8 0 6 10 18, 20 -10 0 17, 20 d 18 19, 21 -11 -5 6 0 15, 22 -11 5 6 0 16, 23 -11 9 0 10 21 22, 24 0 11 14 23"),
        None: ("p cnf 11 20", "-10 -5 6, -10 7, -10 8, -10 -9, -11 -5 6, -11 5 6, -11 7, -11 -8, -11 -9, 10 11",
            "21 -10 -5 6 0 11, 22 -10 9 -8 0 6 10 21, 23 -10 0 14 13 22, 23 d 21 22, 24 -11 -5 6 0 15, 25 -11 5 6 0 16, 26 -11 9 0 10 24 25, 27 -11 0 19 26, "
            "27 d 24 25 26, 28 0 23 27 20"),
    }),
    # a finished list behind one that is cut
    "behind": (
        ("module o(ck,a); input ck,a; or g(d,q0,q1); dff f0(ck,q0,a); dff f1(ck,q1,d); endmodule\n", "", "run a 2, 1, 1, end", "state 11, sig ., end",
            "backspace 1, asked 64 candidates 2 conflicts 100000, step 1, present 11, stored ., cand 01 input 1, cand 10 input 1, list candidates, hit 1 1 10, "
            "step 2, present 10, stored ., cand 00 input 1, list finished 13, hit 1 0 00, stop reset, trace 2, state 00, input 1, state 10, input 1, state 11, "
            "log 13, s, b 9 -8 4 -5 0, s, b 10 -8 -4 5 0, r 11, d 9 10 0, s, b 12 -9 4 5 0, s, 13 -9 7 0 8 1 2 12 0, e 13, r 14, d 12 13 0, end"),
        "3 -4, 3 -5, -3 4 5, -1, -6 2, 6 -2, -7 3, 7 -3", {
        2: ("p cnf 9 13", "9, 6, -7, -9 4 5, -8",
            "14 -8 4 -5 0 13, 15 -8 -4 5 0 13, 16 -8 0 13, 16 d 14 15, 17 -9 4 5 0 12, 18 -9 7 0 8 1 2 17, 19 0 9 11 18"),
        None: ("p cnf 9 15", "-8 4 -5, -8 -4 5, -8, -9 4 5, -9 6, -9 -7, 9",
            "16 -8 4 -5 0 9, 17 -8 -4 5 0 10, 18 -8 0 11, 18 d 16 17, 19 -9 4 5 0 12, 20 -9 7 0 8 1 2 19, 21 -9 0 14 20, 21 d 19 20, 22 0 21 15"),
    }),
}
# A chip, a state, an answer, the unrolled clauses, and the same by lengths: a flip-flop behind another, 11 in two cycles and not in one;
# the same asked for one cycle alone; and a flip-flop that keeps its bit, 1 in no cycle up to three.
CHAIN = "module sh(ck,a); input ck,a; dff f0(ck,q0,a); dff f1(ck,q1,q0); endmodule\n"
CHAIN_LOG = "log 6, s, 17 -6 0 4 11 0, e 17, r 18, s, r 19, end"
CHAIN_ANSWER = lines_of("reach 1, asked 2 conflicts 9, result reached 2, state 00, input 1, state 10, input 1, state 11, " + CHAIN_LOG)
KEEPER = "module kp(ck); input ck; dff f0(ck,q,q); endmodule\n"
KEEPER_ANSWER = lines_of(
    "reach 1, asked 3 conflicts 9, result unreached, log 12, s, 15 -3 0 2 10 0, e 15, r 16, s, 17 -6 0 5 12 15 0, e 17, r 18, s, "
    "19 -9 0 8 14 17 0, e 19, r 20, end")
LENGTHS = {
    "chain": (CHAIN, "11", CHAIN_ANSWER, "-1, -5 2, 5 -2, -6 3, 6 -3, -7, -11 8, 11 -8, -12 9, 12 -9, -3, -4, -5 9, 5 -9, -6 10, 6 -10", {
        1: ("p cnf 14 20", "13, 5, 6, -14", "21 -6 0 4 11, 22 0 19 21"),
        None: ("p cnf 14 20", "-13 5, -13 6, -14, 13", "21 -6 0 4 11, 22 -13 0 18 21, 23 -14 0 19, 24 0 22 20"),
    }),
    "short": (CHAIN, "11", lines_of("reach 1, asked 1 conflicts 9, result unreached, log 4, s, 8 -6 0 4 6 0, e 8, r 9, end"), "-1, -5 2, 5 -2, -6 3, 6 -3, -3, -4", {
        1: ("p cnf 7 10", "7, 5, 6", "11 -6 0 4 6, 12 0 10 11"),
        None: ("p cnf 7 10", "-7 5, -7 6, 7", "11 -6 0 4 6, 12 -7 0 9 11, 13 0 12 10"),
    }),
    "keeper": (KEEPER, "1", KEEPER_ANSWER, "-1, -3 2, 3 -2, -4, -6 5, 6 -5, -7, -9 8, 9 -8, -2, -3 5, 3 -5, -6 8, 6 -8", {
        1: ("p cnf 12 18", "10, 3, -11, -12", "19 -3 0 2 10, 20 0 16 19"),
        3: ("p cnf 12 18", "12, 9, -10, -11", "19 -3 0 2 10, 20 -10 0 17, 21 -6 0 5 12 19, 22 -11 0 18, 23 -9 0 8 14 21, 24 0 16 23"),
        None: ("p cnf 12 18", "-10 3, -11 6, -12 9, 10 11 12",
            "19 -3 0 2 10, 20 -10 0 15 19, 21 -6 0 5 12 19, 22 -11 0 16 21, 23 -9 0 8 14 21, 24 -12 0 17 23, 25 0 20 22 24 18"),
    }),
}


def answer_files(it):
    """The netlists and the answers of the lengths above."""
    for name, (netlist, _, answer, *_) in LENGTHS.items():
        it.write(f"{name}.v", netlist)
        it.write(f"{name}.txt", answer)


def list_files(it):
    """The files of each chip of the lists above, in its folder of the examples."""
    example_files(it)
    for name, (chip, *_) in LISTS.items():
        if chip:
            netlist, *texts = chip
            it.write(f"ex/{name}/netlist.v", netlist)
            for kind, text in zip(KINDS[1:], texts):
                it.write(f"ex/{name}/{kind}.txt", lines_of(text) if text else "")


def refutes(it, commands, words, clauses, texts):
    """Compares clauses and their refutation with texts by hand, which the strict checker accepts."""
    header, behind, proof = texts
    cnf, lrat = f"{header}\n" + lines_of(f"{clauses}, {behind}", " 0\n"), lines_of(proof, " 0\n")
    for command, text in zip(commands, (cnf, lrat)):
        it.tried("backspace_inspect", [command, *words], 0, text)
    lrat_check.refuted(iter(cnf.splitlines()), iter(lrat.splitlines()))


def evidence(it):
    """Clauses of lists and of lengths, and their refutations: a step behind others, an empty list, two signatures, an enable, a clear, a cut list."""
    list_files(it)
    answer_files(it)
    for name, (_, clauses, steps) in LISTS.items():
        files = [f"ex/{name}/netlist.v", *(f"ex/{name}/{kind}.txt" for kind in KINDS[1:])]
        it.tried("backspace", ["audit", *files], 0, "accepted\n")
        for step, texts in steps.items():
            words = [*files[:2], files[4], *(["--step", str(step)] if step else [])]
            refutes(it, ("cnf", "lrat"), words, clauses, texts)
    for name, (_, state, _, clauses, lengths) in LENGTHS.items():
        for length, texts in lengths.items():
            words = [f"{name}.v", state, f"{name}.txt", *(["--length", str(length)] if length else [])]
            refutes(it, ("reach-cnf", "reach-lrat"), words, clauses, texts)


# searches: a netlist, a state, cycles and conflicts, the result, and whether a length is refuted
SEARCHES = [
    ("module sh(ck,a); input ck,a; dff f0(ck,q0,a); dff f1(ck,q1,q0); endmodule", "11", 5, 100_000, "reached 2", True),
    ("module sh(ck,a); input ck,a; dff f0(ck,q0,a); dff f1(ck,q1,q0); endmodule", "11", 40, 100_000, "reached 2", True),
    ("module z(ck); input ck; and g(d,q,1'b0); dff f(ck,q,d); endmodule", "1", 3, 100_000, "unreached", True),
    # the inputs of the two cycles differ
    ("module sh(ck,a); input ck,a; dff f0(ck,q0,a); dff f1(ck,q1,q0); endmodule", "01", 40, 100_000, "reached 2", True),
    # the last length alone spends the budget
    ("module h(ck,a,b,c); input ck,a,b,c; xor x(p,a,b); xor y(q,b,c); xor z(r,c,a); and g(d,p,q,r); dff f(ck,s,d); endmodule", "1", 1, 1, "unknown 1", False),
    ("module h(ck,a,b,c); input ck,a,b,c; xor x(p,a,b); xor y(q,b,c); xor z(r,c,a); and g(d,p,q,r); dff f(ck,s,d); endmodule", "1", 3, 1, "unknown 1", False),
]


def executions(it):
    """Searches: the checker takes the log of each, the strict checker the refutation, and the model goes through the execution."""
    for text, state, cycles, budget, result, is_refuted in SEARCHES:
        it.write("x.v", text)
        _, out, _ = it.run("backspace", ["reach", "x.v", state, str(cycles), "--conflicts", str(budget)])
        it.write("x.txt", out)
        lines = out.decode().splitlines()
        same(f"a search of {cycles} cycles", f"result {result}", lines[2])
        proofs = [it.run("backspace_inspect", [command, "x.v", state, "x.txt"]) for command in ("reach-cnf", "reach-lrat")]
        if is_refuted:
            same("its clauses and their refutation", "0 0", " ".join(str(code) for code, _, _ in proofs))
            lrat_check.refuted(*(iter(text_.decode().splitlines()) for _, text_, _ in proofs))
        else:
            same("a search that refutes no length", "11 rejected unfinished\n" * 2, "".join(f"{code} {text_.decode()}" for code, text_, _ in proofs))
        states, inputs = ([line.split()[1] for line in lines if line.startswith(word)] for word in ("state ", "input "))
        wanted = models.states_of(models.Netlist(text), inputs) if states else []
        same("its execution", " ".join(wanted), " ".join(states))
        same("its end", state if states else "", states[-1] if states else "")


# a changed log of the first step of the shift register, or of the first length of the chain, and the line that refuses it
LOGS = [
    ("r 10", "r 11", "6 Order"),
    ("s, 9 -8", "9 -8", "3 Order"),
    ("9 -8", "10 -8", "4 Order"),
    ("d 8 9", "d 9 8", "7 Order"),
    ("e 9", "e 8", "5 NoClause"),
    ("4 6 8 0", "4 6 9 0", "4 NoClause"),
    ("-7 -6 0", "-7 -7 0", "4 Duplicate"),
    ("b 8 -8", "b 8 -9", "2 BadBlock"),
    ("4 6 8 0", "8 4 6 0", "4 NotUnit"),
    ("4 6 8 0", "4 6 0", "4 NotFalse"),
    ("-7 -6 0", "-7 -6 -2 0", "5 BadEnd"),
]
ANSWER_LOGS = [
    ("r 18", "r 19", "4 Order"),
    ("s, r 19", "s, s", "6 Order"),
    ("e 17", "e 16", "3 NoClause"),
    ("4 11 0", "4 17 0", "2 NoClause"),
    ("-6 0", "-6 6 0", "2 Duplicate"),
    ("4 11 0", "2 4 11 0", "2 NotUnit"),
    ("4 11 0", "4 0", "2 NotFalse"),
    ("-6 0", "-6 -1 0", "3 BadEnd"),
]


def evidence_refusals(it):
    """Each reason for which there are no clauses and no refutation, once for each command."""
    list_files(it)
    answer_files(it)
    base_files(it)
    for command in ("cnf", "lrat"):
        unlisted(it, command)
        unread(it, command, [FOUR[0], FOUR[1], "r.txt"], ["netlist", "signature", "report"], "--step", 65_536)
    for command in ("reach-cnf", "reach-lrat"):
        unrefuted(it, command)
        unread(it, command, ["chain.v", "11", "chain.txt"], ["netlist", None, "report"], "--length", 1_024)


def unlisted(it, command):
    """What a report is rejected for."""
    def rejects(text, line, *words, signature="s.txt"):
        it.write("er.txt", text)
        it.tried("backspace_inspect", [command, "n.v", signature, "er.txt", *words], 11, f"rejected {line}\n", rejection(line))

    with open(f"{it.room}/r.txt") as file:
        report = file.read()
    changed = lambda old, new: report.replace(old, new, 1)
    shown = {name: lines_of(chip[4]) for name, (chip, *_) in LISTS.items() if chip}
    with open(f"{it.room}/ex/older/report.txt") as file:
        older = file.read()
    # a depth, a count of steps, widths of the present state and the signatures, a step that is not there: in this order
    wide = changed("present 11\nstored 0", "present 111\nstored 00")
    rejects(older, "format")
    rejects(report, "format", signature="ex/older/signature.txt")
    rejects(wide.replace("asked 64", "asked 2"), "stop", "--step", "4")
    rejects(wide, "step 2 present", "--step", "1")
    rejects(changed("present 11\nstored 0", "present 11\nstored 00"), "step 2 stored")
    rejects(older.replace("older 1", "older ."), "step 1 stored", signature="ex/older/signature.txt")
    rejects(changed("e 9\n", "e 8\n"), "nostep", "--step", "4")
    # a log, also in steps behind the one that is asked for, and one that ends inside a step
    for old, new, line in LOGS:
        log = changed(lines_of(SHIFT_LOG), lines_of(SHIFT_LOG.replace(old, new)))
        size = log[log.index("log ") :].count("\n") - 2
        for words in ([], ["--step", "1"]):
            rejects(log.replace("log 21\n", f"log {size}\n"), f"log {line}", *words)
    rejects(changed("r 16\n", "r 17\n"), "log 20 Order", "--step", "1")
    rejects(changed("e 15\nr 16\nd 14 15 0\n", "").replace("log 21", "log 18"), "log 19 Order", "--step", "1")
    # a list that was cut, one whose search was, and a report without a finished list, or without a list
    it.write("cut.v", LISTS["behind"][0][0])
    it.write("none.txt", "")
    it.write("er.txt", shown["behind"])
    it.tried("backspace_inspect", [command, "cut.v", "none.txt", "er.txt", "--step", "1"], 11, "rejected unfinished\n", rejection("unfinished"))
    for words in ([], ["--step", "1"]):
        rejects(SPENT, "unfinished", *words)
    bare = lines_of("backspace 1, asked 64 candidates 256 conflicts 100000, stop reset, trace 0, state 00, log 0, end")
    rejects(bare, "unfinished")
    rejects(bare, "nostep", "--step", "1")


# a search that spent its budget of one lemma, by hand
SPENT = lines_of(
    "backspace 1, asked 64 candidates 256 conflicts 1, step 1, present 11, stored 1, cand 11 input 1, list conflicts, nohit, stop conflicts, "
    "trace 0, state 11, log 6, s, b 8 -8 -3 -4 0, s, 9 -6 3 0 4 0, r 10, d 8 9 0, end")


def unrefuted(it, command):
    """What an answer of `reach` is rejected for, or its state refused."""
    def answers(text, code, line, *words, state="11", note=""):
        it.write("ea.txt", text)
        if code == 11:
            note = rejection(line.removeprefix("rejected "))
        it.tried("backspace_inspect", [command, "chain.v", state, "ea.txt", *words], code, f"{line}\n", note)

    answers(CHAIN_ANSWER, 11, "rejected nostep", "--length", "3")
    answers(CHAIN_ANSWER.replace("e 17", "e 16"), 11, "rejected nostep", "--length", "3")
    answers(CHAIN_ANSWER, 11, "rejected unfinished", "--length", "2")
    for old, new, line in ANSWER_LOGS:
        text = CHAIN_ANSWER.replace(lines_of(CHAIN_LOG), lines_of(CHAIN_LOG.replace(old, new)))
        for words in ([], ["--length", "1"], ["--length", "2"]):
            answers(text, 11, f"rejected log {line}", *words)
    answers(CHAIN_ANSWER.replace("r 19\n", "").replace("log 6", "log 5"), 11, "rejected log 6 Order", "--length", "1")
    # a search that was undecided in the first length, and one that found the state there: no length is refuted
    undecided = lines_of("reach 1, asked 2 conflicts 1, result unknown 1, log 3, s, 17 -6 3 0 4 0, r 18, end")
    first = lines_of("reach 1, asked 1 conflicts 9, result reached 1, state 00, input 1, state 10, log 2, s, r 8, end")
    for text, state in ((undecided, "11"), (first, "10")):
        for words in ([], ["--length", "1"]):
            answers(text, 11, "rejected unfinished", *words, state=state)
        answers(text, 11, "rejected nostep", "--length", "2", state=state)
    none = lines_of("reach 1, asked 0 conflicts 9, result reached 0, state 00, log 0, end")
    answers(none, 11, "rejected unfinished", state="00")
    answers(none, 11, "rejected nostep", "--length", "1", state="00")
    # for another state the lemma follows and ends no length
    it.tried("backspace_inspect", [command, "keeper.v", "0", "keeper.txt"], 11, "rejected log 3 BadEnd\n", rejection("log 3 BadEnd"))
    # a block is no line of an answer
    block = CHAIN_ANSWER.replace("17 -6 0 4 11 0", "b 17 -13 -3 0")
    answers(block, 10, "refused report Line 11", note=at_place("ea.txt", block, block.index("b 17"), *ANSWER_FORM))
    for text, why, sentence in (
        (CHAIN_ANSWER[:-4], "Short", "the text ends before the line `end` of an answer is whole"),
        (CHAIN_ANSWER + "end\n", "Extra", "bytes follow the line `end` of the answer: a file holds one answer and nothing else"),
    ):
        answers(text, 10, f"refused report {why}", note=said(f"ea.txt: {sentence}"))
    it.tried("backspace_inspect", [command, "chain.v", "11", "r.txt"], 10, "refused report Line 1\n", at_place("r.txt", "backspace 1\n", 0, *ANSWER_FORM))
    # another width, and too many variables for the cycles of the answer; the width comes first
    bits = "the bits stand in the order of the netlist's flip-flops, the first on the left"
    due = lambda state, flops: said(f"the state `{state}`: {len(state)} bits stand here, and {flops} are due: one for each flip-flop of the netlist", bits)
    answers(CHAIN_ANSWER, 9, "refused state Width", state="111", note=due("111", 2))
    it.write("large.v", shift_register(2_048))
    it.write("ea.txt", lines_of("reach 1, asked 1024 conflicts 9, result unreached, log 0, end"))
    large = said("the search is too large: this netlist takes so many variables for each cycle: 4098", "ask for fewer cycles: there may be 4194304 variables in all")
    it.tried("backspace_inspect", [command, "large.v", "1" * 2_048, "ea.txt"], 6, "refused netlist TooLarge\n", large)
    it.tried("backspace_inspect", [command, "large.v", "11", "ea.txt"], 9, "refused state Width\n", due("11", 2_048))


def unread(it, command, files, kinds, option, most):
    """What the files and the words of a command that writes clauses are refused for."""
    tell = lambda words, code, out, note="": it.tried("backspace_inspect", [command, *words], code, out, note)
    usage = f"usage: backspace_inspect {COMPANION[command]}"
    # files are fetched in this order, and an answer first
    order = [2, 0] if kinds[1] is None else [0, 1, 2]
    for at, place in enumerate(order):
        given = [("gone" if it_ in order[at:] else file) for it_, file in enumerate(files)]
        tell(given, 12, f"refused {kinds[place]} ReadFault\n", said("gone: No such file or directory (os error 2)"))
    bare = NETLIST.replace("dff f0(ck, q0, a);\n  dff f1(ck, q1, q0);", "buf b(z, a);")
    it.write("bare.v", bare)
    tell(["bare.v", *files[1:]], 6, "refused netlist NoFlop\n", said("bare.v: there is no flip-flop: cells are dff, dffs, dffe and dffr (docs/FORMATS.md, Netlists)"))
    if kinds[1]:
        it.write("other.s", "bit q2\n")
        tell([files[0], "other.s", files[2]], 7, "refused signature UnknownFlop 1\n", at_place(
            "other.s", "bit q2\n", 4, "no flip-flop has the key `q2`, the name of its output net", nearest("q0", "q1")))
    other = {"--step": "--length", "--length": "--step"}[option]
    for given, why in (
        (files[:2], counted(2)),
        ([*files, "x"], counted(4)),
        ([*files, option, "1", option, "1"], again(7, option)),
        ([*files, "--all"], foreign(5, "--all")),
        ([*files, other, "1"], foreign(5, other)),
    ):
        tell(given, 2, "refused words\n", said(why, usage))
    tell([*files, option, str(most)], 11, "rejected nostep\n", rejection("nostep"))
    for number in ("0", str(most + 1), "01", "x"):
        tell([*files, option, number], 2, "refused words\n", said(f"word 5, `{option}`, wants a number in digits from 1 to {most}", usage))
    if kinds[1] is None:
        tell([files[0], "1x", files[2]], 2, "refused words\n", said(STAND, usage))


# ---- pages


def has(title, text, wanted, absent):
    """Looks for pieces that a text has in this order, and for others that it has not."""
    at = 0
    for piece in wanted:
        if text.find(piece, at) < 0:
            raise Different(f"{title}: these words are not there, or not in this order: {piece}")
        at = text.find(piece, at) + len(piece)
    for piece in absent:
        if re.search(piece, text):
            raise Different(f"{title}: these words are there: {piece}")


def pages(it):
    """Pages of reports that stopped without a hit, by each cause, of one that did not, and of an execution; and with a signature."""
    report = base_files(it)
    answer_files(it)
    it.write("none.txt", "")
    it.write("quiet.txt", "run a 3\n0\n0\n0\nend\n")
    it.write("ed.txt", "state 11\nsig .\nend\n")
    for kind, text in zip(("z.v", "zs.txt", "zt.txt", "zd.txt"), LISTS["none"][0]):
        it.write(kind, text if kind == "z.v" else lines_of(text) if text else "")
    # 32 of 64 states have the signature 1, and no recorded one has
    it.write("many.v", "module many(ck, x); input ck; input [5:0] x;\n" + "".join(f"dff (ck, q{i}, x[{i}]);\n" for i in range(6)) + "endmodule\n")
    it.write("many.s", "bit q0\n")
    it.write("many.t", "run a 0\nend\n")
    it.write("many.d", "state 000000\nsig 1\nend\n")
    it.write("spent.r", SPENT)
    it.tried("backspace", ["audit", "n.v", "s.txt", "quiet.txt", "d.txt", "spent.r"], 0, "accepted\n")
    made = lambda name, *words: it.write(name, it.run("backspace", ["run", *words])[1])
    made("nohit.r", "n.v", "s.txt", "quiet.txt", "d.txt")
    made("empty.r", "z.v", "zs.txt", "zt.txt", "zd.txt")
    made("cut.r", "n.v", "none.txt", "quiet.txt", "ed.txt", "--candidates", "1")
    made("many.r", "many.v", "many.s", "many.t", "many.d")
    row = lambda name, bits: f"<tr><th scope='row'>{name}</th>" + "".join(f"<td>{bit}</td>" for bit in bits) + "</tr>\n"
    step = lambda candidates, differ, end: f"<tr><th scope='row'>1</th><td>dump</td><td>{candidates}</td><td>{differ}</td><td>{end}</td><td>none</td>"
    last = lambda count, more: f"The last list</h2>\n<p class='d'>Candidates: {count}, not shown: {more}."
    sixteen = [f"{number:05b}" for number in range(16)]
    many = [row(f"q{i + 1}", [bits[i] for bits in sixteen]) for i in range(5)]
    for stop, netlist, name, wanted in (
        ("nohit", "n.v", "nohit.r", [step(1, 0, "finished"), last(1, 0), row("q0", "1"), row("q1", "1")]),
        ("nohit", "many.v", "many.r", [step(32, 5, "finished"), last(32, 16), "".join(many), "</tbody>"]),
        ("empty", "z.v", "empty.r", [step(0, 0, "finished"), "The last list</h2>\n<p class='d'>It has no candidate.</p>\n"]),
        ("candidates", "n.v", "cut.r", [step(1, 0, "candidates"), last("1+", 0)]),
        ("conflicts", "n.v", "spent.r", [step(1, 0, "conflicts"), last("1+", 0), row("q0", "1"), row("q1", "1")]),
    ):
        shows(it, netlist, name, ["<title>Steps back from the crash: 1</title>", f"<p>Stop <b>{stop}</b>: ", audit_words(netlist, name), *wanted], ["reach-"])
    # the states of the trace are 00, 10, 11, 11: each cell has the value of its first moment
    cells = "<tr><th scope='row'>q0</th><td class='l'><b>0</b></td><td class='h' colspan='3'><b>1</b></td></tr>\n"
    cells += "<tr><th scope='row'>q1</th><td class='l' colspan='2'><b>0</b></td><td class='h' colspan='2'><b>1</b></td></tr>\n"
    shows(it, "n.v", "r.txt", ["<title>Steps back from the crash: 3</title>", "<p>Stop <b>reset</b>: ", audit_words("n.v", "r.txt"), cells], ["The last list", "reach-"])
    commands = "<pre>backspace reach chain.v STATE CYCLES --conflicts 9\nbackspace_inspect reach-cnf chain.v STATE chain.txt\nbackspace_inspect reach-lrat chain.v STATE chain.txt\n</pre>"
    heads = "".join(f"<th scope='col'{end}>{word}</th>" for word, end in (("cycle", ""), ("0", ""), ("1", ""), ("2", " class='x'")))
    shows(it, "chain.v", "chain.txt", ["<title>Cycles from reset: 2</title>", "is <b>reached</b>", commands, heads], ["backspace audit", "The last list", "Stop <b>", "class='. u'"])
    signed_pages(it)


def audit_words(netlist, name, signature="SIGNATURE"):
    return f"<pre>backspace audit {netlist} {signature} STIMULUS DUMP {name}</pre>"


def shows(it, netlist, name, wanted, absent, *words):
    """Looks for words in a page, behind its style."""
    code, out, note = it.run("backspace_inspect", ["page", netlist, name, *words])
    same(f"page {netlist} {name}: code and note", "0 ", f"{code} {note.decode()}")
    front, _, behind = out.decode().partition("<style>")
    has(f"page {netlist} {name}", front + behind.partition("</style>")[2], wanted, absent)


def signed_pages(it):
    """Pages with a signature: which names are marked, in the trace and in the last list, and what the front says."""
    marked = lambda name: f"<tr><th scope='row' class='m'>{name} <span>signature</span></th>"
    plain = lambda name: f"<tr><th scope='row'>{name}</th>"
    legend = "<p class='d'>Where <b>signature</b> stands beside a name, an item of the signature reads a flip-flop of that signal, alone or in a parity.</p>\n<div class='late'"
    items = lambda count: f"data inputs</li>\n<li>items of the signature: {count}</li>\n<li>"
    style = "<style>\nth.m{box-shadow:inset 3px 0 var(--wave)}\nth.m span{display:inline;color:var(--dim)}\n</style>\n</head>"
    # one bit, a parity of both, and no item; the option behind another one, before one and with `=`
    it.write("both.s", "xor q0 q1\nbit q1\n")
    for words, count, rows in (
        (["--signature", "s.txt"], 1, [plain("q0"), marked("q1")]),
        (["--signature=both.s"], 2, [marked("q0"), marked("q1")]),
        (["--signature", "none.txt"], 0, [plain("q0"), plain("q1")]),
        (["--only", "q1", "--signature", "s.txt", "--most", "1"], 1, [marked("q1")]),
        (["--most=1", "--signature", "s.txt"], 1, [plain("q0")]),
    ):
        file = words[words.index("--signature") + 1] if "--signature" in words else "both.s"
        wanted = [style, items(count), audit_words("n.v", "r.txt", file), legend, plain("a") if "q1" not in words else "data inputs", *rows, "</tbody>"]
        shows(it, "n.v", "r.txt", wanted, [" SIGNATURE "], *words)
    _, apart, _ = it.run("backspace_inspect", ["page", "--signature", "s.txt", "n.v", "r.txt"])
    _, behind, _ = it.run("backspace_inspect", ["page", "n.v", "r.txt", "--signature=s.txt"])
    same("page: the option before the files, and behind them", behind, apart)
    # a name with marks
    it.write("a<b>&.s", "bit q1\n")
    shows(it, "n.v", "r.txt", [items(1), audit_words("n.v", "r.txt", "a&lt;b&gt;&amp;.s"), marked("q1")], ["a<b>"], "--signature", "a<b>&.s")
    # in the last list, and of an execution, to whose commands no signature belongs
    cells = lambda head, bits: head + "".join(f"<td>{bit}</td>" for bit in bits) + "</tr>\n"
    sixteen = [f"{number:05b}" for number in range(16)]
    it.write("three.s", "bit q0\nxor q2 q4\n")
    many = [cells((marked if i + 1 in (2, 4) else plain)(f"q{i + 1}"), [bits[i] for bits in sixteen]) for i in range(5)]
    shows(it, "many.v", "many.r", [items(2), audit_words("many.v", "many.r", "three.s"), "".join(many), "</tbody>", legend], [], "--signature", "three.s")
    it.write("chain.s", "bit q1\n")
    shows(it, "chain.v", "chain.txt", [items(1), "<pre>backspace reach chain.v STATE CYCLES", legend, marked("q1")], ["chain\\.s"], "--signature", "chain.s")
    # without the option, nothing of it
    code, out, note = it.run("backspace_inspect", ["page", "n.v", "r.txt"])
    has("page without a signature", out.decode(), [audit_words("n.v", "r.txt")], ["class='m'", "th\\.m", "items of the signature", "stands beside", "<span>signature"])
    # what is refused: the files come in this order, and names last
    tell = lambda words, code, out, note="": it.tried("backspace_inspect", ["page", *words], code, out, note)
    usage = f"usage: backspace_inspect {COMPANION['page']}"
    absent = lambda name: said(f"{name}: No such file or directory (os error 2)")
    tell(["gone.v", "gone.r", "--signature", "gone.s"], 12, "refused netlist ReadFault\n", absent("gone.v"))
    tell(["n.v", "gone.r", "--signature", "gone.s"], 12, "refused signature ReadFault\n", absent("gone.s"))
    tell(["n.v", "gone.r", "--signature", "s.txt"], 12, "refused report ReadFault\n", absent("gone.r"))
    it.write("other.s", "bit q2\n")
    tell(["n.v", "r.txt", "--signature", "other.s", "--only", "q7"], 7, "refused signature UnknownFlop 1\n", at_place(
        "other.s", "bit q2\n", 4, "no flip-flop has the key `q2`, the name of its output net", nearest("q0", "q1")))
    code, out, note = it.run("backspace_inspect", ["page", "n.v", "r.txt", "--signature", "s.txt", "--only", "q7"])
    same("page: a name behind a signature", "18 refused name Unknown q7\n", f"{code} {out.decode()}")
    for given, why in (
        (["--signature"], valueless(4, "--signature")),
        (["--signature", "s.txt", "--signature", "s.txt"], again(6, "--signature")),
        (["--signature", "s.txt", "x"], counted(3)),
    ):
        tell(["n.v", "r.txt", *given], 2, "refused words\n", said(why, usage))


# ---- stops, and notes that no part above has


def stops(it):
    """Stops in the first step, by what the recorded runs show of the dump; and searches that have spent their budget."""
    # three flip-flops in a row, which the run brings to 000, 100 and 110
    it.write("c.v", "module c(ck, a); input ck, a; dff (ck, q0, a); dff (ck, q1, q0); dff (ck, q2, q1); endmodule\n")
    it.write("c.s", "bit q0\nbit q2\n")
    it.write("c.t", "run a 2\n1\n1\nend\n")
    there = "the dump's state is that of run 1 at cycle 2, whose dump has `sig 10`"
    behind = "the first on the left"
    backwards = "this dump has it read backwards: turn it around, so that the bit of the signature's first line is " + behind
    another = "this dump has another: were state and `sig` read at the same cycle, and is the signature file the chip's?"
    both = "turn state and `sig` around: bits are in the order of the netlist's flip-flops and of the signature's lines, " + behind
    state = f"turn the state around: its bits are in the order of the netlist's flip-flops, {behind}; this dump has another `sig`"
    for present, stored, cand, note in (
        ("110", "01", "", said(there, backwards)),
        ("110", "11", "cand 101 input 1\n", said(there, another)),
        ("011", "01", "", said("read backwards, " + there, both)),
        ("011", "11", "cand 111 input 0\n", said("read backwards, " + there, state)),
    ):
        it.write("c.d", f"state {present}\nsig {stored}\nend\n")
        stop = "nohit" if cand else "empty"
        wanted = asked(64) + f"step 1\npresent {present}\nstored {stored}\n{cand}list finished ID\nnohit\nstop {stop}\ntrace 0\nstate {present}\n"
        judged(it, ["run", "c.v", "c.s", "c.t", "c.d"], 3 if cand else 4, wanted, note)
    # two stored signatures
    it.write("c2.s", "cycles 2\nbit q0\nbit q2\n")
    it.write("z.v", LISTS["none"][0][0])
    it.write("z2.s", "cycles 2\nbit q\n")
    it.write("z2.t", "run a 2\n.\n.\nend\n")
    none = "the dump's state is that of run 1 at cycle 0, whose dump has `sig none` and `old none`"
    for files, present, stored, older, note in (
        (["c.v", "c2.s", "c.t"], "110", "01", "00", said(there + " and `old 00`", backwards)),
        (["c.v", "c2.s", "c.t"], "110", "01", "01", said(there + " and `old 00`", another)),
        (["z.v", "z2.s", "z2.t"], "0", "1", "1", said(none, another)),
    ):
        it.write("two.d", f"state {present}\nsig {stored}\nold {older}\nend\n")
        wanted = asked(64, form=2) + f"step 1\npresent {present}\nstored {stored}\nolder {older}\nlist finished ID\nnohit\nstop empty\ntrace 0\nstate {present}\n"
        judged(it, ["run", *files, "two.d"], 4, wanted, note)
    # dumps of two signatures that are none
    for text, number, saying in (
        ("state 110\nsig 10\nend\n", 3, (
            "the third line of a dump of two cycles is `old BITS` or `old none`", "a bit for each item of the signature, and `old none` behind `sig none`")),
        ("state 110\nsig 10\nold 00\n", 4, ("the fourth line of a dump of two cycles is `end`", "and nothing follows it")),
    ):
        it.write("two.d", text)
        at = len("".join(text.splitlines(True)[: number - 1]))
        it.tried("backspace", ["run", "c.v", "c2.s", "c.t", "two.d"], 9, f"refused dump Line {number}\n", at_place("two.d", text, at, *saying))
    spent(it)


def spent(it):
    """One learnt clause is too few to see that the parity of eight inputs is the same from either end."""
    text = "module y(ck, x);\n  input ck;\n  input [7:0] x;\n"
    for name, order in (("p", range(8)), ("r", range(7, -1, -1))):
        first, *more = order
        before = f"x[{first}]"
        for number, bit in enumerate(more):
            text += f"  xor ({name}{number}, {before}, x[{bit}]);\n"
            before = f"{name}{number}"
    it.write("y.v", text + "  xor (d, p6, r6);\n  dff (ck, q, d);\nendmodule\n")
    it.write("none.txt", "")
    it.write("y.t", "run a 0\nend\n")
    it.write("y.d", "state 1\nsig .\nend\n")
    wanted = asked(64, 256, 1) + "step 1\npresent 1\nstored .\nlist conflicts\nnohit\nstop conflicts\ntrace 0\nstate 1\n"
    note = said(
        "the budget of conflicts is spent, and no run comes to a listed state, in step 1",
        "ask for more with --conflicts B, up to 2^40, or choose a signature that tells more states apart",
        "the dump's state itself was never recorded, nor that state read backwards; this alone is no fault: a crash need not be in a run")
    judged(it, ["run", "y.v", "none.txt", "y.t", "y.d", "--conflicts", "1"], 5, wanted, note)
    code, out, note = it.run("backspace", ["reach", "y.v", "1", "3", "--conflicts=1"])
    front = out.decode().partition("log ")[0]
    same("a search that spends its budget", "5 reach 1\nasked 3 conflicts 1\nresult unknown 1\n", f"{code} {front}")
    same("a search that spends its budget: note", said(
        "the budget of conflicts is spent on this number of cycles, and each smaller one is refuted", "ask for more with --conflicts B, up to 2^40"), note)


def tower(modules, instances, own, last):
    """The text of so many modules, each of which instances the next one as often as said, and of one behind them."""
    text = "".join(f"module m{at}(ck);input ck;{own}m{at + 1}{instances};endmodule\n" for at in range(modules))
    return text + f"module m{modules}(ck);input ck;{last}endmodule\n"


def designs(it):
    """Designs behind each of their limits, and at the deepest one."""
    flop = "not g(d,q);dff f(ck,q,d);"
    it.write("x.v", tower(256, " u(ck)", "", flop))
    it.tried("backspace_inspect", ["flops", "x.v"], 0, "0 \\" + "u." * 256 + "q 0\n")
    for text, why, sentence in (
        (tower(257, " u(ck)", "", flop), "FlatDepth", "instances stand in one another more than 256 deep: take levels out"),
        (tower(18, " u(ck),v(ck)", "", ""), "FlatParts", "on all paths there are more than 400000 gates, flip-flops and instances: give a part of the design"),
        (tower(1, " u(ck),v(ck)", "", "wire [65535:0] w;"), "FlatNets", "on all paths there are more than 100000 nets: give a part of the design"),
        (tower(1, f" {'u' * 3_000}(ck)", "", "wire [65535:0] w;wire [34461:0] v;"), "FlatKeys", (
            "the keys of all nets have more than 268435456 bytes together: give shorter names")),
        (tower(17, " u(ck),v(ck)", "", f"and g(ck{',ck' * 2_049});"), "FlatTerminals", (
            "on all paths gates have more than 268435456 inputs together with constants and ports: give a gate 64 inputs at most")),
    ):
        it.write("x.v", text)
        it.tried("backspace_inspect", ["flops", "x.v"], 6, f"refused netlist {why}\n", said("x.v: " + sentence))
    split, twice = said("x.v: there is no flip-flop: cells are dff, dffs, dffe and dffr (docs/FORMATS.md, Netlists)"), " u(ck),v(ck)"
    great_count = said("x.v: at most 4096 flip-flops are taken, and there are 16384")
    deep = said("x.v: instances stand in one another more than 256 deep: take levels out")
    # 2^40 instances on all paths, in 41 modules with an output and a cell behind them
    paths = "".join(f"module m{at}(ck,z);input ck;output z;m{at + 1} u(ck,z),v(.ck(ck));endmodule\n" for at in range(40))
    paths += "module m40(ck,z);input ck;output z;dff f(ck,z,z);endmodule module dff(ck,q,d);reg q;endmodule"
    many = said("x.v: on all paths there are more than 400000 gates, flip-flops and instances: give a part of the design")
    for text, why, note in (
        (tower(16, twice, "", ""), "NoFlop", split),
        (tower(14, twice, "", flop), "TooMany Flops 16384", great_count),
        (tower(300, twice, "", flop), "FlatDepth", deep),
        (tower(1, " u(ck)", "", "wire [65535:0] w;wire [34462:0] v;"), "NoFlop", split),
        (paths, "FlatParts", many),
    ):
        it.write("x.v", text)
        it.tried("backspace_inspect", ["flops", "x.v"], 6, f"refused netlist {why}\n", note)
    text = tower(1, " u(ck)", "", "wire [65535:0] w;wire [34463:0] v;")
    it.write("x.v", text)
    at = text.index("v;")
    it.tried("backspace_inspect", ["flops", "x.v"], 6, f"refused netlist TooManyNets {at}\n", at_place("x.v", text, at, "there are more than 100000 nets", "split the netlist"))
    # each module has 65,537 nets
    text = tower(64, " u(ck)", "wire [65535:0] w;", flop)
    it.write("x.v", text)
    at = text.index("module m63")
    label = "make ports and wires narrower, or give a part of the design"
    note = at_place("x.v", text, at, "up to this module the modules declare more than 4194304 nets", label)
    it.tried("backspace_inspect", ["flops", "x.v"], 6, f"refused netlist OwnNets {at}\n", note)


CHANGES = """$timescale 1ns $end
$scope module tb $end
$var wire 1 ! ck $end
$var wire 1 % a $end
$var reg 1 & q0 $end
$var reg 1 ' q1 $end
$upscope $end
$enddefinitions $end
#0
0!
1%
x&
0'
#5
1!
0&
#10
0!
#15
1!
"""


def told(it):
    """Orders of a scan chain, traces of another chip, and value changes, that are refused; and what one run alone has."""
    report = base_files(it)
    tell = lambda words, code, out, note="": it.tried("backspace_inspect", words, code, out, note)
    for text, why, at, *saying in (
        ("q0\nq 1\n", "Line 2", 3, "a line is one name, of visible characters alone", "the key of a flip-flop, or its name as RTL writes it"),
        ("q0\nq2\n", "Unknown 2", 3, "no flip-flop has the key `q2`; the nearest: `q0` `q1`", "`flops` tells the keys"),
        ("q0\nq0\n", "Twice 2", 3, "the flip-flop of this line has a line already", "take one of them out"),
    ):
        it.write("o.txt", text)
        tell(["unscan", "n.v", "o.txt", "01"], 17, f"refused map {why}\n", at_place("o.txt", text, at, *saying))
    # an order that lacks a flip-flop, and one without a line
    it.write("o.txt", "q1\n")
    tell(["unscan", "n.v", "o.txt", "1"], 0, "state -1\n", lacking(["q0"], 2))
    tell(["unscan", "n.v", "o.txt", "01"], 9, "refused state Width 2\n", said("there are 2 bits, and the lines of the order are 1"))
    it.write("o.txt", "")
    tell(["unscan", "n.v", "o.txt", "."], 0, "state --\n", lacking(["q0", "q1"], 2))
    it.write("o.txt", "q1\nq0\n")
    tell(["unscan", "n.v", "o.txt", "01"], 0, "state 10\n")
    bits = said("the bits of a pattern are characters 0 and 1 alone, the first one for the first line of the order")
    tell(["unscan", "n.v", "o.txt", "0x"], 9, "refused state Bits\n", bits)
    tell(["unscan", "n.v", "o.txt", "010"], 9, "refused state Width 3\n", said("there are 3 bits, and the lines of the order are 2"))
    # the bits of a file, with white space between them
    it.write("b.txt", "0\r\n 1\n")
    tell(["unscan", "n.v", "o.txt", "@b.txt"], 0, "state 10\n")
    it.write("b.txt", "0x\n")
    tell(["unscan", "n.v", "o.txt", "@b.txt"], 9, "refused state Bits\n", bits)
    # the first input of the trace has a bit too many
    it.write("rx.txt", report.replace("state 00\ninput 1\n", "state 00\ninput 11\n"))
    other = said("rx.txt: input 0 of the trace has not one bit for each data input of the netlist", "is it the report of this very netlist?")
    for command in ("trace", "wave", "page"):
        tell([command, "n.v", "rx.txt"], 10, "refused report TraceInput 0\n", other)
    tell(["why", "n.v", "rx.txt", "q1"], 10, "refused report TraceInput 0\n", other)
    # value changes
    it.write("u.vcd", CHANGES)
    tell(["dump", "n.v", "u.vcd", "--cycle", "1"], 0, "state 00\n")
    tell(["dump", "n.v", "u.vcd", "--cycle", "0"], 16, "refused vcd Unknown q0 5\n", said(
        "u.vcd: the flip-flop `q0` is neither 0 nor 1 before the rising edge at time 5",
        "take a later cycle, or begin with an initial value; of the last cycle the time is that of the last change; `backspace dump .. RUN CYCLE` has the state of a recorded run, and `--partial` writes `-` for what is not known"))
    # q0 is not known before the first edge
    tell(["dump", "n.v", "u.vcd", "--cycle", "0", "--partial"], 0, "state -0\n")
    tell(["dump", "n.v", "u.vcd", "--cycle", "1", "--partial"], 0, "state 00\n")
    tell(["stimulus", "n.v", "u.vcd", "--clock", "ck"], 0, "run u 2\n1\n1\nend\n")
    for bad in ("?\n", "#3\n"):
        text = CHANGES.replace("#10\n", "#10\n" + bad)
        it.write("u.vcd", text)
        at = text.index(bad)
        tell(["stimulus", "n.v", "u.vcd", "--clock", "ck"], 16, f"refused vcd Line {text[:at].count(chr(10)) + 1}\n", at_place(
            "u.vcd", text, at, "a word of this line cannot stand there, or the command that ends here",
            "a value is `0ID`, `1ID`, `xID`, `zID` or `bBITS ID`, a time `#N`, and times rise"))
    it.write("u.vcd", CHANGES.replace("$var reg 1 ' q1 $end\n", "").replace("0'\n", ""))
    tell(["dump", "n.v", "u.vcd", "--cycle", "1"], 16, "refused vcd NoInput q1\n", said(
        "u.vcd: no variable in the clock's scope is the flip-flop `q1`, by the name `q1`; the nearest: `q0`",
        "the design's scope stands behind --scope; where names are others, a file of lines KEY NAME behind --map; a memory's word is dumped where `$dumpvars` names it"))
    # q1 is no variable: in a partial dump `-` stands for it, but not in the state of which a signature is taken
    absent = said(
        "so many flip-flops are not in the simulation, and `-` stands for each of them: 1",
        "`check` tells their names; where they are there, --scope and --map say where")
    tell(["dump", "n.v", "u.vcd", "--cycle", "1", "--partial"], 0, "state 0-\n", absent)
    tell(["dump", "n.v", "u.vcd", "--cycle", "0", "--partial"], 0, "state --\n", absent)
    code, out, note = it.run("backspace_inspect", ["dump", "n.v", "u.vcd", "--cycle", "1", "--partial", "--signature", "s.txt"])
    same("a flip-flop that is missing before a signature", "16 refused vcd Unknown q", f"{code} {out.decode()[:21]}")
    it.write("u.vcd", CHANGES.replace(" q0 $end", " r0 $end").replace(" q1 $end", " r1 $end"))
    code, out, note = it.run("backspace_inspect", ["dump", "n.v", "u.vcd", "--cycle", "1", "--partial"])
    same("a partial dump without any flip-flop", "16 refused vcd NoInput q0\n", f"{code} {out.decode()}")
    novelties(it, tell)
    neighbours(it, tell)
    instances(it, tell)
    two_signatures(it, tell)


def novelties(it, tell):
    """What one run alone has: of two bits, of a vector, nothing, and where there is no other run."""
    it.write("two.t", STIMULUS + STIMULUS.replace("run a", "run b").replace("1\n", "0\n"))
    it.write("v.v", "module v(ck, a); input ck, a; wire [1:0] q; dff (ck, q[0], a); dff (ck, q[1], q[0]); endmodule\n")
    lines = ["1 q0 = 1, others 1\n", "2 q1 = 1, others 1\n"]
    tell(["novel", "n.v", "two.t", "1"], 0, "".join(lines))
    tell(["novel", "n.v", "two.t", "1", "--most", "1"], 0, lines[0])
    tell(["novel", "v.v", "two.t", "1"], 0, "1 q[1:0] = 0x1, others 1\n")
    tell(["novel", "n.v", "two.t", "2"], 0, "nothing new\n")
    tell(["novel", "n.v", "t.txt", "1"], 0, "no other run\n")
    tell(["novel", "n.v", "two.t", "3"], 9, "refused dump Range\n", said(
        "there is no such moment: the stimulus has so many runs: 2", "RUN counts from 1 in the order of the file, and CYCLE from 0 up to the number of cycles"))
    kept(it, tell)


def neighbours(it, tell):
    """What the state of a dump is near to, and each hint."""
    it.write("near.d", "state 01\n")
    tell(["near", "n.v", "t.txt", "near.d"], 0, "run 1 cycle 0 differ 1 of 2\nq1 run 0 dump 1\nhint cell\nhint inverted run 1 cycle 1\nhint shifted run 1 cycle 1\n")
    tell(["near", "n.v", "t.txt", "d.txt"], 0, "run 1 cycle 2 differ 0 of 2\n")
    # a reset that is held; what stands behind the first line is not read
    it.write("held.t", "run h 2\n0\n0\nend\n")
    it.write("near.d", "state 11\nwhatever")
    tell(["near", "n.v", "held.t", "near.d"], 0, "run 1 cycle 0 differ 2 of 2\nq0 run 0 dump 1\nq1 run 0 dump 1\nhint held\nhint inverted run 1 cycle 0\nhint order\n")
    # the lower run, though another one is there earlier
    it.write("late.t", "run a 3\n0\n0\n1\nend\nrun b 3\n1\n0\n0\nend\n")
    it.write("near.d", "state 10\n")
    tell(["near", "n.v", "late.t", "near.d"], 0, "run 1 cycle 3 differ 0 of 2\n")
    # to the end with 0 before it
    it.write("four.v", shift_register(4))
    it.write("four.t", "run a 4\n1\n1\n0\n0\nend\n")
    it.write("near.d", "state 0111\n")
    tell(["near", "four.v", "four.t", "near.d"], 0, "run 1 cycle 3 differ 1 of 4\nq3 run 0 dump 1\nhint cell\nhint inverted run 1 cycle 1\nhint shifted run 1 cycle 4\n")
    # eight flip-flops have a line
    it.write("ten.v", shift_register(10))
    it.write("ten.t", "run a 1\n1\nend\n")
    it.write("near.d", f"state {'1' * 10}\n")
    told = "".join(f"q{at} run 0 dump 1\n" for at in range(1, 9))
    tell(["near", "ten.v", "ten.t", "near.d"], 0, f"run 1 cycle 1 differ 9 of 10\n{told}and 1 more\nhint inverted run 1 cycle 0\nhint order\n")
    # what is no state of this netlist
    width = ("3 bits stand here, and 2 are due: one for each flip-flop of the netlist", "is the dump of this netlist, with this signature?")
    first = ("the first line of a dump is `state BITS`", "a bit for each flip-flop, in the order of the netlist")
    for text, why, saying in (("state 011\nsig 1\nend\n", "Width 1", width), ("11\n", "Line 1", first)):
        it.write("near.d", text)
        tell(["near", "n.v", "t.txt", "near.d"], 9, f"refused dump {why}\n", at_place("near.d", text, 0, *saying))
    for given, kind in ((["gone", "gone", "gone"], "netlist"), (["n.v", "gone", "gone"], "stimulus"), (["n.v", "t.txt", "gone"], "dump")):
        tell(["near", *given], 12, f"refused {kind} ReadFault\n", said("gone: No such file or directory (os error 2)"))


def kept(it, tell):
    """What is told of an enable and a clear, and of each kind of gate."""
    it.write("kept.v", LISTS["kept"][0][0])
    it.write("kept.r", lines_of(LISTS["kept"][0][4]))
    kinds = "".join(f"{kind} (g{at}, a, q1);" for at, kind in enumerate(models.KINDS[:6])) + "buf (g6, a);not (g7, q0);dffs f2(ck,q2,g1);"
    it.write("kinds.v", LISTS["kept"][0][0].replace("endmodule", kinds + "endmodule"))
    for name in ("kept.v", "kinds.v"):
        with open(f"{it.room}/{name}") as file:
            chip = models.Netlist(file.read())
        tell(["flops", name], 0, models.flops_text(chip))
        tell(["inputs", name], 0, models.inputs_text(chip))
        tell(["stats", name], 0, models.stats_text(chip))
    chip, made = models.Netlist(LISTS["kept"][0][0]), models.Report(lines_of(LISTS["kept"][0][4]))
    tell(["trace", "kept.v", "kept.r"], 0, models.trace_text(chip, made))
    tell(["wave", "kept.v", "kept.r"], 0, models.view_text(chip, made))
    tell(["steps", "kept.r"], 0, models.steps_text(made))
    tell(["candidates", "kept.v", "kept.r"], 0, models.lists_text(chip, made))


def instances(it, tell):
    """What the companion tells of a design: vectors of an instance, a part of one, their scopes, and names as RTL has them."""
    it.write("d.v", """module two(ck, d); input ck, d; wire [1:0] q; dff f(ck, q[0], d); dff g(ck, q[1], q[0]); endmodule
module top(ck, a); input ck, a; wire [1:0] v; two u(ck, a); dff h(ck, v[1], a); dff i(ck, v[0], v[1]); endmodule
""")
    tell(["flops", "d.v"], 0, "0 v[1] 0\n1 v[0] 0\n2 [0]\\u.q 0\n3 [1]\\u.q 0\n")
    code, out, note = it.run("backspace", ["reach", "d.v", "1010", "1"])
    same("a state of a design", "0 reach 1\nasked 1 conflicts 100000\nresult reached 1\nstate 0000\ninput 1\nstate 1010\n", f"{code} {out.decode().partition('log ')[0]}")
    it.write("d.txt", out)
    tell(["trace", "d.v", "d.txt"], 0, """0 state reset
0 flop \\u.q[1:0] = 0x0
0 flop v[1:0] = 0x0
0 input a = 1
1 state asked
1 flop \\u.q[1:0] = 0x1
1 flop v[1:0] = 0x2
""")
    tell(["trace", "d.v", "d.txt", "--all", "--only", "u.q[1]", "v"], 0, """0 state reset
0 flop \\u.q[1] = 0
0 flop v[1:0] = 0x0
1 state asked
1 flop \\u.q[1] = 0
1 flop v[1:0] = 0x2
""")
    tell(["trace", "d.v", "d.txt", "--csv"], 0, "state,from,run,cycle,u.q[1:0],v[1:0],a\n0,reset,,,0x0,0x0,1\n1,asked,,,0x1,0x2,\n")
    tell(["wave", "d.v", "d.txt"], 0, """$timescale 1ns $end
$comment 0 state reset $end
$comment 1 state asked $end
$scope module recorded $end
$var integer 32 !! run [31:0] $end
$var integer 32 "! cycle [31:0] $end
$upscope $end
$scope module trace $end
$scope module u $end
$var wire 2 ! q [1:0] $end
$upscope $end
$var wire 1 " a $end
$var wire 1 # ck $end
$var wire 2 $ v [1:0] $end
$upscope $end
$enddefinitions $end
#0
b00 !
1"
0#
b00 $
bx !!
bx "!
#1
b01 !
x"
b10 $
""")
    tell(["keys", "d.v", "u.q", "v[0]"], 0, "xor [0]\\u.q [1]\\u.q\nxor v[0]\n")
    it.write("o.txt", "u.q[1]\nu.q[0]\nv[0]\nv[1]\n")
    tell(["unscan", "d.v", "o.txt", "0101"], 0, "state 1010\n")
    for given in (["page"], ["why", "u.q[0]"]):
        code, out, note = it.run("backspace_inspect", [given[0], "d.v", "d.txt", *given[1:]])
        same(f"{given[0]} d.v d.txt", "0 True ", f"{code} {b'u.q' in out} {note.decode()}")


def two_signatures(it, tell):
    """What the companion tells where the register keeps two signatures."""
    example_files(it)
    with open(f"{it.room}/ex/older/netlist.v") as file:
        chip = models.Netlist(file.read())
    with open(f"{it.room}/ex/older/report.txt") as file:
        made = models.Report(file.read())
    files = ["ex/older/netlist.v", "ex/older/report.txt"]
    tell(["trace", *files], 0, models.trace_text(chip, made))
    tell(["trace", *files, "--csv"], 0, models.trace_table(chip, made))
    tell(["wave", *files], 0, models.view_text(chip, made))
    tell(["steps", files[1]], 0, models.steps_text(made))
    tell(["steps", "--csv", files[1]], 0, models.steps_table(made))
    it.write("s2.txt", "cycles 2\nbit q1\n")
    it.write("w.vcd", CHANGES.replace("x&", "0&").replace("1!\n0&", "1!\n1&") + "1'\n#20\n0!\n#25\n1!\n#30\n0!\n")
    for cycle, text in enumerate(("00 none none", "10 0 none", "11 0 0", "11 1 0")):
        state, stored, older = text.split()
        tell(["dump", "n.v", "w.vcd", "--cycle", str(cycle), "--signature", "s2.txt"], 0, f"state {state}\nsig {stored}\nold {older}\nend\n")
    early = CHANGES.replace("x&", "0&").replace("1!\n0&", "1!\n1&").replace("#0\n", "#2\n") + "1'\n"
    it.write("w.vcd", early)
    tell(["dump", "n.v", "w.vcd", "--cycle", "2", "--signature", "s2.txt"], 0, "state 11\nsig 0\nold 0\nend\n")
    tell(["dump", "n.v", "w.vcd", "--cycle", "1", "--signature", "s2.txt"], 16, "refused vcd Late 2\n", said(
        "w.vcd: the values begin at time 2, and the states before that are not in the text",
        "a dump with a signature wants them: take a later cycle, or begin to dump at time 0"))


# ---- limits


def memory(it):
    """Memory that runs out: 14, nothing is written, and the note says so."""
    base_files(it)

    def limited():
        resource.setrlimit(resource.RLIMIT_AS, (48 * MIB, 48 * MIB))

    it.write("great.txt", [b"run a 65536\n", *[b"1\n" * 65_536] * 500])
    it.tried("backspace", ["run", "n.v", "s.txt", "great.txt", "d.txt"], 14, "", NO_MEMORY, preexec_fn=limited)
    it.tried("backspace_inspect", ["signature", "n.v", "great.txt", "--bits", "1"], 14, "", INSPECT_NO_MEMORY, preexec_fn=limited)


def limits(it):
    """Files of as many bytes as they may have, and of one more."""
    report = base_files(it)
    long = lambda name, kind, most: said(f"{name}: the file has more bytes than a {kind} may have: {most}; is it another file, which stands in the wrong place?")
    # a netlist whose text stands at its very end
    for size in (16 * MIB, 16 * MIB + 1):
        it.write("x.v", " " * (size - len(NETLIST)) + NETLIST)
        if size > 16 * MIB:
            it.tried("backspace", ["run", "x.v", *FOUR[1:]], 6, "refused netlist TooLong\n", long("x.v", "netlist", 16_777_216))
            it.tried("backspace_inspect", ["flops", "x.v"], 6, "refused netlist TooLong\n", long("x.v", "netlist", 16_777_216))
        else:
            it.tried("backspace", ["run", "x.v", *FOUR[1:]], 0, report_of(it))
            it.tried("backspace_inspect", ["flops", "x.v"], 0, "0 q0 0\n1 q1 0\n")
    # a signature of one item, with q1 and q0 each an odd number of times: the parity of the two
    line = "xor" + " q1" * 349_523 + " q0\n"
    assert len(line) == MIB
    it.write("x.txt", line)
    it.write("xd.txt", "state 11\nsig 0\nend\n")
    it.tried("backspace", ["dump", "n.v", "x.txt", "t.txt", "1", "3"], 0, "state 11\nsig 0\nend\n")
    it.tried("backspace", ["dump", "n.v", "x.txt", "t.txt", "1", "2"], 0, "state 11\nsig 1\nend\n")
    wanted = asked(64) + STEPS.replace("stored 0", "stored ?").replace("stored 1", "stored 0", 1).replace("stored ?", "stored 1", 1).replace("stored ?", "stored 0")
    judged(it, ["run", "n.v", "x.txt", "t.txt", "xd.txt"], 0, wanted, "")
    it.write("x.txt", line + "\n")
    it.tried("backspace", ["run", "n.v", "x.txt", "t.txt", "xd.txt"], 7, "refused signature TooLong\n", long("x.txt", "signature", MIB))
    it.write("x.txt", "bit q1\n" * 256)
    it.tried("backspace", ["dump", "n.v", "x.txt", "t.txt", "1", "3"], 0, f"state 11\nsig {'1' * 256}\nend\n")
    it.write("x.txt", "x" * MIB)
    note = at_place("x.txt", "x" * MIB, 0, "the first line of a dump is `state BITS`", "a bit for each flip-flop, in the order of the netlist")
    it.tried("backspace", ["run", *FOUR[:3], "x.txt"], 9, "refused dump Line 1\n", note)
    form = said("x.txt:1:1: a line is `KEY NAME`, two words with one space between") + "x" * 160 + "\n^ a key of the netlist, and its name in the simulation\n"
    it.write("a.vcd", "$var wire 1 ! ck $end $var wire 1 % a $end $enddefinitions $end #0 0! 0% #5 1!\n")
    it.tried("backspace_inspect", ["stimulus", "n.v", "a.vcd", "--clock", "ck"], 0, "run a 1\n0\nend\n")
    it.tried("backspace_inspect", ["stimulus", "n.v", "a.vcd", "--clock", "ck", "--map", "x.txt"], 17, "refused map Line 1\n", form)
    it.write("x.txt", "x" * (MIB + 1))
    it.tried("backspace", ["run", *FOUR[:3], "x.txt"], 9, "refused dump TooLong\n", long("x.txt", "dump", MIB))
    it.tried("backspace_inspect", ["stimulus", "n.v", "a.vcd", "--clock", "ck", "--map", "x.txt"], 17, "refused map TooLong\n", long("x.txt", "map", MIB))
    # a report, and value changes, of 512 MiB: bytes 0 that take no room on the disk
    for size in (512 * MIB, 512 * MIB + 1):
        it.write("great.txt", "")
        os.truncate(f"{it.room}/great.txt", size)
        it.write("great.vcd", "$comment ")
        os.truncate(f"{it.room}/great.vcd", size)
        if size > 512 * MIB:
            it.tried("backspace", ["audit", *FOUR, "great.txt"], 10, "refused report TooLong\n", long("great.txt", "report", size - 1))
            for given in (["lrat", *FOUR[:2], "great.txt"], ["reach-lrat", "n.v", "11", "great.txt"]):
                it.tried("backspace_inspect", given, 10, "refused report TooLong\n", long("great.txt", "report", size - 1))
            it.tried("backspace_inspect", ["stimulus", "n.v", "great.vcd", "--clock", "ck"], 16, "refused vcd TooLong\n", long("great.vcd", "vcd", size - 1))
        else:
            short = f"note: great.txt:1:{size + 1}: the text ends before the line `end` of a report is whole\n"
            short += "\\x00" * 160 + "\n" + " " * 640 + "^ was the report cut short, as by a full disk?\n"
            it.tried("backspace", ["audit", *FOUR, "great.txt"], 10, "refused report Short\n", short)
            ended = said("great.vcd: the text ends in its declarations, in a comment or behind a value", "was it cut short? `$enddefinitions $end` stands before the first time")
            it.tried("backspace_inspect", ["stimulus", "n.v", "great.vcd", "--clock", "ck"], 16, "refused vcd Ended\n", ended)
    os.remove(f"{it.room}/great.txt")
    os.remove(f"{it.room}/great.vcd")


def counts(it):
    """As many nets, flip-flops, input port bits, inputs of a gate and values of a waveform as there may be, and one more; the greatest bound."""
    count = lambda what, most, number: said(f"x.v: at most {most} {what} are taken, and there are {number}")
    nets = lambda more: NETLIST.replace("  dff f0", f"  wire [65535:0] v; wire [{99_996 - 65_536 - 1 + more}:0] w;\n  dff f0")
    flops = lambda number: "module m(ck, a); input ck, a;\n" + "".join(f"dff (ck, q{i}, a);\n" for i in range(number)) + "endmodule\n"
    inputs = lambda number: f"module m(ck, a); input ck; input [{number - 2}:0] a; dff f(ck, q, a[0]); endmodule\n"
    terms = lambda number: NETLIST.replace("  dff f1", f"  and g(z{', a' * number});\n  dff f1")
    bound = lambda number: NETLIST.replace("  dff f0", f"  wire [{number}:{number}] v;\n  dff f0")
    for text, code, out, note in (
        (nets(0), 0, "0 a\n", ""),
        (nets(1), 6, "refused netlist TooManyNets {}\n", ("q1, q0", "there are more than 100000 nets", "split the netlist")),
        (flops(4_096), 0, "0 a\n", ""),
        (flops(4_097), 6, "refused netlist TooMany Flops 4097\n", count("flip-flops", 4_096, 4_097)),
        (inputs(4_096), 0, "".join(f"{4_094 - i} a[{i}]\n" for i in range(4_094, -1, -1)), ""),
        (inputs(4_097), 6, "refused netlist TooMany Inputs 4097\n", count("input port bits", 4_096, 4_097)),
        (terms(64), 0, "0 a\n", ""),
        (terms(65), 6, "refused netlist TooMany Terminals 65\n", said("x.v: a gate has at most 64 inputs, and one has 65")),
        (bound(65_535), 0, "0 a\n", ""),
        (bound(65_536), 6, "refused netlist Index {}\n", ("[65536", "this index is none of the vector's, or a bound is above 65535", "compare it with the declaration")),
    ):
        it.write("x.v", text)
        if isinstance(note, tuple):
            at = text.index(note[0])
            out, note = out.format(at), at_place("x.v", text, at, *note[1:])
        it.tried("backspace_inspect", ["inputs", "x.v"], code, out, note)
    # a chain of gates, of which each reads the output of the next one: an even number of them turns the bit
    links = great(20_000, 200)
    text = "module m(ck,a);input ck,a;dff f(ck,q,n0);" + "".join(f"not g(n{at},n{at + 1});" for at in range(links)) + f"buf g(n{links},a);endmodule"
    it.write("x.v", text)
    it.tried("backspace_inspect", ["stats", "x.v"], 0, models.stats_text(models.Netlist(text)))
    it.write("x.txt", "run a 2\n1\n0\nend\n")
    it.write("none.txt", "")
    for cycle, state in ((1, 1), (2, 0)):
        it.tried("backspace", ["dump", "x.v", "none.txt", "x.txt", "1", str(cycle)], 0, f"state {state}\nsig .\nend\n")
    # a list of 300 states of 4,096 bits
    state = "1" * great(4_096, 70)
    text = asked(1, 65_536, 1) + f"step 1\npresent {state}\nstored 1\n" + f"cand {state} input .\n" * 300
    it.write("x.txt", text + f"list conflicts\nnohit\nstop conflicts\ntrace 0\nstate {state}\nlog 0\nend\n")
    it.tried("backspace_inspect", ["steps", "x.txt"], 0, "step 1 candidates 300 differ 0 list conflicts lemmas 0 nohit\n")
    # a waveform of 10,000 nets more
    text = "module m(ck,a); input ck,a; dff (ck,q,a);\n" + "".join(f"buf (b{at},a);\n" for at in range(great(10_000, 100))) + "endmodule"
    it.write("x.v", text)
    it.write("x.s", "bit q\n")
    it.write("x.t", "run a 2\n1\n0\nend\n")
    it.write("x.d", "state 0\nsig 1\nend\n")
    code, report, _ = it.run("backspace", ["run", "x.v", "x.s", "x.t", "x.d"])
    made = models.Report(report.decode())
    same("a trace of 10,000 nets", "0 0 1 0 1 0", " ".join([str(code), *made.states, *made.inputs]))
    it.write("x.r", report)
    it.tried("backspace", ["wave", "x.v", "x.s", "x.t", "x.d", "x.r"], 0, models.wave_text(models.Netlist(text), made))
    # a waveform of 1,024 nets at 65,536 states, and of one net more
    for nets in (1_024, 1_025):
        if SMALL:
            break
        it.write("x.v", NETLIST.replace("  dff f0", f"  wire [{nets - 5}:0] v;\n  dff f0"))
        it.write("x.txt", asked(1) + "stop length\ntrace 65535\nstate 00\n" + "input 0\nstate 00\n" * 65_535 + "log 0\nend\n")
        drawn = ["$timescale 1ns $end", *(f"$comment {at} state none $end" for at in range(65_535)), "$comment 65535 state dump $end"]
        drawn += ["$scope module recorded $end", "$var integer 32 !! run [31:0] $end", '$var integer 32 "! cycle [31:0] $end', "$upscope $end"]
        drawn += ["$scope module trace $end", "$var wire 1 ! q1 $end", "$upscope $end", "$enddefinitions $end"]
        drawn += ["#0", "0!", "bx !!", 'bx "!', *(f"#{at}" for at in range(1, 65_536))]
        large = said("x.txt: the waveform of this trace has too many values, one for each net at each state: draw a shorter trace")
        answer = (0, "\n".join(drawn) + "\n", "") if nets == 1_024 else (10, "refused report TooLarge\n", large)
        it.tried("backspace_inspect", ["wave", "x.v", "x.txt", "--only", "q1"], *answer)


def searches(it):
    """As many states as a search for a recorded moment may ask about, and one more; as many members as a list of the companion counts."""
    # each bit is the product of two inputs, so that any state may follow and no state is passed over; u asks for w before it
    text = "module ask(ck, x, y);\n  input ck;\n  input [13:0] x, y;\n  wire [13:0] q, d;\n"
    text += "".join(f"  and (d[{i}], x[{i}], y[{i}]{', q[1]' if i == 0 else ''});\n  dff (ck, q[{i}], d[{i}]);\n" for i in range(14)) + "endmodule\n"
    it.write("ask.v", text)
    it.write("ask.s", "bit q[2]\n")
    four = ["ask.v", "ask.s", "ask.t", "ask.d"]
    # the input bits stand from x[13] on; d is 1 where both are
    given = lambda state: (state[::-1]) * 2
    state = lambda u, w, t, number: f"{u}{w}{t}{number:011b}"
    present = "1" + "1" * 13
    for asks in (great(1_000, 5), 1_001)[: 1 if SMALL else 2]:
        states = ["0" * 14] + [state(0, 0, 1, number) for number in range(1, asks)] + [state(0, 1, 1, asks)]
        it.write("ask.t", f"run ask {len(states) - 1}\n" + "".join(given(it_) + "\n" for it_ in states[1:]) + "end\n")
        it.write("ask.d", f"state {present}\nsig 1\nend\n")
        code, out, note = it.run("backspace", ["run", *four, "--candidates", "1", "--steps", "1"])
        lines = without_ids(out.decode()).split("\n")
        if asks <= 1_000:
            wanted = f"cand {states[-1]} input {'1' * 28}|list candidates|hit 1 {asks} {states[-1]}|stop length"
            same("a search that asks about 1,000 states", f"0 {wanted}", f"{code} " + "|".join(lines[5:9]))
        else:
            same("a search that would ask about 1,001", "5 list candidates|nohit|stop candidates", f"{code} " + "|".join(lines[6:9]))
            cut_search = said(
                "the list was cut, and so was the search for a recorded moment that leads to the state in one cycle, in step 1",
                "ask for more with --candidates K, up to 65536, or --conflicts B, up to 2^40, or choose a signature that tells more states apart",
                "the dump's state itself was never recorded, nor that state read backwards; this alone is no fault: a crash need not be in a run")
            same("a search that would ask about 1,001: note", cut_search, note)
    # ten bits are lost at each cycle: with one item as signature 512 predecessors, with two 256
    lost = great(10, 3)
    text = f"module lost(ck, x);\n  input ck;\n  input [{lost - 1}:0] x;\n  wire [{lost - 1}:0] q;\n" + "".join(f"  dff (ck, q[{i}], x[{i}]);\n" for i in range(lost)) + "endmodule\n"
    it.write("lost.v", text)
    draws = random.Random(10)
    inputs = [f"{draws.randrange(1 << lost):0{lost}b}" for _ in range(great(100, 10))]
    it.write("lost.t", f"run lost {len(inputs)}\n" + "\n".join(inputs) + "\nend\n")
    chip = models.Netlist(text)
    states = [models.states_of(chip, inputs)]
    for bits in (1, 2, 3):
        predecessors = lambda run, cycle, items: 2 ** (lost - models.rank(items, range(lost)))
        it.tried("backspace_inspect", ["signature", "lost.v", "lost.t", "--bits", str(bits)], 0, models.signature_text(chip, states, bits, predecessors))
    # thirty bits of sixty are lost at each cycle: 16 and 24 items are too few
    many = 30
    text = f"module pair(ck, x);\n  input ck;\n  input [{many - 1}:0] x;\n  wire [{many - 1}:0] q, r;\n"
    text += "".join(f"  dff (ck, q[{i}], x[{i}]);\n" for i in range(many)) + "".join(f"  dff (ck, r[{i}], q[{i}]);\n" for i in range(many)) + "endmodule\n"
    it.write("pair.v", text)
    inputs = [f"{draws.randrange(1 << many):0{many}b}" for _ in range(5)]
    it.write("pair.t", f"run pair {len(inputs)}\n" + "\n".join(inputs) + "\nend\n")
    chip = models.Netlist(text)
    predecessors = lambda run, cycle, items: 2 ** (many - models.rank(items, range(many, 2 * many)))
    it.tried("backspace_inspect", ["signature", "pair.v", "pair.t", "--bits", "16"], 0, models.signature_text(chip, [models.states_of(chip, inputs)], 16, predecessors))
    # more bits are lost than a signature has items: no number of items is enough
    text = "module far(ck, x);\n  input ck;\n  input [299:0] x;\n  wire [299:0] q;\n" + "".join(f"  dff (ck, q[{i}], x[{i}]);\n" for i in range(300)) + "endmodule\n"
    it.write("far.v", text)
    inputs = [f"{draws.randrange(1 << 300):0300b}" for _ in range(2)]
    it.write("far.t", f"run far {len(inputs)}\n" + "\n".join(inputs) + "\nend\n")
    chip = models.Netlist(text)
    predecessors = lambda run, cycle, items: 2 ** (300 - models.rank(items, range(300)))
    it.tried("backspace_inspect", ["signature", "far.v", "far.t", "--bits", "1"], 0, models.signature_text(chip, [models.states_of(chip, inputs)], 1, predecessors))


GROUPS = [examples, words, codes, refusals, files, names, outputs, long_netlist, long_report, many_runs, proposals, wide_chip, far_states, value_changes, companion, companion_refusals, evidence, executions, evidence_refusals, pages, stops, designs, told, memory, limits, counts, searches]


def main():
    global SMALL
    words, only = sys.argv[1:], []
    while words[:1] in (["--only"], ["--small"]):
        if words[0] == "--small":
            SMALL, words = True, words[1:]
        else:
            only, words = [*only, words[1]], words[2:]
    paths = words
    if not paths:
        paths = [f"{ROOT}/crates/{name}/out/{name}" for name in ("backspace", "backspace_inspect")]
        for path in paths:
            if not os.path.exists(path):
                subprocess.run(["rt", "run", "--", "demo", "1"], cwd=os.path.dirname(os.path.dirname(path)), stdout=subprocess.DEVNULL)
    room = tempfile.mkdtemp(prefix="programs-")
    started = time.monotonic()
    try:
        it = Programs(paths, room)
        for group in GROUPS:
            if not only or group.__name__ in only:
                before, count = time.monotonic(), it.count
                group(it)
                print(f"{group.__name__}: {it.count - count} runs, {time.monotonic() - before:.1f} s", flush=True)
    except Different as difference:
        print(difference)
        return 1
    finally:
        for at, folders, _ in os.walk(room):
            os.chmod(at, 0o755)
        shutil.rmtree(room, ignore_errors=True)
    print(f"{it.count} runs are as they should be, {time.monotonic() - started:.0f} s")
    return 0


if __name__ == "__main__":
    sys.exit(main())
