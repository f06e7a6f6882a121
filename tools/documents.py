#!/usr/bin/env python3
"""Compares what the documents name with the tree: part of the gate. At the top of the repository: python3 tools/documents.py

- Each word bs_.. is a crate of crates.txt (or one of the cells that a netlist of the examples has).
- Each path in backticks below crates/, docs/, examples/ or tools/ is there. Behind a path may stand what it defines:
  `crates/NAME/specs/File.antt: definition`, `crates/NAME/src/file.rt: function` or `crates/NAME/src/file.rt: function (clause, clause)`;
  several stand behind one path with commas between.
- A name in backticks behind a crate's, as bs_rup's `checker`, is a module of that crate, or stands in its sources.
- Each link to a document leads to one. Each section of a document that a source or a document cites, as docs/FORMATS.md, "Dump", is a heading of it,
  or a word in bold type.
- A type, a record or a relation that other crates use of two crates has a line in TWO_MEANINGS, with what it means in each.
"""
import glob
import os
import re
import sys

CELLS = {"bs_map", "bs_obuf"}
CRATE = r"\bbs_[a-z_]+\b"
TYPES = r"^\s*pub (?:struct|enum|trait|type) (\w+)"
DEFINITIONS = r"^(?:abbrev|unfoldable) (?:pub )?(\w+)|^(?:pub )?(?:record|data) (?:pub )?(\w+)"
CITED = r"\bRattle\.(bs_\w+)\.(?:specs|proofs)[\w.]*\.\{([^}]*)\}"
IMPORTED = r"^\s*(?:pub )?use (bs_\w+)(?:::\w+)*::(?:\{([^}]*)\}|(\w+))"
DOCUMENTS = ["README.md", "CHANGELOG.md", "CONTRIBUTING.md", "examples/README.md", *sorted(glob.glob("docs/*.md"))]
OWNED = r"\b(bs_[a-z_]+)'s? ((?:`[\w:]+`(?:, | and )?)+)"
SECTION = r"\bdocs/([A-Z_]+)\.md`?, \"([^\"\n]+)\""
TWO_MEANINGS = {
    "Answer": "of a text of several modules in bs_flat_meaning; of a solve in bs_solve_lemmas",
    "Answers": "a reader's result in bs_bits; an answer to `why` in bs_inspect_why",
    "ArePlaced": "parts whose nets have numbers in bs_net; clauses with a place in the arena in bs_watch",
    "Checked": "a netlist that passed its check in bs_net; runs beside their VCDs in bs_inspect_files",
    "Due": "a note that is due in bs_call; what is due in a text in bs_verilog_syntax",
    "Ends": "how a solve ended in bs_solve_lemmas; how a plan may end in bs_outside",
    "Fits": "a valuation in bs_net; a log at a stage in bs_solve_lemmas",
    "Follow": "valuations in bs_net_facts; steps in bs_report",
    "Given": "words that give values to flip-flops in bs_inspect_seen; what stands on a command line in bs_top_words",
    "HasValues": "the trail as the arena has it in bs_watch; as the log has it in bs_solve_lemmas",
    "History": "the lines of a log in bs_log; the moments of a VCD in bs_vcd",
    "IsBefore": "a moment in bs_scan; a state in bs_encode",
    "IsClear": "marks in bs_solve_lemmas; words without a further bit in bs_stim",
    "IsCut": "a mask of runs in bs_break; where a log is cut in bs_solve_lemmas",
    "IsImplied": "a literal of a unit run in bs_clause; a place on the trail in bs_watch",
    "IsRecorded": "runs in bs_stim; a log in bs_solve_lemmas",
    "IsWayOf": "the widths of a trace in bs_net_facts; a trace in bs_wave",
    "IsWithin": "a resolution in bs_clause; a chain of accounts in bs_inspect_causes",
    "Known": "what a VCD has of each variable in bs_vcd; a declared net in bs_verilog_scope",
    "Module": "of a design in bs_flat_meaning; as read in bs_verilog_syntax",
    "Moment": "a run and a cycle in bs_scan; a time of a VCD with its changes in bs_vcd",
    "Outcome": "of propagation in bs_watch; of a search for a state in bs_reach",
    "Piece": "a module's part of a text in bs_flat_meaning; what begins at a place in bs_lex",
    "Range": "of a name in bs_net_names; of a declaration in bs_verilog_syntax",
    "Recorded": "a moment with its candidate in bs_preimage_recorded; a run in bs_stim",
    "Recording": "a chip's circuit, choice and runs in bs_scan; a solver's log and what it is about in bs_solve_lemmas",
    "Says": "words for a reason in bs_outside; what a declaration says in bs_verilog_syntax",
    "Seen": "a trace's nets as far as they are known in bs_net_facts; a state that is known in part in bs_scan",
    "Shows": "a valuation of its sources in bs_net; a state of what is seen in bs_scan",
    "ShowsCycle": "planes in bs_chip; an assignment in bs_encode",
    "Step": "of gates in bs_net; of a report in bs_report",
}
DEFINED = r"^(?:pub )?(?:abbrev|unfoldable|record|data)?\s*(?:pub )?(?:record |data )?{}\b"


def read(path):
    with open(path, encoding="utf-8") as file:
        return file.read()


def crates():
    """Each crate with the crates of the repository that it stands on."""
    lines = [it.split("#")[0].strip() for it in read("crates.txt").splitlines()]
    said = {it.split(":")[0].split()[0]: it.split(":")[1].split() for it in lines if it}
    return {name: {it for it in below if it in said} for name, below in said.items()}


def clauses_of(text, function):
    """The text from a function's name to its body, or None where there is no such function."""
    found = re.search(rf"\bfn {re.escape(function)}\b", text)
    if not found:
        return None
    rest = text[found.end() :]
    end = re.search(r"\n\s*\{(\}|\s*\n)|;\s*\n", rest)
    return rest[: end.start()] if end else rest


def faults_of_place(path, names):
    """What is wrong with a path and the names that stand behind it."""
    if not os.path.exists(path):
        return [f"{path} is not there"]
    if not names:
        return []
    text = read(path)
    if path.endswith(".antt"):
        return [f"{path} does not define {it}" for it in re.findall(r"[\w-]+", names) if not re.search(DEFINED.format(re.escape(it)), text, re.M)]
    return [it for function, clauses in re.findall(r"([\w:]+)(?: \(([^)]*)\))?", names) for it in faults_of_function(path, text, function, clauses)]


def faults_of_function(path, text, function, clauses):
    function = function.split("::")[-1]
    said = clauses_of(text, function)
    if said is None:
        is_item = re.search(rf"\b(struct|enum|trait|const|type|mod) {re.escape(function)}\b", text)
        return [] if is_item else [f"{path} has no {function}"]
    named = [it for it in re.findall(r"\w+", clauses) if not re.search(rf"\bensures\*? {it}\b", said)]
    return [f"{path}: {function} has no clause {it}" for it in named]


def faults_of(document, below):
    text = read(document)
    faults = [f"{it} is no crate" for it in sorted(set(re.findall(CRATE, text)) - set(below) - CELLS)]
    for path, _, names in re.findall(r"`((?:crates|docs|examples|tools)/[\w./-]+)(: ([^`]+))?`", text):
        if "/out/" not in path and "/NAME/" not in path and "/CRATE/" not in path:
            faults += faults_of_place(path.rstrip("."), names)
    for crate, names in re.findall(OWNED, text):
        owned = texts_of(crate, "src/**/*.rt", "specs/*.antt")
        for name in re.findall(r"`(?:\w+::)*(\w+)`", names):
            if not glob.glob(f"crates/{crate}/src/**/{name}.rt", recursive=True) and not any(re.search(rf"\b{name}\b", it) for it in owned):
                faults.append(f"{crate} has no {name}")
    for link in re.findall(r"\]\(([\w./-]+\.md)\b[^)]*\)", text):
        if not os.path.exists(os.path.join(os.path.dirname(document), link)):
            faults.append(f"the link to {link} leads nowhere")
    return faults


def faults_of_sections():
    """The cited sections that the documents do not have."""
    cited = {}
    for path in DOCUMENTS + [it for kind in ("src/**/*.rt", "specs/*.antt", "proofs/**/*.antt") for it in glob.glob(f"crates/*/{kind}", recursive=True)]:
        for name, section in re.findall(SECTION, read(path)) if os.path.exists(path) else []:
            cited.setdefault((name, section), path)
    heads = {}
    for name in {name for name, _ in cited}:
        text = read(f"docs/{name}.md")
        heads[name] = "\n".join(re.findall(r"^#+ (.*)$", text, re.M) + re.findall(r"\*\*([^*]+)\*\*", text)).lower()
    return [f"{path}: docs/{name}.md has no section {section}" for (name, section), path in sorted(cited.items()) if section.lower() not in heads[name]]


def items_of(text, pattern):
    return {it for found in re.finditer(pattern, text, re.M) for it in found.groups() if it}


def texts_of(crate, *patterns):
    return [read(it) for pattern in patterns for it in sorted(glob.glob(f"crates/{crate}/{pattern}", recursive=True))]


def doubled(below):
    """The types, records and relations that other crates use of two crates, with these crates."""
    defined, used = {}, {}
    for crate in below:
        for name in set().union(
            *(items_of(it, DEFINITIONS) for it in texts_of(crate, "specs/*.antt")), *(items_of(it, TYPES) for it in texts_of(crate, "src/**/*.rt"))
        ):
            defined.setdefault(name, set()).add(crate)
        for text in texts_of(crate, "src/**/*.rt", "specs/*.antt", "proofs/**/*.antt"):
            found = re.findall(CITED, text) + [(of, several or one) for of, several, one in re.findall(IMPORTED, text, re.M)]
            for of, names in found:
                for name in re.findall(r"\w+", names) if of != crate else []:
                    used.setdefault(name, set()).add(of)
    both = {name: sorted(defined[name] & used.get(name, set())) for name in defined if name[0].isupper()}
    return {name: of for name, of in both.items() if len(of) > 1}


def faults_of_words(below):
    """The names with two meanings that TWO_MEANINGS does not have, and those that it has and that have one, or other crates."""
    found = doubled(below)
    faults = [f"{name} is used of {' and '.join(found[name])}, and TWO_MEANINGS has no line for it" for name in sorted({*found} - {*TWO_MEANINGS})]
    faults += [f"TWO_MEANINGS: {name} has one meaning outside its crate" for name in sorted({*TWO_MEANINGS} - {*found})]
    return faults + [f"TWO_MEANINGS: {name} is used of {' and '.join(found[name])}" for name in sorted({*TWO_MEANINGS} & {*found}) if {*re.findall(CRATE, TWO_MEANINGS[name])} != {*found[name]}]


def main():
    below, count = crates(), 0
    for fault in faults_of_words(below):
        print(f"tools/documents.py: {fault}")
        count += 1
    for fault in faults_of_sections():
        print(fault)
        count += 1
    for document in DOCUMENTS:
        for fault in faults_of(document, below) if os.path.exists(document) else [f"{document} is not there"]:
            print(f"{document}: {fault}")
            count += 1
    print("the documents name what is there" if not count else f"{count} names in the documents stand for nothing")
    return 1 if count else 0


sys.exit(main())
