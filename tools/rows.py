#!/usr/bin/env python3
"""Worked rows: whole runs of the two built programs on the small files of tools/rows/. Part of the gate.

At the top of the repository: python3 tools/rows.py [--only NAME ..] [BACKSPACE INSPECT]. NAME is a table, or a file of tools/rows/ without its
ending. The programs are those that `rt ci` and `rt run` leave in out/, unless others are given. Each run has a new folder. The first row that
comes out otherwise is shown as a diff, and ends the script with 1. tools/rows/README.md says how a row is written.
"""
import difflib
import glob
import json
import multiprocessing
import os
import resource
import subprocess
import sys
import tempfile
import time

HERE = os.path.dirname(os.path.abspath(__file__))
CRATES = f"{os.path.dirname(HERE)}/crates"
PROGRAMS = {"call": f"{CRATES}/backspace/out/backspace", "ask": f"{CRATES}/backspace_inspect/out/backspace_inspect"}
SECONDS = 120
NAMED = {"text", "table", "file", "made", "gone", "fronts", "output"}
PLAIN = {"every", "row", "call", "ask", "old", "new", "once", "exit", "out", "report", "fill", "note"}
WORDS = {"made", "call", "ask", "exit", "output", "row"}


class Different(Exception):
    pass


# ---- reading the tables


def entries(path):
    """What a file of rows says: the place, the word, its name and the pieces behind it."""
    found = []
    with open(path, encoding="utf-8", newline="") as file:
        for number, line in enumerate(file.read().split("\n"), 1):
            if not line or line[0] == "#":
                continue
            if not line[0].islower():
                found[-1][3].append(line)
                continue
            word, _, rest = line.partition(" ")
            if word not in NAMED | PLAIN:
                raise Different(f"{path}:{number}: `{word}` is no word of a row")
            name, _, rest = rest.partition(" ") if word in NAMED else ("", "", rest)
            found.append((f"{path}:{number}", word, name, [rest] if rest else []))
    return found


def piece(said, texts):
    """The text that a piece stands for."""
    if said[0] == "|":
        return said[1:] + "\n"
    if said[0] == '"':
        return json.loads(said)
    if said[0].isdigit():
        times, _, quoted = said.partition(" ")
        one = json.loads(quoted)
        return "".join(one.replace("#", str(number)) for number in range(int(times)))
    return texts[said]


def value(word, pieces, texts):
    """What is wanted or given: words, some texts, or one text."""
    if word in WORDS:
        return " ".join(pieces)
    made = [piece(said, texts) for said in pieces]
    return made if word == "fill" else "".join(made)


def rows_of(path, texts):
    """The rows of a file: the place, the table, the title, and what each has by word and name. The file's texts go to the others."""
    rows, table, every, has = [], "", {}, None
    for place, word, name, pieces in entries(path):
        try:
            if word == "text":
                texts[name] = value(word, pieces, texts)
            elif word == "table":
                table, every, has = name, {}, None
            elif word == "every":
                has = every
            elif word == "row":
                has = dict(every)
                rows.append((place, table, value(word, pieces, texts), has))
            else:
                has[word, name] = value(word, pieces, texts)
        except (KeyError, TypeError, ValueError) as wrong:
            raise Different(f"{place}: this is no part of a row: {wrong!r}") from None
    return rows


def all_rows():
    """The rows of all files. Each wants an exit code and a text."""
    shared = {}
    rows_of(f"{HERE}/rows/texts.txt", shared)
    rows = [row for path in sorted(glob.glob(f"{HERE}/rows/*.txt")) for row in rows_of(path, dict(shared))]
    for place, _, _, has in rows:
        if len({("call", ""), ("ask", "")} & has.keys()) != 1 or ("exit", "") not in has or not {("out", ""), ("report", ""), ("note", "")} & has.keys():
            raise Different(f"{place}: a row has a call or an ask, an exit code, and an output, a report or a note")
    return rows


# ---- running


class Folder:
    """A new folder with the files of a row."""

    def __init__(self, has):
        self.room = tempfile.TemporaryDirectory(prefix="rows-")
        self.at, self.runs, self.pipes = self.room.name, 0, []
        files = {name: "" for name in "nstdr"}
        files.update({name: text for (word, name), text in has.items() if word == "file"})
        if ("old", "") in has:
            if has["old", ""] not in files["r"]:
                raise Different("the file r has no such text as `old` says")
            files["r"] = files["r"].replace(has["old", ""], has["new", ""], 1)
        for name, text in files.items():
            if ("gone", name) not in has:
                self.put(name, text.encode(), ("once", "") in has)
        for (word, name), words in has.items():
            if word == "made":
                self.put(name, self.run("call", words)[1])

    def put(self, name, content, once=False):
        if once:
            given, taken = os.pipe()
            os.write(taken, content)
            os.close(taken)
            os.symlink(f"/dev/fd/{given}", f"{self.at}/{name}")
            self.pipes.append(given)
        else:
            with open(f"{self.at}/{name}", "wb") as file:
                file.write(content)

    def run(self, program, words, **how):
        """The exit code, standard output and standard error of a program."""
        given = {"stdin": subprocess.DEVNULL, "stdout": subprocess.PIPE, "stderr": subprocess.PIPE, "pass_fds": self.pipes, **how}
        try:
            done = subprocess.run([PROGRAMS[program], *words.split(" ")], cwd=self.at, timeout=SECONDS, **given)
        except subprocess.TimeoutExpired:
            raise Different(f"`{words}` had not ended after {SECONDS} seconds") from None
        self.runs += 1
        return done.returncode, done.stdout or b"", done.stderr

    def run_within(self, program, words, most):
        """The same with an output that takes so many bytes."""
        with tempfile.TemporaryFile() as file:
            code, _, note = self.run(program, words, stdout=file, restore_signals=False, preexec_fn=lambda: resource.setrlimit(resource.RLIMIT_FSIZE, (most, most)))
            file.seek(0)
            return code, file.read(), note

    def run_unread(self, program, words):
        """The same with an output that nobody reads."""
        read, wrote = os.pipe()
        os.close(read)
        try:
            return self.run(program, words, stdout=wrote, restore_signals=False)
        finally:
            os.close(wrote)

    def close(self):
        for given in self.pipes:
            os.close(given)
        self.room.cleanup()


def answer(folder, has):
    """The run of a row."""
    program = "ask" if ("ask", "") in has else "call"
    words = has[program, ""]
    if ("output", "room") in has:
        return folder.run_within(program, words, int(has["output", "room"]))
    return folder.run_unread(program, words) if ("output", "unread") in has else folder.run(program, words)


# ---- comparing


def lines(text):
    """The lines of a text as they are shown."""
    *whole, rest = text.split("\n")
    shown = ["".join(c if c.isprintable() else f"\\x{ord(c):02x}" for c in line) for line in [*whole, rest]]
    return shown[:-1] if not rest else [*shown[:-1], shown[-1] + " (without a line's end)"]


def same(title, wanted, got):
    """Shows where two texts differ, and ends there."""
    if wanted != got:
        shown = difflib.unified_diff(lines(wanted), lines(got), f"{title}: wanted", "what the program gave", lineterm="")
        raise Different("\n".join(shown))


def fits(line, due, fill):
    """Whether a line is as wanted, with this text in the place of a ?, and any rest in that of a * at its end."""
    due = due.replace("?", fill, 1)
    return line.startswith(due[:-1]) if due.endswith("*") else line == due


def fitted(out, wanted, fill):
    """A report up to its log. A line that is as wanted has the wanted form."""
    return "".join((due if fits(line, due, fill) else line) + "\n" for line, due in zip(out.split("\n"), wanted.split("\n")[:-1]))


def front(out, has):
    """The same with the text for each ? that makes it as wanted, if there is one."""
    found = [fitted(out, has["report", ""], fill) for fill in has.get(("fill", ""), [""])]
    return has["report", ""] if has["report", ""] in found else found[0]


def tried_once(has):
    """Runs a row, and answers how many runs it took."""
    folder = Folder(has)
    try:
        code, out, note = [part if isinstance(part, int) else part.decode(errors="backslashreplace") for part in answer(folder, has)]
        if ("out", "") in has:
            same("standard output", has["out", ""], out)
        if ("report", "") in has:
            same("standard output", has["report", ""], front(out, has))
        same("exit code", has["exit", ""] + "\n", f"{code}\n")
        if ("note", "") in has:
            same("standard error", has["note", ""], note)
        if ("report", "") in has:
            folder.put("r", out.encode())
            code, out, _ = folder.run("call", " ".join(["audit", *has["call", ""].split(" ")[1:5], "r"]))
            same("audit of the report", "accepted\n", out.decode(errors="backslashreplace"))
            same("exit code of the audit", "0\n", f"{code}\n")
        return folder.runs
    finally:
        folder.close()


def fronts(has):
    """The row, or one for each front of a file."""
    name = next((name for word, name in has if word == "fronts"), None)
    return [{**has, ("file", name): has["file", name][:cut]} for cut in range(len(has["file", name]))] if name else [has]


def tried(row):
    """How many runs a row took, and the first difference."""
    place, table, title, has = row
    try:
        return sum(tried_once(one) for one in fronts(has)), ""
    except (Different, KeyError) as wrong:
        return 0, f"{os.path.relpath(place)}: {table}: {title or has.get(('call', '')) or has.get(('ask', ''))}\n{wrong}"


def main():
    words, only = sys.argv[1:], []
    while words[:1] == ["--only"]:
        only, words = [*only, words[1]], words[2:]
    PROGRAMS.update(zip(PROGRAMS, map(os.path.abspath, words)))
    missing = next((path for path in PROGRAMS.values() if not os.path.exists(path)), None)
    if missing:
        print(f"there is no {missing}: build it as README.md says")
        return 1
    started, runs = time.monotonic(), 0
    try:
        rows = [row for row in all_rows() if not only or {row[1], os.path.basename(row[0]).partition(".")[0]} & set(only)]
    except Different as wrong:
        print(wrong)
        return 1
    with multiprocessing.get_context("fork").Pool() as pool:
        for row, (count, difference) in zip(rows, pool.imap(tried, rows)):
            if difference:
                print(difference)
                return 1
            runs += count
    print(f"{len(rows)} rows are as they should be: {runs} runs, {time.monotonic() - started:.0f} s")
    return 0 if rows else 1


if __name__ == "__main__":
    sys.exit(main())
