"""What netlists, reports and waveforms mean, said once more and straight from docs/FORMATS.md: wanted texts for tools/programs.py.

A netlist is one module here. Nothing of this is shared with the programs, so that a mistake of theirs is none of this.
"""
import re
from collections import Counter

KINDS = ("and", "nand", "or", "nor", "xor", "xnor", "buf", "not")
CELLS = {"dff": ("CK", "Q", "D"), "dffs": ("CK", "Q", "D"), "dffe": ("CK", "Q", "D", "E"), "dffr": ("CK", "Q", "D", "R")}
TOKEN = re.compile(r"\\[!-~]+|\d+'[bodhBODH]\w+|[A-Za-z_][\w$]*|\d+|\S")
NAME = re.compile(r"[A-Za-z_][\w$]*")


def key_of(name, bit=None):
    plain = NAME.fullmatch(name)
    if bit is None:
        return name if plain else "\\" + name
    return f"{name}[{bit}]" if plain else f"[{bit}]\\{name}"


class Netlist:
    """The parts of a text of one module: nets by number with their keys, inputs without the clock, outputs, gates and flip-flops."""

    def __init__(self, text):
        text = re.sub(r"\bmodule\s+dff[ser]?\b.*?\bendmodule\b", " ", text, flags=re.S)  # a cell, which is passed over
        text = re.sub(r"//[^\n]*|/\*.*?\*/|\(\*(?!\)).*?\*\)", " ", text, flags=re.S)
        self.tokens = TOKEN.findall(text)
        self.at, self.keys, self.number, self.ranges = 0, [], {}, {}
        self.shown = None
        self.module()
        self.order = self.sorted_gates()

    def next(self):
        self.at += 1
        return self.tokens[self.at - 1]

    def name(self):
        word = self.next()
        return word[1:] if word[0] == "\\" else word

    def add(self, key):
        if key not in self.number:
            self.number[key] = len(self.keys)
            self.keys.append(key)
        return self.number[key]

    def declare(self, name):
        bits = self.ranges.get(name)
        return [self.add(key_of(name, bit)) for bit in bits] if bits else [self.add(key_of(name))]

    def module(self):
        assert self.next() == "module"
        self.name()
        header, items, declared = [], [], []
        if self.tokens[self.at] == "(":
            while self.tokens[self.at] != ";":
                if self.next() in "(,":
                    header.append(self.name())
        self.next()
        directions = {}
        while self.tokens[self.at] != "endmodule":
            word = self.next()
            if word in ("input", "output", "wire"):
                if self.tokens[self.at] == "wire":
                    self.next()
                bits = None
                if self.tokens[self.at] == "[":
                    left, right = int(self.tokens[self.at + 1]), int(self.tokens[self.at + 3])
                    bits = range(left, right + (1 if left < right else -1), 1 if left < right else -1)
                    self.at += 5
                while True:
                    name = self.name()
                    declared.append(name)
                    if bits:
                        self.ranges[name] = bits
                    if word != "wire":
                        directions[name] = word
                    if self.next() == ";":
                        break
            else:
                start = self.at
                while self.next() != ";":
                    pass
                items.append((word, start))
        for name in header + declared:
            self.declare(name)
        self.gates, self.flops, self.constants = [], [], {}
        for word, self.at in items:
            self.item(word)
        ports = lambda way: [net for name in header if directions[name] == way for net in self.declare(name)]
        clock = {flop[1] for flop in self.flops}
        assert len(clock) == 1
        self.clock = clock.pop()
        self.inputs = [net for net in ports("input") if net != self.clock]
        self.outputs = ports("output")
        self.reset = [flop[0] == "dffs" for flop in self.flops]

    def term(self):
        word = self.next()
        if "'" in word and word[0] != "\\":
            net = self.add(f"1'b{word[-1]}")
            self.constants[net] = word[-1] == "1"
            return net
        name = word[1:] if word[0] == "\\" else word
        if self.tokens[self.at] == "[":
            bit = int(self.tokens[self.at + 1])
            self.at += 3
            return self.add(key_of(name, bit))
        bits = self.ranges.get(name)
        return self.add(key_of(name, bits[0] if bits else None))

    def item(self, word):
        if word == "assign":
            out = self.term()
            self.next()
            self.gates.append(("buf", out, [self.term()]))
            return
        if self.tokens[self.at] != "(":
            self.name()
        self.next()
        if word in CELLS and self.tokens[self.at] == ".":
            pins = {}
            while self.next() == ".":
                pin = self.next()
                self.next()
                pins[pin] = self.term()
                self.next()
                if self.next() == ")":
                    break
            terms = [pins[pin] for pin in CELLS[word]]
        else:
            terms = [self.term()]
            while self.next() == ",":
                terms.append(self.term())
        if word in CELLS:
            self.flops.append((word, *terms))
        elif word in ("buf", "not"):
            self.gates += [(word, out, terms[-1:]) for out in terms[:-1]]
        else:
            assert word in KINDS, word
            self.gates.append((word, terms[0], terms[1:]))

    def sorted_gates(self):
        """The gates, each behind those that it reads, with the level of each net."""
        driver = {out: gate for gate, (_, out, _) in enumerate(self.gates)}
        self.level, order = [0] * len(self.keys), []
        for gate in range(len(self.gates)):
            stack = [gate]
            while stack:
                _, out, ins = self.gates[stack[-1]]
                open_ones = [driver[net] for net in ins if net in driver and not self.level[net]]
                if self.level[out] or not open_ones:
                    if not self.level[out]:
                        self.level[out] = 1 + max(self.level[net] for net in ins)
                        order.append(stack[-1])
                    stack.pop()
                else:
                    stack += open_ones
        return order

    def settle(self, state, given):
        """The value of each net in a state under an input, both texts of bits."""
        values = [False] * len(self.keys)
        for net, value in self.constants.items():
            values[net] = value
        for net, bit in zip(self.inputs, given.replace(".", "")):
            values[net] = bit == "1"
        for flop, bit in zip(self.flops, state):
            values[flop[2]] = bit == "1"
        for gate in self.order:
            kind, out, ins = self.gates[gate]
            bits = [values[net] for net in ins]
            value = {"and": all(bits), "or": any(bits), "xor": sum(bits) % 2 == 1, "buf": bits[0]}
            base = {"nand": "and", "nor": "or", "xnor": "xor", "not": "buf"}.get(kind, kind)
            values[out] = value[base] != (base != kind)
        return values

    def step(self, state, given):
        values, loaded = self.settle(state, given), ""
        for cell, _, q, d, *more in self.flops:
            bit = values[d]
            if cell == "dffe" and not values[more[0]]:
                bit = values[q]
            if cell == "dffr" and values[more[0]]:
                bit = False
            loaded += "01"[bit]
        return loaded

    def reset_state(self):
        return "".join("01"[bit] for bit in self.reset)

    def flop_keys(self):
        return [self.keys[flop[2]] for flop in self.flops]

    def shown_by(self, net):
        """The other nets that have a net's value through `buf` and `assign` alone, in order."""
        if self.shown is None:
            root, self.shown = {}, {}
            for gate in self.order:
                kind, out, ins = self.gates[gate]
                if kind == "buf":
                    root[out] = root.get(ins[0], ins[0])
                    self.shown.setdefault(root[out], []).append(out)
        return sorted(self.shown.get(net, []))


def bits(text):
    return text or "."


def signature(chip, lines, state):
    """The signature of a state, by the lines of a signature file."""
    place = {key: at for at, key in enumerate(chip.flop_keys())}
    items = [line.split()[1:] for line in lines.splitlines() if not line.startswith("cycles")]
    return bits("".join("01"[sum(state[place[key]] == "1" for key in item) % 2] for item in items))


def runs_of(stimulus):
    """The inputs of each run of a stimulus."""
    lines, runs = stimulus.splitlines(), []
    while lines:
        count = int(lines[0].split()[2])
        runs.append(lines[1 : 1 + count])
        lines = lines[2 + count :]
    return runs


def states_of(chip, inputs):
    states = [chip.reset_state()]
    for given in inputs:
        states.append(chip.step(states[-1], given))
    return states


def dump_of(chip, lines, inputs, cycle):
    """The dump of a run at a cycle, of a register that keeps one signature."""
    states = states_of(chip, inputs[:cycle])
    stored = signature(chip, lines, states[-2]) if cycle else "none"
    return f"state {states[-1]}\nsig {stored}\nend\n"


class Report:
    """A report's trace and steps, of a register that keeps one signature."""

    def __init__(self, text):
        self.states, self.inputs, self.steps, self.log = [], [], [], []
        section = "steps"
        for line in text.splitlines():
            word, *more = line.split()
            if section == "log":
                self.log.append(line)
            elif word in ("trace", "log"):
                section = word
            elif section == "trace":
                (self.states if word == "state" else self.inputs).append(more[0])
            elif word == "step":
                self.steps.append({"cands": [], "hit": None})
            elif word == "cand":
                self.steps[-1]["cands"].append((more[0], more[2]))
            elif word == "list":
                self.steps[-1]["end"] = more[0]
            elif word == "hit":
                self.steps[-1]["hit"] = (more[0], more[1])

    def sources(self):
        """Where each state of the trace comes from."""
        hits = [step["hit"] for step in self.steps if step["hit"]]
        return [("hit", *hit) for hit in reversed(hits)] + [("dump",)]


def split_key(key):
    """A key's name and bit."""
    found = re.fullmatch(r"\[(\d+)\]\\(.*)", key) or None
    if found:
        return "\\" + found[2], int(found[1])
    found = re.fullmatch(r"([A-Za-z_][\w$]*)\[(\d+)\]", key)
    return (found[1], int(found[2])) if found else (key, None)


def signals(keys):
    """Bits of a vector with numbers in a row together, in the order of the bytes of the names: (name, highest, lowest, places)."""
    parts = [(*split_key(key), place) for place, key in enumerate(keys)]
    grouped = []
    for name, bit, place in sorted(parts, key=lambda it: (it[0].encode(), -1 if it[1] is None else -it[1])):
        last = grouped[-1] if grouped else None
        if bit is not None and last and last[0] == name and last[2] == bit + 1:
            grouped[-1] = (name, last[1], bit, last[3] + [place])
        else:
            grouped.append((name, bit, bit, [place]))
    return grouped


def signal_name(name, high, low):
    if high == low:
        return name if high is None else f"{name}[{high}]"
    return f"{name}[{high}:{low}]"


def signal_value(text, places):
    found = "".join(text[place] for place in places)
    return found if len(places) == 1 else f"0x{int(found, 2):0{(len(places) + 3) // 4}x}"


def flops_text(chip):
    lines = []
    for number, flop in enumerate(chip.flops):
        more = [chip.keys[net] for net in chip.shown_by(flop[2])]
        lines.append(" ".join([str(number), chip.keys[flop[2]], "01"[chip.reset[number]], *more]))
    return "".join(line + "\n" for line in lines)


def inputs_text(chip):
    return "".join(" ".join([str(number), chip.keys[net], *(chip.keys[it] for it in chip.shown_by(net))]) + "\n" for number, net in enumerate(chip.inputs))


def stats_text(chip):
    cells = [flop[0] for flop in chip.flops]
    kinds = [gate[0] for gate in chip.gates]
    reads = [net for _, _, ins in chip.gates for net in ins] + [net for _, _, _, *more in chip.flops for net in more]
    rows = [("flops", len(cells)), *((cell, cells.count(cell)) for cell in CELLS), ("inputs", len(chip.inputs)), ("outputs", len(chip.outputs))]
    rows += [("nets", len(chip.keys)), ("gates", len(kinds)), *((kind, kinds.count(kind)) for kind in KINDS), ("depth", max(chip.level))]
    rows += [("fanin", max([len(ins) for _, _, ins in chip.gates] or [0])), ("fanout", max(Counter(reads).values()))]
    return "".join(f"{word} {number}\n" for word, number in rows)


def steps_rows(report):
    """Of each step: its number, candidates, places at which two of them differ, end, lemmas and hit."""
    logs, part = [], []
    for line in report.log:
        if line.startswith("r "):
            logs.append(part)
            part = []
        elif line[0].isdigit():
            part.append(line)
    rows = []
    for number, (step, lemmas) in enumerate(zip(report.steps, logs), 1):
        states = [state for state, _ in step["cands"]]
        differ = sum(len(set(column)) > 1 for column in zip(*states))
        rows.append((number, len(states), differ, step["end"], len(lemmas), step["hit"]))
    return rows


def steps_text(report):
    text = ""
    for number, count, differ, end, lemmas, hit in steps_rows(report):
        text += f"step {number} candidates {count} differ {differ} list {end} lemmas {lemmas} {'hit ' + ' '.join(hit) if hit else 'nohit'}\n"
    return text


def steps_table(report):
    text = "step,candidates,differ,list,lemmas,run,cycle\n"
    for *row, hit in steps_rows(report):
        text += ",".join(str(it) for it in [*row, *(hit or ("", ""))]) + "\n"
    return text


def lists_text(chip, report, only=None):
    flops = [it for it in signals(chip.flop_keys()) if only is None or only(it)]
    text = ""
    for number, (line, step) in enumerate(zip(steps_text(report).splitlines(True), report.steps), 1):
        text += line
        states = [state for state, _ in step["cands"]]
        for name, high, low, places in flops if states else []:
            values = [signal_value(state, places) for state in states]
            bits = "".join(states[0][place] if len({state[place] for state in states}) == 1 else "?" for place in places)
            told = f"differ {signal_name(name, high, low)} = {'0b' * (len(places) > 1)}{bits} in {' '.join(values)}"
            text += f"{number} {told if '?' in bits else f'same {signal_name(name, high, low)} = {values[0]}'}\n"
    return text


def window_of(report, first=0, behind=None, last=None):
    """The numbers of the states that are told."""
    every = range(len(report.states))
    return every[first:behind] if last is None else [at for at in every[first:behind] if at in every[-last:]]


def trace_text(chip, report, whole=False, only=None, window=None):
    flops = [it for it in signals(chip.flop_keys()) if only is None or only(it)]
    inputs = [it for it in signals([chip.keys[net] for net in chip.inputs]) if only is None or only(it)]
    text, sources = "", report.sources()
    for at in window_of(report) if window is None else window:
        text += f"{at} state {' '.join(sources[at])}\n"
        for kind, listed, rows in (("flop", flops, report.states), ("input", inputs, report.inputs)):
            for name, high, low, places in listed if at < len(rows) else []:
                value = signal_value(rows[at], places)
                if whole or at == 0 or value != signal_value(rows[at - 1], places):
                    text += f"{at} {kind} {signal_name(name, high, low)} = {value}\n"
    return text


def field(text):
    return '"' + text.replace('"', '""') + '"' if '"' in text or "," in text else text


def trace_table(chip, report, window=None):
    flops, inputs = signals(chip.flop_keys()), signals([chip.keys[net] for net in chip.inputs])
    names = [signal_name(*it[:3]).replace("\\", "", 1) for it in flops + inputs]
    text = ",".join(["state,from,run,cycle", *map(field, names)]) + "\n"
    sources = report.sources()
    for at in window_of(report) if window is None else window:
        state, source = report.states[at], sources[at]
        row = [str(at), source[0], *(source[1:] or ("", ""))] + [signal_value(state, it[3]) for it in flops]
        row += [signal_value(report.inputs[at], it[3]) if at < len(report.inputs) else "" for it in inputs]
        text += ",".join(row) + "\n"
    return text


def identifier(number):
    text = chr(33 + number % 94)
    while number >= 94:
        number //= 94
        text += chr(33 + number % 94)
    return text


def moments_of(chip, report):
    """The values of all nets at each moment of a trace, as `0`, `1` or `x`: at the last one inputs and gates are unknown."""
    moments = []
    for at, state in enumerate(report.states):
        if at < len(report.inputs):
            moments.append(["01"[value] for value in chip.settle(state, report.inputs[at])])
        else:
            row = ["0"] * len(chip.keys)
            for net in [*chip.inputs, *(gate[1] for gate in chip.gates)]:
                row[net] = "x"
            for net, value in chip.constants.items():
                row[net] = "01"[value]
            for flop, bit in zip(chip.flops, state):
                row[flop[2]] = bit
            moments.append(row)
    return moments


def wave_text(chip, report):
    """The waveform that `backspace wave` writes."""
    text = ["$timescale 1ns $end", "$scope module trace $end"]
    text += [f"$var wire 1 {identifier(net)} {key} $end" for net, key in enumerate(chip.keys)]
    text += ["$upscope $end", "$enddefinitions $end"]
    before = [None] * len(chip.keys)
    for at, row in enumerate(moments_of(chip, report)):
        text.append(f"#{at}")
        text += [value + identifier(net) for net, value in enumerate(row) if value != before[net]]
        before = row
    return "\n".join(text) + "\n"


def is_made(name):
    """A name that synthesis made."""
    leaf = name.lstrip("\\").rsplit(".", 1)[-1]
    return name.lstrip("\\").startswith("$") or leaf.startswith("$") or re.fullmatch(r"_\d+_", leaf) is not None


def view_text(chip, report, start=0, whole=False, only=None):
    """The waveform that `backspace_inspect wave` writes."""
    drawn = [it for it in signals(chip.keys) if (only(it) if only else whole or not (is_made(it[0]) or it[0].startswith("1'b")))]
    text = ["$timescale 1ns $end"] + [f"$comment {at} state {' '.join(source)} $end" for at, source in enumerate(report.sources())]
    recorded = [(own, [f"{int(source[part]):032b}" if source[0] == "hit" else "x" for source in report.sources()]) for part, own in ((1, "!!"), (2, '"!'))]
    text += ["$scope module recorded $end", "$var integer 32 !! run [31:0] $end", '$var integer 32 "! cycle [31:0] $end', "$upscope $end"]
    text.append("$scope module trace $end")
    scope = []
    for number, (name, high, low, places) in enumerate(drawn):
        *path, leaf = name.lstrip("\\").split(".")
        path = [part or "_" for part in path]
        if scope != path:
            text += ["$upscope $end"] * len(scope)
            text += [f"$scope module {part} $end" for part in path]
            scope = path
        index = "" if high is None else f" [{high}]" if high == low else f" [{high}:{low}]"
        text.append(f"$var wire {len(places)} {identifier(number)} {leaf or '_'}{index} $end")
    text += ["$upscope $end"] * (len(scope) + 1) + ["$enddefinitions $end"]
    before = None
    for at, row in enumerate(moments_of(chip, report)):
        text.append(f"#{start + at}")
        for number, (_, _, _, places) in enumerate(drawn):
            value = "".join(row[place] for place in places)
            if before is None or value != "".join(before[place] for place in places):
                text.append(value + identifier(number) if len(places) == 1 else f"b{value} {identifier(number)}")
        before = row
        for own, told in recorded:
            if at == 0 or told[at] != told[at - 1]:
                text.append(f"b{told[at]} {own}")
    return "\n".join(text) + "\n"


def save_text(chip, report, wave, start=0, whole=False, only=None):
    """The save file of gtkwave that `backspace_inspect gtkw` writes: the variables of the waveform, by their scopes."""
    text = [f'[dumpfile] "{wave}"', f"[timestart] {start}", f"*0.000000 {start + len(report.states) - 1}", "@24", "recorded.run", "recorded.cycle"]
    scope = []
    for line in view_text(chip, report, start, whole, only).partition("$scope module trace")[2].splitlines():
        word, *more = line.split()
        if word == "$scope":
            scope.append(more[1])
        elif word == "$upscope" and scope:
            scope.pop()
        elif word == "$var":
            text += ["@28" if more[1] == "1" else "@22", ".".join(["trace", *scope, "".join(more[3:-1])])]
    return "\n".join(text) + "\n"


# ---- a proposed signature


def hundredths(total, count):
    found = total * 100 // count if count else 0
    return f"{found // 100}.{found % 100:02}"


class Pcg:
    """PCG XSH-RR 64/32: a congruential generator whose state is folded and turned."""

    def __init__(self, state, stream):
        self.increment = (2 * stream + 1) % (1 << 64)
        self.state = (state + self.increment) % (1 << 64)
        self.step()

    def step(self):
        self.state = (self.state * 6_364_136_223_846_793_005 + self.increment) % (1 << 64)

    def next(self):
        state = self.state
        self.step()
        word, turn = ((state >> 18) ^ state) >> 27 & 0xFFFF_FFFF, state >> 59
        return (word >> turn | word << (32 - turn)) & 0xFFFF_FFFF


def mixed(flops, items):
    """The flip-flops of each item: each flip-flop draws three items of a deck, or one where there are fewer than six."""
    if flops <= items:
        return [[flop] for flop in range(flops)]
    draws, deck, held = Pcg(1, 1), [], [[] for _ in range(items)]
    weight = 1 if items < 6 else 3
    for flop in range(flops):
        if len(deck) < weight:
            deck = list(range(items))
        for _ in range(weight):
            held[deck.pop(draws.next() % len(deck))].append(flop)
    return [item for item in held if item]


def rank(items, lost):
    """How many of the lost flip-flops' bits these parities settle, where all other bits are known."""
    rows, found = [sum(1 << lost.index(flop) for flop in item if flop in lost) for item in items], 0
    while rows:
        row = rows.pop()
        if row:
            found += 1
            low = row & -row
            rows = [other ^ row if other & low else other for other in rows]
    return found


def later_moments(runs):
    """The moments of runs of states behind the first eighth of each."""
    return [(run, cycle) for run, states in enumerate(runs, 1) for cycle in range((len(states) - 1) // 8 + 1, len(states))]


def spread(moments, most):
    """So many of these moments, spread evenly, or all where they are fewer."""
    if len(moments) < most:
        return moments
    return [moments[(most + 1) * (13 * k % most) * len(moments) // most**2] for k in range(most)]


def given_up(moments, predecessors):
    """The moment at which a number of items is given up, if it is: a list has more than 16 predecessors, or more than one of 64 have not one."""
    others = 0
    for moment in moments:
        count = predecessors(*moment)
        others += count != 1
        if count > 16 or 64 * others > len(moments):
            return moment
    return None


def tried_numbers(flops):
    """The numbers of items that are tried."""
    return [number for number in (16, 24, 32, 48, 64, 96, 128, 192, 256) if number < flops] + [max(flops, 1)] * (flops <= 256)


def signature_text(chip, runs, items, predecessors):
    """What `signature` writes of these runs of states, where a function tells how many predecessors a moment has by some items as signature."""
    flops = chip.flop_keys()
    proposal = mixed(len(flops), items)
    text = "choice mixed\n" + "".join(f"xor {' '.join(flops[flop] for flop in item)}\n" for item in proposal)
    moments = later_moments(runs)
    found, room = [], 1_048_576 // max(len(flops), 1)
    for run, cycle in spread(moments, 64):
        if sum(min(count, 256) for _, _, count in found) >= room:
            break
        found.append((run, cycle, predecessors(run, cycle, proposal)))
    total = sum(min(count, 256) for _, _, count in found)
    text += f"lists {min(items, len(flops))} {len(found)} {hundredths(total, len(found))} {sum(count > 256 for _, _, count in found)}\n"
    text += "".join(f"list {run} {cycle} {count if count <= 256 else 'more'}\n" for run, cycle, count in found)
    for number in tried_numbers(len(flops)):
        tried = mixed(len(flops), number)
        moment = given_up(spread(moments, 256 if len(flops) <= 2_048 else 64), lambda run, cycle: predecessors(run, cycle, tried))
        if moment is None:
            return text + f"enough {number}\n"
    return text + f"enough none {number} {moment[0]} {moment[1]}\n"


# ---- a simulator's values


class Values:
    """The variables and the value changes of a VCD, whose declared names hold no brackets."""

    def __init__(self, text):
        words, scopes, self.variables, self.moments = iter(text.split()), [], [], [(0, [])]
        command = []
        for word in words:
            if word != "$end":
                command.append(word)
                continue
            if command[0] == "$scope":
                scopes.append(command[2])
            elif command[0] == "$upscope":
                scopes.pop()
            elif command[0] == "$var":
                width, code, name, *more = command[2:]
                span = re.fullmatch(r"\[(\d+)(?::(\d+))?\]", more[0]) if more else None
                high, low = (int(span[1]), int(span[2] or span[1])) if span else (int(width) - 1, 0)
                self.variables.append((".".join(scopes), name.lstrip("\\"), code, high, low))
            elif command[0] == "$enddefinitions":
                break
            command = []
        for word in words:
            if word[0] == "#":
                if int(word[1:]) != self.moments[-1][0]:
                    self.moments.append((int(word[1:]), []))
            elif word[0] in "01xXzZ":
                self.moments[-1][1].append((word[1:], word[0]))
            elif word[0] in "bB":
                self.moments[-1][1].append((next(words), word[1:]))

    def source(self, scope, key):
        """The code of a name in a scope and the place of its bit from the end of a value, or None."""
        base, bit = split_key(key)
        for path, name, code, high, low in self.variables:
            if path == scope and name == base.lstrip("\\"):
                if bit is None and high == low:
                    return code, 0
                if bit is not None and min(high, low) <= bit <= max(high, low):
                    return code, abs(bit - low)
        return None

    def ends(self, scope, clock, keys):
        """For the end of each cycle a character for each key: 0, 1, x, or - where no variable is it."""
        clock, found, known = self.source(scope, clock), [self.source(scope, key) for key in keys], {}
        for _, changes in self.moments:
            later = {**known, **dict(changes)}
            before, behind = level(known, clock), level(later, clock)
            if clock[0] in known and (before == "0" != behind or before != "1" == behind):
                yield "".join(level(known, source) for source in found)
            known = later
        yield "".join(level(known, source) for source in found)

    def begin(self):
        return next((time for time, changes in self.moments if changes), 0)


def level(known, source):
    if source is None:
        return "-"
    value = known.get(source[0], "x")
    bit = value[-1 - source[1]] if source[1] < len(value) else "0" if value[0] == "1" else value[0]
    return bit if bit in "01" else "x"


def rtl_name(name, high, low):
    return name.lstrip("\\") + ("" if high is None else f"[{high}]" if high == low else f"[{high}:{low}]")


def first_lines(lines, most=16):
    return "".join(line + "\n" for line in lines[:most]) + (f"and {len(lines) - most} more\n" if len(lines) > most else "")


def differences(groups, run, vcd):
    """A line for each of these signals in which a run and a VCD differ, where the VCD has the bit."""
    lines = []
    for name, high, low, places in groups:
        if any(vcd[place] in "01" and vcd[place] != run[place] for place in places):
            seen = "".join(vcd[place] for place in places)
            seen = signal_value(vcd, places) if set(seen) <= set("01") else "0b" + seen
            lines.append(f"{rtl_name(name, high, low)} run {signal_value(run, places)} vcd {seen}")
    return lines


def given_text(chip, runs, number, given):
    """What `check` writes of the data inputs of a run and those of its VCD before each edge."""
    if any(set(row) - set("01") for row in given):
        return f"run {number} inputs unknown\n"
    inputs, groups = runs[number - 1], signals([chip.keys[net] for net in chip.inputs])
    for cycle, pair in enumerate(zip(inputs, given)):
        if lines := differences(groups, *pair):
            like = next((f"run {number} inputs of run {at}\n" for at, run in enumerate(runs, 1) if list(run) == given), "")
            return f"run {number} inputs differ {cycle}\n" + first_lines(lines) + like
    return ""


def check_text(chip, runs, vcds, clock, scope):
    """What `check` writes of these runs, each beside a VCD: the run's name, the name of the file and its text."""
    keys, text, missing = chip.flop_keys(), "", set()
    groups = signals(keys)
    for number, (inputs, (name, file, vcd)) in enumerate(zip(runs, vcds), 1):
        values, states = Values(vcd), states_of(chip, inputs)
        ends = list(values.ends(scope, clock, keys))
        missing.update(place for place, one in enumerate(ends[0]) if one == "-")
        count = next((at for at, pair in enumerate(zip(states, ends)) if differences(groups, *pair)), min(len(states), len(ends)))
        differs = count < min(len(states), len(ends))
        unknown = sum(end.count("x") for end in ends[:count])
        text += f"run {number} " + (f"differ {count}" if differs else f"agree 0..{count - 1}")
        text += f" flops {sum(one != '-' for one in ends[0])} unknown {unknown} name {name} vcd {file}\n"
        if len(inputs) != len(ends) - 1:
            text += f"run {number} cycles {len(inputs)} edges {len(ends) - 1}\n"
        if values.begin():
            text += f"run {number} begin {values.begin()}\n"
        if differs:
            text += first_lines(differences(groups, states[count], ends[count]))
        text += given_text(chip, runs, number, list(values.ends(scope, clock, [chip.keys[net] for net in chip.inputs]))[:-1])
    lacking = [f"missing {rtl_name(*group[:3])}" for group in groups if missing & set(group[3])]
    return text + first_lines(lacking)


def near_text(chip, runs, state):
    """What `near` writes of the state of a dump, with - for a bit that is not known, and the states of these runs."""
    known = [at for at, bit in enumerate(state) if bit != "-"]
    mask = sum(1 << len(state) - 1 - at for at in known)
    number = lambda row: sum(1 << len(state) - 1 - at for at, bit in zip(known, row) if bit == "1")
    nearest = lambda row: min(
        (((int(one, 2) & mask) ^ row).bit_count(), run, cycle) for run, states in enumerate(runs, 1) for cycle, one in enumerate(states))
    row = "".join(state[at] for at in known)
    count, run, cycle = nearest(number(row))
    text = f"run {run} cycle {cycle} differ {count} of {len(row)}\n"
    if count == 0:
        return text
    recorded = zip(chip.flop_keys(), runs[run - 1][cycle], state)
    text += first_lines([f"{key} run {one} dump {other}" for key, one, other in recorded if other not in ("-", one)], 8)
    text += "hint cell\n" * (count == 1)
    text += "hint held\n" * all(one == chip.reset_state() for states in runs for one in states)
    inverse = row.translate(str.maketrans("01", "10"))
    shifts = [row[1:] + "0", row[1:] + "1", "0" + row[:-1], "1" + row[:-1]]
    for word, likes in (("inverted", [inverse]), ("shifted", shifts)):
        found = [moment for differ, *moment in map(nearest, map(number, likes)) if differ == 0]
        text += f"hint {word} run {found[0][0]} cycle {found[0][1]}\n" if found else ""
    return text + "hint order\n" * (1 < count and len(row) <= 4 * count)
