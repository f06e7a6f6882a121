#!/usr/bin/env python3
"""Checks a refutation: python3 tools/lrat_check.py CNF LRAT

CNF is a DIMACS text, LRAT a text of clauses that follow from it (Cruz-Filipe, Heule, Hunt, Kaufmann and Schneider-Kamp, Efficient
Certified RAT Verification, 2017). A line is `ID LITERALS 0 HINTS 0`, a clause, or `ID d IDS 0`, clauses that are dropped. This check
takes less than others do:

- The header counts the variables and the clauses exactly; each clause is one line, and there are no empty lines.
- The numbers of clauses rise. No clause has a variable twice.
- Each hint is a clause that is still there. With the clause's own literals false, each hint but the last has one literal that is not
  false, and that one is not true yet; the last hint is false. No hint is left over.
- No clause rests on a resolution with absent clauses (RAT): negative hints are refused. Only clauses that are still there are dropped.
- The last line is the empty clause.

Prints one line and ends with 0 where the text refutes the CNF, else with 1.
"""
import sys


class Fault(Exception):
    """Why a text is refused."""


def numbers(words):
    """The numbers of words, or a fault."""
    try:
        return [int(it) for it in words]
    except ValueError:
        raise Fault("a word is no number") from None


def ended(values):
    """Numbers in front of the 0 that ends them, or a fault."""
    if not values or values[-1] != 0 or 0 in values[:-1]:
        raise Fault("the numbers do not end with one 0")
    return values[:-1]


def clauses_of(lines):
    """The clauses of a DIMACS text, by their numbers from 1."""
    words = next(lines, "").split(" ")
    if len(words) != 4 or words[:2] != ["p", "cnf"]:
        raise Fault("the first line is no header")
    variables, count = numbers(words[2:])
    clauses = {}
    for line in lines:
        literals = ended(numbers(line.split(" ")))
        if any(abs(it) > variables for it in literals):
            raise Fault(f"clause {len(clauses) + 1} has a variable above {variables}")
        clauses[len(clauses) + 1] = literals
    if len(clauses) != count:
        raise Fault(f"there are {len(clauses)} clauses, not {count}")
    return clauses


def follow(literals, hints, clauses):
    """Takes a clause's literals as false, and each hint in its turn; a fault where the last hint is not the first one that is false."""
    true = {-it for it in literals}
    for place, hint in enumerate(hints, 1):
        if hint not in clauses:
            raise Fault(f"hint {hint} is no clause that is there")
        left = [it for it in clauses[hint] if -it not in true]
        if not left:
            if place < len(hints):
                raise Fault(f"hint {hint} is false, and hints are left")
            return
        if len(left) > 1 or left[0] in true:
            raise Fault(f"hint {hint} is not unit")
        true.add(left[0])
    raise Fault("no hint is false")


def drop(ids, clauses):
    """Drops clauses."""
    for it in ids:
        if clauses.pop(it, None) is None:
            raise Fault(f"clause {it} is not there to be dropped")


def take(line, last, clauses):
    """Takes a line behind the clause with the number `last`; its number and its literals, or None where it drops clauses."""
    words = line.split(" ")
    if words[1:2] == ["d"]:
        drop(ended(numbers(words[2:])), clauses)
        return None
    number, *rest = numbers(words)
    if 0 not in rest:
        raise Fault("the literals do not end with 0")
    end = rest.index(0)
    literals, hints = rest[:end], ended(rest[end + 1 :])
    if number <= last:
        raise Fault(f"number {number} is not above {last}")
    if len({abs(it) for it in literals}) < len(literals):
        raise Fault("a variable stands twice")
    follow(literals, hints, clauses)
    clauses[number] = literals
    return number, literals


def refuted(cnf, lrat):
    """How many clauses a refutation has, or a fault. Both are iterators over lines without their ends."""
    clauses = clauses_of(cnf)
    last, count, empty = len(clauses), 0, False
    for place, line in enumerate(lrat, 1):
        try:
            if empty:
                raise Fault("a line stands behind the empty clause")
            taken = take(line, last, clauses)
        except Fault as fault:
            raise Fault(f"line {place}: {fault}") from None
        if taken:
            last, literals = taken
            count += 1
            empty = not literals
    if not empty:
        raise Fault("the last line is not the empty clause")
    return count


def main():
    with open(sys.argv[1], encoding="ascii") as cnf, open(sys.argv[2], encoding="ascii") as lrat:
        try:
            count = refuted((it.rstrip("\n") for it in cnf), (it.rstrip("\n") for it in lrat))
        except Fault as fault:
            print(f"refused: {fault}")
            sys.exit(1)
    print(f"refuted in {count} clauses")


if __name__ == "__main__":
    main()
