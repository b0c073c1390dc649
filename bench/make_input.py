#!/usr/bin/env python3
"""Inputs for timing: `make_input.py facts N` (N facts and as many names), `make_input.py basic N` (N basic rules over
200,000 atoms), `make_input.py mixed BYTES` (rules of all kinds), `make_input.py weights N` (a configuration: N weight
rules over 400 atoms that may be chosen), `make_input.py ladder N` (for each number up to N, that as many of N atoms are
chosen), `make_input.py formula N TERMS SEED` (a quantified formula: for some values of N variables all values of N
others make one of the terms true), `make_input.py diagnosis BITS SEED` (least sets of faulty gates in an adder) or
`make_input.py choices N` (N named atoms that may be chosen)."""
import itertools
import random
import sys


def facts(count, out):
    for atom in range(1, count + 1):
        out.write(f"1 {atom} 0 0\n")
    out.write("0\n")
    for atom in range(1, count + 1):
        out.write(f"{atom} atom({atom})\n")
    out.write("0\nB+\n0\nB-\n0\n1\n")


def basic(count, out):
    draw = random.Random(1)
    for _ in range(count):
        head, one, two = (draw.randint(2, 200000) for _ in range(3))
        out.write(f"1 {head} 2 1 {one} {two}\n")
    out.write("0\n0\nB+\n0\nB-\n1\n0\n1\n")


def rule(draw):
    kind = draw.choice([1, 1, 1, 2, 3, 5, 8])
    literals = [draw.randint(1, 200000) for _ in range(draw.randint(0, 6))]
    count, negatives = len(literals), draw.randint(0, len(literals))
    heads = [draw.randint(1, 200000) for _ in range(draw.randint(1, 3))]
    if kind == 1:
        return [1, heads[0], count, negatives] + literals
    if kind == 2:
        return [2, heads[0], count, negatives, draw.randint(0, count)] + literals
    if kind == 5:
        weights = [draw.randint(0, 20) for _ in literals]
        return [5, heads[0], draw.randint(0, 50), count, negatives] + literals + weights
    return [kind, len(heads)] + heads + [count, negatives] + literals


def mixed(size, out):
    draw, written = random.Random(1), 0
    while written < size - 100:
        line = " ".join(map(str, rule(draw))) + "\n"
        out.write(line)
        written += len(line)
    out.write("0\n0\nB+\n0\nB-\n0\n1\n")


def line(numbers, out):
    out.write(" ".join(map(str, numbers)) + "\n")


def weights(count, out):
    draw, atoms = random.Random(1), range(2, 402)
    line([3, len(atoms), *atoms, 0, 0], out)
    for head in range(402, 402 + count):
        literals = draw.sample(atoms, draw.randint(15, 40))
        each = [draw.randint(1, 100) for _ in literals]
        bound = sum(each) * draw.randint(20, 70) // 100
        line([5, head, bound, len(literals), draw.randint(0, len(literals) // 3), *literals, *each], out)
    out.write("0\n0\nB+\n0\nB-\n1\n0\n1\n")


def ladder(count, out):
    atoms = range(2, count + 2)
    line([3, count, *atoms, 0, 0], out)
    for bound in range(1, count + 1):
        line([2, count + 1 + bound, count, 0, bound, *atoms], out)
    out.write("0\n0\nB+\n0\nB-\n1\n0\n1\n")


class Atoms:
    """Atoms by their names, numbered from 2 in the order in which they come."""

    def __init__(self, out):
        self.numbers, self.out = {}, out

    def of(self, name):
        return self.numbers.setdefault(name, len(self.numbers) + 2)

    def rule(self, heads, body):
        heads, body = [self.of(name) for name in heads], [self.of(name) for name in body]
        kind = [1] if len(heads) == 1 else [8, len(heads)]
        line([*kind, *heads, len(body), 0, *body], self.out)

    def end(self, names, must, must_not=()):
        self.out.write("0\n")
        for name in names:
            self.out.write(f"{self.of(name)} {name}\n")
        for mark, listed in ("B+", must), ("B-", must_not):
            self.out.write("".join(f"{word}\n" for word in ["0", mark, *map(self.of, listed)]))
        self.out.write("0\n1\n")


def formula(count, terms, seed, out):
    """Where a term is true the atom `all` is, and with it all atoms of the inner variables are: so an answer set has
    `all` only where each choice for them makes some term true."""
    draw, atoms = random.Random(seed), Atoms(out)
    outer, inner = ([f"{kind}{at}" for at in range(count)] for kind in "xy")
    for name in outer + inner:
        atoms.rule([name, f"not_{name}"], [])
    for _ in range(terms):
        chosen = [draw.choice(outer), *draw.sample(inner, 2)]
        atoms.rule(["all"], [draw.choice(["", "not_"]) + name for name in chosen])
    for name in inner:
        atoms.rule([name], ["all"])
        atoms.rule([f"not_{name}"], ["all"])
    atoms.end(outer, ["all"])


GATES = {"xor": lambda one, two: one ^ two, "and": lambda one, two: one & two, "or": lambda one, two: one | two}


def adder(bits):
    """The gates of an adder, each with its kind, its two inputs and its output."""
    gates, carry = [], "c0"
    for at in range(bits):
        half, both, over, following = f"h{at}", f"g{at}", f"p{at}", f"c{at + 1}"
        gates += [("xor", f"a{at}", f"b{at}", half), ("xor", half, carry, f"s{at}"), ("and", f"a{at}", f"b{at}", both),
                  ("and", half, carry, over), ("or", both, over, following)]
        carry = following
    return gates


def observed(bits, draw):
    """The inputs and outputs of an adder in which one gate or two are at fault."""
    gates = adder(bits)
    values = {name: draw.randint(0, 1) for at in range(bits) for name in (f"a{at}", f"b{at}")} | {"c0": 0}
    faulty = draw.sample(range(len(gates)), 2)
    for at, (kind, one, two, result) in enumerate(gates):
        values[result] = GATES[kind](values[one], values[two]) ^ (at in faulty)
    seen = [f"{kind}{at}" for at in range(bits) for kind in "abs"] + ["c0", f"c{bits}"]
    return {name: values[name] for name in seen}


def behave(atoms, gates, seen, copy, wrong):
    """The lines inside have a value each, and `wrong` is true where a sound gate gives another than it has to."""
    def value(name, bit):
        return f"{name}{'' if name in seen else copy}={bit}"

    for _, _, _, result in gates:
        if result not in seen:
            atoms.rule([value(result, 0), value(result, 1)], [])
    for at, (kind, one, two, result) in enumerate(gates):
        for left, right in itertools.product((0, 1), repeat=2):
            other = 1 - GATES[kind](left, right)
            atoms.rule([wrong], [f"ok{copy}({at})", value(one, left), value(two, right), value(result, other)])
    return [value(result, bit) for _, _, _, result in gates if result not in seen for bit in (0, 1)]


def diagnosis(bits, seed, out):
    """A set of gates is at fault where the others can give what was seen. The atom `least` is true where a second set
    isn't a proper part of the first or can't give that, and with it all atoms of the second are."""
    gates, seen, atoms = adder(bits), observed(bits, random.Random(seed)), Atoms(out)
    places = range(len(gates))
    for name, bit in seen.items():
        atoms.rule([f"{name}={bit}"], [])
    for at in places:
        atoms.rule([f"ok({at})", f"ab({at})"], [])
        atoms.rule([f"ok'({at})", f"ab'({at})"], [])
        atoms.rule(["least"], [f"ok({at})", f"ab'({at})"])
        atoms.rule([f"same({at})"], [f"ok({at})", f"ok'({at})"])
        atoms.rule([f"same({at})"], [f"ab({at})", f"ab'({at})"])
    behave(atoms, gates, seen, "", "wrong")
    lines = behave(atoms, gates, seen, "'", "least")
    atoms.rule(["least"], [f"same({at})" for at in places])
    for name in lines + [f"{word}({at})" for word in ("ok'", "ab'", "same") for at in places]:
        atoms.rule([name], ["least"])
    atoms.end([f"ok({at})" for at in places], ["least"], ["wrong"])


def choices(count, out):
    atoms = range(1, count + 1)
    line([3, count, *atoms, 0, 0], out)
    out.write("0\n")
    for atom in atoms:
        out.write(f"{atom} atom({atom})\n")
    out.write("0\nB+\n0\nB-\n0\n1\n")


MAKERS = {"facts": facts, "basic": basic, "mixed": mixed, "weights": weights, "ladder": ladder, "formula": formula,
          "diagnosis": diagnosis, "choices": choices}

if __name__ == "__main__":
    MAKERS[sys.argv[1]](*map(int, sys.argv[2:]), sys.stdout)
