#!/usr/bin/env python3
"""The program beside clasp, on families of programs that its users have.

clasp.py SECONDS [FAMILY..]  runs both on each family's sizes, for so many seconds each, and prints a row for each: the
                             verdict and the seconds to it, and the area under the gap of the bounds over time, as a part
                             of the names times the seconds
clasp.py text FAMILY SIZE    prints a family's ground text

WASP2 names the built program (wasp2 on the path without it). gringo and clasp are Debian's packages.
"""
import io
import math
import os
import random
import subprocess
import sys
import time

import make_input

REPAIR = """
row(I,I/2,I\\3) :- I=0..{n}.
{{ keep(I) }} :- row(I,_,_).
:- keep(I), keep(J), I<J, row(I,K,V), row(J,K,W), V!=W.
:- row(I,K,V), not keep(I), not blocked(I).
blocked(I) :- row(I,K,V), row(J,K,W), V!=W, keep(J).
known(K) :- row(I,K,_), keep(I).
value(K,V) :- row(I,K,V), keep(I).
#show keep/1. #show known/1. #show value/2.
"""

RING = """
place(0..{n}-1).
{{ on(I) }} :- place(I).
:- place(I), not on(I), not on((I+1)\\{n}), not on((I+2)\\{n}).
far(I) :- on(I), not on((I+1)\\{n}).
near(I) :- on(I), on((I+1)\\{n}).
#show on/1. #show far/1. #show near/1.
"""

COLOURING = """
node(1..{n}). colour(1..3).
1 {{ has(X,C) : colour(C) }} 1 :- node(X).
:- edge(X,Y), has(X,C), has(Y,C).
#show has/2.
"""

CYCLES = """
node(1..{n}).
{{ in(X,Y) }} :- edge(X,Y).
:- node(X), not 1 {{ in(X,Y) : edge(X,Y) }} 1.
:- node(Y), not 1 {{ in(X,Y) : edge(X,Y) }} 1.
reached(1). reached(Y) :- reached(X), in(X,Y).
:- node(X), not reached(X).
#show in/2.
"""

REACHABILITY = """
place(1..{n}).
{{ open(X,Y) }} :- road(X,Y).
near(1). near(Y) :- near(X), open(X,Y).
:- {n} - {n}/10 > #count {{ X : near(X) }}.
:- road(X,Y), road(X,Z), Y<Z, open(X,Y), open(X,Z), (X+Y+Z)\\5 = 0.
#show near/1.
"""

PLANNING = """
place(0..{n}-1). time(0..{n}).
at(0,0). 1 {{ at(Y,T+1) : step(X,Y) }} 1 :- at(X,T), time(T+1).
step(X,X) :- place(X). step(X,X+1) :- place(X), place(X+1). step(X,X-1) :- place(X), place(X-1).
step(X,(2*X)\\{n}) :- place(X).
carries(T) :- at({n}/2,T). carries(T+1) :- carries(T), time(T+1).
:- at(X,T), at(X,T+1), T<{n}/3, X>0.
:- not carries({n}). :- not at({n}-1,{n}).
#show at/2. #show carries/1.
"""

CONFIGURATION = """
part(1..{n}). kind(P,P\\7) :- part(P).
{{ buy(P) }} :- part(P).
price(P,(P*37)\\23+3) :- part(P). power(P,(P*53)\\17+1) :- part(P).
:- #sum {{ W,P : buy(P), price(P,W) }} > {n}*4.
:- #sum {{ W,P : buy(P), power(P,W) }} < {n}*3.
:- K=0..6, not 1 {{ buy(P) : kind(P,K) }}.
:- buy(P), buy(Q), P<Q, (P*Q)\\11 = 3.
uses(K) :- buy(P), kind(P,K).
#show buy/1. #show uses/1.
"""


def ground(source):
    run = subprocess.run(["gringo", "-o", "smodels"], input=source.encode(), stdout=subprocess.PIPE, check=True)
    return run.stdout


def edges(name, count, degree, seed):
    draw = random.Random(seed)
    pairs = {(draw.randint(1, count), draw.randint(1, count)) for _ in range(count * degree)}
    return "".join(f"{name}({x},{y}). " for x, y in sorted(pairs) if x != y)


def cycle_edges(count, seed):
    draw = random.Random(seed)
    nodes = list(range(1, count + 1))
    draw.shuffle(nodes)
    ring = "".join(f"edge({x},{y}). " for x, y in zip(nodes, nodes[1:] + nodes[:1]))
    return ring + edges("edge", count, 2, seed)


def road_edges(count, seed):
    draw = random.Random(seed)
    tree = "".join(f"road({draw.randint(max(1, x - 20), x - 1)},{x}). " for x in range(2, count + 1))
    return tree + edges("road", count, 2, seed)


def backbone(count):
    draw = random.Random(count)
    clauses = []
    for _ in range(int(count * 4.1)):
        lits = draw.sample(range(1, count + 1), 3)
        clauses.append(", ".join(("not " if draw.random() < 0.5 else "") + f"x({v})" for v in lits))
    return f"{{ x(1..{count}) }}. " + " ".join(f":- {body}." for body in clauses)


def made(count):
    """Each atom rests on an even loop or on two others, and each is asked for."""
    draw = random.Random(count)
    lines = []
    for at in range(count):
        if at < count // 5:
            lines.append(f"a({at}) :- not b({at}). b({at}) :- not a({at}).")
        else:
            one, two = draw.randrange(at), draw.randrange(at)
            lines.append(f"a({at}) :- a({one}), not a({two}). a({at}) :- b({one % (count // 5)}).")
    return "\n".join(lines)


def written(writer, *args):
    out = io.StringIO()
    writer(*args, out)
    return out.getvalue().encode()


FAMILIES = {
    "repair": ([500, 2000], lambda n: ground(REPAIR.format(n=n))),
    "ring": ([300, 600], lambda n: ground(RING.format(n=n))),
    "made": ([300, 1000], lambda n: ground(made(n))),
    "colouring": ([60, 100], lambda n: ground(COLOURING.format(n=n) + edges("edge", n, 2, n))),
    "cycles": ([20, 30], lambda n: ground(CYCLES.format(n=n) + cycle_edges(n, n))),
    "reachability": ([300, 1000], lambda n: ground(REACHABILITY.format(n=n) + road_edges(n, n))),
    "planning": ([8, 11], lambda n: ground(PLANNING.format(n=n))),
    "configuration": ([20, 40], lambda n: ground(CONFIGURATION.format(n=n))),
    "backbone": ([80, 150], lambda n: ground(backbone(n))),
    "formula": ([12, 16], lambda n: written(make_input.formula, n, 2 * n, 2)),
    "diagnosis": ([3, 4], lambda n: written(make_input.diagnosis, n, 1)),
    "facts": ([20000, 200000], lambda n: written(make_input.facts, n)),
}


class Gap:
    """The area under the gap between two bounds."""

    def __init__(self, names):
        self.names, self.gap, self.last, self.area = names, names, 0.0, 0.0

    def step(self, second, gap):
        self.area += self.gap * (second - self.last)
        self.gap, self.last = gap, second

    def part(self):
        return self.area / max(1, self.names)


def watch(command, path, seconds, read):
    """Runs a command, hands its lines with their seconds to `read`, and gives the seconds to the verdict, or None."""
    begun, verdict = time.monotonic(), None
    with open(path, "rb") as source:
        run = subprocess.Popen(["timeout", str(seconds)] + command, stdin=source, stdout=subprocess.PIPE, text=True)
        for line in run.stdout:
            if read(time.monotonic() - begun, line):
                verdict = time.monotonic() - begun
        run.wait()
    return verdict


def run_wasp2(path, seconds, names):
    gap = Gap(names)

    def read(second, line):
        fields = line.split()
        if fields[0] == "PAIR":
            gap.step(second, int(fields[2]) - int(fields[1]))
        return fields[0] in ("COMPLETE", "INCOHERENT")

    verdict = watch([os.environ.get("WASP2", "wasp2"), "cautious"], path, seconds, read)
    gap.step(verdict or seconds, 0)
    return verdict, gap.part()


def run_clasp(path, seconds, names):
    gap, state = Gap(names), {"next": False}

    def read(second, line):
        if state["next"]:
            state["next"] = False
            gap.step(second, len(line.split()))
        if line.startswith("Answer:"):
            state["next"] = True
        return line.startswith(("SATISFIABLE", "UNSATISFIABLE"))

    verdict = watch(["clasp", "--enum-mode=cautious", "0"], path, seconds, read)
    gap.step(verdict or seconds, 0)
    return verdict, gap.part()


def names_in(text):
    lines = text.split(b"\n")
    return lines[lines.index(b"0") + 1:].index(b"0")


def shown(verdict):
    return f"{verdict:8.2f}" if verdict is not None else "    none"


def beside(seconds, families):
    ratios, solved = [], [0, 0]
    print(f"{'input':20} {'names':>8} {'wasp2 s':>8} {'clasp s':>8} {'wasp2 gap':>10} {'clasp gap':>10}")
    for family in families:
        sizes, make = FAMILIES[family]
        for size in sizes:
            text = make(size)
            path = f"/tmp/clasp_{family}_{size}"
            with open(path, "wb") as out:
                out.write(text)
            names = names_in(text)
            ours, our_gap = run_wasp2(path, seconds, names)
            theirs, their_gap = run_clasp(path, seconds, names)
            solved = [solved[0] + (ours is not None), solved[1] + (theirs is not None)]
            if ours is not None and theirs is not None:
                ratios.append(math.log(max(ours, 0.01) / max(theirs, 0.01)))
            print(f"{family + ' ' + str(size):20} {names:8} {shown(ours)} {shown(theirs)} {our_gap:10.3f} {their_gap:10.3f}",
                  flush=True)
            os.remove(path)
    mean = math.exp(sum(ratios) / len(ratios)) if ratios else float("nan")
    print(f"solved {solved[0]} and {solved[1]}; geometric mean of the ratios where both solve: {mean:.2f}")


def main():
    if len(sys.argv) == 4 and sys.argv[1] == "text":
        sys.stdout.buffer.write(FAMILIES[sys.argv[2]][1](int(sys.argv[3])))
    elif len(sys.argv) >= 2:
        beside(int(sys.argv[1]), sys.argv[2:] or FAMILIES)
    else:
        sys.exit(__doc__)


if __name__ == "__main__":
    main()
