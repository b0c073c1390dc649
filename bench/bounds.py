#!/usr/bin/env python3
"""Runs a program, stamps the lines of its report as they come, and draws the bounds over time.

bounds.py PICTURE INPUT COMMAND WORD.. writes PICTURE (SVG) and prints each PAIR line with its second.
"""
import subprocess
import sys
import time

WIDTH, HEIGHT, EDGE = 720, 300, 48


def stamped(command, path):
    """The lines that the command writes on an input, each with its second."""
    with open(path, "rb") as source:
        begun = time.monotonic()
        run = subprocess.Popen(command, stdin=source, stdout=subprocess.PIPE, text=True)
        for line in run.stdout:
            yield time.monotonic() - begun, line.rstrip("\n")
        run.wait()


def bounds_of(lines, names):
    """The steps (second, lower, upper) of a run, from 0 and all names on, and its last second."""
    steps, last = [(0.0, 0, names)], 0.0
    for second, line in lines:
        last = second
        fields = line.split()
        if fields[0] == "PAIR":
            steps.append((second, int(fields[1]), int(fields[2])))
            print(f"{second:9.3f} s  {line}")
        elif fields[0] in ("COMPLETE", "PARTIAL", "INCOHERENT", "NOMEMORY", "REFUSED"):
            print(f"{second:9.3f} s  {line}")
    return steps, last


def names_in(path):
    """The number of names in a text of the numeric format."""
    with open(path, "rb") as source:
        for line in source:
            if line.strip() == b"0":
                break
        return sum(1 for _ in iter(source.readline, b"0\n"))


def curve(steps, last, names, which):
    """The path of a bound that changes in steps."""
    def place(second, size):
        x = EDGE + (WIDTH - 2 * EDGE) * second / max(last, 1e-9)
        y = HEIGHT - EDGE - (HEIGHT - 2 * EDGE) * size / max(names, 1)
        return x, y

    points, before = [], None
    for step in steps + [(last,) + steps[-1][1:]]:
        if before is not None:
            points.append(place(step[0], before))
        before = step[which]
        points.append(place(step[0], before))
    return " ".join(f"{x:.1f},{y:.1f}" for x, y in points)


def picture(steps, last, names):
    """The picture of a run."""
    base, right = HEIGHT - EDGE, WIDTH - EDGE
    label = 'font-family="sans-serif" font-size="12" fill="#333"'
    line = 'fill="none" stroke-width="2"'
    return f"""<svg xmlns="http://www.w3.org/2000/svg" viewBox="0 0 {WIDTH} {HEIGHT}">
<rect width="{WIDTH}" height="{HEIGHT}" fill="#fff"/>
<path d="M{EDGE} {EDGE} V{base} H{right}" fill="none" stroke="#999"/>
<polyline points="{curve(steps, last, names, 2)}" {line} stroke="#b03a2e"/>
<polyline points="{curve(steps, last, names, 1)}" {line} stroke="#1f618d"/>
<text x="{EDGE}" y="{EDGE - 12}" {label}>names: upper bound (red), lower bound (blue)</text>
<text x="{EDGE - 6}" y="{EDGE + 4}" text-anchor="end" {label}>{names}</text>
<text x="{EDGE - 6}" y="{base + 4}" text-anchor="end" {label}>0</text>
<text x="{right}" y="{base + 18}" text-anchor="end" {label}>{last:.2f} s</text>
</svg>
"""


def main():
    target, path, command = sys.argv[1], sys.argv[2], sys.argv[3:]
    names = names_in(path)
    steps, last = bounds_of(stamped(command, path), names)
    with open(target, "w") as out:
        out.write(picture(steps, last, names))


main()
