#!/usr/bin/env python3
"""Searches programs of `examples/` by one worker, prints a table of the best cost after so many turns, and draws it.

usage: costs.py [PROGRAM] [PICTURE]

PROGRAM is the built program; without it, it is crates/search_cli/out/search_cli. PICTURE is the file of the picture;
without it, it is costs.svg beside this script. The costs are read off the journals, which are written into a temporary
folder and removed. With the same seeds and one worker each run finds the same costs.
"""
import math
import os
import subprocess
import sys
import tempfile

HERE = os.path.dirname(os.path.abspath(__file__))
PROGRAM = os.path.join(HERE, "..", "crates", "search_cli", "out", "search_cli")
EXAMPLES = os.path.join(HERE, "..", "examples")
PROGRAMS = ["mul4", "fiat_p256_mul", "go_25519_carry_mul", "circl_fp25519_mul"]
COLORS = ["#1b6ca8", "#b03a2e", "#1e8449", "#7d3c98"]
MARKS = [10, 100, 1_000, 10_000, 100_000]
# Two lanes of 50,000 turns, one after the other: a lane has at most 65,536.
SEEDS, TURNS = "0,1", 50_000

WIDTH, HEIGHT = 830, 420
LEFT, RIGHT, TOP, BOTTOM = 60, 240, 30, 50


def best_costs(program, name, folder):
    """The best cost after each turn. The opening, a plain listing, is not among them."""
    listing, journal = (os.path.join(folder, name + ending) for ending in (".s", ".j"))
    words = [program, "search", os.path.join(EXAMPLES, name + ".json"), listing, journal]
    words += ["--seeds", SEEDS, "--workers", "1", "--turns", str(TURNS)]
    subprocess.run(words, check=True, stdout=subprocess.DEVNULL)
    best, costs = None, []
    with open(journal) as lines:
        for line in lines:
            parts = line.split()
            if parts[0] == "entry":
                cost = int(parts[-2])
                best = cost if best is None else min(best, cost)
                costs.append(best)
    return costs


def table(found):
    """The rows of the table, in Markdown."""
    yield "| Program | first offer | " + " | ".join(f"{mark:,} turns" for mark in MARKS) + " |"
    yield "|---" * (len(MARKS) + 2) + "|"
    for name, costs in found.items():
        yield f"| `{name}` | {costs[0]} | " + " | ".join(str(costs[mark - 1]) for mark in MARKS) + " |"


def steps(costs):
    """The turns at which the best cost falls, with the new cost."""
    last = None
    for turn, cost in enumerate(costs, 1):
        if cost != last:
            yield turn, cost
            last = cost
    yield len(costs), last


def picture(found):
    """The lines of the picture: the cost in parts of the first offer's, against the turns, on a logarithmic scale."""
    last = max(len(costs) for costs in found.values())
    lowest = min(costs[-1] / costs[0] for costs in found.values())
    floor = math.floor(lowest * 20) / 20
    inner_width, inner_height = WIDTH - LEFT - RIGHT, HEIGHT - TOP - BOTTOM

    def across(turn):
        return LEFT + inner_width * math.log(turn) / math.log(last)

    def down(part):
        return TOP + inner_height * (1 - part) / (1 - floor)

    yield f'<svg xmlns="http://www.w3.org/2000/svg" width="{WIDTH}" height="{HEIGHT}" font-family="sans-serif">'
    yield f'<rect width="{WIDTH}" height="{HEIGHT}" fill="white"/>'
    for power in range(int(math.log10(last)) + 1):
        x = across(10**power)
        yield f'<line x1="{x:.1f}" y1="{TOP}" x2="{x:.1f}" y2="{HEIGHT - BOTTOM}" stroke="#dddddd"/>'
        yield (f'<text x="{x:.1f}" y="{HEIGHT - BOTTOM + 18}" font-size="12" text-anchor="middle">'
               f"{10**power:,}</text>")
    for step in range(round((1 - floor) * 20) + 1):
        part = 1 - step / 20
        y = down(part)
        yield f'<line x1="{LEFT}" y1="{y:.1f}" x2="{WIDTH - RIGHT}" y2="{y:.1f}" stroke="#dddddd"/>'
        yield f'<text x="{LEFT - 8}" y="{y + 4:.1f}" font-size="12" text-anchor="end">{part * 100:.0f} %</text>'
    for (name, costs), color in zip(found.items(), COLORS):
        points, before = [], None
        for turn, cost in steps(costs):
            if before is not None:
                points.append(f"{across(turn):.1f},{down(before / costs[0]):.1f}")
            points.append(f"{across(turn):.1f},{down(cost / costs[0]):.1f}")
            before = cost
        yield f'<polyline points="{" ".join(points)}" fill="none" stroke="{color}" stroke-width="2"/>'
    ends = sorted(zip(found.items(), COLORS), key=lambda item: item[0][1][-1] / item[0][1][0], reverse=True)
    y = 0
    for (name, costs), color in ends:
        y = max(y + 16, down(costs[-1] / costs[0]) + 4)
        yield (f'<text x="{WIDTH - RIGHT + 8}" y="{y:.1f}" font-size="12" fill="{color}">'
               f"{name} {costs[0]} to {costs[-1]}</text>")
    yield f'<text x="{LEFT + inner_width / 2:.0f}" y="{HEIGHT - 10}" font-size="12" text-anchor="middle">turns</text>'
    yield f'<text x="{LEFT}" y="18" font-size="12">best cost so far, in parts of the first offer\'s</text>'
    yield "</svg>"


def main(arguments):
    program = os.path.abspath(arguments[0] if arguments else PROGRAM)
    if not os.access(program, os.X_OK):
        raise SystemExit(f"{program} is not there: build it by ./run")
    with tempfile.TemporaryDirectory() as folder:
        found = {name: best_costs(program, name, folder) for name in PROGRAMS}
    print("\n".join(table(found)))
    with open(arguments[1] if len(arguments) > 1 else os.path.join(HERE, "costs.svg"), "w") as file:
        file.write("\n".join(picture(found)) + "\n")


if __name__ == "__main__":
    main(sys.argv[1:])
