#!/usr/bin/env python3
"""Times searches by lanes of workers, and prints a table of the times, the offers a second and the peak memory.

usage: search.py [PROGRAM]

PROGRAM is the built program; without it, it is crates/search_cli/out/search_cli. The files are written into a temporary
folder and removed. It needs GNU time as /usr/bin/time, and for the rows of several workers as many processors.
"""
import os
import sys
import tempfile

from run import PROGRAM, run

HERE = os.path.dirname(os.path.abspath(__file__))
EXAMPLES = os.path.join(HERE, "..", "examples")
RUNS = 3

# A row is the program, how many seeds there are, how many workers, and how many turns a lane has.
ROWS = [
    ("fiat_p256_mul.json", 4, 1, 2_500),
    ("fiat_p256_mul.json", 4, 2, 2_500),
    ("fiat_p256_mul.json", 4, 4, 2_500),
    ("go_25519_carry_mul.json", 4, 4, 2_500),
    ("mul4.json", 4, 4, 2_500),
    ("copy1.json", 64, 1, 16_384),
    ("copy1.json", 64, 4, 16_384),
    ("copy1.json", 64, 64, 16_384),
]


def row(program, folder, file, seeds, workers, turns):
    out = [os.path.join(folder, name) for name in ("out.s", "out.j")]
    words = ["search", os.path.join(EXAMPLES, file), *out, "--seeds", ",".join(map(str, range(seeds)))]
    words += ["--workers", str(workers), "--turns", str(turns)]
    runs = [run(program, words) for _ in range(RUNS)]
    if any(status for status, _, _ in runs):
        raise SystemExit(f"{' '.join(words)} ended with another status than 0")
    seconds = min(seconds for _, seconds, _ in runs)
    memory = max(memory for _, _, memory in runs)
    offers = seeds * turns
    cells = [f"`{file}`", f"{seeds}", f"{workers}", f"{offers:,}", f"{seconds:.2f} s", f"{offers / seconds:,.0f}"]
    return cells + [f"{memory / 1024:.1f} MiB", f"{os.path.getsize(out[1]) / 2**20:.1f} MiB"]


def main(arguments):
    program = os.path.abspath(arguments[0] if arguments else PROGRAM)
    if not os.access(program, os.X_OK):
        raise SystemExit(f"{program} is not there: build it by ./run")
    print("| Program | Seeds | Workers | Offers | Time | Offers a second | Peak memory | Journal |")
    print("|---|---|---|---|---|---|---|---|")
    with tempfile.TemporaryDirectory() as folder:
        for file, seeds, workers, turns in ROWS:
            print("| " + " | ".join(row(program, folder, file, seeds, workers, turns)) + " |", flush=True)


if __name__ == "__main__":
    main(sys.argv[1:])
