#!/usr/bin/env python3
"""Times the program on files at its limits, and prints a table of the times and the peak memory.

usage: run.py [PROGRAM] [WORD..]

PROGRAM is the built program; without it, it is crates/search_cli/out/search_cli. WORDs choose the rows that have one
of them in a column. The files are written into a temporary folder and removed. It needs GNU time as /usr/bin/time.
"""
import os
import subprocess
import sys
import tempfile
import time

import chains
import listings
import programs

HERE = os.path.dirname(os.path.abspath(__file__))
PROGRAM = os.path.join(HERE, "..", "crates", "search_cli", "out", "search_cli")
RUNS = 5

# A row is the command, and the file that it is about. For another command add its rows, and its words below.
ROWS = [
    ("eval", "copy.json"),
    ("eval", "blanks.json"),
    ("eval", "operations.json"),
    ("eval", "limits.json"),
    ("eval", "unwritten.json"),
    ("eval", "numbers.json"),
    ("eval", "texts.json"),
    ("eval", "keys.json"),
    ("eval", "nested.json"),
    ("show", "lines.s"),
    ("show", "too_long.s"),
    ("show", "faulty.s"),
    ("show", "comments.s"),
    ("show", "blank_lines.s"),
    ("show", "one_comment.s"),
    ("emulate", "lines.s"),
    ("emulate", "comments.s"),
    ("check", "chain_107.s"),
    ("check", "chain_2048.s"),
    ("search", "copy.json"),
    ("search", "chain_107.json"),
    ("search", "chain_2048.json"),
    ("search", "operations.json"),
    ("search", "limits.json"),
]


def words(command, folder, file):
    """The words of a command on a file in a folder."""
    path = os.path.join(folder, file)
    copy = os.path.join(folder, "copy.json")
    if command == "eval":
        return ["eval", path, "--in", inputs_of(path)]
    if command == "show":
        return ["show", path]
    if command == "emulate":
        return ["emulate", copy, path, "--in", inputs_of(copy)]
    if command == "check":
        return ["check", path.replace(".s", ".json"), path]
    if command == "search":
        return ["search", path, path.replace(".json", ".published.s")]
    raise SystemExit(f"no words are known for {command}")


def inputs_of(program):
    with open(program.replace(".json", ".in")) as inputs:
        return inputs.read()


def run(program, arguments):
    """The status, the seconds and the peak memory in kilobytes of one run."""
    with tempfile.NamedTemporaryFile("r") as memory:
        began = time.perf_counter()
        status = subprocess.run(
            ["/usr/bin/time", "-q", "-f", "%M", "-o", memory.name, program, *arguments],
            stdout=subprocess.DEVNULL,
            stderr=subprocess.DEVNULL,
        ).returncode
        seconds = time.perf_counter() - began
        return status, seconds, int(memory.read())


def row(program, folder, command, file):
    runs = [run(program, words(command, folder, file)) for _ in range(RUNS)]
    statuses = {status for status, _, _ in runs}
    seconds = min(seconds for _, seconds, _ in runs)
    memory = max(memory for _, _, memory in runs)
    size = os.path.getsize(os.path.join(folder, file))
    cells = [f"`{command}`", f"`{file}`", f"{size:,}", f"{1000 * seconds:.0f} ms", f"{memory / 1024:.1f} MiB"]
    return cells + ["/".join(map(str, sorted(statuses)))]


def main(arguments):
    program = os.path.abspath(arguments[0] if arguments else PROGRAM)
    if not os.access(program, os.X_OK):
        raise SystemExit(f"{program} is not there: build it by ./run")
    chosen = arguments[1:]
    print("| Command | File | Bytes | Time | Peak memory | Status |")
    print("|---|---|---|---|---|---|")
    with tempfile.TemporaryDirectory() as folder:
        programs.main(folder)
        listings.main(folder)
        chains.main(folder)
        for command, file in ROWS:
            if not chosen or any(word in f"{command} {file}" for word in chosen):
                print("| " + " | ".join(row(program, folder, command, file)) + " |", flush=True)


if __name__ == "__main__":
    main(sys.argv[1:])
