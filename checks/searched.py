#!/usr/bin/env python3
"""What a search publishes computes on this processor what `eval` says, and takes fewer cycles than the plain listing.

The first argument is the program; a second one is the number of turns, 10,000 without it. The three products of
libraries in `examples/` are searched by one worker. GNU as assembles the listing, a C program calls it on 10,000
inputs, and the output words are compared with those of `eval`. Then both listings are called many times one after the
other, and the cycles of the time-stamp counter for one call are told, the least of some runs.
"""
import json
import os
import random
import sys
import tempfile

from published import caller, inputs, missing, run, words_in

PROGRAMS = ["fiat_p256_mul", "go_25519_carry_mul", "circl_fp25519_mul"]
INPUTS = 10_000
# The calls of one C program: a compiler is slow on a function with thousands of arrays.
BATCH = 500


def timer(program):
    """A C program that prints the least cycles of a call, over runs of 100,000 calls."""
    name = program["operation"]
    parameters = program["returns"] + program["arguments"]
    lines = ["#include <inttypes.h>", "#include <stdio.h>", "#include <x86intrin.h>"]
    lines.append(f"void {name}({', '.join(['uint64_t *'] * len(parameters))});")
    for parameter in parameters:
        lines.append(f"static uint64_t {parameter['name']}[{words_in(parameter)}];")
    call = f"{name}({', '.join(parameter['name'] for parameter in parameters)});"
    lines += ["int main(void) {", "uint64_t least = UINT64_MAX;", "for (int run = 0; run < 30; run++) {"]
    lines += ["uint64_t began = __rdtsc();", f"for (int i = 0; i < 100000; i++) {call}"]
    lines += ["uint64_t took = __rdtsc() - began;", "if (took < least) least = took;", "}"]
    lines += ['printf("%.1f\\n", least / 100000.0);', "return 0;", "}"]
    return "\n".join(lines)


def linked(folder, listing, text, name):
    """Why the C program does not link with the listing, or None."""
    with open(os.path.join(folder, name + ".c"), "w") as file:
        file.write(text)
    commands = (["as", "--noexecstack", listing, "-o", name + ".o"], ["cc", "-O1", name + ".c", name + ".o", "-o", name])
    for command in commands:
        made = run(command, folder)
        if made.returncode != 0:
            return f"{command[0]}: {made.stderr.strip()}"
    return None


def computed(path, folder, program, cases):
    """What is wrong with the words that the listing computes for these inputs, or None."""
    wrong = linked(folder, "p.s", caller(program, [(given, False) for given in cases]), "main")
    if wrong is not None:
        return wrong
    real = [int(line) for line in run(["./main"], folder).stdout.split()]
    wanted = []
    for given in cases:
        words = ",".join(str(word) for row in given for word in row)
        told = run([path, "eval", "p.json", "--in", words], folder)
        wanted += [int(line.split()[1], 16) for line in told.stdout.splitlines()]
    return None if real == wanted and wanted else "the processor computes other words than eval"


def cycles(folder, program, listing, name):
    """The cycles of a call of the listing."""
    wrong = linked(folder, listing, timer(program), name)
    if wrong is not None:
        raise SystemExit(f"searched: {wrong}")
    return float(run(["./" + name], folder).stdout)


def tried(path, name, turns):
    """What is wrong with what is published of the program, or None, and a line that tells what was found."""
    with open(os.path.join(os.path.dirname(os.path.abspath(__file__)), "..", "examples", name + ".json")) as file:
        program = json.load(file)
    with tempfile.TemporaryDirectory() as folder:
        with open(os.path.join(folder, "p.json"), "w") as file:
            json.dump(program, file)
        found = run([path, "search", "p.json", "p.s", "p.j", "--seeds", "0", "--workers", "1", "--turns", turns], folder)
        if found.returncode != 0 or run([path, "search", "p.json", "plain.s"], folder).returncode != 0:
            return "a search fails", ""
        if run([path, "check", "p.json", "p.s"], folder).stdout != "proved\n":
            return "check does not say that it is proved", ""
        source = random.Random(name)
        cases = [inputs(program, source, number) for number in range(INPUTS)]
        for first in range(0, INPUTS, BATCH):
            wrong = computed(path, folder, program, cases[first:first + BATCH])
            if wrong is not None:
                return wrong, ""
        plain = cycles(folder, program, "plain.s", "plain")
        best = cycles(folder, program, "p.s", "best")
    told = f"searched: {name}: agrees on {INPUTS} inputs, {best:.0f} cycles, the plain listing {plain:.0f}"
    return (None if best < plain else "it takes no fewer cycles than the plain listing"), told


def main():
    if len(sys.argv) not in (2, 3):
        print("usage: searched.py PROGRAM [TURNS]")
        return 2
    why = missing()
    if why is not None:
        print(f"searched: skipped, {why}")
        return 0
    turns = sys.argv[2] if len(sys.argv) == 3 else "10000"
    for name in PROGRAMS:
        wrong, told = tried(os.path.abspath(sys.argv[1]), name, turns)
        if wrong is not None:
            print(f"searched: {name}: {wrong} {told}")
            return 1
        print(told, flush=True)
    return 0


if __name__ == "__main__":
    sys.exit(main())
