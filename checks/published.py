#!/usr/bin/env python3
"""What `search` publishes is proved, assembles, links, and computes on this processor what `eval` says.

The first argument is the program. Each example program is taken, and three of 600 operations each, of every kind, which
are made here. GNU as assembles the listing that `search` publishes, a C program calls it on inputs within their bounds,
and the output words are compared with those of `eval`. Programs that allow it are called with an output and an input in
the same memory, too. `check` has to say that the listing is proved.
"""
import json
import os
import random
import shutil
import subprocess
import sys
import tempfile

WORD = 2**64
EDGES = [0, 1, 2**63 - 1, 2**63, 2**64 - 1]
OPERATIONS = 600
CALLS = 40


def missing():
    """Why nothing can be tried here, or None."""
    for tool in ("as", "cc"):
        if shutil.which(tool) is None:
            return f"{tool} is not there"
    if os.uname().machine != "x86_64":
        return "this processor is no x86-64"
    return None


# ---- programs of all operations


class Maker:
    """A program of operations drawn at random, each on what stands before it."""

    def __init__(self, seed, overlap):
        self.random = random.Random(seed)
        self.words = []
        self.bits = []
        self.body = []
        self.returns = [{"name": "out1", "datatype": "u64[8]"}, {"name": "out2", "datatype": "u64[4]"}]
        self.arguments = [
            {"name": "arg1", "datatype": "u64[8]"},
            {"name": "arg2", "datatype": "u64[4]"},
            {"name": "arg3", "datatype": "u64"},
            {"name": "arg4", "datatype": "u1"},
        ]
        self.inputs = [f"arg1[{i}]" for i in range(8)] + [f"arg2[{i}]" for i in range(4)] + ["arg3"]
        self.outputs = [f"out1[{i}]" for i in range(8)] + [f"out2[{i}]" for i in range(4)]
        self.overlap = overlap

    def word(self):
        pick = self.random.randrange(8)
        if pick == 0:
            return hex(self.random.choice([*EDGES, self.random.randrange(WORD)]))
        if pick < 4 or not self.words:
            return self.random.choice(self.inputs)
        return self.random.choice(self.words[-60:])

    def bit(self):
        pick = self.random.randrange(6)
        if pick == 0:
            return self.random.choice(["0", "1"])
        if pick == 1 or not self.bits:
            return "arg4"
        return self.random.choice(self.bits[-40:])

    def target(self, number, is_bit, free):
        if free and self.outputs:
            return self.outputs.pop()
        if self.random.randrange(12) == 0:
            return "_"
        name = f"x{number}"
        (self.bits if is_bit else self.words).append(name)
        return name

    def operation(self, number):
        kind = self.random.choice(
            ["addcarryx"] * 5 + ["subborrowx"] * 3 + ["mulx"] * 3
            + ["cmovznz", "+", "-", "*", "&", "|", "^", "~", "=", "<<", ">>", "shrd"])
        count = str(self.random.randrange(1, 64))
        arguments = {
            "addcarryx": lambda: [self.bit(), self.word(), self.word()],
            "subborrowx": lambda: [self.bit(), self.word(), self.word()],
            "mulx": lambda: [self.word(), self.word()],
            "cmovznz": lambda: [self.bit(), self.word(), self.word()],
            "~": lambda: [self.word()],
            "=": lambda: [self.word()],
            "<<": lambda: [self.word(), count],
            ">>": lambda: [self.word(), count],
            "shrd": lambda: [self.word(), self.word(), count],
        }.get(kind, lambda: [self.word(), self.word()])()
        last = OPERATIONS - number <= 4 * len(self.outputs)
        names = [self.target(f"{number}_0", False, last or self.random.randrange(80) == 0)]
        if kind in ("addcarryx", "subborrowx", "mulx"):
            names.append(self.target(f"{number}_1", kind != "mulx", False))
        self.body.append({"operation": kind, "name": names, "arguments": arguments})

    def program(self):
        for number in range(OPERATIONS):
            self.operation(number)
        for output in self.outputs:
            self.body.append({"operation": "=", "name": [output], "arguments": [self.word()]})
        made = {"operation": "f", "returns": self.returns, "arguments": self.arguments, "body": self.body}
        if self.overlap:
            made["overlap"] = "any"
        return made


# ---- parameters


def words_in(parameter):
    """How many words a parameter has, and None for a scalar."""
    kind = parameter["datatype"]
    return int(kind[kind.index("[") + 1:-1]) if "[" in kind else None


def bounds(parameter, word):
    """The least and the greatest word that a parameter may have there."""
    most = 1 if parameter["datatype"].split("[")[0] == "u1" else WORD - 1
    ends = []
    for key, other in (("lbound", 0), ("ubound", most)):
        told = parameter.get(key, str(other))
        ends.append(int(told[word] if isinstance(told, list) else told, 0))
    return ends


def inputs(program, source, number):
    """Words for the arguments, one list each."""
    given = []
    for parameter in program["arguments"]:
        row = []
        for word in range(words_in(parameter) or 1):
            low, high = bounds(parameter, word)
            edge = max(low, min(high, source.choice(EDGES)))
            row.append(edge if number % 3 == 0 else source.randrange(low, high + 1))
        given.append(row)
    return given


# ---- calls


def caller(program, cases):
    """A C program that calls the function on each case, and prints its outputs. A case is its inputs, and whether the
    first output has the memory of the first argument."""
    name = program["operation"]
    params = [f"uint64_t *{p['name']}" for p in program["returns"]]
    params += [f"uint64_t {p['name']}" if words_in(p) is None else f"const uint64_t *{p['name']}"
               for p in program["arguments"]]
    lines = ["#include <inttypes.h>", "#include <stdio.h>", f"void {name}({', '.join(params)});", "int main(void) {"]
    for given, shared in cases:
        lines.append("{")
        for parameter, row in zip(program["arguments"], given, strict=True):
            lines.append(f"uint64_t {parameter['name']}[32] = {{{', '.join(f'{w}u' for w in row)}}};")
        names = []
        for place, parameter in enumerate(program["returns"]):
            if shared and place == 0:
                names.append(program["arguments"][0]["name"])
            else:
                lines.append(f"uint64_t {parameter['name']}[32] = {{0}};")
                names.append(parameter["name"])
        call = names + [p["name"] if words_in(p) is not None else f"{p['name']}[0]" for p in program["arguments"]]
        lines.append(f"{name}({', '.join(call)});")
        for array, parameter in zip(names, program["returns"], strict=True):
            count = words_in(parameter)
            lines.append(f'for (int i = 0; i < {count}; i++) printf("%" PRIu64 "\\n", {array}[i]);')
        lines.append("}")
    return "\n".join(lines + ["return 0;", "}"])


def run(command, folder):
    return subprocess.run(command, cwd=folder, capture_output=True, text=True)


def difference(path, program, folder, name):
    """What is wrong with the listing that is published of the program, or None; and how many calls were made."""
    with open(os.path.join(folder, "p.json"), "w") as file:
        json.dump(program, file)
    found = run([path, "search", "p.json", "p.s"], folder)
    if found.returncode != 0:
        return f"search ends with {found.returncode} {found.stderr.strip()}", 0
    if run([path, "check", "p.json", "p.s"], folder).stdout != "proved\n":
        return "check does not say that it is proved", 0
    source = random.Random(name)
    # A program that allows overlap may be called with its first output and its first argument in the same memory.
    first = program["arguments"][0] if program["arguments"] else None
    may_share = (program.get("overlap") == "any" and first is not None and words_in(first) is not None
                 and words_in(first) == words_in(program["returns"][0]))
    cases = [(inputs(program, source, number), may_share and number % 2 == 1) for number in range(CALLS)]
    with open(os.path.join(folder, "main.c"), "w") as file:
        file.write(caller(program, cases))
    for command in (["as", "--noexecstack", "p.s", "-o", "p.o"], ["cc", "-O1", "main.c", "p.o", "-o", "main"]):
        made = run(command, folder)
        if made.returncode != 0:
            return f"{command[0]}: {made.stderr.strip()}", 0
    real = [int(line) for line in run(["./main"], folder).stdout.split()]
    wanted = []
    for given, _ in cases:
        told = run([path, "eval", "p.json", "--in", ",".join(str(w) for row in given for w in row)], folder)
        if told.returncode != 0:
            return f"eval ends with {told.stderr.strip()}", 0
        wanted += [int(line.split()[1], 16) for line in told.stdout.splitlines()]
    if real != wanted:
        return "the processor computes other words than eval", 0
    return None, len(cases)


def main():
    if len(sys.argv) != 2:
        print("usage: published.py PROGRAM")
        return 2
    why = missing()
    if why is not None:
        print(f"published: skipped, {why}")
        return 0
    path = os.path.abspath(sys.argv[1])
    examples = os.path.join(os.path.dirname(os.path.abspath(__file__)), "..", "examples")
    programs = {}
    for name in sorted(os.listdir(examples)):
        if name.endswith(".json"):
            with open(os.path.join(examples, name)) as file:
                programs[name] = json.load(file)
    for seed in range(3):
        programs[f"all operations, seed {seed}"] = Maker(seed, seed == 2).program()
    calls = 0
    for name, program in programs.items():
        with tempfile.TemporaryDirectory() as folder:
            wrong, made = difference(path, program, folder, name)
        if wrong is not None:
            print(f"published: {name}: {wrong}")
            return 1
        calls += made
    print(f"published: {len(programs)} listings are proved, and agree with eval on {calls} calls")
    return 0


if __name__ == "__main__":
    sys.exit(main())
