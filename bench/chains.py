#!/usr/bin/env python3
"""Writes programs that are chains of additions, and listings of them in the plain form: every operand is loaded from the
frame, and every result is stored there.

usage: chains.py FOLDER

`chain_COUNT.json` adds COUNT times a word and the carry before to the sum before, and copies sums to the outputs;
`chain_COUNT.s` is its listing, which is proved. The carry of a step is brought back by `add r10, -1` and saved by
`adc r10, 0`.
"""
import json
import os
import sys

WORDS = 32
COUNTS = [107, 2_048]
SCALARS = ["rdi", "rsi"]


def program(count):
    """COUNT operations: the additions, and the copies of the last sums."""
    copies = min(WORDS, count // 2)
    body = []
    for step in range(count - copies):
        before = [f"c{step - 1}", f"s{step - 1}"] if step else ["0", "arg1[0]"]
        body.append({
            "operation": "addcarryx",
            "name": [f"s{step}", f"c{step}"],
            "arguments": before + [f"arg1[{step % WORDS}]"],
        })
    for word in range(copies):
        body.append({
            "operation": "=",
            "name": [f"out1[{word}]"],
            "arguments": [f"s{count - 2 * copies + word}"],
        })
    return {
        "operation": "chain",
        "returns": [{"name": "out1", "datatype": f"u64[{copies}]"}],
        "arguments": [{"name": "arg1", "datatype": f"u64[{WORDS}]"}],
        "body": body,
    }


def listing(found):
    """The listing of such a program."""
    slots = {}
    for operation in found["body"]:
        for name in operation["name"]:
            if "[" not in name:
                slots[name] = 8 * (2 + len(slots))
    frame = 8 * (2 + len(slots))
    lines = [f"sub rsp, {frame}"]
    lines += [f"mov qword ptr [rsp + {8 * place}], {register}" for place, register in enumerate(SCALARS)]
    for operation in found["body"]:
        lines += block(operation, slots)
    return lines + [f"add rsp, {frame}", "ret"]


def load(register, operand, slots):
    if operand.isdigit():
        return [f"mov {register}, {operand}"]
    if operand in slots:
        return [f"mov {register}, qword ptr [rsp + {slots[operand]}]"]
    word = int(operand[len("arg1["):-1])
    return [f"mov {register}, qword ptr [rsp + 8]", f"mov {register}, qword ptr [{register} + {8 * word}]"]


def block(operation, slots):
    operands = operation["arguments"]
    if operation["operation"] == "=":
        word = int(operation["name"][0][len("out1["):-1])
        return load("rax", operands[0], slots) + [
            "mov r11, qword ptr [rsp]",
            f"mov qword ptr [r11 + {8 * word}], rax",
        ]
    lines = []
    for register, operand in zip(["r10", "rax", "rcx"], operands):
        lines += load(register, operand, slots)
    lines += ["add r10, -1", "adc rax, rcx", "mov r10, 0", "adc r10, 0"]
    for register, name in zip(["rax", "r10"], operation["name"]):
        lines.append(f"mov qword ptr [rsp + {slots[name]}], {register}")
    return lines


def main(folder):
    os.makedirs(folder, exist_ok=True)
    for count in COUNTS:
        found = program(count)
        text = [".intel_syntax noprefix", ".text", ".globl chain", "chain:"] + ["    " + line for line in listing(found)]
        with open(os.path.join(folder, f"chain_{count}.json"), "w") as file:
            json.dump(found, file)
        with open(os.path.join(folder, f"chain_{count}.s"), "w") as file:
            file.write("\n".join(text) + "\n")


if __name__ == "__main__":
    if len(sys.argv) != 2:
        raise SystemExit(__doc__)
    main(sys.argv[1])
