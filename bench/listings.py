#!/usr/bin/env python3
"""Writes listings at the limits of their form, and a program that they can be run with.

usage: listings.py FOLDER

Each listing runs to its end from the start state of `copy.json`, one input array of one word and one output array of
one word. `copy.in` has its input word. The same files come out each time; what they are is said at the functions that
make them.
"""
import os
import sys

TEXT_LIMIT = 67_108_864
INSTRUCTIONS = 65_536

HEADER = [".intel_syntax noprefix", ".text", ".globl copy", "copy:"]

# Copies the word in the end, whatever was computed before.
BODY = [
    "    mov rax, qword ptr [rsi]",
    "    mulx r8, rcx, qword ptr [rsi]",
    "    add rax, rcx # 0",
    "    adc r8, 0",
    "    shrd rcx, r8, 17",
    "    lea r9, [rsi + rcx*8 - 128]",
    "    mov r10, 18446744073709551615",
    "    mov qword ptr [rdi], rax",
]
END = ["    mov rax, qword ptr [rsi]", "    mov qword ptr [rdi], rax", "    ret"]

COPY = (
    '{"operation":"copy","returns":[{"name":"out1","datatype":"u64[1]"}],'
    '"arguments":[{"name":"arg1","datatype":"u64[1]"}],'
    '"body":[{"operation":"=","name":["out1[0]"],"arguments":["arg1[0]"]}]}\n'
)


def instructions(count):
    body = [BODY[n % len(BODY)] for n in range(count - len(END))]
    return body + END


def joined(lines):
    return "\n".join(lines) + "\n"


def lines():
    """65,536 instructions, as they are written."""
    return joined(HEADER + instructions(INSTRUCTIONS))


def too_long():
    """One instruction more, which is refused after the last line."""
    return joined(HEADER + instructions(INSTRUCTIONS + 1))


def faulty():
    """65,536 instructions, of which the last but one is none: the last line that can be faulty before the end."""
    found = HEADER + instructions(INSTRUCTIONS)
    found[-2] = "    mov qword ptr [rdi], rax, rax"
    return joined(found)


def comments():
    """65,536 instructions with long comments, up to the limit of a text."""
    found = HEADER + instructions(INSTRUCTIONS)
    room = TEXT_LIMIT - len(joined(found))
    each = room // len(found)
    found = [f"{line} #{'c' * (each - 2)}" for line in found]
    text = joined(found)
    return text + "\n" * (TEXT_LIMIT - len(text))


def blank_lines():
    """Three instructions, and blank lines up to the limit of a text."""
    text = joined(HEADER + END)
    return text + "\n" * (TEXT_LIMIT - len(text))


def one_comment():
    """Three instructions, and one comment up to the limit of a text."""
    text = joined(HEADER + END)
    return text + "#" * (TEXT_LIMIT - len(text))


LISTINGS = [lines, too_long, faulty, comments, blank_lines, one_comment]


def main(folder):
    os.makedirs(folder, exist_ok=True)
    for name, text in [("copy.json", COPY), ("copy.in", "7")]:
        with open(os.path.join(folder, name), "w") as file:
            file.write(text)
    for listing in LISTINGS:
        with open(os.path.join(folder, listing.__name__ + ".s"), "w") as file:
            file.write(listing())


if __name__ == "__main__":
    if len(sys.argv) != 2:
        raise SystemExit(__doc__)
    main(sys.argv[1])
