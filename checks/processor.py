#!/usr/bin/env python3
"""Each instruction of the table does on this processor what `emulate` says.

The first argument is the program. For each instruction a small listing loads registers from the input array,
sets the flags by a sum, carries out the instruction, and stores the registers and the flags to the output array.
GNU as assembles it, a C program runs it, and `emulate` runs the same text. A flag that the table calls undefined
is not stored, and so not compared.
"""
import os
import random
import shutil
import subprocess
import sys
import tempfile

WORD = 2**64
FILLING = 0x5A5A5A5A5A5A5A5A
EDGES = [0, 1, 2**63 - 1, 2**63, 2**64 - 1]

# Two words whose sum sets CF, OF and ZF so.
FLAGS = {
    "000": (1, 1),
    "001": (0, 0),
    "010": (2**63 - 1, 1),
    "100": (2**64 - 1, 2),
    "101": (2**64 - 1, 1),
    "110": (2**63, 2**63 + 1),
    "111": (2**63, 2**63),
}

# The flags that an instruction leaves undefined.
UNDEFINED = {
    "mul": "z",
    "imul": "coz",
    "shl": "o",
    "shr": "o",
    "shrd": "o",
}

CELL = "qword ptr [rsi + 24]"  # a word of the input array
OUTPUT = "qword ptr [rdi + 48]"  # a word of the output array

# Index registers for the word at [rsi + 24].
EIGHTS = ["mov r11, 3"]
PAIRS = ["mov r11, 12"]


def instructions():
    """Each instruction with the lines that stand before the flags are set."""
    for op in ("add", "adc", "sub", "sbb", "and", "or", "xor", "cmp"):
        for source in ("rcx", CELL, "1", "-1", "2147483647", "-2147483648"):
            yield [], f"{op} rax, {source}"
        yield [], f"{op} rax, rax"
    for op in ("inc", "dec", "neg", "not"):
        yield [], f"{op} rax"
    for op in ("adcx", "adox", "imul"):
        for source in ("rcx", CELL, "rax"):
            yield [], f"{op} rax, {source}"
    for destinations in ("rax, rcx", "rcx, rax", "rax, rax", "rdx, rax", "rax, rdx"):
        for source in ("rcx", CELL, "rdx"):
            yield [], f"mulx {destinations}, {source}"
    for source in ("rcx", CELL, "rax", "rdx"):
        yield [], f"mul {source}"
    for op in ("shl", "shr"):
        for count in (1, 2, 31, 32, 33, 62, 63):
            yield [], f"{op} rax, {count}"
    for count in (1, 2, 31, 32, 33, 62, 63):
        yield [], f"shrd rax, rcx, {count}"
        yield [], f"shrd rax, rax, {count}"
    for op in ("shlx", "shrx"):
        for source in ("rcx", CELL, "rdx"):
            yield [], f"{op} rax, {source}, rdx"
    for cond in ("o", "no", "c", "nc", "z", "nz"):
        yield [], f"set{cond} al"
        for source in ("rcx", CELL):
            yield [], f"cmov{cond} rax, {source}"
    for source in ("rcx", CELL, "rax", "0", "18446744073709551615", "9223372036854775808", "4294967295"):
        yield [], f"mov rax, {source}"
    yield [], f"mov {OUTPUT}, rax"
    yield [], "movzx rax, cl"
    yield [], "movzx rax, al"
    yield [], "test rax, rcx"
    yield [], "test rax, rax"
    yield [], "clc"
    yield [], "lea rax, [rcx + rdx*1]"
    yield [], "lea rax, [rcx + rdx*2 - 1]"
    yield [], "lea rax, [rcx + rdx*4 + 2147483647]"
    yield [], "lea rax, [rcx + rdx*8 - 2147483648]"
    yield EIGHTS, "mov rax, qword ptr [rsi + r11*8]"
    yield EIGHTS, "mov rax, qword ptr [rsi + r11*8 - 8]"
    yield PAIRS, "adc rax, qword ptr [rsi + r11*2]"
    yield PAIRS, "mulx rax, rcx, qword ptr [rsi + r11*4 - 24]"
    yield EIGHTS, "mov qword ptr [rdi + r11*8 + 24], rax"


def at(base, place):
    """The memory operand at a place behind a register."""
    return f"qword ptr [{base} + {place}]" if place else f"qword ptr [{base}]"


def listing(name, setup, text):
    """The canonical text of the listing that shows an instruction, and on its way a frame of one word."""
    undefined = UNDEFINED.get(text.split()[0], "")
    flags = [(f, reg) for f, reg in (("c", "r8"), ("o", "r9"), ("z", "r10")) if f not in undefined]
    lines = ["sub rsp, 8"]
    lines += [f"mov {reg}, {at('rsi', 8 * i)}" for i, reg in enumerate(("rax", "rcx", "rdx"))]
    lines += setup
    lines += ["mov r8, qword ptr [rsi + 32]", "add r8, qword ptr [rsi + 40]", text]
    lines += ["mov qword ptr [rsp], rax", "mov r8, 0", "mov r9, 0", "mov r10, 0"]
    lines += [f"set{f} {reg}b" for f, reg in flags]
    lines += ["mov rax, qword ptr [rsp]"]
    results = ("rax", "rcx", "rdx", "r8", "r9", "r10")
    lines += [f"mov {at('rdi', 8 * i)}, {reg}" for i, reg in enumerate(results)]
    lines += ["add rsp, 8", "ret"]
    header = [".intel_syntax noprefix", ".text", f".globl {name}", f"{name}:"]
    return "\n".join(header + ["    " + line for line in lines]) + "\n"


def inputs(number):
    """The input words with which the instruction of this number is tried: all pairs of edges, and others."""
    random.seed(number)
    flags = list(FLAGS.values())
    pairs = [(d, s) for d in EDGES for s in EDGES]
    pairs += [(random.randrange(WORD), random.randrange(WORD)) for _ in range(10)]
    for turn, (d, s) in enumerate(pairs):
        a, b = flags[(turn + number) % len(flags)]
        yield [d, s, EDGES[turn % 5] if turn < 25 else random.randrange(WORD), s, a, b, 0, 0]
    for a, b in flags:
        yield [2**64 - 1, 0, 2, 0, a, b, 0, 0]


def program_text():
    """A program with eight input words and eight output words; what it computes does not matter."""
    body = ",".join(
        f'{{"operation":"=","name":["out1[{i}]"],"arguments":["arg1[{i}]"]}}' for i in range(8)
    )
    return (
        '{"operation":"f","returns":[{"name":"out1","datatype":"u64[8]"}],'
        f'"arguments":[{{"name":"arg1","datatype":"u64[8]"}}],"body":[{body}]}}\n'
    )


def harness(count):
    """The C program: for each line of a number and eight words it runs that listing and prints eight words."""
    names = "".join(f"void f{i}(u64 *, const u64 *);\n" for i in range(count))
    table = ",".join(f"f{i}" for i in range(count))
    return (
        "#include <inttypes.h>\n#include <stdio.h>\ntypedef uint64_t u64;\n" + names +
        f"static void (*const table[])(u64 *, const u64 *) = {{{table}}};\n"
        "int main(void) {\n"
        "    unsigned k;\n"
        "    u64 in[8], out[8];\n"
        '    while (scanf("%u", &k) == 1) {\n'
        "        for (int i = 0; i < 8; i++) {\n"
        '            if (scanf("%" SCNu64, &in[i]) != 1) return 1;\n'
        f"            out[i] = {FILLING:#x};\n"
        "        }\n"
        "        table[k](out, in);\n"
        '        for (int i = 0; i < 8; i++) printf("%" PRIu64 " ", out[i]);\n'
        '        printf("\\n");\n'
        "    }\n"
        "    return 0;\n"
        "}\n"
    )


def missing():
    """What is not there of what this check needs, or None."""
    for tool in ("gcc", "as"):
        if shutil.which(tool) is None:
            return f"{tool} is not there"
    try:
        with open("/proc/cpuinfo") as info:
            words = info.read().split()
    except OSError:
        return "the processor is not known"
    for feature in ("bmi2", "adx"):
        if feature not in words:
            return f"the processor has no {feature}"
    return None


def processor_words(folder, cases, count):
    """What the processor gives for each case."""
    with open(os.path.join(folder, "main.c"), "w") as file:
        file.write(harness(count))
    sources = [f"f{i}.s" for i in range(count)]
    command = ["gcc", "-O1", "-o", "main", "main.c", *sources, "-z", "noexecstack"]
    subprocess.run(command, cwd=folder, check=True)
    lines = "".join(f"{k} " + " ".join(map(str, words)) + "\n" for k, words in cases)
    answer = subprocess.run(
        ["./main"], cwd=folder, input=lines, stdout=subprocess.PIPE, text=True, check=True
    )
    return [list(map(int, line.split())) for line in answer.stdout.splitlines()]


def model_words(program, folder, k, words):
    """What `emulate` gives for a case, or its line on standard error."""
    command = [program, "emulate", "f.json", f"f{k}.s", "--in", ",".join(map(str, words))]
    answer = subprocess.run(command, cwd=folder, capture_output=True, text=True)
    if answer.returncode != 0:
        return answer.stderr.strip()
    return [int(line.split()[1], 16) for line in answer.stdout.splitlines()]


def main():
    if len(sys.argv) != 2:
        print("usage: processor.py PROGRAM")
        return 2
    why = missing()
    if why is not None:
        print(f"processor: skipped, {why}")
        return 0
    program = os.path.abspath(sys.argv[1])
    rows = list(instructions())
    cases = [(k, words) for k in range(len(rows)) for words in inputs(k)]
    with tempfile.TemporaryDirectory() as folder:
        with open(os.path.join(folder, "f.json"), "w") as file:
            file.write(program_text())
        for k, (setup, text) in enumerate(rows):
            with open(os.path.join(folder, f"f{k}.s"), "w") as file:
                file.write(listing(f"f{k}", setup, text))
        real = processor_words(folder, cases, len(rows))
        for (k, words), wanted in zip(cases, real, strict=True):
            found = model_words(program, folder, k, words)
            if found != wanted:
                print(f"processor: {rows[k][1]} on {words}: processor {wanted}, emulate {found}")
                return 1
    print(f"processor: {len(rows)} instructions agree on {len(cases)} inputs")
    return 0


if __name__ == "__main__":
    sys.exit(main())
