#!/usr/bin/env python3
"""Writes program files at the limits of the form, and for each the words of `--in`.

usage: programs.py FOLDER

Each file NAME.json in FOLDER has a file NAME.in beside it with the input words, or none where the program has no
inputs. The same files come out each time. What they are is said at the functions that make them.
"""
import json
import os
import sys

FILE_LIMIT = 1_048_576
OPERATIONS = 2_048
PARAMETERS = 6
WORDS = 32
NAME_BYTES = 64
MAX = 2**64 - 1


def name(number, prefix):
    """An identifier of 64 bytes; any two of one prefix share all but their last 4."""
    return prefix.ljust(NAME_BYTES - 4, "_") + f"{number:04}"


def parameter(text, datatype, bounds=None):
    found = {"name": text, "datatype": datatype}
    if bounds is not None:
        found["lbound"] = [str(low) for low, _ in bounds]
        found["ubound"] = [hex(high) for _, high in bounds]
    return found


def operation(kind, results, arguments):
    return {"operation": kind, "name": results, "arguments": arguments}


def document(text, returns, arguments, body):
    return {"operation": text, "returns": returns, "arguments": arguments, "body": body}


def products(count, words, result):
    """`count` multiplications, each of an earlier result and a word of `words`. `result` names a value."""
    body = []
    for number in range(count):
        earlier = result(2 * number - 2) if 0 < number else words[0]
        results = [result(2 * number), result(2 * number + 1)]
        body.append(operation("mulx", results, [earlier, words[number % len(words)]]))
    return body


def writes(outputs, result, count):
    """A copy of a value to each output word, the last values first."""
    return [operation("=", [output], [result(count - 1 - n)]) for n, output in enumerate(outputs)]


def array_words(names):
    return [f"{array}[{word}]" for array in names for word in range(WORDS)]


def operations():
    """2,048 operations with short names, and 4,095 values."""
    words = ["a[0]", "a[1]"]
    body = products(OPERATIONS - 1, words, lambda n: f"x{n}")
    body += [operation("=", ["o[0]"], ["x4093"])]
    return document("f", [parameter("o", "u64[1]")], [parameter("a", "u64[2]")], body), [3, MAX]


def limits(unwritten=False):
    """2,048 operations, 6 parameters of 32 words with bounds, and names of 64 bytes: all limits at once."""
    arrays = [name(n, "array_") for n in range(PARAMETERS)]
    bounds = [(n, MAX - n) for n in range(WORDS)]
    parameters = [parameter(text, f"u64[{WORDS}]", bounds) for text in arrays]
    outputs = array_words(arrays[:3])
    count = OPERATIONS - len(outputs)
    value = lambda n: name(n, "value_")
    body = products(count, array_words(arrays[3:]), value) + writes(outputs, value, 2 * count)
    if unwritten:
        body[-1]["name"] = ["_"]
    inputs = [MAX - n for _ in arrays[3:] for n in range(WORDS)]
    return document(name(0, "function_"), parameters[:3], parameters[3:], body), inputs


def unwritten():
    """The same, but the last operation leaves the last output word unwritten: the last fault that there is."""
    return limits(unwritten=True)


def copy1(**more):
    body = [operation("=", ["o[0]"], ["a[0]"])]
    found = document("f", [parameter("o", "u64[1]")], [parameter("a", "u64[1]")], body)
    return {**found, **more}, [7]


def blanks():
    """A copy of one word, and blanks."""
    return copy1()


def numbers():
    """A copy of one word, and a list of half a million numbers under a key that means nothing."""
    return copy1(more=[0] * 524_160)


def texts():
    """A copy of one word, and 262,000 empty texts and lists under a key that means nothing."""
    return copy1(more=["", []] * 174_700)


def keys():
    """A copy of one word, and 87,000 more keys that mean nothing in the object of the program."""
    return copy1(**{f"k{n:06}": 0 for n in range(87_000)})


def nested():
    """A copy of one word, and lists that nest 127 deep under a key that means nothing."""
    deep = []
    for _ in range(124):
        deep = [deep]
    return copy1(more=[deep] * 4_150)


PROGRAMS = [operations, limits, unwritten, blanks, numbers, texts, keys, nested]


def padded(found):
    """Its JSON, with blanks behind it up to the limit of a file."""
    text = json.dumps(found, separators=(",", ":"))
    if FILE_LIMIT < len(text):
        raise SystemExit(f"{len(text)} bytes are above the limit")
    return text.ljust(FILE_LIMIT)


def main(folder):
    os.makedirs(folder, exist_ok=True)
    for program in PROGRAMS:
        found, inputs = program()
        with open(os.path.join(folder, program.__name__ + ".json"), "w") as file:
            file.write(padded(found))
        with open(os.path.join(folder, program.__name__ + ".in"), "w") as file:
            file.write(",".join(map(str, inputs)))


if __name__ == "__main__":
    if len(sys.argv) != 2:
        raise SystemExit(__doc__)
    main(sys.argv[1])
