#!/usr/bin/env python3
"""Keeps the house: says each place in the sources that breaks one of these rules, and fails where there is one.

- Each file of specs/ and proofs/ opens with a comment on its subject.
- No line of a source file has more than 120 columns, but for attributes, which the formatter puts on one line each.
- Each lemma of proofs/ is used: its name stands somewhere besides its own statement and proof.

usage: house.py [FOLDER]    the top of the repository, and this one's where it is left out
"""

import re
import sys
from pathlib import Path

COLUMNS = 120
NAME = re.compile(r"[A-Za-z_][A-Za-z0-9_'-]*")
# The names that stand before the colon of a signature, at the left edge of a file of antt.
SIGNATURE = re.compile(r"^(?:(?:pub|abbrev|unfoldable|data|record|axiom) )*([A-Za-z_][A-Za-z0-9_'-]*)\b.* : ")
RULESET = re.compile(r"^(?:pub )?ruleset ([A-Za-z_][A-Za-z0-9_'-]*) = ")
# The files that answer the goals of a function: their names are the goals', and the prover looks them up.
ANSWERS = {"Answers.antt", "Invariants.antt", "Proof.antt"}


def sources(top):
    """The files of the crates' sources, definitions and proofs, without what the toolchain makes."""
    for folder in ("src", "specs", "proofs"):
        for ending in ("*.rt", "*.antt"):
            yield from sorted(top.glob(f"crates/*/{folder}/**/{ending}"))


def blocks(lines):
    """The blocks of a file of antt: each begins at the left edge with a signature, or with an import. A block is
    the name of its signature, or None, the number of its first line, and its lines."""
    found = [(None, 1, [])]
    for number, line in enumerate(lines, 1):
        signature = SIGNATURE.match(line) or RULESET.match(line)
        if signature:
            found.append((signature[1], number, []))
        elif line.startswith(("use ", "pub use ", "mod ", "pub mod ")):
            found.append((None, number, []))
        if not line.startswith(("use ", "pub use ", "--")):
            found[-1][2].append(line)
    return found


def names(lines):
    """The names in the lines, those of a path one by one, without the comments."""
    for line in lines:
        yield from NAME.findall(re.split(r"(?:^|\s)(?:--|//)", line)[0])


def unused(texts):
    """Where a lemma stands that no other text names."""
    users = {}
    lemmas = []
    for path, lines in texts:
        parts = blocks(lines) if path.suffix == ".antt" else [(None, 1, lines)]
        for index, (name, number, part) in enumerate(parts):
            place = (path, index)
            for word in set(names(part)):
                users.setdefault(word, set()).add(place)
                # A name such as `sum-append` may also be read as a difference.
                for piece in word.split("-"):
                    users.setdefault(piece, set()).add(place)
            if name and "proofs" in path.parts and path.name not in ANSWERS:
                lemmas.append((name, path, number, place))
    for name, path, number, place in lemmas:
        if not users.get(name, set()) - {place}:
            yield path, number, f"no other place names the lemma {name}"


def findings(top):
    """The places that break a rule: a path, the number of a line, and what is wrong there."""
    texts = [(path, path.read_text(encoding="utf-8").split("\n")) for path in sources(top)]
    for path, lines in texts:
        if path.suffix == ".antt" and not lines[0].startswith("-- "):
            yield path, 1, "no comment opens the file"
        for number, line in enumerate(lines, 1):
            if len(line) > COLUMNS and not line.lstrip().startswith("#["):
                yield path, number, f"{len(line)} columns"
    yield from unused(texts)


def main():
    top = Path(sys.argv[1]) if len(sys.argv) > 1 else Path(__file__).resolve().parent.parent
    count = 0
    for path, number, what in findings(top):
        print(f"{path.relative_to(top)}:{number}: {what}")
        count += 1
    if count:
        print(f"house: {count} places")
    return 1 if count else 0


if __name__ == "__main__":
    sys.exit(main())
