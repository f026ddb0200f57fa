#!/usr/bin/env python3
"""read_output.py FILE..: reads what seamless printed, by the grammar of docs/FORMATS.md, and prints how many lines of each kind there are."""
import collections
import re
import sys

N, NAME, TEXT = r"(?:0|[1-9][0-9]*)", r"[A-Za-z][A-Za-z0-9_]{0,31}", r'"(?:[^"\\\n]|\\["\\n])*"'
VALUE = rf"(?:-?{N}|{TEXT})"
CALL, PROPS = rf"{N} [bc]{N} {N} {NAME}(?: {VALUE})*", rf"(?: {NAME}={VALUE})*"
SHOWN = rf"own {N} {N} {N}{PROPS}|base {N}{PROPS}|enter {N} {NAME} {N} {N} {N}{PROPS}|set {N} {N} {N} {N}{PROPS}|leave {N}"
# What comes after the first word of a line. The kinds from `phase` to `bound` are those of a round, in their order.
FORMS = {"line": rf"{N} (?:words [1-4]|tree [1-3]|[a-z]+)", "fault": rf"(?:usage|header {N}|read|limit|memory)",
         "storm": rf"{N} rounds {N} did {N} shown {N} hp -?{N}", "round": N, "phase": "[1-3]", "step": rf"{N} (?:task|from {N})",
         "did": CALL, "dob": CALL, "home": rf"{N} {N} {N} {N} {N}{PROPS}", "base": rf"{N} {N}{PROPS}", "ghost": rf"{N} {N} {N}",
         "to": rf"{N} {N} (?:{SHOWN})", "bound": rf"{N} [xz] {N}", "end": N}
KINDS = list(FORMS)


def value(word):
    """Returns the number or the text that the word spells, or the word itself."""
    text = re.sub(r"\\(.)", lambda it: "\n" if it[1] == "n" else it[1], word[1:-1])
    return text if word[0] == '"' else int(word) if re.fullmatch(VALUE, word) else word


def records(text):
    """Yields of each line its kind, its words and its properties. Raises ValueError at a line that may not be there."""
    place = KINDS.index("end")
    for line in text.split("\n")[:-1]:
        kind, *words = re.findall(rf'(?:[^ "]|{TEXT})+', line)
        rank, opens = KINDS.index(kind), kind in KINDS[:4]
        in_turn = opens == (KINDS[place] == "end") and (opens or place <= rank or KINDS[place] == "step" and kind == "phase")
        if not (in_turn and re.fullmatch(rf"{kind} {FORMS[kind]}", line)):
            raise ValueError(f"not expected: {line}")
        place = rank if rank >= KINDS.index("round") else place
        pairs = [it.split("=", 1) for it in words if re.match(rf"{NAME}=", it)]
        yield kind, [value(it) for it in words if not re.match(rf"{NAME}=", it)], {name: value(it) for name, it in pairs}

for path in sys.argv[1:]:
    with open(path, encoding="utf-8", newline="") as file:
        print(path, dict(collections.Counter(record[0] for record in records(file.read()))))
