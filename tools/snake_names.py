#!/usr/bin/env python3
"""Turns the names of this repository's own definitions and lemmas to snake case.

usage: python3 tools/snake_names.py        at the top of the repository, once, behind the kit's port.py
       python3 tools/snake_names.py --look  prints what would fall together, and writes nothing

A definition, a lemma, a field or a constructor that specs/ or proofs/*.antt declares is written with underscores: a dash or a
capital inside it becomes one. A name that begins with a capital is a type's and stays, and so does a dash before a capital.
The names are turned in every .antt, in the .rt files and in the must-fail edits, and between backquotes in the documents.
"""

import collections
import glob
import os
import re
import sys

# What an antt name is made of, as opposed to what stands between names.
NAME = re.compile(r"[^\s(){}\[\],;.:=⟦⟧⌜⌝\"«»`|]+")

# Names whose snake case would be another name's, each with what it is called.
CHOSEN = {
    # A lemma beside the definition that it is about has that one's name with _lem behind it.
    "angle-text": "angle_text_lem",
    "angle-words": "angle_words_lem",
    "at-depth": "at_depth_lem",
    "body-tally": "body_tally_lem",
    "conditional-tally": "conditional_tally_lem",
    "gate-tally": "gate_tally_lem",
    "plain-tally": "plain_tally_lem",
    "barrier-length": "barrier_length_lem",
    "called-steps": "called_steps_lem",
    "check-words": "check_words_lem",
    "classical-part": "classical_part_lem",
    "cut-round": "cut_round_lem",
    "fields-text": "fields_text_lem",
    "first-bad": "first_bad_lem",
    "first-of": "first_of_lem",
    "in-rounds": "in_rounds_lem",
    "lent-slot": "lent_slot_lem",
    "main-steps": "main_steps_lem",
    "no-if": "no_if_lem",
    "of-kind": "of_kind_lem",
    "opened-round": "opened_round_lem",
    "or-else": "or_else_lem",
    "output-words": "output_words_lem",
    "plain-steps": "plain_steps_lem",
    "quantum-part": "quantum_part_lem",
    "record-length": "record_length_lem",
    "record-text": "record_text_lem",
    "records-text": "records_text_lem",
    "same-fraction": "same_fraction_lem",
    "short-trace": "short_trace_lem",
    "statement-steps": "statement_steps_lem",
    "u-round": "u_round_lem",
    "is-nan": "is_nan_lem",
    "fraction_words": "fraction_words_lem",
}


def antt_files():
    return sorted(
        glob.glob("crates/*/specs/**/*.antt", recursive=True) + glob.glob("crates/*/proofs/**/*.antt", recursive=True)
    )


def is_of_a_function(path):
    return "/proofs/" in path and path.rsplit("/", 1)[1] in ("Proof.antt", "Invariants.antt", "Answers.antt")


def without_comment(line):
    at = line.find("--")
    return line if at < 0 else line[:at]


def declared(path):
    """The names that a file declares at its top, in its sections, and as fields and constructors."""
    inside = False
    with open(path, encoding="utf-8") as f:
        for line in f:
            text = without_comment(line).rstrip()
            m = re.match(r"^(?:pub )?(record|data) ([^\s:({]+)", text)
            if m:
                inside = True
                yield m.group(2)
                continue
            if re.match(r"^\S", text):
                inside = False
            m = re.match(r"^ *(?:abbrev |unfoldable )?(?:pub )?([^\s:(){}=,]+) :(?:\s|$)", text)
            if m and m.group(1) not in ("use", "module", "let", "in"):
                yield m.group(1)
            elif inside:
                m = re.match(r"^\s+(?:pub )?([^\s:(){}=]+) :(?:\s|$)", text)
                if m:
                    yield m.group(1)


def snake(name):
    if name in CHOSEN:
        return CHOSEN[name]
    if name[0].isupper() or not re.fullmatch(r"[A-Za-z0-9_'+-]+", name):
        return name
    out = ""
    for i, part in enumerate(name.split("-")):
        if not part:
            return name
        if part[0].isupper() and i > 0:
            out += "-" + part
            continue
        part = re.sub(r"(?<=[a-z0-9])([A-Z])", r"_\1", part).lower()
        out += ("_" if i > 0 else "") + part
    return out


def table():
    names = set()
    for path in antt_files():
        if not is_of_a_function(path):
            names.update(declared(path))
    return {n: snake(n) for n in sorted(names) if snake(n) != n}, names


def of_a_library(text):
    """The names that a file takes from a library of the kit, which keep their spelling there."""
    found = set()
    for module, items in re.findall(r"^(?:ghost )?use ([^\s;{]+)\.\{([^}]*)\}", text, re.M):
        parts = module.split(".")
        if parts[0] != "Rattle" or not os.path.isdir("crates/" + parts[1]):
            found.update(item.strip().split(" as ")[0] for item in items.split(","))
    return found


def turned(text, names):
    kept = of_a_library(text)
    return NAME.sub(lambda m: m.group(0) if m.group(0) in kept else names.get(m.group(0), m.group(0)), text)


def in_backquotes(text, names):
    return re.sub(r"`[^`\n]+`", lambda m: turned(m.group(0), names), text)


def look(names, own):
    """What falls together: two old names, or a new name that a file has already for something else."""
    back = collections.defaultdict(list)
    for old, new in names.items():
        back[new].append(old)
    for new, olds in sorted(back.items()):
        if len(olds) > 1 or new in own:
            print("two names:", olds, new, "(is there)" if new in own else "")
    for path in antt_files() + sorted(glob.glob("crates/*/src/**/*.rt", recursive=True)):
        with open(path, encoding="utf-8") as f:
            words = set(NAME.findall("\n".join(without_comment(x) for x in f.read().split("\n"))))
        for old in words & set(names):
            if names[old] in words:
                print("in one file:", path, old, names[old])


def write(path, change, names):
    with open(path, encoding="utf-8") as f:
        old = f.read()
    new = change(old, names)
    if new != old:
        with open(path, "w", encoding="utf-8") as f:
            f.write(new)


def main():
    names, own = table()
    if "--look" in sys.argv:
        look(names, own)
        return
    for path in antt_files() + glob.glob("crates/*/src/**/*.rt", recursive=True) + glob.glob("crates/*/must-fail/*.edit"):
        write(path, turned, names)
    histories = ("docs/CHANGES.md", "docs/NAMES.md")
    for path in ["README.md"] + [p for p in glob.glob("docs/*.md") if p not in histories]:
        write(path, in_backquotes, names)


main()
