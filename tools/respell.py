#!/usr/bin/env python3
"""Brings the names of the definitions and lemmas of crates/ to snake case, as today's Rattle spells its own; types and modules stay in camel case.

usage: python3 tools/respell.py        at the top of the repository, once, right after the kit's own script of the port

A name turns where it is declared in specs/ or at the head of proofs/ (a definition, a lemma, a field or a constructor of a record or a data type) and holds a capital or a dash:
camelCase and kebab-case both become snake_case. What the checker makes (the goals and the facts of a function's proof), the functions of src/, strings, inputs and outputs stay.
The turning itself is done by the kit's script for names, with a table of our own. Must-fail edits turn by the same table, where the word stands in their text.
Where two names would fall together, OWN says what each becomes.
"""

import glob
import os
import re
import subprocess
import sys
import tempfile

DECLARED = re.compile(r"(?m)^ *(?:(?:abbrev|unfoldable|pub|data|record|private|mutual) +)*([^\s(){}.;,@\"«»]+)(?: \{[^{}\n]*\})* :(?:\s|$)")
FIELD = re.compile(r"(?m)^  +(?:pub )?([^\s(){}.;,@\"«»]+) :(?:\s|$)")
WORD = re.compile(r'[^\s(){}.;,@"«»]+')

# Names that would meet another, or whose dash parts are clearer otherwise.
OWN = {
    "four-at": "four_at_bytes",
    "few-open": "few_open_by",
    "two-of": "two_of_them",
    "two-hold": "two_hold_by",
    "may-keep": "may_keep_by",
    "kind-in": "kind_in_record",
    "all-in-range": "all_in_range_by",
    "in-range": "in_range_positive",
}
# A lemma that the kit's script has spelled like a definition of another crate, in the files where it stands.
FIRST = [("has_room", "room_is_left", ["crates/image/proofs/Loads.antt", "crates/image/proofs/stores/load/Answers.antt"])]


def snake(name):
    return re.sub(r"(?<=[a-z0-9])[A-Z]", lambda m: "_" + m[0].lower(), name).replace("-", "_")


def declared():
    names = set()
    files = glob.glob("crates/*/specs/**/*.antt", recursive=True) + glob.glob("crates/*/proofs/*.antt")
    for p in sorted(files):
        with open(p, encoding="utf-8") as f:
            text = f.read()
        names |= set(DECLARED.findall(text)) | set(FIELD.findall(text))
    return names


def replaced(path, table):
    with open(path, encoding="utf-8") as f:
        text = f.read()
    new = WORD.sub(lambda m: table.get(m[0], m[0]), text)
    if new != text:
        with open(path, "w", encoding="utf-8") as f:
            f.write(new)


def main():
    with open("crates/store/specs/Stores.antt", encoding="utf-8") as f:
        clashes = "hasRoom" in f.read()  # not yet turned
    for old, new, files in FIRST:
        for p in files:
            if clashes:
                replaced(p, {old: new})
    table = {n: OWN.get(n, snake(n)) for n in declared() if (re.search("[a-z0-9][A-Z]", n) or "-" in n) and not n[0].isupper()}
    kit = os.path.dirname(subprocess.run(["rt", "doc"], capture_output=True, text=True, check=True).stdout.strip())
    script = os.path.join(kit, "port", "notes", "2026-11-18-names-are-in-snake-case", "snake.py")
    with tempfile.NamedTemporaryFile("w", suffix=".tsv", delete=False, encoding="utf-8") as f:
        f.writelines(f"{a}\t{b}\n" for a, b in sorted(table.items()))
    walks = sorted(p for p in glob.glob("crates/*/proofs/**/*.antt", recursive=True) if os.path.basename(p) in ("Answers.antt", "Invariants.antt", "Proof.antt"))
    others = sorted(p for p in glob.glob("crates/*/**/*.antt", recursive=True) + glob.glob("crates/*/src/**/*.rt", recursive=True) if p not in set(walks))
    for more, files in ((["--skip-behind", "goal,c,w,l,g"], walks), ([], others)):
        subprocess.run([sys.executable, script, "--table", f.name, "--only", "antt,rt", *more, *files], check=True)
    os.unlink(f.name)
    for p in sorted(glob.glob("crates/*/must-fail/*.edit")):
        replaced(p, table)


if __name__ == "__main__":
    main()
