#!/usr/bin/env python3
"""Brings the names of this repository's own definitions and lemmas to one spelling.

Facts and types are in upper camel case, everything else is in snake case.
Names of functions in src/, goals that the prover names, strings, and names of the library keep their spelling.

usage: python3 tools/respell.py [--dry]     at the top of the repository, once
"""

import os
import re
import sys
from collections import defaultdict

SPLIT = re.compile(r"([^\s(){}\[\];,.\"]+)")
NAME = r"[^\s:(){}\[\];,.\"λ]+"
SIGNATURE = re.compile(rf"^(?:abbrev |pub |unfoldable )*({NAME})\s*:(?:\s+(.*))?$")
HEAD = re.compile(rf"^(?:abbrev |pub )*(record|data)\s+({NAME})")
FIELD = re.compile(rf"^  (?:pub )?({NAME})\s*:(?:\s|$)")
IMPORT = re.compile(r"use\s+(Rattle(?:\.[\w+]+)+)\.\{([^}]*)\}", re.S)
# Names that would fall together with another that is used beside them.
APART = {
    "someTrue": "some_true_in",
    "amended-by": "amended_by_lem",
    "forced-bits": "forced_bits_lem",
    "forced-unknown": "forced_unknown_lem",
    "good-name": "good_name_lem",
    "while-open": "while_open_lem",
}


def files(root):
    for folder, dirs, names in os.walk(os.path.join(root, "crates")):
        dirs[:] = sorted(d for d in dirs if d != "out")
        for name in sorted(names):
            if name.endswith((".antt", ".rt")):
                yield os.path.join(folder, name)


def module(path, root):
    """The path by which other files import a file of specs/ or proofs/."""
    parts = os.path.relpath(path, os.path.join(root, "crates")).split(os.sep)
    parts[-1] = parts[-1].rsplit(".", 1)[0]
    return "Rattle." + ".".join(parts)


def respelled(name):
    if name in APART:
        return APART[name]
    if name[0].isupper():
        return "".join(part[0].upper() + part[1:] for part in re.split("[-_]", name))
    return re.sub(r"([a-z0-9])([A-Z])", r"\1_\2", name).replace("-", "_").lower()


def defined(text):
    """The names that a file of definitions or proofs gives, and those of them that are labels or constructors."""
    names, labels = set(), set()
    for line in text.splitlines():
        found = SIGNATURE.match(line)
        if found and not (found.group(2) or "").startswith("goal."):
            names.add(found.group(1))
        found = HEAD.match(line)
        if found:
            names.add(found.group(2))
        found = FIELD.match(line)
        if found and not line.lstrip().startswith("--"):
            labels.add(found.group(1))
    return names, labels


def main():
    root, dry = os.getcwd(), "--dry" in sys.argv
    texts = {path: open(path, encoding="utf-8").read() for path in files(root)}
    given, labels = {}, set()
    for path, text in texts.items():
        if path.endswith(".antt"):
            names, own_labels = defined(text)
            given[module(path, root)] = names | own_labels
            labels |= own_labels
    changed = {}
    for path, text in texts.items():
        turn = {}
        names = set(given.get(module(path, root), ())) if path.endswith(".antt") else set()
        for found in IMPORT.finditer(text):
            for name in (part.strip() for part in found.group(2).split(",")):
                name = name.split(" as ")[0].strip()
                if name in given.get(found.group(1), ()):
                    names.add(name)
        for name in names | labels:
            new = respelled(name)
            if new != name:
                turn[name] = new
        words = set(SPLIT.findall(text))
        meant = defaultdict(set)
        for name in words:
            meant[turn.get(name, name)].add(name)
        for new, olds in sorted(meant.items()):
            if len(olds) > 1:
                print(f"fall together in {os.path.relpath(path, root)}: {sorted(olds)} as {new}")
        lines = []
        for line in text.split("\n"):
            pieces = line.split('"') if path.endswith(".rt") else [line]
            for i in range(0, len(pieces), 2):
                pieces[i] = SPLIT.sub(lambda m: turn.get(m.group(1), m.group(1)), pieces[i])
            lines.append('"'.join(pieces))
        text = "\n".join(aligned(lines))
        if text != texts[path]:
            changed[path] = text
    if not dry:
        for path, text in changed.items():
            with open(path, "w", encoding="utf-8") as out:
                out.write(text)
    print(f"{len(changed)} files of {len(texts)}")


LEGEND = re.compile(r"^(--   )(\S+)(\s{2,})(\S.*)$")


def aligned(lines):
    """A legend's second column starts in one place."""
    at = 0
    while at < len(lines):
        end = at
        while end < len(lines) and LEGEND.match(lines[end]):
            end += 1
        if end > at:
            rows = [LEGEND.match(line).groups() for line in lines[at:end]]
            width = max(len(row[1]) for row in rows) + 3
            lines[at:end] = [row[0] + row[1].ljust(width) + row[3] for row in rows]
        at = max(end, at + 1)
    return lines


main()
