#!/usr/bin/env python3
"""Brings the repository's own names in contracts, specs and proofs to the language's spelling.

Run once, at the top, right after the toolchain's own script. Definitions, lemmas, fields and local names are in snake
case, facts and types in upper camel case; a dash is left to names that the checker makes. Functions of the program,
strings, inputs and outputs keep their names. It goes by text and knows a name by where it is declared. It also renames
the crates that are named as a library of the toolchain, and asks for the tactics in each crate.
"""
import os
import re

# Crates named as a library of the toolchain.
CRATES = {"bytes": "octets", "check": "verify", "hex": "hexadecimal"}

# Facts that began with a small letter, and what a dash cannot tell.
BY_HAND = {
    "is_field": "HasIndex",
    "is-field": "HasIndex",
    "sound-node": "SoundNode",
    "sound-nodes": "SoundNodes",
}

WORD = re.compile(r"[^\s(){}\[\];,.@«»λ⌜⌝\"→:]+")
DECLARED = re.compile(
    r"^\s*(?:\| )?(?:pub )?(?:abbrev |unfoldable )?(?:pub )?(data |record )?([^\s(){}\[\];,.:]+)(?: [({].*| )?:(?: |$)")
BOUND = [
    re.compile(r"\blet ([^\s:=()]+)(?: :| =)"),
    re.compile(r"λ ([^.()]+)\."),
    re.compile(r"[({]([^\s(){}:]+(?: [^\s(){}:]+)*) :"),
]
ALIAS = re.compile(r" as ([^\s,;}]+)")


def files(ending):
    for folder, names, found in os.walk("crates"):
        names[:] = [n for n in names if n != "out"]
        for f in sorted(found):
            if f.endswith(ending):
                yield os.path.join(folder, f)


def text_of(path):
    with open(path, encoding="utf-8") as f:
        return f.read()


def code(line):
    return line.split("--", 1)[0] if re.match(r"\s*--", line) or " -- " in line else line


def camel(name):
    parts = name.split("-")
    return parts[0] + "".join(p[:1].upper() + p[1:] for p in parts[1:])


def declared():
    """Names declared anywhere, and which of them are types or facts."""
    names, types = set(), set()
    for path in files(".antt"):
        for line in text_of(path).split("\n"):
            m = DECLARED.match(code(line))
            if not m or ": goal." in line or ": need." in line:
                continue
            names.add(m.group(2))
            if m.group(1) or re.search(r"(→|:) Type 0( where)?\s*$", line):
                types.add(m.group(2))
    return names, types


def locals_of(text):
    names = set()
    for rule in BOUND:
        for m in rule.finditer(text):
            names.update(m.group(1).split())
    return names


def made_by_checker(text):
    """Goals and steps that a proof file names: the checker's, not ours."""
    made = set(re.findall(r"^(?:abbrev )?(?:pub )?(\S+) : goal\.", text, re.M))
    made.update(re.findall(r"goal\.([^\s(){}\[\];,.]+)", text))
    for m in re.finditer(r"(?:Goals|Given)\.\{([^}]*)\}", text):
        made.update(x.strip().split(" ")[0] for x in m.group(1).split(","))
    return made


def renamed(name, types):
    if name in BY_HAND:
        return BY_HAND[name]
    if "-" not in name or not re.match(r"[A-Za-z]", name):
        return None
    if name[0].isupper():
        return camel(name) if name in types else name.replace("-", "_")
    return name.replace("-", "_")


def rename_crates():
    for old, new in CRATES.items():
        if not os.path.isdir(f"crates/{old}"):
            continue
        os.rename(f"crates/{old}", f"crates/{new}")
        for path in list(files(".antt")) + list(files(".rt")):
            text = text_of(path)
            to = text.replace(f"Rattle.{old}.", f"Rattle.{new}.")
            if path.endswith(".rt"):
                to = re.sub(rf"(?m)^use {old}::", f"use {new}::", to)
            if to != text:
                write(path, to)
        write("crates.txt", "\n".join(
            line if line.startswith("#") else re.sub(rf"\b{old}\b", new, line) for line in text_of("crates.txt").split("\n")))


def ask_for_tactics():
    for path in files(".rt"):
        if os.path.basename(path) not in ("lib.rt", "main.rt"):
            continue
        lines = text_of(path).split("\n")
        if any(line.startswith("#![tactic") for line in lines):
            continue
        at = 0
        while at < len(lines) and lines[at].startswith("//!"):
            at += 1
        write(path, "\n".join(lines[:at] + ["#![tactic(auto)]"] + lines[at:]))


def write(path, text):
    with open(path, "w", encoding="utf-8") as f:
        f.write(text)


def main():
    rename_crates()
    ask_for_tactics()
    names, types = declared()
    table = {n: r for n in names for r in [renamed(n, types)] if r}
    taken = {}
    for old, new in sorted(table.items()):
        if new in names or new in taken:
            print(f"falls together: {old} and {taken.get(new, new)}")
        taken[new] = old
    for path in list(files(".antt")) + list(files(".rt")):
        text = text_of(path)
        here = dict(table)
        antt = path.endswith(".antt")
        for n in locals_of(text) if antt else set(re.findall(ALIAS, text)):
            r = renamed(n, set())
            if r:
                here[n] = r
        made = made_by_checker(text) if antt else set()

        def swap(m):
            w = m.group(0)
            return here.get(w, w) if w not in made else w

        out = []
        for line in text.split("\n"):
            if re.match(r"\s*(--|//)", line) and not antt:
                out.append(line)
            else:
                out.append(WORD.sub(swap, line))
        new = "\n".join(out)
        if new != text:
            write(path, new)


if __name__ == "__main__":
    main()
