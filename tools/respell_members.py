#!/usr/bin/env python3
"""Brings a bound's ghost members in the clauses of generic functions to the present spelling: `A.kind` for the `kind` of
`A: Amount`. Run after tools/respell.py; it may be run again."""
import os
import re

MEMBERS = {"Amount": ["kind", "meaning"], "Digest": ["hash"], "NodeStore": ["meaning", "ok"]}


def clauses(text):
    """Where each clause's braces begin and end."""
    for m in re.finditer(r"\b(?:requires|ensures)(?: \w+)? \{", text):
        depth, at = 1, m.end()
        while depth:
            depth += {"{": 1, "}": -1}.get(text[at], 0)
            at += 1
        yield m.end(), at - 1


def generics(text, at):
    """The bounds that a clause at this place sees: its function's and its impl's."""
    bounds = {}
    heads = [m for m in re.finditer(r"\bfn \w+(?:<([^(]*)>)?\(", text) if m.start() < at]
    impls = [m for m in re.finditer(r"^impl(?:<(.*?)>)? ", text, re.M | re.S) if m.start() < at]
    for head in (impls[-1:] + heads[-1:]):
        for name, bound in re.findall(r"(\w+): (\w+)", head.group(1) or ""):
            bounds.setdefault(bound, []).append(name)
    return bounds


def main():
    for folder, names, found in os.walk("crates"):
        names[:] = [n for n in names if n != "out"]
        for f in found:
            if not f.endswith(".rt"):
                continue
            path = os.path.join(folder, f)
            with open(path, encoding="utf-8") as file:
                text = file.read()
            out, last = [], 0
            for start, end in clauses(text):
                bounds = generics(text, start)
                clause = text[start:end]
                for bound, members in MEMBERS.items():
                    for member in members:
                        clause = re.sub(rf"\b([A-Z]\w*)\.{bound}\.{member}\b", rf"\1.{member}", clause)
                        owners = [n for b, ms in MEMBERS.items() if member in ms for n in bounds.get(b, [])]
                        if len(owners) == 1:
                            clause = re.sub(rf"(?<![\w.«]){member}(?![\w»])", f"{owners[0]}.{member}", clause)
                out += [text[last:start], clause]
                last = end
            new = "".join(out + [text[last:]])
            if new != text:
                with open(path, "w", encoding="utf-8") as file:
                    file.write(new)


if __name__ == "__main__":
    main()
