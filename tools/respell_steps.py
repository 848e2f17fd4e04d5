#!/usr/bin/env python3
"""Brings the names of steps and goals in proof files to the checker's present spelling: a name from the source keeps its
underscores, and a dash only joins the parts. Run after tools/respell.py; it may be run again."""
import os
import re

WORD = re.compile(r"[^\s(){}\[\];,.@«»λ⌜⌝\"→:]+")
MADE = ["in_err", "in_ok", "in_default", "overflow_add", "overflow_sub", "overflow_mul", "overflow_shl", "overflow_shr",
        "overflow_cast", "invariant_of", "type_inv", "slice_bounds", "offset_bounds", "nonzero_div", "nonzero_rem",
        "deref_mut", "index_mut", "from_residual", "from_output"]


def without_clauses(text):
    """The code without its clauses and ghost items."""
    out, at = [], 0
    for m in re.finditer(r"\b(?:requires|ensures|ghost)\b[^{;]*\{", text):
        if m.start() < at:
            continue
        out.append(text[at:m.start()])
        depth, at = 1, m.end()
        while depth and at < len(text):
            depth += {"{": 1, "}": -1}.get(text[at], 0)
            at += 1
    out.append(text[at:])
    return "".join(out)


def main():
    for crate in sorted(os.listdir("crates")):
        names = set(MADE)
        for folder, _, found in os.walk(f"crates/{crate}/src"):
            for f in found:
                if f.endswith(".rt"):
                    with open(os.path.join(folder, f), encoding="utf-8") as file:
                        text = "\n".join(x.split("//")[0] for x in file.read().split("\n") if not x.startswith("ghost use"))
                    names.update(re.findall(r"\b[a-z]?[a-z0-9]*(?:_[a-z0-9]+)+\b", without_clauses(text)))
        order = sorted(names, key=len, reverse=True)
        rules = [(re.compile(r"(?<![a-zA-Z0-9_])" + re.escape(n.replace("_", "-")) + r"(?![a-zA-Z0-9_])"), n) for n in order]
        for folder, _, found in os.walk(f"crates/{crate}/proofs"):
            for f in found:
                if f not in ("Answers.antt", "Invariants.antt"):
                    continue
                path = os.path.join(folder, f)
                with open(path, encoding="utf-8") as file:
                    text = file.read()
                imported = set()
                for m in re.finditer(r"^use (\S+?)\.\{([^}]*)\}", text, re.M):
                    if not re.search(r"\.(Goals|Given)$", m.group(1)):
                        imported.update(x.strip().split(" ")[-1] for x in m.group(2).split(","))

                def swap(m):
                    w = m.group(0)
                    if "-" not in w or w in imported:
                        return w
                    for rule, n in rules:
                        w = rule.sub(n, w)
                    return w

                new = WORD.sub(swap, text)
                if new != text:
                    with open(path, "w", encoding="utf-8") as file:
                        file.write(new)


if __name__ == "__main__":
    main()
