#!/usr/bin/env python3
"""Lists functions of crates/*/src whose bodies have one shape: twins.py [MOST-LINES-APART]

Two bodies have one shape if they are the same after every name, number and string is replaced by one mark.
Bodies of fewer than three lines are left out, and so are tests.
"""
import glob
import re
import sys

MARK = re.compile(r'b?"[^"]*"|b?\'[^\']*\'|[A-Za-z_][A-Za-z_0-9]*|[0-9][0-9_]*')
KEPT = {"if", "else", "for", "in", "while", "match", "return", "let", "mut", "Some", "None", "Ok", "Err", "true", "false"}


def functions(path):
    lines = open(path).read().split("\n")
    i = 0
    while i < len(lines):
        head = re.match(r"(\s*)(pub(\(crate\))? )?(const )?fn ([a-z_0-9]+)", lines[i])
        if head:
            indent = head.group(1)
            j = i
            while j < len(lines) and lines[j] != indent + "{" and not lines[j].endswith(" {"):
                j += 1
            k = j + 1
            while k < len(lines) and lines[k] != indent + "}":
                k += 1
            yield head.group(5), [line.strip() for line in lines[j + 1 : k] if line.strip()]
            i = k
        i += 1


def shape(body):
    return "\n".join(MARK.sub(lambda m: m.group(0) if m.group(0) in KEPT else "_", line) for line in body)


def main():
    shapes = {}
    for path in sorted(glob.glob("crates/*/src/**/*.rt", recursive=True)):
        if path.endswith("tests.rt") or "_cases/" in path:
            continue
        for name, body in functions(path):
            if len(body) >= 3:
                shapes.setdefault(shape(body), []).append((path, name, len(body)))
    groups = [found for found in shapes.values() if len(found) > 1]
    for found in sorted(groups, key=lambda g: -len(g) * g[0][2]):
        print(f"{len(found)} functions of {found[0][2]} lines")
        for path, name, _ in found:
            print(f"    {path}: {name}")
    print(f"{len(groups)} shapes, {sum(len(g) for g in groups)} functions")


main()
