#!/usr/bin/env python3
"""Spells the names that this repository's own definitions, lemmas and fields have as today's Rattle does.

usage: python3 tools/respell_names.py [--list] [FOLDER]

Words joined by dashes, and words in lower camel case, become snake case: 'class-below' is 'class_below', 'soundLoop' is 'sound_loop'.
A name stays if a library declares it, if Rattle makes it for a goal or a step of a proof, or if it stands in KEPT.
Where two names would fall together, OTHER says what one of them becomes.
Comments, quoted text and the code outside clauses are not touched. --list writes nothing and shows the names.
"""

import os
import re
import sys

NAME = re.compile(r"(?<![\w'′◌-])[^\W\d][\w'′]*(?:-[\w'′◌⊔+*≤<≡]+)*")
QUIET_ANTT = re.compile(r'"(?:[^"\\\n]|\\.)*"|(?<!\S)--[^\n]*|\{-.*?-\}', re.S)
QUIET_RT = re.compile(r'''//[^\n]*|/\*.*?\*/|b?r(#*)".*?"\1|b?"(?:\\.|[^"\\])*"|b?'(?:\\.|[^\\'\n])\'''', re.S)
LIBRARY = re.compile(r"\buse (?:Rattle\.(?:std|core|std_\w+|io|libc|logic)|mathlib|native|Prim|lib)\b[^\s{;]*\{([^}]*)\}")
OF_FUNCTION = re.compile(r"/proofs/.*/(Answers|Choices|Invariants|Proof)\.antt$")
MADE = re.compile(r"\b(?:goal|need|want|given)\.([\w'′-]+)|\bc\.([\w'′-]+)|\bl\.([\w'′-]+)|\.(?:Goals|Needs|Given|Choices|Steps)\.\{([^}]*)\}")
OTHER = {
    "anOperand": "operand_check",
    "isClass": "names_class",
    "isSome": "has_some",
    "formIn": "row_form",
    "operand-seen": "source_given",
    "operation-seen": "code_operation_seen",
    "sound-below": "is_sound_below",
    "sound-loop": "is_sound_loop",
    "sound-machine": "is_sound_machine",
}
KEPT = set()


def files(root):
    for folder, dirs, names in os.walk(os.path.join(root, "crates")):
        dirs[:] = sorted(d for d in dirs if d != "out")
        for n in sorted(names):
            if n.endswith((".antt", ".rt")):
                yield os.path.join(folder, n)


def parts(text, quiet):
    """The text, cut into pieces, each with whether it is code."""
    at = 0
    for m in quiet.finditer(text):
        yield text[at : m.start()], True
        yield m[0], False
        at = m.end()
    yield text[at:], True


def snake(name):
    words = re.sub(r"(?<=[a-z0-9])[A-Z]", lambda m: "_" + m[0].lower(), name) if re.match(r"[a-z]", name) else name
    return words.replace("-", "_")


def respelled(name):
    return OTHER.get(name) or snake(name)


def survey(root):
    """The names that are ours, and those that libraries or Rattle's own making lend."""
    ours, lent, made = {}, set(KEPT), set()
    for p in files(root):
        text = open(p, encoding="utf-8").read()
        code = "".join(t for t, live in parts(text, QUIET_RT if p.endswith(".rt") else QUIET_ANTT) if live)
        for m in LIBRARY.finditer(code):
            for item in m[1].split(","):
                words = item.split(" as ")
                lent.add(words[0].strip())
        own = not OF_FUNCTION.search(p)
        if not own:
            for m in MADE.finditer(code):
                for g in m.groups():
                    if g:
                        made.update(x.strip().split(" as ")[0] for x in g.split(","))
        for m in NAME.finditer(code):
            if snake(m[0]) != m[0]:
                ours.setdefault(m[0], set()).add(p)
    return {n: ps for n, ps in ours.items() if n not in lent and any(not OF_FUNCTION.search(p) for p in ps)}, lent, made


def turn(text, quiet, table, stay):
    def one(m):
        return m[0] if m[0] in stay else table.get(m[0], m[0])

    return "".join(NAME.sub(one, t) if live else t for t, live in parts(text, quiet))


def main(argv):
    listing = "--list" in argv
    rest = [a for a in argv if a != "--list"]
    root = rest[0] if rest else "."
    ours, lent, made = survey(root)
    table = {n: respelled(n) for n in ours}
    if listing:
        for n in sorted(table):
            print(n, "->", table[n], "" if n not in made else "(made too)")
        back = {}
        for n, t in table.items():
            back.setdefault(t, []).append(n)
        for t, ns in sorted(back.items()):
            if len(ns) > 1:
                print("TOGETHER:", t, ns)
        return 0
    changed = 0
    for p in files(root):
        text = open(p, encoding="utf-8").read()
        new = turn(text, QUIET_RT if p.endswith(".rt") else QUIET_ANTT, table, set())
        if new != text:
            changed += 1
            open(p, "w", encoding="utf-8").write(new)
    print(f"{len(table)} names, {changed} files")
    return 0


if __name__ == "__main__":
    raise SystemExit(main(sys.argv[1:]))
