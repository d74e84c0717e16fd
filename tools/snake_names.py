#!/usr/bin/env python3
"""Spells the repository's own definitions and lemmas as today's Rattle does: words in snake case.

usage: python3 tools/snake_names.py      at the top of a checkout, once, right after port.py

It reads the names that specs/ and proofs/ define, and the names that imports give by `as`, and writes each in snake
case wherever it stands: in .antt files, in the ghost text of .rt files, in must-fail edits and in docs/. Names that
Rattle makes (goals, invariants) and the program's own functions keep their spelling. It prints what it renamed, and
stops, with nothing written, where two names of one file would fall together.
"""
import glob
import os
import re
import sys

# A name whose plain spelling is taken by the library or by a neighbour.
APART = {
    "bit-or": "bit_of_or",
    "bit-and": "bit_of_and",
    "bit-xor": "bit_of_xor",
    "is-flag": "flag_found",
}
NAME = r"[A-Za-z_][\w'₀₁₂₃₄₅₆₇₈₉-]*"
TOKEN = re.compile(r"(?<![\w'₀₁₂₃₄₅₆₇₈₉-])" + NAME)
SIGNATURE = re.compile(r"^\s*(?:abbrev |unfoldable )?(?:pub )?(?:data |record )?(" + NAME + r")(?:\s+(?:\(.*\)|\{.*\}))*\s*:\s")
ALIAS = re.compile(r"\bas (" + NAME + r")")


def snake(name):
    """The spelling of a word in snake case; a type, which begins with a capital, keeps its own."""
    if name in APART:
        return APART[name]
    if name[0].isupper():
        return name
    return re.sub(r"(?<=[a-z0-9])([A-Z])", lambda m: "_" + m.group(1).lower(), name).replace("-", "_")


def read(path):
    with open(path, encoding="utf-8") as f:
        return f.read()


def own_files():
    """The files whose definitions are ours: specs/, and lemma files right in proofs/."""
    return sorted(glob.glob("crates/*/specs/*.antt") + glob.glob("crates/*/proofs/*.antt"))


def names():
    found = set()
    for path in own_files():
        for line in read(path).splitlines():
            m = SIGNATURE.match(line)
            if m and not re.match(r"\s*let\b", line):
                found.add(m.group(1))
    for path in glob.glob("crates/*/src/**/*.rt", recursive=True) + own_files():
        for line in read(path).splitlines():
            if re.match(r"\s*(ghost )?use Rattle", line):
                found.update(ALIAS.findall(line))
    return found


def ghost_text(line, inside):
    """Whether a line of a .rt file is ghost text, and whether the next one goes on with it."""
    if inside:
        return True, inside + line.count("{") - line.count("}")
    if re.match(r"\s*ghost use ", line):
        return True, 0
    if re.match(r"\s*(pub )?(ghost |requires|ensures|also_)", line) or re.search(r"\b(ghost|requires|ensures) (\w+ )?\{", line):
        return True, max(0, line.count("{") - line.count("}"))
    return False, 0


def words(path, text):
    """The names that stand in a file's ghost text, modules on a path apart."""
    if path.endswith(".rt"):
        lines, inside = [], 0
        for line in text.splitlines():
            ghost, inside = ghost_text(line, inside)
            lines += [line] if ghost else []
        text = "\n".join(lines)
    return set(re.findall(TOKEN.pattern + r"(?![\w'-]|\.[A-Z])", text))


def main():
    turned = {n: snake(n) for n in names() if snake(n) != n}
    paths = []
    for kind in ("crates/*/specs/**/*.antt", "crates/*/proofs/**/*.antt", "crates/*/src/**/*.rt", "crates/*/must-fail/*.edit", "docs/*.md"):
        paths += glob.glob(kind, recursive=True)
    written, apart = {}, []
    for path in sorted(paths):
        text = read(path)
        here = words(path, text)
        became = {}
        for old in sorted(here & set(turned)):
            new = turned[old]
            if new in here or new in became:
                apart.append(f"{path}: {old} would fall together with {became.get(new, new)}")
            became[new] = old
        turn = lambda s: TOKEN.sub(lambda m: turned.get(m.group(0), m.group(0)), s)
        if path.endswith(".antt"):
            out = turn(text)
        elif path.endswith(".md"):
            out = re.sub(r"`[^`\n]*`", lambda m: turn(m.group(0)), text)
        elif path.endswith(".edit"):
            out = turn(text)
        else:
            lines, inside = [], 0
            for line in text.splitlines(keepends=True):
                ghost, inside = ghost_text(line, inside)
                lines.append(turn(line) if ghost else line)
            out = "".join(lines)
        if out != text:
            written[path] = out
    if apart:
        print("\n".join(apart))
        return 1
    for path, out in written.items():
        with open(path, "w", encoding="utf-8") as f:
            f.write(out)
    for old, new in sorted(turned.items()):
        print(f"{old} {new}")
    print(f"{len(turned)} names, {len(written)} files", file=sys.stderr)
    return 0


if __name__ == "__main__":
    os.chdir(os.path.dirname(os.path.dirname(os.path.abspath(__file__))) if len(sys.argv) < 2 else sys.argv[1])
    sys.exit(main())
