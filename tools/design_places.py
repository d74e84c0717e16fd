#!/usr/bin/env python3
"""Lists the lines of crates/*/src where a form of docs/DESIGN-PASS.md is looked for.

    python3 tools/design_places.py             the files as they stand
    python3 tools/design_places.py COMMIT      the files of a commit

A line is a place to look at; the page says which of them are places of a point. Point 2 is counted by pairs of
functions that share six or more lines; the tool `duplicates` of the work place lists those, so here stand only the
public functions and types whose name two crates share. Point 8 counts the lines of the files in proofs/.
"""
import re
import subprocess
import sys
from collections import defaultdict

FORMS = [
    ("1", "own enums", r"^\s*(pub(\([a-z]+\))? )?enum "),
    ("1", "flags in structs", r"^\s*(pub )?[a-z_]+: bool,"),
    ("1", "numbers for kinds and refusals", r"^\s*(pub )?(sq|svt|delivery): u8|fn number\b"),
    ("1", "results and options handed on by hand",
     r"Err\([a-z_]+\) => (Err|Some\(Reply)|None => (0|None|Err)|if let Err\(|\.is_some\(\) \{|let (Some|Ok)\(.*\) = .* else \{|Ok\(\(\)\) =>"),
    ("3", "loops that count", r"\bwhile |\bfor [a-z_]+ in [A-Za-z0-9_]+\.\."),
    ("3", "steps written out by index", r"\(bytes, [0-3]\)|&mut bytes, [0-3],|bytes\[from \+ [0-7]\]|_(with|or)\([0-3], "),
    ("4", "conversions and printing by name",
     r"fn (number|from_[a-z]+|to_[a-z]+|words|raw|read|new|reason|print_[a-z]+|[a-z]+_of|[a-z]+_in|hex_[a-z]+|taken_apart|laid_out)\b.*(\[|&|self|Fault|Marks|Aim|u8|u16)"),
    ("4", "values copied field by field", r"\*self = [A-Z]"),
    ("5", "facts of bytes as premises", r"length bytes\.(now|old) ≡ [0-9]+|lawful bytes\.(now|old) ≡ true"),
    ("5", "facts of sets", r"AllUsable \("),
    ("5", "parameters side by side", r"descriptor: u64,|rung: bool, quiet: bool|(held|record \{ frozen =) .*(self\.(new|now|old)|s\.|result)"),
    ("6", "lengths, arrays and lent bytes in structs", r"^\s*(pub )?[a-z_]+: (&'a (mut )?\[u8\]|\[u8; [A-Z0-9_a-z]+\]|\[u64; 4\]|usize),"),
    ("7", "steps picked at run time", r"\bdyn |\bimpl Fn|Fn\(|fn\("),
]


def sources(commit):
    if commit:
        names = subprocess.run(["git", "ls-tree", "-r", "--name-only", commit, "crates"], check=True,
                               capture_output=True, text=True).stdout.split()
        show = lambda n: subprocess.run(["git", "show", f"{commit}:{n}"], check=True, capture_output=True, text=True).stdout
    else:
        names = subprocess.run(["git", "ls-files", "crates"], check=True, capture_output=True, text=True).stdout.split()
        show = lambda n: open(n, encoding="utf-8").read()
    return {n: show(n).splitlines() for n in sorted(names) if n.endswith((".rt", ".antt"))}


def main():
    files = sources(sys.argv[1] if len(sys.argv) > 1 else None)
    code = {n: ls for n, ls in files.items() if n.endswith(".rt")}
    for point, what, pattern in FORMS:
        found = [(n, i, line) for n, ls in code.items() for i, line in enumerate(ls, 1)
                 if re.search(pattern, line) and not line.lstrip().startswith(("//", "ghost use"))]
        print(f"point {point}, {what}: {len(found)}")
        for n, i, line in found:
            print(f"    {n[len('crates/'):]}:{i}: {line.strip()[:110]}")
    twins = defaultdict(set)
    for n, ls in code.items():
        for line in ls:
            m = re.match(r"\s*pub (?:fn|struct|enum) ([A-Za-z_]+)", line)
            if m and not n.endswith("tests.rt"):
                twins[m.group(1)].add(n.split("/")[1])
    shared = {k: v for k, v in sorted(twins.items()) if len(v) > 1}
    print(f"point 2, public names that crates share: {len(shared)}")
    for k, v in shared.items():
        print(f"    {k}: {', '.join(sorted(v))}")
    proofs = defaultdict(lambda: [0, 0])
    for n, ls in files.items():
        if "/proofs/" in n:
            proofs[n.split("/")[1]][0] += 1
            proofs[n.split("/")[1]][1] += len(ls)
    print(f"point 8, lines in proofs/: {sum(p[1] for p in proofs.values())} in {sum(p[0] for p in proofs.values())} files")
    for c, (f, l) in sorted(proofs.items()):
        print(f"    {c}: {l} in {f}")


if __name__ == "__main__":
    main()
