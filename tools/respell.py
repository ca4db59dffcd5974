#!/usr/bin/env python3
"""Respells the definitions and lemmas of this repository as today's Rattle does: snake case for functions, lemmas, fields and
constructors, camel case for types and facts. It ran once, straight after the toolchain's own port script.

A name is ours if a file under specs/ or proofs/ declares it, or a `use` line gives it by `as`. Goals keep the names that the check
gives them, and so do the names that a file imports from the library.

    tools/respell.py [--dry] [ROOT]
"""

import os
import re
import sys

OWN_ROOTS = "arithmetic binary64 bench card cards closing coefficients comparison decimal integers refusals rounding row scientific vectors".split()
# what may stand in a name of antt
NAME = re.compile(r"[^\s(){}\[\];,.\"⌜⌝⟦⟧«»]+")
SIGNATURE = re.compile(r"^\s*(?:\|\s*)?(?:(?:pub|abbrev|unfoldable|data|record|module)\s+)*([^\s:(){}=]+(?:\s+[^\s:(){}=]+)*)\s*(?:[({].*[)}])?\s*:(?!=)\s*(.*)$")
HEAD = re.compile(r"^\s*(?:(?:pub|abbrev|unfoldable)\s+)*(?:data|record)\s+([^\s:(){}]+)")
ALIAS = re.compile(r"([^\s{,]+) as ([^\s,}]+)")
LET = re.compile(r"\blet ([^\s:=]+)")
BINDER = re.compile(r"[({]([^(){}:=]+) :")
EQUATION = re.compile(r"^\s*([^:={}]+) = ")
LAMBDA = re.compile(r"λ ((?:[^\s().:]+\s+)*[^\s().:]+)\.")


def files(root):
    for folder, dirs, names in os.walk(os.path.join(root, "crates")):
        dirs[:] = sorted(d for d in dirs if d != "out")
        for name in sorted(names):
            if name.endswith((".antt", ".rt", ".edit")):
                yield os.path.join(folder, name)


def imports(text):
    """The names that a file takes from the library, and those that it takes from this repository."""
    library, own = set(), set()
    for line in re.findall(r"(?m)^\s*(?:pub |ghost )*use ([^\n]+)", text):
        found = re.match(r"([^\s{]+?)\.?\{(.*)\}", line)
        if not found:
            continue
        parts = found[1].split(".")
        into = own if parts[0] == "Rattle" and parts[1] in OWN_ROOTS else library
        for item in found[2].split(","):
            into.add(item.split(" as ")[0].strip())
    return library, own


def declared(text):
    ours, goals = set(), set()
    for line in text.splitlines():
        if line.lstrip().startswith(("--", "use ", "pub use ", "pub mod ", "mod ")):
            continue
        head = HEAD.match(line)
        if head:
            ours.add(head[1])
        signature = SIGNATURE.match(line)
        if signature:
            into = goals if signature[2].startswith("goal.") else ours
            into.update(signature[1].split())
        ours.update(LET.findall(line))
        for binders in LAMBDA.findall(line) + BINDER.findall(line) + EQUATION.findall(line):
            ours.update(binders.split())
    return ours, goals


def respelled(name):
    words = name.split("-")
    if len(words) == 1 or "" in words:
        return name
    if words[0][0].isupper() and len(words[0].rstrip("'")) > 1:
        return "".join(word[0].upper() + word[1:] for word in words)
    return "_".join(words)


def main(argv):
    dry = "--dry" in argv
    rest = [a for a in argv if a != "--dry"]
    root = rest[0] if rest else "."
    texts = {}
    for path in files(root):
        with open(path, encoding="utf-8") as f:
            texts[path] = f.read()
    # beside what the declarations show: arguments of a lemma that stand after one in braces
    ours, goals, library = {"a-reads", "b-reads", "c-reads", "b-is"}, set(), set()
    for path, text in texts.items():
        if path.endswith(".antt"):
            mine, asked = declared(text)
            ours |= mine
            goals |= asked
        if not path.endswith(".edit"):
            ours |= {new for line in re.findall(r"(?m)^\s*(?:pub |ghost )*use [^\n]+", text) for _, new in ALIAS.findall(line)}
        library |= imports(text)[0]
    names = {n: respelled(n) for n in ours if "-" in n and respelled(n) != n}
    for n in sorted(set(names) & goals):
        print("a goal has this name:", n)
        del names[n]
    for n in sorted(set(names) & library):
        print("the library has this name:", n)
    together = {}
    for old, new in names.items():
        together.setdefault(new, set()).add(old)
    for new, olds in sorted(together.items()):
        if len(olds) > 1 or (new in ours and new not in names):
            print("fall together:", new, sorted(olds), "(stands already)" if new in ours else "")
    for path, text in texts.items():
        taken = imports(text)[0]
        # in a .rt file only clauses, ghost items and their imports are antt; no Rust identifier has a dash between letters without spaces
        new = NAME.sub(lambda m: names.get(m[0], m[0]) if m[0] not in taken else m[0], text)
        if new != text:
            present = set(NAME.findall(text))
            for n in sorted(present & set(names)):
                if names[n] in present:
                    print("both stand in", os.path.relpath(path, root), ":", n, names[n])
            if not dry:
                with open(path, "w", encoding="utf-8") as f:
                    f.write(new)
    print(len(names), "names")
    if dry:
        for n in sorted(names):
            print("  ", n, names[n])


if __name__ == "__main__":
    main(sys.argv[1:])
