#!/usr/bin/env python3
"""Plants bugs in a copy of this repository, and has each crate checked with each of its bugs: the check must refuse.

tools/planted/CRATE.txt lists the bugs of a crate, parted by empty lines. A bug is a few lines:

    bug: what is planted, in words
    file: src/lib.rt
    in: the function
    old: text that stands once in the file
    new: what stands there in its place
    same: why the check has to accept it (only where it does: it is the same program, or the contract leaves it open)

Further pairs of `old:` and `new:` may follow; ⏎ stands for a line break. Other lines are no part of a bug if they begin with #.

    tools/planted.py [--alone] [--only WORD] [--keep FOLDER] [CRATE..]     all crates that have a list, if none is named

Bugs of different functions are planted together, since each function is proved by the contracts of those that it calls; --alone plants
each bug by itself. It prints a table. It ends with status 1 if a bug was accepted, if one was refused by the compiler before the prover saw it, or if its text
does not stand in the file once. --only takes the bugs whose words or function hold WORD. --keep works in that folder, which is left there
for the next run; else the copy is in a new folder and is removed at the end.
"""

import argparse
import os
import re
import shutil
import subprocess
import sys
import tempfile

ROOT = os.path.dirname(os.path.dirname(os.path.abspath(__file__)))
LISTS = os.path.join(ROOT, "tools", "planted")


def bugs_of(crate):
    """The bugs of a crate's list, each as its fields and its pairs of texts."""
    with open(os.path.join(LISTS, crate + ".txt"), encoding="utf-8") as listed:
        paragraphs = re.split(r"\n[ \t]*\n", listed.read())
    bugs = []
    for paragraph in paragraphs:
        bug = {"crate": crate, "pairs": []}
        for line in paragraph.splitlines():
            if line.startswith("#") or not line.strip():
                continue
            key, _, text = line.partition(": ")
            text = text.replace("⏎", "\n")
            if key == "old":
                bug["pairs"].append([text, None])
            elif key == "new" or key == "new:":
                bug["pairs"][-1][1] = text
            else:
                bug[key] = text
        if bug["pairs"]:
            bugs.append(bug)
    return bugs


def copied(folder):
    """Brings the copy to the state of the repository; what earlier checks left in out/ is taken along, so that they need not be done again."""
    for name in ["crates.txt", "crates"]:
        source, copy = os.path.join(ROOT, name), os.path.join(folder, name)
        if os.path.isfile(source):
            shutil.copy2(source, copy)
        elif not os.path.isdir(copy):
            shutil.copytree(source, copy, symlinks=True)
        else:
            for crate in os.listdir(source):
                for part in ["src", "specs", "proofs"]:
                    shutil.rmtree(os.path.join(copy, crate, part), ignore_errors=True)
                    if os.path.isdir(os.path.join(source, crate, part)):
                        shutil.copytree(os.path.join(source, crate, part), os.path.join(copy, crate, part))


def check(folder, crate):
    """Whether the check accepts a crate, and what it said."""
    run = subprocess.run(["rt", "check", "--jobs", "1"], cwd=os.path.join(folder, "crates", crate), capture_output=True, text=True)
    return run.returncode == 0, run.stdout + run.stderr


def refusal(said):
    """The first line that tells why, and whether the prover said it."""
    for line in said.splitlines():
        if re.search(r"error\[", line):
            return line, False
        if "is rattle's own name" in line:
            continue
        if line.startswith("note: ") and re.search(r"(src|proofs|specs)/\S+:\d+", line):
            return line[len("note: "):], True
        if re.match(r"(\./)?(src|proofs|specs)/\S+:\d+:\d+: (error|it is not proved)", line):
            return line.removeprefix("./"), True
    return (said.strip().splitlines() or [""])[-1], False


def planted(folder, bug):
    """Plants a bug, and gives the lines of its function afterwards; None if a text does not stand once."""
    path = os.path.join(folder, "crates", bug["crate"], bug["file"])
    with open(path, encoding="utf-8") as source:
        text = source.read()
    for old, new in bug["pairs"]:
        if text.count(old) != 1 or new is None:
            return None
        place = text.index(old) + len(old) - len(old.lstrip())
        text = text.replace(old, new)
    with open(path, "w", encoding="utf-8") as source:
        source.write(text)
    here = text.count("\n", 0, place) + 1
    lines = text.splitlines()
    heads = []
    for n, line in enumerate(lines, 1):
        if re.match(r'\s*(pub(\(crate\))? )?(extern "C" )?fn ', line):
            while n > 1 and lines[n - 2].lstrip().startswith("#["):
                n -= 1
            heads.append(n)
    return max([n for n in heads if n <= here], default=1), min([n for n in heads if n > here], default=10**9)


def tried(folder, bugs):
    """What became of some bugs of different functions, planted together, and the line that tells it; None if they have to be planted alone."""
    crate = bugs[0]["crate"]
    rights = {}
    for bug in bugs:
        path = os.path.join(folder, "crates", crate, bug["file"])
        with open(path, encoding="utf-8") as source:
            rights.setdefault(path, source.read())
    try:
        ranges = [planted(folder, bug) for bug in bugs]
        if None in ranges:
            return [("BAD", "its text does not stand once")] if len(bugs) == 1 else None
        accepted, said = check(folder, crate)
    finally:
        for path, right in rights.items():
            with open(path, "w", encoding="utf-8") as source:
                source.write(right)
    if len(bugs) == 1:
        if accepted:
            return [("PROVED", bugs[0].get("same", ""))]
        line, by_prover = refusal(said)
        return [("refused" if by_prover else "BAD", line)]
    if re.search(r"(?m)^\S*:\d+:\d+: error\[", said):
        return None
    proved = set(re.findall(r"(?m)^fn (\S+): proved", said))
    became = []
    for bug, (first, after) in zip(bugs, ranges):
        if any(name.endswith("::" + bug["in"]) for name in proved) or accepted:
            became.append(("PROVED", bug.get("same", "")))
            continue
        found = [line for line in said.splitlines() if (place := re.match(r"note: (src/\S+?):(\d+):", line)) and place[1] == bug["file"] and first <= int(place[2]) < after]
        named = [line for line in said.splitlines() if line.startswith("note: ") and re.search(r"(proofs|specs)/\S+:\d+", line) and "/" + bug["in"].split("::")[-1] + "/" in line]
        if not found and not named:
            return None
        became.append(("refused", (found + named)[0][len("note: "):]))
    return became


def together(bugs):
    """Parts the bugs of a crate in groups, in each at most one of a function; those of a constant stand alone, and those that the check has to
    accept apart from the others, since nothing is said of a function without a contract while one that it calls is refused."""
    groups = []
    for bug in bugs:
        alone = not re.search(r"[a-z]", bug.get("in", ""))
        group = None if alone else next((g for g in groups if ("same" in g[0]) == ("same" in bug) and not any(x.get("in", "").isupper() or x["in"] == bug["in"] for x in g)), None)
        if group is None:
            groups.append([bug])
        else:
            group.append(bug)
    return groups


def cell(text):
    return text.replace("|", "\\|").replace("\n", " ").strip()


def main():
    args = argparse.ArgumentParser(description=__doc__.splitlines()[0])
    args.add_argument("--only", metavar="WORD")
    args.add_argument("--alone", action="store_true")
    args.add_argument("--keep", metavar="FOLDER")
    args.add_argument("crates", nargs="*", metavar="CRATE")
    given = args.parse_args()
    listed = sorted(name[:-4] for name in os.listdir(LISTS) if name.endswith(".txt"))
    folder = given.keep or tempfile.mkdtemp(prefix="planted-")
    os.makedirs(folder, exist_ok=True)
    counts = {}
    try:
        copied(folder)
        print("| crate | file | function | planted | refused? | by |", "|---|---|---|---|---|---|", sep="\n", flush=True)
        for crate in given.crates or listed:
            accepted, said = check(folder, crate)
            if not accepted:
                sys.exit(f"{crate} is refused with no bug planted:\n{said[-2000:]}")
            bugs = [bug for bug in bugs_of(crate) if not given.only or given.only in bug["bug"] + " " + bug.get("in", "")]
            for group in [[bug] for bug in bugs] if given.alone else together(bugs):
                answers = tried(folder, group) or [tried(folder, [bug])[0] for bug in group]
                for bug, (became, line) in zip(group, answers):
                    right = became == ("PROVED" if "same" in bug else "refused")
                    counts[became, right] = counts.get((became, right), 0) + 1
                    row = [crate, bug["file"], bug.get("in", ""), bug["bug"], became, line]
                    print("| " + " | ".join(cell(text) for text in row) + " |", flush=True)
    finally:
        if not given.keep:
            shutil.rmtree(folder, ignore_errors=True)
    print()
    for (became, right), count in sorted(counts.items()):
        print(f"{count} {became}{'' if right else ' (not as it has to be)'}")
    sys.exit(0 if all(right for _, right in counts) else 1)


if __name__ == "__main__":
    main()
