#!/usr/bin/env python3
"""Brings the repository's own definitions and lemmas to snake case.

usage: tools/snake_names.py [--list] [ROOT]

A name that specs/ or proofs/ declare and that begins with a small letter loses its humps and dashes: `readSheet` becomes `read_sheet`, and
`same-answers` becomes `same_answers`. Where two names would fall together, or a file already has the new name for something else, the one
that had a dash gets `_lem` at its end. Functions of src/, names that the library has and names that the check makes for goals stay. It goes
over the .rt and .antt files of crates/ and renames the specs file Contracts to Promises, since the check makes a module `contracts`. --list
prints the renamings and writes nothing.
"""

import collections
import glob
import os
import re
import subprocess
import sys

TOKEN = re.compile(r"[^\s(){}.;,@\"«»\[\]`]+")
DECLARED = re.compile(
    r"^( *)(?:(?:abbrev|unfoldable|pub|private) )*(?:(?:data|record|axiom|ruleset) )?([^\s(){}.;,@\"«»\[\]]+)(?: [({][^\n]*)? : (.*)"
)
IMPORT = re.compile(r"^\s*(?:pub )?(?:ghost )?use ([^\s{;]+?)(?:\.\{([^}]*)\})?;?\s*$")
# Definitions whose plain spelling the library's scripts gave to something else.
OTHERWISE = {
    "isOpen": "reservation_open",
    "isRead": "net_read",
    "linesAfter": "lines_behind",
    "linesSame": "lines_equal",
    "oneMore": "one_number_more",
    "readNext": "next_read",
    "standsOn": "stands_upon",
    "withNone": "with_nothing",
    "withRest": "with_the_rest",
}
MADE = re.compile(r"tie\.|goal\.")


def files(root):
    for end in ("rt", "antt"):
        for path in sorted(glob.glob(f"{root}/crates/*/**/*.{end}", recursive=True)):
            if "/out/" not in path:
                yield path


def read(path):
    with open(path, encoding="utf-8") as it:
        return it.read()


def spelled(name):
    if not name[0].islower() or "◌" in name:
        return name
    name = re.sub(r"(?<=[a-z0-9])([A-Z])(?=[a-z0-9*']|$|-)", lambda m: "_" + m.group(1).lower(), name)
    return re.sub(r"(?<=[^-])-(?=[^-])", "_", name)


def uses(path, text):
    """The names that stand bare in a file, for which a definition of that name could be taken: of a .rt file its parameters, fields and constants."""
    if path.endswith(".rt"):
        return set(re.findall(r"(\w+): ", re.sub(r"//.*", "", text))) | set(re.findall(r"\b[A-Z][A-Z0-9_]+\b", text))
    text = re.sub(r"--.*", "", text)
    return set(re.findall(r"(?<![^\s(){};,])([^\s(){}.;,@\"«»\[\]`]+)(?![^\s(){};,])", text))


def foreign(text, own):
    """The names that a file takes from the library."""
    out = set()
    for line in text.split("\n"):
        m = IMPORT.match(line)
        if not m:
            continue
        parts = m.group(1).split(".")
        if parts[0] == "Rattle" and len(parts) > 1 and parts[1] in own:
            continue
        for item in (m.group(2) or "").split(","):
            words = item.split()
            if words:
                out.add(words[-1])
                out.add(words[0])
    return out


def main(argv):
    lists = "--list" in argv
    rest = [a for a in argv if a != "--list"]
    root = rest[0] if rest else "."
    own = {os.path.basename(os.path.dirname(p)) for p in glob.glob(f"{root}/crates/*/src")}
    texts = {p: read(p) for p in files(root)}
    declared = collections.defaultdict(set)
    goals = set()
    for path, text in texts.items():
        if not path.endswith(".antt"):
            continue
        for line in text.split("\n"):
            if line.lstrip().startswith("--"):
                continue
            m = DECLARED.match(line)
            if not m:
                continue
            if path.endswith("/Proof.antt") and (MADE.search(m.group(3)) and m.group(3).lstrip().startswith("tie.") or m.group(2).endswith("-spec")):
                goals.add(m.group(2))
            else:
                declared[m.group(2)].add(path)
    tokens = {p: set(TOKEN.findall(t)) for p, t in texts.items()}
    used = {p: uses(p, t) for p, t in texts.items()}
    outside = {p: foreign(t, own) for p, t in texts.items()}
    turned = {n: OTHERWISE.get(n, spelled(n)) for n in declared if spelled(n) != n}
    # Fixed points: names that stay, and what files have already.
    stays = {n for n in declared if n not in turned}
    taken = collections.defaultdict(list)
    for old in sorted(turned, key=lambda n: ("-" in n, n)):
        new = turned[old]
        while (
            new in stays
            or new in taken
            or any(old in tokens[p] and new in outside[p] for p in texts)
            or any(old in tokens[p] and old not in outside[p] and new in used[p] for p in texts if not p.endswith("/Proof.antt"))
        ):
            new += "_lem" if not new.endswith("_lem") else "_2"
        turned[old] = new
        taken[new].append(old)
    if lists:
        for old in sorted(turned):
            print(old, turned[old])
        return 0
    for path, text in texts.items():
        skip = outside[path]
        proof = path.endswith("/Proof.antt")

        def turn(m):
            word = m.group(0)
            if word in skip or word not in turned or (proof and word in goals and not declared_here(path, word)):
                return word
            return turned[word]

        def declared_here(path, word):
            return path in declared[word]

        out = TOKEN.sub(turn, text).replace("specs.Contracts", "specs.Promises")
        if path.endswith("specs/Lib.antt"):
            out = re.sub(r"(?m)^pub mod Contracts$", "pub mod Promises", out)
        if out != text:
            with open(path, "w", encoding="utf-8") as it:
                it.write(out)
    for path in sorted(glob.glob(f"{root}/crates/*/specs/Contracts.antt")):
        subprocess.run(["git", "mv", path, path.replace("Contracts.antt", "Promises.antt")], check=True)
    return 0


if __name__ == "__main__":
    raise SystemExit(main(sys.argv[1:]))
