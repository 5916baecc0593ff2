#!/usr/bin/env python3
"""Brings the names of this repository's definitions, lemmas, fields and variables to snake case, once, after the kit's port.py.

usage: python3 tools/snake_case.py        at the top of the repository: rewrites crates/*/specs, crates/*/proofs and the clauses of crates/*/src

A name with a dash that no library declares gets an underscore in its place. Names of the library keep theirs, and so do names that the checker
makes (in the folder of a function's proof only names that a file of specs/ or a file of lemmas declares are changed). Two would fall together with a
name of the library, and are told apart; one stem, getD, is spelled as the library now spells it. It stops where two names would become one.
"""

import os
import re
import sys

TOKEN = re.compile(r"[^\s(){}\[\],.;:\"«»λ→×∷|`]+")
USE = re.compile(r"^\s*(?:ghost )?(?:pub )?use ([^\s{;]+?)(?:\.\{([^}]*)\})?(?: as (\S+?))?;?\s*$")
DECLARED = re.compile(r"^\s*(?:abbrev |unfoldable )?(?:pub )?(?:abbrev |unfoldable )?(?:data |record )?([^\s(){}:]+)(?: \(.*| \{.*)? : ")
APART = {"lasts-of": "lasts_of_parameters", "fits-of": "fits_of_rounded", "getD-mem": "get_or_mem", "mem-getD": "mem_get_or"}
# cargo's and the proofs' own folders: a function's proof is in one of these files
WALKS = ("Proof.antt", "Answers.antt", "Invariants.antt")


def files():
    for folder, dirs, names in os.walk("crates"):
        dirs[:] = sorted(d for d in dirs if d != "out")
        for name in sorted(names):
            if name.endswith((".antt", ".rt")):
                yield os.path.join(folder, name)


def is_walk(path):
    return "/proofs/" in path and os.path.basename(path) in WALKS


def code(line):
    return re.sub(r"--.*", "", line)


def gather():
    """The names that libraries declare, and the dashed names of this repository's own."""
    own_crates = set(os.listdir("crates"))
    library, declared, seen = set(), set(), set()
    for path in files():
        for line in open(path, encoding="utf-8"):
            use = USE.match(line)
            if use and use.group(2):
                root = use.group(1).split(".")
                if not (root[0] == "Rattle" and root[1] in own_crates):
                    library.update(n.strip().split(" as ")[0] for n in use.group(2).split(","))
            if path.endswith(".antt") and not is_walk(path):
                found = DECLARED.match(code(line))
                if found:
                    declared.add(found.group(1))
                seen.update(TOKEN.findall(code(line)))
    dashed = {n for n in seen if re.search(r"[^\W_]['₀₁₂]*-[^\W_]", n) and n not in library}
    return library, declared, seen, dashed


def renaming():
    library, declared, seen, dashed = gather()
    to = {n: APART.get(n, n.replace("-", "_")) for n in dashed}
    taken = {}
    for old, new in sorted(to.items()):
        if new in taken or new in library or new in seen and new in declared:
            sys.exit(f"snake_case: {old} would fall together with another {new}")
        taken[new] = old
    return to, {n: to[n] for n in dashed if n in declared}


def turned(text, names, after_tie):
    def one(found):
        name = found.group(0)
        if name not in names:
            return name
        before = text[max(0, found.start() - 4) : found.start()]
        return name if after_tie and before.endswith(("tie.", "ode.")) else names[name]

    return TOKEN.sub(one, text)


def without_dots(text):
    """Dec·and of the library's module Logic is now `and` of Logic.Dec, and is called Dec-and here."""
    lines = []
    for line in text.split("\n"):
        use = USE.match(line)
        dotted = [n.strip() for n in use.group(2).split(",") if "·" in n] if use and use.group(2) else []
        if not dotted:
            lines.append(line)
            continue
        rest = [n.strip() for n in use.group(2).split(",") if "·" not in n]
        if rest:
            lines.append(line.replace("{" + use.group(2) + "}", "{" + ", ".join(rest) + "}"))
        for module in sorted({n.split("·")[0] for n in dotted}):
            names = [n.split("·")[1] for n in dotted if n.startswith(module + "·")]
            lines.append(f"use {use.group(1)}.{module}.{{" + ", ".join(f"{n} as {module}-{n.replace('-', '_')}" for n in names) + "}")
    return re.sub(r"\b(Dec|Iff)·([\w-]+)", lambda m: m.group(1) + "-" + m.group(2).replace("-", "_"), "\n".join(lines))


def main():
    everywhere, declared = renaming()
    changed = 0
    for path in files():
        old = open(path, encoding="utf-8").read()
        lines = []
        clause = False
        for line in old.split("\n"):
            if path.endswith(".rt"):
                # a clause ends with the brace that ends its line, or with the one that opens the body
                clause = clause or bool(re.match(r"\s*(ghost|requires|ensures)\b", line))
                body, note = (line, "") if clause else ("", line)
                if clause and re.search(r"[};]\s*$", line) or line.strip() == "{":
                    clause = False
            else:
                at = line.find("--")
                body, note = (line, "") if at < 0 else (line[:at], line[at:])
            names = declared if is_walk(path) or path.endswith(".rt") else everywhere
            note = re.sub(r"`[^`]*`", lambda m: turned(m.group(0), declared, False), note)
            lines.append(turned(body, names, is_walk(path)) + note)
        new = without_dots("\n".join(lines))
        if new != old:
            open(path, "w", encoding="utf-8").write(new)
            changed += 1
    print(f"snake_case: {len(everywhere)} names, {changed} files")


main()
