#!/usr/bin/env python3
"""Respells the names that this repository declares in specs/ and proofs/: words in snake case, types in upper camel case.

usage: python3 tools/respell.py        at the top of the repository, once, after the kit's port.py

`tree-in` becomes `tree_in`, and `All-fit`, a type, `AllFit`. Names of the library stay, and so do names that Rattle makes, as
`loop-x-preserved`; in those a name from the source, or a word of Rattle's, gets its underscores back, as `loop-my_var-preserved`.
Code alone is turned, and a name between backticks in a comment; strings, inputs and outputs stay. Names that fall together are printed.
"""

import collections
import os
import re
import sys

ROOT = "crates"
W = r'[^\s(){}.;,@"«»`]+'
WORD = re.compile(W)
CHAIN = re.compile(rf"{W}(?:\.{W})*|\.{W}")
SIGNATURE = re.compile(rf"^[ \t]*(?:(?:pub|abbrev|unfoldable|pattern) +)*((?:{W} +)*?{W}) :(?= )")
DECLARED = re.compile(rf"^[ \t]*(?:pub )?(?:record|data) ({W})")
ALIAS = re.compile(rf"(?<=[{{ ,])({W}) as ({W})")
MODULE = re.compile(rf"^use ({W}(?:\.{W})*) as ({W})$", re.M)
GOAL = re.compile(rf"^((?:(?:pub|abbrev) +)*)({W})(?= : (?:goal|given)\.)", re.M)
PLACES = re.compile(r"^use [^\n{]*\.Goals\.\{([^}]*)\}", re.M)
QUIET = re.compile(r'(--[^\n]*|//[^\n]*|\{-.*?-\}|b?"(?:[^"\\\n]|\\.)*")', re.S)
MADE = ("Answers.antt", "Invariants.antt", "Choices.antt")
WORDS = {"in-ok": "in_ok", "in-err": "in_err", "in-default": "in_default", "invariant-of": "invariant_of", "in-rest": "in_rest"}
# a type that was spelled in small letters, an argument that was not, a lemma named for a word of the library that has another
# name now, and definitions whose names would be those of functions beside them
OTHERWISE = {
    "is-failed": "IsFailed",
    "Full-is": "full_is",
    "getD-behind": "get_or_behind",
    "declared-count": "has_declared_count",
    "all-inner": "are_inner",
    "shared-type": "shared_as",
    "is-for": "concerns",
    "may-be-made": "is_makeable",
    "same-label": "equal_labels",
}
# a field that the kit's script turned where it is declared, and not everywhere it is named; arguments that only clauses name
ALSO = {"one-way", "no-begin", "Full-is"}
# functions of the library that the code calls without writing their names
CALLED = ["index_mut", "from_residual", "as_slice", "into_iter", "deref_mut", "push_reserved"]


def files(*ends):
    for folder, dirs, names in os.walk(ROOT):
        dirs[:] = sorted(d for d in dirs if d != "out")
        for name in sorted(names):
            if name.endswith(ends):
                yield os.path.join(folder, name)


def read(path):
    with open(path, encoding="utf-8") as f:
        return f.read()


def made(path):
    return os.path.basename(path) in MADE


def respelled(name):
    if name in OTHERWISE:
        return OTHERWISE[name]
    if name[0].isupper():
        return "".join(p[:1].upper() + p[1:] for p in name.split("-"))
    return name.replace("-", "_")


def of_library(text):
    return {w for m in re.finditer(r"^use Rattle\.std[^\n{]*\{([^}]*)\}", text, re.M) for w in WORD.findall(m.group(1))}


def declared():
    """The dashed names that specs/ and proofs/ declare, and helpers of answers by file."""
    names, kept, helpers = set(), set(), collections.defaultdict(set)
    for path in files(".antt"):
        text = read(path)
        kept |= of_library(text)
        here = helpers[path] if made(path) else names
        goals = {m.group(2) for m in GOAL.finditer(text)}
        code = QUIET.sub("", text)
        for line in code.split("\n"):
            if line.startswith("use "):
                continue
            m = DECLARED.match(line)
            here |= {m.group(1)} if m else set()
            m = SIGNATURE.match(line)
            if m:
                here |= {w for w in m.group(1).split() if w not in goals}
        for m in re.finditer(rf"\blet ({W}) (?=[:=])|λ ((?:{W} )*{W})\.|\(({W}(?: {W})*) : ", code):
            here |= {w for g in m.groups() if g for w in g.split()}
        here |= {m.group(2) for m in ALIAS.finditer(code)} | {m.group(2) for m in MODULE.finditer(code)}
    for path in files(".rt"):
        for m in re.finditer(r"^ghost use ([^;]*);", read(path), re.M):
            names |= {w for _, w in re.findall(rf"({W}) as ({W})", m.group(1))}
    names |= ALSO
    dashed = {n for n in names if "-" in n.strip("-") and n[0].isalpha() and n not in kept}
    for path in helpers:
        helpers[path] = {n for n in helpers[path] if "-" in n.strip("-") and n[0].isalpha() and n not in kept}
    return dashed, helpers


def source_names():
    found = set(CALLED)
    for path in files(".rt"):
        found |= {w for w in re.findall(r"[A-Za-z]\w*_\w+", read(path))}
    return sorted(found, key=lambda w: (-len(w), w))


def made_name(name, table):
    """A name that Rattle makes, with the source's names in their own spelling."""
    for joint in ("+", "::"):
        if joint in name:
            return joint.join(made_name(part, table) for part in name.split(joint))
    parts = name.split("-")
    out, i = [], 0
    while i < len(parts):
        for n in range(len(parts) - i, 1, -1):
            whole = "-".join(parts[i : i + n])
            if whole in table:
                out.append(table[whole])
                i += n
                break
        else:
            out.append(parts[i])
            i += 1
    return "-".join(out)


def turn_word(word, names):
    return respelled(word) if word in names else word


def turn_chain(chain, names, aliases, in_made, table):
    parts = chain.split(".")
    if not in_made:
        return ".".join(turn_word(p, names) for p in parts)
    out = []
    for k, p in enumerate(parts):
        if parts[0] in aliases or k == 0:
            out.append(turn_word(p, names))
        elif p in names and (k != 1 or parts[0] == ""):
            out.append(turn_word(p, names))
        else:
            out.append(made_name(p, table))
    return ".".join(out)


def turn(path, names, helpers, table, clashes):
    text = read(path)
    here = names | helpers.get(path, set())
    in_made = made(path)
    aliases = {m.group(2) for m in MODULE.finditer(text)} - {"goal", "given", "need"}
    goals = {m.group(2) for m in GOAL.finditer(text)} | {w for m in PLACES.finditer(text) for w in WORD.findall(m.group(1))}
    before = set(WORD.findall(QUIET.sub("", text)))
    turned = {w: respelled(w) for w in before & here}
    for old, new in turned.items():
        if new in before:
            clashes.append(f"{path}: {old} is now {new}, which the file has too")

    def code(piece):
        def one(m):
            chain = m.group(0)
            if chain in goals and in_made:
                return made_name(chain, table)
            return turn_chain(chain, here, aliases, in_made, table)

        return CHAIN.sub(one, piece)

    def line_of(piece):
        # an import's path keeps its modules, which are files
        if in_made:
            return "\n".join(code(l) if not l.startswith("use ") else re.sub(r"\{.*", lambda m: code(m.group(0)), l) for l in piece.split("\n"))
        return code(piece)

    pieces = QUIET.split(text)
    for k, piece in enumerate(pieces):
        if k % 2 == 0:
            pieces[k] = line_of(piece)
        elif piece.startswith(("--", "//", "{-")):
            pieces[k] = re.sub(rf"`({W})`", lambda m: "`" + turn_word(m.group(1), here) + "`", piece)
    new = "".join(pieces)
    if new != text:
        with open(path, "w", encoding="utf-8") as f:
            f.write(new)
    return turned


def main():
    names, helpers = declared()
    table = {w.replace("_", "-"): w for w in source_names()} | WORDS
    clashes, all_turned = [], {}
    for path in files(".antt", ".rt"):
        all_turned.update(turn(path, names, helpers, table, clashes))
    into = collections.defaultdict(set)
    for old, new in all_turned.items():
        into[new].add(old)
    for new, olds in sorted(into.items()):
        if len(olds) > 1:
            clashes.append(f"{' and '.join(sorted(olds))} are both {new}")
    print(f"{len(all_turned)} names turned")
    print("\n".join(clashes))


if __name__ == "__main__":
    sys.exit(main())
