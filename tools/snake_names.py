#!/usr/bin/env python3
"""Brings the repository's own definitions, lemmas and record fields to snake case, after port.py.

usage: python3 tools/snake_names.py ROOT [FILE..]    ROOT has crates/; with FILEs it turns just those, by ROOT's names
       python3 tools/snake_names.py --list ROOT      prints each old name and its new one

Names come from what specs/ and proofs/ declare outside the proofs of functions. Where two names fall together, the definition keeps the plain word
and the lemma or the field gets '_lem' (CONTRACT_STYLE.md, "Names", rule 3). Comments keep their hyphens; names of src/ are in snake case already.
"""
import collections
import os
import re
import sys

DECLARED = re.compile(
    r"^\s*(?:(?:abbrev|unfoldable|opaque)\s+)*(?:pub\s+)?(?:(?:abbrev|unfoldable)\s+)?([a-z][\w'-]*)((?:\s+[a-z][\w'-]*)*)\s*:(?!:)"
)
NAME = re.compile(r"[A-Za-z_][\w'-]*")
# port.py wrote two of our names as one here: the definition's name, and the files in which the lemma was meant
FELL = {
    "first_of": ["crates/demands/proofs/Shown.antt"],
    "number_of": ["crates/demands/proofs/SwitchedOff.antt"],
    "run_of": ["crates/orders/proofs/Counting.antt"],
    "rest_of": [
        "crates/points/proofs/Measured.antt",
        "crates/points/proofs/reading/fills/Proof.antt",
        "crates/points/proofs/reading/read_point/Proof.antt",
        "crates/slots/proofs/lay_points/Proof.antt",
        "crates/contents/proofs/fit_patterns/Proof.antt",
    ],
}
PROOF_FILES = ("Proof.antt", "Answers.antt", "Invariants.antt")


def snake(name):
    name = re.sub(r"(?<=[a-z])([A-Z])(?![A-Z0-9]|$)", lambda m: "_" + m.group(1).lower(), name)
    return name.replace("-", "_").rstrip("_")


def files(root):
    for folder, dirs, names in os.walk(os.path.join(root, "crates")):
        dirs[:] = sorted(d for d in dirs if d != "out")
        for name in sorted(names):
            if name.endswith((".rt", ".antt")):
                yield os.path.join(folder, name)


def declared(root):
    """Our names, and whether each is a definition of specs/ (outside a record)."""
    names = collections.defaultdict(bool)
    for path in files(root):
        if path.endswith(".antt") and os.path.basename(path) not in PROOF_FILES:
            for line in open(path, encoding="utf-8"):
                found = DECLARED.match(line)
                if found:
                    top = not line.startswith(" ")
                    for word in [found.group(1), *found.group(2).split()]:
                        names[word] |= top and "/specs/" in path
    return names


def turned(root):
    names = declared(root)
    groups = collections.defaultdict(list)
    for name in names:
        groups[snake(name)].append(name)
    to = {}
    for plain, group in groups.items():
        if len(group) > 1:
            # a word in camel case was a definition; of two lemmas the one that is plain already stays
            group.sort(key=lambda n: (not re.search("[A-Z]", n), not names[n], n != plain, n))
            taken = [plain] + [plain + "_lem" + (str(i) if i > 1 else "") for i in range(1, len(group))]
            for name, new in zip(group, taken):
                to[name] = new
        else:
            to[group[0]] = plain
    return {old: new for old, new in to.items() if old != new}


def imported(text, root):
    """The names that a file takes from a library."""
    own = os.listdir(os.path.join(root, "crates"))
    for line in text.split("\n"):
        use = re.match(r"\s*(?:pub )?(?:ghost )?use ([^{]*)\.\{(.*)\}", line)
        if use and not any((use.group(1) + ".").startswith(f"Rattle.{crate}.") for crate in own):
            yield from NAME.findall(use.group(2))


def turn(text, to, comment):
    def one(m):
        word = m.group(0)
        return to.get(word, word)

    def only_camel(m):
        word = m.group(0)
        return to.get(word, word) if re.search("[a-z][A-Z]", word) else word

    out = []
    for line in text.split("\n"):
        # a path of modules stays: a module of a function's proof has the function's name
        path = re.match(r"\s*(?:pub )?(?:ghost )?use [^{]*\{", line)
        if path:
            out.append(line[: path.end()] + NAME.sub(one, line[path.end() :]))
            continue
        code, rest = line, ""
        at = line.find(comment)
        if at >= 0:
            code, rest = line[:at], line[at:]
        pieces = re.split(r'("(?:[^"\\]|\\.)*")', code)
        code = "".join(p if i % 2 else NAME.sub(one, p) for i, p in enumerate(pieces))
        out.append(code + NAME.sub(only_camel, rest))
    return "\n".join(out)


def main(argv):
    if argv[0] == "--list":
        for old, new in sorted(turned(argv[1]).items()):
            print(old, new)
        return
    root, some = argv[0], argv[1:]
    to = turned(root)
    for path in some or files(root):
        text = open(path, encoding="utf-8").read()
        # what is plain already in src/ is a name of Rust's
        here = {old: new for old, new in to.items() if not path.endswith(".rt") or re.search("[A-Z'-]", old)}
        for name in imported(text, root):
            here.pop(name, None)
        for name, where in FELL.items():
            if os.path.relpath(path, root) in where:
                here[name] = name + "_lem"
        new = turn(text, here, "//" if path.endswith(".rt") else "--")
        if new != text:
            open(path, "w", encoding="utf-8").write(new)


main(sys.argv[1:])
