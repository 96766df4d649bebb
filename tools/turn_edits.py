#!/usr/bin/env python3
"""Brings the must-fail edits (crates/*/must-fail/*.edit) to the spelling that port.py and snake_names.py gave the files they edit.

usage: python3 tools/turn_edits.py LANDED WORK     at the top of the repository, with its files as port.py and snake_names.py left them

LANDED is a copy of the tree in the old spelling, in which every edit can be applied; WORK is a folder for batches. Neither script reads edits, so
each edit is made in a copy of LANDED, the copy goes through both scripts, and the lines that differ from those of the copy without edits say how the edited
text came out. Edits go many to a copy (a batch), at least APART lines from one another. An edit keeps its own cut of the line: as many words around
the change as it had. What can't be told so is printed ('left:') and is in the table BY_HAND. A second run finds the batches in WORK and is quick.
"""
import collections
import difflib
import glob
import os
import re
import shutil
import subprocess
import sys

APART = 6
WORD = re.compile(r"[\w'′]+|\s+|.", re.S)
HERE = os.path.dirname(os.path.realpath(__file__))
# runs port.py with a folder of its own for what the scripts say
PORT = "import sys; sys.path.insert(0, '/opt/rattle/port'); import port; port.SAID = sys.argv[1]; sys.exit(port.main([]) or 0)"
IMPORT = re.compile(r"\s*(pub )?(ghost )?use ")

# edits that are written here in full: the name of the edit, then its pairs (file, old, new)
BY_HAND = {
    # rt fmt joined the lines of these two, so that the scripts' line has both
    "crates/axes/must-fail/first_two_exchanged.edit": [
        ("src/lib.rt", "records[0]", "FIRST"),
        ("src/lib.rt", "records[1]", "records[0]"),
        ("src/lib.rt", "FIRST", "records[1]"),
    ],
    "crates/axes/must-fail/seventh_for_eighth.edit": [("src/lib.rt", "records[7]", "records[6]")],
    # port.py lays the imports of a crate together
    "crates/board/must-fail/sum_told_as_untested.edit": [
        ("src/lib.rt", "use calls::{Kept, Settings, sum_code};", "use calls::{Kept, Settings, Told, sum_code};"),
        ("src/lib.rt", "    let told = answered.sum;", "    let told = Told::Untested;"),
    ],
    # a call in brackets, cut in its midst
    "crates/demands/must-fail/spec_unnoticed_not_eight.edit": [
        ("specs/OneByte.antt", "(to_changed board c frame').number ≡ 7 → ⊥", "(to_changed board c frame').number ≡ 8 → ⊥"),
    ],
    # what the library has comes from one module
    "crates/heads/must-fail/spec_bits_beyond_the_count.edit": [
        ("specs/Heads.antt", "digits_in (eights 0 (run_of k start count area))", "digits_in (eights 0 (run_of k start (8 * ((count + 7) / 8)) area))"),
        ("specs/Heads.antt", "use Rattle.std.specs.Prelude.{ℕ,", "use Rattle.std.specs.Prelude.{ℕ, ◌+◌, ◌*◌, ◌/◌,"),
    ],
    "crates/orders/must-fail/spec_id_as_sent.edit": [
        ("specs/Orders.antt", "[], ◌∷◌, drop, replicate}", "[], ◌∷◌, ◌++◌, drop, replicate}"),
        ("specs/Orders.antt", "use Rattle.frames.specs.Frame.{content_in}", "use Rattle.frames.specs.Frame.{message_in, content_in}"),
        (
            "specs/Orders.antt",
            "said_by ChangeRun h s kept m start count area = head_of m start count",
            "said_by ChangeRun h s kept m start count area = message_in s.frame ++ drop 3 (head_of m start count)",
        ),
    ],
    "crates/pairs/must-fail/spec_low_byte_first.edit": [
        ("specs/Laws.antt", "four_at (bytes_in s) 0 ≡ number_of s", "four_at (reverse (bytes_in s)) 0 ≡ number_of s"),
        ("specs/Laws.antt", "true, List, length}", "true, List, reverse, length}"),
    ],
}


def read(path):
    with open(path, encoding="utf-8") as f:
        return f.read()


def write(path, text):
    with open(path, "w", encoding="utf-8") as f:
        f.write(text)


def parse(text):
    """The prose lines of an edit, and its pairs (file, old, new)."""
    prose, pairs, path, old = [], [], None, None
    for line in text.split("\n"):
        if line.startswith("file: "):
            path = line[6:]
        elif line.startswith("old: "):
            old = line[5:]
        elif line.startswith("new: ") or line == "new:":
            pairs.append((path, old, line[5:]))
        elif line.strip():
            prose.append(line)
    return prose, pairs


def unparse(prose, pairs):
    lines, path = list(prose), None
    for file, old, new in pairs:
        if file != path:
            lines.append("file: " + file)
            path = file
        lines += ["old: " + old, "new: " + new]
    return "\n".join(lines) + "\n"


class Edit:
    """An edit of LANDED: what it makes of the lines it touches."""

    def __init__(self, root, name):
        self.name = name
        self.crate = name.split("/")[1]
        self.prose, self.pairs = parse(read(os.path.join(root, name)))
        self.at = []  # of each pair: its file and line
        texts = {}
        for file, old, new in self.pairs:
            path = f"crates/{self.crate}/{file}"
            text = texts.setdefault(path, read(os.path.join(root, path)))
            assert text.count(old) == 1, f"{name} can't be applied in {root}"
            self.at.append((path, text[: text.index(old)].count("\n")))
            texts[path] = text.replace(old, new)
        self.lines = {(path, n): texts[path].split("\n")[n] for path, n in self.at}


def batches(edits):
    """Lists of edits that are far enough from one another."""
    made = []
    for edit in edits:
        for batch, taken in made:
            if not any(abs(n - m) < APART for path, n in edit.lines for m in taken[path]):
                break
        else:
            batch, taken = [], collections.defaultdict(list)
            made.append((batch, taken))
        batch.append(edit)
        for path, n in edit.lines:
            taken[path].append(n)
    return [batch for batch, taken in made]


def run(words, where):
    done = subprocess.run(words, cwd=where, stdout=subprocess.PIPE, stderr=subprocess.STDOUT, text=True, env=os.environ | {"PYTHONDONTWRITEBYTECODE": "1"})
    if done.returncode:
        raise SystemExit(f"{' '.join(words[:3])} in {where} failed: {done.stdout[-2000:]}")
    return done.stdout


def port(landed, work, batch):
    """A copy of LANDED with a batch of edits, after port.py; work has it and what was said."""
    to = os.path.join(work, "tree")
    if os.path.exists(os.path.join(work, "ported")):
        return to
    shutil.rmtree(work, ignore_errors=True)
    shutil.copytree(landed, to, ignore=shutil.ignore_patterns(".git", "target", "out"))
    for edit in batch:
        for (path, n), line in edit.lines.items():
            text = read(os.path.join(to, path)).split("\n")
            text[n] = line
            write(os.path.join(to, path), "\n".join(text))
    write(os.path.join(to, ".gitignore"), "target/\nout/\n")
    for words in (["init", "-q"], ["add", "-A"], ["-c", "user.name=x", "-c", "user.email=x@x", "commit", "-qm", "x"]):
        run(["git", *words], to)
    said = run([sys.executable, "-c", PORT, os.path.join(work, "said")], to)
    write(os.path.join(work, "ported"), said)
    return to


def names_turned(work, base):
    """A copy of the ported tree in work with our own names in snake case, by the names of the ported tree without edits, and as rt fmt lays it out."""
    to = os.path.join(work, "turned")
    if not os.path.exists(to):
        shutil.copytree(os.path.join(work, "tree"), to, ignore=shutil.ignore_patterns(".git"))
        paths = [p for p in glob.glob(os.path.join(to, "crates/**"), recursive=True) if p.endswith((".rt", ".antt"))]
        run([sys.executable, os.path.join(HERE, "snake_names.py"), base, *sorted(paths)], to)
        for crate in sorted(glob.glob(os.path.join(to, "crates/*/src"))):
            run(["/opt/rattle/bin/rt", "fmt"], os.path.dirname(crate))
    return to


def bare(text):
    """A text without what rt fmt may change."""
    return re.sub(r",(?=[)\]}])", "", re.sub(r"\s", "", text))


def place(landed, present, n):
    """Between which lines of present the line n of landed is to be found: from the last line before it that both have to the first one after it."""
    plain = [[re.sub(r"[\W_]", "", line).lower() for line in lines] for lines in (landed, present)]
    first, last = -1, len(present)
    for block in difflib.SequenceMatcher(None, *plain, autojunk=False).get_matching_blocks():
        for i in range(block.size):
            if plain[0][block.a + i] and block.a + i < n:
                first = block.b + i
            elif plain[0][block.a + i] and block.a + i > n and last == len(present):
                last = block.b + i
    return first, last


def changes(present, edited):
    """What edits made of lines of present: where, the lines, and the lines in their place."""
    blocks = difflib.SequenceMatcher(None, present, edited, autojunk=False).get_opcodes()
    return [(a, b, present[a:b], edited[c:d]) for kind, a, b, c, d in blocks if kind != "equal"]


def respelled(text):
    """Ways in which a part of a line may stand now; whichever makes what the scripts made is right."""
    text = text.replace("′", "'").replace("Rattle·", "Rattle.")
    text = re.sub(r"(?<![\w'])_([^\w\s]+|when)_(?![\w'])", "◌\\1◌", text)
    text = re.sub(r"(?<=[\w')]) \.(?=[a-z])", ".", text)
    text = re.sub(r"(?<![\w'])[a-z][\w']*(?:-[a-z][\w']*)*", lambda m: snake_case(m.group(0)), text).replace("getD ", "get_or ")
    for at in ("now", "old", "new"):
        one = re.sub(r"\bnow \((\w+)\.(?:entry|exit)\)", "\\1." + at, text)
        one = re.sub(r"\bnow (\w+)", "\\1." + at, one)
        while True:
            yield one
            less = re.sub(r"(?<=[\s(])\((\w+(?:\.\w+)+)\)", "\\1", one, count=1)
            if less == one:
                break
            one = less


def snake_case(name):
    name = re.sub(r"(?<=[a-z])([A-Z])(?![A-Z0-9]|$)", lambda m: "_" + m.group(1).lower(), name)
    return name.replace("-", "_")


def words(tokens):
    return sum(bool(re.match(r"\w", token)) for token in tokens)


def common(a, b):
    n = 0
    while n < min(len(a), len(b)) and a[n] == b[n]:
        n += 1
    return n


def around(a, b):
    """How many tokens of a and b are the same at the front, and at the back."""
    front = common(a, b)
    return front, common(a[front:][::-1], b[front:][::-1])


def brackets(tokens):
    """How many brackets are closed that were not opened in tokens, and how many opened that are not closed."""
    closed, opened = 0, 0
    for token in tokens:
        if token in "([{":
            opened += 1
        elif token in ")]}":
            closed, opened = (closed, opened - 1) if opened else (closed + 1, 0)
    return closed, opened


def cut(text, line, made, old, new):
    """The part of line that changes, with as many words at each side as old has, and more where it stands more than once in text."""
    a, b = WORD.findall(line), WORD.findall(made)
    front, back = around(a, b)
    old_tokens, new_tokens = WORD.findall(old), WORD.findall(new)
    front_of_old, back_of_old = around(old_tokens, new_tokens)
    before, after = words(old_tokens[:front_of_old]), words(old_tokens[len(old_tokens) - back_of_old :])
    left, right = front, len(a) - back
    while left > 0 and words(a[left:front]) < before:
        left -= 1
    while right < len(a) and words(a[len(a) - back : right]) < after:
        right += 1
    while True:
        # the brackets beside it that make it whole
        while left > 0 and brackets(a[left:right])[0] and a[left - 1] in "([{":
            left -= 1
        while right < len(a) and brackets(a[left:right])[1] and a[right] in ")]}":
            right += 1
        was = "".join(a[left:right])
        if was.strip() and text.count(was) == 1:
            return was, "".join(b[left : len(b) - (len(a) - right)])
        if left == 0 and right == len(a):
            return None
        left, right = max(left - 1, 0), min(right + (left == 0), len(a))


def applied(texts, pairs):
    """The texts after the pairs, or None where an old text doesn't stand exactly once at its turn."""
    texts = dict(texts)
    for file, old, new in pairs:
        if texts[file].count(old) != 1 or old == new:
            return None
        texts[file] = texts[file].replace(old, new)
    return texts


def ways(texts, pairs, spelled):
    """The ways to respell pairs so that each can be applied at its turn."""
    if not pairs:
        yield []
        return
    file, old, new = pairs[0]
    for one in spelled(old):
        for other in spelled(new):
            after = applied(texts, [(file, one, other)])
            if after:
                for rest in ways(after, pairs[1:], spelled):
                    yield [(file, one, other)] + rest


def turn(edit, landed, present, edited):
    """The pairs of an edit as they stand now, and how they came out; None and why, where that can't be told."""
    full = {file: path for (file, old, new), (path, n) in zip(edit.pairs, edit.at)}
    texts = {file: present(path) for file, path in full.items()}
    wanted, all_found = {}, []
    for file, path in full.items():
        lines = texts[file].split("\n")
        made = changes(lines, edited(path).split("\n"))
        found = []
        touched = sorted(n for at, n in edit.lines if at == path)
        for n in touched:
            if IMPORT.match(landed(path).split("\n")[n]):
                # port.py lays imports together: whatever changed of them is this edit's
                found += [c for c in made if c not in found and all(IMPORT.match(line) for line in c[2] + c[3])]
                continue
            first, last = place(landed(path).split("\n"), lines, n)
            here = [c for c in made if first < max(c[1], c[0] + 1) and c[0] <= last]
            if not here or len(here) > len(touched):
                return None, f"{len(here)} changes of {path} between the lines {first + 1} and {last + 1}"
            found += [c for c in here if c not in found]
        for a, b, was, now in sorted(found, reverse=True):
            lines[a:b] = now
        wanted[file] = bare("".join(lines))
        all_found += found

    def right(pairs):
        return {file: bare(text) for file, text in applied(texts, pairs).items()} == wanted

    if edit.name in BY_HAND:
        return BY_HAND[edit.name], "by hand" if right(BY_HAND[edit.name]) else "by hand, and not as the scripts have it"
    for how, spelled in (("kept", lambda text: [text]), ("respelled", lambda text: list(dict.fromkeys(respelled(text))))):
        for pairs in ways(texts, edit.pairs, spelled):
            if right(pairs):
                return pairs, how
    a, b, was, now = all_found[0]
    if len(edit.pairs) != 1 or len(was) != 1:
        return None, "\n".join(["", *was, "came out as", *now])
    file, old, new = edit.pairs[0]
    both = cut(texts[file], was[0], " ".join(line if i == 0 else line.strip() for i, line in enumerate(now)), old, new)
    return ([(file, *both)], "cut") if both else (None, "nothing to cut")


def main(landed, work):
    names = sorted(os.path.relpath(p, landed) for p in glob.glob(os.path.join(landed, "crates/*/must-fail/*.edit")))
    edits = [Edit(landed, name) for name in names]
    base = port(landed, os.path.join(work, "base"), [])
    now = names_turned(os.path.join(work, "base"), base)
    for path in sorted({path for edit in edits for path, n in edit.lines}):
        if read(path) != read(os.path.join(now, path)):
            print(f"look: {path} is not as the scripts left it")
    count = collections.Counter()
    for i, batch in enumerate(batches(edits)):
        at = os.path.join(work, str(i))
        port(landed, at, batch)
        edited = names_turned(at, base)
        for edit in batch:
            pairs, how = turn(edit, *(lambda p, root=root: read(os.path.join(root, p)) for root in (landed, now, edited)))
            if pairs is None:
                print(f"left: {edit.name}: {how}")
                count["left"] += 1
                continue
            print(f"{how}: {edit.name}")
            count[how] += 1
            write(edit.name, unparse(edit.prose, pairs))
    print(count)


if __name__ == "__main__":
    main(*sys.argv[1:])
