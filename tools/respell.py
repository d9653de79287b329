#!/usr/bin/env python3
"""Brings the names of this repository's definitions and lemmas to the spelling of the newer Rattle.

usage: python3 tools/respell.py        at the top, once, right after the kit's own porting script

A definition of specs/ is in snake case. A lemma joins two names by a dash and adds plain words with an
underscore. Goals and what Rattle makes keep their names, as do strings, comments' prose, functions of src/
and inputs and outputs. Pages are respelled where a name stands in backquotes. A name that would fall
together with another is printed, and nothing is written.
"""

import glob
import re
import sys

# what a name is made of in antt
NAME = r"[^\s(){}\[\],;:.\"`|⌜⌝«»λ]+"
DEFINES = re.compile(
    r"^\s*(?:unfoldable\s+)?(?:abbrev\s+)?(?:pub\s+)?(record\s+|data\s+)?(" + NAME + r")((?:\s+" + NAME + r")*)\s*(?:[({][^:]*:[^)}]*[)}]\s*)*(?:[({][^)}]*[)}]\s*)*:(?:\s|$)"
)
GOAL = re.compile(r"^\s*(?:abbrev\s+)?pub\s+(" + NAME + r")\s*:\s*goal\.")
# names of std and of plain mathematics between which a lemma's name has a dash
KNOWN = set(
    "length take drop map append reverse set get replicate cond min max le lt eq add mul sub and or xor not cons nil push suc zero".split()
)
# lemmas that would have the name of a function of src/
OTHERWISE = {n: n.replace("-", "_") + "_lem" for n in ("set-up", "chain-of", "cuts-exactly", "put-end")}
# named as a function, a method or a ghost member is, and told apart by where they stand
APART = {"give-back", "hand-up", "is-empty", "lost-grant", "gives-join", "gives-remainder", "tells-part"}


def antt_files():
    return sorted(glob.glob("crates/*/specs/**/*.antt", recursive=True) + glob.glob("crates/*/proofs/**/*.antt", recursive=True))


def collect():
    definitions, lemmas, made = set(), set(), set()
    for path in antt_files():
        for line in open(path, encoding="utf-8"):
            if line.lstrip().startswith(("use ", "pub use ", "let ", "mod ", "pub mod ", "--", "λ")):
                continue
            goal = GOAL.match(line)
            if goal:
                made.add(goal.group(1))
                continue
            m = DEFINES.match(line)
            if m is None or "=" in line[: m.end()]:
                continue
            for name in [m.group(2)] + m.group(3).split():
                if not re.fullmatch(r"[A-Za-z][\w'-]*", name):
                    continue
                (definitions if "/specs/" in path and not path.endswith(("/Same.antt", "/FrameFacts.antt", "/WindowFacts.antt")) else lemmas).add(name)
    return definitions - made, lemmas - definitions - made


def lemma_name(name, known):
    words, parts, i = name.split("-"), [], 0
    while i < len(words):
        for j in range(len(words), i, -1):
            piece = "_".join(words[i:j])
            if piece in known:
                parts.append((piece, True))
                i = j
                break
        else:
            parts.append((words[i], False))
            i += 1
    out, before = parts[0]
    for piece, here in parts[1:]:
        out, before = out + ("-" if before and here else "_") + piece, here
    return out


def renames():
    definitions, lemmas = collect()
    table = {n: n.replace("-", "_") for n in definitions if "-" in n}
    known = KNOWN | {n.replace("-", "_") for n in definitions}
    table.update({n: lemma_name(n, known) for n in lemmas if "-" in n})
    table.update({n: new for n, new in OTHERWISE.items() if n in table})
    return {old: new for old, new in table.items() if old != new}


def respelled(text, table, comment):
    """The text with each name of the table in its new spelling, outside strings, what Rattle names of a step, and a comment's prose."""
    skip = r'"(?:[^"\\\n]|\\.)*"|' + comment + r"[^\n]*|(?<![\w'-])[cl]\.[A-Za-z][\w'-]*|"
    token = re.compile(skip + r"(?<![\w'-])[A-Za-z][\w'-]*")

    def turned(m):
        word = m.group(0)
        return backquoted(word, table) if word.startswith(comment) else table.get(word, word)

    return token.sub(turned, text)


def backquoted(text, table):
    return re.sub(r"`[^`\n]+`", lambda m: re.sub(r"(?<![\w'-])[A-Za-z][\w'-]*", lambda t: table.get(t.group(0), t.group(0)), m.group(0)), text)


def main():
    table = renames()
    taken = set()
    for path in antt_files():
        taken |= set(re.findall(r"(?<![\w'-])[A-Za-z][\w'-]*", open(path, encoding="utf-8").read()))
    fallen = sorted((old, new) for old, new in table.items() if new in taken and old not in APART)
    seen = {}
    for old, new in table.items():
        seen.setdefault(new, []).append(old)
    fallen += [(" ".join(olds), new) for new, olds in seen.items() if len(olds) > 1]
    if "--list" in sys.argv:
        for old, new in sorted(table.items()):
            print(old, new)
    if fallen:
        for old, new in fallen:
            print(f"{old} would fall together with {new}", file=sys.stderr)
        raise SystemExit(1)
    if "--list" in sys.argv:
        return
    for path in antt_files():
        text = open(path, encoding="utf-8").read()
        open(path, "w", encoding="utf-8").write(respelled(text, table, "--"))
    for path in sorted(glob.glob("crates/*/src/**/*.rt", recursive=True) + glob.glob("crates/*/must-fail/*.edit")):
        text = open(path, encoding="utf-8").read()
        open(path, "w", encoding="utf-8").write(respelled(text, table, "//"))
    for path in ["README.md"] + sorted(glob.glob("docs/*.md")):
        text = open(path, encoding="utf-8").read()
        open(path, "w", encoding="utf-8").write(backquoted(text, table))


main()
