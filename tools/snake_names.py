#!/usr/bin/env python3
"""Brings the names of this repository's own definitions, lemmas and locals to snake case.

usage: tools/snake_names.py [TREE]     rewrites crates/*/{src,specs,proofs} in place; a second run changes nothing

Names of the library keep their dashes, and so do the names of goals, steps, loops and measures in proofs/F/.
A definition that would fall together with a field of a struct of its crate takes the name in FALL_TOGETHER.
"""
import os
import re
import sys

WORD = r"[A-Za-z][\w']*(?:-[\w']+)+"
TOKEN = re.compile(rf"(?<![\w'-]){WORD}(?![\w'-])")
LIBRARY = re.compile(r"^\s*use ((?:Rattle\.(?:std|core|std_\w+)|borrow|denote|sep|lib|mathlib|native|Prim)(?:\.\S+)?)\.\{(.*)\}")
FALL_TOGETHER = {
    "main-stress": "main_stress_of",
    "sub-stress": "sub_stress_of",
    "support-load": "support_load_of",
    "sub-bars": "sub_bars_alike",
}


def files(tree):
    for folder, dirs, names in os.walk(os.path.join(tree, "crates")):
        dirs[:] = sorted(d for d in dirs if d not in ("out", "target"))
        for name in sorted(names):
            if name.endswith((".rt", ".antt")):
                yield os.path.join(folder, name)


def kind(path):
    """source, definitions (all of specs/ and the lemma files right in proofs/) or answers (proofs/F/)."""
    parts = path.split(os.sep)
    at = len(parts) - 1 - parts[::-1].index("crates")
    if path.endswith(".rt"):
        return "source"
    if parts[at + 2] == "proofs" and len(parts) > at + 4:
        return "answers"
    return "definitions"


def parted(line, mark):
    """The line as pieces of text and of what is not to be touched: strings and the comment at its end."""
    pieces = re.split(r'("(?:[^"\\]|\\.)*")', line) if mark == "//" else [line]
    for n, piece in enumerate(pieces):
        if n % 2 == 0 and mark in piece:
            cut = piece.index(mark)
            return [*pieces[:n], piece[:cut], "".join([piece[cut:], *pieces[n + 1 :]])]
    return pieces


def text_of(line, mark):
    return "".join(parted(line, mark)[::2])


def library_names(lines):
    kept = set()
    for line in lines:
        found = LIBRARY.match(line)
        if found:
            kept |= {item.strip().split(" as ")[0] for item in found.group(2).split(",")}
    return kept


def goals(lines):
    """Names that the checker gives, as a file of answers shows them."""
    kept = set()
    for line in lines:
        kept |= set(re.findall(rf"goal\.({WORD})", line))
        found = re.match(r"^\s*use \S+\.(?:Goals|Given)\.\{(.*)\}", line)
        if found:
            kept |= {item.strip() for item in found.group(1).split(",")}
    return kept


def respelled(name):
    return FALL_TOGETHER.get(name, name.replace("-", "_"))


def rewritten(lines, mark, turn):
    for line in lines:
        pieces = parted(line, mark)
        for n in range(0, len(pieces), 2):
            pieces[n] = TOKEN.sub(turn, pieces[n])
        yield "".join(pieces)


def main(tree):
    texts = {path: open(path, encoding="utf-8").read().split("\n") for path in files(tree)}
    own = set()
    for path, lines in texts.items():
        if kind(path) == "definitions":
            library = library_names(lines)
            own |= {t for line in lines for t in TOKEN.findall(text_of(line, "--"))} - library
    for path, lines in texts.items():
        which = kind(path)
        mark = "//" if which == "source" else "--"
        kept = library_names(lines)
        if which == "answers":
            kept |= goals(lines)
            mine = {m.group(1) for line in lines if (m := re.match(rf"^(?:abbrev )?(?:pub )?({WORD})(?: \(.*)? :", line))}
            names = (own | mine) - kept
            turn = lambda m: respelled(m.group(0)) if m.group(0) in names else m.group(0)
        else:
            turn = lambda m: m.group(0) if m.group(0) in kept else respelled(m.group(0))
        new = list(rewritten(lines, mark, turn))
        if new != lines:
            with open(path, "w", encoding="utf-8") as out:
                out.write("\n".join(new))


if __name__ == "__main__":
    main(sys.argv[1] if len(sys.argv) > 1 else ".")
