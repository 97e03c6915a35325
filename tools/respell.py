#!/usr/bin/env python3
"""Spells the repository's own definitions and lemmas as today's Rattle does: words in snake case, facts and types in
camel case, a plain prime for a raised one. Run once at the top, after /opt/rattle/port/port.py; prints each name.

A name is the repository's own if a file of specs/ or of proofs/ declares it (a lemma of an Answers.antt too, but not a
goal's answer, which Rattle names). Comments and texts keep their words.
"""
import glob
import re
import sys

WORD = r"[\w'′\-]"
TOP = re.compile(rf"^(?:(?:abbrev|unfoldable|ruleset) )*(?:pub )?(?:(?:abbrev|unfoldable|data|record|ruleset) )*({WORD}+)(?= )")
INNER = re.compile(rf"^  +(?:pub )?({WORD}+) :")
ALIAS = re.compile(rf" as ({WORD}+)")
KEYWORDS = {"use", "mod", "pub", "unfolding", "where", "infixl", "infixr", "infix", "let", "in", "elim"}


def declared(path, text):
    """The names that a file declares."""
    given = path.rsplit("/", 1)[1] in ("Answers.antt", "Invariants.antt", "Proof.antt")
    for line in text.split("\n"):
        if line.startswith("use "):
            yield from ALIAS.findall(line)
            continue
        m = TOP.match(line)
        if m and m[1] not in KEYWORDS and not (given and " pub " in " " + line[: m.end(1)]):
            if re.search(rf"(^|\s){re.escape(m[1])} :", line) or " Type " in line:
                yield m[1]
        m = INNER.match(line)
        if m and not given:
            yield m[1]


def spelled(name):
    name = name.replace("′", "'")
    if "-" not in name:
        return name
    parts = name.split("-")
    if parts[0][:1].isupper() and len(parts[0]) > 1:
        return "".join(p[:1].upper() + p[1:] for p in parts)
    return "_".join(parts)


def pieces(text, comment):
    """Code and the rest (comments, texts) by turns."""
    return re.split(rf'({comment}[^\n]*|"(?:\\.|[^"\\])*")', text)


def main():
    files = sorted(glob.glob("crates/*/specs/**/*.antt", recursive=True) + glob.glob("crates/*/proofs/**/*.antt", recursive=True))
    sources = sorted(glob.glob("crates/*/src/**/*.rt", recursive=True))
    texts = {p: open(p, encoding="utf-8").read() for p in files + sources}
    own = {n for p in files for n in declared(p, texts[p])}
    for p in sources:
        for line in texts[p].split("\n"):
            if line.startswith("ghost use "):
                own.update(ALIAS.findall(line))
    turn = {n: spelled(n) for n in own if spelled(n) != n}
    token = re.compile(rf"(?<!{WORD}){WORD}+(?!{WORD})")
    words = {w for t in texts.values() for w in token.findall(t)}
    for n, to in sorted(turn.items()):
        print(f"{n} -> {to}{'   MEETS a word of that spelling' if to in words else ''}")
    back = {}
    for n, to in turn.items():
        back.setdefault(to, set()).add(n)
    for to, names in back.items():
        if len(names) > 1:
            print(f"FALL TOGETHER: {sorted(names)} -> {to}")
    if "--dry" in sys.argv:
        return
    for p, t in texts.items():
        parts = pieces(t, "--" if p.endswith(".antt") else "//")
        parts[::2] = [token.sub(lambda m: turn.get(m[0], m[0]), part) for part in parts[::2]]
        new = "".join(parts)
        if new != t:
            with open(p, "w", encoding="utf-8") as f:
                f.write(new)


main()
