#!/usr/bin/env python3
"""Spells the repository's own definitions and lemmas as the language does: snake_case for words, CamelCase for types and facts.

usage: tools/spelling.py          in the repository's top folder: rewrites crates/*/{src,specs,proofs} in place, once
       tools/spelling.py --list   prints each name beside its new spelling, and changes nothing

Names that are declared in specs/ and in the lemma files of proofs/ change, and the names that an import gives them (`as`). What the
check names itself, goals, steps and their parts, keeps its spelling, and so do functions, types and strings of the code.
"""
import glob
import re
import sys

ANSWERS = ("Answers.antt", "Invariants.antt", "Choices.antt", "Proof.antt")
TOKEN = re.compile(r"[^\s(){}\[\].,;\"⌜⌝]+")
HEAD = re.compile(r"^\s*(?:(?:pub|abbrev|unfoldable|data|record|open|syntax) )*([^\s(){}\[\].,;:]+)\s*(?:(?:\([^()]*(?:\([^()]*\)[^()]*)*\)|\{[^{}]*\})\s*)*:(?:\s|$)")
ALIAS = re.compile(r"\bas ([^\s(){}\[\].,;:]+)")
# Where the plain spelling would be a name that a file has for something else already.
OTHERWISE = {"line-below": "line_under", "bad-link": "bad_link_of", "bad-leaf": "bad_leaf_of", "leaf-for": "leaf_for_key"}


def files():
    found = []
    for crate in sorted(glob.glob("crates/*")):
        for folder, kind in (("src", "rt"), ("specs", "antt"), ("proofs", "antt")):
            found += sorted(glob.glob(f"{crate}/{folder}/**/*.{kind}", recursive=True))
    return found


def text_of(path):
    with open(path, encoding="utf-8") as f:
        return f.read()


def spelled(name):
    if name in OTHERWISE:
        return OTHERWISE[name]
    parts = name.split("-")
    if name[0].isupper():
        return "".join(p[:1].upper() + p[1:] for p in parts)
    return "_".join(parts)


def is_name(word):
    return "-" in word and "◌" not in word and re.fullmatch(r"[^\W\d_][\w'₀-₉]*(?:-[\w'₀-₉]+)+", word) is not None


def declared(paths):
    names = set()
    for path in paths:
        if not path.endswith(".antt") or path.endswith(ANSWERS):
            continue
        for line in text_of(path).split("\n"):
            head = HEAD.match(line)
            if head and is_name(head.group(1)):
                names.add(head.group(1))
    return names


def pieces(path, text):
    """The text in pieces that are code, and those that are comments or strings."""
    comment = "//" if path.endswith(".rt") else "--"
    return re.split(r"((?:(?<=\s)|^)" + comment + r"[^\n]*|\"(?:[^\"\\\n]|\\.)*\")", text, flags=re.M)


def turned(path, text, names):
    aliases = {a for a in ALIAS.findall(text) if is_name(a)}
    seen = {}

    def word(match, piece):
        w = match.group(0)
        if w not in names and w not in aliases:
            return w
        before = piece[: match.start()]
        if before.endswith(".") and not re.search(r"(?:Rattle(?:\.\w+)+|(?<![\w.])[A-Z]\w*)\.$", before) and w not in FIELDS:
            return w
        seen[w] = spelled(w)
        return seen[w]

    out = []
    for i, piece in enumerate(pieces(path, text)):
        out.append(piece if i % 2 else TOKEN.sub(lambda m: word(m, piece), piece))
    return "".join(out), seen


def fields(paths):
    """Hyphenated fields of the repository's own records, which stand behind a dot too."""
    found = set()
    for path in paths:
        if not path.endswith(".antt") or path.endswith(ANSWERS):
            continue
        inside = False
        for line in text_of(path).split("\n"):
            if re.match(r"\s*(?:pub )?record ", line):
                inside = True
                continue
            if inside:
                field = re.match(r"\s+(?:pub )?([^\s(){}\[\].,;:]+)\s*:(?:\s|$)", line)
                if not field:
                    inside = line.startswith(" ") and line.strip() != ""
                elif is_name(field.group(1)):
                    found.add(field.group(1))
    return found


def main():
    global FIELDS
    paths = files()
    names = declared(paths)
    FIELDS = fields(paths)
    clash = 0
    made = {}
    for name in sorted(names):
        made.setdefault(spelled(name), []).append(name)
    for new, olds in made.items():
        if len(olds) > 1:
            print(f"one spelling for {olds}: {new}")
            clash += 1
    results = {}
    for path in paths:
        text = text_of(path)
        new, seen = turned(path, text, names)
        words = set()
        for i, piece in enumerate(pieces(path, text)):
            if i % 2 == 0:
                words |= set(TOKEN.findall(piece))
        for old, to in seen.items():
            if to in words:
                print(f"{path}: {old} would be {to}, which the file has")
                clash += 1
        if len(set(seen.values())) < len(seen):
            print(f"{path}: two names fall together: {sorted(seen.items())}")
            clash += 1
        if new != text:
            results[path] = new
    if "--list" in sys.argv:
        for name in sorted(names):
            print(f"{name}\t{spelled(name)}")
        print(f"fields: {sorted(FIELDS)}")
        return 0
    if clash and "--anyway" not in sys.argv:
        print(f"{clash} clashes: nothing was changed")
        return 1
    for path, new in results.items():
        with open(path, "w", encoding="utf-8") as f:
            f.write(new)
    print(f"{len(results)} files")
    return 0


if __name__ == "__main__":
    sys.exit(main())
