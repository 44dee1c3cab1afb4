#!/usr/bin/env python3
"""Spells the names that this repository's definitions and lemmas declare as Rattle spells names: words in snake case.

usage: tools/names/snake_names.py [FOLDER]

Run once, after the kit's port.py, at the top of the repository (or of FOLDER). A name of a definition, lemma, field or
constructor loses its dashes and its inner capitals: `ownerOf` and `owner-answered` become `owner_of` and `owner_answered`.
Types, facts and modules keep their capitals, and names that Rattle makes in a `Proof.antt` keep their dashes. Where a lemma
would meet the definition that it is about, it ends in `_lem`. What is left over is said on lines that begin with 'left:'.
"""
import os
import re
import sys

TOKEN = re.compile(r"[\w'\-]+")
WORD = r'[^\s(){}.;,@"«»:]+'
DECLARED = re.compile(
    rf"^\s*(?:(?:abbrev|unfoldable|pub|mutual|ruleset) )*({WORD}(?: {WORD})*?)(?:(?: \{{[^{{}}\n]*\}}| \([^()\n]*\))* :(?=\s|$)| =(?=\s|$)| where)", re.M)
RULESET = re.compile(rf"^\s*(?:pub )?ruleset ({WORD})", re.M)
KEYWORDS = {"let", "where", "use", "elim", "in", "as", "pub", "abbrev", "unfoldable", "data", "record", "module", "unfolding", "mod"}
# A definition and a lemma of it, or a field, that would have one name: who gets which.
OVER = {"inHead": "is_in_head", "inAnnouncement": "is_in_announcement"}
# Lemmas that are spelled as a definition will be.
PLAIN = {"head_read", "moved_in", "not_written", "start_first", "step_from", "step_in"}
# Names that a clause or a proof binds.
LOCAL = set("""jackMoved jackToMove oneRoom oneWritten otherOperation otherPlace otherRoom otherWritten wordAccess at-d below-m below-p
below-s by-record done-is empty-after few-built few-records for-task jack-legal link-legal marks-most more-es no-task not-up of-kind
one-room one-step open-still operation-unknown other-bytes other-closed other-room other-served other-written refused-is same-cells
small-a small-c small-f small-l still-pending task-unknown record-phase""".split())
CLAUSE = re.compile(r"^[ \t]*(?:ghost use [^;]*;|(?:requires|ensures)\b[^\n]*|ghost [^\n]*)", re.M)


def snake(name):
    name = re.sub(r"(?<=[a-z0-9])([A-Z])", lambda m: "_" + m[1].lower(), name)
    return name.replace("-", "_")


def texts(root):
    for folder, dirs, files in os.walk(os.path.join(root, "crates")):
        dirs[:] = sorted(d for d in dirs if d != "out")
        for file in sorted(files):
            if file.endswith((".antt", ".rt")):
                yield os.path.join(folder, file)


def declared(root):
    """The names that .antt files declare, each with the files that do."""
    names = {}
    for path in texts(root):
        if not path.endswith(".antt"):
            continue
        with open(path, encoding="utf-8") as file:
            text = re.sub(r"--[^\n]*", "", file.read())
        for match in DECLARED.finditer(text):
            if "=" in match[0] and " :" not in match[0]:
                continue
            for name in match[1].split():
                if name not in KEYWORDS and not (path.endswith("Proof.antt") and "-" in name):
                    names.setdefault(name, set()).add(path)
        for match in RULESET.finditer(text):
            names.setdefault(match[1], set()).add(path)
    return names


def table(root):
    """Old name to new name."""
    names = declared(root)
    turned = {n for n in names if re.match(r"[a-z]", n) and TOKEN.fullmatch(n) and snake(n) != n}
    definitions = {snake(n) for n in turned if "-" not in n} | {n for n in names if n not in turned}
    said = {}
    for name in turned:
        new = OVER.get(name, snake(name))
        if "-" in name and new in definitions and new not in {OVER.get(n, snake(n)) for n in OVER}:
            new += "_lem"
        said[name] = new
    for name in LOCAL:
        said.setdefault(name, snake(name))
    for name in PLAIN & set(names):
        said[name] = name + "_lem"
    back = {}
    for old, new in said.items():
        back.setdefault(new, set()).add(old)
        if new in names and new not in said:
            print(f"left: {old}: {new} is declared already")
    for new, olds in back.items():
        if len(olds - LOCAL) > 1:
            print(f"left: {sorted(olds)} all become {new}")
    return said


def turn(text, said, plain=True):
    def put(match):
        word = match[0]
        if word in PLAIN:
            before, after = text[match.start() - 1:match.start()], text[match.end():match.end() + 1]
            return said[word] if word in said and plain and before not in (".", ":") and after != "." else word
        return said.get(word, word)

    return TOKEN.sub(put, text)


def turn_antt(text, said):
    lines = []
    for line in text.split("\n"):
        code, dash, comment = line.partition("-- ") if re.match(r"\s*-- ", line) else (line, "", "")
        comment = TOKEN.sub(lambda m: said[m[0]] if m[0] in said and "-" not in m[0] and m[0] not in PLAIN else m[0], comment)
        lines.append(turn(code, said) + dash + comment)
    return "\n".join(lines)


def turn_rt(text, said):
    return CLAUSE.sub(lambda m: turn(m[0], said, plain=False), text)


def main(argv):
    root = argv[0] if argv else "."
    said = table(root)
    changed = 0
    for path in texts(root):
        with open(path, encoding="utf-8") as file:
            text = file.read()
        new = turn_antt(text, said) if path.endswith(".antt") else turn_rt(text, said)
        if new != text:
            changed += 1
            with open(path, "w", encoding="utf-8") as file:
                file.write(new)
    print(f"{len(said)} names, {changed} files")


if __name__ == "__main__":
    main(sys.argv[1:])
