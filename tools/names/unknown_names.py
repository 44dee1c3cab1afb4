#!/usr/bin/env python3
"""Prints the words in code spans of the repository's pages that stand in no file of crates, programs or scripts.

usage: tools/names/unknown_names.py

A name of a definition, law, function, edit or file that a page gives, and that is gone or spelled otherwise, shows here. What
stands for something else, as NAME, and names that a note of a landing says are gone, show too.
"""
import os
import re
import subprocess

WORD = re.compile(r"[\w'\-]+")
SPAN = re.compile(r"`([^`]+)`")
# Printed by a script from the files themselves.
PRINTED = ("docs/EDITS.md", "docs/BELIEVED.md")

os.chdir(os.path.join(os.path.dirname(os.path.abspath(__file__)), "../.."))
files = subprocess.run(["git", "ls-files"], capture_output=True, text=True, check=True).stdout.split("\n")[:-1]
pages = [it for it in files if it.endswith(".md") and it not in PRINTED]
known = set()
for file in files:
    known.update(part for name in file.split("/") for part in (name, name.rsplit(".", 1)[0]))
    if not file.endswith((".md", ".patch", ".svg", ".bin")):
        with open(file, encoding="utf-8", errors="replace") as it:
            text = it.read()
        known.update(WORD.findall(text))
        known.update(re.findall(r"\w+", text))
for page in pages:
    with open(page, encoding="utf-8") as it:
        lines = it.read().split("\n")
    for number, line in enumerate(lines, 1):
        for span in [] if line.startswith("    ") else SPAN.findall(line):
            for word in WORD.findall(span):
                if len(word) > 1 and not word.isdigit() and word not in known:
                    print(f"{page}:{number}: {word} in `{span}`")
