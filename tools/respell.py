#!/usr/bin/env python3
"""Brings the project's own names in specs/ and proofs/ to snake case: readMatter becomes read_matter.

Run once at the top of the repository, after the kit's own script for older repositories. It respells
definitions, lemmas, fields and variables of .antt files wherever they are named: in .antt files, in
clauses and comments of .rt files, in must-fail edits, and between backticks in README.md and docs/.
Functions, types, strings, inputs and outputs keep their names. With --look it changes nothing and
prints the names that would fall together with another name of the same file.
"""
import glob
import re
import sys

TOKEN = re.compile(r"[A-Za-z_0-9'′-]+")
CAMEL = re.compile(r"(?<=[a-z0-9])[A-Z]+")


def snake(name):
    parts = []
    for part in name.split("-"):
        if part[:1].islower() and CAMEL.search(part):
            part = CAMEL.sub(lambda m: "_" + m.group().lower(), part)
        parts.append(part)
    return "-".join(parts)


def antt_files():
    return sorted(glob.glob("crates/*/specs/**/*.antt", recursive=True) + glob.glob("crates/*/proofs/**/*.antt", recursive=True))


def names_of(files):
    names = {}
    for path in files:
        for line in open(path, encoding="utf-8"):
            for token in TOKEN.findall(line.split("--")[0]):
                # a capital behind an underscore is a name of the kit, as uint_Makes
                if "_" not in token or not re.search(r"_[A-Z]", token):
                    if snake(token) != token:
                        names[token] = snake(token)
    return names


def respelled(text, names):
    return TOKEN.sub(lambda m: names.get(m.group(), m.group()), text)


def main():
    look = "--look" in sys.argv[1:]
    files = antt_files()
    names = names_of(files)
    sources = sorted(glob.glob("crates/*/src/**/*.rt", recursive=True))
    edits = sorted(glob.glob("crates/*/must-fail/*.edit"))
    pages = ["README.md"] + sorted(glob.glob("docs/**/*.md", recursive=True))
    if look:
        for path in files + sources:
            tokens = set(TOKEN.findall(open(path, encoding="utf-8").read()))
            for old in sorted(tokens & set(names)):
                if names[old] in tokens:
                    print(f"{path}: {old} falls together with {names[old]}")
        by_new = {}
        for old, new in names.items():
            by_new.setdefault(new, []).append(old)
        for new, olds in by_new.items():
            if len(olds) > 1:
                print(f"{new} from {olds}")
        return
    for path in files + sources + edits:
        text = open(path, encoding="utf-8").read()
        new = respelled(text, names)
        if new != text:
            open(path, "w", encoding="utf-8").write(new)
    for path in pages:
        text = open(path, encoding="utf-8").read()
        new = re.sub(r"`[^`\n]+`", lambda m: respelled(m.group(), names), text)
        if new != text:
            open(path, "w", encoding="utf-8").write(new)
    print(f"{len(names)} names respelled")


if __name__ == "__main__":
    main()
