#!/usr/bin/env python3
"""Looks up what the documents name: files, folders, crates, definitions and functions.

    docs_check.py [DOCUMENT..]

Looked up are: the files and folders that are named; each crate; and in tables, behind a crate's name and up to the next one
in the same cell or sentence, the words in backquotes, which have to stand in that crate. The last line is 'N passed, M
failed'; the status is 1 where one failed.
"""
import os
import re
import sys

TOP = os.path.dirname(os.path.dirname(os.path.abspath(__file__)))
# words in backquotes that are text of programs, part files or shells, and no names of the code
PLAIN = re.compile(r"^[A-Za-z_][A-Za-z0-9_]*(::[A-Za-z_][A-Za-z0-9_]*)*$")
CRATE = re.compile(r"\b(sn_[a-z0-9_]+|stepmill)(?= |'s|,|:|;|\)|\.|$)")
passed = 0
failures = []


def text_of(path):
    with open(path, encoding="utf-8") as file:
        return file.read()


def code_of(crate, kept={}):
    if crate not in kept:
        parts = []
        for folder in ("src", "specs", "proofs"):
            for at, _, names in os.walk(os.path.join(TOP, "crates", crate, folder)):
                parts += [text_of(os.path.join(at, name)) for name in names] + [name.rsplit(".", 1)[0] for name in names]
        kept[crate] = set(re.findall(r"[A-Za-z_][A-Za-z0-9_]*", "\n".join(parts)))
    return kept[crate]


def look(found, where, what):
    global passed
    if found:
        passed += 1
    else:
        failures.append("%s: %s" % (where, what))


def check(document):
    text = text_of(os.path.join(TOP, document))
    text = re.sub(r"```.*?```", "", text, flags=re.S)
    crates = set(os.listdir(os.path.join(TOP, "crates")))
    for link in re.findall(r"\]\(([^)#]+)\)", text):
        if "://" not in link:
            look(os.path.exists(os.path.join(TOP, os.path.dirname(document), link)), document, link)
    for path in re.findall(r"(?<![\w/`])((?:docs|tools|integrations|crates|bin|release|man)/[\w./-]*[\w-])", text) + re.findall(
        r"`((?:docs|tools|integrations|crates|bin)/[\w./-]*[\w-])", text
    ):
        look(os.path.exists(os.path.join(TOP, path)) or path.startswith("crates/stepmill/out"), document, path)
    for crate in re.findall(r"\bsn_[a-z0-9_]+\b", text):
        look(crate in crates, document, "crate " + crate)
    for line in (line for line in text.split("\n") if line.startswith("|")):
        for piece in re.split(r"(?<=[.;|])\s", line):
            names = list(CRATE.finditer(piece))
            for place, name in enumerate(names):
                if name[1] not in crates or name[1] == "stepmill":
                    continue
                end = names[place + 1].start() if place + 1 < len(names) else len(piece)
                for word in re.findall(r"`([^`]+)`", piece[name.end() : end]):
                    word = word.removesuffix("()")
                    if PLAIN.match(word) and not word.isupper():
                        look(all(part in code_of(name[1]) for part in word.split("::")), document, name[1] + " " + word)


def main():
    documents = sys.argv[1:]
    if not documents:
        documents = ["README.md"] + sorted("docs/" + name for name in os.listdir(os.path.join(TOP, "docs")) if name.endswith(".md"))
    for document in documents:
        check(document)
    for failure in failures:
        print("FAILED: " + failure)
    print("%d passed, %d failed" % (passed, len(failures)))
    sys.exit(1 if failures or not passed else 0)


main()
