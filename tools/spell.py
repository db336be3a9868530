#!/usr/bin/env python3
"""Spells the definitions and lemmas of this repository as Rattle's library does: words in snake case, facts and types in camel case.

usage: python3 tools/spell.py [FOLDER]

FOLDER is a checkout, right after the toolchain's port.py; files are rewritten in place. A name with a dash that a file takes from the
toolchain's library keeps it, as do the names that the check makes of the code (in proofs/F/). It says where two names would fall together.
"""
import glob
import os
import re
import sys

TOKEN = re.compile(r"--[^\n]*|\"(?:[^\"\\]|\\.)*\"|«[^»]*»|[^\s(){}.;,@\"«»\[\]\\]+")
IDENTIFIER = re.compile(r"[A-Za-z][\w'′]*(?:-[\w'′]+)+")
USE = re.compile(r"(?m)^(?:unfoldable |pub |ghost )*use ([^\s{;]+?)\.\{([^}]*)\}")
DECLARED = re.compile(r"(?m)^(?:(?:pub|abbrev|unfoldable|record|data|ruleset|irrelevant) )*([A-Za-z][\w'′]*(?:-[\w'′]+)+)(?= :| \(| \{| where|$)")
FIELD = re.compile(r"(?m)^ +(?:pub )?([A-Za-z][\w'′]*(?:-[\w'′]+)+) :")
IN_CLAUSES = re.compile(r"(?<![\w.'-])[A-Za-z]\w*(?:-\w+)+(?![\w-])")


def spelled(name):
    if name[0].isupper():
        return "".join(part[:1].upper() + part[1:] for part in name.split("-"))
    return name.replace("-", "_")


def read(path):
    with open(path, encoding="utf-8") as file:
        return file.read()


def from_library(text, crates):
    """The names with a dash that a file takes from elsewhere than this repository's crates, and those of proofs/F/."""
    names = set()
    for path, listed in USE.findall(text):
        parts = path.split(".")
        if not (parts[0] == "Rattle" and parts[1] in crates):
            names |= {it.strip().split(" as ")[0] for it in listed.split(",")}
    return names


def turn(text, wanted, keep):
    """The text with each name of which wanted says so in its new spelling, also in comments between backticks."""
    out, at, seen = [], 0, {}
    for match in TOKEN.finditer(text):
        word = match[0]
        new = word
        if word.startswith("--"):
            new = re.sub(r"`([^`\n]*)`", lambda m: "`" + IN_CLAUSES.sub(lambda n: spelled(n[0]) if wanted(n[0], False) else n[0], m[1]) + "`", word)
        else:
            known = IDENTIFIER.fullmatch(word)
            if known and word not in keep and wanted(word, text[match.start() - 1 : match.start()] == "."):
                new = spelled(word)
            seen.setdefault(new, set()).add(word)
        out += [text[at : match.start()], new]
        at = match.end()
    together = {new: old for new, old in seen.items() if len(old) > 1}
    return "".join(out) + text[at:], together


def main(root):
    os.chdir(root)
    crates = {it for it in os.listdir("crates") if os.path.isdir(os.path.join("crates", it, "src"))}
    laws = sorted(glob.glob("crates/*/specs/**/*.antt", recursive=True) + glob.glob("crates/*/proofs/*.antt"))
    walks = sorted(set(glob.glob("crates/*/proofs/**/*.antt", recursive=True)) - set(laws))
    sources = sorted(glob.glob("crates/*/src/**/*.rt", recursive=True))
    declared = set()
    for path in laws:
        text = read(path)
        declared |= set(DECLARED.findall(text)) | set(FIELD.findall(text))
    again = 0
    for path in laws + walks + sources:
        text = read(path)
        keep = from_library(text, crates)
        if path.endswith(".rt"):
            wanted = lambda word: word in declared and word not in keep
            new = "\n".join(
                line if line.lstrip().startswith("//") and "`" not in line
                else IN_CLAUSES.sub(lambda m: spelled(m[0]) if wanted(m[0]) else m[0], line)
                for line in text.split("\n")
            )
            together = {}
        elif path in laws:
            new, together = turn(text, lambda word, projected: not projected or word in declared, keep)
        else:
            new, together = turn(text, lambda word, projected: word in declared, keep)
        for name, words in sorted(together.items()):
            print(f"{path}: {', '.join(sorted(words))} fall together as {name}")
        if new != text:
            with open(path, "w", encoding="utf-8") as file:
                file.write(new)
            again += 1
    print(f"{again} files changed, {len(declared)} declared names with a dash")


if __name__ == "__main__":
    main(sys.argv[1] if len(sys.argv) > 1 else ".")
