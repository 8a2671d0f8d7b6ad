#!/usr/bin/env python3
"""Respells the repository's own definitions and lemmas: words in snake case, facts and types in camel case.

usage: python3 tools/respell.py          at the top of the repository; files are rewritten in place, so commit first

A name is the repository's own where a file of specs/ or proofs/ defines it. A word loses its dashes for underscores, and a fact or a type,
whose name begins with a capital, is written in camel case. A lemma keeps a dash behind the name of a definition, as in `length-append`.
Names that the checker makes (goals, steps) and names of src/ are left alone, as are strings and comments.
"""
import os
import re
import sys

TOKEN = re.compile(r"[^\s(){}.,;:\"|\[\]«»]+")
HEAD = re.compile(r"^(?:(?:abbrev|unfoldable|pub|infix\w* \d+) )*([^\s:(){}|]+) ?(?=[:({])")
TYPE = re.compile(r"^\s*(?:abbrev |unfoldable |pub )*(?:data|record) (\S+)")
FIELD = re.compile(r"^\s+(?:(?:abbrev|pub|unfoldable) )*([^\s:(){}|]+) :")
MADE = re.compile(r": *(?:goal|need)\.")
# what std calls a word, behind which a lemma's name keeps its dash
WORDS = {"length", "take", "drop", "map", "sum", "get_or", "slice_set", "all", "any", "filter", "reverse", "append", "max", "min"}


def files(top, ends):
    for folder, dirs, names in os.walk(os.path.join(top, "crates")):
        dirs[:] = sorted(d for d in dirs if d != "out")
        for name in sorted(names):
            if name.endswith(ends):
                yield os.path.join(folder, name)


def defined(top):
    """The names that specs/ defines, and those that only proofs/ defines."""
    specs, proofs, fields = set(), set(), set()
    for path in files(top, ".antt"):
        inside = "/specs/" in path
        for line in open(path, encoding="utf-8"):
            if line.startswith(("use ", "--", "|", "unfolding", "ruleset")) or MADE.search(line):
                continue
            kind, it = None, TYPE.match(line)
            if it:
                kind = "type"
            elif it := HEAD.match(line):
                kind = "word"
            elif it := FIELD.match(line):
                kind = "field"
            if it and re.fullmatch(r"[A-Za-z][\w'-]*", it[1]):
                (specs if inside else proofs).add(it[1])
                if kind == "field":
                    fields.add(it[1])
    return specs, proofs - specs, fields


def spelled(name, words, lemma):
    if name[0].isupper():
        return "".join(part[:1].upper() + part[1:] for part in re.split(r"[-_]", name))
    parts = name.split("-")
    out = parts[0]
    for part in parts[1:]:
        out += ("-" if lemma and out in words else "_") + part
    return out


def table(top):
    specs, proofs, fields = defined(top)
    words = {w.replace("-", "_") for w in specs if w[0].islower()} | WORDS
    names = {}
    for name in specs | proofs:
        if "-" in name or (name[0].isupper() and "_" in name):
            names[name] = spelled(name, words, name in proofs and name not in fields)
    seen = {}
    for name in specs | proofs:
        new = names.get(name, name)
        if new in seen:
            sys.exit(f"respell: {name} and {seen[new]} would both be {new}")
        seen[new] = name
    return {old: new for old, new in names.items() if old != new}


def respelled(text, names):
    return TOKEN.sub(lambda it: names.get(it[0], it[0]), text)


def turned(path, text, names):
    if path.endswith(".antt"):
        return "".join(line if line.lstrip().startswith("--") else respelled(line, names) for line in text.splitlines(keepends=True))
    if path.endswith(".edit"):
        return respelled(text, names)
    parts = re.split(r"(//[^\n]*|b?\"(?:[^\"\\]|\\.)*\")", text)
    return "".join(part if n % 2 else respelled(part, names) for n, part in enumerate(parts))


def main():
    names = table(".")
    changed = 0
    for path in files(".", (".antt", ".rt", ".edit")):
        text = open(path, encoding="utf-8").read()
        new = turned(path, text, names)
        if new != text:
            open(path, "w", encoding="utf-8").write(new)
            changed += 1
    print(f"respell: {len(names)} names, {changed} files")


if __name__ == "__main__":
    main()
