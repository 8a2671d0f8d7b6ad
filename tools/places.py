#!/usr/bin/env python3
"""Places of older forms in the sources, point by point.

    tools/places.py [COMMIT]    counts, over the tree or over a commit's
    tools/places.py -v [COMMIT] the places too
"""
import re
import subprocess
import sys
from collections import defaultdict

TESTS = re.compile(r"crates/(\w+_tests|\w+_bench)/")


def sources(commit):
    if commit:
        names = subprocess.run(["git", "ls-tree", "-r", "--name-only", commit], capture_output=True, text=True, check=True).stdout.split("\n")
    else:
        names = subprocess.run(["git", "ls-files"], capture_output=True, text=True, check=True).stdout.split("\n")
    for name in sorted(names):
        if re.fullmatch(r"crates/\w+/src/.*\.rt", name):
            if commit:
                text = subprocess.run(["git", "show", f"{commit}:{name}"], capture_output=True, text=True, check=True).stdout
            else:
                text = open(name, encoding="utf-8").read()
            yield name, text


def lines(files, pattern, skip=None):
    found = []
    for name, text in files:
        for number, line in enumerate(text.split("\n"), 1):
            if re.search(pattern, line) and not line.lstrip().startswith("//") and not (skip and re.search(skip, line)):
                found.append(f"{name}:{number}: {line.strip()}")
    return found


def functions(text):
    """Each function: its line, its head up to the clauses, its clauses and its body."""
    for m in re.finditer(r"^( *)(?:pub(?:\(crate\))? )?(?:final )?fn \w+", text, re.M):
        brace = re.compile(r"\n" + m.group(1) + r"\{|\{\n" + m.group(1) + r"    ")
        start = brace.search(text, m.start())
        end = re.compile(r"\n" + m.group(1) + r"\}").search(text, m.start())
        if not start or not end or start.start() > end.start() or re.search(r";$", text[m.start():start.start()], re.M):
            continue
        head = text[m.start():start.start()]
        clauses = re.findall(r"^\s*(?:requires|ensures).*$", head, re.M)
        signature = re.split(r"\n\s*(?:requires|ensures)", head)[0]
        yield text.count("\n", 0, m.start()) + 1, signature, clauses, text[start.start():end.end()]


def shape(body):
    """The tokens of a body with each name by its first occurrence, and numbers and texts left out."""
    seen = {}
    out = []
    for token in re.findall(r"b?\"[^\"]*\"|b'[^']*'|\w+|[^\w\s]", re.sub(r"//.*", "", body)):
        if re.match(r"b?[\"']|\d", token):
            out.append("0")
        elif re.match(r"[A-Za-z_]\w*$", token) and token not in KEYWORDS:
            out.append(f"n{seen.setdefault(token, len(seen))}")
        else:
            out.append(token)
    return tuple(out)


KEYWORDS = set("fn let mut match if else while for in loop return self Self Ok Err Some None true false impl pub".split())


def twins(files):
    groups = defaultdict(list)
    for name, text in files:
        text = text.split("#[cfg(test)]")[0]
        if TESTS.search(name):
            continue
        for line, signature, _, body in functions(text):
            key = shape(body)
            if len(key) >= 7:
                title = re.search(r"fn (\w+)", signature).group(1)
                groups[key].append(f"{name}:{line}: {title}")
    return [" = ".join(group) for group in groups.values() if len(group) > 1]


def indexed(files):
    """A `for` over a range whose number is an index into a slice."""
    found = []
    for name, text in files:
        for m in re.finditer(r"for (\w+) in 0\.\.[^\n]*\{\n((?:[^\n]*\n){4})", text):
            if re.search(r"\w\[[^\]]*\b" + m.group(1) + r"\b", m.group(2)):
                found.append(f"{name}:{text.count(chr(10), 0, m.start()) + 1}: {m.group(0).split(chr(10))[0]}")
    return found


def option_shapes(files):
    found = []
    for name, text in files:
        for m in re.finditer(r"enum (\w+) \{\n(.*?)\n\}", text, re.S):
            body = re.sub(r"//.*", "", m.group(2))
            variants = re.findall(r"^    (\w+)([({,= ])", body, re.M)
            bare = [v for v, c in variants if c in ",="]
            if len(variants) == 2 and len(bare) == 1 or "Other" in bare:
                found.append(f"{name}:{text.count(chr(10), 0, m.start()) + 1}: enum {m.group(1)}")
    return found


def travelling(files):
    found = []
    pairs = defaultdict(list)
    for name, text in files:
        if TESTS.search(name):
            continue
        crate = name.split("/")[1]
        for line, signature, _, _ in functions(text):
            inside = signature[signature.index("("):].rsplit("->", 1)[0]
            params = [p.split(":")[0].strip() for p in re.findall(r"(?:&mut |&|mut )?\w+: [^,()]+|&(?:mut )?self|\bself\b", inside)]
            params = [p.replace("&mut ", "").replace("&", "") for p in params if p not in ("self", "&self", "&mut self", "rt", "heap")]
            for i, p in enumerate(params):
                for q in params[i + 1:]:
                    pairs[crate, p, q].append(f"{name}:{line}")
    for (crate, p, q), places in sorted(pairs.items()):
        if len(places) >= 5:
            found.append(f"crates/{crate}: ({p}, {q}) in {len(places)} functions")
    return found


def repeated(files):
    facts = defaultdict(set)
    for name, text in files:
        crate = name.split("/")[1]
        for line, _, clauses, _ in functions(text):
            for clause in clauses:
                fact = re.sub(r"^(requires|ensures)\s*\w*\s*", r"\1 ", clause.strip())
                if len(fact) > 12:
                    facts[crate, fact].add(f"{name}:{line}")
    return [f"crates/{crate}: {fact} in {len(places)} functions" for (crate, fact), places in sorted(facts.items()) if len(places) >= 3 and "result ≡ 0" not in fact]


def main():
    words = sys.argv[1:]
    verbose = "-v" in words
    words = [w for w in words if w != "-v"]
    files = list(sources(words[0] if words else None))
    points = [
        ("1 numbers for kinds or refusals", lines(files, r"^const [A-Z]+: u8 = \d+;|\[u8; 256\]|^            \w+::\w+ => \d+,$")),
        ("1 a result handed on by its arms", lines(files, r"None => None,|(None|Err\(_\)|Err\(\w+\)) => (return )?Err\(|Ok\((\w+)\) => Ok\(\3\)|Some\(_\) => (Ok|Err)\(")),
        ("1 a match inside an arm of a match on an Option", lines(files, r"(Some\(command\)|None|Some\(_\)) => match ")),
        ("1 enums of the shape of Option", option_shapes(files)),
        ("1 a flag beside a value", lines(files, r"^\s+(pub )?\w+: bool,")),
        ("2 functions of one shape", twins(files)),
        ("3 loops that count by hand", lines(files, r"^\s*(while |loop \{)|^\s*\w+ (\+|-)= 1;|\w+ = \w+\.saturating_add\(1\)", r"while let") + indexed(files)),
        ("4 printing and equality by hand", lines(files, r"-> &'static str|fn same\(|\.number\(\) == |\{\}:\{\}\"")),
        ("5 parameters that travel together (5 functions or more)", travelling(files)),
        ("5 facts in three contracts or more", repeated(files)),
        ("6 arrays with a count beside, and parallel arrays", lines(files, r"^    (pub )?\w+: \[.*; \w+\],")),
        ("7 arms that call one method each", lines(files, r"^\s+\w+::\w+\((\w+)\) => \1\.\w+\(|^\s+Span::\w+ => ")),
    ]
    for title, places in points:
        print(f"{len(places):4}  {title}")
        if verbose:
            for place in places:
                print("        " + place)


if __name__ == "__main__":
    main()
