#!/usr/bin/env python3
"""Brings the repository's own names to today's spelling: words in snake case, types in camel case, ' for a prime.

usage: tools/respell.py [--check] OLD     OLD: a checkout of the commit before the port, whose names the pages and edits have

It was run once, after the port.py of the kit. A name is the repository's own where a file of specs/ or proofs/ declares or
binds it. Functions of src/, strings and exported C names are not touched: none of them is spelled with a dash or a capital
inside. Prints each name that would meet another one in a file; nothing is written while there is one.
"""
import os
import re
import sys

CHECK = "--check" in sys.argv
OLD = [a for a in sys.argv[1:] if not a.startswith("--")][0]
WORD = re.compile(r'[^\s(){}.;,@"«»`]+')
# A name that is no part of a path
PLAIN = re.compile(r'(?<![^\s(){};,@"«»`])[^\s(){}.;,@"«»`]+(?!\.[\w{])')
NAME = r'[^\s(){}.;,@"«»`:]+'
DECLARED = re.compile(rf"^\s*(?:(?:pub|abbrev|unfoldable|pattern|erased) )*({NAME})(?: \{{[^}}]*\}})* :(?= |$)", re.M)
LET = re.compile(rf"\blet ({NAME}) [:=]")
BINDER = re.compile(rf"[({{]((?:{NAME} )+): ")
LAMBDA = re.compile(rf"λ ((?:{NAME} ?)+)\.")
ALIAS = re.compile(rf" as ({NAME})\s*[,}}\n]")
# What Rattle makes for a function has dashes of its own.
MADE = re.compile(r"^(returns|invariant|decreases|loop|match|if|branch|Need|Else|After|At|in|the|length|before|well|type)-|-(spec|lts|loop|test|requires|init|preserved|smaller)$")
# Two names of one file that would meet: the lemma of a definition ends in _lem, and a module that is brought in in _reads.
KEPT_APART = {
    "own-record": "own_record_reads",
} | {
    name: name.replace("-", "_") + "_lem"
    for name in (
        "attribute-length",
        "avp-length",
        "is-group",
        "member-count",
        "message-length",
        "one-of",
        "outline-bytes",
        "packet-length",
        "read-as",
        "records-left",
        "refusal-text",
        "top-level",
        "well-formed",
    )
}
# The RFC's rules of UTF-8 (RFC 3629, section 4) are types.
TYPES = {"UTF8-octets": "Utf8Octets", "UTF8-char": "Utf8Char", "UTF8-tail": "Utf8Tail"} | {f"UTF8-{n}": f"Utf8_{n}" for n in range(1, 5)}


def snake(name):
    if name in TYPES:
        return TYPES[name]
    name = name.replace("′", "'")
    if re.search(r"[^\w'-]", name) or name.startswith("-") or name.endswith("-"):
        return name
    if name[0].isupper():
        return name.replace("-", "_")
    name = name.replace("-", "_")
    return re.sub(r"(?<=[a-z0-9])([A-Z]+)", lambda m: "_" + m[1].lower(), name)


def files(root, *ends):
    for top in ("crates", "docs", "README.md", "bench", "examples", "include", "oracle", "rust"):
        path = os.path.join(root, top)
        if os.path.isfile(path):
            yield path
        for folder, dirs, names in os.walk(path):
            dirs[:] = [d for d in dirs if d not in ("out", ".git", "target")]
            for n in sorted(names):
                if n.endswith(ends):
                    yield os.path.join(folder, n)


def uncommented(text):
    return re.sub(r"--.*", "", text)


def own(root):
    found, foreign = set(), set()
    for path in files(root, ".antt"):
        with open(path, encoding="utf-8") as f:
            text = uncommented(f.read())
        for line in re.findall(r"^use (?!Rattle.(?!std))[^\n]*", text, re.M):
            foreign |= set(WORD.findall(line))
        by_hand = os.path.basename(path) == "Proof.antt"
        text = re.sub(r"^(pub )?use .*", "", text, flags=re.M)
        names = set(DECLARED.findall(text)) | set(LET.findall(text))
        for pattern in (BINDER, LAMBDA):
            for group in pattern.findall(text):
                names |= set(group.split())
        found |= {n for n in names if not (by_hand and MADE.search(n))}
    for path in files(root, ".antt"):
        with open(path, encoding="utf-8") as f:
            text = f.read()
        for line in re.findall(r"^use [^\n]*", text, re.M):
            found |= {a for a in ALIAS.findall(line + "\n")}
    return found, foreign


def main():
    here = os.path.dirname(os.path.dirname(os.path.realpath(__file__)))
    now, foreign = own(here)
    old, old_foreign = own(OLD)
    table = {n: snake(n) for n in (now | old) if n not in foreign}
    table = {n: m for n, m in table.items() if n != m} | KEPT_APART
    bad = 0
    todo = {}
    for path in files(here, ".antt", ".rt", ".edit", ".md", ".txt"):
        with open(path, encoding="utf-8") as f:
            text = f.read()
        imported = set()
        if path.endswith(".antt"):
            for line in re.findall(r"^use (?!Rattle.(?!std))[^\n]*", text, re.M):
                imported |= set(WORD.findall(line))
        words = set(PLAIN.findall(uncommented(text))) if path.endswith(".antt") else set()
        meets = {}
        for n in sorted(words - imported):
            meets.setdefault(table.get(n, n), []).append(n)
        for m, ns in meets.items():
            if len(ns) > 1:
                print(f"meets: {os.path.relpath(path, here)}: {' '.join(ns)} -> {m}")
                bad += 1

        def turned(m):
            word = m[0]
            core = word.strip("'*:[]|/≡")
            if word in imported or core in imported:
                return word
            return word.replace(core, table[core]) if core in table else word

        def code(part):
            return WORD.sub(turned, part)

        # In prose a name stands between backticks, or has a capital inside; a dash there is mostly English.
        def prose(part):
            part = re.sub(r"`[^`\n]+`", lambda m: code(m[0]), part)
            return re.sub(r"\b[a-z]+[A-Z]\w*'?", turned, part)

        if path.endswith(".md"):
            new = prose(text)
        else:
            mark = "//" if path.endswith(".rt") else "--"
            new = "\n".join(code(a) + prose(b + c) for a, b, c in (line.partition(mark) for line in text.split("\n")))
        if path.endswith(".antt"):
            new = re.sub(rf"(?m)^(use [^\n]*)", lambda m: re.sub(rf"({NAME}) as \1(?=[,}}\s])", r"\1", m[1]), new)
        if new != text:
            todo[path] = new
    print(f"{len(table)} names, {len(todo)} files, {bad} meetings")
    if CHECK or bad:
        return 1
    for path, text in todo.items():
        with open(path, "w", encoding="utf-8") as f:
            f.write(text)
    return 0


if __name__ == "__main__":
    sys.exit(main())
