"""What the scripts beside it share: they read files without their comments, and their declarations one by one."""
import functools
import pathlib
import re
import sys

ROOT = pathlib.Path(__file__).resolve().parent.parent
CRATES = ROOT / "crates"
PROMISES = CRATES / "promises/proofs"

# A text in quotes or a comment, whichever comes first. No comment begins in a text.
IN_CODE = re.compile(r'"(?:\\.|[^"\\])*"|//[^\n]*')
IN_PROOFS = re.compile(r'"(?:\\.|[^"\\])*"|(?<![^\s(){}.;,@«»])--[^\n]*')


def without_comments(path, comment, block):
    """Comments of several lines are refused: where one ends depends on what else is in it, and no file needs one."""
    text = path.read_text()
    if block in text:
        sys.exit(f"{path.relative_to(ROOT)}: a comment that starts with {block} is not read here; write one a line")
    return comment.sub(lambda found: found[0] if found[0].startswith('"') else "", text)


@functools.cache
def code(path):
    """A file of Rattle, C or Rust."""
    return without_comments(path, IN_CODE, "/*")


@functools.cache
def proofs(path):
    """A file of definitions, theorems and proofs."""
    return without_comments(path, IN_PROOFS, "{-")


def line(text):
    return " ".join(text.split())


def items(text, indent=0):
    """What stands at an indentation, each with the deeper lines after it and with those that start with a bracket."""
    margin = " " * indent
    start = re.compile(rf"^(?={margin}[^\s(){{}}\[\]])", re.M)
    return [item.rstrip() for item in start.split(text) if item.startswith(margin) and item.strip()]


def closing(text, start):
    """The place after the bracket that closes the one at the start."""
    opens, closes = text[start], {"(": ")", "{": "}", "[": "]"}[text[start]]
    depth = 0
    for place in range(start, len(text)):
        depth += (text[place] == opens) - (text[place] == closes)
        if depth == 0:
            return place + 1
    sys.exit(f"a bracket is not closed: {line(text[start:start + 80])}")


def split(text, sign):
    """The parts of a text between a sign, where it stands in no bracket."""
    parts, depth = [""], 0
    for character in text:
        depth += (character in "([{") - (character in ")]}")
        if character == sign and depth == 0:
            parts.append("")
        else:
            parts[-1] += character
    return [line(part) for part in parts]


def spellings(name):
    """The words by which a text may use a name: an operator is known by the signs in it."""
    return {name, *filter(None, name.split("◌"))}


def proof_files(folder=PROMISES, node="Lib"):
    """The proof files that the prover is led to from Lib.antt, by the lines `mod` and `pub mod`. It reads no other."""
    path = folder / f"{node}.antt"
    if not path.exists():
        sys.exit(f"{path.relative_to(ROOT)}: it is named in the file above it, and absent")
    yield path
    below = folder if node == "Lib" else folder / node
    for child in re.findall(r"^(?:pub )?mod (\S+)$", proofs(path), re.M):
        yield from proof_files(below, child)
