#!/usr/bin/env python3
"""Brings the repository's own definitions and lemmas to snake case, after the kit's port.py: `designOf` to `design_of`, `masks-least` to `masks_least`.

Run it once, at the top of the repository. It goes by the names that specs/ and proofs/*.antt declare, and turns them in all crates and pages.
Types, modules, functions of src/, names that C calls and names that the prover makes (goals of proofs/F) keep their spelling. Edits are not read: they are brought over by hand.
"""
import pathlib
import re
import sys

ROOT = pathlib.Path(sys.argv[1] if len(sys.argv) > 1 else ".").resolve()
CRATES = ROOT / "crates"
OWN = {p.name for p in CRATES.iterdir() if p.is_dir()}
PART = r"[A-Za-z_ℕ][A-Za-z0-9_'₀-₉]*"
NAME = re.compile(rf"(?<![A-Za-z0-9_'₀-₉-])({PART}(?:-{PART.replace('A-Za-z_ℕ', 'A-Za-z0-9_ℕ≢')})*)(?![A-Za-z0-9_'₀-₉])")
CAMEL = re.compile(r"^_?[a-z][a-z0-9]*(?:[A-Z0-9][a-z0-9]*)*[A-Z]?[a-z0-9]*'*(?:[₀-₉])*$")

# Lemmas whose snake case is the name of a definition: the law's name says of which two it speaks.
TABLE = {
    "bit-and": "bit_of_and",
    "bit-or": "bit_of_or",
    "bit-xor": "bit_of_xor",
    "constant-value": "constant_fixed",
    "is-constant": "constant_kind",
    "is-register": "register_kind",
    "ones-sum": "ones_are",
    "width-sum": "widths_are",
    "operand-rules": "operand_rules_are",
    "width-rules": "width_rules_are",
    "word-rules": "word_rules_are",
    "value-at": "value_is",
    "values-to": "values_same",
    "word-at": "words_of-word_at",
}

# The same, of lemmas that port.py has brought to snake case already: in specs/ and proofs/ alone, where a function of src/ may have that name.
LAWS = {
    "kept_by": "kept_for",
    "least_above": "least_above_least",
    "next_word": "next_word_at",
    "put_word": "put_word_at",
    "start_word": "start_word_at",
}


def snake(name):
    name = name.replace("-", "_")
    return re.sub(r"(?<=[a-z0-9])([A-Z])", lambda m: "_" + m.group(1).lower(), name)


def is_camel(name):
    return re.fullmatch(r"[a-z][A-Za-z0-9]*[A-Z][A-Za-z0-9]*['₀-₉]*", name) is not None


def theory():
    for crate in sorted(OWN):
        yield from sorted((CRATES / crate / "specs").glob("*.antt"))
        yield from sorted((CRATES / crate / "proofs").glob("*.antt"))


def imported(text):
    """The names that a file brings in, by where they come from: (own, of the kit)."""
    own, kit = set(), set()
    for m in re.finditer(r"^(?:ghost )?use ([^;{\n]*)\.\{([^}]*)\}", text, re.M):
        head = m.group(1).split(".")
        ours = head[0] == "Rattle" and len(head) > 1 and head[1] in OWN
        for item in m.group(2).split(","):
            for part in item.split(" as "):
                (own if ours else kit).add(part.strip())
    return own, kit


def declared():
    names = set()
    for p in theory():
        text = p.read_text()
        _, kit = imported(text)
        found = set()
        for line in text.split("\n"):
            if line.lstrip().startswith(("--", "use ")):
                continue
            for m in re.finditer(r"(?:^\s*(?:abbrev |unfoldable |pub |record )*|let |λ |\(|\{|; )([a-z][\w'₀-₉-]*(?: [a-z][\w'₀-₉-]*)*) (?=[:=.(])", line):
                found |= set(m.group(1).split())
            for m in re.finditer(r"let ([\w'₀-₉-]+) ", line):
                found.add(m.group(1))
        names |= {n for n in found if n not in kit}
    return {n for n in names if "-" in n or is_camel(n)}


NAMES = declared()

# What specs/ and proofs/ speak of at all, for the pages, which port.py does not read.
SPOKEN = {m.group(1) for p in theory() for m in NAME.finditer(p.read_text())}


def turn_page(name):
    plain = name.replace("-", "_")
    if "-" in name and name not in TABLE and name not in NAMES:
        if plain in LAWS:
            return LAWS[plain]
        return plain if plain in SPOKEN else name
    return turn(name)


def turn(name, own_only=None, laws=False):
    if name in TABLE:
        return TABLE[name]
    if laws and name in LAWS and (own_only is None or name in own_only):
        return LAWS[name]
    if "-" in name:
        if name not in NAMES or (own_only is not None and name not in own_only):
            return name
        return snake(name)
    if is_camel(name) or re.fullmatch(r"[a-z]\w*[A-Z]\w*", name):
        return snake(name)
    return name


def turn_text(text, own_only=None, laws=False):
    return NAME.sub(lambda m: turn(m.group(1), own_only, laws), text)


def main():
    for p in theory():
        text = p.read_text()
        p.write_text(turn_text(text, laws=True))
    for crate in sorted(OWN):
        for p in sorted((CRATES / crate / "proofs").glob("*/**/*.antt")):
            text = p.read_text()
            p.write_text(turn_text(text, imported(text)[0], laws=True))
        for p in sorted((CRATES / crate / "src").glob("**/*.rt")):
            text = p.read_text()
            p.write_text(turn_text(text))
    for p in [ROOT / "README.md", *sorted((ROOT / "docs").glob("*.md"))]:
        if p.name.startswith("PORT"):
            continue
        text = p.read_text()
        # code spans alone, and no path: an edit's name stays as its file is named
        p.write_text(re.sub(r"(?<!`)`([^`\n]+)`(?!`)", lambda m: m.group(0) if "/" in m.group(1) else "`" + NAME.sub(lambda n: turn_page(n.group(1)), m.group(1)) + "`", text))


if __name__ == "__main__":
    main()
