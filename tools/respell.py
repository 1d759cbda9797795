#!/usr/bin/env python3
"""Gives this repository's own definitions and lemmas today's spelling.

Run once at the top, after the toolchain's port.py: words are in snake case, types in camel case,
so a dash inside a name of ours becomes an underscore, or in a name that begins with a capital the next
letter is made one. Names that come from the library, and names that Rattle makes of the code (goals, loops,
branches), keep their dashes.
"""
import glob
import os
import re
import sys

BREAK = r"\s(){}\[\],.;:\"λ⌜⌝"
NAME = rf"[^{BREAK}]+"
DASHED = re.compile(rf"(?<![^{BREAK}])([A-Za-z][^{BREAK}]*-[^{BREAK}]*)(?![^{BREAK}])")
# What Rattle makes of the code: goals, loops, branches, arms.
MADE = re.compile(
    r"^(loop|returns|overflow_\w+|overflow|invariant|decreases|then|else|if|case|bounds_\w+)-"
    r"|-requires$|-requires-|-ensures$|^in-(Err|Ok|Some|None|err|ok|\d)"
)
# A name of ours that would fall together with that of a function when respelled.
APART = {"code-of": "byte_code"}
# Spellings that port.py leaves, by the crate where it does: the library's words for `^` and `&`, a lemma of ours
# that would fall together with them, and a member of a parameter's bound.
LEFT = (
    ("crates/strip/", re.compile(r"\bbit-xor\b"), "bit_of_xor"),
    ("crates/scale/", re.compile(r"\b(bit-xor|bitXor)\b"), "bit_xor"),
    ("crates/scale/", re.compile(r"\b(bit-and|bitAnd)\b"), "bit_and"),
    ("crates/", re.compile(r"(?<![\w.])(Codes·Scale|Codes-as-Scale)"), "S.Codes.Scale"),
)


def files():
    own = []
    for part in ("specs", "proofs"):
        own += glob.glob(f"crates/*/{part}/**/*.antt", recursive=True)
    return sorted(own)


def sources():
    return sorted(glob.glob("crates/*/src/**/*.rt", recursive=True))


def imported(text):
    """The names that a file brings in from the library."""
    names = set()
    for m in re.finditer(r"use ([\w.]+)\.\{([^}]*)\}", text):
        crate = m.group(1).split(".")
        own = crate[0] == "Rattle" and os.path.isdir(f"crates/{crate[1]}")
        if not own:
            names |= {n.split(" as ")[0].strip() for n in m.group(2).split(",")}
    return names


def respelled(name):
    if name in APART:
        return APART[name]
    parts = name.split("-")
    if name[0].isupper():
        return parts[0] + "".join(p[:1].upper() + p[1:] for p in parts[1:])
    return "_".join(parts)


SIGNATURE = re.compile(rf"^\s*(?:(?:pub|abbrev|unfoldable|data|record|ghost) )*({NAME})(?:\s+[({{].*)?\s*:(?!\S)(.*)$")
BOUND = re.compile(rf"(?:\blet |[({{]|λ )({NAME})(?: {NAME})*\s*(?::|=|\.)")
GENERATED = ("Answers.antt", "Invariants.antt", "Proof.antt")


def defined(path, text):
    """The names that a file of antt defines: signatures, fields, constructors, locals."""
    names = set()
    for line in text.split("\n"):
        code = line.split("--")[0] if line.lstrip().startswith("--") else line
        m = SIGNATURE.match(code)
        if m:
            answers = os.path.basename(path) in GENERATED and re.match(r"\s*(goal|need|given)\.", m.group(2))
            if not answers:
                names.add(m.group(1))
        for m in re.finditer(rf"^\s*(?:pub )?(?:data|record) ({NAME})", code):
            names.add(m.group(1))
        for m in re.finditer(rf"\blet ({NAME})", code):
            names.add(m.group(1))
        for m in re.finditer(rf"[({{]((?:{NAME} )+):", code):
            names |= set(m.group(1).split())
        for m in re.finditer(rf"λ ((?:{NAME} ?)+)\.", code):
            names |= set(m.group(1).split())
    return names


def own_names():
    """Every name with a dash that this repository defines."""
    found, library, all_words = set(), set(), set()
    for path in files() + sources():
        text = open(path, encoding="utf-8").read()
        library |= imported(text)
        all_words |= set(re.findall(NAME, text))
        if path.endswith(".antt"):
            found |= {n for n in defined(path, text) if DASHED.fullmatch(n)}
    return {n for n in found if n not in library and not MADE.search(n)}, library, all_words


def main():
    names, library, all_words = own_names()
    for name in sorted(names):
        new = respelled(name)
        if new in all_words or new in library:
            print(f"falls together: {name} with {new}")
    if "--list" in sys.argv:
        print("\n".join(sorted(names)))
        return
    for path in files() + sources():
        text = open(path, encoding="utf-8").read()
        new = DASHED.sub(lambda m: respelled(m.group(1)) if m.group(1) in names else m.group(1), text)
        for place, pattern, word in LEFT:
            if path.startswith(place):
                new = pattern.sub(word, new)
        if new != text:
            open(path, "w", encoding="utf-8").write(new)


main()
