#!/usr/bin/env python3
"""Spells the names that the crates declare in specs/ and proofs/ as today's Rattle does: types in upper camel case, all else in snake case.

usage: python3 tools/respell.py            at the top of the repository, after /opt/rattle/port/port.py

A name is turned in every .rt and .antt file of crates/ and, between backquotes, in README.md and docs/. Names that Rattle makes for goals
and for the steps of a proof (behind 'c.', 'w.', 'goal.' and 'given.', and where a proof file answers them) keep their dashes, and so
does all Rust. A name whose new spelling would meet another name in some file stays; a line that begins 'left:' says so.
"""
import collections
import os
import re

STOPS = r'\s(){}.;,@"«»\[\]`'
TOKEN = re.compile(rf"[^{STOPS}]+")
MARKS = {"pub", "abbrev", "unfoldable", "pattern", "record", "data"}
# `name : type`, with arguments of a record or a type between them
DECLARED = re.compile(rf"^( *)((?:(?:{'|'.join(sorted(MARKS))}) )*)([^{STOPS}:]+)((?: [({{][^\n]*?[)}}])*) :(?: (.*))?$", re.M)
GENERATED = re.compile(r"/proofs/(?:[^/]+/)+(Answers|Invariants|Choices)\.antt$")
MADE = re.compile(r"^ *(goal|given|need|choice)\.")
# Names whose plain spelling is that of a Rust function beside them.
BESIDE_RUST = {
    "begins-remark": "opens_remark",
    "call-named": "named_call",
    "class-at": "class_numbered",
    "count-blocks": "count_of_blocks",
    "current-blocks": "count_of_current_blocks",
    "free-in-class": "free_of_class",
    "is-current": "is_current_block",
    "lowest-current": "lowest_current_block",
    "mark-unit": "marking_unit",
    "move-unit": "moving_unit",
    "page-for": "page_to_take",
    "refused-letter": "letter_of_refusal",
    "sweep-unit": "sweeping_unit",
    "three-numbers": "number_triple",
    "two-numbers": "number_pair",
    "with-digit": "digit_added",
    "with-flag": "with_flag_set",
}


def texts():
    for folder, dirs, files in os.walk("crates"):
        dirs[:] = sorted(d for d in dirs if d != "out")
        for f in sorted(files):
            if f.endswith((".rt", ".antt")):
                yield os.path.join(folder, f)


def read(path):
    with open(path, encoding="utf-8") as f:
        return f.read()


def declared(path, text):
    """The names that the text declares: of definitions, lemmas, records, their fields and constructors."""
    for m in DECLARED.finditer(text):
        name, of = m.group(3), m.group(5) or ""
        if GENERATED.search(path) and (MADE.match(of) or (m.group(1) == "" and re.search(r"(?<![\w-])(goal|given)\.", of) and not m.group(4))):
            continue
        yield name


def respelled(name):
    if name in BESIDE_RUST:
        return BESIDE_RUST[name]
    if name[:1].isupper():
        return "".join(part[:1].upper() + part[1:] for part in re.split("[-_]", name) if part)
    return name.replace("-", "_")


def turn(text, new, path):
    generated = bool(GENERATED.search(path))

    def one(m):
        word = m.group(0)
        if word not in new:
            return word
        before = text[: m.start()]
        if generated and re.search(r"(?:^|[^\w'.-])(?:c|w|goal|given)\.$", before[-12:]):
            return word
        return new[word]

    return TOKEN.sub(one, text)


def main():
    files = {p: read(p) for p in texts()}
    words = {p: set(TOKEN.findall(re.sub(rf"\.[^{STOPS}]+", " ", t))) for p, t in files.items()}
    new = {}
    for path, text in files.items():
        if path.endswith(".antt"):
            for name in declared(path, text):
                if respelled(name) != name and re.fullmatch(r"[A-Za-z][\w'-]*", name):
                    new[name] = respelled(name)
    made = collections.Counter(new.values())
    for old in sorted(new):
        if made[new[old]] > 1:
            print(f"left: {old} and another would be {new[old]}")
            del new[old]
            continue
        meets = sorted(p for p in files if old in words[p] and new[old] in words[p])
        if meets:
            print(f"left: {old} would meet {new[old]} in {meets[0]} and {len(meets) - 1} more")
            del new[old]
    for path, text in files.items():
        turned = turn(text, new, path)
        if turned != text:
            with open(path, "w", encoding="utf-8") as f:
                f.write(turned)
    stand = set().union(*(set(TOKEN.findall(read(p))) for p in files))
    turned_before = lambda m: m[0] if m[0] in stand or respelled(m[0]) not in stand else respelled(m[0])
    pages = ["README.md"] + sorted(os.path.join("docs", f) for f in os.listdir("docs") if f.endswith(".md"))
    for path in pages:
        text = read(path)
        turned = re.sub(r"`[^`\n]*`", lambda m: TOKEN.sub(turned_before, turn(m[0], new, path)), text)
        if turned != text:
            with open(path, "w", encoding="utf-8") as f:
                f.write(turned)
    for old in sorted(new):
        print(f"{old} {new[old]}")


main()
