#!/usr/bin/env python3
"""Brings the repository's own definitions, fields and variables to snake case, once, after the kit's port.py.

Words are in snake case, types and modules in camel case: `wordBits` becomes `word_bits`. A dash that joins two names,
as in `times-add`, stays. No library of the kit has a word in camel case, so each that a proof or a clause has is the
repository's own. Where a lemma had the name that a definition then gets, the lemma ends in `_lem`. In pages and
comments a name is turned inside backticks alone.

    tools/respell.py         at the top of the repository; prints names that fall together, and turns nothing then
"""
import collections
import os
import re
import subprocess
import sys

# Lemmas that would have a definition's name, and the files that speak of them.
LEMMAS = {
    "is_digit": "crates/decimal/proofs/",
    "vector_on": "crates/history/proofs/",
    "is_within": "crates/record/proofs/ImageLaws.antt",
    "a_sum": "crates/record/proofs/RegisterLaws.antt",
    "first_fits": "crates/record/proofs/TestLaws.antt",
    "second_fits": "crates/record/proofs/TestLaws.antt",
    "first_out": "crates/spi/proofs/PinLaws.antt",
    "next_edge": "crates/spi/proofs/RestLaws.antt",
}

BREAK = r"[^\s(){},;.@\"`]"
TOKEN = re.compile(BREAK + "+")
USE = re.compile(r"(?:pub )?(?:ghost )?use (\S+)\.\{(.*?)\}", re.S)


def listed(*patterns):
    return subprocess.check_output(["git", "ls-files", "--", *patterns], text=True).split()


def is_camel(name):
    return re.match(r"[a-z]", name) is not None and re.search(r"[a-z0-9][A-Z]", name) is not None


def snake(name):
    return re.sub(r"(?<=[a-z0-9])([A-Z])", lambda m: "_" + m.group(1).lower(), name)


def with_lemmas_named(path, text):
    for name, at in LEMMAS.items():
        if path.startswith(at) and path.endswith(".antt"):
            text = TOKEN.sub(lambda m: m.group(0) + "_lem" if m.group(0) == name else m.group(0), text)
    return text


def is_own(module):
    part = module.split(".")
    return part[0] == "Rattle" and len(part) > 1 and os.path.isdir(os.path.join("crates", part[1]))


def taken_from_kit(text):
    names = set()
    for module, items in USE.findall(text):
        if not is_own(module):
            names |= {word.strip() for item in items.split(",") for word in item.split(" as ")}
    return names


def names_to_turn(texts):
    names = set()
    for path, text in texts.items():
        if path.endswith(".antt"):
            code = "\n".join(line.split("--")[0] for line in text.split("\n"))
            names |= {word for word in TOKEN.findall(code) if is_camel(word)}
    return {name: snake(name) for name in names}


def falls_together(texts, turned):
    into = collections.defaultdict(set)
    for old, new in turned.items():
        into[new].add(old)
    clashes = [f"{' and '.join(sorted(olds))} become {new}" for new, olds in into.items() if len(olds) > 1]
    for path, text in texts.items():
        words = set(TOKEN.findall(text)) if path.endswith(".antt") and not path.endswith("/Proof.antt") else set()
        kit = taken_from_kit(text)
        for old in words & set(turned):
            if turned[old] in words and old not in kit:
                clashes.append(f"{path}: {old} beside {turned[old]}")
    return clashes


def respell(path, text, turned):
    kit = taken_from_kit(text)
    word = lambda m: turned[m.group(0)] if m.group(0) in turned and m.group(0) not in kit else m.group(0)
    quoted = lambda m: TOKEN.sub(word, m.group(0))
    if path.endswith((".antt", ".edit", ".refutation")):
        return TOKEN.sub(word, text)
    if path.endswith(".rt"):
        camel = lambda m: turned[m.group(0)] if is_camel(m.group(0)) and m.group(0) in turned else m.group(0)
        return re.sub(r"`[^`\n]*`", quoted, TOKEN.sub(camel, text))
    return re.sub(r"`[^`\n]*`", quoted, text)


def main():
    paths = listed("crates/*.antt", "crates/*.rt", "crates/*.edit", "refutations/*", "docs/*.md", "README.md")
    read = {path: open(path, encoding="utf-8").read() for path in paths}
    texts = {path: with_lemmas_named(path, text) for path, text in read.items()}
    turned = names_to_turn(texts)
    clashes = falls_together(texts, turned)
    if clashes and "--anyway" not in sys.argv:
        print("\n".join(clashes))
        return 1
    for path, text in texts.items():
        new = respell(path, text, turned)
        if new != read[path]:
            open(path, "w", encoding="utf-8").write(new)
    print(f"{len(turned)} names")
    return 0


if __name__ == "__main__":
    sys.exit(main())
