#!/usr/bin/env python3
"""Turns the repository's own definitions and lemmas to snake case, as today's Rattle spells them.

usage: python3 tools/snake-case.py [--list]    at the top of the repository, once, after the kit's port.py

A word that begins with a small letter and has a capital in it, in specs/, proofs/, sources and must-fail edits, is a
definition, a lemma, a label or a variable of a clause: Rust's own names have no such form. `codeOf` becomes `code_of`,
and so does each part of a lemma's name, as in `codeOf-xor`. Strings and the library's words stay. --list writes nothing
and prints each word with its new form, those first whose new form is already a word of the repository.
"""
import collections
import glob
import re
import sys

WORD = re.compile(r"(?<![A-Za-z0-9_'])[a-z][a-z0-9_]*[A-Z][A-Za-z0-9_]*")
# the library's word for what a part of a lemma's name names
OTHER = {"getD": "get_or"}
# a fact in a lemma's name keeps its capital
FACTS = {"and_T", "of_T"}
# lemmas that would have the name of the definition that they are about, with the files that cite them
LEMMAS = {
    "is_free": ["model/proofs/PlanActs.antt"],
    "last_name": ["lookup/proofs/SiteLaws.antt"],
    "at_path": ["lookup/proofs/PathWalk.antt", "lookup/proofs/AskLaws.antt", "lookup/proofs/CallLaws.antt"],
    "too_much": ["claims/proofs/Witness.antt"],
    "one_bit": ["ecc/proofs/Locate.antt"],
}
STRING = re.compile(r'b?"(?:[^"\\\n]|\\.)*"')


def snake(word):
    if word in FACTS:
        return word
    if word in OTHER:
        return OTHER[word]
    return re.sub(r"(?<=[a-z0-9])([A-Z])", r"_\1", word).lower()


def turned(text, strings_stay):
    def one(m):
        return snake(m.group(0))

    if not strings_stay:
        return WORD.sub(one, text)
    parts, at = [], 0
    for m in STRING.finditer(text):
        parts.append(WORD.sub(one, text[at : m.start()]))
        parts.append(m.group(0))
        at = m.end()
    parts.append(WORD.sub(one, text[at:]))
    return "".join(parts)


def files():
    for pattern in ("specs/*.antt", "proofs/**/*.antt", "src/*.rt", "must-fail/*.edit"):
        yield from sorted(glob.glob("crates/*/" + pattern, recursive=True))


def listed():
    words, all_words = collections.Counter(), set()
    for path in files():
        text = open(path, encoding="utf-8").read()
        words.update(WORD.findall(text))
        all_words.update(re.findall(r"[A-Za-z_][A-Za-z0-9_']*", text))
    for word in sorted(words, key=lambda w: (snake(w) not in all_words, w)):
        print(f"{word} {snake(word)} {words[word]}{' met' if snake(word) in all_words else ''}")


def main():
    if sys.argv[1:] == ["--list"]:
        return listed()
    for path in files():
        text = open(path, encoding="utf-8").read()
        new = text
        for lemma, where in LEMMAS.items():
            if path.removeprefix("crates/") in where:
                new = re.sub(r"(?<![\w.'-])" + lemma + r"(?![\w'-])", lemma + "_lem", new)
        new = turned(new, path.endswith((".rt", ".edit")))
        if new != text:
            open(path, "w", encoding="utf-8").write(new)


main()
