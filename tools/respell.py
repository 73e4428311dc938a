#!/usr/bin/env python3
"""Respells this repository's own definitions, lemmas, fields and constructors as today's Rattle spells its own: snake case.

usage: python3 tools/respell.py        at the top of the repository, once, after /opt/rattle/port/port.py

Names that begin with a capital letter stay, as do names of functions in src/, strings, and what stands in quotes.
Where a definition and a lemma about it would get one name, the lemma gets an ending (LEMMAS). A text of a must-fail
edit, README.md and docs/ get the new names as well, those that port.py respelled among them; in an edit a projection
is written tight too, as port.py writes it elsewhere.
"""

import glob
import re

NAME = re.compile(r"[A-Za-z_][A-Za-z0-9_'\u2080-\u2089-]*")
STRING = re.compile(r'"(?:\\.|[^"\\\n])*"')

# Files in which a lemma would fall together with the definition that it is about: the lemma's name, and its new one.
LEMMAS = {
    "crates/read_blocks/proofs/Words.antt": {"by_code": "by_code-is"},
    "crates/read_blocks/proofs/Items.antt": {"by_code": "by_code-is"},
    "crates/read_command/proofs/read_operands/Proof.antt": {"by_row": "by_row-is"},
    "crates/read_command/proofs/Laws.antt": {"by_shape": "by_shape-is"},
    "crates/model_record/proofs/Entries.antt": {"entries_fit": "entries_fit-holds", "entries_from": "entries_from-is"},
    "crates/model_record/proofs/Made.antt": {"entries_fit": "entries_fit-holds", "entries_from": "entries_from-is"},
    "crates/model_record/proofs/Examples.antt": {"of_two": "of_two-hold"},
    "crates/claims/proofs/Index.antt": {"of_two": "of_two-hold"},
    "crates/model_forms/proofs/Lines.antt": {"form_in": "form_in-is"},
    "crates/model_change/proofs/Told.antt": {"from_one": "from_one-says"},
    "crates/model/proofs/Owners.antt": {"of_one": "of_one-got", "of_two": "of_two-got"},
    "crates/model_log/proofs/Held.antt": {"one_more": "one_more-is"},
    "crates/model_blocks/proofs/Texts.antt": {"other_word": "other_word-is"},
    "crates/model_blocks/proofs/Agreement.antt": {"plain_at": "plain_at-is"},
}


def is_camel(name):
    return name[:1].islower() and re.search(r"[a-z0-9][A-Z]", name)


def snake(name):
    return re.sub(r"(?<=[a-z0-9])([A-Z]+)", lambda m: "_" + m.group(1).lower(), name)


def read(path):
    with open(path, encoding="utf-8") as f:
        return f.read()


def outside_strings(text, turn):
    """text, with turn applied to what stands in no string."""
    made, at = [], 0
    for m in STRING.finditer(text):
        made += [turn(text[at : m.start()]), m.group(0)]
        at = m.end()
    return "".join(made + [turn(text[at:])])


def by_line(text, turn):
    return "".join(outside_strings(line, turn) for line in text.splitlines(keepends=True))


def renamed(text, names):
    return by_line(text, lambda t: NAME.sub(lambda m: names.get(m.group(0), m.group(0)), t))


def tight(text):
    """Projections of an edit's text: '(r .f)' and 'r .f' as 'r.f'."""
    while True:
        new = re.sub(r"\(([A-Za-z_][\w'\u2080-\u2089-]*(?:\.[\w'-]+)*) \.([a-z0-9][\w-]*)\)", r"\1.\2", text)
        new = re.sub(r"(?<=[\w)'\u2080-\u2089]) \.([a-z0-9][\w-]*)", r".\1", new)
        if new == text:
            return text
        text = new


def main():
    proofs = sorted(glob.glob("crates/**/*.antt", recursive=True))
    sources = sorted(glob.glob("crates/*/src/*.rt"))
    edits = sorted(glob.glob("crates/*/must-fail/*.edit"))
    pages = ["README.md"] + sorted(glob.glob("docs/*.md"))
    words = set()
    for path in proofs + sources:
        by_line(read(path), lambda t: words.update(NAME.findall(t)) or t)
    names = {w: snake(w) for w in sorted(words) if is_camel(w)}
    if len(set(names.values())) != len(names):
        raise SystemExit("two names would be one")
    # What port.py respelled stands by its new name in the files that it turns, and by its old one in edits and pages.
    older = set()
    for path in edits + pages:
        older.update(w for w in NAME.findall(read(path)) if is_camel(w) and w not in names and snake(w) in words)
    everywhere = names | {w: snake(w) for w in older}
    for path in proofs + sources + edits + pages:
        old = read(path)
        new = old
        if path in LEMMAS:
            new = renamed(new, LEMMAS[path])
        if path.endswith(".edit"):
            new = "".join(tight(line) if line.startswith(("old: ", "new: ")) else line for line in new.splitlines(keepends=True))
        new = renamed(new, everywhere if path in edits or path in pages else names)
        if new != old:
            with open(path, "w", encoding="utf-8") as f:
                f.write(new)
    print(f"{len(names)} names respelled, {len(older)} more in edits and pages")


main()
