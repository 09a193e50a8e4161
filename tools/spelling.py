#!/usr/bin/env python3
"""Writes the repository's own names as today's Rattle spells them: definitions, fields and lemmas in snake case, each part between dashes.

usage: tools/spelling.py [FOLDER]

It was run once, right after port.py, and a second run changes nothing. Functions of src/, exported C names, strings, inputs and outputs
keep their names: those were in snake case before. Where a lemma would then have the name of the definition that it is about, it gets _lem.
"""

import pathlib
import re
import sys

WORD = re.compile(r'"(?:[^"\\\n]|\\.)*"|[^\s(){}.;,@"«»\[\]\\`:]+')
# parts that today's library spells in another way than snake case alone would
PARTS = {"getD": "get_or"}
# lemmas whose definition takes their name
LEMMAS = {
    "answer_at": ["microradians/proofs/Exact.antt"],
    "block_size": ["laws/proofs/Sizes.antt", "promises/proofs/Promises/Tables.antt"],
    "in_order": ["lines/proofs/Controls.antt", "polynomials/proofs/controls/Sum.antt"],
    "is_digit": ["lines/proofs/State/step/Proof.antt"],
    "no_digit": ["lines/proofs/State/step/Proof.antt"],
    "less_two": ["polynomials/proofs/controls/Binomial.antt"],
    "read_number": ["cumulus_page/proofs/Envelope.antt", "microradians/proofs/Whole.antt"],
    "shift_in": ["polynomials/proofs/MultipliedRows.antt", "moving/proofs/write_moved/Proof.antt"],
    "value_in": ["microradians/proofs/Exact.antt"],
}


def part(name):
    if name in PARTS:
        return PARTS[name]
    if not re.match(r"[a-zα-ω]", name):
        return name
    return re.sub(r"(?<=[a-z0-9])[A-Z]", lambda it: "_" + it[0].lower(), name)


def turned(word):
    if word[0] == '"' or not re.search(r"(?:^|-)[a-zα-ω]\w*[a-z0-9][A-Z]", word):
        return word
    return "-".join(part(it) for it in word.split("-"))


def main(folder):
    crates = folder / "crates"
    for path in sorted(crates.glob("*/**/*")):
        place = path.relative_to(crates).as_posix()
        if path.suffix not in (".antt", ".rt", ".edit") or place.split("/")[1] == "out":
            continue
        text = path.read_text()
        lemmas = {name for name, files in LEMMAS.items() if place in files}
        # lemmas first, so that only what was so spelled before gets the ending
        new = WORD.sub(lambda it: it[0] + "_lem" if it[0] in lemmas else turned(it[0]), text)
        if new != text and not (lemmas and "_lem" in text):
            path.write_text(new)
    for path in [folder / "README.md", *sorted((folder / "docs").glob("*.md"))]:
        if path.name not in ("CHANGES.md", "PORT.md"):
            text = path.read_text()
            path.write_text(re.sub(r"`[^`\n]+`", lambda it: WORD.sub(lambda w: turned(w[0]), it[0]), text))


main(pathlib.Path(sys.argv[1] if len(sys.argv) > 1 else pathlib.Path(__file__).resolve().parent.parent))
