#!/usr/bin/env python3
"""Brings the repository's own names to today's spelling: words in snake case, where they were in camel case.

usage: tools/respell_names.py      at the top of the repository, once, after the kit's own port script

A name of a definition, a lemma, a field or a bound variable, as it stands in the .antt files, is respelled part by part (a dash
parts a name): rowAfterSteps becomes row_after_steps, isNan-is becomes is_nan-is. Types and modules begin with a capital and stay. The
same names are then respelled in clauses and comments of the sources, in the must-fail edits, and in the pages and tools that
cite them. Names of functions, exported names, strings, inputs and outputs are in snake case already and stay.
"""
import pathlib
import re

TOKEN = re.compile(r"[^\s()\[\]{};,.:=λ→×∷⊎`\"«»|\\/<>+*]+")
HUMP = re.compile(r"(?<=[a-z0-9₀-₉'])[A-Z]")
# Where the rule alone reads badly, or an older word of the library's is in the name.
BY_HAND = {"notANumber": "not_a_number", "getD-tabulateFrom": "get_or-tabulate_from"}
# Lemmas whose name a definition takes: (file, lemma, the lemma's new name).
LEMMAS = [
    ("crates/model/proofs/Ends.antt", "after_one", "after_one_lem"),
    ("crates/model/proofs/Ends.antt", "after_two", "after_two_lem"),
    ("crates/step/proofs/Laws.antt", "by_mode", "by_mode_lem"),
    ("crates/inertia/proofs/count/Proof.antt", "counted_of", "counted_of_lem"),
]
PAGES = ["README.md", "CONTRIBUTING.md", "oracle/check-definitions", "tests/refusals-agree"]


def part_in_snake_case(part):
    return HUMP.sub(lambda it: "_" + it[0].lower(), part) if re.match(r"[a-zα-ω_]", part) else part


def in_snake_case(name):
    return BY_HAND.get(name) or "-".join(map(part_in_snake_case, name.split("-")))


def without_comments(text):
    return re.sub(r"--.*", "", text)


def files(*endings):
    for path in sorted(pathlib.Path("crates").rglob("*")):
        if path.is_file() and path.suffix in endings and "out" not in path.parts:
            yield path


def main():
    for path, old, new in LEMMAS:
        path = pathlib.Path(path)
        if path.exists():
            text = path.read_text()
            path.write_text(re.sub(r"(?<![\w.'-])%s(?![\w'-])" % re.escape(old), new, text))
    names = {token for path in files(".antt") for token in TOKEN.findall(without_comments(path.read_text()))}
    table = {name: in_snake_case(name) for name in names if in_snake_case(name) != name}
    together = {}
    for name, new in table.items():
        together.setdefault(new, []).append(name)
    for new, olds in together.items():
        if len(olds) > 1:
            raise SystemExit(f"respell_names: {olds} would all be {new}")
    now = names | set(table.values())
    # a name that the kit's script has respelled already is cited in the old spelling by edits and pages
    also = lambda token: in_snake_case(token) if in_snake_case(token) in now else token
    respelled = lambda text: TOKEN.sub(lambda it: table.get(it[0]) or also(it[0]), text)
    pages = [pathlib.Path(page) for page in PAGES] + sorted(pathlib.Path("docs").glob("*.md"))
    for path in [*files(".antt", ".rt", ".edit"), *(page for page in pages if page.exists())]:
        text = path.read_text()
        new = respelled(text)
        if new != text:
            path.write_text(new)


if __name__ == "__main__":
    main()
