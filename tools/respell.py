#!/usr/bin/env python3
"""Brings this repository's own definitions and lemmas to today's spelling: words in snake case.

usage: tools/respell.py          at the top of the repository, once, after the kit's port.py

A camel-case word or one with dashes becomes a word in snake case: valueOk is value_ok, held-is is held_is. Types and modules keep their capitals.
Where two names would fall together, the lemma gets _lem, and a field is_ in the middle. Names that Rattle makes, Rust's names and strings stay.
port.py does the same to the names that a library had too; they are listed here, since it reads neither pages nor must-fail edits.
"""
import glob
import os
import re

TOGETHER = {
    "below-all": "below_all_lem",
    "below_all": "below_all_lem",
    "left_by": "left_by_lem",
    "marked_by": "marked_by_lem",
    "name_in": "name_in_lem",
    "read-all": "read_all_lem",
    "read_back": "read_back_lem",
    "too_many": "too_many_lem",
    "in-front": "in_front_lem",
    "at-fate": "at_fate_lem",
    "rows-text": "rows_text_lem",
    "packets-at": "packets_at_lem",
    "lies_within": "lies_within_lem",
    "held_after": "held_after_lem",
    "kept_high": "kept_high_lem",
    "held_in": "held_in_lem",
    "held_then": "held_then_lem",
    "beta-ok": "beta_is_ok",
    "room-ok": "room_is_ok",
}
# One name of the old spelling and one of port.py's: only the files that the lemma is used in.
LEMMAS = {"below_all", "left_by", "marked_by", "name_in", "read_back", "too_many", "lies_within", "held_after", "kept_high", "held_in", "held_then"}

DECL = re.compile(r"^\s*(?:(?:abbrev|unfoldable|axiom|pub|ruleset)\s+)*(?:(?:data|record)\s+(?=\S+\s*[(:{])|(?=[^:]+?\s:\s))([^\s:(){}=,;.λ∀]+(?:\s*,\s*[^\s:(){}=,;.λ]+)*)\s*(?::\s|[({])")
NAME = re.compile(r"[^\s(){}\[\];,.@∷λ→×|:=⌜⌝`'\"/<>]+")
# Goals and their folders: names that Rattle makes.
PROOF = ("Proof.antt", "Answers.antt", "Invariants.antt")


def snake(name):
    parts, out = re.split(r"[-_]", name), []
    for part in parts:
        if not out and part[:1].isupper():
            return name.replace("-", "_")
        part = re.sub(r"(?<=[a-z0-9])([A-Z]+)", lambda m: "_" + m.group(1).lower(), part)
        out.append(re.sub(r"^([A-Z]+)", lambda m: m.group(1).lower(), part))
    return "_".join(out)


def files(pattern):
    return [p for p in sorted(glob.glob(pattern, recursive=True)) if "/out/" not in p]


def names():
    """Every name that the repository's specs/ and proofs/ declare, and its new spelling."""
    found = set()
    for path in files("crates/*/specs/**/*.antt") + files("crates/*/proofs/**/*.antt"):
        made = os.path.basename(path) in PROOF
        for line in open(path, encoding="utf-8"):
            if line.startswith(("--", "use ", "pub use ", "mod ", "pub mod ", "unfolding", "infix")) or (made and re.search(r":\s*(tie|goal)\.", line)):
                continue
            m = DECL.match(line)
            if m:
                found.update(re.split(r"\s*,\s*", m.group(1)))
    plain = re.compile(r"^[A-Za-z][A-Za-z0-9'_-]*$")
    found = {n for n in found if plain.match(n) and not n.endswith("-spec") and n not in ("enum-told", "and-false", "let", "in", "where", "module")}
    camel = {snake(n) for n in found if "-" not in n and snake(n) != n}

    def new(n):
        if n in TOGETHER:
            return TOGETHER[n]
        return snake(n) + "_lem" if "-" in n and snake(n) in camel else snake(n)

    return {n: new(n) for n in found if new(n) != n}


def respell(text, table):
    def one(m):
        word = m.group(0)
        return table.get(word, word)

    return NAME.sub(one, text)


def lines(path, table, quoted):
    """Respells a file; in prose (a comment or a page) only camel case, and what stands between backticks."""
    camel = {a: b for a, b in table.items() if re.search(r"[a-z][A-Z]", a)}
    out = []
    for line in open(path, encoding="utf-8"):
        prose = quoted or line.lstrip().startswith(("--", "//"))
        if prose:
            parts = line.split("`")
            parts = [respell(p, table if i % 2 else camel) for i, p in enumerate(parts)]
            out.append("`".join(parts))
        elif path.endswith(".rt") and '"' in line:
            out.append(line)
        else:
            out.append(respell(line, table))
    text = "".join(out)
    if text != open(path, encoding="utf-8").read():
        with open(path, "w", encoding="utf-8") as f:
            f.write(text)


def main():
    table = names()
    # Lemmas that port.py gave the new spelling of a definition: only where the file's old text has them as a word of its own.
    code = {a: b for a, b in table.items() if a not in LEMMAS}
    for path in files("crates/*/specs/**/*.antt") + files("crates/*/proofs/**/*.antt"):
        text = open(path, encoding="utf-8").read()
        for word in LEMMAS:
            # not a member of a path or a record, as c.lies_within.ensures or Rattle.mf_flush.proofs.name_in
            text = re.sub(r"(?<![\w.'-])" + word + r"(?![\w'-]|\.\w)", TOGETHER[word], text)
        with open(path, "w", encoding="utf-8") as f:
            f.write(text)
        lines(path, code, False)
    for path in files("crates/*/src/**/*.rt"):
        lines(path, code, False)
    both = dict(code)
    both.update({n: snake(n) for n in PORTED.split() if n not in both})
    for path in files("crates/*/must-fail/*.edit"):
        lines(path, both, False)
    for path in files("docs/*.md") + ["README.md"]:
        lines(path, both, True)


PORTED = """
add-at add-low add-step add-times added-more added-none after-first alike-all all-append all-done all-drop all-first all-fit all-found all-placed
all-stay all-take andThen answerOf as-long at-turn atLeast atOnce atStart below-length below-up below-wider block-start by-first by-hand by-kind
by-lengths by-right by-value by-written byOf call-same callBy callOf cell-at clear-at codeOf cond-cases count-fits countOf counted-none digits-last
digits-more each-all each-append each-both each-map each-take empty-holds end-seen endIn ends-next ends-same entered-all entry-at entryOf fieldsOf
flat-append fresh-on from-first from-is given-out gives-more gives-none goes-in goes-on going-end going-start held-after held-at held-fits held-in
held-kept held-none held-same held-test held-then high-fits high-le holds-more holds-same in-order inputOf isNumber isRow jobOf kept-high kindAt kindOf
last-fits last-more lastOf left-by length-without lengths-differ lies-within line-refused lineOf lines-more lines-none linesOf listsOf low-turn
marked-by merging-start min-cases more-by moved-more moved-none movedTo mul-low mul-next name-in nameOf near-of no-place none-at-all none-before
none-here none-left none-stays not-same nothing-read number-fits number-is numberIn numberOf numbers-fit of-values okOf one-each one-less one-more
one-of open-none orElse over-any part-length part-none partOf parts-same past-end picked-pass place-inside place-is placeIn placesOf preempted-here
put-back put-full put-is read-back read-by read-more readAll room-fits row-first row-fits row-is rowLine rowLines rowOf rows-before rows-none rowsBy
rowsFrom rowsOf rowsTo runBy saidOf same-kept same-length same-none same-step says-all saysOf set-before set-more sets-over settled-on slotAt slotOf
so-far split-one startsWith stateOf sub-held sub-self take-more taken-out textOf times-none too-long too-many turn-end turn-is turn-on under-more upTo
valueOf values-length valuesOf whole-here whole-is withNumber withRow within-in within-low within-none word-number wordOf written-in written-once
written-one zero-left low-field
"""


if __name__ == "__main__":
    main()
