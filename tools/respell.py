#!/usr/bin/env python3
"""Spells the repository's own ghost names as today's Rattle does, after the kit's port.py has turned the files.

usage: tools/respell.py      at the top of the repository, once, right after port.py

Types and facts go into upper camel case; definitions, lemmas, fields and constructors into snake case. A dash stays
where it joins the names of two definitions (KEPT), and in the names of the derivation rules, which are the field's own
(IF-T and its like). Names that Rattle makes (goals, steps) and names of the kit's library are not touched. Only the
ghost text of .rt files is read: imports, clauses, ghost members and fields.
"""
import pathlib
import re

TOP = pathlib.Path(__file__).resolve().parent.parent

TYPES = """
Apart-at At-end At-stuck Comes-to Derivations-are-runs Differs-at Divides-at Formed-row Joined-runs Lawful-derivation
Lawful-program Lists-trees Next-decides No-command One-derivation One-round-counts One-way Plain-a Plain-b Program-law
Refusal-of Row-cites Screening-law Spans-law Stopped-row Stops-at Table-law Well-formed Wrong-datum Wrong-sort
""".split()

# both parts name definitions
KEPT = """
laid-roots laid-total length-post post-join scan-post size-join total-roots tree-scan
""".split()

WORDS = """
accepted-cut accepted-made and-done and-formed and-other-is apart-here assign-done assign-in at-end at-within back-b
back-c back-same before-is before-some blocked-a blocked-b both-sides bounded-more bounded-next came-halfway
came-through cases-result cause-a cause-b children-cited children-of citation-fault cites-at cites-join command-is
command-of confirmed-end confirmed-refused derivation-answer derivation-cites divides-at e-and e-assign e-if-f e-if-t
e-less e-name e-not e-num e-op e-seq e-skip e-val e-while-f e-while-t each-formed ends-in-command expression-of
formed-as formed-as-is formed-from formed-row formed-well forming-refused forward-a forward-b forward-op given-a
given-b halfway-malformed halfway-miscited halfway-number have-sorts head-same held-a held-b held-c held-is held-span
if-false if-in if-some-is if-true is-formed-from is-formed-row is-of is-of-is is-of-self is-refused is-room is-skip
join-assoc join-bare join-cites kind-cites kind-of kind-sort known-or laid-down large-a large-b large-c last-formed
law-at law-of lawful-made length-spans less-left less-right longest-derivation longest-program loop-of made-always
moves-b neg-done neg-in next-a next-b next-fault next-is next-span no-citations no-numbers no-op none-a none-b not-ok
not-one nth-cases of-command of-expression ok-not-err on-and-left on-and-right on-first on-left on-less-left
on-less-right on-neg on-right one-a one-cause one-next one-round one-tree only-a only-b only-c only-op only-tree
op-done op-left op-of op-right open-a open-b open-c option-discrete option-set or-citation or-citation-is past-length
place-a place-and place-assign place-b place-if place-left place-less place-lit place-name place-neg place-op
place-right place-seq place-than premises-cited premises-of program-answer program-law program-refusal raw-rows
raw-spans rescan-agrees rescan-refused rescanned-more rescanned-none room-fault room-is room-memory room-number
room-size root-span roots-ascend roots-within row-cites row-refused row-sort rule-of same-derivation same-fault
same-forest same-run same-sort same-sort-is same-sort-self same-steps scan-front scan-length scan-longer scanned-more
scanned-none screen-refusal screened-confirmed screened-first screening-law seq-left seq-skip size-zero sized-as
skip-rests skip-row skip-rule-row some-rows sort-at sort-of sorted-sorts sorts-sorted span-bound span-of-roots
spans-join spans-law spans-of stands-for steps-a steps-b steps-c stopped-at-end stopped-at-row stopped-row
stuck-rests syntax-cites table-law test-prop then-formed then-refused told-err told-ok tree-confirmed truth-of
well-formed where-room whole-fault with-span without-room wrong-memory
""".split()

# a definition of this name is in the way of the word for what a function returns; and the lemma `is-ok` of
# crates/screening/proofs/Held.antt fell together with the library's test `is_ok`
RESULT = ("crates/imp/", "crates/stepping/")
IS_OK = ("crates/screening/proofs/Held.antt", "crates/tables/proofs/program/Program/known/Answers.antt")

NAME = re.compile(r"(?<![\w'.·-])[A-Za-z_][\w'-]*|(?<=\.)[A-Za-z_][\w'-]*")
GHOST = re.compile(r"^\s*(ghost |requires|ensures)")


def spelled():
    names = {name: "".join(part[:1].upper() + part[1:] for part in name.split("-")) for name in TYPES}
    names |= {name: name.replace("-", "_") for name in WORDS}
    # where the two parts are names, the one that is respelled keeps the dash
    names |= {"length-spans": "length-spans_of", "spans-join": "spans_of-join", "span-of-roots": "span_of-roots"}
    assert not set(names) & set(KEPT)
    return names


def turned(path, names, line):
    def one(found):
        name = found.group(0)
        free = found.start() == 0 or line[found.start() - 1] != "."
        if name == "result" and path.startswith(RESULT) and free and in_antt(path):
            return "result_of"
        if path in IS_OK:
            if name == "is_ok" and path.endswith("Held.antt") and line.startswith("use "):
                return name
            name = {"is_ok": "is_ok_gives", "isOk": "is_ok"}.get(name, name)
        return names.get(name, name)

    line = line.replace("is_ok as isOk", "is_ok") if path in IS_OK else line
    return NAME.sub(one, line)


def in_antt(path):
    return path.endswith(".antt")


def respelled(path, names, text):
    lines = []
    for line in text.split("\n"):
        mark = "--" if in_antt(path) else "//"
        code, at, comment = line.partition(mark)
        if in_antt(path) or GHOST.match(code):
            code = turned(path, names, code)
        lines.append(code + at + comment)
    text = "\n".join(lines)
    if path == "crates/stepping/src/step.rt":
        text = text.replace("Small.{stands as stands_for, result}", "Small.{stands as stands_for, result_of}").replace("≡ result exact", "≡ result_of exact")
    return text


def main():
    names = spelled()
    if "is_ok_gives" in (TOP / IS_OK[0]).read_text(encoding="utf-8"):
        raise SystemExit("respell: it has been run here before, and a second run would garble what the first has made")
    taken, changed = {}, 0
    for old, new in names.items():
        assert taken.setdefault(new, old) == old, (old, taken[new])
    for path in sorted((TOP / "crates").rglob("*")):
        if path.suffix not in (".rt", ".antt") or "out" in path.relative_to(TOP).parts:
            continue
        text = path.read_text(encoding="utf-8")
        after = respelled(path.relative_to(TOP).as_posix(), names, text)
        if after != text:
            changed += 1
            path.write_text(after, encoding="utf-8")
    print(f"respell: {changed} files changed")


main()
