#!/usr/bin/env python3
"""Brings the names of definitions, fields and lemmas to one spelling: words in snake case, types and modules in camel case.

usage: tools/snake_case.py [--dry]      at the top of the repository, once, after the kit's port.py

A word that begins with a small letter and has a capital behind a small one, as perByte, becomes per_byte, in specs/, proofs/, the clauses of src/ and the
must-fail edits; a dash still joins names, and a name from the kit keeps its spelling. It stops where two names would become one.
"""
import os
import re
import sys

KIT = "/opt/rattle/rattle"
TOP = os.path.join(os.path.dirname(os.path.realpath(__file__)), "..")
WORD = re.compile(r"(?<![\w'\u25cc-])[\w'\u25cc-]+")
HUMP = re.compile(r"(?<=[a-z0-9\u2080-\u2089'])([A-Z])")
STRING = re.compile(r'"(?:[^"\\\n]|\\.)*"')


def part(p):
    return HUMP.sub(lambda m: "_" + m[1].lower(), p) if re.match(r"[a-z_]", p) and re.search(r"[a-z0-9][A-Z]", p) and not p.isupper() else p


def respelled(word):
    return "-".join(part(p) for p in word.split("-"))


def files(root, endings):
    for folder, dirs, names in os.walk(root):
        dirs[:] = sorted(d for d in dirs if d not in ("out", "target", ".git"))
        for n in sorted(names):
            if n.endswith(endings):
                yield os.path.join(folder, n)


def read(path):
    with open(path, encoding="utf-8") as f:
        return f.read()


def kit_words():
    """Words that the kit's definitions and lemmas have, where one of them could be meant."""
    found = set()
    for path in files(KIT, (".antt",)):
        for w in WORD.findall(read(path)):
            if respelled(w) != w:
                found.add(w)
    return found


def imported(texts):
    """Words that are imported from the kit: from a path that is not of a crate of this repository."""
    own = set(os.listdir(os.path.join(TOP, "crates")))
    found = set()
    for t in texts:
        for path, names in re.findall(r"(?m)^\s*(?:pub )?(?:ghost )?use ([\w.'-]+)\.\{([^}]*)\}", t):
            parts = path.split(".")
            if not (parts[0] == "Rattle" and len(parts) > 1 and parts[1] in own):
                found |= {w for w in WORD.findall(names)}
    return found


def fields(texts):
    """Fields of records in specs/ and proofs/ that have a dash: a field is one word."""
    found = set()
    for p, t in texts.items():
        if not p.endswith(".antt"):
            continue
        inside = None
        for line in t.split("\n"):
            indent = len(line) - len(line.lstrip())
            if line.strip() and inside is not None and indent <= inside:
                inside = None
            if re.match(r" *(pub )?record [A-Z]", line) and "where" in line:
                inside = indent
            elif inside is not None and (m := re.match(r" +(?:pub )?([^\s:]+) :", line)) and "-" in m[1]:
                found.add(m[1])
    return found


def main():
    dry = "--dry" in sys.argv
    crates = os.path.join(TOP, "crates")
    texts = {p: read(p) for p in files(crates, (".antt", ".rt", ".edit"))}
    words = {w for p, t in texts.items() if p.endswith(".antt") for w in WORD.findall(t)}
    keep = kit_words() & imported(texts.values())
    change = {w: respelled(w) for w in sorted(words) if respelled(w) != w and w not in keep}
    change |= {w: respelled(w).replace("-", "_") for w in sorted(fields(texts))}
    change |= {w: to for w, to in BY_HAND.items() if w in words}
    for some in BY_CRATE.values():
        for w in some:
            change.pop(w, None)
    there = words | {w for p, t in texts.items() if p.endswith(".rt") for w in WORD.findall(t)}
    new = {}
    bad = False
    for w, to in change.items():
        if to in new or (to in there and to not in FUNCTIONS and to not in LEMMAS):
            print(f"{w} would become {to}, which is there already" + (f" ({new[to]})" if to in new else ""))
            bad = True
        new[to] = w
    print(f"{len(change)} words; kept as the kit's: {' '.join(sorted(keep))}")
    if bad and not dry:
        sys.exit("nothing was changed")
    if dry:
        return
    for path, text in texts.items():
        crate = os.path.relpath(path, crates).split(os.sep)[0]
        lemmas = {w: w + "_lem" for w, where in LEMMAS.items() if path.endswith(".antt") and crate in where}
        put = lambda m: (change | lemmas | BY_CRATE.get(crate, {})).get(m[0], m[0])
        if path.endswith(".rt"):
            out, at = [], 0
            for s in STRING.finditer(text):
                out += [WORD.sub(put, text[at : s.start()]), s[0]]
                at = s.end()
            after = "".join(out) + WORD.sub(put, text[at:])
        else:
            after = WORD.sub(put, text)
        if after != text:
            with open(path, "w", encoding="utf-8") as f:
                f.write(after)


# Functions of src/ that have the name which a definition comes to: the definition is what the function answers.
FUNCTIONS = set(
    """default_of earlier_by four_slots framing_size hand_out head_at is_free known_format lane_at lane_outside lane_word line_bytes longest_at longest_in
    longest_of longest_right no_lane no_lanes of_train past_skipped place_of plan_in put_digit put_first put_line put_ok put_train put_word read_other
    read_page read_plan read_setup read_sheet refusal_words ring_number set_word settings_at shared_part sheet_size stop_code take_first train_at
    train_held worst_wait in_turn lane_2 none_held""".split()
)
# Lemmas and local names that stand in the way of a definition's new name, and the crates whose proofs have them: they get _lem.
LEMMAS = {
    "any_held": ["pages"],
    "back_end": ["sheet"],
    "by_tests": ["page", "plan"],
    "first_group": ["rules"],
    "given_by": ["table"],
    "in_group": ["rules", "engine"],
    "in_list": ["choice", "lists_test", "filing"],
    "lane_in": ["plan"],
    "line_step": ["answers", "walk"],
    "no_room": ["engine"],
    "not_made": ["zenfrosta"],
    "one_lane": ["sheet"],
    "place_is": ["desk", "journal"],
    "record_is": ["lane_test"],
    "ring_in": ["lists_test"],
    "settled_at": ["engine"],
    "shared_of": ["pages"],
    "size_is": ["page", "plan_writer", "depot", "plan_area"],
    "start_word": ["groups"],
    "two_lanes": ["rules", "session"],
}
# Names that crates of the repository have.
BY_HAND = {"slotLists": "slot_list_count", "laneTest": "test_of_lane", "namedOnce": "is_named_once", "whyIs": "why_of", "at-end": "at_the_end"}
# A field of one crate, whose word is a step of a proof in another.
BY_CRATE = {"scheduler": {"hand-out": "hands_out"}}

main()
