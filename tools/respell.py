#!/usr/bin/env python3
"""Gives the repository's own definitions and lemmas the spelling of the library's words: snake case, types in camel case.

usage: python3 tools/respell.py        at the top of the repository, once, after the toolchain's own script for older repositories

A name is the repository's own where a file of specs/ or a lemma file of proofs/ declares it. Names that the toolchain makes for
the goals of a function stay, and so do names that a file takes from the library, functions of src/, strings, and must-fail edits.
Two names that would fall together, and names that a source file or the library has already, are told, and nothing is written.
"""

import os
import re
import sys

TOKEN = re.compile(r"[A-Za-zΑ-Ωα-ω_'][A-Za-z0-9Α-Ωα-ω_'-]*")
USE = re.compile(r"^\s*(?:pub )?use\s+(\S+?)\.\{([^}]*)\}|^\s*ghost use\s+(\S+?)\.\{([^}]*)\}", re.M)
DECLARED = re.compile(r"(?:^|[\s({;])(?:abbrev |unfoldable )?(?:pub )?((?:◌?[A-Za-zΑ-Ωα-ω_'][A-Za-z0-9Α-Ωα-ω_'-]*◌?\s+)+):(?=\s)", re.M)
BOUND = re.compile(r"λ\s+\(?((?:[\w'-]+\s*)+)[.:]|\blet\s+([\w'-]+)")
# these were looked at: a method, functions of crates that don't cite the word, and an operator whose uses were respelled already
LOOKED_AT = {"wire_count", "all_values", "gate_in", "gate_value", "and_then"}
# names that would fall together with another, or with a function of src/ whose contract cites them
BY_HAND = {
    "all_held": "all_held_there",
    "by-colour": "by_colour_complete",
    "by_value": "by_value_complete",
    "coin-of": "coin_of_bit",
    "colour-of": "seen_colour",
    "first-half": "first_half_is",
    "firstDifference": "first_differing",
    "four-words": "four_words_are",
    "gate-in": "gate_in_is",
    "keyWords": "words_of_key",
    "keys-back": "keys_are_back",
    "keysIn": "keys_told",
    "line-back": "line_is_back",
    "no-gate": "no_gates",
    "no-wire": "no_wire_blocks",
    "none-set": "none_set_all",
    "paired-coins": "paired_coins_are",
    "pairedCoins": "coins_of_pair",
    "place-in": "place_in_is",
    "rows-by-value": "misses_rows_by_value",
    "seen-at": "seen_at_place",
    "with-inner-meanings": "misses_with_inner_meanings",
    "without-coins": "misses_without_coins",
    "without-numbers": "misses_without_numbers",
    "withoutEnd": "line_without_end",
}


def snake(name):
    if name in BY_HAND:
        return BY_HAND[name]
    if name[:1].isupper() and "-" in name:
        return "".join(w[:1].upper() + w[1:] for w in name.split("-"))
    if name[:1].isupper():
        return name
    name = re.sub(r"(?<=[a-z0-9'])(?=[A-Z])", "_", name.replace("-", "_"))
    return "_".join(w.lower() if re.fullmatch(r"[A-Z][a-z0-9']*", w) else w for w in name.split("_"))


def texts(endings):
    for folder, dirs, files in os.walk("crates"):
        dirs[:] = sorted(d for d in dirs if d != "out")
        for f in sorted(files):
            if f.endswith(endings):
                yield os.path.join(folder, f)


def is_lemma_file(path):
    parts = path.split(os.sep)
    return parts[2] == "specs" or (parts[2] == "proofs" and len(parts) == 4)


def code(text):
    return re.sub(r"(^|\s)--[^\n]*", r"\1", text)


def foreign(text):
    """The names that a file takes from elsewhere than this repository."""
    found = set()
    for a, b, c, d in USE.findall(text):
        path, names = (a or c), (b or d)
        parts = path.split(".")
        if not (parts[0] == "Rattle" and len(parts) > 1 and os.path.isdir(os.path.join("crates", parts[1]))):
            for n in names.split(","):
                found.update(w.strip().strip("◌") for w in n.split(" as "))
    return found


def main():
    own, taken, words = set(), set(), {}
    for path in texts((".antt",)):
        with open(path) as f:
            text = code(f.read())
        outside = foreign(text)
        taken |= outside
        words[path] = set(TOKEN.findall(text))
        if is_lemma_file(path):
            for names in DECLARED.findall(text):
                own |= {n.strip("◌") for n in names.split()} - outside
            for a, b in BOUND.findall(text):
                own |= set((a + " " + b).split()) - outside
    made = {n for n in own if snake(n) != n}
    turned = {n: snake(n) for n in made}
    back = {}
    for old, new in turned.items():
        back.setdefault(new, set()).add(old)
    functions = {}
    for path in texts((".rt",)):
        with open(path) as f:
            for name in re.findall(r"\bfn (\w+)", f.read()):
                functions.setdefault(name, set()).add(path)
    wrong = [f"a function: {turned[old]} in {' '.join(sorted(functions[turned[old]]))}" for old in sorted(made) if turned[old] in functions and turned[old] not in LOOKED_AT]
    wrong += [f"fall together: {new}: {' '.join(sorted(olds))}" for new, olds in back.items() if len(olds) > 1]
    for path, found in words.items():
        for old in sorted(found & made):
            if turned[old] in found and turned[old] not in made | LOOKED_AT:
                wrong.append(f"{path}: {old} -> {turned[old]} stands there already")
    if wrong:
        print("\n".join(wrong))
        raise SystemExit(1)
    for path in texts((".antt", ".rt")):
        with open(path) as f:
            text = f.read()
        outside = foreign(text)

        def turn(m):
            w = m.group(0)
            return turned.get(w, w) if w not in outside else w

        if path.endswith(".rt"):
            # a source line changes only in its clauses, ghost lines and comments, and there only names that Rust would not write
            turned_text = "".join(
                line if '"' in line else TOKEN.sub(lambda m: turned.get(m.group(0), m.group(0)) if re.search(r"[a-z0-9'][A-Z]|-", m.group(0)) and not m.group(0)[0].isupper() else m.group(0), line)
                for line in text.splitlines(True)
            )
        else:
            turned_text = TOKEN.sub(turn, text)
        if turned_text != text:
            with open(path, "w") as f:
                f.write(turned_text)
    for old in sorted(turned):
        print(f"{old} {turned[old]}")


main()
