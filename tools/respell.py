#!/usr/bin/env python3
"""Brings the repository's own names in antt to today's spelling: once, right after the kit's port.py.

usage: tools/respell.py [--list]        at the top of the checkout; --list prints old and new names and writes nothing

A function, lemma, field or constructor is spelled in snake case. A dash stays between two names, as in `length-overwrite`; a plain
word hangs on by `_`, as in `widest_more`. Types, modules, local names, names of the kit and all names of src/ stay. A new name that
another name has already stops the script, so that no two names fall together.
"""

import os
import re
import sys
from collections import Counter

CRATES = "crates"
# What stands in a name of antt: all but blanks, brackets and a few marks.
TOKEN = re.compile(r"[^\s(){}\[\].,;:\"`⟦⟧⌜⌝«»|]+")
MARKS = r"(?:(?:abbrev|pub|unfoldable|pattern|axiom) )*"
DECLARED = re.compile(rf"^\s*{MARKS}([^\s(){{}}.,;:λ\"]+)(?: \{{[^}}]*\}})* : ")
USE = re.compile(r"^\s*(?:pub )?(?:ghost )?use ([\w.·'-]+)\.\{([^}]*)\}", re.M)
# Functions, constructors and words of the kit that names are joined from.
WORDS = set(
    """length take drop append map set reverse sum get_or zero suc cons nil add sub mul div mod min max le lt ge gt eq true false not and or if
    cond mem head tail snoc refl sym ap concat replicate filter all any fst snd inl inr neg abs pos int nat bool list ltb leb beq eqb""".split()
)
# Lemmas whose name would be that of a function in the new spelling: `_lem`, and the crates whose files name them.
LEMMAS = {
    "goes_on": ("small_trees", "goes_on_lem"),
    "is_digit": ("newick", "is_digit_lem"),
    "last_one": ("slack", "last_one_lem"),
    "number_read": ("writer", "number_read_lem"),
    "row_word": ("sheet writer", "row_word_lem"),
    "same_point": ("plots", "same_point_lem"),
    "same_set": ("plots trees_of_dots", "same_set_lem"),
}
TURNED = {
    "comes-before": "comes_before_lem",
    "in-range": "in_range_lem",
    "label-at": "label_at_lem",
    "same-shape": "same_shape_lem",
    "start-at": "start_at_lem",
    "getD-joined": "get_or-joined",
    "getD-whole": "get_or_whole",
    "getD-within": "get_or_within",
    "getD-zeros": "get_or_zeros",
    "outer-left": "outer_left_holds",
    "outer-right": "outer_right_holds",
}
# Not names of the repository's own definitions, though they look like one.
KEPT = {"let", "use", "module", "in", "where"}


def files(root):
    for folder, dirs, names in os.walk(os.path.join(root, CRATES)):
        dirs[:] = sorted(d for d in dirs if d != "out")
        for name in sorted(names):
            if name.endswith((".rt", ".antt", ".edit")):
                yield os.path.join(folder, name)


def pages(root):
    yield os.path.join(root, "README.md")
    for folder, dirs, names in os.walk(os.path.join(root, "docs")):
        for name in sorted(names):
            if name.endswith(".md"):
                yield os.path.join(folder, name)


def read(path):
    with open(path, encoding="utf-8") as f:
        return f.read()


def uncommented(text):
    return "\n".join(l.split("--")[0] for l in text.split("\n"))


def snake(word):
    """`halfWidth` as `half_width`; a name that begins with a capital is a type's, or a constant of src/, and stays."""
    if word[:1].isupper():
        return word
    return re.sub(r"(?<=[a-z0-9])([A-Z])", lambda m: "_" + m.group(1).lower(), word)


def spelled(name, names):
    """The name with a dash between two names, and `_` elsewhere."""
    parts = [snake(p) for p in name.split("-")]
    if "" in parts or len(parts) == 1:
        return "-".join(parts)
    groups, at = [], 0
    while at < len(parts):
        end = next((e for e in range(len(parts), at, -1) if "_".join(parts[at:e]) in names), 0)
        groups.append(("_".join(parts[at : end or at + 1]), bool(end)))
        at = end or at + 1
    made = groups[0][0]
    for (_, before), (word, here) in zip(groups, groups[1:]):
        made += ("-" if before and here else "_") + word
    return made


def main(argv):
    root = os.getcwd()
    texts = {p: read(p) for p in files(root)}
    own = {c for c in os.listdir(os.path.join(root, CRATES))}
    declared, defined, kit = set(), set(), set()
    for path, text in texts.items():
        for module, names in USE.findall(text):
            if not re.match(rf"Rattle\.({'|'.join(own)})\b", module):
                kit |= {n.split(" as ")[0].strip() for n in names.split(",")}
        if path.endswith(".antt") and not path.endswith("/Proof.antt"):
            for line in text.split("\n"):
                m = DECLARED.match(line)
                if m and m.group(1) not in KEPT:
                    declared.add(m.group(1))
                    if "/specs/" in path:
                        defined.add(m.group(1))
    names = WORDS | {snake(n) for n in defined if "-" not in n} | {snake(n) for n in declared if not re.search("[-]", n)}
    turned = {n: spelled(n, names) for n in sorted(declared - kit)}
    turned = {a: TURNED.get(a, b) for a, b in turned.items() if a != b}
    made = Counter(turned.values())
    turned = {a: b + "_lem" if made[b] > 1 and "-" in a else b for a, b in turned.items()}
    for path, text in texts.items():
        for a, (crates, b) in LEMMAS.items():
            if any(f"/{crate}/" in path for crate in crates.split()) and path.endswith(".antt") and not path.endswith("/Proof.antt"):
                text = TOKEN.sub(lambda m: b if m.group() == a else m.group(), text)
        texts[path] = text
    # A definition may have the name of the function of src/ that it is the meaning of.
    seen = {t for path, text in texts.items() if path.endswith(".antt") and not path.endswith("/Proof.antt") for t in TOKEN.findall(uncommented(text))}
    clash = [f"{a} -> {b}" for a, b in turned.items() if (b in seen or b in kit) and a not in ("outerLeft", "outerRight")]
    twice = [b for b, k in Counter(turned.values()).items() if k > 1]
    if clash or twice:
        print("taken already:", *clash, sep="\n  ")
        print("fall together:", *twice, sep="\n  ")
    if "--list" in argv:
        for a, b in turned.items():
            print(a, b)
        return 0
    if clash or twice:
        return 1
    for path in [*texts, *pages(root)]:
        turn = lambda text: TOKEN.sub(lambda m: turned.get(m.group(), m.group()), text)
        spans = lambda text: re.sub(r"`[^`\n]+`", lambda m: turn(m.group()), text)
        if path in texts:
            mark = "//" if path.endswith(".rt") else "--"
            new = "\n".join(turn(code) + spans(sep + said) for code, sep, said in (l.partition(mark) for l in texts[path].split("\n")))
        else:
            new = spans(read(path))
        if new != read(path):
            with open(path, "w", encoding="utf-8") as f:
                f.write(new)
    print(f"{len(turned)} names respelled")
    return 0


if __name__ == "__main__":
    raise SystemExit(main(sys.argv[1:]))
