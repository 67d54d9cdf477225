#!/usr/bin/env python3
"""Prints what changed since a commit, old and new: public functions of crates/*/src with their clauses,
definitions of crates/*/specs, and theorems of crates/*/proofs that README or docs/ named at that commit.

Usage: tools/changes.py COMMIT
"""

import glob
import itertools
import os
import re
import subprocess
import sys
import tempfile


def one_line(text):
    return re.sub(r"\s+", " ", text).strip()


def functions(root):
    """(crate, name): of each such function whether it is public, its signature and its clauses."""
    found = {}
    for path in sorted(glob.glob(f"{root}/crates/*/src/*.rt")):
        crate = path[len(root) + 8 :].split("/")[0]
        text = re.sub(r"//[^\n]*", "", open(path).read())
        owner = None
        start = r'(?m)^(\s*)(impl[^{\n]*\{)|^(\s*)(pub )?(extern "C" )?fn (\w+)'
        for match in re.finditer(start, text):
            if match.group(2):
                owner = re.sub(r"impl(<[^>]*>)?\s*", "", match.group(2)).strip(" {")
                owner = re.sub(r"<.*", "", owner)
                continue
            indent = match.group(3).split("\n")[-1]
            opened = text.index("(", match.end())
            depth = 0
            for closed in range(opened, len(text)):
                depth += {"(": 1, ")": -1}.get(text[closed], 0)
                if depth == 0:
                    break
            rest = text[closed + 1 :]
            body = re.search(r"\n" + indent + r"\{|^[^\n]*\{\n", rest)
            own_line = body.group(0).startswith("\n")
            head = rest[: body.start()] if own_line else rest[: body.end() - 2]
            parameters = one_line(text[opened : closed + 1]).replace("( ", "(").replace(", )", ")")
            result = re.split(r"\b(?:requires|ensures|ghost)\b", head)[0].strip()
            signature = one_line(f"{text[match.end():opened]}{parameters} {result}")
            clause = r"\b(requires|ensures)\b\s*(\w+)?\s*\{((?:[^{}]|\{[^{}]*\})*)\}"
            clauses = [
                f"{kind}{' ' + name if name else ''} {{ {one_line(fact)} }}"
                for kind, name, fact in re.findall(clause, head)
            ]
            name = (owner + "::" if indent and owner else "") + match.group(6)
            found.setdefault((crate, name), []).append((bool(match.group(4)), signature, clauses))
    return found


def declarations(root, folder):
    """(crate, name): the public declarations at the margin, without comments."""
    found = {}
    for path in sorted(glob.glob(f"{root}/crates/*/{folder}/*.antt")):
        crate = path[len(root) + 8 :].split("/")[0]
        current = None
        for line in open(path).read().split("\n"):
            if line.strip().startswith("--"):
                continue
            starts = re.match(r"^\s*(?:abbrev |unfoldable )?pub (?!mod |use |open )(?:(?:record|data) )?([^\s:]+)", line)
            margin = not line.startswith(" ")
            if starts and (margin or (folder == "proofs" and re.match(r"^  \S", line))):
                current = (crate, starts.group(1))
                if current in found:
                    current = (crate, f"{starts.group(1)} ({os.path.basename(path)[:-5]})")
                found[current] = [line]
            elif not line.strip():
                current = current if folder == "specs" else None
            elif margin and re.match(r"^(use|mod|pub|open|module|infix|abbrev|unfoldable|data|record)\b", line):
                current = None
            elif current:
                found[current].append(line)
    return {key: one_line(" ".join(lines)) for key, lines in found.items()}


def statement(text):
    """A theorem without its proof."""
    return re.split(r" (?:unfolding|where) | [\w'-]+(?: [^→:]*)? = ", text, maxsplit=1)[0]


def show(title, old, new):
    print(f"`{title}`\n\n```text")
    for line in old:
        if line not in new:
            print("-", line)
    for line in new:
        if line not in old:
            print("+", line)
    print("```\n")


def main():
    commit = sys.argv[1]
    with tempfile.TemporaryDirectory() as before:
        archive = subprocess.run(["git", "archive", commit], check=True, stdout=subprocess.PIPE)
        subprocess.run(["tar", "-x", "-C", before], check=True, input=archive.stdout)

        old, new = functions(before), functions(".")
        print("## Public functions\n")
        for key in sorted(old.keys() | new.keys()):
            gone = [entry for entry in old.get(key, []) if entry not in new.get(key, [])]
            came = [entry for entry in new.get(key, []) if entry not in old.get(key, [])]
            for (was, *a), (now, *b) in itertools.zip_longest(gone, came, fillvalue=(False, None, [])):
                if (was or now) and a != b:
                    show("::".join(key), [x for x in [a[0], *a[1]] if x], [x for x in [b[0], *b[1]] if x])

        old, new = declarations(before, "specs"), declarations(".", "specs")
        print("## Definitions\n")
        for key in sorted(old.keys() | new.keys()):
            if old.get(key) != new.get(key):
                show("::".join(key), [x for x in [old.get(key)] if x], [x for x in [new.get(key)] if x])

        pages = [f"{before}/README.md", *glob.glob(f"{before}/docs/**/*.md", recursive=True)]
        named = set(re.findall(r"`([^`\s]+)`", "".join(open(page).read() for page in pages)))
        old, new = declarations(before, "proofs"), declarations(".", "proofs")
        print("## Theorems that a page named\n")
        for key in sorted(old):
            a, b = statement(old[key]), statement(new.get(key, ""))
            if key[1] in named and a != b:
                show("::".join(key), [a], [b] if b else [])


if __name__ == "__main__":
    main()
