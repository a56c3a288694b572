#!/usr/bin/env python3
"""Brings the repository's own names to snake case in specs, proofs, clauses and must-fail edits.

usage: tools/spell.py         at the top of the repository, once, after port.py: rewrites the files below crates/
       tools/spell.py --list  prints 'old new' for each name, and each file where a new name stood already

Words are in snake case: humps become underscores, and in a field or definition of specs/ a dash does too. Names of lemmas keep their
dashes. Comments keep their words. What the code declares (functions, fields, variants) is in snake case or begins with a capital, and stays.
"""

import os
import re
import sys

WORD = re.compile(r"[A-Za-z_][\w'-]*")
DECLARED = re.compile(r"^\s*(?:abbrev\s+)?(?:unfoldable\s+)?(?:pub\s+)?([A-Za-z_][\w'-]*)\s*(?:\{[^}]*\}\s*)?:\s")

# Lemmas that port.py gave the names that definitions get here.
LEMMAS = {"same_int": "same_int-told", "is_read": "is_read-told", "pair_fits": "pair_fits-told", "row_made": "row_made-told", "step_fits": "step_fits-told"}


def files():
    for folder, dirs, names in os.walk("crates"):
        dirs[:] = sorted(d for d in dirs if d != "out")
        for name in sorted(names):
            if name.endswith((".rt", ".antt", ".edit")):
                yield os.path.join(folder, name)


def code_and_comment(line, path):
    mark = "//" if path.endswith(".rt") else "--"
    found = re.search(r"(^|\s)" + mark + r"(\s|$)", line)
    return (line, "") if not found else (line[: found.start()], line[found.start() :])


def snake(part):
    part = re.sub(r"([a-z0-9])([A-Z])", r"\1_\2", part)
    part = re.sub(r"([A-Z])([A-Z][a-z])", r"\1_\2", part)
    return part.lower()


def respelled(word):
    return "-".join(snake(p) if re.match(r"[a-z]", p) and re.search("[A-Z]", p) and "_" not in p else p for p in word.split("-"))


def renamings(texts):
    found = {}
    for path, text in texts.items():
        if path.endswith(".edit"):
            continue
        for line in text.split("\n"):
            code = code_and_comment(line, path)[0]
            for word in WORD.findall(code):
                new = respelled(word)
                if new != word:
                    found[word] = new
            here = DECLARED.match(code)
            if here and "/specs/" in path and "-" in here.group(1):
                found[here.group(1)] = respelled(here.group(1)).replace("-", "_")
            found.update((word, LEMMAS[word]) for word in WORD.findall(code) if word in LEMMAS and path.endswith(".antt"))
    return found


def main(argv):
    texts = {}
    for path in files():
        with open(path, encoding="utf-8") as f:
            texts[path] = f.read()
    names = renamings(texts)
    if argv == ["--list"]:
        for old, new in sorted(names.items()):
            print(old, new)
        for path, text in texts.items():
            words = set(WORD.findall("\n".join(code_and_comment(l, path)[0] for l in text.split("\n"))))
            for old in sorted(words & names.keys()):
                if names[old] in words:
                    print("both:", path, old, names[old])
        return 0
    if argv:
        print(__doc__)
        return 2
    for path, text in texts.items():
        lines = []
        for line in text.split("\n"):
            code, comment = code_and_comment(line, path)
            lines.append(WORD.sub(lambda m: names.get(m.group(0), m.group(0)), code) + comment)
        new = "\n".join(lines)
        if new != text:
            with open(path, "w", encoding="utf-8") as f:
                f.write(new)
    return 0


if __name__ == "__main__":
    raise SystemExit(main(sys.argv[1:]))
