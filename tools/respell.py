#!/usr/bin/env python3
"""Respells this repository's own names in specs/ and proofs/: facts and types in upper camel case, all else in snake case.

usage: tools/respell.py [--list]      at the top of the repository; --list prints the names and changes nothing

A name is the repository's own if a file of crates/*/specs or crates/*/proofs defines it: at the head of a signature, as a
field or as a constructor. Names that the checker makes of the code (loop-i-preserved) keep their dashes. A new name that
two old ones would share, or that already stands in some file, is printed to be looked at; the files are written all the same.
"""

import pathlib
import re
import sys

WORD = r"[^\s(){};,.`«»:\"]+"
DEFINES = re.compile(r"^\s*(?:pub\s+|abbrev\s+|unfoldable\s+|record\s+|data\s+)*(" + WORD + r")(?:\s[^:]*)?\s:\s")
FIELD_OR_CASE = re.compile(r"^\s+(?:pub\s+|\|\s*)?(" + WORD + r")\s:\s")


def new_name(name):
    if name[0].isupper():
        return "".join(part[:1].upper() + part[1:] for part in name.split("-"))
    return name.replace("-", "_")


def respellable(name):
    return re.fullmatch(r"[A-Za-z][A-Za-z0-9_']*(-[A-Za-z0-9_']+)+", name) is not None


def lemma_files(root):
    for kind in ("specs", "proofs"):
        for f in sorted(root.glob(f"crates/*/{kind}/*.antt")):
            yield f


def own_names(root):
    own = set()
    for f in lemma_files(root):
        for line in f.read_text(encoding="utf-8").split("\n"):
            for form in (DEFINES, FIELD_OR_CASE):
                m = form.match(line)
                if m and respellable(m.group(1)):
                    own.add(m.group(1))
    return own


def replacer(names):
    longest_first = sorted(names, key=len, reverse=True)
    if not longest_first:
        return lambda text: text
    edge = r"[A-Za-z0-9_'\-]"
    form = re.compile(rf"(?<!{edge})(?:" + "|".join(map(re.escape, longest_first)) + rf")(?!{edge})")
    return lambda text: form.sub(lambda m: new_name(m.group(0)), text)


def fall_together(root, names):
    """New names that a file of the repository already has as another word."""
    taken = {}
    for f in [*root.glob("crates/*/specs/**/*.antt"), *root.glob("crates/*/proofs/**/*.antt")]:
        for word in re.findall(r"[A-Za-z][A-Za-z0-9_'\-]*", f.read_text(encoding="utf-8")):
            taken.setdefault(word, set()).add(str(f.relative_to(root)))
    seen, clash = {}, []
    for n in sorted(names):
        new = new_name(n)
        if new in seen:
            clash.append(f"{n} and {seen[new]} both become {new}")
        seen[new] = n
        if new in taken and not (taken[new] <= {"-"}):
            clash.append(f"{n} becomes {new}, which stands in {', '.join(sorted(taken[new])[:4])}")
    return clash


def main(argv):
    root = pathlib.Path.cwd()
    names = own_names(root)
    if argv == ["--list"]:
        print("\n".join(f"{n} {new_name(n)}" for n in sorted(names)))
        return 0
    for line in fall_together(root, names):
        print("look:", line)
    respell = replacer(names)
    changed = 0
    for f in sorted(root.glob("crates/*/**/*")):
        if f.suffix not in (".antt", ".rt", ".edit") or "out" in f.parts:
            continue
        text = f.read_text(encoding="utf-8")
        new = respell(text)
        if new != text:
            f.write_text(new, encoding="utf-8")
            changed += 1
    for f in [root / "README.md", *sorted((root / "docs").glob("*.md"))]:
        if not f.is_file() or f.name.startswith("PORT"):
            continue
        text = f.read_text(encoding="utf-8")
        new = re.sub(r"`[^`\n]+`", lambda m: respell(m.group(0)), text)
        if new != text:
            f.write_text(new, encoding="utf-8")
            changed += 1
    print(f"respell: {len(names)} names, {changed} files changed")
    return 0


if __name__ == "__main__":
    raise SystemExit(main(sys.argv[1:]))
