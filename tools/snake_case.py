#!/usr/bin/env python3
"""Spells this repository's own definitions, lemmas, fields and constructors in snake case.

usage: tools/snake_case.py [ROOT]      in place, over crates/*/{src,specs,proofs,must-fail} below ROOT

Run it once, after the toolchain's own script for older repositories, on what that script left.

A name of ours with a dash, as in rule-at, becomes rule_at. Names that the toolchain makes (goals,
steps and invariants, as in returns-in_err) and names of the library keep their dashes. A name is ours
if a file of ours binds it: before a colon, by let or by a lambda. Prints what it did not touch
although it looks alike, and names that fall together; exits with 1 if any do.
"""

import collections
import glob
import os
import re
import sys

NAME = r"[A-Za-z][A-Za-z0-9_'₀-₉]*(?:-[A-Za-z0-9_'₀-₉]+)+"
TOKEN = re.compile(r"(?<![A-Za-z0-9_'◌₀-₉-])(" + NAME + r")(?![A-Za-z0-9_'◌₀-₉-])")
MADE = re.compile(r"^(?:abbrev )?(?:pub )?(?:abbrev )?(" + NAME + r") : goal\.", re.M)
BOUND = [
    re.compile(r"(?:^|[({]|\blet |\bpub |\babbrev |\bunfoldable )\s*((?:[A-Za-z_][\w'₀-₉-]*\s+)*[A-Za-z_][\w'₀-₉-]*)\s+:(?=\s)", re.M),
    re.compile(r"\blet ([A-Za-z][\w'₀-₉-]*) ="),
    re.compile(r"λ ((?:[A-Za-z_][\w'₀-₉-]*\s*)+)\."),
    re.compile(r"\b(?:data|record) ([A-Za-z][\w'₀-₉-]*)"),
    re.compile(r"\bas ([A-Za-z][\w'₀-₉-]*)"),
]
# Words of the language that also name something: in a comment they stay as they are.
ENGLISH = re.compile(r"\b(hand|left|built|in|first)_(ins|in|over|order|met)\b")
KEYWORDS = {"pub", "abbrev", "unfoldable", "let", "in", "module", "where", "record", "data"}


def read(path):
    with open(path, encoding="utf-8") as f:
        return f.read()


def uncommented(text):
    return re.sub(r"--.*", "", text)


def ours(files):
    bound, made = collections.Counter(), set()
    for path in files:
        if not path.endswith(".antt"):
            continue
        text = uncommented(read(path))
        made |= set(MADE.findall(text))
        for pattern in BOUND:
            for names in pattern.findall(text):
                for name in names.split():
                    if "-" in name and name not in KEYWORDS:
                        bound[name] += 1
    foreign = set()
    for path in files:
        for line in re.findall(r"use ([^;\n]*)", read(path)):
            if re.match(r"(Rattle\.std\.|borrow\.|denote\.|mir\.|native\.|mathlib\.|lib\.|ghost\.|Prim\.)", line):
                foreign |= set(TOKEN.findall(re.sub(r"(\S+) as (\S+)", r"\1", line)))
    return {n for n in bound if re.fullmatch(NAME, n)} - made - foreign, made, foreign


def source_names(root):
    names = set()
    for path in glob.glob(os.path.join(root, "crates", "*", "src", "**", "*.rt"), recursive=True):
        names |= set(re.findall(r"\b[A-Za-z][A-Za-z0-9]*(?:_[A-Za-z0-9]+)+\b", re.sub(r"(?m)^\s*(//|ghost use|ensures|requires).*", "", read(path))))
    for known in ("push_reserved", "as_slice", "from_residual", "saturating_sub", "saturating_add", "is_empty", "last_mut", "with_capacity", "unwrap_or", "swap_remove"):
        names.add(known)
    return names


def keep_source_names(root, files):
    """In goals and steps a name from the sources is spelled as there: if-not-is-blank is if-not-is_blank."""
    dashed = {n.replace("_", "-"): n for n in source_names(root)}
    some = re.compile("|".join(sorted(map(re.escape, dashed), key=len, reverse=True)))
    part = re.compile(r"(?:(?<=^)|(?<=-))(?:" + some.pattern + r")(?=-|$|\d*$)")
    for path in files:
        if not path.endswith(("Answers.antt", "Invariants.antt", "Proof.antt")):
            continue
        text = read(path)
        made = set(MADE.findall(text))

        def kept(m):
            name, before = m.group(1), text[: m.start()]
            step = before.endswith(".") and re.search(r"([A-Za-z][\w'₀-₉-]*)(?:\.[\w'₀-₉-]+)*\.$", before)
            if name in made or (step and step.group(1) in ("c", "w", "l", "goal", "need", "given")) or before.rstrip().endswith("Goals.{"):
                return part.sub(lambda q: dashed[q.group(0)], name)
            return name

        new = TOKEN.sub(kept, text)
        if new != text:
            with open(path, "w", encoding="utf-8") as f:
                f.write(new)


def main():
    root = sys.argv[1] if len(sys.argv) > 1 else os.path.join(os.path.dirname(os.path.abspath(__file__)), "..")
    files = []
    for part in ("specs", "proofs", "src", "must-fail"):
        for end in ("antt", "rt", "edit"):
            files += glob.glob(os.path.join(root, "crates", "*", part, "**", "*." + end), recursive=True)
    files = sorted(set(files))
    names, made, foreign = ours(files)
    left, together = collections.Counter(), []
    for path in files:
        text = read(path)
        tokens = set(re.findall(r"(?<![\w'-])[A-Za-z_][\w'₀-₉-]*", text))
        here = set(TOKEN.findall(text)) & names
        for name in here:
            if name.replace("-", "_") in tokens:
                together.append((os.path.relpath(path, root), name))

        def turned(m):
            name = m.group(1)
            if name not in names:
                if name not in made and name not in foreign and path.endswith(".antt"):
                    left[name] += 1
                return name
            before = text[: m.start()]
            if before.endswith("."):
                head = re.search(r"([A-Za-z][\w'₀-₉-]*)(?:\.[\w'₀-₉-]+)*\.$", before)
                if head and head.group(1) in ("c", "w", "l", "goal", "need", "given"):
                    left["." + name] += 1
                    return name
            return name.replace("-", "_")

        new = TOKEN.sub(turned, text)
        new = re.sub(r"(?m)^(\s*(?:--|//[/!]?) ?)(\s{3,}\S.*?\s{2,})?(.*)$", lambda m: m.group(1) + (m.group(2) or "") + ENGLISH.sub(r"\1-\2", m.group(3)), new)
        if new != text:
            with open(path, "w", encoding="utf-8") as f:
                f.write(new)
    keep_source_names(root, files)
    print(f"{len(names)} names of ours are in snake case now")
    print("left:", ", ".join(f"{n} ({k})" for n, k in sorted(left.items())))
    for path, name in together:
        print(f"falls together: {name} in {path}")
    return 1 if together else 0


if __name__ == "__main__":
    raise SystemExit(main())
