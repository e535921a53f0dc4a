#!/usr/bin/env python3
"""Brings the names of definitions, lemmas, fields and constructors of specs/ and proofs/ to snake case.

usage: python3 tools/snake_case.py [--list]     at the top of the repository; --list only prints the names

A name in lower camel case or with a dash becomes one in snake case, a type with a dash one in upper camel case. The names
that the checker makes (goals, steps and their fields) stay. It stops where two names would fall together.
"""

import re
import sys
from pathlib import Path

HEAD = re.compile(r"(?:pub |abbrev |unfoldable )*(record |data )?([^\s(){}:.,;]+)(?= |$)[^=]*?:(?!=)")
FIELD = re.compile(r"\s+(?:pub )?([^\s(){}:.,;=]+) :(?!=)")
CASE = re.compile(r"\s*\|\s*([^\s(){}:.,;=]+) :(?!=)")
SKIP = ("use ", "pub use ", "pub mod ", "mod ", "unfolding", "ruleset", "--", "where")
EDGE = r"[\w'◌·-]"

# lemmas whose names would fall together with the definition that they speak of
OWN = {
    "found-at": "found_at_lem",
    "admits-any": "admits_any_lem",
}
# the same, where the lemma has the name already: (file, name, new name)
FIRST = [
    ("crates/laws/proofs/Checks.antt", "in_order", "in_order_lem"),
    ("crates/laws/proofs/Behaviour.antt", "put_byte", "put_byte_lem"),
    ("crates/laws/proofs/Behaviour.antt", "put_word", "put_word_lem"),
]


def snake(name):
    words = re.sub(r"(?<=[a-z0-9])(?=[A-Z])", "_", name.replace("-", "_"))
    return words.lower()


def turned(name, kind):
    if name in OWN:
        return OWN[name]
    if name[0].isupper():
        return "".join(w[:1].upper() + w[1:] for w in name.split("-"))
    return snake(name)


def is_answer(path):
    return path.name in ("Answers.antt", "Invariants.antt", "Choices.antt", "Proof.antt")


def declared(path):
    for line in path.read_text().splitlines():
        if line.startswith(SKIP) or not line.strip() or line.lstrip().startswith("--"):
            continue
        found = CASE.match(line) or (FIELD.match(line) if line[0].isspace() else HEAD.match(line))
        if not found:
            continue
        if is_answer(path) and (line[0].isspace() or re.search(r":\s*(goal|need)\.", line)):
            continue
        yield found.groups()[-1]


def main():
    root = Path("crates")
    for file, name, new in FIRST:
        path = Path(file)
        if path.exists() and "--list" not in sys.argv:
            path.write_text(re.sub(rf"(?<!{EDGE}){name}(?!{EDGE})", new, path.read_text()))
    antt = sorted(p for p in root.rglob("*.antt") if "out" not in p.parts)
    others = sorted(p for p in root.rglob("*.rt") if "out" not in p.parts) + sorted(root.rglob("must-fail/*.edit"))
    every = set()
    for path in antt:
        every |= set(declared(path))
    names = {}
    for name in sorted(every):
        new = turned(name, None)
        if new != name and re.fullmatch(r"[A-Za-z0-9_'-]+", name):
            names[name] = new
    taken = {}
    for name in sorted(every):
        taken.setdefault(names.get(name, name), []).append(name)
    clash = {new: olds for new, olds in taken.items() if len(olds) > 1}
    if "--list" in sys.argv:
        for old, new in names.items():
            print(old, new)
    for new, olds in clash.items():
        print(f"fall together: {', '.join(olds)} as {new}", file=sys.stderr)
    if clash or "--list" in sys.argv:
        return 1 if clash else 0
    pattern = re.compile(rf"(?<!{EDGE})(" + "|".join(sorted(map(re.escape, names), key=len, reverse=True)) + rf")(?!{EDGE})")
    changed = 0
    for path in antt + others:
        text = path.read_text()
        made = is_answer(path)

        def put(found):
            before = text[: found.start()]
            # a step or a goal that the checker named
            if made and "-" in found.group(1) and re.search(r"(?:\b(?:goal|need|c|l|w)(?:\.[\w-]+)*)\.$", before):
                return found.group(1)
            return names[found.group(1)]

        new = pattern.sub(put, text)
        if new != text:
            path.write_text(new)
            changed += 1
    print(f"{len(names)} names, {changed} files")
    return 0


if __name__ == "__main__":
    sys.exit(main())
