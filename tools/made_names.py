#!/usr/bin/env python3
"""In answers and invariants, spells the source's names as the source has them, inside the names that the checker makes.

usage: python3 tools/made_names.py     at the top of the repository
"""

import re
from pathlib import Path

MADE = ("Answers.antt", "Invariants.antt")


def main():
    for crate in sorted(p for p in Path("crates").iterdir() if p.is_dir()):
        words = {"in-default": "in_default", "is-empty": "is_empty", "as-bytes": "as_bytes", "type-inv": "type_inv"}
        for source in crate.rglob("src/*.rt"):
            for name in re.findall(r"[A-Za-z]\w*_\w+", source.read_text()):
                words[name.replace("_", "-")] = name
        words = {old: new for old, new in words.items() if old != new}
        if not words:
            continue
        # in a token with a dash; the longest word first
        inner = re.compile(r"(?<![A-Za-z0-9_])(" + "|".join(sorted(map(re.escape, words), key=len, reverse=True)) + r")(?![A-Za-z0-9_])")
        for path in crate.rglob("proofs/**/*.antt"):
            if path.name not in MADE or "out" in path.parts:
                continue
            text = path.read_text()
            new = inner.sub(lambda found: words[found.group(1)], text)
            if new != text:
                path.write_text(new)
                print(path)


main()
