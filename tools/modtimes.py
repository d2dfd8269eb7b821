#!/usr/bin/env python3
"""modtimes.py FOLDER [N]: what a check spent its seconds on, by module, by function or lemma file, and by kind.

FOLDER is the out/incremental of a crate that was checked from nothing with --jobs 1: the prover saves each module as
soon as it is checked, so the time between two saves is that of the second module. A function F has the modules F.Lts
(the steps of its code), F.Kinds and F.Tie (its borrows), F.Proof (its goals) and F.Answers. The N dearest are printed.
"""

import collections
import os
import re
import sys
from typing import Counter, List, Tuple

PARTS = ("Lts", "Kinds", "Tie", "Proof", "Answers", "Invariants", "Code", "Statement", "Met", "Key", "Goals", "Borrow")


def saved_modules(folder: str) -> List[Tuple[float, str]]:
    """The time at which each module was saved, and its name, in the order of time."""
    found = []
    for at, _, files in os.walk(folder):
        for name in files:
            if name.endswith(".oantt"):
                found.append((os.stat(f"{at}/{name}").st_mtime, name.removesuffix(".oantt")))
    return sorted(found)


def parts_of(module: str) -> Tuple[str, str]:
    """The function or lemma file of a module, and which part of it the module is."""
    names = module.removesuffix(".decls").split(".")
    if names[-1] in PARTS:
        return ".".join(names[:-1]), names[-1]
    return ".".join(names), "lemmas" if re.search(r"[-.](proofs|specs)\b", module) else "other"


def print_sums(title: str, sums: Counter[str], count: int) -> None:
    """Prints the greatest sums."""
    print(f"-- {title}")
    for name, seconds in sums.most_common(count):
        print(f"{seconds:8.2f} {name}")


def main() -> int:
    if len(sys.argv) < 2:
        print(__doc__.splitlines()[0], file=sys.stderr)
        return 1
    count = int(sys.argv[2]) if len(sys.argv) > 2 else 25
    saved = saved_modules(sys.argv[1])
    if not saved:
        print(f"no checked module in {sys.argv[1]}", file=sys.stderr)
        return 1
    modules: Counter[str] = collections.Counter()
    owners: Counter[str] = collections.Counter()
    kinds: Counter[str] = collections.Counter()
    for (before, _), (now, module) in zip(saved, saved[1:]):
        owner, kind = parts_of(module)
        modules[module] += now - before
        owners[owner] += now - before
        kinds[kind] += now - before
    print(f"{len(saved)} modules, {saved[-1][0] - saved[0][0]:.1f} s by the clock")
    print_sums("modules", modules, count)
    print_sums("functions and lemma files", owners, count)
    print_sums("kinds", kinds, count)
    return 0


if __name__ == "__main__":
    sys.exit(main())
