#!/usr/bin/env python3
"""Names, for each clause of a function that has answers, the lemmas that they cite, and the files where these stand.

    tools/clauses.py            writes docs/clauses.md, which is not committed; look it up there by the function's name
    tools/clauses.py --check    writes nothing: whether all answers can be read so; the status is 1 where some cannot

A clause without a row is proved by the prover's own search, or by an answer that cites no lemma of the repository.
"""
import pathlib
import re
import sys
from typing import Container, Dict, Iterator, List, Mapping, Tuple

ROOT = pathlib.Path(__file__).resolve().parent.parent
OUT = ROOT / "docs" / "clauses.md"
IDENTIFIER = re.compile(r"[^\W\d][\w'-]*(?:₁|₂|₃)?")

HEAD = """# Clauses and their lemmas

Where the proof of a clause is. This file is written by `tools/clauses.py` from the proofs, and not committed. A
function's answers stand in `crates/CRATE/proofs`, in a folder with its path: those of `Device::step` are
`crates/tx_engine/proofs/device/Device/step/Answers.antt`. For each clause that they prove this names the lemmas that
they cite, and the files where these stand, in the same `proofs` where no crate is named. A field of a clause that is a
record is named behind its clause, or alone where the function has one clause. `invariant` is that of a type, `ensures`
a clause without a name, and `loops and conditions` are what else is shown: invariants of loops, and what the calls of
the function ask for. What the prover's own search finds has no row, nor has what an answer shows by the clauses of its
calls alone.
"""


def imports(text: str) -> Dict[str, str]:
    """The names that an answers file imports from lemma files, each with its file."""
    found: Dict[str, str] = {}
    for module, names in re.findall(r"^use Rattle\.([\w.]+)\.\{([^}]*)\}", text, re.M):
        parts = module.split(".")
        if len(parts) < 3 or parts[1] != "proofs":
            continue
        file = "crates/%s/proofs/%s.antt" % (parts[0], "/".join(parts[2:]))
        if (ROOT / file).exists():
            # what a crate's Common.antt passes on stands where that has it from
            text_there = (ROOT / file).read_text().replace("unfoldable pub use ", "use ").replace("pub use ", "use ")
            passed = imports(text_there) if parts[-1] == "Common" else None
            for name in names.split(","):
                name = name.split(" as ")[-1].strip()
                if passed is None:
                    found[name] = file
                elif name in passed:
                    found[name] = passed[name]
    return found


def declarations(text: str) -> Dict[str, str]:
    """The declarations of an answers file, each with the text of its body."""
    found: Dict[str, str] = {}
    for piece in re.split(r"^(?=(?:pub )?[^\s-][^\s:]* : )", text, flags=re.M):
        head = re.match(r"(?:pub )?([^\s:]+) : [^\n]*", piece)
        if head:
            found[head.group(1)] = piece
    return found


def lets(body: str) -> Dict[str, str]:
    """The names that an answer gives to parts of it, each with its text."""
    found: Dict[str, str] = {}
    for name, piece in re.findall(r"let ([\w-]+)(?: :[^=]*?)? =(.*?)(?:\sin\b)", body, re.S):
        found[name] = piece
    return found


def fields(body: str) -> List[Tuple[str, str]]:
    """The fields of the record that an answer gives, if it gives one, with their texts."""
    given = re.sub(r"let [\w-]+(?: :[^=]*?)? =.*?\sin\b", "", body, flags=re.S)
    start = re.search(r"\(?record \{\n( +)(\w+) = ", given)
    if not start:
        return []
    indent = start.group(1)
    found = []
    for piece in re.split(r"^(?=%s\w+ = )" % indent, given[start.start(1):], flags=re.M):
        name = re.match(r"%s(\w+) = " % indent, piece)
        if name:
            found.append((name.group(1), piece[name.end():]))
    return found


def cited_lemmas(body: str, lemmas: Container[str], parts: Mapping[str, str], seen: Tuple[str, ...] = ()) -> List[str]:
    """The lemmas that a text names, itself or by parts that it names, in the order in which they come."""
    names: List[str] = []
    for name in IDENTIFIER.findall(body):
        more = [name] if name in lemmas else []
        if name in parts and name not in seen:
            more = cited_lemmas(parts[name], lemmas, parts, seen + (name,))
        names += [lemma for lemma in more if lemma not in names]
    return names


def clause_of(goal: str) -> str:
    """The clause that a goal is about, empty where it has no name."""
    if goal.startswith("invariant_of"):
        return "invariant"
    return goal.split("-clause-")[1] if "-clause-" in goal else ""


def rows_of(path: pathlib.Path, crate: str) -> Iterator[Tuple[str, str, List[str], List[str]]]:
    """The rows of an answers file: function, clause, lemmas, files."""
    text = path.read_text()
    lemmas = imports(text)
    function = "::".join(path.parent.relative_to(ROOT / "crates" / crate / "proofs").parts)
    declared = declarations(text)
    goals = {name: body for name, body in declared.items() if "goal.%s" % name in body}
    own = {name: body for name, body in declared.items() if name not in goals}
    rows: Dict[str, List[str]] = {}
    for goal, body in goals.items():
        parts = {**own, **lets(body)}
        if goal.startswith(("returns", "invariant_of")):
            clause = clause_of(goal)
            given = fields(body) if clause != "invariant" else []
            named = [("%s.%s" % (clause, name) if clause else name, piece) for name, piece in given]
            named = named or [(clause or "ensures", body)]
        else:
            named = [("loops and conditions", body)]
        for name, piece in named:
            known = rows.setdefault(name, [])
            known += [lemma for lemma in cited_lemmas(piece, lemmas, parts) if lemma not in known]
    for name, names in sorted(rows.items(), key=lambda row: row[0] == "loops and conditions"):
        if names:
            files = sorted({lemmas[lemma] for lemma in names})
            yield function, name, names, files


def answers() -> Iterator[Tuple[str, List[pathlib.Path]]]:
    """Each crate of crates.txt that has proofs, with its files of answers."""
    for line in (ROOT / "crates.txt").read_text().split("\n"):
        crate = line.partition("#")[0].partition(":")[0].strip()
        proofs = ROOT / "crates" / crate / "proofs"
        if crate and proofs.is_dir():
            yield crate, sorted(proofs.rglob("Answers.antt"))


def document() -> str:
    """The text of docs/clauses.md."""
    lines = [HEAD]
    for crate, paths in answers():
        rows = [row for path in paths for row in rows_of(path, crate)]
        if rows:
            lines.append("## %s\n\n| Function | Clause | Lemmas | Files |\n|---|---|---|---|" % crate)
            for function, clause, names, files in rows:
                short = [file.replace("crates/%s/proofs/" % crate, "") for file in files]
                lines.append("| `%s` | `%s` | %s | %s |" % (
                    function, clause, ", ".join("`%s`" % n for n in names), ", ".join("`%s`" % f for f in short)))
            lines.append("")
    return "\n".join(lines).rstrip("\n") + "\n"


def mistakes() -> Iterator[Tuple[pathlib.Path, str]]:
    """What keeps an answers file from being read: no goal in it, or an import of a file of proofs that is missing."""
    for _, paths in answers():
        for path in paths:
            text = path.read_text()
            if not any("goal.%s" % name in body for name, body in declarations(text).items()):
                yield path, "no goal"
            for crate, module in re.findall(r"^use Rattle\.(\w+)\.proofs\.([\w.]+?)\.\{", text, re.M):
                proofs = ROOT / "crates" / crate / "proofs"
                # the prover writes the goals, and the toolchain has crates of its own
                if not proofs.is_dir() or module.endswith("Goals"):
                    continue
                if not (proofs / (module.replace(".", "/") + ".antt")).exists():
                    yield path, "no %s.proofs.%s" % (crate, module)


def main() -> int:
    if sys.argv[1:] not in ([], ["--check"]):
        print(__doc__.strip())
        return 0 if sys.argv[1:] == ["--help"] else 2
    text = document()
    rows = text.count("\n| `")
    if sys.argv[1:] == ["--check"]:
        found = list(mistakes())
        for path, what in found:
            print("%s: %s" % (path.relative_to(ROOT), what))
        print("%d rows, %d answers that cannot be read" % (rows, len(found)))
        return 1 if found or not rows else 0
    OUT.write_text(text)
    print("%d rows" % rows)
    return 0


if __name__ == "__main__":
    sys.exit(main())
