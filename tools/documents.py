#!/usr/bin/env python3
"""documents.py [DOCUMENT..]: finds what the documents name and the tree does not have. Of these documents, or of all,
it prints each miss with its file and line, and then the status is 1. These are looked for:

- the files and folders that stand in code type or in a link, and the heading that a link or a quotation names
- the scripts, words and options of commands, and the words behind `rt`, if there is a toolchain
- names of the code: a crate, a function, a label of a clause, a type or a definition. In the README of a crate it is
  one of this crate or of those below it, and in `X of Y` one of a crate that has Y. The words of Python and C sources
  count in the folder in which these lie
- a line of a block of Rattle that no source has
- a crate without a README or a row in crates/README.md, a row with other cells than its table, and a line of more than
  120 columns that is no row.

CHANGELOG.md tells what was, so only its lines and links are looked at. `clauses.py` and `examples.py` look at more."""
import fnmatch
import functools
import os
import re
import shutil
import subprocess
import sys
from typing import Dict, Iterator, List, NamedTuple, Set, Tuple

from mistakes import COMMANDS, FORMS, KEY_COMMANDS

TOP = os.path.dirname(os.path.dirname(os.path.abspath(__file__)))
SUFFIXES = (".md", ".rt", ".antt", ".py", ".sh", ".txt", ".png", ".svg", ".c", ".img")
WIDEST = 120
# Words in code type that are names elsewhere: of the language, of the system, of SQLite and of texts in the documents.
ELSEWHERE = set("""ensures requires return assert_eq std simd flock chattr lslocks perf valgrind realpath posix_fadvise
    integrity_check XState XInvariant x_reply""".split())
NAME = re.compile(r"[A-Za-z]\w*(?:::\w+)*")
SPAN = re.compile(r"`([^`]+)`")
# What stands before the heading of a document in quotation marks: its name, or none where it is this document.
QUOTED = (r"`([\w./-]+\.md)`,\s+", r"\b(README),\s+", r"\bsee\s+()", r"\(()(?='[A-Z][^']*'\))")


class Miss(NamedTuple):
    """What a document names and the tree does not have."""
    line: int
    what: str


class Tree(NamedTuple):
    """The files of a tree, all ends of their paths and of those of folders, the crates that each crate stands on, the
    names that each crate defines, and the lines of the sources."""
    top: str
    files: List[str]
    ends: Set[str]
    below: Dict[str, Set[str]]
    names: Dict[str, Set[str]]
    lines: Set[str]


# The tree.

def read(top: str, name: str) -> str:
    """The text of a file of the tree."""
    with open(f"{top}/{name}", encoding="utf-8", errors="replace") as file:
        return file.read()


def crates_below(text: str) -> Dict[str, Set[str]]:
    """Of each crate of a crates.txt, itself and all crates that it stands on."""
    found: Dict[str, Set[str]] = {}
    lines = [line.split("#")[0] for line in text.splitlines()]
    parts = [line.partition(":") for line in lines if line.strip()]
    listed = {head.split()[0]: rest.split() for head, _, rest in parts}
    while len(found) < len(listed):
        for crate, low in listed.items():
            if all(it in found or it not in listed for it in low):
                found[crate] = {crate}.union(*(found[it] for it in low if it in found))
    return found


def names_in(name: str, text: str) -> Set[str]:
    """The names that stand in a source or are defined in a file of definitions or of lemmas."""
    if name.endswith(".rt"):
        return set(re.findall(r"[A-Za-z]\w*", re.sub(r"//.*", "", text)))
    text = re.sub(r"(?m)(?:^|\s)--.*", "", text)
    heads = re.findall(r"^[ \t]*((?:\w[\w'-]*,? )*\w[\w'-]*)[^:=\n]*? :", text, re.M)
    return {name.strip(",") for head in heads for name in head.split()} | set(re.findall(r"\bmod (\w+)", text))


def read_tree(top: str) -> Tree:
    """What a repository has."""
    asked = ["git", "ls-files", "--cached", "--others", "--exclude-standard"]
    files = subprocess.run(asked, cwd=top, stdout=subprocess.PIPE, text=True, check=True).stdout.split("\n")
    files = [it for it in files if it and os.path.isfile(f"{top}/{it}")]
    ends = {"/".join(pieces[begin:end]) for pieces in (it.split("/") for it in files)
            for end in range(1, len(pieces) + 1) for begin in range(end)}
    below = crates_below(read(top, "crates.txt"))
    names: Dict[str, Set[str]] = {crate: {crate} for crate in below}
    lines: Set[str] = set()
    for name in files:
        parts = name.split("/")
        if parts[0] == "crates" and len(parts) > 3 and name.endswith((".rt", ".antt")):
            text = read(top, name)
            names[parts[1]] |= names_in(name, text) | {parts[-1].rsplit(".", 1)[0]} | set(parts[3:-1])
            lines |= {line.strip() for line in text.split("\n")} if name.endswith(".rt") else set()
    return Tree(top, files, ends, below, names, lines)


# Documents.

def prose(text: str) -> str:
    """A document without its blocks of code, which are blank lines."""
    lines, fenced = [], False
    for line in text.split("\n"):
        fence = line.lstrip().startswith("```")
        fenced = fenced != fence
        lines.append("" if fence or fenced or line.startswith("    ") else line)
    return "\n".join(lines)


def commands(text: str) -> Iterator[Tuple[int, str]]:
    """The commands of a document, in blocks and in code type, each with its line."""
    kept = prose(text).split("\n")
    for number, (line, said) in enumerate(zip(text.split("\n"), kept), 1):
        if line != said and re.match(r" *(\./|python3 |rt |\w+/\w+\.py)", line):
            yield number, line.split(" #")[0].strip()
    for number, span in spans(text):
        if re.match(r"\./\w|python3 |rt [a-z]|[\w/]+\.py ", span):
            yield number, span


def spans(text: str) -> Iterator[Tuple[int, str]]:
    """What stands in code type in a document, with its line."""
    kept = prose(text)
    for found in SPAN.finditer(kept):
        yield kept.count("\n", 0, found.start()) + 1, " ".join(found.group(1).split())


def headings(text: str) -> Set[str]:
    """The headings of a document, and what stands in bold type at the head of its paragraphs."""
    kept = prose(text)
    found = re.findall(r"^#+ (.*)", kept, re.M) + re.findall(r"^(?:[-\d.]+ )?\*\*([^*]+?)[.:]?\*\*", kept, re.M)
    return {re.sub(r" \(`.*", "", it) for it in found}


# What is looked for.

def exists(tree: Tree, document: str, span: str) -> bool:
    """Whether the tree has a file or a folder of this name. What the README of a crate names alone is in that crate, or
    at the top. What is built, or is not committed, need not be there."""
    wanted = re.sub(r"\bNAME|\bCRATE", "*", span.rstrip("/"))
    ignored = read(tree.top, ".gitignore").split() if os.path.exists(f"{tree.top}/.gitignore") else []
    home = re.match(r"crates/\w+/", document)
    if "*" in wanted:
        return any(fnmatch.fnmatch(it, wanted) for it in tree.ends)
    if home and "/" not in wanted and wanted not in tree.files:
        return any(it.startswith(home.group(0)) and it.endswith(f"/{wanted}") for it in tree.files)
    return wanted in tree.ends or wanted in ignored or "/out/" in wanted


def is_path(span: str) -> bool:
    """Whether a span names a file or a folder of the tree."""
    return re.fullmatch(r"[\w.*-]+(/[\w.*-]+)*/?", span) is not None and (
        span.endswith(SUFFIXES) or "/" in span and not span.startswith((".", "/"))) and not re.match(
            r"\.\w+$|\d|.*\.txt/", span)


def paths(tree: Tree, document: str, text: str) -> Iterator[Miss]:
    """The files and folders that there are not. A file that a block of the document names need not be there."""
    blocks = "\n".join(line for line, said in zip(text.split("\n"), prose(text).split("\n")) if line != said)
    for number, span in spans(text):
        made = span.endswith(".img") or span.endswith(".txt") and span in blocks
        if is_path(span) and not made and not exists(tree, document, span):
            yield Miss(number, f"no file {span}")


def links(tree: Tree, document: str, text: str) -> Iterator[Miss]:
    """The links that lead nowhere."""
    for number, line in enumerate(prose(text).split("\n"), 1):
        for target in re.findall(r"\]\(([^)\s]+)\)", line):
            name, _, anchor = target.partition("#")
            path = os.path.normpath(os.path.join(os.path.dirname(document), name)) if name else document
            if "://" in target:
                continue
            if not os.path.exists(f"{tree.top}/{path}"):
                yield Miss(number, f"no file {path}")
            elif anchor and anchor not in {re.sub(r"[^\w -]", "", it.lower()).replace(" ", "-")
                                           for it in headings(read(tree.top, path))}:
                yield Miss(number, f"no heading {anchor} in {path}")


def quoted_headings(tree: Tree, document: str, text: str) -> Iterator[Miss]:
    """The headings in quotation marks that are none of the document that stands before them, or of this one."""
    kept = prose(text)
    for found in (it for pattern in QUOTED for it in re.finditer(pattern + r"'([A-Z][^']*)'", kept)):
        name = {"": document, "README": "README.md"}.get(found.group(1), found.group(1))
        heading = " ".join(found.group(2).split())
        if os.path.exists(f"{tree.top}/{name}") and heading not in headings(read(tree.top, name)):
            yield Miss(kept.count("\n", 0, found.start(2)) + 1, f"no heading '{heading}' in {name}")


@functools.lru_cache(maxsize=None)
def words_of_rt() -> Set[str]:
    """The words that rt takes, or none where there is no rt."""
    if not shutil.which("rt"):
        return set()
    done = subprocess.run(["rt", "help"], stdout=subprocess.PIPE, stderr=subprocess.STDOUT, text=True, check=False)
    return {it for words in re.findall(r"\brt ([a-z|-]+)", done.stdout) for it in words.split("|")}


def options_of(tree: Tree, script: str) -> str:
    """The texts in which a script's options stand: of its folder, and of tools for the scripts at the top."""
    folder = os.path.dirname(script) or "tools"
    return "\n".join(read(tree.top, it) for it in tree.files if os.path.dirname(it) == folder and it.endswith(".py"))


def called_commands(tree: Tree, document: str, text: str) -> Iterator[Miss]:
    """The commands that cannot be given: without their script, or with a word or an option that it does not know. A
    script is named from the top, or from the folder of the document."""
    for number, command in commands(text):
        words = command.split()
        if words[0] == "rt":
            if words_of_rt() and words[1:] and words[1].rstrip(".,") not in words_of_rt():
                yield Miss(number, f"rt has no word {words[1]}")
            continue
        script = words[1] if words[0] == "python3" else words[0]
        script = script[2:] if script.startswith("./") else script
        there = os.path.normpath(os.path.join(os.path.dirname(document), script))
        near = [it for it in tree.files if it in (script, there) or it.endswith(f"/{script}")]
        if script != "-m" and not near and not script.endswith(".img"):
            yield Miss(number, f"no script {script}")
        behind = [it for it in words[1:] if not it.startswith("-")]
        if script == "txflash" and behind and behind[0] not in FORMS and not re.match(r"[A-Z.\[]", behind[0]):
            yield Miss(number, f"no word {behind[0]} of txflash")
        for option in re.findall(r"(?<![\w-])--[a-z][a-z-]*", command) if near else ():
            if option not in options_of(tree, near[0]) and f'"{option[2:]}"' not in options_of(tree, near[0]):
                yield Miss(number, f"no option {option} of {near[0]}")


@functools.lru_cache(maxsize=None)
def said_words(top: str) -> Set[str]:
    """The words of the programs: of commands, replies, refusals and formats."""
    cases = "crates/cases/data/cases.txt"
    text = read(top, cases) if os.path.exists(f"{top}/{cases}") else ""
    return set(re.findall(r"[A-Za-z_]\w*", text)) | set(COMMANDS) | set(FORMS) | set(KEY_COMMANDS)


def scope(tree: Tree, document: str) -> Set[str]:
    """The names that a document may use."""
    crate = document.split("/")[1] if re.match(r"crates/\w+/", document) else ""
    return set().union(*(tree.names[it] for it in tree.below.get(crate, tree.names)))


def words_beside(tree: Tree, document: str) -> Set[str]:
    """The words of the Python and C sources in the folder of a document."""
    folder = os.path.dirname(document)
    near = [it for it in tree.files if os.path.dirname(it) == folder != "" and it.endswith((".py", ".c"))]
    return {word for it in near for word in re.findall(r"[A-Za-z_]\w*", read(tree.top, it))}


def is_known(tree: Tree, name: str, known: Set[str]) -> bool:
    """Whether a name is one of these. The last two parts of a path stand in one crate."""
    parts = name.split("::")
    if parts[0] in ("std", "core"):
        return True
    if not all(it in known or it in ELSEWHERE for it in parts):
        return False
    return len(parts) < 2 or any(set(parts[-2:]) <= names for names in tree.names.values())


def code_names(tree: Tree, document: str, text: str) -> Iterator[Miss]:
    """The names in code type that no source has, and that are no words of the programs or of the document's blocks."""
    known, said = scope(tree, document), said_words(tree.top) | words_beside(tree, document)
    in_text = set(re.findall(r"[A-Za-z_]\w*", "\n".join(set(text.split("\n")) - set(prose(text).split("\n")))))
    stems = {os.path.basename(it).rsplit(".", 1)[0] for it in tree.files} | {it for name in tree.files
                                                                             for it in name.split("/")[:-1]}
    for number, span in spans(text):
        found = re.fullmatch(rf"({NAME.pattern})(?:\(.*\)|<.*>|!)?", span)
        name = found.group(1) if found else ""
        if len(name) < 2 or name.isupper() and "_" not in name or re.search(r"\d", name) and name.upper() == name:
            continue
        if not (is_known(tree, name, known) or name in ELSEWHERE or name in said | in_text | stems):
            yield Miss(number, f"no name {name}")


def crate_names(tree: Tree, _: str, text: str) -> Iterator[Miss]:
    """The words with an underscore, outside of code type, that are no crate."""
    kept = re.sub(r"\]\([^)]*\)", "]", SPAN.sub(lambda it: re.sub(r"[^\n]", " ", it.group(0)), prose(text)))
    for number, line in enumerate(kept.split("\n"), 1):
        for word in re.findall(r"(?<![\w/.])[a-z]+_[a-z_]+(?![\w/.-]*[/.]\w)", line):
            if word not in tree.below:
                yield Miss(number, f"no crate {word}")


def owned_names(tree: Tree, _: str, text: str) -> Iterator[Miss]:
    """What is said to be of a function, a type or a crate, and stands in no crate that has it nor in one below."""
    kept = prose(text)
    for found in re.finditer(r"((?:`\w+`(?:,| and|, and)?\s+)+)of\s+`?(\w+(?:::\w+)*)`?", kept):
        owner = found.group(2).split("::")[-1]
        homes = [owner] if owner in tree.below else [it for it, names in tree.names.items() if owner in names]
        if "`" not in found.group(0).split("of")[-1] and owner not in tree.below:
            continue
        known = set().union(*(tree.names[low] for it in homes for low in tree.below[it]))
        for name in SPAN.findall(found.group(1)):
            if homes and name not in known and name not in said_words(tree.top):
                yield Miss(kept.count("\n", 0, found.start()) + 1, f"no {name} of {found.group(2)}")


def rattle_lines(tree: Tree, _: str, text: str) -> Iterator[Miss]:
    """The lines of blocks of Rattle that no source has. They may have a comment behind them."""
    shown = False
    for number, line in enumerate(text.split("\n"), 1):
        if line.startswith("```"):
            shown = line == "```rust"
        elif shown and line.strip() not in ("", "..") and line.split("//")[0].strip() not in tree.lines:
            yield Miss(number, f"no source has {line.strip()}")


def layout(text: str) -> Iterator[Miss]:
    """Rows with other cells than the head of their table, and lines that are too long."""
    cells = 0
    for number, line in enumerate(prose(text).split("\n"), 1):
        row = line.lstrip().startswith("|")
        here = SPAN.sub("", line).count("|") if row else 0
        if row and cells and here != cells:
            yield Miss(number, f"a row of {here - 1} cells, where the table has {cells - 1}")
        cells = (cells or here) if row else 0
        if not row and len(line) > WIDEST:
            yield Miss(number, f"{len(line)} columns")


def misses(tree: Tree, document: str) -> List[Miss]:
    """What a document names and the tree does not have, in the order of its lines."""
    text = read(tree.top, document)
    found = [*links(tree, document, text), *layout(text)]
    if document != "CHANGELOG.md":
        for look in (paths, quoted_headings, called_commands, code_names, crate_names, owned_names, rattle_lines):
            found += look(tree, document, text)
    return sorted(set(found))


def crates_without(tree: Tree) -> Iterator[str]:
    """A line for each crate that has no README, or that the map of the crates leaves out."""
    shown = read(tree.top, "crates/README.md")
    for crate in tree.below:
        if f"crates/{crate}/README.md" not in tree.files:
            yield f"crates.txt: {crate} has no README"
        if not re.search(rf"\b{crate}\b", shown):
            yield f"crates/README.md: no row of {crate}"


def main() -> int:
    tree = read_tree(TOP)
    documents = sys.argv[1:] or [it for it in tree.files if it.endswith(".md")]
    found = [f"{document}:{miss.line}: {miss.what}" for document in documents for miss in misses(tree, document)]
    found += [] if sys.argv[1:] else crates_without(tree)
    for line in found:
        print(line)
    return 1 if found else 0


if __name__ == "__main__":
    sys.exit(main())
