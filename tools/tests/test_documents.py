"""What the documents of a small tree name, and what it does not have."""
import subprocess
import unittest
from typing import List, Tuple

import documents
from tests.rooms import Room

FILES = {
    "crates.txt": "# 1. all\nlow: hex\nhigh_one: low  # on low\nbeside:\n",
    "crates/README.md": "| low | high_one |\n",
    "crates/low/README.md": "# low\n",
    "crates/low/src/lib.rt": "/// gone_name\npub fn count(n: u64)\n    ensures exact { result ≡ n }\n",
    "crates/low/specs/Sums.antt": "-- hidden : a word\nabbrev pub sum_of : ℕ → ℕ\n  pub first second : ℕ\n",
    "crates/high_one/src/deep/call.rt": "enum Ending { Told }\n",
    "docs/manual.md": "# Words (`call.rt`)\n\n**A run.** It ends.\n\n# The end\n",
    "tools/draw.py": 'parser.add_argument("--large")\n',
    "txflash": "",
    ".gitignore": "docs/made.md\n",
}


class Documents(Room):
    def setUp(self) -> None:
        super().setUp()
        for name, text in FILES.items():
            self.put(name, text.encode())
        subprocess.run(["git", "init", "-q", self.room], check=True)
        self.tree = documents.read_tree(self.room)
        documents.said_words.cache_clear()

    def misses(self, text: str, name: str = "docs/new.md") -> List[Tuple[int, str]]:
        """What a document of this text names and the tree does not have."""
        self.put(name, text.encode())
        return [(it.line, it.what) for it in documents.misses(self.tree, name)]

    def test_a_crate_stands_on_those_below_it(self) -> None:
        self.assertEqual(self.tree.below, {"low": {"low"}, "high_one": {"low", "high_one"}, "beside": {"beside"}})

    def test_files_and_folders(self) -> None:
        self.assertEqual(self.misses("`crates/low/src/lib.rt`, `call.rt`, `high_one/src/`, `crates/*/specs`"), [])
        self.assertEqual(self.misses("`docs/made.md` and `crates/low/out/low`, `crates/NAME/src`, `disk.img`\n"), [])
        self.assertEqual(self.misses("One.\n\n`docs/none.md`\n"), [(3, "no file docs/none.md")])
        self.assertEqual(self.misses("`a.txt`\n\n    cp b.txt a.txt\n"), [])
        self.assertEqual(self.misses("`call.rt` is above.\n", "crates/low/README.md"), [(1, "no file call.rt")])

    def test_links_and_headings(self) -> None:
        self.assertEqual(self.misses("[a](manual.md#the-end), [b](https://example.org)\n"), [])
        self.assertEqual(self.misses("[a](manual.md#no-end)\n"), [(1, "no heading no-end in docs/manual.md")])
        self.assertEqual(self.misses("[a](none.png)\n"), [(1, "no file docs/none.png")])
        self.assertEqual(self.misses("`docs/manual.md`, 'Words', and `docs/manual.md`, 'A\nrun'\n"), [])
        self.assertEqual(self.misses("`docs/manual.md`, 'Verbs'\n"), [(1, "no heading 'Verbs' in docs/manual.md")])
        self.assertEqual(self.misses("# Here\n\nsee 'Here' ('There')\n"), [(3, "no heading 'There' in docs/new.md")])

    def test_commands(self) -> None:
        self.assertEqual(self.misses("    ./txflash try a.txt\n    python3 tools/draw.py --large\n"), [])
        self.assertEqual(self.misses("`./txflash WORDS`, `draw.py --large`\n"), [])
        self.assertEqual(self.misses("    ./txflash dig a.txt\n"), [(1, "no word dig of txflash")])
        self.assertEqual(self.misses("`python3 tools/none.py`\n"), [(1, "no script tools/none.py")])
        self.assertEqual(self.misses("```sh\ntools/draw.py --small  # quick\n```\n"),
                         [(2, "no option --small of tools/draw.py")])

    def test_names(self) -> None:
        self.assertEqual(self.misses("`count`, `sum_of`, `second`, `Ending::Told`, `low::count(n)`, high_one\n"), [])
        self.assertEqual(self.misses("`gone_name` and `hidden`\n"), [(1, "no name gone_name"), (1, "no name hidden")])
        self.assertEqual(self.misses("`Ending::count`\n"), [(1, "no name Ending::count")])
        self.assertEqual(self.misses("of high_two\n"), [(1, "no crate high_two")])
        self.assertEqual(self.misses("`read` and `cut` are words\n"), [])

    def test_names_and_scripts_of_a_folder(self) -> None:
        self.assertEqual(self.misses("`add_argument`\n\n    python3 ../tools/draw.py --large\n", "tools/README.md"), [])
        self.assertEqual(self.misses("`add_argument`\n"), [(1, "no name add_argument")])
        self.assertEqual(self.misses("    python3 ../docs/draw.py\n"), [(1, "no script ../docs/draw.py")])

    def test_a_crate_names_what_is_below_it(self) -> None:
        self.assertEqual(self.misses("`Ending`\n", "crates/low/README.md"), [(1, "no name Ending")])
        self.assertEqual(self.misses("`count`\n", "crates/high_one/README.md"), [])

    def test_what_is_of_something(self) -> None:
        self.assertEqual(self.misses("`exact` of `count`, `sum_of` of `Ending`, `count` of low\n"), [])
        self.assertEqual(self.misses("`Told` of `count`\n"), [(1, "no Told of count")])

    def test_blocks_of_rattle(self) -> None:
        self.assertEqual(self.misses("```rust\n    enum Ending { Told }    // one\n    ..\n```\n"), [])
        self.assertEqual(self.misses("```rust\nenum Ending {}\n```\n"), [(2, "no source has enum Ending {}")])

    def test_layout(self) -> None:
        self.assertEqual(self.misses(f"| a | b |\n|---|---|\n| `|` | {'c' * 130} |\n"), [])
        self.assertEqual(self.misses("| a | b |\n|---|---|\n| c |\n"), [(3, "a row of 1 cells, where the table has 2")])
        self.assertEqual(self.misses(f"{'word ' * 25}\n"), [(1, "125 columns")])

    def test_changes_tell_what_was(self) -> None:
        self.assertEqual(self.misses("`./try`, `gone_name`, [a](none.md)\n", "CHANGELOG.md"), [(1, "no file none.md")])

    def test_each_crate_is_shown(self) -> None:
        self.assertEqual(list(documents.crates_without(self.tree)), [
            "crates.txt: high_one has no README", "crates.txt: beside has no README",
            "crates/README.md: no row of beside"])


if __name__ == "__main__":
    unittest.main()
