"""Which lines and words are refused, and why: the rows of the manual's 'Common mistakes' among them."""
import unittest
from typing import Dict, Sequence, Tuple

from mistakes import COMMANDS, KEY_COMMANDS, first_mistake, shown_text, why_words

# A file, the number of its first bad line or 0, and words of the reason.
FILES = (
    (b"", 0, ""),
    (b"# a comment\n\n \t\n#\r\nread 0\r\nwrite 1 0=41 1=- 2=~\n", 0, ""),
    (b"write 1\nstepall\nstats\ncut 0000000001 all", 0, ""),
    (b"\xef\xbb\xbfread 0\n", 1, "byte order mark"),
    ("read 0\n".encode("utf-16"), 1, "UTF-16"),
    ("read 0\n".encode("utf-16-le"), 1, "UTF-16"),
    (b"read 0\n\xc2\xa0read 1\n", 2, "no-break space"),
    (b"read 0\rread 1\r", 1, "carriage return"),
    (b"read 0\n\r\r\n", 2, "carriage return"),
    (b"read 0 # the first page\n", 1, "a comment behind a command"),
    (b"READ 0\n", 1, "lower case: read"),
    (b"write 1 0=0x41\n", 1, "without 0x"),
    (b"read 0x10\n", 1, "without 0x"),
    (b"write 1 0 = 41\n", 1, "no blanks at the equals sign"),
    (b"write 1 0= 41\n", 1, "no blanks at the equals sign"),
    (b"write 1 0=41,1=42\n", 1, "divided by blanks"),
    (b"read 0;\n", 1, "divided by blanks"),
    (b"write 1 0=414\n", 1, "an odd number"),
    (b"write 1 0=" + b"41" * 17 + b"\n", 1, "17 bytes"),
    (b"write 1 0\n", 1, "no equals sign"),
    (b"read -1\n", 1, "no sign"),
    (b"read 4294967296\n", 1, "at most 4294967295"),
    (b"read 00000000001\n", 1, "at most 10 digits"),
    (b"cut 0 all\n", 1, "a count of 0"),
    (b"cut 1 some\n", 1, "none, all or bad"),
    (b"read\n", 1, "no words behind read"),
    (b"put 61=62\n", 1, "key scripts"),
    (b"TXFLASH1\x01\0\0\0", 1, "an image"),
    (b"\x89PNG\r\n", 1, "a byte 89"),
    (b"stats\n" * 65537, 65537, "at most 65536 commands"),
    (b"write 1" + b" 0=-" * 262144 + b"\nwrite 1 0=-\n", 2, "at most 262144 entries"),
)
SCRIPTS = (
    (b"put\nput 61=62 6162=- 63=~\nget 61\ncut 1 none\n", 0, ""),
    (b"put 61=62\nget 616\n", 2, "an odd number"),
    (b"get " + b"61" * 16 + b"\n", 1, "16 bytes"),
    (b"write 1 0=41\n", 1, "a key script has put, get and cut"),
)
CALLS = (
    ("try c.txt", ""), ("format d.img scc 16 4 4 2 20 7", ""), ("format d.img bpcc 16 4 4 2 20 7 1", ""),
    ("drive 18446744073709551615 100000 scc", ""), ("run d.img c.txt", ""), ("retire d.img 0", ""),
    ("frob", "no word `frob`"), ("Try c.txt", "lower case: try"), ("try", "no words behind try"),
    ("try c.txt x", "2 words behind try"), ("format d.img SCC 16 4 4 2 20 7", "scc or bpcc"),
    ("format d.img scc 16k 4 4 2 20 7", "PAGE: `16k`"), ("format d.img scc 0x10 4 4 2 20 7", "without 0x"),
    ("drive 1 100001 scc", "at most 100000"), ("retire d.img -1", "no sign"),
)


class Mistakes(unittest.TestCase):
    def check(self, rows: Sequence[Tuple[bytes, int, str]], forms: Dict[str, str]) -> None:
        for data, number, why in rows:
            with self.subTest(data=data[:40]):
                found = first_mistake(data, forms, 16)
                self.assertEqual(found.number if found else 0, number)
                self.assertIn(why, found.why if found else "")

    def test_files_of_commands(self) -> None:
        self.check(FILES, COMMANDS)

    def test_key_scripts(self) -> None:
        self.check(SCRIPTS, KEY_COMMANDS)

    def test_pages_may_be_larger(self) -> None:
        self.assertIsNone(first_mistake(b"write 1 0=" + b"41" * 17, COMMANDS, 32))

    def test_words(self) -> None:
        for call, why in CALLS:
            with self.subTest(call=call):
                found = why_words(call.split(" "))
                self.assertEqual(found is None, not why)
                self.assertIn(why, found or "")
        self.assertIn("empty name", why_words(["try", ""]))
        self.assertIn("UTF-8", why_words(["try", "\udcff"]))
        self.assertIsNotNone(why_words([]))

    def test_lines_are_shown_short_and_plain(self) -> None:
        self.assertEqual(shown_text("a\tb\x7f"), "`a\\x09b\\x7f`")
        self.assertEqual(shown_text("x" * 70), "`" + "x" * 60 + " ..`")


if __name__ == "__main__":
    unittest.main()
