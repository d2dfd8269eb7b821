"""examples/story.py, with small programs in the place of the proved ones."""
import os
import re
import subprocess
import sys
import unittest
from typing import Tuple

from programs import TOP
from tests.rooms import Room

sys.path.insert(0, f"{TOP}/examples")

import story

# Serves a command by its name alone. A `finish` leaves one byte more in the image.
TXFLASH = """#!/bin/sh
case $1 in
    format) printf TXFLASH1 >"$2" && echo "formatted $2 32" ;;
    run)
        ! grep -q '^READ' "$3" || { echo "bad line 2"; exit 4; }
        grep -v '^ *#' "$3" | while read -r verb rest || [ -n "$verb" ]; do
            [ "$verb" != finish ] || printf x >>"$2"
            [ -z "$verb" ] || echo "reply <$verb>"
        done ;;
esac
"""
# Draws how many bytes an image has.
FLASH_VIEW = """#!/bin/sh
if [ "$1" = --svg ]; then echo "<svg><g><title>slot 0: $(wc -c <"$2")</title></g></svg>"; else
    echo "die 0"; echo "block 0    |0.$(wc -c <"$1") loose|blank|"; echo "walk 0.1 -> 1.1 absent"; fi
"""
COMMANDS = b"# One page.\nwrite 1 0=41\n\nfinish 1\r\n  # Read & see.\n\tread 0"


class Pages(Room):
    def setUp(self) -> None:
        super().setUp()
        self.put("txflash", TXFLASH.encode(), 0o755)
        self.put("flash_view", FLASH_VIEW.encode(), 0o755)
        self.put("c.txt", COMMANDS)

    def call(self, *words: str) -> Tuple[int, str, str]:
        """The status, the page and what was told beside it."""
        names = {"TXFLASH_PROGRAM": f"{self.room}/txflash", "FLASH_VIEW_PROGRAM": f"{self.room}/flash_view"}
        done = subprocess.run([sys.executable, f"{TOP}/examples/story.py", *words], cwd=self.room, check=False,
                              env={**os.environ, **names}, stdin=subprocess.DEVNULL, capture_output=True)
        return done.returncode, done.stdout.decode(), done.stderr.decode()

    def test_each_command_has_its_reply_and_the_picture_that_it_leaves(self) -> None:
        status, page, told = self.call("c.txt")
        self.assertEqual((status, told), (0, ""))
        turns = re.findall(r"<li data-picture='picture-(\d)'>(.*)</li>", page)
        self.assertEqual(turns, [
            ("0", "<p>before the first command</p>"),
            ("0", "<p>One page.</p><code>write 1 0=41</code><samp>reply &lt;write&gt;</samp>"),
            ("1", "<code>finish 1</code><samp>reply &lt;finish&gt;</samp>"),
            ("1", "<p>Read &amp; see.</p><code>read 0</code><samp>reply &lt;read&gt;</samp>")])
        self.assertEqual(re.findall(r"<template id='picture-(\d)'><svg><g><title>slot 0: (\d+)", page),
                         [("0", "8"), ("1", "9")])
        self.assertNotRegex(page, r"@[A-Z]+@|https?:")

    def test_the_image_stays(self) -> None:
        self.put("d.img", b"TXFLASH1 of mine")
        status, page, _ = self.call("--text", "c.txt", "d.img")
        self.assertEqual(status, 0)
        self.assertIn("<pre>die 0\n"
                      "block 0    |<span class='loose'>0.17 loose</span>|<span class='blank'>blank</span>|\n"
                      "walk 0.1 -&gt; 1.1 absent</pre>", page)
        self.assertEqual(self.get("d.img"), b"TXFLASH1 of mine")
        self.assertEqual(sorted(os.listdir(self.room)), ["c.txt", "d.img", "flash_view", "txflash"])

    def test_only_so_many_commands_are_told(self) -> None:
        status, page, told = self.call("--most", "1", "c.txt")
        self.assertEqual((status, page.count("<li ")), (0, 2))
        self.assertIn("the first 1 of 3 commands", told)

    def test_what_the_program_refuses_is_no_story(self) -> None:
        self.put("bad.txt", b"read 0\nREAD 0\n")
        status, page, told = self.call("bad.txt")
        self.assertEqual((status, page), (4, ""))
        self.assertIn("bad line 2", told)
        self.assertIn("lower case", told)
        self.assertEqual(self.call("none.txt")[:2], (2, ""))
        self.assertEqual(self.call("c.txt", "none.img")[:2], (2, ""))


class Lines(unittest.TestCase):
    def test_a_command_ends_where_its_line_does(self) -> None:
        found = [(it.notes, it.line, COMMANDS[:it.end][-5:]) for it in story.commands_of(COMMANDS)]
        self.assertEqual(found, [(["One page."], "write 1 0=41", b"0=41\n"), ([], "finish 1", b"h 1\r\n"),
                                 (["Read & see."], "read 0", b"ead 0")])

    def test_letters_of_an_overview_are_cells(self) -> None:
        self.assertEqual(story.text_html("spare 3    S.\n"),
                         "<pre>spare 3    <span class='stale held'>S</span><span class='blank'>.</span></pre>")


if __name__ == "__main__":
    unittest.main()
