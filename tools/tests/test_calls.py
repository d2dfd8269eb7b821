"""The scripts ./txflash, ./flash_view and ./flash_serve, each with a small program in the place of the proved one."""
import os
import subprocess
import unittest
from typing import Tuple
from unittest import mock

from call_flash_view import asked_for, painted_text
from programs import TOP, named_program
from tests.rooms import Room

# Answers as the program does where that is told by its words, and makes an image of nothing but a magic.
PROGRAM = """#!/bin/sh
case $1 in
    try) [ "$2" != bad.txt ] || { echo "bad line 2"; exit 4; }
        [ -f "$2" ] || { echo "no file $2"; exit 2; }; cat "$2" ;;
    format) printf TXFLASH1 >"$2" && echo "formatted $2 32" ;;
    run) [ -f "$2" ] || { echo "desk fault"; exit 5; }; printf ' run' >>"$2"; echo done ;;
    drive) kill -TERM $$ ;;
    *) echo "bad words"; exit 1 ;;
esac
"""


class Calls(Room):
    def setUp(self) -> None:
        super().setUp()
        self.put("program", PROGRAM.encode(), 0o755)

    def call(self, *words: str, script: str = "txflash") -> Tuple[int, str, str]:
        """The status, what was said and what was told beside it."""
        program = f"{self.room}/program"
        names = {it: program for it in ("TXFLASH_PROGRAM", "FLASH_VIEW_PROGRAM", "FLASH_SERVE_PROGRAM")}
        done = subprocess.run([f"{TOP}/{script}", *words], cwd=self.room, env={**os.environ, **names},
                              stdin=subprocess.DEVNULL, capture_output=True, check=False)
        return done.returncode, done.stdout.decode(), done.stderr.decode()

    def test_the_table_is_told_at_once(self) -> None:
        self.assertEqual(self.call("--help")[::2], (0, ""))
        self.assertIn("retire IMAGE BLOCK", self.call("--help")[1])
        status, said, told = self.call()
        self.assertEqual((status, said), (1, ""))
        self.assertIn("docs/manual.md", told)

    def test_a_script_names_no_program(self) -> None:
        for script in ("txflash", "flash_view", "flash_serve"):
            with mock.patch.dict(os.environ, {f"{script.upper()}_PROGRAM": f"{TOP}/{script}"}):
                self.assertIsNone(named_program(script))

    def test_a_bad_line_has_its_reason(self) -> None:
        self.put("bad.txt", b"read 0\nREAD 0\n")
        status, said, told = self.call("try", "bad.txt")
        self.assertEqual((status, said), (4, "bad line 2\n"))
        self.assertIn("line 2 of bad.txt is `READ 0`", told)
        self.assertIn("lower case", told)

    def test_bad_words_have_their_reason(self) -> None:
        self.assertEqual(self.call("frob"), (1, "bad words\n", "txflash: there is no word `frob`\n"))

    def test_a_fault_names_the_file(self) -> None:
        self.assertEqual(self.call("run", "/", "c.txt"), (5, "desk fault\n", "txflash: / is a folder\n"))

    def test_what_is_no_image_is_replaced_if_that_is_said(self) -> None:
        words = ("format", "text.txt", "scc", "16", "4", "4", "2", "20", "7")
        self.put("text.txt", b"precious")
        self.assertEqual(self.call(*words)[:2], (125, ""))
        self.assertEqual(self.get("text.txt"), b"precious")
        self.assertEqual(self.call("--replace", *words)[0], 0)
        self.assertEqual(self.call(*words)[0], 0)

    def test_copies_change_no_file(self) -> None:
        words = ("format", "d.img", "scc", "16", "4", "4", "2", "20", "7")
        self.assertEqual(self.call("--unproved", *words)[:2], (0, "formatted d.img 32\n"))
        self.assertFalse(os.path.exists(f"{self.room}/d.img"))
        self.assertEqual(self.call("--unproved", "--keep", *words)[:2], (0, "formatted d.img 32\n"))
        self.assertEqual(self.call("--unproved", "run", "d.img", "c.txt")[:2], (0, "done\n"))
        self.assertEqual(self.get("d.img"), b"TXFLASH1")
        self.assertEqual(self.call("--unproved", "--keep", "run", "d.img", "c.txt")[:2], (0, "done\n"))
        self.assertEqual(self.get("d.img"), b"TXFLASH1 run")
        self.assertEqual(self.call("--unproved", "try", "no.txt")[:2], (2, "no file no.txt\n"))

    def test_a_signal_of_the_program_ends_the_script(self) -> None:
        self.assertEqual(self.call("drive", "1", "1", "scc")[0], -15)

    def test_a_picture_without_an_image(self) -> None:
        self.assertEqual(self.call(script="flash_view")[0], 1)
        self.assertEqual(self.call("--svg", script="flash_view")[:2], (1, ""))
        self.assertEqual(self.call("--help", script="flash_view")[0], 0)

    def test_a_live_device_is_given_one_image(self) -> None:
        self.assertEqual(self.call(script="flash_serve")[:2], (1, ""))
        self.assertEqual(self.call("d.img", "e.img", script="flash_serve")[:2], (1, ""))
        self.assertEqual(self.call("--unproved", "d.img", script="flash_serve")[:2], (125, ""))
        self.assertEqual(self.call("--help", script="flash_serve")[0], 0)
        self.assertEqual(self.call("drive", script="flash_serve")[0], -15)


class Pictures(unittest.TestCase):
    def test_options_stand_in_any_order(self) -> None:
        asked = asked_for(["d.img", "--svg", "--color=always", "--unsound"])
        self.assertEqual((asked.names, asked.color, asked.wrong), (["d.img"], "always", None))
        self.assertEqual((asked.options, asked.form), (["--unsound"], ["--svg"]))
        self.assertEqual(asked_for(["--", "--svg"]).names, ["--svg"])
        self.assertEqual(asked_for(["d.img", "--page", "7"]).form, ["--page", "7"])
        self.assertEqual(asked_for(["--block=3", "d.img"]).form, ["--block", "3"])
        for words in ([], ["a", "b"], ["--color", "d.img"], ["--size", "d.img"], ["d.img", "--color"],
                      ["--svg", "--loose", "d.img"]):
            self.assertIsNotNone(asked_for(words).wrong)

    def test_states_of_cells_have_colours(self) -> None:
        row = painted_text("block 0    |0.1 loose held|blank      |\nwalk 0.1 loose\n")
        self.assertEqual(row, "block 0    |0.1 \x1b[33mloose\x1b[0m \x1b[36mheld\x1b[0m|\x1b[2mblank\x1b[0m      |\n"
                              "walk 0.1 loose\n")

    def test_letters_of_an_overview_have_colours(self) -> None:
        self.assertEqual(painted_text("block 12   ccS.\nspare 3    ..\n"),
                         "block 12   \x1b[32mcc\x1b[0m\x1b[2mS\x1b[0m.\n\x1b[34mspare\x1b[0m 3    ..\n")


if __name__ == "__main__":
    unittest.main()
