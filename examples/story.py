#!/usr/bin/env python3
"""story.py [OPTIONS] COMMANDS [IMAGE] > STORY.html: makes a page for a browser that shows the flash of a device after
each command of a file, with the command and its reply beside it. Arrow keys go on and back.

Without IMAGE the device is a blank one, by --device. The page needs no other file. The commands are served on copies
by the program txflash, the first, the first two, and so on, and what each leaves is drawn by flash_view. So a command
that is cut shows the flash as the cut left it. No file of yours changes. The status is that of the program that refused
something, or 0."""
import argparse
import html
import os
import re
import shutil
import subprocess
import sys
import tempfile
from typing import Dict, Iterator, List, NamedTuple, Optional, Sequence

TOP = os.path.dirname(os.path.dirname(os.path.realpath(__file__)))
sys.path.insert(0, f"{TOP}/tools")

from call_flash_view import ROW
from notes import tell
from programs import NOT_STARTED, built_program, stop_at_signals

SMALL = "scc 16 4 4 2 20 7"
WORDS = ("current", "loose", "stale", "held", "discard", "damaged", "blank", "!")
LETTERS = {"c": "current", "l": "loose", "s": "stale", "x": "damaged", ".": "blank", "!": "unsound"}

STYLE = """
:root { color-scheme: light dark; --page: #fff; --ink: #222; --dim: #666; --line: #ccc; --here: #e8f0fe; --new: #c00 }
@media (prefers-color-scheme: dark) {
  :root { --page: #16181c; --ink: #ddd; --dim: #999; --line: #444; --here: #24344d; --new: #ff6b5e }
}
body { margin: 0; background: var(--page); color: var(--ink); font: 14px/1.4 system-ui, sans-serif;
  display: grid; grid-template: auto 1fr / minmax(18em, 2fr) 5fr; height: 100vh }
header { grid-column: 1 / 3; display: flex; gap: 1em; align-items: center; padding: .5em 1em;
  border-bottom: 1px solid var(--line) }
h1 { font-size: 1em; margin: 0 }
input { flex: 1 }
#turns { margin: 0; padding: 0; overflow: auto; border-right: 1px solid var(--line); list-style: none }
#turns li { padding: .3em 1em; cursor: pointer; border-left: 4px solid transparent }
#turns li.here { background: var(--here); border-color: var(--new) }
code, samp { display: block; font: 12px/1.5 monospace; overflow-wrap: anywhere; white-space: pre-wrap }
samp { max-height: 12em; overflow: auto; padding-left: 2em }
p, samp { margin: 0; color: var(--dim) }
p { font-size: 12px }
#stage { overflow: auto; padding: 1em }
#stage pre { font: 12px/1.5 monospace; margin: 0 }
#stage .changed > rect, #stage rect.changed { stroke: var(--new); stroke-width: 3 }
pre .changed { outline: 2px solid var(--new) }
pre .current { background: #4a45 } pre .loose { background: #e905 } pre .stale { background: #8885 }
pre .damaged { background: #d445 } pre .blank { color: var(--dim) } pre .held { text-decoration: underline }
@media (max-width: 50em) { body { display: block; height: auto } #turns { max-height: 30vh } }
@media print { header, #turns { display: none } }
"""

SCRIPT = """
const turns = [...document.querySelectorAll("#turns li")];
const stage = document.getElementById("stage"), slider = document.getElementById("slider");
const place = document.getElementById("place");
let at = 0;

function picture(number) {
  return document.getElementById(turns[number].dataset.picture).content;
}

// What each cell of a picture says: the titles of a drawing, or the cells of a text.
function cells(drawn) {
  return [...drawn.querySelectorAll("title, pre span")];
}

// Shows the flash after a command, and marks the cells that are not as they were before it.
function show(number) {
  turns[at].classList.remove("here");
  at = Math.min(Math.max(number, 0), turns.length - 1);
  turns[at].classList.add("here");
  turns[at].scrollIntoView({ block: "nearest" });
  const drawn = picture(at).cloneNode(true);
  if (at > 0) {
    const before = cells(picture(at - 1));
    cells(drawn).forEach((cell, slot) => {
      if (!before[slot] || cell.textContent.trim() !== before[slot].textContent.trim()) {
        (cell.localName === "title" ? cell.parentNode : cell).classList.add("changed");
      }
    });
  }
  stage.replaceChildren(drawn);
  slider.value = at;
  place.textContent = at + " of " + (turns.length - 1);
  history.replaceState(null, "", "#" + at);
}

const steps = { ArrowRight: () => at + 1, ArrowLeft: () => at - 1, Home: () => 0, End: () => turns.length - 1 };
document.addEventListener("keydown", (event) => {
  if (steps[event.key] && event.target !== slider && !event.ctrlKey && !event.altKey && !event.metaKey) {
    event.preventDefault();
    show(steps[event.key]());
  }
});
slider.addEventListener("input", () => show(Number(slider.value)));
document.getElementById("back").addEventListener("click", () => show(at - 1));
document.getElementById("on").addEventListener("click", () => show(at + 1));
turns.forEach((turn, number) => turn.addEventListener("click", () => show(number)));
show(Number(location.hash.slice(1)) || 0);
"""

PAGE = """<!DOCTYPE html>
<html lang="en">
<meta charset="utf-8">
<meta name="viewport" content="width=device-width">
<title>@NAME@</title>
<style>@STYLE@</style>
<header><h1>@NAME@</h1><button id="back">&larr; back</button>
<input id="slider" type="range" min="0" max="@LAST@" value="0" aria-label="command">
<button id="on">on &rarr;</button><output id="place"></output></header>
<ol id="turns">
@TURNS@</ol>
<section id="stage"><noscript>This page needs its script to go on.</noscript></section>
@PICTURES@<script>@SCRIPT@</script>
</html>
"""


class Refused(Exception):
    """A program ended with this status."""

    def __init__(self, status: int) -> None:
        super().__init__(status)
        self.status = status


class Command(NamedTuple):
    """A line of a file of commands that is a command, with the comments before it, and where the line ends."""
    notes: List[str]
    line: str
    end: int


class Turn(NamedTuple):
    """A command with its reply, and the number of the picture of the flash that it leaves."""
    notes: List[str]
    line: str
    reply: str
    picture: int


class Story(NamedTuple):
    """The turns, of which the first is the flash before all commands, and the pictures."""
    turns: List[Turn]
    pictures: List[str]


class Programs(NamedTuple):
    """The words that start the two programs, and those that first serve the whole file: a script says what is wrong
    with a line."""
    txflash: List[str]
    flash_view: List[str]
    first: List[str]


def commands_of(data: bytes) -> Iterator[Command]:
    """The commands of a file, in order."""
    notes: List[str] = []
    end = 0
    for line in re.findall(rb"[^\n]*\n|[^\n]+", data):
        end += len(line)
        text = line.decode("utf-8", "replace").strip(" \t\r\n")
        if text.startswith("#"):
            notes.append(text[1:].strip())
        elif text:
            yield Command(notes, text, end)
            notes = []


def call(words: Sequence[str]) -> str:
    """What a program says to these words. Where it refuses them this says its line."""
    done = subprocess.run(words, stdin=subprocess.DEVNULL, stdout=subprocess.PIPE, check=False)
    said = done.stdout.decode("utf-8", "replace")
    if done.returncode:
        tell("story", f"{' '.join(words[:2])}: {said.strip() or 'no answer'}")
        raise Refused(done.returncode if done.returncode > 0 else NOT_STARTED)
    return said


class Device:
    """A device as it is before all commands, in a folder of its own, and the pictures of what commands leave of it."""

    def __init__(self, programs: Programs, room: str, form: Sequence[str]) -> None:
        self.programs = programs
        self.image = f"{room}/IMAGE"
        self.served = f"{room}/SERVED"
        self.commands = f"{room}/COMMANDS"
        self.form = form
        self.numbers: Dict[bytes, int] = {}
        self.pictures: List[str] = []

    def serve(self, data: bytes, start: Sequence[str]) -> str:
        """The replies to these commands, on a copy that is left as they leave it."""
        shutil.copyfile(self.image, self.served)
        with open(self.commands, "wb") as file:
            file.write(data)
        return call([*start, "run", self.served, self.commands])

    def picture(self) -> int:
        """The number of the picture of the copy. Flashes that are equal share one."""
        with open(self.served, "rb") as file:
            image = file.read()
        if image not in self.numbers:
            self.numbers[image] = len(self.pictures)
            self.pictures.append(call([*self.programs.flash_view, *self.form, self.served]))
        return self.numbers[image]


def tell_story(device: Device, data: bytes, most: int) -> Story:
    """The story of these commands, up to this many."""
    device.serve(data, device.programs.first)
    before = device.serve(b"", device.programs.txflash)
    turns = [Turn([], "", before, device.picture())]
    commands = list(commands_of(data))
    for command in commands[:most]:
        said = device.serve(data[:command.end], device.programs.txflash)
        turns.append(Turn(command.notes, command.line, said[len(before):].rstrip("\n"), device.picture()))
        before = said
    if len(commands) > most:
        tell("story", f"the first {most} of {len(commands)} commands are told; --most tells more")
    return Story(turns, device.pictures)


# The page.

def cell_html(cell: str) -> str:
    """A cell of a picture as text, with its words as classes."""
    classes = " ".join(word for word in cell.split() if word in WORDS)
    return f"<span class='{classes}'>{html.escape(cell)}</span>"


def letter_html(letter: str) -> str:
    """A letter of an overview as text, with what it stands for as classes."""
    return f"<span class='{LETTERS[letter.lower()]}{' held' if letter.isupper() else ''}'>{letter}</span>"


def text_html(picture: str) -> str:
    """A picture as text. Cells stand between bars, and letters behind a label."""
    lines = []
    for line in picture.splitlines():
        letters = ROW.fullmatch(line)
        if letters:
            lines.append(letters[1] + "".join(map(letter_html, letters[2])))
            continue
        label, *cells = line.split("|")
        rest = "|".join(map(cell_html, cells[:-1]))
        lines.append(f"{html.escape(label)}|{rest}|" if cells else html.escape(label))
    return "<pre>" + "\n".join(lines) + "</pre>"


def turn_html(turn: Turn) -> str:
    """A line of the list: a command under its comments, and its reply."""
    notes = "".join(f"<p>{html.escape(note)}</p>" for note in turn.notes)
    line = f"<code>{html.escape(turn.line)}</code>" if turn.line else "<p>before the first command</p>"
    reply = f"<samp>{html.escape(turn.reply)}</samp>" if turn.reply else ""
    return f"<li data-picture='picture-{turn.picture}'>{notes}{line}{reply}</li>\n"


def page(name: str, story: Story, as_text: bool) -> str:
    """The whole page."""
    drawn = map(text_html, story.pictures) if as_text else story.pictures
    pictures = "".join(f"<template id='picture-{at}'>{it}</template>\n" for at, it in enumerate(drawn))
    parts = {"NAME": html.escape(name), "STYLE": STYLE, "SCRIPT": SCRIPT, "LAST": str(len(story.turns) - 1),
             "TURNS": "".join(map(turn_html, story.turns)), "PICTURES": pictures}
    return re.sub("@([A-Z]+)@", lambda it: parts[it[1]], PAGE)


# The call.

def parser() -> argparse.ArgumentParser:
    """The words of a call."""
    made = argparse.ArgumentParser(prog="story.py", description="Shows the flash of a device after each command.")
    made.add_argument("commands", metavar="COMMANDS", help="a file of commands")
    made.add_argument("image", metavar="IMAGE", nargs="?", help="an image file; without it the device is blank")
    made.add_argument("--device", default=SMALL, metavar="NUMBERS",
                      help=f"the words behind IMAGE of txflash format, for a blank device ('{SMALL}')")
    made.add_argument("--text", action="store_true", help="pictures as text, for large devices")
    made.add_argument("--most", type=int, default=500, metavar="N", help="how many commands are told at most (500)")
    made.add_argument("--unproved", action="store_true", help="with programs that are not proved, if none is built")
    return made


def starts(unproved: bool) -> Programs:
    """How the programs are started. Those that are proved are built first, where that is needed."""
    txflash, flash_view = f"{TOP}/txflash", f"{TOP}/flash_view"
    if unproved:
        return Programs([txflash, "--unproved", "--keep"], [flash_view, "--unproved"], [txflash, "--unproved"])
    return Programs([built_program("txflash")], [built_program("flash_view")], [txflash])


def story_of(asked: argparse.Namespace, room: str) -> str:
    """The page that a call asks for."""
    with open(asked.commands, "rb") as file:
        data = file.read()
    device = Device(starts(asked.unproved), room, [] if asked.text else ["--svg"])
    if asked.image is None:
        call([*device.programs.txflash, "format", device.image, *asked.device.split()])
    else:
        shutil.copyfile(asked.image, device.image)
    return page(os.path.basename(asked.commands), tell_story(device, data, asked.most), asked.text)


def main(words: Optional[Sequence[str]] = None) -> int:
    stop_at_signals()
    asked = parser().parse_args(words)
    with tempfile.TemporaryDirectory(prefix="txflash-story-") as room:
        try:
            told = story_of(asked, room)
        except Refused as error:
            return error.status
        except OSError as error:
            tell("story", f"{error.filename}: {error.strerror}")
            return 2
    sys.stdout.write(told)
    return 0


if __name__ == "__main__":
    sys.exit(main())
