"""What is wrong with a line of a file of commands or of a key script, and with the words of a call.

The program names the first bad line, or says `bad words`. This reads the grammar of docs/formats.md once more and
names a reason."""
from typing import Dict, List, NamedTuple, Optional, Sequence

MOST_COMMANDS = 65536
MOST_ENTRIES = 262144
MOST_NUMBER = 2 ** 32 - 1
KEY_BYTES = 15
OUTCOMES = ("none", "all", "bad")
PROTOCOLS = ("scc", "bpcc")
DIGITS = set("0123456789")
HEX = set("0123456789abcdefABCDEF")

# What stands behind the first word of a line: P a page, T a tag, N a count, O an outcome, K a key, and entries.
COMMANDS = {
    "read": "P", "write": "T P=H ..", "step": "T", "finish": "T", "abort": "T", "stepall": "", "collect": "",
    "stats": "", "explain": "", "cut": "N O", "fault": "N O", "badread": "N",
}
KEY_COMMANDS = {"put": "K=V ..", "get": "K", "cut": "N O"}

# The words of a call, and what each call does.
ROWS = (
    ("try", "COMMANDS", "serves the commands of a file on a fresh device in memory"),
    ("format", "IMAGE PROTOCOL PAGE PAGES BLOCKS DIES LOGICAL PENDING [ALLOWANCE]",
     "writes an image file with a blank device"),
    ("run", "IMAGE COMMANDS", "serves the commands of a file on the device of an image, and saves the image"),
    ("explain", "IMAGE", "prints the verdict on each page of an image"),
    ("check", "IMAGE REPORT", "prints whether a file is the report on an image"),
    ("compare", "A B", "prints whether two images have the same array, or where they differ first"),
    ("keys", "IMAGE SCRIPT", "serves puts and gets of short keys on the device of an image, and saves the image"),
    ("retire", "IMAGE BLOCK", "puts a fresh block in place of one of an image, and saves the image"),
    ("drive", "START COUNT PROTOCOL", "serves generated commands on a fresh device in memory, and sums up the replies"),
)
FORMS = {verb: form for verb, form, _ in ROWS}
NAMES = ("IMAGE", "COMMANDS", "REPORT", "SCRIPT", "A", "B")
# The greatest number and the most digits of those words that are not as all others.
GREATEST = {"START": (2 ** 64 - 1, 20), "COUNT": (100000, 10)}


class Mistake(NamedTuple):
    """The number of a bad line from 1, its text, and what is wrong with it."""
    number: int
    line: str
    why: str


def shown_text(text: str, most: int = 60) -> str:
    """A text in one line, without what a terminal would not show."""
    plain = "".join(it if " " <= it <= "~" else f"\\x{ord(it):02x}" for it in text[:most + 1])
    return f"`{plain if len(plain) <= most else plain[:most] + ' ..'}`"


def words_behind(words: Sequence[str], verb: str) -> str:
    """How many words stand behind a first one."""
    return f"{len(words) or 'no'} word{'' if len(words) == 1 else 's'} behind {verb}"


# Words of a line.

def why_number(word: str, most: int = MOST_NUMBER, digits: int = 10) -> Optional[str]:
    """Why a word is no number, if it is none."""
    if not word:
        return "a number is missing"
    if word[0] in "+-":
        return f"{shown_text(word)}: a number has no sign"
    if word[:2].lower() == "0x":
        return f"{shown_text(word)}: numbers are decimal, without 0x"
    if not DIGITS.issuperset(word):
        return f"{shown_text(word)} is no number: a number has decimal digits alone"
    if len(word) > digits:
        return f"{shown_text(word)}: a number has at most {digits} digits"
    return f"{shown_text(word)}: the number is at most {most}" if int(word) > most else None


def why_count(word: str) -> Optional[str]:
    """Why a word is no count of an arm, if it is none."""
    why = why_number(word)
    return why or ("a count of 0: the next one is 1" if int(word) == 0 else None)


def why_outcome(word: str) -> Optional[str]:
    """Why a word is no outcome, if it is none."""
    return None if word in OUTCOMES else f"{shown_text(word)}: the outcome is none, all or bad"


def why_hex(word: str, most: int) -> Optional[str]:
    """Why a word is not the digits of one byte up to so many, if it is not."""
    if word[:2].lower() == "0x":
        return f"{shown_text(word)}: hexadecimal digits stand without 0x"
    if not HEX.issuperset(word):
        return f"{shown_text(word)} has other characters than hexadecimal digits"
    if len(word) % 2:
        return f"{shown_text(word)}: a byte has two digits, and {len(word)} digits are an odd number"
    if not 2 <= len(word) <= 2 * most:
        return f"{shown_text(word)}: {len(word) // 2} bytes, where there are from 1 to {most}"
    return None


def why_pair(word: str, wanted: str) -> Optional[str]:
    """Why a word is not two parts with an equals sign between them, if it is not."""
    if word.count("=") == 1:
        return None
    return f"{shown_text(word)} has {'no' if '=' not in word else 'more than one'} equals sign: it should be {wanted}"


def why_entry(word: str, page_bytes: int) -> Optional[str]:
    """Why a word is no entry of a write to pages of that size, if it is none."""
    why = why_pair(word, "P=H")
    if why:
        return why
    page, contents = word.split("=")
    return why_number(page) or (None if contents in ("~", "-") else why_hex(contents, page_bytes))


def why_change(word: str) -> Optional[str]:
    """Why a word is no change of a key, if it is none."""
    why = why_pair(word, "K=V")
    if why:
        return why
    key, value = word.split("=")
    return why_hex(key, KEY_BYTES) or (None if value in ("~", "-") else why_hex(value, KEY_BYTES))


def why_word(kind: str, word: str, page_bytes: int) -> Optional[str]:
    """Why a word is not of a kind, if it is not."""
    if kind == "P=H":
        return why_entry(word, page_bytes)
    if kind == "K=V":
        return why_change(word)
    if kind == "K":
        return why_hex(word, KEY_BYTES)
    if kind == "O":
        return why_outcome(word)
    return why_count(word) if kind == "N" else why_number(word)


# Lines.

def why_characters(line: str) -> Optional[str]:
    """Which character no command has, if there is one in a line that is no comment."""
    if line.startswith("TXFLASH"):
        return "the file is an image"
    strange = next((it for it in line if not (" " <= it <= "~" or it == "\t")), None)
    if strange is None:
        return None
    if line.startswith("\xef\xbb\xbf"):
        return "the file begins with a byte order mark (ef bb bf): save it without one"
    if strange == "\0" or line[:2] in ("\xff\xfe", "\xfe\xff"):
        return "the file is no text of bytes: perhaps it is UTF-16"
    if strange == "\r":
        return "a carriage return that ends no line: lines end with a line feed, or with one carriage return before it"
    if "\xc2\xa0" in line or strange == "\xa0":
        return "a no-break space: words are divided by spaces and tabs"
    return f"a byte {ord(strange):02x}, where a command has ASCII alone"


def why_verb(verb: str, forms: Dict[str, str]) -> str:
    """Why a first word begins no command."""
    if verb.lower() in forms:
        return f"commands are in lower case: {verb.lower()}"
    if verb in COMMANDS:
        return f"{verb} is a command of ./txflash run and try; a key script has put, get and cut"
    if verb in KEY_COMMANDS:
        return f"{verb} is a command of key scripts, which ./txflash keys serves"
    return f"there is no command {shown_text(verb)}"


def why_signs(words: Sequence[str]) -> Optional[str]:
    """Which sign behind the first word of a line makes it bad, whatever the line asks for, if one does."""
    for word in words:
        if word.startswith("#"):
            return "a comment behind a command: it needs a line of its own"
        if "," in word or ";" in word:
            return f"{shown_text(word)}: words are divided by blanks, not by , or ;"
        if word.startswith("=") or word.endswith("="):
            return f"{shown_text(word)}: there are no blanks at the equals sign, and a part on each side of it"
    return None


def why_line(line: str, words: Sequence[str], forms: Dict[str, str], page_bytes: int) -> Optional[str]:
    """Why a line with words that is no comment is no command, if it is none."""
    verb, rest = words[0], words[1:]
    why = why_characters(line)
    if why or verb not in forms:
        return why or why_verb(verb, forms)
    why = why_signs(rest)
    if why:
        return why
    kinds = forms[verb].split()
    if kinds[-1:] == [".."]:
        kinds = kinds[:-2] + [kinds[-2]] * (len(rest) - len(kinds) + 2)
    if len(rest) != len(kinds):
        return f"{words_behind(rest, verb)}, where {forms[verb] or 'nothing'} should stand"
    found = (why_word(kind, word, page_bytes) for kind, word in zip(kinds, rest))
    return next((it for it in found if it), None)


def lines_of(data: bytes) -> List[str]:
    """The lines of a file, each byte a character."""
    lines = data.decode("latin-1").split("\n")
    if lines[-1] == "":
        lines.pop()
    return [it[:-1] if it.endswith("\r") else it for it in lines]


def words_of(line: str) -> List[str]:
    """The words of a line: spaces and tabs divide them."""
    return [it for it in line.replace("\t", " ").split(" ") if it]


def first_mistake(data: bytes, forms: Dict[str, str], page_bytes: int) -> Optional[Mistake]:
    """The first bad line of a file of such commands for pages of that size, if there is one."""
    commands = entries = 0
    for number, line in enumerate(lines_of(data), 1):
        words = words_of(line)
        if not words or words[0].startswith("#"):
            continue
        why = why_line(line, words, forms, page_bytes)
        commands += 1
        entries += len(words) - 2 if words[0] == "write" else 0
        if not why and commands > MOST_COMMANDS:
            why = f"a file has at most {MOST_COMMANDS} commands"
        if not why and entries > MOST_ENTRIES:
            why = f"the writes of a file have at most {MOST_ENTRIES} entries"
        if why:
            return Mistake(number, line, why)
    return None


# Words of a call.

def why_call_word(kind: str, word: str) -> Optional[str]:
    """Why a word of a call is not of a kind, if it is not."""
    if kind in NAMES:
        return None if word else f"{kind} is an empty name"
    if kind == "PROTOCOL":
        return None if word in PROTOCOLS else f"{shown_text(word)}: PROTOCOL is scc or bpcc"
    why = why_number(word, *GREATEST.get(kind, (MOST_NUMBER, 10)))
    return f"{kind}: {why}" if why else None


def why_words(words: Sequence[str]) -> Optional[str]:
    """Why these are not the words of a call, if they are not."""
    if any("\udc80" <= it <= "\udcff" for word in words for it in word):
        return "a word is not UTF-8"
    if not words:
        return "there are no words"
    verb, rest = words[0], words[1:]
    if verb not in FORMS:
        known = verb.strip().lower()
        return f"words are in lower case: {known}" if known in FORMS else f"there is no word {shown_text(verb)}"
    kinds = FORMS[verb].split()
    if kinds[-1].startswith("["):
        kinds = kinds[:-1] + [kinds[-1].strip("[]")] * (len(rest) >= len(kinds))
    if len(rest) != len(kinds):
        return f"{words_behind(rest, verb)}, where {FORMS[verb]} should stand"
    found = (why_call_word(kind, word) for kind, word in zip(kinds, rest))
    return next((it for it in found if it), None)
