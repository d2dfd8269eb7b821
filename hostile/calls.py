"""What a session of flash_serve asked of the system, as strace writes it down."""
import os
import re
from typing import Dict, Iterator, List, NamedTuple, Optional

# What is written of each call: strings whole and in hexadecimal digits.
STRACE = ["strace", "-xx", "-s", str(1 << 28), "-e", "signal=none", "-e",
          "trace=open,openat,read,write,pwrite64,pwritev,pwritev2,writev,fdatasync,fsync,ftruncate,close,flock,"
          "rename,renameat,renameat2,link,linkat,unlink,unlinkat"]
CALL = re.compile(r"(\w+)\((.*)\) += (-?\d+|0x[0-9a-f]+)(?: (\w+))?")
TEXT = re.compile(r'"((?:\\x[0-9a-f]{2})*)"')
# The names of a new file, by what stands behind that of the image.
BESIDE = re.compile(rb"\.saving\d*")


class Event(NamedTuple):
    """A write of bytes at a place of the image, a sync of it, or so many bytes that were said or heard. A new file is
    begun beside it, written and synced; it takes the place of the image; and the folder is synced."""
    kind: str
    place: int = 0
    data: bytes = b""


class Odd(Exception):
    """A call that is not expected, as it was written down."""


def texts_of(words: str) -> List[bytes]:
    return [bytes.fromhex(it.replace("\\x", "")) for it in TEXT.findall(words)]


def text_of(words: str) -> bytes:
    return (texts_of(words) or [b""])[0]


class Files:
    """The open files of a session: the image, a new one beside it, and its folder."""

    def __init__(self, image: str) -> None:
        self.image = image.encode()
        self.roles: Dict[str, str] = {}
        self.new_name, self.new_end, self.is_locked = b"", 0, False

    def is_new(self, name: bytes) -> bool:
        own = os.path.basename(name)
        return own.startswith(self.image) and bool(BESIDE.fullmatch(own[len(self.image):]))

    def take_opening(self, name: bytes, words: str, number: str) -> Optional[Event]:
        """Notes which file has a number from here on."""
        if self.is_new(name):
            if "O_EXCL" not in words:
                raise Odd(f"the opening of {name!r} may find a file there")
            self.roles[number], self.new_name, self.new_end, self.is_locked = "new", name, 0, False
            return Event("begun")
        if os.path.basename(name) == self.image:
            self.roles[number] = "image"
        elif os.path.isdir(name):
            self.roles[number] = "folder"
        return None

    def take_rename(self, words: str) -> Event:
        """The new file takes the name. It is locked then, and the other file is no longer asked anything."""
        names = texts_of(words)
        if names[:1] != [self.new_name] or os.path.basename(names[-1]) != self.image or not self.is_locked:
            raise Odd(f"a rename of {names}")
        self.roles = {number: {"new": "image", "image": "old"}.get(role, role) for number, role in self.roles.items()}
        return Event("put")

    def take_call_of_image(self, name: str, words: str, count: int) -> Optional[Event]:
        if name == "pwrite64":
            return Event("write", int(words.split(", ")[-1]), text_of(words)[:count])
        if name in ("fdatasync", "fsync"):
            return Event("sync")
        if name == "flock":
            return None
        raise Odd(f"{name} of the image")

    def take_call_of_new(self, name: str, words: str, count: int) -> Optional[Event]:
        if name == "write":
            self.new_end += count
            return Event("laid", self.new_end - count, text_of(words)[:count])
        if name in ("fdatasync", "fsync"):
            return Event("kept")
        if name == "flock":
            self.is_locked = True
            return None
        raise Odd(f"{name} of the new file")

    def take_call(self, name: str, words: str, answer: int) -> Optional[Event]:
        """A call of an open file, which is the first of its words."""
        number = words.split(", ")[0]
        role = self.roles.get(number)
        if name == "close":
            self.roles.pop(number, None)
        elif role == "image":
            return self.take_call_of_image(name, words, answer)
        elif role == "new":
            return self.take_call_of_new(name, words, answer)
        elif role == "folder" and name == "fsync":
            return Event("named")
        elif role:
            raise Odd(f"{name} of {role}")
        elif name == "read" and number == "0":
            return Event("heard", answer)
        elif name == "write" and number == "1":
            return Event("said", answer)
        return None


def events(lines: List[str], image: str) -> Iterator[Event]:
    """What was done, from the opening of the image on."""
    files = Files(image)
    for line in lines:
        found = CALL.match(line)
        if not found:
            continue
        name, words, answer = found[1], found[2], int(found[3], 0)
        if name in ("open", "openat"):
            if answer < 0 and files.roles and not (found[4] == "EEXIST" and files.is_new(text_of(words))):
                raise Odd(line[:200])
            event = files.take_opening(text_of(words), words, str(answer)) if answer >= 0 else None
        elif not files.roles:
            continue
        elif answer < 0:
            raise Odd(line[:200])
        elif name.startswith("rename"):
            event = files.take_rename(words)
        elif name.startswith(("link", "unlink")):
            raise Odd(line[:200])
        else:
            event = files.take_call(name, words, answer)
        if event:
            yield event
