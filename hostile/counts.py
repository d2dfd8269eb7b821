"""When an armed break has to come: what `stats` says of programs and erases beside what was armed.

A cut or a fault that is armed for the N-th program or erase comes in exactly that one. The programs and erases that
were called are those that `stats` counts and those that were broken. Where the replies do not tell them all, nothing is
tried."""
from typing import Dict, List, Optional

from grammar import Command

QUIET = ("read", "write", "abort", "stats", "explain", "cut", "fault", "badread")


class Counts:
    def __init__(self) -> None:
        self.programs = self.erases = 0
        # Programs that were done together with others, and count as none of their own for the arms; and how many calls
        # were broken in which several may have been.
        self.together = self.broken_together = 0
        self.broken: Optional[int] = 0
        # How many calls were made, where that is known, and the call at which an arm comes due.
        self.calls: Optional[int] = 0
        self.due: Dict[str, Optional[int]] = {}
        self.armed_reads = False
        self.came: Optional[int] = None

    def take(self, command: Command, reply: str) -> Optional[str]:
        """What is wrong with this reply, or nothing."""
        verb, word = command.verb, reply.split(" ")[0]
        if verb not in QUIET:
            self.calls = self.came = None
        if verb == "stepall" and word in ("dropped", "cut"):
            self.broken_together += 1
        if word == "armed":
            self.arm(command)
        elif word in ("fault", "dropped"):
            self.fault(verb)
        elif word == "moved":
            self.together += max(0, int(reply.split(" ")[1]) - 1)
        elif word == "cut":
            self.cut()
        elif verb == "stats":
            return self.stats(reply.split(" "))
        return None

    def arm(self, command: Command) -> None:
        if command.verb == "badread":
            self.armed_reads = True
        else:
            self.due[command.verb] = None if self.calls is None else self.calls + command.number

    def fault(self, verb: str) -> None:
        if verb in QUIET:
            return
        if "fault" in self.due and self.armed_reads:
            self.broken = None
        elif "fault" in self.due:
            self.came = self.due.pop("fault")
            self.broken = None if self.broken is None else self.broken + 1

    def cut(self) -> None:
        self.came = self.due.pop("cut", None)
        self.broken = None if self.broken is None else self.broken + 1
        if "fault" in self.due and (self.came is None or self.due["fault"] in (None, self.came)):
            self.due.pop("fault")
            self.broken = None

    def stats(self, words: List[str]) -> Optional[str]:
        programs, erases = int(words[8]), int(words[10])
        if programs < self.programs or erases < self.erases:
            return "a count of programs or erases fell"
        calls = None if self.broken is None else programs + erases + self.broken - self.together
        wrong = None
        if self.calls is not None and calls is not None and calls != self.calls:
            wrong = "programs or erases where nothing was done"
        if self.came is not None and calls is not None and calls != self.came:
            wrong = f"a break came at call {calls} and was due at {self.came}"
        late = [it for it in self.due.values() if it is not None]
        if calls is not None and late and calls >= min(late):
            wrong = "an armed break did not come"
        self.programs, self.erases, self.calls, self.came = programs, erases, calls, None
        return wrong
