"""What a program does to the files of a folder, as `power-cut` records it."""

import os
import sys
from typing import NamedTuple

from watched import KILL, MAKE

WRITES = ("write", "pwrite64", "writev", "sendto")
NAMES = ("open", "openat", "creat", "mkdir", "mkdirat", "rename", "renameat", "renameat2", "unlink", "unlinkat", "rmdir")
CALLS = (*WRITES, *NAMES, "fsync", "fdatasync", "ftruncate")
# the place of a call's first path among its arguments, and that of the folder in which it is
PLACES = {name: (1, 0) if name.endswith(("at", "at2")) and name != "creat" else (0, None) for name in NAMES}


class Event(NamedTuple):
    """A call of the program: what it is for the disk, or that a client is sent something; and how many changes were asked for by then."""

    kind: str
    words: tuple
    asked: int

    def __str__(self):
        named = [f"{len(word)} bytes" if isinstance(word, bytes) else word for word in self.words if isinstance(word, (str, bytes))]
        return " ".join([self.kind, *named])


class Record:
    """The calls of a program at the files in a folder. A program can be killed before one of its calls of fsync."""

    def __init__(self, place, disk):
        self.place, self.disk, self.events, self.told = place, disk, [], []
        self.asked, self.is_opening, self.kills_before = 0, False, None

    def __call__(self, call):
        kind, *words = self.event_of(call) or ("nothing",)
        if kind == "sync" and self.is_opening:
            kind = "settle"
        elif kind == "sync" and self.kills_before is not None:
            if self.kills_before == 0:
                return KILL
            self.kills_before -= 1
        if kind != "nothing":
            self.events.append(Event(kind, tuple(words), self.asked))
        return MAKE

    def inside(self, path):
        """A path from the folder on, if it is in it. That of the folder itself is empty."""
        if path == str(self.place):
            return ""
        return os.path.relpath(path, self.place) if path.startswith(f"{self.place}/") else None

    def event_of(self, call):
        """What a call is for the disk or for clients, if anything."""
        if call.name in NAMES:
            at, folder = PLACES[call.name]
            path = self.inside(call.path(at, folder))
            return path and self.of_name(call, path, at)
        file = call.file()
        path = self.inside(file)
        if call.name in WRITES and file.startswith("socket:"):
            return ("sent",)
        if path is None:
            return None
        if call.name in WRITES:
            content = call.pieces(1) if call.name == "writev" else call.memory(call.arguments[1], call.arguments[2])
            return "write", path, call.arguments[3] if call.name == "pwrite64" else call.position(), content
        return ("resize", path, call.arguments[1]) if call.name == "ftruncate" else ("sync", path)

    def of_name(self, call, path, at):
        """What a call is that has a path inside."""
        if call.name.startswith("rename"):
            new = call.path(1, None) if at == 0 else call.path(3, 2)
            return "rename", path, os.path.relpath(new, self.place)
        if call.name in ("open", "openat", "creat"):
            flags = os.O_CREAT | os.O_TRUNC if call.name == "creat" else call.arguments[at + 1]
            return ("make", path, flags) if flags & (os.O_CREAT | os.O_TRUNC) else None
        return "mkdir" if call.name.startswith("mkdir") else "remove", path

    def tell(self):
        """The client has been answered, by what was sent last."""
        sent = [place for place, event in enumerate(self.events) if event.kind == "sent"]
        if not sent or self.events[sent[-1]].asked != self.asked:
            sys.exit("an answer came that is not in the record")
        self.told.append(sent[-1])
