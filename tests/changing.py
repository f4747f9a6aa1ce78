"""Clients whose commits are known by their messages, and what they find in a repository: what `fail-calls` changes it by."""

from typing import NamedTuple

import spelling
from clients import URL, Client, Ended, ItemStream, Refused, Tally, failure_of
from spelling import CLOSE_EDIT

# seconds within which each answer comes
LIMIT = 20
# what each commit changes, by its message: of each file whether it is new, and its text
COMMITS = {
    "first": {"file": ("A", b"one\n"), "held": ("A", b"held\n")},
    "two": {"a": ("A", b"first of a\n" * 200), "b": ("A", b"first of b\n")},
    "more": {"file": ("M", b"two\n"), "a": ("M", b"second of a\n" * 100)},
    "next": {"next": ("A", b"next\n")},
    "beside": {"beside": ("A", b"beside\n")},
    "last": {"last": ("A", b"last\n")},
}


class Wrong(Exception):
    """Something is not as it should be."""


class State(NamedTuple):
    """What a repository has: the messages of its revisions, which files are locked, and a property of revision 1."""

    messages: tuple
    locks: set
    mark: str

    def then(self, *messages):
        """The same with further revisions."""
        return self._replace(messages=(*self.messages, *messages))

    def shows(self, place, seen):
        """Whether a look sees this of it."""
        return (len(self.messages), self.locks, self.mark)[place] == seen


class Caller(Client):
    """A client, also one that speaks through a socket of a program. A greeting may refuse it too."""

    def __init__(self, port=None, user=None, through=None):
        if through is None:
            super().__init__(port, user, timeout=LIMIT)
            return
        self.socket, self.stream, self.waiting, self.tally = through, ItemStream(), [], Tally()
        self.socket.settimeout(LIMIT)
        self.log_in(None, URL)

    def log_in(self, user, url, password=None):
        """The exchanges up to the first command."""
        try:
            super().log_in(user, url, password)
        except Ended:
            if failure := failure_of(getattr(self, "greeting", None)):
                raise Refused(failure) from None
            raise

    def commit(self, message, tokens=()):
        """Commits. Whether locks were released too, as they had to be."""
        edit = [spelling.open_root()]
        for path, (action, text) in COMMITS[message].items():
            edit.append(spelling.add_file(path, "d0", "c") if action == "A" else spelling.open_file(path, "d0", "c"))
            edit += [*spelling.delta("c", *spelling.whole_text(text)), spelling.close_file("c")]
        self.ask(spelling.commit(message, tokens))
        self.send(b"".join(edit) + CLOSE_EDIT)
        self.succeed()
        self.succeed()
        told = self.item()
        if told[0] == "failure":
            raise Refused(failure_of(told))
        return told[3] == []

    def release(self, message):
        """Commits a file that was locked."""
        return self.commit(message, [("file", self.token)])

    def lock(self, path):
        """Locks a file, and keeps the token."""
        self.token = self.ask(spelling.lock(path))[0][1].decode()
        return True

    def unlock(self, path):
        """Takes a lock away."""
        self.ask(spelling.unlock(path, breaks=True))
        return True

    def mark(self, text):
        """Changes a property of revision 1."""
        self.ask(spelling.change_revision_property(1, "mark", text))
        return True

    def look(self):
        """The number of revisions, the locks, and the property of revision 1, if there is one: one look after another."""
        revisions = self.youngest()
        locks = {lock[0].decode().strip("/") for lock in self.ask(spelling.get_locks(""))[0]}
        mark = self.ask(spelling.revision_property(1, "mark"))[0] if revisions else []
        return [revisions, locks, b"".join(mark).decode()]

    def state(self):
        """All that is there. Each revision is a commit, whole, and the last one has the texts of all."""
        revisions, locks, mark = self.look()
        return State(self.messages(revisions) if revisions else (), locks, mark)

    def messages(self, revisions):
        """The messages of the revisions."""
        self.send(spelling.log([""], b"1 ", b"%d " % revisions, changes=True))
        self.succeed()
        found, texts = [], {}
        while (entry := self.item()) != "done":
            changes, number, message = entry[0], entry[1], entry[4][0].decode()
            wanted = {(f"/{path}".encode(), action) for path, (action, _) in COMMITS[message].items()}
            found.append(message)
            if {(change[0], change[1]) for change in changes} != wanted or number != len(found):
                raise Wrong(f"revision {number} is {message}, and changes {changes}")
            texts |= {path: text for path, (_, text) in COMMITS[message].items()}
        self.succeed()
        self.check_texts(texts)
        return tuple(found)

    def check_texts(self, texts):
        """The last revision has these files and no others."""
        there = {entry[0].decode() for entry in self.ask(spelling.get_directory(""))[2]}
        if there != set(texts):
            raise Wrong(f"the last revision has the files {sorted(there)}")
        for path, text in texts.items():
            self.ask(spelling.get_file(path))
            found = b"".join(iter(self.item, b""))
            self.succeed()
            if found != text:
                raise Wrong(f"{path} has another text: {found[:100]}")
