"""The rows of `heavy-load` that send many commands, or make much by few."""

import os
import select
import time

import spelling
from clients import URL, edit, mebibytes
from heavy import MEBIBYTE
from spelling import (
    CLOSE_EDIT,
    LATEST,
    NO_TEXT,
    add_directory,
    add_file,
    close_directory,
    close_file,
    delta,
    document,
    integer,
    open_directory,
    open_file,
    string,
    window,
)

# how many commands the edits of the rows `properties` and `tokens` have
EDITS = [1000, 2000, 4000, 8000, 16000]
# how long a text of a file may be, and how much memory an edit may take, in MiB
TEXT, EDIT_LIMIT = 2**24, 4096
# how long a window of svndiff is that svnserve takes
WINDOW = 2**16
# how many texts of 16 MiB, directories and paths are in what a client has sent that goes
LEFT_TEXTS, LEFT_DIRECTORIES, LEFT_PATHS = 40, 20_000, 60_000


def commands(row):
    """Many commands in one piece."""
    count, client = row.options.count, row.client()
    answer = spelling.youngest(0)
    content, begun = memoryview(LATEST * count), time.monotonic()
    place, wanted = 0, len(answer) * count
    client.socket.setblocking(False)
    expected, sent = answer * 2000, 0
    while place < wanted and time.monotonic() < begun + 600:
        ready, writable, _ = select.select([client.socket], [client.socket] if sent < len(content) else [], [], 1)
        if writable:
            taken = client.socket.send(content[sent : sent + MEBIBYTE])
            sent, client.tally.sent = sent + taken, client.tally.sent + taken
        if ready:
            piece = client.socket.recv(len(answer) * 1000)
            begin = place % len(answer)
            if not piece or expected[begin : begin + len(piece)] != piece:
                row.fail(f"behind {place} bytes of answers comes {piece[:100]!r}")
                return
            place += len(piece)
    took = time.monotonic() - begun
    row.say(f"{place // len(answer)} of {count} commands in one piece are answered in {took:.1f} s, {count / took:,.0f} a second")
    if place != wanted:
        row.fail(f"{wanted - place} bytes of answers are missing")
    row.measure("behind that", 32)


def properties(row):
    """Edits with many properties of one entry."""

    def of_file(count):
        changes = (spelling.file_property("c1", f"p{number}", b"v") for number in range(count))
        return [add_file(f"f{count}", "d0", "c1"), *changes, spelling.close_file("c1")]

    def of_directory(count):
        changes = (spelling.directory_property("d1", f"p{number}", b"v") for number in range(count))
        return [add_directory(f"d{count}", "d0", "d1"), *changes]

    grows(row, "properties of a file", of_file)
    grows(row, "properties of a directory", of_directory)


def tokens(row):
    """Edits with many open directories, which are deleted."""
    names = {count: [f"d{count}/{number}" for number in range(count)] for count in EDITS}

    def adding(count):
        added = (add_directory(name, "d1", f"t{place}") for place, name in enumerate(names[count]))
        return [add_directory(f"d{count}", "d0", "d1"), *added]

    def deleting(count):
        opened = (open_directory(name, "d1", f"t{place}") for place, name in enumerate(names[count]))
        deleted = (spelling.delete_entry(name, "d1") for name in names[count])
        return [open_directory(f"d{count}", "d0", "d1"), *opened, *deleted]

    grows(row, "directories that are added", adding)
    grows(row, "directories that are opened and deleted", deleting)


def grows(row, what, commands):
    """Commits edits with ever more commands: what each takes of a processor may not grow with their number."""
    client, costs = row.client("alice"), []
    for count in EDITS:
        told, begun, worked = commands(count), time.monotonic(), row.server.seconds()
        edit(client, *told)
        took, worked = time.monotonic() - begun, row.server.seconds() - worked
        costs.append(worked / count)
        row.say(f"{count} {what}: {took:.2f} s, {worked:.2f} s of a processor, {worked / count * 1e6:.0f} us each")
    if costs[-1] > 4 * costs[0] + 0.0001:
        row.fail(f"of {EDITS[-1]} {what} each takes {costs[-1] * 1e6:.0f} us, and of {EDITS[0]} {costs[0] * 1e6:.0f} us")


def copied(length, offset):
    """An instruction of svndiff by which so many bytes of the source are copied from a place."""
    return b"\x00" + integer(length) + integer(offset)


def changed_text(number, size):
    """An svndiff document over a text of 16 MiB, in windows of this size, each with another first byte."""
    instructions, byte = b"\x81" + copied(size - 1, 1), b"%c" % (number % 256)
    return NO_TEXT + b"".join(window(begin, size, size, instructions, byte) for begin in range(0, TEXT, size))


def with_text(row, client):
    """A file with a text of 16 MiB. Gives its revision."""
    with row.attack("a text of 16 MiB, by copies of one of 64 KiB"):
        edit(client, add_file("f", "d0", "c1"), *delta("c1", document(os.urandom(WINDOW))))
        pieces = b"".join(window(0, WINDOW, WINDOW, copied(WINDOW, 0), b"") for _ in range(TEXT // WINDOW))
        return edit(client, open_file("f", "d0", "c1"), *delta("c1", NO_TEXT + pieces))


def left(row):
    """Clients that go within an edit and a report, behind more than the server has read, and while their commit is made."""
    with_text(row, row.client("alice"))
    texts = ([open_file("f", "d0", "c1"), *delta("c1", changed_text(number, TEXT)), close_file("c1")] for number in range(LEFT_TEXTS))
    directories = b"".join(add_directory(f"d{number}", "d0", "d1") + close_directory("d1") for number in range(LEFT_DIRECTORIES))
    for what, user, content in (
        (f"{LEFT_PATHS:,} paths of a report", None, spelling.delete_path("no/such/path") * LEFT_PATHS),
        (f"{LEFT_DIRECTORIES:,} directories of an edit", "alice", directories),
        (f"{LEFT_TEXTS} texts of 16 MiB of an edit", "alice", b"".join(sum(texts, []))),
        (f"a commit of {LEFT_DIRECTORIES:,} directories", "alice", directories + CLOSE_EDIT),
    ):
        client = row.client(user)
        client.send(spelling.commit("left") + spelling.open_root() if user else spelling.update() + spelling.set_path("", 0))
        for _ in range(2 if user else 1):
            client.succeed()
        with row.attack(f"a client goes behind {what}"):
            client.send(content)
            took = row.go(client)
        row.say(f"a client goes behind {what}: its place is free after {took:.2f} s")


def saving(row):
    """A commit of many long texts, of which few bytes are sent."""
    alice, size = row.client("alice"), WINDOW if row.is_other else TEXT
    revision = with_text(row, alice)
    source, commands, count = string(f"{URL}/f") + b"%d " % revision, [], row.options.texts
    for number in range(count):
        changes = delta("c1", changed_text(number, size))
        commands += [add_file(f"f{number}", "d0", "c1", source), *changes, close_file("c1")]
    with row.attack(f"a commit of {count} texts of 16 MiB, which are copied but for a byte") as cost:
        edit(alice, *commands)
    if cost.memory > EDIT_LIMIT * 1024:
        row.fail(f"the edit has taken {mebibytes(cost.memory)}, more than {EDIT_LIMIT} MiB")
