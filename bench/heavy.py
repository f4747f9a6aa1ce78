"""A row of `heavy-load`: a server with plain clients beside it, and what the rows share."""

import math
import os
import socket
import struct
import tempfile
import time
from contextlib import contextmanager
from pathlib import Path
from types import SimpleNamespace
from typing import Callable, NamedTuple

from clients import Client, OtherServer, Server, Tally, Watch, edit, forget_peak, mebibytes
from spelling import add_directory

# how many sessions a row takes: one of the sixteen places is the plain client's, and one that commits has a place of its own
PLACES = 15
MEBIBYTE = 2**20
# how soon the place of a client that has gone is to be free, and what a plain client does takes at most, in seconds
FREE_WITHIN, DONE_WITHIN = 1.0, 1.0
# how long is waited for a place that is not free then
FREE_AT_LAST = 60
# how long a command may take: with the other server it is not waited for longer than a minute
LONGEST, LONGEST_OF_OTHERS = 600, 60


# What `./svnserved` and the unit of the package tell the C library: threads share what others have given back, and what is large
# goes back to the system.
ALLOCATOR = {"MALLOC_ARENA_MAX": "1", "MALLOC_MMAP_THRESHOLD_": "98304"}


class Kind(NamedTuple):
    """What a row is: what it does, and what its server and those beside it are."""

    play: Callable
    # how many bytes of addresses the server has, and its further options
    address_space: int | None = None
    options: tuple = ()
    # whether standard error is read
    is_read: bool = True
    # whether a client commits beside it, and whether it is a fault where that waits for longer than it may
    has_commits: bool = True
    judges_commits: bool = True
    # whether Debian's svnserve has it too: it asks for no limit of this server's own, and reads nothing of its journal
    is_of_others: bool = False


class Row:
    """A server with a plain client beside it, and mostly one that commits; and what is found of it."""

    def __init__(self, name, kind, options, is_other=False):
        self.name, self.kind, self.options, self.is_other = name, kind, options, is_other
        self.faults, self.clients, self.tally = [], [], Tally()
        self.room = tempfile.TemporaryDirectory()
        self.server = self.started(Path(self.room.name))
        self.watches = [Watch(self.server.port, options.within)]
        if kind.has_commits:
            limit = options.commits_within if kind.judges_commits else math.inf
            self.watches.append(Watch(self.server.port, limit, pause=0.2, commits=True))
        self.first, self.worked = self.server.memory()[0], self.server.seconds()

    def started(self, room):
        """Starts its server."""
        if self.is_other:
            for name in ALLOCATOR:
                os.environ.pop(name, None)
            return OtherServer(room)
        os.environ.update(ALLOCATOR)
        places = ["--sessions", str(PLACES + 2)] if self.kind.has_commits else []
        words = [*places, *self.kind.options]
        return Server(self.options.program, room, self.kind.address_space, is_read=self.kind.is_read, options=words)

    def say(self, text):
        """Prints a line of this row."""
        print(f"{'svnserve, ' if self.is_other else ''}{self.name}: {text}", flush=True)

    def fail(self, text):
        """Something is not as it should be, or is otherwise with the other server."""
        if self.is_other:
            self.say(f"otherwise: {text}")
        else:
            self.faults.append(f"{self.name}: {text}")

    def client(self, user=None, timeout=LONGEST, through=None, **words):
        """One more client, through a tunnel where a folder is named."""
        self.clients.append(Client(through or self.server.port, user, timeout=timeout, tally=self.tally, **words))
        return self.clients[-1]

    def patience(self):
        """How long an answer is waited for, in seconds."""
        return LONGEST_OF_OTHERS if self.is_other else LONGEST

    def go(self, *clients):
        """These clients go. Gives how long it took until their places were free."""
        for client in clients:
            client.close()
            self.clients.remove(client)
        return self.free()

    def vanish(self, *clients):
        """These clients go without a word."""
        for client in clients:
            client.socket.setsockopt(socket.SOL_SOCKET, socket.SO_LINGER, struct.pack("ii", 1, 0))
        return self.go(*clients)

    def leave(self):
        """All clients go."""
        self.go(*self.clients)

    def free(self):
        """Waits until the places of all that have gone are free, which has to be within a second. Gives how long it took."""
        begun, there = time.monotonic(), len(self.clients) + len(self.watches)
        while (left := self.server.sessions() - there) > 0 and time.monotonic() < begun + FREE_AT_LAST:
            time.sleep(0.01)
        took = time.monotonic() - begun
        if left > 0:
            self.fail(f"{left} sessions go on {took:.0f} s after their clients have gone")
        elif took > FREE_WITHIN:
            self.fail(f"places are free {took:.2f} s after their clients have gone")
        return took

    @contextmanager
    def attack(self, what):
        """Says what something costs: the bytes that are sent for it, its time, the server's memory above what it was before, and
        what those beside it wait. That is in what it hands out, once it is over."""
        forget_peak(self.server.pid)
        for watch in self.watches:
            watch.recent()
        cost, sent, begun = SimpleNamespace(), self.tally.sent, time.monotonic()
        worked, before = self.server.seconds(), self.server.memory()[0]
        try:
            yield cost
        finally:
            cost.seconds, cost.sent = time.monotonic() - begun, self.tally.sent - sent
            cost.worked, cost.memory = self.server.seconds() - worked, self.server.memory()[1] - before
            waits = " and ".join(f"{watch.recent() * 1000:.0f} ms" for watch in self.watches)
            self.say(
                f"{what}: {cost.sent:,} bytes are sent, {cost.seconds:.2f} s, {cost.worked:.2f} s of a processor, "
                f"{mebibytes(cost.memory)} more; those beside it wait {waits}"
            )

    def measure(self, what, most=None):
        """Says what memory is, and fails where it is more than it may be, in MiB above that of the beginning."""
        now, peak = self.server.memory()
        self.say(f"{what}: memory {mebibytes(now)}, peak {mebibytes(peak)}")
        if most is not None and now > self.first + most * 1024:
            self.fail(f"{what}, memory is {mebibytes(now)}, more than {most} MiB above {mebibytes(self.first)}")
        return now

    def settle(self, seconds=2):
        """Gives the server some time to give memory back."""
        time.sleep(seconds)

    def end(self):
        """Stops it. What was wrong."""
        self.leave()
        worked = self.server.seconds() - self.worked
        self.say(f"{self.tally.sent:,} bytes were sent in all, for which it has worked {worked:.2f} s of a processor, with those beside it")
        for watch in self.watches:
            count, slowest, fault = watch.end()
            late = f"where the machine was late by {watch.late * 1000:.0f} ms at most"
            self.say(f"{watch.name} beside it was answered {count} times, at the latest after {slowest * 1000:.0f} ms, {late}")
            if fault:
                self.fail(fault)
        if found := self.server.fault():
            self.fail(found)
        self.server.stop()
        begun = time.monotonic()
        if found := self.server.verify():
            self.fail(found)
        self.say(f"the folder is verified{'' if self.is_other else ' and opened again'} in {time.monotonic() - begun:.1f} s")
        self.room.cleanup()
        return self.faults


def takes_at_most(row, what, most):
    """Says what memory was at its highest, and fails where it was more than it may be, in MiB above that of the beginning."""
    peak = row.server.memory()[1]
    row.say(f"{what}: peak {mebibytes(peak)}, {(peak - row.first) / PLACES / 1024:.1f} MiB a session")
    if peak > row.first + most * 1024:
        row.fail(f"{what}, memory was {mebibytes(peak)}, more than {most} MiB above {mebibytes(row.first)}")


def goes_on(row, most=96):
    """The session that asked for too much has gone: the server serves others, who change something."""
    row.leave()
    row.settle(3)
    row.measure("it has gone", most)
    with Client(row.server.port, "alice") as other:
        edit(other, add_directory("after", "d0", "d1"))


def timed(row, what, call, *given):
    """Does something, and says how long it took, which is to be less than a second."""
    begun = time.monotonic()
    result = call(*given)
    took = time.monotonic() - begun
    row.say(f"{what}: {took * 1000:.1f} ms")
    if took > DONE_WITHIN:
        row.fail(f"{what} took {took:.1f} s")
    return result


def listed(client, command):
    """What a log or locations have in them."""
    client.send(command)
    client.succeed()
    told = []
    while (found := client.item()) != "done":
        told.append(found)
    client.succeed()
    return told


def asks(row, what, answer, *given, most=None, **words):
    """A client asks for something, and takes it, for which a processor may have at most so many seconds. Gives what it is told, which
    is nothing where that takes too long."""
    client, told = row.client(timeout=row.patience(), **words), []
    try:
        with row.attack(what) as cost:
            told = answer(client, *given)
    except TimeoutError:
        row.fail(f"{what} takes more than {row.patience()} s")
    if most is not None and cost.worked > most:
        row.fail(f"{what} takes {cost.worked:.2f} s of a processor, more than {most} s")
    row.go(client)
    return told


def told_in_journal(row, part):
    """How many lines of the journal have this in them."""
    return sum(part in line for line in row.server.journal.read_text().splitlines())


def goes_within(row, what, command, **words):
    """A client sends a command that takes long, and goes: its session has to end within a second. Gives how long it took. It takes
    what has come, as else the system tells the server that it has gone."""
    client = row.client(**words)
    client.send(command)
    time.sleep(0.2)
    client.socket.setblocking(False)
    try:
        while client.socket.recv(MEBIBYTE):
            pass
    except BlockingIOError:
        pass
    took = row.go(client)
    row.say(f"a client goes within {what}: its place is free after {took:.2f} s")
    return took
