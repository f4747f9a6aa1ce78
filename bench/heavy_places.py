"""The rows of `heavy-load` that take places and do nothing with them."""

import os
import select
import socket
import subprocess
import tempfile
import time
from concurrent.futures import ThreadPoolExecutor

import spelling
from clients import FULL, URL, Client, Ended, Refused, connect, connect_in, edit
from heavy import MEBIBYTE, PLACES, told_in_journal
from spelling import CLOSE_EDIT, CRAM_MD5, add_directory, add_file, delta, document, greeting_answer, string

# an address of this machine that no other client has, how many sessions it may have, and how many come beyond these
STRANGER, PER_ADDRESS, COMING = "127.0.0.2", 4, 200
# how many come at once where all places are taken, and how many of them may wait for one
CROWD, MOST_WAITING = 100, 64
# how many connect through a tunnel and say nothing
SPEECHLESS = 60
# how many of Subversion's own clients are at work at once
WORKING = 24


def is_over(connection):
    """Whether the server has closed a connection, of which what it has sent was read."""
    if not select.select([connection], [], [], 0)[0]:
        return False
    try:
        return connection.recv(1, socket.MSG_PEEK) == b""
    except OSError:
        return True


def greeted(row):
    """A connection that was greeted, and has sent nothing."""
    connection = connect(row.server.port)
    while not connection.recv(4096).endswith(b") ) ) "):
        pass
    return connection


def comes(row, what, seconds=5):
    """A client comes, and has to be served within some seconds."""
    begun = time.monotonic()
    try:
        with Client(row.server.port) as client:
            client.youngest()
        took = time.monotonic() - begun
        row.say(f"{what}, one that comes is served after {took * 1000:.0f} ms")
        if took > seconds:
            row.fail(f"{what}, one that comes is served after {took:.1f} s")
    except (OSError, Ended, Refused) as error:
        row.fail(f"{what}, one that comes is not served: {error}")


def is_refused(row, what):
    """A client comes, and has to be refused after some five seconds."""
    begun = time.monotonic()
    with connect(row.server.port) as connection:
        told = connection.recv(4096)
        took = time.monotonic() - begun
        row.say(f"{what}, one that comes is told {told.decode()!r} after {took:.2f} s")
        if told != FULL or not 4.9 < took < 6:
            row.fail(f"{what}, one that comes is told {told!r} after {took:.2f} s")


def crowd(row, what):
    """More come at once than may wait for a place: who may not has to be refused at once, and the others after some five seconds."""
    begun, waits = time.monotonic(), []
    left = [connect(row.server.port) for _ in range(CROWD)]
    while left and time.monotonic() < begun + 10:
        for connection in select.select(left, [], [], 0.1)[0]:
            waits.append(time.monotonic() - begun)
            if (told := connection.recv(4096)) != FULL:
                row.fail(f"{what}, one of {CROWD} that come is told {told!r}")
            left.remove(connection)
            connection.close()
    late = [took for took in waits if took > row.options.within]
    at_once, first, last = len(waits) - len(late), min(late, default=0), max(late, default=0)
    row.say(f"{what}, of {CROWD} that come {at_once} are refused at once, and {len(late)} after {first:.2f} to {last:.2f} s")
    if left or at_once != CROWD - MOST_WAITING or not 4.9 < first <= last < 6:
        row.fail(f"{what}, of {CROWD} that come {at_once} are refused at once, {len(late)} after {first:.2f} to {last:.2f} s, {len(left)} not")


def addresses(row):
    """An address that has all the sessions that it may have, and comes again and again."""
    held, slowest = [row.client(address=STRANGER) for _ in range(PER_ADDRESS)], 0
    with row.attack(f"{COMING} more come of an address that has {PER_ADDRESS}, one after another"):
        for _ in range(COMING):
            begun = time.monotonic()
            refused_by(row, [connect(row.server.port, address=STRANGER)])
            slowest = max(slowest, time.monotonic() - begun)
    row.say(f"each is refused after {slowest * 1000:.0f} ms at most")
    begun = time.monotonic()
    with row.attack(f"{COMING} more come at once"):
        more = [connect(row.server.port, address=STRANGER) for _ in range(COMING)]
        comes(row, f"{COMING} have come of an address that is full", row.options.within)
        refused_by(row, more)
    row.say(f"all are refused after {(time.monotonic() - begun) * 1000:.0f} ms")
    row.settle(0.5)
    if slowest > row.options.within or told_in_journal(row, "sessions of its address are taken") != 2 * COMING:
        row.fail(f"an address that is full is refused after {slowest:.2f} s")
    row.go(held[0])
    row.client(address=STRANGER).youngest()


def refused_by(row, connections):
    """Connections have to be refused, each at once."""
    for connection in connections:
        with connection:
            told = connection.recv(4096)
        if told != FULL:
            row.fail(f"one that comes of an address that is full is told {told!r}")


def guesses(row):
    """Clients that guess a password, are refused, and go."""
    for count in (1, PLACES):
        with row.attack(f"{count} guess a password, and go when they are refused"):
            for _ in range(count):
                guess(row)
            took = row.free()
        row.say(f"their places are free after {took:.2f} s")
    for _ in range(PLACES):
        guess_on(row, 1)
    row.say(f"the places of {PLACES} that go before they are refused are free after {row.free():.2f} s")
    for _ in range(PLACES):
        guess_on(row, 4000)
    row.say(f"the places of {PLACES} that go behind 4,000 guesses are free after {row.free():.2f} s")
    for _ in range(3 * PLACES):
        guess(row)
    comes(row, f"{3 * PLACES} have guessed and gone", 1)


def guess(row):
    """Guesses a password, and goes when it is refused."""
    try:
        Client(row.server.port, "alice", password=b"guessed", tally=row.tally)
    except Refused:
        return
    row.fail("a wrong password is taken for the right one")


def guess_on(row, count):
    """Sends so many guesses, and goes."""
    content = greeting_answer(URL) + (CRAM_MD5 + string(b"alice " + b"0" * 32)) * count
    with greeted(row) as connection:
        connection.sendall(content)
    row.tally.sent += len(content)


def silent(row):
    """Strangers that send nothing."""
    begun = time.monotonic()
    strangers = [greeted(row) for _ in range(PLACES)]
    crowd(row, f"{PLACES} strangers have come")
    time.sleep(begun + 11 - time.monotonic())
    comes(row, f"{PLACES} strangers have sent nothing for ten seconds")
    gone = sum(map(is_over, strangers))
    if gone != 1:
        row.fail(f"{gone} strangers have given their places up, and not one")
    time.sleep(begun + 118 - time.monotonic())
    if sum(map(is_over, strangers)) != gone:
        row.fail("a stranger has gone within two minutes")
    time.sleep(begun + 122 - time.monotonic())
    gone = sum(map(is_over, strangers))
    row.say(f"after two minutes {gone} strangers have gone, by the journal {told_in_journal(row, 'has not logged in')} without a login")
    if gone != PLACES:
        row.fail(f"after two minutes {PLACES - gone} strangers are there")
    for connection in strangers:
        connection.close()


def idle(row):
    """Clients that have logged in, and send nothing."""
    for _ in range(PLACES):
        row.client()
        time.sleep(0.1)
    time.sleep(10)
    comes(row, f"{PLACES} clients have sent nothing for ten seconds")
    gone = [number for number, client in enumerate(row.clients) if is_over(client.socket)]
    if gone != [0]:
        row.fail(f"the clients {gone} have given their places up, and not the first")
    row.clients[-1].youngest()


def reports(row):
    """Reports that are left open, and an edit."""
    begun = time.monotonic()
    alice = row.client("alice")
    alice.send(spelling.commit("edit") + spelling.open_root() + add_directory("d", "d0", "d1"))
    for _ in range(2):
        alice.succeed()
    for _ in range(PLACES - 1):
        client = row.client()
        client.send(spelling.update() + spelling.set_path("", 0))
        client.succeed()
    last = time.monotonic()
    time.sleep(begun + 11 - time.monotonic())
    is_refused(row, "reports are open for ten seconds")
    time.sleep(last + 121 - time.monotonic())
    comes(row, "reports are open for two minutes")
    gone = sum(is_over(client.socket) for client in row.clients[1:])
    if gone != 1:
        row.fail(f"{gone} reports have given their places up, and not one")
    alice.send(CLOSE_EDIT)
    alice.succeed()
    alice.succeed()
    row.say(f"the edit that was silent longest has made revision {alice.item()[0]}")


def working(row):
    """Subversion's own clients, more of them than there are places: each command has to be served."""
    url, until = f"svn://127.0.0.1:{row.server.port}/r", time.monotonic() + row.options.working

    def work(number, room):
        waits, faults = [], []
        login = ["--username", "alice", "--password", "secret", "--no-auth-cache", "--non-interactive", "--config-dir", room]
        while time.monotonic() < until:
            for words in (["mkdir", "-m", "made", f"{url}/{number}-{len(waits)}"], ["ls", url], ["log", "--limit", "10", url]):
                begun = time.monotonic()
                ran = subprocess.run(["svn", *words, *login], stdin=subprocess.DEVNULL, capture_output=True, text=True)
                waits.append(time.monotonic() - begun)
                faults += [ran.stderr] if ran.returncode else []
        return waits, faults

    with row.attack(f"{WORKING} clients of Subversion are at work"), tempfile.TemporaryDirectory() as room:
        with ThreadPoolExecutor(WORKING) as pool:
            worked = list(pool.map(work, range(WORKING), [room] * WORKING))
    waits, faults = (sum(found, []) for found in zip(*worked))
    row.say(f"{WORKING} clients at work: {len(waits):,} commands, the longest {max(waits):.2f} s, {len(faults)} of them not served")
    if faults:
        row.fail(f"of {WORKING} clients at work {len(faults)} commands were not served, as by {faults[0]!r}")


def tunnels(row):
    """Clients of tunnels that do not say as which account they come."""
    connections = [connect_in(row.server.folder) for _ in range(SPEECHLESS)]
    begun = time.monotonic()
    comes(row, f"{SPEECHLESS} of tunnels say nothing", row.options.within)
    with Client(row.server.folder, "alice") as client:
        client.youngest()
    took = time.monotonic() - begun
    row.say(f"meanwhile one that says its account is served after {took * 1000:.0f} ms")
    if took > 2 * row.options.within:
        row.fail(f"one that says its account is served after {took:.2f} s")
    gone = []
    while len(gone) < len(connections) and time.monotonic() < begun + 10:
        gone = [connection for connection in connections if is_over(connection)]
        time.sleep(0.05)
    took = time.monotonic() - begun
    row.say(f"{len(gone)} of those that say nothing are closed after {took:.2f} s")
    if len(gone) < len(connections) or not 4.9 < took < 6:
        row.fail(f"{len(gone)} of {SPEECHLESS} that say nothing are closed after {took:.2f} s")


def taking(row):
    """A client that takes nothing."""
    client, text = row.client("alice"), document(os.urandom(2**24 - 2**16))
    pieces = [text[begin : begin + MEBIBYTE] for begin in range(0, len(text), MEBIBYTE)]
    edit(client, add_file("f", "d0", "c1"), *delta("c1", *pieces))
    client.send(spelling.get_file("f") * 4)
    begun = time.monotonic()
    while not told_in_journal(row, "is given up: write") and time.monotonic() < begun + 200:
        time.sleep(0.1)
    took = time.monotonic() - begun
    row.say(f"the session of a client that takes nothing has ended after {took:.1f} s")
    if not 59 < took < 65:
        row.fail(f"the session of a client that takes nothing has ended after {took:.1f} s")


def journal(row):
    """A journal that nobody reads."""
    count, begun = 2000, time.monotonic()
    for _ in range(count):
        greeted(row).close()
    row.say(f"{count} clients have come and gone in {time.monotonic() - begun:.1f} s")
    comes(row, "nobody reads the journal, and then")
    row.settle()
    lines, dropped = [], 0
    error = row.server.process.stderr
    os.set_blocking(error.fileno(), False)
    for _ in range(20):
        lines += (error.read() or b"").splitlines()
        time.sleep(0.1)
    with Client(row.server.port):
        row.settle(1)
        lines += (error.read() or b"").splitlines()
    for line in lines:
        if b"were dropped: " in line:
            dropped += int(line.rpartition(b" ")[2])
    row.say(f"{len(lines)} lines are in the journal, and {dropped} were dropped")
    if not dropped or len(lines) + dropped < 2 * count:
        row.fail(f"the journal has {len(lines)} lines, and tells of {dropped} that were dropped")
