"""The rows of `heavy-load` that ask for memory."""

import time
from pathlib import Path

import spelling
from clients import Client, Refused, connect, edit, failure_of, forget_peak, mebibytes
from heavy import MEBIBYTE, PLACES, asks, goes_on, listed, takes_at_most, told_in_journal
from spelling import FINISH_REPORT, add_directory, add_file, close_file, delta, document, file_property, string

STRING = 2**24
# how much of one item a session holds at most: bytes as it logs in, bytes of a command, items of a command without a user and
# with one; and how much of what was sent the system may hold
LOGIN_LIMIT = 2**17
ITEM_LIMIT = 2**25 + 2**17
ITEMS_WITHOUT_USER, ITEMS_WITH_USER = 200_000, 650_000
IN_BETWEEN = 32 * MEBIBYTE
# how much memory fifteen sessions take at most that go on within an item of tiny ones, or without a user send a whole command of
# them; that have logged in, and send one; and how much one takes that goes on within an item of long strings, in MiB
WORDS_LIMIT, COMMANDS_LIMIT, STRINGS_LIMIT = 256, 1024, 40
# of how many words the lists are that cost most for each: of those of 17, 33 and 65 these did; the room doubles for the last one
DEAREST = 65
# how many bytes of addresses the server has where an edit does not end
ADDRESS_SPACE = 2**30
# how many text deltas an edit may have open at once, and how much memory a report may take, in MiB
OPEN_DELTAS = 255
REPORT_LIMIT = 192
# how long a lock's comment may be, how many files a directory has that is listed, and how much memory a session takes at most that
# is told of many locks or files, in MiB
COMMENT, LISTED, LISTING_LIMIT = 2**16, 20_000, 4
# how many properties a file has that is asked for them, each as long as a comment may be
PROPERTIES = 256
# how much memory fifteen reports may take at once, in MiB
REPORTS_LIMIT = 1_024
# what the journal says of a session whose item was too long
TOO_LONG = "is given up: item too long"


def announced(row):
    """Strings that are announced, and do not come."""
    for _ in range(PLACES):
        row.client().send(b"( log ( ( %d:" % STRING)
    row.settle()
    row.measure(f"{PLACES} sessions have announced 16 MiB", 8)


def strings(row):
    """Strings that come but for their last byte."""
    content = b"x" * (STRING - 1)
    for _ in range(PLACES):
        row.client().send(b"( log ( ( %d:" % STRING + content)
    row.settle()
    row.measure(f"{PLACES} sessions have sent 16 MiB but for a byte", PLACES * 40)
    for client in row.clients:
        client.send(b"x ) ( ) ( ) false false ) ) ")
    for client in row.clients:
        client.item()
        if client.item() != "done" or failure_of(client.item())[0] != 160005:
            row.fail("a path of 16 MiB is not refused as a bad path")
    peak = row.server.memory()[1]
    row.say(f"they are whole, and refused: peak {mebibytes(peak)}, {(peak - row.first) / PLACES / 1024:.1f} MiB a session")
    row.leave()
    row.settle()
    row.measure("they have gone", 64)


def nesting(row):
    """Lists in lists."""
    for _ in range(PLACES):
        row.client().send(b"( x " + b"( " * 63)
    row.settle()
    row.measure(f"{PLACES} sessions have 64 lists open", 8)
    for client in row.clients:
        client.send(b") " * 64)
        if failure_of(client.item())[0] != 210001:
            row.fail("64 lists in one another are no item")
        client.send(b"( " * 65)
        if failure_of(client.item())[0] != 210004:
            row.fail("a 65th list is not refused")
    row.say("64 lists are an item, and a 65th is refused in each")


def texts(row):
    """Edits with a great text, which are not ended."""
    text = document(b"y" * (STRING - 100))
    pieces = [text[begin : begin + MEBIBYTE] for begin in range(0, len(text), MEBIBYTE)]
    for number in range(PLACES):
        client = row.client("alice")
        client.send(spelling.commit("edit") + spelling.open_root() + add_file(f"f{number}", "d0", "c1"))
        for command in delta("c1", *pieces):
            client.send(command)
    row.settle(4)
    row.measure(f"{PLACES} edits have a text of 16 MiB each", PLACES * 60)
    row.say(f"peak {(row.server.memory()[1] - row.first) / PLACES / 1024:.1f} MiB an edit")
    row.vanish(*row.clients)
    row.settle()
    row.measure("they have gone", 64)
    with Client(row.server.port) as client:
        if any(client.ask(spelling.check_path(f"f{number}")) != ["none"] for number in range(PLACES)):
            row.fail("an edit that was not ended has made a file")


def item(row):
    """Items of long strings without an end."""
    for _ in range(PLACES):
        row.client().send(b"( log ( ( ")
    go_on(row, [client.socket for client in row.clients], string(b"a" * (MEBIBYTE - 16)), ITEM_LIMIT)
    takes_at_most(row, "without a user", PLACES * STRINGS_LIMIT)
    goes_on(row)


def begun_login(row):
    """A connection of which the greeting is read, and its answer begun."""
    client, begin = connect(row.server.port), b"( 2 ( "
    client.recv(4096)
    client.sendall(begin)
    row.tally.sent += len(begin)
    return client


def go_on(row, clients, piece, limit):
    """Clients that have begun an item go on within it by the same piece, side by side, until their sessions end, which they have
    to behind so many bytes."""
    left, sent, begun, told = list(clients), 0, time.monotonic(), told_in_journal(row, TOO_LONG)
    while left and sent <= limit + IN_BETWEEN and time.monotonic() < begun + 300:
        for client in list(left):
            row.tally.sent += len(piece)
            try:
                client.sendall(piece)
            except OSError:
                left.remove(client)
        sent += len(piece)
    took = time.monotonic() - begun
    row.say(f"{len(clients)} sessions have ended behind {sent:,} bytes of one item, {took:.1f} s; what the system holds of it is among them")
    if left:
        row.fail(f"{len(left)} sessions go on behind {sent:,} bytes of one item")
    row.settle(0.5)
    told = told_in_journal(row, TOO_LONG) - told
    if told != len(clients):
        row.fail(f"the journal tells of {told} items that were too long, and there were {len(clients)}")


def words(row):
    """Items of tiny ones without an end; and then whole, as large as may be."""
    piece = b"a " * 2**13
    for what, user, limit in (
        ("as they log in", "nobody", LOGIN_LIMIT),
        ("without a user", None, 2 * ITEMS_WITHOUT_USER),
        ("with a user", "alice", 2 * ITEMS_WITH_USER),
    ):
        forget_peak(row.server.pid)
        if user == "nobody":
            clients = [begun_login(row) for _ in range(PLACES)]
        else:
            for _ in range(PLACES):
                row.client(user).send(b"( log ( ( ")
            clients = [client.socket for client in row.clients]
        go_on(row, clients, piece, limit)
        for client in clients:
            client.close()
        row.leave()
        takes_at_most(row, what, WORDS_LIMIT)
        row.settle()
    for what, user, items, limit in (
        ("without a user", None, ITEMS_WITHOUT_USER - 100, WORDS_LIMIT),
        ("with a user", "alice", ITEMS_WITH_USER - 100, COMMANDS_LIMIT),
    ):
        whole_commands(row, f"{what}, commands of {items:,} words", user, b"a " * items, limit)
        lists = items // 2
        whole_commands(row, f"{what}, commands of {lists:,} lists of one word", user, b"( a ) " * lists, limit)
        lists, dearest = items // (DEAREST + 1), b"( " + b"a " * DEAREST + b") "
        whole_commands(row, f"{what}, commands of {lists:,} lists of {DEAREST} words", user, dearest * lists, limit)
    goes_on(row, COMMANDS_LIMIT)


def whole_commands(row, what, user, parameters, limit):
    """Commands that no server knows, which all sessions send at once."""
    forget_peak(row.server.pid)
    for _ in range(PLACES):
        row.client(user).send(b"( x ( " + parameters + b") ) ")
    for client in row.clients:
        if failure_of(client.item())[0] != 210001:
            row.fail(f"{what}, one is not refused as unknown")
    takes_at_most(row, f"{what} are read", limit)
    row.leave()
    row.settle()


def report(row):
    """A long report. What a command of it costs is measured as it grows; then the client goes."""
    client, told = row.client(), 0
    client.send(spelling.update() + spelling.set_path("", 0))
    client.succeed()
    command = spelling.delete_path("no/such/path")
    for count in (1000, 2000, 4000, 8000):
        begun = time.monotonic()
        client.send(command * count)
        told += count
        while unread(row.server.port, client):
            if time.monotonic() > begun + 120:
                row.fail(f"{told} commands of a report take more than 120 s")
                break
            time.sleep(0.005)
        took = time.monotonic() - begun
        row.say(f"{count} commands of a report, behind {told - count} others: {took:.2f} s, {took / count * 1e6:.0f} us each")
    row.measure(f"{told} commands of a report")
    goes_on(row)


def endless_reports(row, count, most):
    """Reports without an end, so many at once. Gives the server's memory at its highest."""
    forget_peak(row.server.pid)
    clients, told, begun = [row.client() for _ in range(count)], 0, time.monotonic()
    for client in clients:
        client.send(spelling.update() + spelling.set_path("", 0))
        client.succeed()
    while clients and time.monotonic() < begun + 300:
        piece = b"".join(spelling.delete_path(f"trunk/src/main/a/usual/path/of/{told + more}") for more in range(1000))
        told += 1000
        for client in list(clients):
            try:
                client.send(piece)
            except OSError:
                clients.remove(client)
    took, peak = time.monotonic() - begun, row.server.memory()[1]
    row.say(f"{count} sessions have ended behind some {told:,} paths of a report each, {took:.1f} s, peak {mebibytes(peak)}")
    if clients:
        row.fail(f"{len(clients)} sessions go on behind {told:,} paths of a report")
    if peak > row.first + most * 1024:
        row.fail(f"{count} reports have taken {mebibytes(peak)}, more than {most:,} MiB above {mebibytes(row.first)}")
    row.leave()
    row.settle(3)
    return peak


def paths(row):
    """Two reports without an end, one after the other; and then fifteen at once."""
    first = endless_reports(row, 1, REPORT_LIMIT)
    second = endless_reports(row, 1, REPORT_LIMIT)
    if second > first + 64 * 1024:
        row.fail(f"the second report has taken {mebibytes(second)}, more than the first, {mebibytes(first)}")
    endless_reports(row, PLACES, REPORTS_LIMIT)
    goes_on(row, REPORTS_LIMIT)


def unread(port, client):
    """Whether bytes that a client has sent lie at the server unread, by the system's table of sockets."""
    local = client.socket.getsockname()[1]
    for line in Path("/proc/net/tcp").read_text().splitlines()[1:]:
        words = line.split()
        here, there = (int(words[place].rpartition(":")[2], 16) for place in (1, 2))
        sending, waiting = (int(count, 16) for count in words[4].split(":"))
        if (here, there) == (port, local) and waiting or (here, there) == (local, port) and sending:
            return True
    return False


def deltas(row):
    """Text deltas that are open at once."""
    client, opened = row.client("alice"), 0
    client.send(spelling.commit("edit") + spelling.open_root())
    for _ in range(2):
        client.succeed()
    try:
        while opened < 2 * OPEN_DELTAS:
            client.send(add_file(f"f{opened}", "d0", f"c{opened}") + delta(f"c{opened}")[0])
            opened += 1
            begun = time.monotonic()
            while unread(row.server.port, client) and time.monotonic() < begun + 1:
                time.sleep(0.0005)
    except OSError:
        pass
    row.say(f"the session has ended with {opened} text deltas that were opened")
    if not OPEN_DELTAS <= opened <= OPEN_DELTAS + 2:
        row.fail(f"{opened} text deltas were opened, and {OPEN_DELTAS} may be open at once")
    goes_on(row)


def endless_edit(row):
    """An edit without an end: one directory after another, each with a property of a MiB."""
    begin = spelling.commit("edit") + spelling.open_root()
    client, sent, begun = row.client("alice"), 0, time.monotonic()
    client.send(begin)
    value = b"v" * MEBIBYTE
    try:
        while sent < 64 * 1024 and time.monotonic() < begun + 300:
            client.send(add_directory(f"d{sent}", "d0", f"t{sent}") + spelling.directory_property(f"t{sent}", "p", value))
            sent += 1
    except OSError:
        pass
    took = time.monotonic() - begun
    row.say(f"the session has ended behind {sent} MiB of one edit, {took:.1f} s, where the server has {ADDRESS_SPACE // MEBIBYTE} MiB of addresses")
    goes_on(row)


def listings(row):
    """Locks with long comments, and a directory of many files: all ask for them, and take nothing of what they are told."""
    alice, count = row.client("alice"), row.options.locks
    locked = [f"l{number}" for number in range(count)]
    files = [f"d/{number}" for number in range(LISTED)]
    made = [add_file(name, "d0", "c1") + close_file("c1") for name in locked]
    made += [add_directory("d", "d0", "d1"), *(add_file(name, "d1", "c1") + close_file("c1") for name in files)]
    value = b"v" * COMMENT
    with row.attack(f"a file with {PROPERTIES:,} properties of {COMMENT:,} bytes"):
        edit(alice, *made, add_file("p", "d0", "c1"), *(file_property("c1", f"p{number}", value) for number in range(PROPERTIES)))
    if not row.is_other:
        refuses_comment(row, alice, locked[0])
    with row.attack(f"{count} locks are made with comments of {COMMENT:,} bytes"):
        for name in locked:
            alice.ask(spelling.lock(name, b"c" * COMMENT))
    for what, take, command in (
        (f"{count} such locks", Client.ask, spelling.get_locks("")),
        (f"a directory of {LISTED:,} files", Client.ask, spelling.get_directory("d")),
        (f"a log with {LISTED + count + 2:,} changes", listed, spelling.log([""], b"", b"0 ", True)),
        (f"{PROPERTIES:,} properties of {COMMENT:,} bytes", Client.ask, spelling.get_file("p", properties=True, contents=False)),
    ):
        takes_nothing(row, what, command)
        asks(row, f"one asks for {what}, and takes it", take, command)
    adding = spelling.update("p") + spelling.set_path("", 0, True) + FINISH_REPORT
    takes_nothing(row, "an update that adds the file with these", adding)


def refuses_comment(row, client, path):
    """A lock whose comment is a byte too long has to be refused."""
    try:
        client.ask(spelling.lock(path, b"c" * (COMMENT + 1)))
    except Refused as refusal:
        if refusal.number == 200007:
            return
    row.fail(f"a comment of {COMMENT + 1:,} bytes is not refused by 200007")


def takes_nothing(row, what, command):
    """All clients but one ask for something, and take nothing of it."""
    clients = [row.client() for _ in range(PLACES - 1)]
    with row.attack(f"{len(clients)} ask for {what}, and take nothing") as cost:
        for client in clients:
            client.send(command)
        row.settle()
    if cost.memory > len(clients) * LISTING_LIMIT * 1024:
        row.fail(f"{len(clients)} that ask for {what} take {mebibytes(cost.memory)}")
    row.go(*clients)
