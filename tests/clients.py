"""A server over TCP, and clients of it that trust nothing: what `fuzz-wire`, `soak` and `bench/heavy-load` share.

The items that a server sends are read by a reader of their own here, which takes them in the form in which they are written and
in no other: a space behind each token, numbers without leading zeros, words of letters, digits and `-`.
"""

import os
import re
import select
import signal
import socket
import subprocess
import sys
import time
from multiprocessing import Event, Pipe, Process, Value
from pathlib import Path

import spelling
from spelling import ANONYMOUS, CLOSE_EDIT, CRAM_MD5, LATEST, OF_PATHS, OF_TODAY, TEXTS, greeting_answer, proof

USERS = {"alice": b"secret", "bob": b"hidden"}
NAME = "r"
URL = "svn://127.0.0.1/r"

# of how many revisions a shard is where borders of shards are to be crossed
SMALL_SHARD = 2

# how long a client that is watched waits for an answer before it gives up, in seconds
LONGEST_WAIT = 120

# what a client is told that finds no place, and what it is told behind a halt
FULL = b"( failure ( ( 200007 13:not supported 0: 0 ) ) ) "

TOKEN = re.compile(rb"(\( )|(\) )|(0|[1-9][0-9]*)([ :])|([A-Za-z][A-Za-z0-9-]*) ")
SPACES = re.compile(rb"[ \n]*")
BEGINNING = re.compile(rb"[()]?\Z|(?:0|[1-9][0-9]*)\Z|[A-Za-z][A-Za-z0-9-]*\Z")


class IllFormed(Exception):
    """What a server has sent is no row of items in their written form."""


class Ended(Exception):
    """A server has closed the connection."""


class ItemStream:
    """The items of a stream that comes in pieces: words as texts, numbers, strings as bytes, and lists of items. Further spaces
    before an item, as clients send them, are read where they are said to be."""

    def __init__(self, has_spaces=False):
        self.has_spaces = has_spaces
        self.bytes = bytearray()
        self.place = 0
        self.lists = [[]]
        self.count = 0

    def feed(self, piece):
        """The items that are whole by this piece."""
        self.bytes += piece
        while self.take():
            pass
        del self.bytes[: self.place]
        self.place = 0
        found, self.lists[0] = self.lists[0], []
        self.count += len(found)
        return found

    def take(self):
        """Takes a token. Whether a whole one was there."""
        if self.has_spaces:
            self.place = SPACES.match(self.bytes, self.place).end()
        token = TOKEN.match(self.bytes, self.place)
        if not token:
            rest = bytes(self.bytes[self.place : self.place + 300])
            if not BEGINNING.match(rest):
                raise IllFormed(f"the server has sent {rest[:100]!r} where an item was to be")
            return False
        opens, closes, digits, behind, word = token.groups()
        if opens:
            self.lists.append([])
        elif closes:
            inner = self.lists.pop()
            if not self.lists:
                raise IllFormed("the server has closed a list that was not open")
            self.lists[-1].append(inner)
        elif word:
            self.lists[-1].append(word.decode())
        elif behind == b" ":
            self.lists[-1].append(int(digits))
        else:
            begin = token.end()
            end = begin + int(digits)
            if end >= len(self.bytes):
                return False
            if self.bytes[end] != 0x20:
                raise IllFormed(f"no space stands behind a string of {int(digits)} bytes")
            self.lists[-1].append(bytes(self.bytes[begin:end]))
            self.place = end + 1
            return True
        self.place = token.end()
        return True

    def is_whole(self):
        """Whether nothing is left of an item that was begun."""
        return len(self.lists) == 1 and not self.bytes


def is_message(number, message):
    """Whether a refusal of a number may have this message: its text and, to a client of today, the path, if it is of one."""
    text = TEXTS.get(number, "").encode()
    front, colon, path = message.partition(b": /")
    if not colon:
        return message == text
    return front == text and number in OF_PATHS and not {b"", b".", b".."}.intersection(path.split(b"/") if path else [])


def failure_of(item):
    """The number and the text of a refusal, if an item is one. One that is not in the table is ill formed. The path is left out."""
    if not isinstance(item, list) or len(item) != 2 or item[0] != "failure" or not isinstance(item[1], list):
        return None
    inner = item[1]
    if len(inner) == 1 and inner[0] in (b"mechanism not offered", b"login failed"):
        return 0, inner[0].decode()
    if len(inner) == 1 and isinstance(inner[0], list) and len(inner[0]) == 4:
        number, text, file, line = inner[0]
        if file == b"" and line == 0 and is_message(number, text):
            return number, TEXTS[number]
    raise IllFormed(f"a refusal that no table has: {item}")


def is_reason(item):
    """Whether an item is a failure of a client's own links, by which a drive ends that a client of today could not take."""
    if not isinstance(item, list) or len(item) != 2 or item[0] != "failure" or not isinstance(item[1], list):
        return False
    return all(isinstance(link, list) and list(map(type, link)) == [int, bytes, bytes, int] for link in item[1])


def failures_of(found, before):
    """The refusals among these items, the item before them, and the last of them."""
    failures = []
    for item in found:
        is_of_drive = before == ["abort-edit", []] and is_reason(item)
        if failure := (0, "a drive, for the client's own reason") if is_of_drive else failure_of(item):
            failures.append(failure)
        before = item
    return failures, before


def connect_in(folder, account=None, timeout=60):
    """A connection to the server of a folder by its socket, as `stdio` makes one for a client that came as an account. None is said
    where there is none."""
    connection = socket.socket(socket.AF_UNIX)
    connection.settimeout(timeout)
    connection.connect(str(folder / "svnserved.socket"))
    if account:
        connection.sendall(account.encode() + b"\n")
    return connection


def connect(port, timeout=60, address=None):
    """A connection to a server of this machine, from an address of this machine."""
    return socket.create_connection(("127.0.0.1", port), timeout, (address, 0) if address else None)


class Tally:
    """How many bytes clients have sent."""

    sent = 0


class Client:
    """A plain client, one of today if that is said: a connection, and the items that come. What it sends is counted in a tally, which
    others may share. With a folder in place of a port it comes through a tunnel, as the account of the user's name."""

    is_of_today = False

    def __init__(self, port, user=None, url=URL, timeout=60, address=None, password=None, tally=None, is_of_today=False):
        self.is_of_tunnel = isinstance(port, Path)
        if self.is_of_tunnel:
            self.socket = connect_in(port, user, timeout)
        else:
            self.socket = connect(port, timeout, address)
            self.socket.setsockopt(socket.IPPROTO_TCP, socket.TCP_NODELAY, 1)
        self.stream = ItemStream()
        self.waiting = []
        self.tally = tally or Tally()
        self.is_of_today = is_of_today
        try:
            self.log_in(user, url, password)
        except BaseException:
            self.socket.close()
            raise

    def log_in(self, user, url, password=None):
        """The exchanges up to the first command."""
        self.greeting = self.item()
        if self.greeting[0] != "success":
            raise Ended(f"the server greets by {self.greeting}")
        self.send(greeting_answer(url, capabilities=OF_TODAY) if self.is_of_today else greeting_answer(url))
        self.succeed()
        if self.is_of_tunnel:
            self.send(b"( EXTERNAL ( 0: ) ) ")
        elif user is None:
            self.send(ANONYMOUS)
        else:
            self.send(CRAM_MD5)
            told = self.item()
            if told[0] != "step":
                raise IllFormed(f"a challenge is {told}")
            self.send(proof(user, password or USERS[user], told[1][0].decode()))
        self.succeed()
        self.repository = self.succeed()

    def send(self, content):
        """Sends bytes, and counts them."""
        self.tally.sent += len(content)
        self.socket.sendall(content)

    def item(self):
        """The next item."""
        while not self.waiting:
            piece = self.socket.recv(262_144)
            if not piece:
                raise Ended("the server has closed the connection")
            self.waiting = self.stream.feed(piece)[::-1]
        return self.waiting.pop()

    def succeed(self):
        """What an item tells that is no refusal."""
        item = self.item()
        if item[0] != "success":
            raise Refused(failure_of(item))
        return item[1]

    def ask(self, command):
        """What a main command is told: the login request, and then its answer."""
        self.send(command)
        first = self.succeed()
        if first[0]:
            raise IllFormed(f"a login is asked for: {first}")
        return self.succeed()

    def youngest(self):
        """The number of the youngest revision."""
        return self.ask(LATEST)[0]

    def close(self):
        """Leaves."""
        self.socket.close()

    def __enter__(self):
        return self

    def __exit__(self, *_error):
        self.close()


class Refused(Exception):
    """A command is refused."""

    def __init__(self, failure):
        super().__init__(failure)
        self.number, self.text = failure or (None, None)


def edit(client, *commands):
    """Makes a commit. Gives its revision."""
    client.send(spelling.commit("commit") + spelling.open_root() + b"".join(commands) + CLOSE_EDIT)
    for _ in range(4):
        client.succeed()
    return client.item()[0]


def read_until_end(client, content, limit, cuts=(), closes=True):
    """Sends bytes, cut at some places, while it reads what comes; then the client's side is closed, and what comes is read up to
    its end. Gives the stream, the refusals, how many bytes came, and how it ended: `closed`, or `reset`; or `late`, where the
    limit of seconds has passed first."""
    stream, failures, came, before = ItemStream(), [], 0, None
    pieces = [content[begin:end] for begin, end in zip([0, *cuts], [*cuts, len(content)])]
    pending, behind = memoryview(b""), iter(pieces)
    is_sending, end = True, time.monotonic() + limit
    client.setblocking(False)
    while time.monotonic() < end:
        if is_sending and not pending:
            piece = next(behind, None)
            if piece is not None:
                pending = memoryview(piece)
                continue
            is_sending = False
            if closes:
                try:
                    client.shutdown(socket.SHUT_WR)
                except OSError:
                    return stream, failures, came, "reset"
        ready, writable, _ = select.select([client], [client] if pending else [], [], 0.5)
        try:
            if writable:
                pending = pending[client.send(pending[:262_144]) :]
            if ready:
                piece = client.recv(262_144)
                if not piece:
                    return stream, failures, came, "closed"
                came += len(piece)
                told, before = failures_of(stream.feed(piece), before)
                failures += told
        except (ConnectionResetError, BrokenPipeError):
            return stream, failures, came, "reset"
    return stream, failures, came, "late"


def memory_of(pid):
    """The memory of a process in KiB, as it is, and at its highest."""
    found = {}
    for line in Path(f"/proc/{pid}/status").read_text().splitlines():
        words = line.split()
        if words[0] in ("VmRSS:", "VmHWM:"):
            found[words[0]] = int(words[1])
    return found.get("VmRSS:", 0), found.get("VmHWM:", 0)


def forget_peak(pid):
    """The highest memory of a process is counted from here on, where the system lets it."""
    try:
        Path(f"/proc/{pid}/clear_refs").write_text("5")
    except OSError:
        pass


def end_in_order():
    """A program that is told to end (SIGTERM) ends as one that is interrupted, so that what it has started is stopped."""
    signal.signal(signal.SIGTERM, lambda *_signal: sys.exit(1))


def free_port():
    """A port that nobody listens at."""
    with socket.create_server(("127.0.0.1", 0)) as listener:
        return listener.getsockname()[1]


def sharded(size):
    """The file `format` of a folder of format 3 whose shards have so many revisions."""
    return b"3\nlayout sharded %d\n" % size


class Server:
    """A server that runs at a repository in a folder. Where it is missing it is made, of a format, and with shards of so many
    revisions if that is said. Its standard error goes to a file, or to a pipe that nobody reads. It may have further options."""

    def __init__(self, program, room, address_space=None, format=3, shard=None, is_read=True, options=()):
        self.program, self.folder, self.port = program, room / "repository", free_port()
        self.users, self.journal = room / "users", room / "journal"
        if not self.folder.exists():
            subprocess.run([program, "create", "--format", str(format), self.folder], check=True)
            if shard:
                (self.folder / "db/format").write_bytes(sharded(shard))
        self.users.write_bytes(b"[users]\n" + b"".join(b"%s = %s\n" % (name.encode(), word) for name, word in USERS.items()))
        self.users.chmod(0o600)
        words = [program, "serve", self.folder, "--listen", f"127.0.0.1:{self.port}", "--name", NAME]
        words += ["--users", self.users, "--revprops", *options]
        if address_space:
            words = ["prlimit", f"--as={address_space}", *words]
        with self.journal.open("ab") as journal:
            error = journal if is_read else subprocess.PIPE
            self.process = subprocess.Popen(list(map(str, words)), stdin=subprocess.DEVNULL, stdout=subprocess.PIPE, stderr=error)
        if self.process.stdout.readline() != b"ready\n":
            sys.exit(f"the server does not start: {self.journal.read_text()}")
        self.pid = self.process.pid

    def memory(self):
        """Its memory in KiB, as it is, and at its highest."""
        return memory_of(self.pid)

    def seconds(self):
        """How long processors have worked for it, in seconds."""
        words = Path(f"/proc/{self.pid}/stat").read_text().rpartition(")")[2].split()
        return (int(words[11]) + int(words[12])) / os.sysconf("SC_CLK_TCK")

    def sessions(self):
        """How many sessions are open, by the journal; none where nobody reads it."""
        journal = self.journal.read_text()
        return journal.count(" begins, of ") - journal.count(" ends\n")

    def fault(self):
        """How it has ended, if it has."""
        status = self.process.poll()
        if status is None:
            return None
        how = f"by signal {-status}" if status < 0 else f"with status {status}"
        return f"the server has ended {how}: {''.join(self.journal.read_text().splitlines(True)[-3:])}"

    def stop(self):
        """Stops it."""
        if self.process.poll() is None:
            self.process.send_signal(signal.SIGTERM)
        self.process.wait()
        self.process.stdout.close()

    def verify(self):
        """What is wrong with the folder, by Subversion's own program and by opening it again, if anything is."""
        verified = subprocess.run(["svnadmin", "verify", "-q", self.folder], stdin=subprocess.DEVNULL, capture_output=True, text=True)
        if verified.returncode != 0:
            return f"svnadmin verify: {verified.stderr}"
        words = [self.program, "stdio", self.folder, "--name", NAME]
        opened = subprocess.run(words, input=greeting_answer(URL) + ANONYMOUS + LATEST, capture_output=True)
        if opened.returncode != 0 or b"failure" in opened.stdout:
            return f"the folder does not open again: {opened.stderr.decode()}{opened.stdout!r}"
        return None


class OtherServer(Server):
    """Debian's svnserve, with a thread for each client, at a new repository of its own. It has no journal."""

    def __init__(self, room):
        self.folder, self.port, self.journal = room / NAME, free_port(), room / "errors"
        subprocess.run(["svnadmin", "create", self.folder], check=True)
        words = b"[users]\n" + b"".join(b"%s = %s\n" % (name.encode(), word) for name, word in USERS.items())
        (self.folder / "conf/passwd").write_bytes(words)
        settings = "[general]\nanon-access = write\nauth-access = write\npassword-db = passwd\nrealm = r\n"
        (self.folder / "conf/svnserve.conf").write_text(settings)
        words = ["svnserve", "-d", "-T", "--foreground", "--listen-host", "127.0.0.1", "--listen-port", str(self.port), "-r", room]
        with self.journal.open("ab") as errors:
            self.process = subprocess.Popen(words, stdin=subprocess.DEVNULL, stdout=subprocess.PIPE, stderr=errors)
        self.pid = self.process.pid
        for _ in range(200):
            try:
                return connect(self.port).close()
            except OSError:
                time.sleep(0.05)
        sys.exit("svnserve does not listen")

    def sessions(self):
        """Nobody knows how many sessions are open."""
        return 0

    def verify(self):
        """What is wrong with the folder, by Subversion's own program, if anything is."""
        verified = subprocess.run(["svnadmin", "verify", "-q", self.folder], stdin=subprocess.DEVNULL, capture_output=True, text=True)
        return f"svnadmin verify: {verified.stderr}" if verified.returncode != 0 else None


class Waits:
    """What a client of another process waits for: since when, if it does, and the longest wait since that was asked last."""

    def __init__(self):
        self.since, self.longest = Value("d", 0.0), Value("d", 0.0)

    def begin(self):
        """A wait begins."""
        self.since.value = time.monotonic()

    def end(self):
        """It ends. How long it was."""
        took = time.monotonic() - self.since.value
        self.longest.value, self.since.value = max(self.longest.value, took), 0.0
        return took

    def recent(self):
        """The longest wait since this was asked last, with one that has not ended yet."""
        longest, since = self.longest.value, self.since.value
        self.longest.value = 0.0
        return max(longest, time.monotonic() - since if since else 0.0)


def commits_of(client):
    """What makes a commit: a property of a file of its own gets another value."""
    edit(client, spelling.add_file("beside", "d0", "c1"), spelling.close_file("c1"))

    def commit():
        value = b"%d" % time.monotonic_ns()
        edit(client, spelling.open_file("beside", "d0", "c1"), spelling.file_property("c1", "p", value), spelling.close_file("c1"))

    return commit


def watch(port, pause, commits, stop, waits, told):
    """Asks for the youngest revision, again and again, or commits. It tells that it has a place, and at its end how often it was
    answered, the longest wait, how late the machine has let it go on after a pause, and what went wrong."""
    signal.signal(signal.SIGINT, signal.SIG_IGN)
    count, slowest, late, fault = 0, 0.0, 0.0, None
    try:
        with Client(port, "bob" if commits else None, timeout=LONGEST_WAIT) as client:
            ask = commits_of(client) if commits else client.youngest
            told.send(None)
            begun = time.monotonic()
            while not stop.wait(pause):
                late = max(late, time.monotonic() - begun - pause)
                waits.begin()
                ask()
                slowest = max(slowest, waits.end())
                count, begun = count + 1, time.monotonic()
    except (OSError, Ended, IllFormed, Refused) as error:
        fault = f"{type(error).__name__}: {error}"
    told.send((count, slowest, late, fault))


class Watch:
    """A plain client in a process of its own, which has one place of the server from here to its end. It asks, or it commits, and
    has to be answered within some seconds at each moment."""

    def __init__(self, port, limit, pause=0.02, commits=False):
        self.name = "a client that commits" if commits else "a plain client"
        self.limit, self.stop, self.waits = limit, Event(), Waits()
        self.told, tells = Pipe(False)
        words = port, pause, commits, self.stop, self.waits, tells
        self.process = Process(target=watch, args=words, daemon=True)
        self.process.start()
        tells.close()
        # it has its place before anything else comes, unless it has ended already
        self.ended = self.told.recv()

    def recent(self):
        """The longest wait since this was asked last, in seconds."""
        return self.waits.recent()

    def fault(self):
        """What has gone wrong so far, if anything has."""
        return self.end()[2] if self.ended or self.told.poll() else None

    def end(self):
        """How often it was answered, the longest wait in seconds, and what went wrong, if anything did. `late` is how many seconds
        late it has gone on after a pause, at most: so much is due to the machine, and not to the server."""
        if not hasattr(self, "result"):
            self.stop.set()
            count, slowest, self.late, fault = self.ended or self.told.recv()
            self.process.join()
            if not fault and slowest > self.limit:
                late = f"the machine was late by {self.late * 1000:.0f} ms"
                fault = f"it was answered after {slowest * 1000:.0f} ms, and {self.limit * 1000:.0f} ms are the limit; {late}"
            self.result = count, slowest, fault and f"{self.name} beside it: {fault}"
        return self.result


def mebibytes(kibibytes):
    """Memory as it is printed."""
    return f"{kibibytes / 1024:.1f} MiB"


def is_time_left(options, begun, done):
    """Whether one more is to be done, by the minutes that are given, or else by the count."""
    if options.minutes is not None:
        return time.monotonic() - begun < options.minutes * 60
    return done < options.count
