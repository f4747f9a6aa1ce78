"""Programs of which one call to the system about a folder fails: what `fail-calls` runs them by.

A program is started behind a filter of the system (seccomp), which holds each call of the kinds of `KINDS` until it is answered
here. Calls that are not about the folder go on as they are. Those that are get a place, counted from 1 for each kind, and go on
too, but for the one that is to fail: it is not done, or done here in the program's place, whole or in part, and then answered.
It takes no rights, and works on Linux on x86_64.
"""

import ctypes
import errno
import fcntl
import os
import platform
import select
import signal
import socket
import struct
import subprocess
import sys
import threading
from collections import Counter
from pathlib import Path
from typing import NamedTuple

HERE = -100
# of each kind of call the numbers of the system's calls, and for each number the places of its paths among its arguments, each
# after that of the folder to which it is relative; there is none where the first argument is an open file
KINDS = {
    "openat": {2: [(None, 0)], 257: [(0, 1)]},
    "read": {0: [], 17: [], 19: []},
    "write": {1: [], 18: [], 20: []},
    "fsync": {74: [], 75: []},
    "rename": {82: [(None, 0), (None, 1)], 264: [(0, 1), (2, 3)], 316: [(0, 1), (2, 3)]},
    "statx": {4: [(None, 0)], 6: [(None, 0)], 262: [(0, 1)], 332: [(0, 1)]},
    "close": {3: []},
    "mkdir": {83: [(None, 0)], 258: [(0, 1)]},
    "unlink": {84: [(None, 0)], 87: [(None, 0)], 263: [(0, 1)]},
    "flock": {73: []},
}
FORMS = {number: (kind, paths) for kind, forms in KINDS.items() for number, paths in forms.items()}
OPEN, MKDIR = 2, 83
# those that are only answered, and not done here
NOT_DONE = (17, 18, 19, 20)

X86_64 = 0xC000003E
END_WITH_PARENT, NO_NEW_PRIVILEGES, SECCOMP, SET_FILTER, NEW_LISTENER = 1, 38, 317, 1, 8
ALLOW, NOTIFY = 0x7FFF0000, 0x7FC00000
RECEIVE, SEND, ADD_FILE = 0xC0502100, 0xC0182101, 0x40182103
NOTICE, ANSWER, ADDED = "=QIIiIQ6Q", "=QqiI", "=QIIII"
GET_FILE = 438

system = ctypes.CDLL(None, use_errno=True)


class Fault(NamedTuple):
    """A call that fails, by its kind and place; what is done of it before (`nothing`, `all` or `half`); the error by which it is
    answered, or without one by what was done; and whether each call that comes after it fails too, of whatever kind."""

    kind: str
    place: int
    done: str
    error: str | None
    lasts: bool = False

    def __str__(self):
        done = {"nothing": "not done", "all": "done", "half": "half done"}[self.done]
        return f"{self.kind} {self.place} {done}, {self.error or 'no error'}{', and so on' if self.lasts else ''}"


def install_filter():
    """From here on calls of these kinds are held. Gives the file by which they are answered."""
    numbers = sorted(FORMS)
    steps = [(0x20, 0, 0, 4), (0x15, 0, len(numbers) + 1, X86_64), (0x20, 0, 0, 0)]
    steps += [(0x15, len(numbers) - place, 0, number) for place, number in enumerate(numbers)]
    steps += [(0x06, 0, 0, ALLOW), (0x06, 0, 0, NOTIFY)]
    code = ctypes.create_string_buffer(b"".join(struct.pack("=HBBI", *step) for step in steps))
    program = ctypes.create_string_buffer(struct.pack("@HP", len(steps), ctypes.addressof(code)))
    # nobody answers a program whose parent has ended
    if system.prctl(END_WITH_PARENT, signal.SIGKILL, 0, 0, 0) != 0 or system.prctl(NO_NEW_PRIVILEGES, 1, 0, 0, 0) != 0:
        raise OSError(ctypes.get_errno(), "prctl")
    listener = system.syscall(SECCOMP, SET_FILTER, NEW_LISTENER, program)
    if listener < 0:
        raise OSError(ctypes.get_errno(), "seccomp")
    return listener


def need_filters():
    """Ends, and says why, where programs cannot be run so."""
    if (platform.system(), platform.machine()) != ("Linux", "x86_64"):
        sys.exit("calls are held on Linux on x86_64 alone")
    try:
        Failing(["true"], os.devnull).end()
    except subprocess.SubprocessError:
        sys.exit("the system does not let calls be held (seccomp)")


class Call:
    """A call that is held: its kind, the files that it is about, and what it hands in."""

    def __init__(self, notice):
        self.id, self.thread, _, self.number, _, _, *self.given = struct.unpack(NOTICE, notice)
        self.kind, forms = FORMS[self.number]
        self.paths = [self.path(*form) for form in forms] if forms else [self.file(self.given[0])]

    def file(self, number):
        """The path of an open file."""
        number = ctypes.c_int(number & 0xFFFFFFFF).value
        try:
            where = "cwd" if number == HERE else f"fd/{number}"
            return os.readlink(f"/proc/{self.thread}/{where}").removesuffix(" (deleted)")
        except OSError:
            return ""

    def path(self, base, place):
        """A path that is handed in, from the root."""
        named = os.fsdecode(self.text(self.given[place]))
        return os.path.normpath(os.path.join(self.file(HERE if base is None else self.given[base]), named))

    def memory(self, place, size):
        """Bytes of the program's memory."""
        with open(f"/proc/{self.thread}/mem", "rb", buffering=0) as memory:
            return os.pread(memory.fileno(), size, place)

    def text(self, place):
        """A text of the program's memory, up to its NUL. No read goes beyond a page."""
        found = b""
        while b"\0" not in found:
            at = place + len(found)
            if not (piece := self.memory(at, 4096 - at % 4096)):
                raise OSError(errno.ESRCH, "the program is gone")
            found += piece
        return found.partition(b"\0")[0]


def is_replacement(renamed):
    """Whether one of the files that a change has put in their places so far was put in the place of another one: `current`, the
    locks, or properties of a revision that is there, which nothing else is written with."""
    return any(Path(path).name in ("current", "locks.dump") for path in renamed) or (
        bool(renamed) and all("revprops" in Path(path).parts for path in renamed)
    )


class Failing:
    """A program that runs, of which one call about a folder fails, or none."""

    def __init__(self, words, folder, fault=None, **streams):
        self.folder, self.fault, self.places = str(folder), fault, Counter()
        self.hit, self.rests, self.trouble = None, False, None
        self.renamed, self.is_in_doubt = set(), False
        self.ours, theirs = socket.socketpair()
        self.answering, self.begun = threading.Thread(target=self.answer_all, daemon=True), threading.Event()
        self.answering.start()
        with theirs:
            self.process = subprocess.Popen(
                list(map(str, words)), preexec_fn=lambda: socket.send_fds(theirs, [b"-"], [install_filter()]), **streams
            )
        self.begun.set()

    def answer_all(self):
        """Answers calls until the program has ended."""
        with self.ours:
            files = socket.recv_fds(self.ours, 1, 1)[1]
        if not files:
            return
        self.listener = files[0]
        waiting = select.poll()
        waiting.register(self.listener, select.POLLIN)
        while waiting.poll()[0][1] & select.POLLIN:
            notice = bytearray(struct.calcsize(NOTICE))
            try:
                fcntl.ioctl(self.listener, RECEIVE, notice)
                self.answer(Call(notice))
            except OSError as error:
                # the program was killed in the middle of a call
                if error.errno not in (errno.ENOENT, errno.ESRCH):
                    self.trouble = f"{type(error).__name__}: {error}"
        os.close(self.listener)

    def answer(self, call):
        """Lets a call go on, or fail."""
        inside = [path for path in call.paths if path == self.folder or path.startswith(self.folder + "/")]
        fails = bool(inside) and self.notes(call.kind, os.path.relpath(inside[-1], self.folder))
        value, error = self.spoilt(call) if fails else (0, 0)
        fcntl.ioctl(self.listener, SEND, struct.pack(ANSWER, call.id, value, error, 0 if fails else 1))

    def notes(self, kind, path):
        """Counts a call about the folder. Whether it is to fail."""
        if self.rests:
            return False
        self.places[kind] += 1
        if kind == "rename":
            self.renamed.add(path)
        if self.hit and self.fault.lasts:
            self.fault = self.fault._replace(done="nothing")
            self.is_in_doubt |= is_replacement(self.renamed)
            return True
        if self.hit or not self.fault or (kind, self.places[kind]) != self.fault[:2]:
            return False
        self.hit, self.is_in_doubt = path, is_replacement(self.renamed)
        return True

    def begin(self):
        """Begins a change, of whose calls none has been made."""
        self.renamed = set()

    def rest(self):
        """From here on no call fails, nor counts."""
        self.rests = True

    def spoilt(self, call):
        """What a call that fails answers: a value and an error."""
        fault = self.fault
        done = 0 if fault.done == "nothing" else self.do(call)
        return (0, -getattr(errno, fault.error)) if fault.error else (done, 0)

    def do(self, call):
        """Does a call that fails, in the program's place. Gives what it answers. That it has to fail by itself counts as done."""
        try:
            return self.do_on_paths(call) if FORMS[call.number][1] else self.do_on_file(call)
        except (BlockingIOError, FileExistsError, FileNotFoundError):
            return 0

    def do_on_file(self, call):
        """Does a call about an open file, as a whole or by half."""
        if call.number in NOT_DONE:
            raise OSError(f"a {call.kind} of another form, which cannot be done for the program")
        self.begun.wait()
        process = os.pidfd_open(self.process.pid)
        number = call.given[0] & 0xFFFFFFFF
        file = system.syscall(GET_FILE, process, number, 0)
        os.close(process)
        if file < 0:
            raise OSError(ctypes.get_errno(), "the file of the program")
        try:
            size = call.given[2] // (2 if self.fault.done == "half" else 1)
            if call.kind == "write":
                return os.write(file, call.memory(call.given[1], size))
            if call.kind == "read":
                return len(os.read(file, size))
            if call.kind == "close":
                return self.close_file(call, number)
            return os.fsync(file) if call.kind == "fsync" else fcntl.flock(file, call.given[1])
        finally:
            os.close(file)

    def close_file(self, call, number):
        """Closes a file of the program. Its number is then that of another one, which is nobody's."""
        with open(os.devnull) as other:
            fcntl.ioctl(self.listener, ADD_FILE, struct.pack(ADDED, call.id, 1, other.fileno(), number, 0))

    def do_on_paths(self, call):
        """Does a call about paths."""
        if call.kind == "openat":
            flags, mode = call.given[1:3] if call.number == OPEN else call.given[2:4]
            os.close(os.open(call.paths[0], flags & 0xFFFFFFFF, mode & 0o7777))
        elif call.kind == "rename":
            os.rename(*call.paths)
        elif call.kind == "mkdir":
            os.mkdir(call.paths[0], call.given[1 if call.number == MKDIR else 2] & 0o7777)
        elif call.kind == "unlink":
            os.unlink(call.paths[0])

    def end(self):
        """Kills it, if it runs. Gives the status with which it ended."""
        self.process.kill()
        status = self.process.wait()
        self.answering.join()
        return status
