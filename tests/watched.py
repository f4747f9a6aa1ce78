"""Programs whose calls of the system are seen before they are made: what `power-cut` runs the server by.

A filter of the kernel (seccomp) stops a thread of the program at each call that is watched, until it is said what becomes
of the call: it is made, it fails by an error number, or the program is killed before it. No right is needed for that. It is
for Linux on x86-64.
"""

import array
import ctypes
import fcntl
import os
import select
import signal
import socket
import struct
import subprocess
import sys
import threading
from pathlib import Path

# the calls that can be watched, and their numbers
NUMBERS = {"read": 0, "write": 1, "open": 2, "pwrite64": 18, "writev": 20, "sendto": 44, "flock": 73, "fsync": 74, "fdatasync": 75}
NUMBERS |= {"truncate": 76, "ftruncate": 77, "rename": 82, "mkdir": 83, "rmdir": 84, "creat": 85, "link": 86, "unlink": 87}
NUMBERS |= {"symlink": 88, "openat": 257, "mkdirat": 258, "unlinkat": 263, "renameat": 264, "linkat": 265, "symlinkat": 266}
NUMBERS |= {"fallocate": 285, "pwritev": 296, "renameat2": 316, "copy_file_range": 326}
# what a handler answers in place of an error number
MAKE, KILL = 0, -1

CLONE_ARCHITECTURE, SECCOMP_CALL, NO_NEW_PRIVILEGES = 0xC000003E, 317, 38
FILTER_MODE, WITH_LISTENER = 1, 8
LOAD, IS_EQUAL, ANSWER = 0x20, 0x15, 0x06
ALLOW, NOTIFY = 0x7FFF0000, 0x7FC00000
RECEIVE, SEND, ASK, GOES_ON = 0xC0502100, 0xC0182101, 0x40082102, 1
WORKING_FOLDER = -100


class Call:
    """A call of a watched program, which waits."""

    def __init__(self, notice):
        self.key, self.thread, _flags, number, _architecture, _place, *self.arguments = struct.unpack("=QIIiIQ6Q", notice)
        self.name = next(name for name, its in NUMBERS.items() if its == number)

    def number(self, place):
        """An argument as a signed number of 32 bits."""
        return ctypes.c_int32(self.arguments[place] & 0xFFFFFFFF).value

    def memory(self, address, length):
        """Bytes of the program's memory; fewer where there are no more."""
        memory = os.open(f"/proc/{self.thread}/mem", os.O_RDONLY)
        try:
            return os.pread(memory, length, address)
        finally:
            os.close(memory)

    def pieces(self, place):
        """The bytes of the pieces of an argument of `writev`, which has their count behind it."""
        listed = self.memory(self.arguments[place], 16 * self.arguments[place + 1])
        return b"".join(self.memory(address, length) for address, length in struct.iter_unpack("=QQ", listed))

    def file(self, place=0):
        """The path of the open file that an argument names, or what else it is."""
        try:
            return os.readlink(f"/proc/{self.thread}/fd/{self.number(place)}")
        except OSError:
            return "none"

    def position(self):
        """Where in its file a `write` begins."""
        for line in Path(f"/proc/{self.thread}/fdinfo/{self.number(0)}").read_text().splitlines():
            if line.startswith("pos:"):
                return int(line.split()[1])

    def path(self, place, folder=None):
        """The path that an argument is, in the folder that another is, without links in the folders above."""
        address = self.arguments[place]
        text = self.memory(address, 4096 - address % 4096).split(b"\0")[0]
        if len(text) == 4096 - address % 4096:
            text += self.memory(address + len(text), 4096).split(b"\0")[0]
        is_working = folder is None or self.number(folder) == WORKING_FOLDER
        above = os.readlink(f"/proc/{self.thread}/cwd") if is_working else self.file(folder)
        whole = os.path.join(above, os.fsdecode(text).rstrip("/"))
        return os.path.join(os.path.realpath(os.path.dirname(whole)), os.path.basename(whole))


class Watched:
    """A program that runs under the filter. The handler is asked about each call of these names, one after another, in a
    thread of its own, and answers MAKE, KILL or an error number."""

    def __init__(self, words, names, handler, **options):
        ours, theirs = socket.socketpair()
        listed = ",".join(str(NUMBERS[name]) for name in names)
        launcher = [sys.executable, "-B", __file__, str(theirs.fileno()), listed, *map(str, words)]
        with ours, theirs:
            self.process = subprocess.Popen(launcher, pass_fds=[theirs.fileno()], **options)
            theirs.close()
            _said, given, _flags, _address = socket.recv_fds(ours, 1, 1)
        if not given:
            self.process.wait()
            sys.exit("the system has no filter of calls (seccomp) that tells of them")
        self.listener, self.handler, self.fault = given[0], handler, None
        self.thread = threading.Thread(target=self.listen, daemon=True)
        self.thread.start()

    def listen(self):
        """Takes calls until the program has ended."""
        waits = select.poll()
        waits.register(self.listener, select.POLLIN)
        while not any(happened & select.POLLHUP for _file, happened in waits.poll()):
            notice = bytearray(80)
            try:
                fcntl.ioctl(self.listener, RECEIVE, notice)
                self.decide(Call(notice))
            except OSError:
                continue  # the thread is gone
        os.close(self.listener)

    def decide(self, call):
        """Asks about a call. Where the handler fails at a call that still waits, the program is killed, and `fault` is why."""
        try:
            decided = self.handler(call)
        except Exception as error:
            fcntl.ioctl(self.listener, ASK, struct.pack("=Q", call.key))
            self.fault, decided = error, KILL
        if decided == KILL:
            self.process.send_signal(signal.SIGKILL)
        else:
            answer = struct.pack("=QqiI", call.key, 0, -decided, 0 if decided else GOES_ON)
            fcntl.ioctl(self.listener, SEND, bytearray(answer))

    def wait(self, timeout=None):
        """How the program has ended. All its calls were handled then."""
        status = self.process.wait(timeout)
        self.thread.join()
        if self.fault:
            raise self.fault
        return status


def launch(channel, listed, words):
    """Takes the filter, hands its other end over, and becomes the program."""
    system = ctypes.CDLL(None, use_errno=True)
    numbers = [int(number) for number in listed.split(",")]
    steps = [(LOAD, 0, 0, 4), (IS_EQUAL, 0, len(numbers) + 1, CLONE_ARCHITECTURE), (LOAD, 0, 0, 0)]
    steps += [(IS_EQUAL, len(numbers) - place, 0, number) for place, number in enumerate(numbers)]
    steps += [(ANSWER, 0, 0, ALLOW), (ANSWER, 0, 0, NOTIFY)]
    content = ctypes.create_string_buffer(b"".join(struct.pack("=HBBI", *step) for step in steps))
    program = ctypes.create_string_buffer(struct.pack("@HP", len(steps), ctypes.addressof(content)))
    if system.prctl(NO_NEW_PRIVILEGES, 1, 0, 0, 0) != 0:
        sys.exit(f"no filter of calls: error {ctypes.get_errno()}")
    listener = system.syscall(SECCOMP_CALL, FILTER_MODE, WITH_LISTENER, program)
    if listener < 0:
        os._exit(1)
    channel.sendmsg([b"."], [(socket.SOL_SOCKET, socket.SCM_RIGHTS, array.array("i", [listener]))])
    channel.close()
    os.execv(words[0], words)


if __name__ == "__main__":
    launch(socket.socket(fileno=int(sys.argv[1])), sys.argv[2], sys.argv[3:])
