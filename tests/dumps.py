"""What `svnadmin dump` writes of a repository, revision by revision: what `scripts/take-over` compares, and looks for limits in."""

import hashlib
import subprocess
import tempfile
from typing import NamedTuple, Optional

# of a text so many bytes are in memory at a time
PIECE = 1 << 20
# what svnsync keeps at revision 0 of the repository that it writes
OF_SYNC = b"svn:sync-"


class Broken(Exception):
    """`svnadmin dump` fails, or writes what is no dump."""


class Text(NamedTuple):
    """How long a text is, and its SHA-256."""

    size: int
    digest: bytes


class Change(NamedTuple):
    """What a revision does at one path. Properties and a text are None where it leaves them as they were."""

    path: bytes
    kind: Optional[bytes]
    action: bytes
    source: Optional[tuple]
    properties: Optional[dict]
    text: Optional[Text]

    def is_plain(self):
        """Whether an entry stays, with other properties or another text."""
        return self.action == b"change" and self.source is None


class Revision(NamedTuple):
    """A revision: its number, its own properties, and what it changes."""

    number: int
    properties: dict
    changes: list

    def digest(self):
        """A digest of all of it, which two revisions share that are the same."""
        changes = [change._replace(properties=change.properties and sorted(change.properties.items())) for change in self.changes]
        return hashlib.sha256(repr((self.number, sorted(self.properties.items()), changes)).encode()).digest()


def with_plain_lines(properties):
    """Properties as svnsync writes them: those of Subversion's own have LF at the ends of lines."""
    plain = {}
    for name, value in properties.items():
        is_own = name.startswith(b"svn:")
        plain[name] = value.replace(b"\r\n", b"\n").replace(b"\r", b"\n") if is_own else value
    return plain


def lf_only(revision):
    """A revision with such properties, and without those that svnsync keeps at revision 0."""
    own = {name: value for name, value in revision.properties.items() if revision.number or not name.startswith(OF_SYNC)}
    changes = [change._replace(properties=change.properties and with_plain_lines(change.properties)) for change in revision.changes]
    return revision._replace(properties=with_plain_lines(own), changes=changes)


def revisions(folder, first, last):
    """The revisions of a repository from one to another, as `svnadmin dump` writes them."""
    words = ["svnadmin", "dump", "-q", "--incremental", "-r", f"{first}:{last}", str(folder)]
    with tempfile.TemporaryFile() as said, subprocess.Popen(words, stdin=subprocess.DEVNULL, stdout=subprocess.PIPE, stderr=said) as dump:
        try:
            yield from read_revisions(dump.stdout)
            if dump.wait() != 0:
                said.seek(0)
                raise Broken(f"`{' '.join(words)}` fails: {said.read().decode(errors='replace').strip()}")
        finally:
            dump.kill()


def read_revisions(stream):
    """The revisions of a dump."""
    revision = None
    while (headers := read_headers(stream)) is not None:
        if b"Revision-number" in headers:
            if revision:
                yield revision
            revision = Revision(int(headers[b"Revision-number"]), read_properties(stream, headers) or {}, [])
        elif b"Node-path" in headers:
            revision.changes.append(read_change(stream, headers))
    if revision:
        yield revision


def read_headers(stream):
    """The next headers, by their names. None at the end of the dump."""
    headers = {}
    while line := stream.readline():
        if line == b"\n" and headers:
            return headers
        name, colon, value = line[:-1].partition(b": ")
        if colon:
            headers[name] = value
        elif line != b"\n":
            raise Broken(f"a dump has the line {line[:80]!r} where a header is to be")
    return headers or None


def read_change(stream, headers):
    """What is changed at one path, behind its headers."""
    source = None
    if b"Node-copyfrom-path" in headers:
        source = (int(headers[b"Node-copyfrom-rev"]), headers[b"Node-copyfrom-path"])
    properties = read_properties(stream, headers)
    text = read_text(stream, headers)
    return Change(headers[b"Node-path"], headers.get(b"Node-kind"), headers[b"Node-action"], source, properties, text)


def read_properties(stream, headers):
    """The properties behind some headers, if there are any."""
    if b"Prop-content-length" not in headers:
        return None
    rest, properties = stream.read(int(headers[b"Prop-content-length"])), {}
    while not rest.startswith(b"PROPS-END\n"):
        name, rest = counted(rest, b"K")
        properties[name], rest = counted(rest, b"V")
    return properties


def counted(rest, letter):
    """A name or a value, which its length is in front of, and what follows it."""
    line, _, rest = rest.partition(b"\n")
    if not line.startswith(letter + b" "):
        raise Broken(f"a dump has the line {line[:80]!r} in a list of properties")
    size = int(line[2:])
    return rest[:size], rest[size + 1 :]


def read_text(stream, headers):
    """How long the text behind some headers is, and its digest, if there is one."""
    if b"Text-content-length" not in headers:
        return None
    size, digest = int(headers[b"Text-content-length"]), hashlib.sha256()
    left = size
    while left:
        piece = stream.read(min(left, PIECE))
        if not piece:
            raise Broken("a dump ends within a text")
        digest.update(piece)
        left -= len(piece)
    return Text(size, digest.digest())
