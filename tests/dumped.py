"""Random histories as dumps, which `svnadmin load` reads: what `take-over-test` makes repositories of."""

from typing import NamedTuple

NAMES = ["a", "b c", "ü", "100%", "x#y", ".hidden", "lines.txt", "data.bin", "Makefile", "(1)"]


class Node(NamedTuple):
    """An entry of a tree: the text of a file, or None for a directory."""

    text: bytes | None
    properties: dict


def counted(letter, text):
    return b"%b %d\n%b\n" % (letter, len(text), text)


def property_list(properties):
    return b"".join(counted(b"K", name) + counted(b"V", value) for name, value in properties.items()) + b"PROPS-END\n"


def record(headers, properties=None, text=None):
    """A record of a dump: what is not None is in it."""
    body = b"" if properties is None else property_list(properties)
    lines = [*headers]
    if properties is not None:
        lines.append(b"Prop-content-length: %d" % len(body))
    if text is not None:
        lines.append(b"Text-content-length: %d" % len(text))
        body += text
    if body or properties is not None or text is not None:
        lines.append(b"Content-length: %d" % len(body))
    return b"\n".join(lines) + b"\n\n" + body + b"\n\n"


def beginning(uuid):
    """What a dump begins with."""
    return b"SVN-fs-dump-format-version: 2\n\nUUID: %b\n\n" % uuid.encode()


def revision(number, properties):
    body = property_list(properties)
    return b"Revision-number: %d\nProp-content-length: %d\nContent-length: %d\n\n%b\n" % (number, len(body), len(body), body)


def change(path, kind, action, properties=None, text=None, source=None):
    """What a revision does at a path."""
    headers = [b"Node-path: " + path.encode()]
    if kind:
        headers.append(b"Node-kind: " + kind.encode())
    headers.append(b"Node-action: " + action.encode())
    if source:
        headers += [b"Node-copyfrom-rev: %d" % source[0], b"Node-copyfrom-path: " + source[1].encode()]
    return record(headers, properties, text)


class History:
    """A random history: branches, tags, moves, replaced entries, properties, texts of every kind and none."""

    def __init__(self, chance):
        self.chance = chance
        self.trees = [{}]
        self.count = 0

    def dump(self, uuid, size):
        """The dump of so many revisions."""
        parts = [beginning(uuid), revision(0, {b"svn:date": self.date(0)})]
        for number in range(1, size + 1):
            parts += [revision(number, self.revision_properties(number)), *self.changes(number)]
        return b"".join(parts)

    def date(self, number):
        return b"20%02d-%02d-%02dT12:34:56.%06dZ" % (number % 30, number % 12 + 1, number % 28 + 1, number)

    def revision_properties(self, number):
        """Properties of a revision, of which any may be missing, but for the date."""
        log = self.chance.choice(["", "one line", "ümlaut\nand a second line\n", "ends of lines\r\nof another\rsystem", f"change {number}"])
        found = {b"svn:date": self.date(number), b"svn:log": log.encode()}
        if number % 7:
            found[b"svn:author"] = self.chance.choice([b"carol", b"dora", "jürgen".encode()])
        if number % 10 == 3:
            found[b"ticket"] = bytes(range(256))
        return found

    def changes(self, number):
        """What a revision does. The first one makes the usual directories, and every fiftieth nothing."""
        self.tree, self.touched, parts = dict(self.trees[-1]), [], []
        if number == 1:
            for path in ("trunk", "trunk/src", "branches", "tags"):
                parts += self.add(path, Node(None, {}))
            parts += self.add("at-root", Node(b"", {}))
        elif number % 50:
            acts = [self.put] * 4 + [self.alter] * 5 + [self.make_directory, self.mark, self.branch, self.move, self.delete, self.replace, self.touch]
            for act in self.chance.sample(acts, self.chance.randint(1, 4)):
                parts += act(number)
        self.trees.append(self.tree)
        return parts

    # What one change is. Nothing is done where there is no entry for it, or where the revision has been already.

    def is_free(self, path):
        return not any(path == it or path.startswith(it + "/") or it.startswith(path + "/") for it in self.touched)

    def pick(self, is_right):
        """A path of the tree, or none."""
        found = [path for path, node in self.tree.items() if is_right(path, node) and self.is_free(path)]
        return self.chance.choice(found) if found else None

    def file(self):
        return self.pick(lambda _, node: node.text is not None)

    def directory(self):
        return self.pick(lambda path, node: node.text is None and path.count("/") < 5)

    def new_path(self):
        """A path at which there is nothing, or none."""
        folders = [path for path, node in self.tree.items() if node.text is None and path not in ("branches", "tags")]
        folders = [path for path in folders if not any(path == it or path.startswith(it + "/") for it in self.touched)]
        self.count += 1
        path = f"{self.chance.choice(folders)}/{self.chance.choice(NAMES)}{self.count if self.chance.random() < 0.7 else ''}" if folders else None
        return path if path and path not in self.tree and self.is_free(path) else None

    def text(self):
        kind = self.chance.randrange(6)
        if kind == 0:
            return b""
        if kind == 1:
            return bytes(range(256)) * self.chance.randint(1, 20)
        if kind == 2:
            return self.chance.randbytes(self.chance.randint(1, 20_000))
        lines = [b"line %d" % self.chance.randrange(50) for _ in range(self.chance.randint(1, 100))]
        return b"\n".join(lines) + (b"\n" if kind > 3 else b"")

    def properties(self, is_file):
        own = [(b"svn:executable", b"*"), (b"svn:mime-type", b"application/x-y"), (b"color", b"red")] if is_file else []
        own += [(b"svn:ignore", b"*.o\r\nout\n")] if not is_file else []
        own += [(b"svn:mergeinfo", b"/branches/b1:2-3"), (b"empty", b""), (b"bytes", bytes(range(256))), ("ü name".encode(), b"x")]
        return dict(self.chance.sample(own, self.chance.choice([0, 0, 1, 2])))

    def add(self, path, node, source=None):
        self.tree[path] = node
        self.touched.append(path)
        return [change(path, "dir" if node.text is None else "file", "add", node.properties, node.text, source)]

    def put(self, _number):
        path = self.new_path()
        return self.add(path, Node(self.text(), self.properties(True))) if path else []

    def make_directory(self, _number):
        path = self.new_path()
        return self.add(path, Node(None, self.properties(False))) if path and path.count("/") < 6 else []

    def alter(self, _number):
        """Another text, other properties, or both."""
        path = self.file()
        if not path:
            return []
        text = self.text() if self.chance.random() < 0.8 else None
        old = self.tree[path]
        own = self.properties(True) if text is None or self.chance.random() < 0.3 else None
        if own == old.properties:
            own, text = None, self.text()
        self.tree[path] = Node(old.text if text is None else text, old.properties if own is None else own)
        self.touched.append(path)
        return [change(path, "file", "change", own, text)]

    def touch(self, _number):
        """The text that a file has already."""
        path = self.file()
        if not path:
            return []
        self.touched.append(path)
        return [change(path, "file", "change", None, self.tree[path].text)]

    def mark(self, number):
        """Properties of a directory."""
        path = self.directory()
        if not path:
            return []
        self.touched.append(path)
        own = self.properties(False)
        if own == self.tree[path].properties:
            own = {**own, b"marked": b"%d" % number}
        self.tree[path] = Node(None, own)
        return [change(path, "dir", "change", own)]

    def copied(self, path, revision, source):
        """A copy of an entry of an older revision, and in a directory sometimes a file that changes with it."""
        old = self.trees[revision]
        self.touched.append(path)
        for under in [it for it in old if it == source or it.startswith(source + "/")]:
            self.tree[path + under[len(source) :]] = old[under]
        parts = [change(path, "dir" if old[source].text is None else "file", "add", None, None, (revision, source))]
        files = [it for it, node in self.tree.items() if it.startswith(path + "/") and node.text is not None]
        if files and self.chance.random() < 0.4:
            changed = self.chance.choice(files)
            self.tree[changed] = self.tree[changed]._replace(text=self.text())
            parts.append(change(changed, "file", "change", None, self.tree[changed].text))
        return parts

    def branch(self, number):
        """A branch or a tag, of trunk as it was in some revision."""
        path = f"{self.chance.choice(['branches/b', 'tags/t'])}{number}"
        old = self.chance.randint(max(1, number - 20), number - 1)
        return self.copied(path, old, "trunk") if self.is_free(path) and len(self.tree) < 500 else []

    def taken_away(self, path):
        self.touched.append(path)
        for under in [it for it in self.tree if it == path or it.startswith(path + "/")]:
            del self.tree[under]
        return [change(path, None, "delete")]

    def movable(self):
        return self.pick(lambda path, node: path.count("/") > 0 and path != "trunk/src" and path in self.trees[-1])

    def move(self, number):
        source = self.movable()
        if not source:
            return []
        parts = self.taken_away(source)
        path = self.new_path()
        return [*self.copied(path, number - 1, source), *parts] if path else parts

    def delete(self, _number):
        path = self.movable()
        return self.taken_away(path) if path and self.chance.random() < 0.5 else []

    def replace(self, number):
        """Another entry in the place of one: a new file, or a copy of a file that was there before."""
        path = self.file()
        if not path or path not in self.trees[-1]:
            return []
        gone = self.taken_away(path)
        self.touched.remove(path)
        others = [it for it, node in self.trees[-1].items() if node.text is not None and it != path]
        if others and self.chance.random() < 0.5:
            return [*gone, *self.copied(path, number - 1, self.chance.choice(others))]
        return [*gone, *self.add(path, Node(self.text(), self.properties(True)))]
