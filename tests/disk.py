"""What a disk may have after a power cut: the folders that `power-cut` lays out.

The bytes of a file are on the disk up to its last fsync. Of what was written since then the disk has nothing, a beginning, all,
or the length alone with zeros in place of bytes. The names in a folder are on the disk up to the last fsync of that folder: files
and folders made, renamed and removed. Of the changes of names since then the disk has a beginning, in each folder another one. A
rename within a folder is there whole or not at all.
"""

import hashlib
import itertools
import math
import os

FORGETS = ("fsync-file", "fsync-folder", "fsync-shards", "fsync-opening")


def written(content, step):
    """The bytes of a file after a step: bytes at a place, or another length at none."""
    place, change = step
    if place is None:
        return content[:change].ljust(change, b"\0")
    content = content.ljust(place, b"\0")
    return content[:place] + change + content[place + len(change) :]


class File:
    """The bytes of a file that are on the disk, and the steps since then."""

    def __init__(self, path, durable=b""):
        self.path, self.durable, self.since = path, durable, []

    def now(self):
        """Its bytes after all steps."""
        content = self.durable
        for step in self.since:
            content = written(content, step)
        return content

    def states(self):
        """What the disk may have of it, each with a word for it, from nothing of the steps to all."""
        found, content, zeros = {self.durable: "nothing"}, self.durable, self.durable
        for count, (place, change) in enumerate(self.since, 1):
            last = f"step {count} of {len(self.since)}"
            if place is not None:
                half, rest = change[: len(change) // 2], bytes(len(change) - len(change) // 2)
                zeros = written(zeros, (place, bytes(len(change))))
                found.setdefault(zeros, f"zeros for bytes up to {last}")
                found.setdefault(written(content, (place, half)), f"half of {last}")
                found.setdefault(written(content, (place, half + rest)), f"half of {last} and zeros")
            else:
                zeros = written(zeros, (place, change))
            content = written(content, (place, change))
            if count < len(self.since):
                found.setdefault(content, f"all up to {last}")
        found.pop(content, None)
        return [(word, state) for state, word in found.items()] + [("all", content)]


def renamed(names, step):
    """The names in a folder after a step: what has each name then, None where nothing has it."""
    return {name: node for name, node in {**names, **step}.items() if node is not None}


class Folder:
    """The names in a folder that are on the disk, and the steps since then."""

    def __init__(self, path):
        self.path, self.durable, self.since = path, {}, []

    def now(self):
        """Its names after all steps."""
        return self.states()[-1][1]

    def states(self):
        """What the disk may have of it, each with a word for it, from nothing of the steps to all."""
        states = itertools.accumulate(self.since, renamed, initial=self.durable)
        return [(f"{count} of {len(self.since)} steps", state) for count, state in enumerate(states)]

    def nodes(self):
        """Each file and folder that may be in it."""
        return [node for names in (self.durable, *self.since) for node in names.values() if node is not None]


def choices(lists, most):
    """Choices of one state from each list: all of them if they are not too many, or else those in which all are the first or all
    the last but for one."""
    if math.prod(map(len, lists)) <= most:
        yield from itertools.product(*lists)
        return
    for rest in ([states[0] for states in lists], [states[-1] for states in lists]):
        for place, states in enumerate(lists):
            for state in states:
                yield (*rest[:place], state, *rest[place + 1 :])


def digest_of(layout):
    """What tells a folder that is laid out from others."""
    found = hashlib.blake2b(digest_size=16)
    for path, content in sorted(layout.items()):
        found.update(f"{path}\n{content is None} {len(content or b'')}\n".encode() + (content or b""))
    return found.hexdigest()


def kinds_of(path, node):
    """Of which kinds an fsync is."""
    if isinstance(node, File):
        return ("fsync-file",)
    return ("fsync-folder", "fsync-shards") if os.path.basename(path) in ("revs", "revprops") else ("fsync-folder",)


class Disk:
    """A folder, and what the disk has of it. Paths are from that folder on; a layout is the bytes of all files by their paths,
    with None for a folder. The kind of fsync that is named by `forgets` is passed over, as if no program asked for it."""

    def __init__(self, layout, forgets=None):
        self.top, self.forgets = Folder(""), forgets
        for path, content in sorted(layout.items()):
            self.find(os.path.dirname(path)).durable[os.path.basename(path)] = Folder(path) if content is None else File(path, content)

    def find(self, path):
        """What has this path now, if anything has."""
        node = self.top
        for name in path.split("/") if path else []:
            node = node.now().get(name) if isinstance(node, Folder) else None
        return node

    def step(self, path, node):
        """A name in a folder that exists is another's, or nobody's."""
        self.steps(os.path.dirname(path), {os.path.basename(path): node})

    def steps(self, path, step):
        """Names in a folder that exists are others'."""
        folder = self.find(path)
        if isinstance(folder, Folder):
            folder.since.append(step)

    # The calls.

    def make(self, path, flags):
        """A file is opened, and made where it is missing, or cut to nothing."""
        node = self.find(path)
        if node is None and flags & os.O_CREAT:
            self.step(path, File(path))
        elif isinstance(node, File) and flags & os.O_TRUNC and not flags & os.O_EXCL and node.now():
            node.since.append((None, 0))

    def write(self, path, place, content):
        """Bytes are written at a place of a file."""
        self.find(path).since.append((place, content))

    def resize(self, path, length):
        """A file gets a length."""
        self.find(path).since.append((None, length))

    def mkdir(self, path):
        """A folder is made, if nothing has its name."""
        if self.find(path) is None:
            self.step(path, Folder(path))

    def rename(self, old, new):
        """A name is another, in the same folder."""
        node, folder = self.find(old), os.path.dirname(new)
        if os.path.dirname(old) != folder:
            raise ValueError(f"the model has no rename between folders: {old} to {new}")
        if node is not None:
            node.path = new
            self.steps(folder, {os.path.basename(old): None, os.path.basename(new): node})

    def remove(self, path):
        """A name is removed, if something has it."""
        if self.find(path) is not None:
            self.step(path, None)

    def sync(self, path):
        """The disk has a file's bytes, or a folder's names, from here on."""
        node = self.find(path)
        if node is not None and self.forgets not in kinds_of(path, node):
            self.settled(node)

    def settle(self, path):
        """The same, by a server that is opening the folder."""
        if self.forgets != "fsync-opening":
            self.sync(path)

    def settled(self, node):
        """The disk has all of a file's bytes, or of a folder's names."""
        node.durable, node.since = node.now(), []

    # What a power cut leaves.

    def unsynced(self):
        """The files and folders that the disk may have in several states."""
        found, waiting = {}, [self.top]
        while waiting:
            node = waiting.pop()
            if id(node) not in found:
                found[id(node)] = node
                waiting += node.nodes() if isinstance(node, Folder) else []
        return [node for node in found.values() if node.since]

    def laid_out(self, chosen):
        """The layout in which some files and folders have the states that were chosen, and the others have all."""
        layout, waiting = {}, [("", self.top)]
        while waiting:
            path, node = waiting.pop()
            state = chosen.get(id(node))
            state = node.now() if state is None else state
            if path:
                layout[path] = state if isinstance(node, File) else None
            if isinstance(node, Folder):
                waiting += [(f"{path}/{name}".lstrip("/"), its) for name, its in state.items()]
        return layout

    def layouts(self, most):
        """What a power cut may leave at this moment, each with words for it."""
        nodes = self.unsynced()
        for chosen in choices([node.states() for node in nodes], most):
            words = [f"of {node.path or 'the folder above'} {word}" for node, (word, _state) in zip(nodes, chosen)]
            yield ", ".join(words) or "all synced", self.laid_out({id(node): state for node, (_word, state) in zip(nodes, chosen)})
