"""The files of a worked history of four revisions, laid out by hand from the rules of Subversion's formats 2 and 3.

Revision 1 adds `/a`. Revision 2 copies it to `/b` and to `/c`, and adds `/d`. Revision 3 adds the directory `/e` with `/e/f`.
Revision 4 copies `/e` as it is to `/g`, and to `/h`, where `/h/f` is changed and `/h/i` is another copy of `/a`.

In format 2 ids are counted over all revisions, and the file `current` has those that come next. In format 3 they are counted in
each revision from 0, and have its number. A history that went on in format 3 has ids of both kinds.
"""

from spelling import add_directory, add_file, close_directory, close_file, delta, digest, document, hash_dump, open_file, open_root, string

TEXT_OF_A, TEXT_OF_D, TEXT_OF_F, CHANGED_TEXT_OF_F = b"hello\n", b"d", b"f of 3\n", b"f of 4\n"

# what each new node id is in format 2 and in format 3, in the order in which they are taken
NODES = {"a": ("1", "0-1"), "d": ("2", "0-2"), "f": ("3", "0-3"), "e": ("4", "1-3")}
# and each new copy id: that of `/h` is taken after those of what is beneath it
COPIES = {"b": ("1", "0-2"), "c": ("2", "1-2"), "g": ("3", "0-4"), "i": ("4", "1-4"), "h": ("5", "2-4")}
# which ids come next in format 2, after each revision
NEXT = ("1 1", "2 1", "3 3", "5 3", "5 6")

ROOT_OF_0 = b"PLAIN\nEND\nENDREP\nid: 0.0.r0/17\ntype: dir\ncount: 0\ntext: 0 0 4 4 2d2977d1c96f487abe4a1e202dd03b4e\ncpath: /\n\n\n17 107\n"


class Node:
    """A node revision, as others name it."""

    def __init__(self, name, kind, count, line):
        self.name, self.kind, self.count, self.line = name, kind, count, line


class RevisionFile:
    """The file of a revision: its node revisions, the root's last, each after what it contains, and its changes."""

    def __init__(self, number):
        self.number, self.bytes, self.changes = number, b"", b""

    def contents(self, content):
        """What a node revision contains: a text, or entries. Gives the line that says where it is."""
        if isinstance(content, dict):
            content = hash_dump({name: f"{node.kind} {node.name}" for name, node in content.items()})
        line = f"{self.number} {len(self.bytes)} {len(content)} {len(content)} {digest(content)}"
        self.bytes += b"PLAIN\n" + content + b"ENDREP\n"
        return line

    def node(self, path, ids, content=None, before=None, source=None, root="0 /"):
        """A node revision of a node id and a copy id. Without contents of its own it keeps those of the one before it. One that was
        copied has its source; of any other it is said where the copy begins that it is of."""
        line = before.line if content is None else self.contents(content)
        kind = before.kind if before else "dir" if isinstance(content, dict) else "file"
        self.root = len(self.bytes)
        node = Node(f"{ids[0]}.{ids[1]}.r{self.number}/{self.root}", kind, before.count + 1 if before else 0, line)
        predecessor = f"pred: {before.name}\n" if before else ""
        begins = f"copyfrom: {source}\n" if source else f"copyroot: {root}\n"
        self.bytes += f"id: {node.name}\ntype: {kind}\n{predecessor}count: {node.count}\ntext: {line}\ncpath: {path}\n{begins}\n".encode()
        return node

    def change(self, node, what, path, source=""):
        """A path is changed: the action, whether its text is another, and whether its properties are. Paths come in order."""
        self.changes += f"{node.name} {what} {path}\n{source}\n".encode()

    def whole(self):
        """The bytes of the file."""
        return self.bytes + self.changes + f"\n{self.root} {len(self.bytes)}\n".encode()


def worked_files(last_of_2):
    """The files of revisions 0 to 4, of which those up to this one were written in format 2, and all later ones in format 3."""
    node_id = lambda name, number: NODES[name][number > last_of_2]
    copy_id = lambda name, number: COPIES[name][number > last_of_2]
    root = Node("0.0.r0/17", "dir", 0, None)
    first, second, third, fourth = map(RevisionFile, range(1, 5))

    a = first.node("/a", (node_id("a", 1), "0"), TEXT_OF_A)
    root = first.node("/", ("0", "0"), {"a": a}, root)
    first.change(a, "add true false", "/a")

    b, c = (second.node(f"/{name}", (node_id("a", 1), copy_id(name, 2)), None, a, "1 /a") for name in "bc")
    d = second.node("/d", (node_id("d", 2), "0"), TEXT_OF_D)
    root = second.node("/", ("0", "0"), {"a": a, "b": b, "c": c, "d": d}, root)
    second.change(b, "add false false", "/b", "1 /a")
    second.change(c, "add false false", "/c", "1 /a")
    second.change(d, "add true false", "/d")

    f = third.node("/e/f", (node_id("f", 3), "0"), TEXT_OF_F)
    e = third.node("/e", (node_id("e", 3), "0"), {"f": f})
    root = third.node("/", ("0", "0"), {"a": a, "b": b, "c": c, "d": d, "e": e}, root)
    third.change(e, "add false false", "/e")
    third.change(f, "add true false", "/e/f")

    g = fourth.node("/g", (node_id("e", 3), copy_id("g", 4)), None, e, "3 /e")
    h_f = fourth.node("/h/f", (node_id("f", 3), copy_id("h", 4)), CHANGED_TEXT_OF_F, f, root="4 /h")
    h_i = fourth.node("/h/i", (node_id("a", 1), copy_id("i", 4)), None, a, "1 /a")
    h = fourth.node("/h", (node_id("e", 3), copy_id("h", 4)), {"f": h_f, "i": h_i}, e, "3 /e")
    fourth.node("/", ("0", "0"), {"a": a, "b": b, "c": c, "d": d, "e": e, "g": g, "h": h}, root)
    fourth.change(g, "add false false", "/g", "3 /e")
    fourth.change(h, "add false false", "/h", "3 /e")
    fourth.change(h_f, "modify true false", "/h/f")
    fourth.change(h_i, "add false false", "/h/i", "1 /a")

    return [ROOT_OF_0, *(file.whole() for file in (first, second, third, fourth))]


def added(path, parent, source=None, text=None):
    """The commands that add a file: a copy, or one with a text."""
    begin = add_file(path, parent, "c", b"" if source is None else string(source[0]) + b"%d " % source[1])
    return [begin, *([] if text is None else delta("c", document(text))), close_file("c")]


def worked_edits():
    """The commands of the edits that make revisions 1 to 4."""
    from_e = string("/e") + b"3 "
    return [
        [open_root(), *added("a", "d0", text=TEXT_OF_A)],
        [open_root(), *added("b", "d0", ("/a", 1)), *added("c", "d0", ("/a", 1)), *added("d", "d0", text=TEXT_OF_D)],
        [open_root(), add_directory("e", "d0", "d1"), *added("e/f", "d1", text=TEXT_OF_F)],
        [
            open_root(),
            add_directory("g", "d0", "d1", from_e),
            close_directory("d1"),
            add_directory("h", "d0", "d1", from_e),
            open_file("h/f", "d1", "c"),
            *delta("c", document(CHANGED_TEXT_OF_F)),
            close_file("c"),
            *added("h/i", "d1", ("/a", 1)),
        ],
    ]


def worked_current(format, youngest):
    """The file `current` of a folder of a format, with this revision as the youngest."""
    return f"{youngest} {NEXT[youngest]}\n".encode() if format == 2 else f"{youngest}\n".encode()
