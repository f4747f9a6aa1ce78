"""Which merge information the entries of a tree have, in plain words: what `merge-rows` and `random-merges` expect of a server.

A tree is a dict from paths, tuples of names, to the properties of their entries. The functions have the names of the definitions in
`crates/mergeinfo/specs` and `crates/merge_queries/specs`.
"""

import io
import re
import subprocess

from dumps import read_revisions
from spelling import ANONYMOUS, boolean, greeting_answer, items, string

NAME = b"svn:mergeinfo"
LAST_REVISION = (1 << 31) - 1
INHERITANCES = ["explicit", "inherited", "nearest-ancestor"]

# ---- texts


def revision_of(digits):
    """A revision above 0, in at most 10 digits."""
    number = int(digits) if re.fullmatch(rb"[0-9]{1,10}", digits) else 0
    return number if 0 < number <= LAST_REVISION else None


def range_of(text):
    """A range: its first revision, its last one, and whether it is inheritable."""
    first, dash, last = text.removesuffix(b"*").partition(b"-")
    first, last = revision_of(first), revision_of(last) if dash else None
    if first is None or (dash and (last is None or first >= last)):
        return None
    return (first, last or first, not text.endswith(b"*"))


def ranges_of(text):
    """Ranges with commas between them. A revision is inheritable in all of them that have it, or in none."""
    ranges = [range_of(part) for part in text.split(b",")]
    if None in ranges or any(x[2] != y[2] and x[0] <= y[1] and y[0] <= x[1] for x in ranges for y in ranges):
        return None
    return ranges


def is_component(name):
    """Whether a path may have the name."""
    return name != b".." and b"\0" not in name and len(name) <= 255 and name.decode(errors="replace").encode() == name


def path_of(text):
    """The path whose names are between the slashes."""
    path = tuple(name for name in text.split(b"/") if name not in (b"", b"."))
    return path if len(path) <= 64 and all(map(is_component, path)) else None


def source_of(line):
    """A path and its ranges."""
    path, colon, ranges = line.rpartition(b":")
    path, ranges = path_of(path), ranges_of(ranges.lstrip(b" \t\n\v\f\r"))
    return (path, ranges) if colon and path is not None and ranges is not None else None


def sources_of(value):
    """The sources that a value names, or None where it is no merge information."""
    *lines, last = value.split(b"\n")
    sources = [source_of(line) for line in [*(line.removesuffix(b",") for line in lines), *([last] if last else [])]]
    return None if None in sources else sources


def revisions_of(ranges):
    """The revisions that are in ranges, as few ranges as can be, in order."""
    joined = []
    for first, last, _ in sorted(ranges):
        if joined and first <= joined[-1][1] + 1:
            joined[-1][1] = max(joined[-1][1], last)
        else:
            joined.append([first, last])
    return joined


def normal_form(sources):
    """The same revisions of the same paths, as inheritable as they are there: each path once, all in order."""
    gathered = {}
    for path, ranges in sources:
        gathered[path] = gathered.get(path, []) + ranges
    return [(path, in_order(gathered[path])) for path in sorted(gathered) if gathered[path]]


def in_order(ranges):
    """The ranges of a path: what is inheritable in one of them is, and what is in the others alone is not."""
    inheritable = revisions_of(r for r in ranges if r[2])
    found = [(first, last, True) for first, last in inheritable]
    for first, last in revisions_of(r for r in ranges if not r[2]):
        for begin, end in [*inheritable, [last + 1, last + 1]]:
            if begin > first:
                found += [(first, min(begin - 1, last), False)] if first <= last else []
            first = max(first, end + 1)
    return sorted(found)


def range_text(found):
    first, last, is_inheritable = found
    return (b"%d" % first if first == last else b"%d-%d" % (first, last)) + (b"" if is_inheritable else b"*")


def written(sources):
    return b"\n".join(b"/%b:%b" % (b"/".join(path), b",".join(map(range_text, ranges))) for path, ranges in sources)


# ---- what an entry has, and inherits


def value_at(tree, path):
    return tree.get(path, {}).get(NAME)


def upwards(path):
    """A path and those above it, the nearest first."""
    return [path[:length] for length in range(len(path), -1, -1)]


def asked(inheritance, path):
    return {"explicit": [path], "inherited": upwards(path), "nearest-ancestor": upwards(path)[1:]}[inheritance]


def inherited(rest, sources):
    """What comes from above: what is inheritable, with the rest of the path."""
    return [(path + rest, [r for r in ranges if r[2]]) for path, ranges in sources]


def sources_for(tree, inheritance, path):
    """The sources of a path, by the nearest value; None where no path has one, and where it is no merge information."""
    above = next((above for above in asked(inheritance, path) if value_at(tree, above) is not None), None)
    sources = None if above is None else sources_of(value_at(tree, above))
    if sources is None or above == path:
        return sources
    return inherited(path[len(above) :], sources)


def descendants(tree, path):
    """The paths beneath a path whose entries have a value, in the order of the paths."""
    return sorted(q for q in tree if len(q) > len(path) and q[: len(path)] == path and value_at(tree, q) is not None)


def questions(tree, inheritance, includes_descendants, paths):
    """What a query asks: each path in turn, and then what is beneath it."""
    for path in paths:
        yield (path, inheritance)
        if includes_descendants:
            yield from ((q, "explicit") for q in descendants(tree, path))


def answer(tree, inheritance, includes_descendants, paths):
    """What a query is answered: paths and texts. None where a path is missing."""
    if any(path not in tree for path in paths):
        return None
    told = []
    for path, wanted in questions(tree, inheritance, includes_descendants, paths):
        sources = sources_for(tree, wanted, path)
        if sources is not None:
            told.append((path, written(normal_form(sources))))
    return told


# ---- repositories and servers


def trees(repository):
    """The tree of each revision of a repository, by its dump."""
    dump = subprocess.run(["svnadmin", "dump", "-q", repository], check=True, capture_output=True).stdout
    found = []
    for revision in read_revisions(io.BytesIO(dump)):
        tree = dict(found[-1]) if found else {(): {}}
        for change in revision.changes:
            apply(tree, found, change)
        found.append(tree)
    return found


def split(path):
    return tuple(path.split(b"/")) if path else ()


def apply(tree, before, change):
    """Applies what a revision does at one path."""
    path = split(change.path)
    if change.action in (b"delete", b"replace"):
        for q in [q for q in tree if q[: len(path)] == path]:
            del tree[q]
    if change.action == b"delete":
        return
    if change.source:
        number, text = change.source
        source = split(text)
        for q, properties in before[number].items():
            if q[: len(source)] == source:
                tree[path + q[len(source) :]] = properties
    if change.properties is not None:
        tree[path] = change.properties
    tree.setdefault(path, {})


def query(revision, inheritance, includes_descendants, paths):
    """The command."""
    number = b"" if revision is None else b"%d " % revision
    return b"( get-mergeinfo ( ( %b) ( %b) %b %b) ) " % (
        b"".join(string(b"/".join(path)) for path in paths),
        number,
        inheritance.encode() + b" ",
        boolean(includes_descendants),
    )


def spoken(command, repository, queries, url="svn://h/"):
    """What a server sends in a session in which it is asked these queries."""
    said = greeting_answer(url, capabilities=b"edit-pipeline svndiff1 mergeinfo ") + ANONYMOUS
    said += b"".join(query(*words) for words in queries)
    return subprocess.run([*command, "-t", "-r", repository], input=said, capture_output=True, timeout=600).stdout


def refuses_missing(command, repository, words):
    """Whether a server refuses a query for a path that is missing. It may have begun its answer."""
    return b"( failure ( ( 160013 " in spoken(command, repository, [words])


def ask(command, repository, queries, url="svn://h/"):
    """What a server answers to queries for paths that are there: a list of paths and texts for each. Each way to ask has a server of its
    own: what svnserve has in memory of a path that was asked for `explicit` it answers for `inherited`, too, and the other way round."""
    found = {}
    for inheritance in INHERITANCES:
        asked_so = [place for place, words in enumerate(queries) if words[1] == inheritance]
        sent = spoken(command, repository, [queries[place] for place in asked_so], url) if asked_so else b""
        found.update(zip(asked_so, told_in(sent)))
    return [found[place] for place in range(len(queries))]


def told_in(sent):
    """The paths and texts of each answer, or the number of what refuses the query. An exchange about a login is before each."""
    for word, content in items(sent)[5::2]:
        yield [(split(path), text) for path, text in content[0]] if word == "success" else content[0][0]
