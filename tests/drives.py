"""A plain model of reports, and of the drives that answer them.

By a report a client says what it has: subtrees of revisions at paths, each in the place of what stood there. A drive leads
from that to what the client is to have. Both are dicts from paths to entries here, and nothing is shared. `Report` makes the
one drive that this project's server sends; `Judge` says of any drive what is wrong with it, by the rules alone, so that the
two do not share an error. Paths are relative to the session's: names with slashes between them, the root empty.
"""

from functools import cached_property
from typing import NamedTuple, Optional
from urllib.parse import unquote_to_bytes, urlsplit

from spelling import (
    ABORT_REPORT,
    CLOSE_EDIT,
    FINISH_REPORT,
    NO_LOGIN,
    NO_TEXT,
    UUID,
    add_directory,
    add_file,
    boolean,
    close_directory,
    close_file,
    date,
    delete_entry,
    delete_path,
    delta,
    diff,
    digest,
    directory_property,
    file_property,
    items,
    link_path,
    open_directory,
    open_file,
    open_root,
    optional,
    refused,
    set_path,
    status,
    switch,
    target_revision,
    text_over,
    update,
)

BAD_PATH, NO_REVISION, NOT_FOUND, NOT_SUPPORTED = 160005, 160006, 160013, 200007
UNKNOWN, MALFORMED, NO_REPOSITORY = 210001, 210004, 210005

ROOT_URL = "svn://h/r"
DEPTH = 64
LONGEST_NAME = 255

# the properties that tell an entry of itself, in the order in which this server sends them
TELLING = "svn:entry:"
COMMITTED, DATED, BY, OF, LOCK_TOKEN = (
    TELLING + name for name in ("committed-rev", "committed-date", "last-author", "uuid", "lock-token")
)


class Refused(Exception):
    """A command is refused by a number, and at a path of the repository if the refusal is of one."""

    def __init__(self, number, path=None):
        self.number = number
        self.path = path


class Node(NamedTuple):
    """A directory, or a file with a text. `last` is the revision of the last change at or under it, and the path at which
    that mark was made; `line` the revision and the path of the add that it comes from, through changes and copies."""

    text: Optional[bytes]
    properties: tuple
    last: tuple
    line: Optional[tuple] = None


class Revisions:
    """What a drive asks of a repository: the tree of each revision, when each was made (by a count of microseconds, a text,
    or None) and by whom, and the tokens of locks by the paths at which they stand."""

    def __init__(self, trees, made, tokens, uuid=UUID):
        self.trees = trees
        self.made = made
        self.tokens = tokens
        self.uuid = uuid

    @property
    def youngest(self):
        return len(self.trees) - 1

    def told_of(self, node):
        """What an entry is told of itself."""
        moment, author = self.made[node.last[0]]
        dated = date(moment) if isinstance(moment, int) else moment
        return [(COMMITTED, str(node.last[0])), (DATED, dated), (BY, author), (OF, self.uuid)]


# Paths.


def is_at_or_under(path, top):
    """Whether a path is another or beneath it."""
    return top == "" or path == top or path.startswith(top + "/")


def joined(path, rest):
    """What a path beneath another is."""
    return "/".join(filter(None, [path, rest]))


def beyond(path, top):
    """The rest of a path beneath another."""
    return path[len(top) :].strip("/")


def parent_of(path):
    """The path of the directory in which an entry stands."""
    return path.rpartition("/")[0]


def checked(names):
    """The path of these names, if it is one."""
    for name in names:
        if name in (b"", b".", b"..") or len(name) > LONGEST_NAME or set(name) & set(b"\0\n/"):
            raise Refused(BAD_PATH)
    if len(names) > DEPTH:
        raise Refused(BAD_PATH)
    try:
        return b"/".join(names).decode()
    except UnicodeDecodeError:
        raise Refused(BAD_PATH) from None


def path_of(base, text):
    """The path that a client names by a text that is relative to another."""
    text = text.removeprefix("/").removesuffix("/")
    names = [*base.encode().split(b"/"), *text.encode().split(b"/")]
    return checked(names[not base :] if text else names[not base : -1])


def path_of_url(url):
    """The path in the repository that a URL names."""
    spelled = urlsplit(url)
    first, *names = [unquote_to_bytes(name) for name in spelled.path.removeprefix("/").removesuffix("/").split("/")]
    if spelled.scheme not in ("svn", "svn+ssh") or first != b"r":
        raise Refused(NO_REPOSITORY)
    return checked(names)


def kind_of(node):
    """What an entry is."""
    return None if node is None else "dir" if node.text is None else "file"


# What a client has.


class Had(NamedTuple):
    """What a client has at a path: an entry of a revision, the token of a lock, and how much of what is in a directory. `starts_empty`
    where it is a directory that was itself reported to start empty."""

    node: Node
    revision: int
    token: Optional[str] = None
    depth: str = "infinity"
    starts_empty: bool = False


class Place(NamedTuple):
    """A path that was reported: the path of the repository that it stands for, whether it is a link, and whether it is excluded."""

    path: str
    source: str
    is_link: bool = False
    is_excluded: bool = False


class Aim(NamedTuple):
    """Where a path is led: the path of the repository that it is to stand for, what is to be there, and whether what the client
    has there counts, and stays."""

    place: str
    node: Optional[Node]
    counts: bool
    stays: bool


def depth_below(depth):
    """The depth of a directory in a directory of this depth, where nothing is said of it."""
    return "infinity" if depth == "infinity" else "empty"


class Report:
    """A report, from the command that begins it to its end. Each method is a command of it, is kept as it is spelled, and
    changes what the client has, or is refused. The first refusal is kept with its path, and answers in the end."""

    def __init__(
        self, revisions, purpose="update", target="", revision=None, *, anchor="", url=None, recurse=True, depth=None, of_today=False,
        ignores_ancestry=None, says_of_texts=True
    ):
        self.revisions = revisions
        self.purpose = purpose
        self.of_today = of_today
        # a diff is one of clients of today, with texts or, as a summary, without
        self.is_diff = purpose in ("diff", "summary")
        self.sends_texts = purpose not in ("status", "summary")
        self.says_of_texts = says_of_texts or not self.sends_texts or depth is not None
        assert of_today or not self.is_diff
        # a diff always says of it; else it is said after a depth, and not in a status; where nothing is said of it, it counts but
        # in a switch
        is_said = self.is_diff or depth is not None and purpose != "status"
        self.says_of_ancestry = ignores_ancestry if is_said else None
        self.ignores_ancestry = purpose == "switch" if self.says_of_ancestry is None else self.says_of_ancestry
        # of a diff the last change alone says nothing
        self.counts_changes = not self.is_diff
        # a switch and a diff lead everything to their URL
        self.follows_links = purpose in ("update", "status")
        self.anchor = anchor
        self.refusal = None
        self.refused_at = None
        self.first = None
        # each path that was reported, in their order
        self.places = []
        self.had = {}
        self.sent = [self.beginning(target, revision, url, recurse, depth)]
        self.attempt(lambda: self.begin(target, revision, url, recurse, depth))

    def beginning(self, target, revision, url, recurse, depth):
        """The command that begins it."""
        number = b"" if revision is None else b"%d " % revision
        word = b"" if depth is None else depth.encode() + b" "
        ancestry = b"" if self.says_of_ancestry is None else b"false " + boolean(self.says_of_ancestry)
        if self.purpose == "update":
            return update(target, number, recurse, word and word + (ancestry or b"false "))
        if self.purpose == "switch":
            return switch(url, target, number, recurse, word and word + ancestry)
        if self.is_diff:
            # where nothing is said of texts they are sent
            texts = boolean(self.sends_texts) if self.says_of_texts else b""
            return diff(url, target, number, recurse, self.ignores_ancestry, texts + word)
        told = b"" if revision is None and not word else b"( " + number + b") "
        return status(target, recurse, told + word)

    def begin(self, target, revision, url, recurse, depth):
        """What it is to lead to is fixed at its beginning."""
        own = path_of(self.anchor, target)
        self.goal = own if url is None else path_of_url(url)
        self.target = beyond(own, self.anchor)
        self.revision = self.known(self.revisions.youngest if revision is None else revision)
        if depth == "exclude":
            raise Refused(NOT_SUPPORTED)
        self.depth = depth or ("infinity" if recurse else "empty" if self.purpose == "status" else "files")

    def attempt(self, act):
        """Does something, if nothing was refused before."""
        if self.refusal is None:
            try:
                act()
            except Refused as refused_by:
                self.refusal = refused_by.number
                self.refused_at = refused_by.path

    def known(self, revision):
        """A revision that is there."""
        if revision > self.revisions.youngest:
            raise Refused(NO_REVISION)
        return revision

    # The commands.

    def set_path(self, text, revision, starts_empty=False, token=None, depth=None, url=None):
        """At a path, or by a URL at a link, the client has what a revision has there."""
        rest = b"" if token is None and depth is None else optional(token) + (b"" if depth is None else depth.encode() + b" ")
        if url is None:
            self.sent.append(set_path(text, revision, starts_empty, rest))
        else:
            self.sent.append(link_path(text, url, revision, starts_empty, rest))
        self.attempt(lambda: self.set(text, revision, starts_empty, token, depth, url))
        return self

    def link_path(self, text, url, revision, starts_empty=False, token=None, depth=None):
        """At a path the client has what a revision has at a URL."""
        return self.set_path(text, revision, starts_empty, token, depth, url)

    def delete_path(self, text):
        """At a path the client has nothing."""
        self.sent.append(delete_path(text))
        self.attempt(lambda: self.delete(text))
        return self

    def other(self, sent):
        """A command that reports have not."""
        self.sent.append(sent)
        self.attempt(self.refuse_unknown)
        return self

    def refuse_unknown(self):
        raise Refused(UNKNOWN)

    def path(self, text):
        """The path that a client names, from the session's on."""
        return beyond(path_of(joined(self.anchor, self.target), text), self.anchor)

    def set(self, text, revision, starts_empty, token, depth, url):
        if self.first is None and (url is not None or not self.names_top(text)):
            raise Refused(MALFORMED)
        path = self.path(text)
        source = self.source(path) if url is None else path_of_url(url)
        self.known(revision)
        if self.of_today and url is not None and path == "":
            raise Refused(MALFORMED)
        is_excluded = depth == "exclude" and self.may_exclude(path, url)
        if depth in ("unknown", "exclude") and not is_excluded:
            raise Refused(NOT_SUPPORTED)
        # of what is excluded the top alone is there
        depth = "empty" if is_excluded else depth or "infinity"
        if path != self.target and not self.is_directory(parent_of(path)):
            raise Refused(NOT_FOUND, joined(self.anchor, path))
        tree = self.revisions.trees[revision]
        may_lack = is_excluded or self.first is None and self.target != ""
        if source not in tree and not may_lack:
            raise Refused(NOT_FOUND, source)
        self.put(Place(path, source, url is not None, is_excluded))
        for place, node in tree.items():
            if place == source:
                # a client that checks a directory out, or whose checkout was interrupted, has none of its properties yet
                is_bare = starts_empty and node.text is None
                self.had[path] = Had(node._replace(properties=()) if is_bare else node, revision, token, depth, is_bare)
            elif is_at_or_under(place, source) and not starts_empty and self.is_left(place, source, node, depth):
                self.had[joined(path, beyond(place, source))] = Had(node, revision, None, depth_below(depth))
        if self.first is None:
            self.first, self.first_depth = revision, depth

    def is_left(self, place, source, node, depth):
        """Whether a depth leaves an entry that stands beneath the top."""
        is_in_top = parent_of(place) == source
        return depth == "infinity" or is_in_top and (depth == "immediates" or depth == "files" and node.text is not None)

    def may_exclude(self, path, url):
        """Whether a path can be excluded: by a client of today, if it is not the target's and not a link's."""
        return self.of_today and path != self.target and url is None

    def names_top(self, text):
        """Whether a text names the target; one that names no path does not."""
        try:
            return self.path(text) == self.target
        except Refused:
            return False

    def delete(self, text):
        if self.first is None:
            raise Refused(MALFORMED)
        path = self.path(text)
        if path == "":
            raise Refused(MALFORMED)
        self.put(Place(path, self.source(path)))

    def put(self, place):
        """What stood at a path is gone, and it stands for another path of the repository."""
        self.had = {there: had for there, had in self.had.items() if not is_at_or_under(there, place.path)}
        self.places.append(place)

    def is_directory(self, path):
        """Whether the client has a directory there."""
        return path in self.had and self.had[path].node.text is None

    def source(self, path):
        """The path of the repository that a path stands for by that of its directory."""
        if path == self.target:
            return joined(self.anchor, path)
        parent = parent_of(path)
        last = self.last_place(parent)
        return joined(self.anchor, path) if last is None else joined(last.source, beyond(path, last.path))

    def last_place(self, path):
        """The last that was reported at or above a path."""
        return next((place for place in reversed(self.places) if is_at_or_under(path, place.path)), None)

    def own_place(self, path):
        """The last that was reported at or above a path, if it is of this very path."""
        last = self.last_place(path)
        return last if last is not None and last.path == path else None

    def link(self, path):
        """The path of the repository to which a link of this very path leads it, if the last that was reported is one."""
        own = self.own_place(path)
        return own.source if own is not None and own.is_link else None

    def is_excluded(self, path):
        """Whether the last that was reported at or above a path excludes this very path."""
        own = self.own_place(path)
        return own is not None and own.is_excluded

    # The end.

    def is_led(self):
        """Whether a link leads a path of the drive elsewhere than the target is led."""
        places = ((aim.place, joined(self.goal, beyond(path, self.target))) for path, aim in self.aims.items() if path in self.scope)
        return self.of_today and any(place != own for place, own in places)

    @cached_property
    def aims(self):
        """Where each path at or under the target is led, for a client of today."""
        tree = self.revisions.trees[self.revision]
        aims, left = {}, [(self.target, self.goal, True, True)]
        while left:
            path, own, counts, is_in_directory = left.pop()
            link = self.link(path) if counts and self.follows_links else None
            place = own if link is None else link
            had = self.had[path].node if counts and path in self.had else None
            node = tree.get(place) if is_in_directory else None
            is_of_one_kind = had is not None and kind_of(had) == kind_of(node)
            # the top of a link and the root stay, of any line
            may_change_line = self.ignores_ancestry or link is not None or path == ""
            stays = is_of_one_kind and (may_change_line or had.line == node.line)
            # a link goes where nothing of its kind is
            aims[path] = Aim(place, node if link is None or is_of_one_kind else None, counts, stays)
            there = {beyond(other, path) for other in [*self.had, *(top.path for top in self.places)] if is_at_or_under(other, path)}
            there |= {beyond(other, place) for other in tree if is_at_or_under(other, place)}
            for name in {rest.split("/")[0] for rest in there if rest}:
                left.append((joined(path, name), joined(place, name), stays, kind_of(aims[path].node) == "dir"))
        return aims

    @cached_property
    def tree(self):
        """What the client is to have."""
        if self.of_today:
            return {path: aim.node for path, aim in self.aims.items() if aim.node is not None}
        tree = self.revisions.trees[self.revision]
        return {
            joined(self.target, beyond(place, self.goal)): node for place, node in tree.items() if is_at_or_under(place, self.goal)
        }

    @cached_property
    def scope(self):
        """The paths that the drive is of, of those that the client has or is to have."""
        scope = {self.target}
        left = [(self.target, self.limit(self.target, None))]
        there = {*self.tree, *self.had}
        while left:
            path, limit = left.pop()
            for child in there:
                if child != path and child != "" and parent_of(child) == path and self.lets_in(limit, child):
                    scope.add(child)
                    left.append((child, self.limit(child, limit)))
        return scope

    def limit(self, path, above):
        """How much of what is in a directory the drive is of, by the limit of the directory that it is in."""
        is_replaced = self.of_today and path in self.had and not self.aims[path].stays
        if self.depth == "unknown" and self.is_directory(path) and not is_replaced:
            return self.had[path].depth
        if above is None and self.depth == "unknown":
            # what takes the place of the target comes whole
            return "infinity" if is_replaced else self.first_depth
        if above is None:
            return self.depth
        if self.of_today:
            # the client takes an added directory for one of this depth
            return "empty" if above == "immediates" else "infinity"
        return depth_below(above)

    def is_hidden(self, path):
        """Whether nothing is said of a path and of what is under it: a client of today has excluded it, that counts, and something is
        to stand there."""
        return self.of_today and self.is_excluded(path) and self.aims[path].counts and self.aims[path].node is not None

    def lets_in(self, limit, child):
        """Whether the drive is of an entry of a directory with this limit."""
        if self.is_hidden(child):
            return False
        counts = child in self.had and (not self.of_today or self.aims[child].counts)
        if self.depth == "unknown" and counts:
            return True
        kinds = [kind_of(self.tree.get(child)), kind_of(self.had[child].node if counts else None)]
        return limit in ("immediates", "infinity") or limit == "files" and "file" in kinds

    @cached_property
    def old(self):
        """What the client has of what the drive is of."""
        return {path: had for path, had in self.had.items() if path in self.scope}

    @cached_property
    def new(self):
        """What the client is to have of what the drive is of."""
        return {path: node for path, node in self.tree.items() if path in self.scope}

    def end_refusal(self):
        """Why there is no drive, if there is none."""
        if self.refusal is None and self.first is None:
            return MALFORMED
        if self.refusal is not None:
            return self.refusal
        tree = self.revisions.trees[self.revision]
        has_goal = self.purpose != "switch" or self.goal in tree
        return None if has_goal and self.has_anchor(tree) else NOT_FOUND

    def has_anchor(self, tree):
        """Whether there is a directory in which the target is, or that is the target. A client of today needs none for a target that
        it names: where its directory is gone, so is the target."""
        if self.target:
            return self.of_today or kind_of(tree.get(self.anchor)) == "dir"
        return kind_of(tree.get(self.goal)) == "dir" and self.is_directory("")

    def refusal_told(self):
        """What is told where there is no drive: a client of today, at which path what is not there is not there; of what is
        refused at the end that is the goal."""
        number = self.end_refusal()
        path = self.goal if self.refusal is None else self.refused_at
        return refused(number, "/" + path if self.of_today and number == NOT_FOUND else None)

    def finished(self):
        """How a client ends it, and what it is told: a drive, or why there is none."""
        return FINISH_REPORT, self.refusal_told() if self.end_refusal() else NO_LOGIN + b"".join(Drive(self).commands)

    def aborted(self):
        """How a client gives it up, and what it is told."""
        return ABORT_REPORT, b""

    def is_apart(self, path):
        """Whether what the client has is not to stay: it is of another kind than what is to be there, or of another line."""
        if path not in self.old:
            return False
        if self.of_today:
            return not self.aims[path].stays
        return kind_of(self.old[path].node) != kind_of(self.new.get(path))

    def is_stale(self, path):
        """Whether the client has a token of an entry that it is to have, and no lock there has that token. A client of today is told
        so of an entry that stays: while it takes in one that is added, it finds none to take the token from."""
        token = self.old[path].token if path in self.old and not (self.of_today and self.is_apart(path)) else None
        place = self.aims[path].place if self.of_today else joined(self.goal, beyond(path, self.target))
        return token is not None and path in self.new and self.revisions.tokens.get(place) != token

    def is_written_anew(self, path):
        """Whether a client of today has a directory that stays, and that it writes down anew, whatever differs in it: one that started
        empty, which it takes for whole from then on, or one that was less deep than infinity, the depth that is asked for."""
        if not self.of_today or path not in self.old or not self.is_directory(path) or self.is_apart(path):
            return False
        had = self.old[path]
        return had.starts_empty or self.depth == "infinity" and had.depth != "infinity"

    def judge(self, told):
        """What is wrong with an answer to the end of this report, a line each."""
        number = self.end_refusal()
        if number or not told.startswith(NO_LOGIN):
            return [] if number and told == self.refusal_told() else ["it is not told what it should be"]
        return Judge(self, told[len(NO_LOGIN) :]).complaints


# The drive that the server sends.


class Drive:
    """The commands of the drive of a report: what is to be told, and nothing else.

    Right drives differ, and this is the one that the server chooses: what is told of an entry comes first, then its properties,
    then what is to be deleted, and then what else is in it, names by their bytes. Tokens are a letter and how many entries are
    open, so that a token comes again once what was open under it is closed.
    An entry is opened with the revision at which it was reported, and deleted with none. A text is sent as a delta over what the
    client has of it, its head and each window in a chunk, without the digest of the text before. What changed nowhere but in the path of a mark is not named."""

    def __init__(self, report):
        self.report = report
        self.tree = report.new
        self.named = self.all_named()
        root = "d0"
        self.commands = [target_revision(report.revision), open_root(root, b"%d " % report.first)]
        if report.target:
            self.entries("", root, [report.target], False)
        else:
            self.tell("", root, directory_property, False)
            self.entries("", root, self.children(""), False)
        self.commands += [close_directory(root), CLOSE_EDIT]

    def all_named(self):
        """The paths at or under which there is something to tell."""
        named = set()
        for path in {*self.tree, *self.report.old}:
            if self.is_due(path):
                while path not in named:
                    named.add(path)
                    path = parent_of(path)
        return named

    def is_due(self, path):
        """Whether there is something to tell of an entry itself."""
        new, had = self.tree.get(path), self.report.old.get(path)
        if new is None or had is None:
            return new is not had
        old = had.node
        is_changed = self.report.counts_changes and old.last[0] != new.last[0]
        is_same = (old.text, old.properties) == (new.text, new.properties)
        is_due = self.report.is_stale(path) or self.report.is_written_anew(path)
        return not is_same or is_changed or is_due or self.report.is_apart(path)

    def children(self, path):
        """The paths of what stands in a directory now or then, by the bytes of the names."""
        there = {place for place in {*self.tree, *self.report.old} if place and parent_of(place) == path}
        return sorted(there, key=lambda place: place.rpartition("/")[2].encode())

    def old(self, path, is_anew):
        """What the client has at a path, where it does not come anew."""
        return None if is_anew or path not in self.report.old else self.report.old[path].node

    def entries(self, directory, token, paths, is_anew):
        """What is to be told of these entries of a directory."""
        for path in paths:
            old = self.old(path, is_anew)
            if old and (path not in self.tree or self.report.is_apart(path)):
                self.commands.append(delete_entry(path, token))
        for path in paths:
            if path in self.tree and (is_anew or path in self.named):
                old = self.old(path, is_anew)
                self.entry(path, token, old is None or self.report.is_apart(path))

    def entry(self, path, parent, is_anew):
        """What is to be told at a path and under it."""
        is_directory = self.tree[path].text is None
        token = f"{'d' if is_directory else 'c'}{int(parent[1:]) + 1}"
        if is_anew:
            self.commands.append((add_directory if is_directory else add_file)(path, parent, token))
        else:
            revision = b"( %d ) " % self.report.old[path].revision
            self.commands.append((open_directory if is_directory else open_file)(path, parent, token, revision))
        self.tell(path, token, directory_property if is_directory else file_property, is_anew)
        if is_directory:
            self.entries(path, token, self.children(path), is_anew)
            self.commands.append(close_directory(token))
        else:
            self.commands += self.text(path, token, is_anew)

    def tell(self, path, token, change, is_anew):
        """What an entry is told of itself, and its properties."""
        told = self.report.revisions.told_of(self.tree[path])
        if self.report.is_stale(path):
            told.append((LOCK_TOKEN, None))
        old, new = self.old(path, is_anew), dict(self.tree[path].properties)
        before = dict(old.properties) if old else {}
        names = sorted({*before, *new}, key=str.encode)
        told += [(name, new.get(name)) for name in names if before.get(name) != new.get(name)]
        self.commands += [change(token, name, value) for name, value in told]

    def text(self, path, token, is_anew):
        """What a file is told of its text, up to its close."""
        old, text = self.old(path, is_anew), self.tree[path].text
        if old and old.text == text:
            return [close_file(token)]
        if not self.report.sends_texts:
            return [*delta(token, NO_TEXT), close_file(token)]
        return [*delta(token, *text_over(old.text if old and old.text is not None else b"", text)), close_file(token, digest(text))]


# What is right.


class Wrong(Exception):
    """A drive breaks a rule."""


class Open(NamedTuple):
    """What is open under a token."""

    token: bytes
    path: str
    is_directory: bool


def text_of(base, content):
    """The text of an svndiff document over another text."""
    if content[:4] != NO_TEXT:
        raise Wrong("a document without its head")
    place, text = 4, b""

    def number():
        nonlocal place
        value = 0
        while True:
            byte = content[place]
            place += 1
            value = value * 128 + byte % 128
            if byte < 128:
                return value

    while place < len(content):
        offset, length, wanted, instructions, data = (number() for _ in range(5))
        view, made = base[offset : offset + length], b""
        if len(view) != length:
            raise Wrong("a window that goes beyond the text it is over")
        end = place + instructions
        new = end
        while place < end:
            kind, size = divmod(content[place], 64)
            place += 1
            size = size or number()
            if kind == 0:
                begin = number()
                made += view[begin : begin + size]
            elif kind == 2:
                made += content[new : new + size]
                new += size
            else:
                raise Wrong("an instruction of another kind")
        if place != end or new != end + data or len(made) != wanted:
            raise Wrong("a window whose lengths differ")
        place, text = new, text + made
    return text


class Judge:
    """Follows a drive over what the client has, command by command, and compares with what it is to have."""

    def __init__(self, report, told):
        self.report = report
        self.goal = report.new
        self.now = {path: [had.node.text, dict(had.node.properties)] for path, had in report.old.items()}
        self.held = []
        self.opened, self.added, self.deleted, self.texts = set(), set(), set(), set()
        self.named = set()
        self.told = {}
        self.documents = {}
        self.complaints = []
        try:
            self.follow(items(told))
        except (Wrong, KeyError, ValueError, IndexError, TypeError, AttributeError) as wrong:
            self.complaints.append(f"{type(wrong).__name__}: {wrong}")
        else:
            self.compare()

    def follow(self, commands):
        first, second, *others, last = commands
        self.want(first == ["target-rev", [self.report.revision]], "the revision of the target")
        name, (revision, token) = second
        self.want((name, revision) == ("open-root", [self.report.first]), "the root, and the revision that was reported first")
        self.want(last == ["close-edit", []], "the end of the edit")
        self.held.append(Open(token, "", True))
        if not self.report.target:
            self.name("", self.opened)
        for name, parameters in others:
            getattr(self, name.replace("-", "_"))(*parameters)
        self.want(not self.held, "everything closed")

    def want(self, holds, what):
        if not holds:
            raise Wrong("this is not " + what)

    def name(self, path, how):
        is_root = path == "" and not self.report.target
        self.want(is_root or path in self.report.scope, f"a path that was asked for: {path}")
        self.named.add(path)
        how.add(path)

    def place(self, spelled, parent):
        """The path of an entry in the directory that was opened last, which has this token."""
        path, directory = spelled.decode(), self.held[-1]
        self.want(directory.is_directory and directory.token == parent, f"the token of what was opened last: {path}")
        is_child = path and parent_of(path) == directory.path and path != directory.path
        is_target = directory.path == "" and path == self.report.target
        self.want(is_child or is_target, f"an entry of that directory: {path}")
        return path

    def of_last(self, token, is_directory):
        self.want(self.held[-1].token == token and self.held[-1].is_directory == is_directory, "the token of what was opened last")
        return self.held[-1].path

    def enter(self, spelled, parent, token, is_directory):
        path = self.place(spelled, parent)
        self.want(all(held.token != token for held in self.held), f"a token of its own: {path}")
        self.held.append(Open(token, path, is_directory))
        return path

    def add(self, spelled, parent, token, source, is_directory):
        path = self.enter(spelled, parent, token, is_directory)
        self.want(source == [], f"an entry that is told without a source: {path}")
        self.want(path not in self.now, f"a place at which nothing stands: {path}")
        self.now[path] = [None if is_directory else b"", {}]
        self.name(path, self.added)

    def add_dir(self, spelled, parent, token, source):
        self.add(spelled, parent, token, source, True)

    def add_file(self, spelled, parent, token, source):
        self.add(spelled, parent, token, source, False)

    def open(self, spelled, parent, token, is_directory):
        path = self.enter(spelled, parent, token, is_directory)
        self.want(path in self.now and (self.now[path][0] is None) == is_directory, f"what the client has: {path}")
        self.name(path, self.opened)

    def open_dir(self, spelled, parent, token, revision):
        self.open(spelled, parent, token, True)

    def open_file(self, spelled, parent, token, revision):
        self.open(spelled, parent, token, False)

    def delete_entry(self, spelled, revision, parent):
        path = self.place(spelled, parent)
        self.want(path in self.now, f"what the client has: {path}")
        self.now = {there: node for there, node in self.now.items() if not is_at_or_under(there, path)}
        self.name(path, self.deleted)

    def change(self, path, name, value):
        name = name.decode()
        if name.startswith(TELLING):
            self.told.setdefault(path, {})[name] = value[0].decode() if value else None
        elif value:
            self.now[path][1][name] = value[0].decode()
        else:
            self.now[path][1].pop(name, None)
        # of the root nothing may be said where there is a target
        self.want(path or not self.report.target, "a property of what is asked for")

    def change_dir_prop(self, token, name, value):
        self.change(self.of_last(token, True), name, value)

    def change_file_prop(self, token, name, value):
        self.change(self.of_last(token, False), name, value)

    def apply_textdelta(self, token, checksum):
        path = self.of_last(token, False)
        self.want(path not in self.texts and path not in self.documents, f"the only delta of {path}")
        self.want(not checksum or checksum[0].decode() == digest(self.now[path][0]), f"the digest of the text that the client has: {path}")
        self.documents[path] = b""

    def textdelta_chunk(self, token, content):
        self.documents[self.of_last(token, False)] += content

    def textdelta_end(self, token):
        path = self.of_last(token, False)
        self.now[path][0] = text_of(self.now[path][0], self.documents.pop(path))
        self.texts.add(path)

    def close_dir(self, token):
        self.of_last(token, True)
        self.held.pop()

    def close_file(self, token, checksum):
        path = self.of_last(token, False)
        self.want(path not in self.documents, f"a delta with its end: {path}")
        self.want(not checksum or checksum[0].decode() == digest(self.now[path][0]), f"the digest of {path}")
        self.held.pop()

    # What it led to, and what it named.

    def compare(self):
        report, old, new = self.report, {path: had.node for path, had in self.report.old.items()}, self.goal
        without_texts = report.purpose in ("status", "summary")
        last_counts = report.purpose not in ("diff", "summary")
        for path in sorted({*old, *new, *self.now}):
            made, wanted = self.now.get(path), new.get(path)
            is_right = (made is None) == (wanted is None)
            if is_right and made:
                is_right = (made[0] is None) == (wanted.text is None) and made[1] == dict(wanted.properties)
                is_right = is_right and (without_texts or made[0] == wanted.text)
            self.judge(is_right, f"what is made of it is not what it should be: {path!r}")
            is_in_both = path in old and path in new
            is_changed = is_in_both and last_counts and old[path].last[0] != new[path].last[0]
            is_due = is_changed or is_in_both and (report.is_stale(path) or report.is_written_anew(path))
            self.judge(path in self.named or not is_due, f"nothing is told of it: {path!r}")
            is_other = path not in old or report.is_apart(path) or old[path].text != new[path].text
            wants_text = path in new and new[path].text is not None and is_other
            self.judge(path in self.texts or not wants_text, f"its text is not told: {path!r}")
            stays = is_in_both and not report.is_apart(path)
            is_kept = path in self.opened and path not in self.added | self.deleted
            self.judge(path not in self.named or not stays or is_kept, f"it is not opened: {path!r}")
            self.judge(not is_in_both or stays or path in self.added, f"it is not replaced: {path!r}")
        for path in sorted(self.named):
            reasons = (
                old.get(place) is None
                or new.get(place) is None
                or old[place][:2] != new[place][:2]
                or last_counts and old[place].last != new[place].last
                or report.is_stale(place)
                or report.is_written_anew(place)
                or report.is_apart(place)
                for place in {*old, *new}
                if is_at_or_under(place, path)
            )
            self.judge(path == "" or any(reasons), f"it is named without a reason: {path!r}")
        for path in sorted(self.opened | self.added):
            told = dict(report.revisions.told_of(new[path])) if path in new else None
            if told and report.is_stale(path):
                told[LOCK_TOKEN] = None
            self.judge(self.told.get(path) == told, f"it is not told what it should be of itself: {path!r}")

    def judge(self, holds, complaint):
        if not holds:
            self.complaints.append(complaint)
