"""How the items of the protocol are spelled: what a client sends, and what it is told.

The other programs of this folder, and those of `bench`, are written in these words.
"""

import hmac
from datetime import datetime, timedelta
from hashlib import md5
from uuid import UUID as Uuid

UUID = "00000000-0000-4000-8000-000000000000"
MOMENT = 1_000_000

TEXTS = {
    125005: "not a date",
    150003: "not deleted",
    160000: "store failed",
    160005: "bad path",
    160006: "no such revision",
    160013: "not found",
    160016: "not a directory",
    160017: "not a file",
    160020: "already exists",
    160024: "conflict",
    160028: "out of date",
    160034: "no user",
    160035: "already locked",
    160037: "bad lock token",
    160039: "not the lock owner",
    160040: "no such lock",
    160042: "lock out of date",
    160049: "previous value differs",
    165006: "revision properties are closed",
    185001: "bad svndiff",
    200007: "not supported",
    200014: "checksum mismatch",
    210001: "unknown command",
    210004: "malformed data",
    210005: "no such repository",
    210008: "edit aborted",
}

# the numbers whose text ends with a path to a client of today
OF_PATHS = {160013, 160016, 160017, 160020, 160024, 160028, 160034, 160035, 160037, 160039, 160040, 160042}

# how many bytes of a text are sent in one string, and in one window of a drive
PIECE = 65_536
# how far the view of a window of a delta reaches to either side of it, in bytes, and how many bytes have to be copied by a delta
REACH = 17_000
WORTH = 64

GREETING = b"( success ( 2 2 ( ) ( edit-pipeline absent-entries commit-revprops depth atomic-revprops ) ) ) "
NO_LOGIN = b"( success ( ( ) 0: ) ) "
EMPTY = b"( success ( ) ) "
NOT_OFFERED = b"( failure ( 21:mechanism not offered ) ) "
LOGIN_FAILED = b"( failure ( 12:login failed ) ) "
DONE = b"done "

# the capabilities of a client of today: it lists `mergeinfo`
OF_TODAY = b"edit-pipeline svndiff1 absent-entries depth mergeinfo log-revprops "


def string(content):
    """A string item."""
    if isinstance(content, str):
        content = content.encode()
    return b"%d:%s " % (len(content), content)


def refusal(number, path=None):
    """A failure of one number, and of a path if a client of today is told it."""
    assert path is None or number in OF_PATHS and path.startswith("/"), (number, path)
    message = TEXTS[number] if path is None else f"{TEXTS[number]}: {path}"
    return b"( failure ( ( %d %s0: 0 ) ) ) " % (number, string(message))


def date(moment):
    """The date of a moment in microseconds."""
    return (datetime(1970, 1, 1) + timedelta(microseconds=moment)).strftime("%Y-%m-%dT%H:%M:%S.%fZ")


def login_wanted(name, mechanisms=b"ANONYMOUS "):
    """What a client of a repository of this name is told once its answer to the greeting is accepted."""
    return b"( success ( ( " + mechanisms + b") " + string(name) + b") ) "


def login_offered(name):
    """The same, where the repository has a users file."""
    return login_wanted(name, b"ANONYMOUS CRAM-MD5 ")


def login_demanded(name):
    """What a client without a name is told there for a command that writes, in place of `NO_LOGIN`."""
    return login_wanted(name, b"CRAM-MD5 ")


def challenge(nonce, moment, name):
    """The text that is sent to a client which is to prove that it knows a password."""
    return f"<{nonce}.{moment}@{name}>"


def step(text):
    """What a client is told that chooses CRAM-MD5: the challenge."""
    return b"( step ( " + string(text) + b") ) "


def proof(user, password, text):
    """A client's answer to a challenge: the user, and the challenge's keyed digest under the password."""
    return string(user.encode() + b" " + hmac.digest(password, text.encode(), "md5").hex().encode())


def repository_told(root, uuid=UUID):
    """What a client is told once it is admitted."""
    return EMPTY + b"( success ( " + string(uuid) + string(root) + b"( ) ) ) "


def answered(content):
    """What a command is told that is served."""
    return NO_LOGIN + b"( success ( " + content + b") ) "


def refused(number, path=None):
    """What a command is told that is known and refused."""
    return NO_LOGIN + refusal(number, path)


def dated(moment):
    """What the properties of revision 0 are."""
    return answered(b"( ( " + string("svn:date") + string(date(moment)) + b") ) ")


def revision_properties(properties):
    """What the properties of a revision are, by their names' bytes."""
    pairs = b"".join(b"( " + string(name) + string(value) + b") " for name, value in sorted(properties.items()))
    return answered(b"( " + pairs + b") ")


def committed(revision, moment=MOMENT, author=None):
    """What a client is told of a commit that is accepted, by a user or without a name."""
    return EMPTY + NO_LOGIN + b"( %d ( %s) %s( ) ) " % (revision, string(date(moment)), optional(author))


def committed_unreleased(revision, moment=MOMENT, author=None):
    """The same, where the store failed at the release of locks."""
    told = b"( " + string("store failed") + b") "
    return EMPTY + NO_LOGIN + b"( %d ( %s) %s%s) " % (revision, string(date(moment)), optional(author), told)


def greeting_answer(url, version=2, capabilities=b"edit-pipeline ", rest=b""):
    """A client's answer to the greeting."""
    return b"( %d ( %s) %s%s) " % (version, capabilities, string(url), rest)


def check_path(path, revision=b""):
    """What stands at a path."""
    return b"( check-path ( " + string(path) + b"( " + revision + b") ) ) "


def youngest(revision):
    """The answer to get-latest-rev."""
    return answered(b"%d " % revision)


def rev_proplist(revision):
    """The properties of a revision."""
    return b"( rev-proplist ( %d ) ) " % revision


def log(paths, start=b"", end=b"", changes=False, strict=False, rest=b""):
    """The revisions of paths. What may be left out at the end is the greatest number of them."""
    names = b"".join(map(string, paths))
    return b"( log ( ( " + names + b") ( " + start + b") ( " + end + b") " + boolean(changes) + boolean(strict) + rest + b") ) "


def log_change(path, action, kind="file", source=None, text=False, properties=False):
    """A change in an entry of a log. A source is a path and a revision."""
    copied = string(source[0]) + b"%d " % source[1] if source else b""
    facts = string(kind) + boolean(text) + boolean(properties)
    return b"( " + string(path) + action.encode() + b" ( " + copied + b") ( " + facts + b") ) "


def log_entry(revision, changes=(), author=None, moment=MOMENT, message=None):
    """An entry of a log: a revision with these changes, of this moment, or with another date or none."""
    dated = date(moment) if isinstance(moment, int) else moment
    facts = b"%d " % revision + optional(author) + optional(dated) + optional(message)
    return b"( ( " + b"".join(changes) + b") " + facts + b") "


def log_told(*entries):
    """The answer to `log`."""
    return NO_LOGIN + b"".join(entries) + DONE + EMPTY


def locations(path, peg, revisions):
    """Where what stands at a path in a revision was, or went, in others."""
    numbers = b"".join(b"%d " % revision for revision in revisions)
    return b"( get-locations ( " + string(path) + b"%d ( " % peg + numbers + b") ) ) "


def locations_told(*places):
    """The answer to `get-locations`: revisions and paths, which have a slash in front."""
    return NO_LOGIN + b"".join(b"( %d " % revision + string(path) + b") " for revision, path in places) + DONE + EMPTY


def revision_or_none(revision):
    """`[ rev ]`: a revision that may be left out."""
    return b"( ) " if revision is None else b"( %d ) " % revision


def location_segments(path, peg=None, start=None, end=None):
    """Where what stands at a path in a revision was, stretch by stretch."""
    asked = b"".join(map(revision_or_none, (peg, start, end)))
    return b"( get-location-segments ( " + string(path) + asked + b") ) "


def segments_told(*segments):
    """The answer to `get-location-segments`: first and last revisions, and paths without a slash in front, or None."""
    told = (b"( %d %d ( %s) ) " % (first, last, b"" if path is None else string(path)) for first, last, path in segments)
    return NO_LOGIN + b"".join(told) + DONE + EMPTY


def deleted_revision(path, peg, end):
    """In which revision what stands at a path was taken away."""
    return b"( get-deleted-rev ( " + string(path) + b"%d %d ) ) " % (peg, end)


def file_revisions(path, start=None, end=None, rest=b""):
    """The revisions of a file, with its texts. What may be left out at the end is whether merged ones are wanted, too."""
    return b"( get-file-revs ( " + string(path) + revision_or_none(start) + revision_or_none(end) + rest + b") ) "


def file_revision(path, revision, properties, changes=(), text=None, before=b""):
    """A revision of a file: its path there, which has a slash in front, the properties of the revision, what differs in those of
    the file, each a name and a value, or None where it is gone, and its text, or None where that is the one sent before, as a delta
    over that one."""
    told = b"".join(b"( " + string(name) + optional(value) + b") " for name, value in changes)
    head = string(path) + b"%d " % revision + sorted_pairs(properties) + b"( " + told + b") false "
    return b"( " + head + b") " + b"".join(map(string, [*([] if text is None else text_over(before, text)), b""]))


def file_revisions_told(*revisions):
    """The answer to `get-file-revs`."""
    return NO_LOGIN + b"".join(revisions) + DONE + EMPTY


def listing_refused(number, path=None):
    """What `log`, `get-locations`, `get-location-segments` and `get-file-revs` are told where they are refused: behind the end of a
    listing."""
    return NO_LOGIN + DONE + refusal(number, path)


def pairs(properties):
    """Pairs of strings."""
    return b"".join(b"( " + string(first) + string(second) + b") " for first, second in properties)


def commit(message="first", tokens=(), keep_locks=b"false ", properties=None):
    """The beginning of an edit."""
    rest = b"" if properties is None else b"( " + pairs(properties) + b") "
    return b"( commit ( " + string(message) + b"( " + pairs(tokens) + b") " + keep_locks + rest + b") ) "


def get_file(path, revision=b"", properties=False, contents=True):
    """A file: its digest, its properties and its text, as far as they are wanted."""
    return b"( get-file ( " + string(path) + b"( " + revision + b") " + boolean(properties) + boolean(contents) + b") ) "


def get_directory(path, revision=b"", properties=False, contents=True, rest=b""):
    """A directory: its properties and its entries, as far as they are wanted, and what stands behind these wishes."""
    wishes = boolean(properties) + boolean(contents)
    return b"( get-dir ( " + string(path) + b"( " + revision + b") " + wishes + rest + b") ) "


def stat(path, revision=b""):
    """What is known of what stands at a path."""
    return b"( stat ( " + string(path) + b"( " + revision + b") ) ) "


def get_dated_revision(text):
    """The revision of a date."""
    return b"( get-dated-rev ( " + string(text) + b") ) "


def revision_property(revision, name):
    """A property of a revision."""
    return b"( rev-prop ( %d " % revision + string(name) + b") ) "


def change_revision_property(revision, name, value=None):
    """A property of a revision is set, or removed."""
    set_to = b"" if value is None else string(value)
    return b"( change-rev-prop ( %d " % revision + string(name) + set_to + b") ) "


def change_seen_property(revision, name, value=None, seen=None, dont_care=b"false "):
    """A property of a revision is set, or removed, where its value is the one that was seen, or where it was seen to have none."""
    set_to = b"( ) " if value is None else b"( " + string(value) + b") "
    condition = b"( " + dont_care + (b"" if seen is None else string(seen)) + b") "
    return b"( change-rev-prop2 ( %d " % revision + string(name) + set_to + condition + b") ) "


def reparent(url):
    """The session's URL is to be this one."""
    return b"( reparent ( " + string(url) + b") ) "


def committed_by(revision, moment=MOMENT, author=None, uuid=UUID):
    """The properties that an entry has by the revision of its last change. What that revision lacks is None."""
    facts = {"committed-date": date(moment) if isinstance(moment, int) else moment, "last-author": author}
    names = {"committed-rev": str(revision), "uuid": uuid, **facts}
    return {"svn:entry:" + name: value for name, value in names.items() if value is not None}


def sorted_pairs(properties):
    """Properties by the bytes of their names."""
    return b"( " + pairs(sorted(properties.items())) + b") "


def file_told(text, revision, properties=None):
    """What a client is told of a file whose contents are not wanted. Of no properties none are wanted."""
    return answered(b"( " + string(digest(text)) + b") %d " % revision + sorted_pairs(properties or {}))


def contents_told(text):
    """What comes behind it where they are: the text in strings, an empty one, and an empty reply."""
    pieces = [text[begin : begin + PIECE] for begin in range(0, len(text), PIECE)]
    return b"".join(map(string, [*pieces, b""])) + EMPTY


def node(kind, size, created, moment=MOMENT, author=None, has_properties=False):
    """What is known of a file or a directory. A moment is a count of microseconds, or what stands in the date's place."""
    told = date(moment) if isinstance(moment, int) else moment
    return kind + b"%d " % size + boolean(has_properties) + b"%d " % created + optional(told) + optional(author)


def directory_told(revision, entries=(), properties=None):
    """What a client is told of a directory. Each entry is its name and what is known of it, and they are in order."""
    listed = b"".join(b"( " + string(name) + facts + b") " for name, facts in entries)
    return answered(b"%d " % revision + sorted_pairs(properties or {}) + b"( " + listed + b") ")


def stat_told(facts=None):
    """What a client is told of what stands at a path, if anything does."""
    return answered(b"( " + (b"" if facts is None else b"( " + facts + b") ") + b") ")


def revision_property_told(value=None):
    """What a client is told of a property of a revision, if the revision has it."""
    return answered(optional(value))


def lock(path, comment=None, steals=False, current=b""):
    """A file is locked."""
    return b"( lock ( " + string(path) + optional(comment) + boolean(steals) + b"( " + current + b") ) ) "


def unlock(path, token=None, breaks=False):
    """A lock is taken away."""
    return b"( unlock ( " + string(path) + optional(token) + boolean(breaks) + b") ) "


def get_lock(path):
    """The lock at a path."""
    return b"( get-lock ( " + string(path) + b") ) "


def get_locks(path):
    """The locks at a path and under it."""
    return b"( get-locks ( " + string(path) + b") ) "


def boolean(value):
    """A word that is true or false."""
    return b"true " if value else b"false "


def lock_token(word):
    """The token of a lock, by the word that its call hands in."""
    return f"opaquelocktoken:{Uuid(int=word)}"


def lock_at(path, word, owner, comment=None, moment=MOMENT):
    """What a client is told of a lock at a path, which it is told with a slash in front."""
    parts = string("/" + path), string(lock_token(word)), string(owner), optional(comment), string(date(moment))
    return b"( " + b"".join(parts) + b"( ) ) "


def locks_told(*locks):
    """The answer to get-lock, with one lock or none, and to get-locks."""
    return answered(b"( " + b"".join(locks) + b") ")


def open_root(token="d0", revision=b""):
    """The directory at the session's URL is opened."""
    return b"( open-root ( ( " + revision + b") " + string(token) + b") ) "


def add_directory(path, parent, token, source=b""):
    """A directory is added."""
    return b"( add-dir ( " + string(path) + string(parent) + string(token) + b"( " + source + b") ) ) "


def open_directory(path, parent, token, revision=b"( ) "):
    """A directory is opened."""
    return b"( open-dir ( " + string(path) + string(parent) + string(token) + revision + b") ) "


def close_directory(token):
    """A directory is closed."""
    return b"( close-dir ( " + string(token) + b") ) "


def target_revision(revision):
    """The revision that an edit leads to."""
    return b"( target-rev ( %d ) ) " % revision


def delete_entry(path, parent, revision=b""):
    """An entry is deleted."""
    return b"( delete-entry ( " + string(path) + b"( " + revision + b") " + string(parent) + b") ) "


def add_file(path, parent, token, source=b""):
    """A file is added."""
    return b"( add-file ( " + string(path) + string(parent) + string(token) + b"( " + source + b") ) ) "


def open_file(path, parent, token, revision=b"( ) "):
    """A file is opened."""
    return b"( open-file ( " + string(path) + string(parent) + string(token) + revision + b") ) "


def optional(content):
    """A list of one string, or of none."""
    return b"( ) " if content is None else b"( " + string(content) + b") "


def hash_dump(pairs):
    """A list of names and values as files have it, in the order of the names' bytes."""
    dump = b""
    for name, value in sorted((text_bytes(name), text_bytes(value)) for name, value in pairs.items()):
        dump += b"K %d\n%s\nV %d\n%s\n" % (len(name), name, len(value), value)
    return dump + b"END\n"


def text_bytes(text):
    """The bytes of a text."""
    return text.encode() if isinstance(text, str) else text


def directory_property(token, name, value=None):
    """A property of a directory is set, or removed."""
    return b"( change-dir-prop ( " + string(token) + string(name) + optional(value) + b") ) "


def file_property(token, name, value=None):
    """A property of a file is set, or removed."""
    return b"( change-file-prop ( " + string(token) + string(name) + optional(value) + b") ) "


def apply_delta(token, base=None):
    """A text delta is begun, over a text of this digest."""
    return b"( apply-textdelta ( " + string(token) + optional(base) + b") ) "


def chunk(token, content):
    """A piece of a text delta's document."""
    return b"( textdelta-chunk ( " + string(token) + string(content) + b") ) "


def end_delta(token):
    """A text delta is ended."""
    return b"( textdelta-end ( " + string(token) + b") ) "


def delta(token, *chunks, base=None):
    """The commands of a whole text delta, by the chunks of its document."""
    return [apply_delta(token, base), *(chunk(token, content) for content in chunks), end_delta(token)]


def close_file(token, checksum=None):
    """A file is closed, whose text has this digest."""
    return b"( close-file ( " + string(token) + optional(checksum) + b") ) "


FINISH_REPLAY = b"( finish-replay ( ) ) "


def replay(revision, low=0, sends_deltas=True):
    """What a revision did, as an edit. Below the second one the client has nothing."""
    return b"( replay ( %d %d " % (revision, low) + boolean(sends_deltas) + b") ) "


def replay_range(start, end, low=0, sends_deltas=True):
    """The same of revisions, one after another."""
    return b"( replay-range ( %d %d %d " % (start, end, low) + boolean(sends_deltas) + b") ) "


def replayed_properties(properties):
    """The properties of a revision of a range, before its edit."""
    return b"( revprops " + sorted_pairs(properties) + b") "


def edit_replayed(revision, commands):
    """What a revision did: its edit, which is opened and closed unless nothing is to be said."""
    inside = [open_root(), *commands, close_directory("d0")] if commands is not None else []
    return target_revision(revision) + b"".join(inside) + FINISH_REPLAY


def replayed(revision, commands):
    """The answer to `replay`."""
    return NO_LOGIN + edit_replayed(revision, commands) + EMPTY


def range_replayed(*revisions):
    """The answer to `replay-range`: each revision's number, its properties, and the commands of its edit."""
    told = (replayed_properties(properties) + edit_replayed(number, commands) for number, properties, commands in revisions)
    return NO_LOGIN + b"".join(told) + EMPTY


def absent_directory(path, parent):
    """A directory that is not shown."""
    return b"( absent-dir ( " + string(path) + string(parent) + b") ) "


def absent_file(path, parent):
    """A file that is not shown."""
    return b"( absent-file ( " + string(path) + string(parent) + b") ) "


def update(target="", revision=b"", recurse=True, rest=b""):
    """What a client has is to be as a revision has it, at its URL or at a target there."""
    return b"( update ( ( " + revision + b") " + string(target) + boolean(recurse) + rest + b") ) "


def switch(url, target="", revision=b"", recurse=True, rest=b""):
    """It is to be as a revision has it at this URL."""
    return b"( switch ( ( " + revision + b") " + string(target) + boolean(recurse) + string(url) + rest + b") ) "


def diff(url, target="", revision=b"", recurse=True, ignores_ancestry=True, rest=b""):
    """What leads from what a client has to what a revision has at this URL is to be told, by what entries are. What may be
    left out at the end is whether texts are sent, and how deep it goes."""
    wishes = boolean(recurse) + boolean(ignores_ancestry)
    return b"( diff ( ( " + revision + b") " + string(target) + wishes + string(url) + rest + b") ) "


def status(target="", recurse=True, rest=b""):
    """What would be otherwise is to be told, without texts."""
    return b"( status ( " + string(target) + boolean(recurse) + rest + b") ) "


def set_path(path, revision, starts_empty=False, rest=b""):
    """At a path the client has what a revision has there, or of a directory the top alone."""
    return b"( set-path ( " + string(path) + b"%d " % revision + boolean(starts_empty) + rest + b") ) "


def link_path(path, url, revision, starts_empty=False, rest=b""):
    """At a path the client has what a revision has at a URL."""
    place = string(path) + string(url) + b"%d " % revision
    return b"( link-path ( " + place + boolean(starts_empty) + rest + b") ) "


def delete_path(path):
    """At a path the client has nothing."""
    return b"( delete-path ( " + string(path) + b") ) "


def client_failure(number=155000, text="it went wrong"):
    """A client's answer to a drive that it could not follow."""
    return b"( failure ( ( %d %s0: 0 ) ) ) " % (number, string(text))


def digest(text):
    """The MD5 of a text, in hexadecimal digits."""
    return md5(text).hexdigest()


def integer(number):
    """An integer of an svndiff document: groups of seven bits, of which all but the last have the high bit."""
    groups = [number % 128]
    while number := number // 128:
        groups.insert(0, 128 + number % 128)
    return bytes(groups)


def window(offset, view, target, instructions, data):
    """A window of an svndiff document."""
    head = b"".join(map(integer, [offset, view, target, len(instructions), len(data)]))
    return head + instructions + data


def document(text):
    """An svndiff document of a new text: one window of new data alone, or none."""
    if not text:
        return NO_TEXT
    length = b"\x80" + integer(len(text)) if len(text) > 63 else bytes([0x80 + len(text)])
    return NO_TEXT + window(0, 0, len(text), length, text)


def whole_text(text):
    """The chunks in which a drive sends a text: the head of its document, and each window."""
    pieces = [text[begin : begin + PIECE] for begin in range(0, len(text), PIECE)]
    return [NO_TEXT, *(document(piece)[len(NO_TEXT) :] for piece in pieces)]


def alike(one, other):
    """With how many bytes both begin."""
    return next((at for at, (first, second) in enumerate(zip(one, other)) if first != second), min(len(one), len(other)))


def sized(kind, length):
    """The first bytes of an instruction: its kind and its length."""
    return bytes([kind + length]) if length < 64 else bytes([kind]) + integer(length)


def text_over(before, text):
    """The chunks in which a delta from one text to another is sent: the head of its document, and each window. What both begin with
    and what both end with is copied, where that is 64 bytes or more, and their ends where the texts are of nearly the same length. A
    view reaches as far to either side as those may differ."""
    front = alike(before, text)
    behind = alike(before[: front - len(before) - 1 : -1], text[: front - len(text) - 1 : -1]) if abs(len(before) - len(text)) <= REACH else 0
    if front + behind < WORTH:
        return whole_text(text)
    chunks = [NO_TEXT]
    for begin in range(0, len(text), PIECE):
        end = min(begin + PIECE, len(text))
        first, last = max(min(end, front), begin), max(min(end, max(begin, len(text) - behind)), min(end, max(begin, front)))
        view, view_end = min(len(before), max(0, begin - REACH)), min(len(before), end + REACH)
        copies = [sized(0, first - begin) + integer(begin - view)] if first > begin else []
        brings = [sized(128, last - first)] if last > first else []
        ends = [sized(0, end - last) + integer(last + len(before) - len(text) - view)] if end > last else []
        chunks.append(window(view, view_end - view, end - begin, b"".join(copies + brings + ends), text[first:last]))
    return chunks


def items(content):
    """The items that these bytes spell: words as texts, numbers, strings as bytes, and lists of items."""
    lists, place = [[]], 0
    while place < len(content):
        end = content.index(b" ", place)
        spelled = content[place:end]
        if spelled == b"(":
            lists.append([])
        elif spelled == b")":
            inner = lists.pop()
            lists[-1].append(inner)
        elif b":" in spelled:
            begin = content.index(b":", place) + 1
            end = begin + int(content[place : begin - 1])
            lists[-1].append(content[begin:end])
        else:
            lists[-1].append(int(spelled) if spelled.isdigit() else spelled.decode())
        if content[end : end + 1] != b" ":
            raise ValueError(f"no item ends at {end}")
        place = end + 1
    (read,) = lists
    return read


CLOSE_EDIT = b"( close-edit ( ) ) "
ABORT_EDIT = b"( abort-edit ( ) ) "
FINISH_REPORT = b"( finish-report ( ) ) "
ABORT_REPORT = b"( abort-report ( ) ) "
ANONYMOUS = b"( ANONYMOUS ( 0: ) ) "
CRAM_MD5 = b"( CRAM-MD5 ( ) ) "
LATEST = b"( get-latest-rev ( ) ) "

EDITING = NO_LOGIN + EMPTY
NONE = answered(b"none ")
DIRECTORY = answered(b"dir ")
FILE = answered(b"file ")

# the svndiff document of the empty text
NO_TEXT = bytes.fromhex("53564E00")


def login(url="svn://h/r", root="svn://h/r", name="r", uuid=UUID):
    """The exchanges up to the first command."""
    return [
        (greeting_answer(url), login_wanted(name)),
        (ANONYMOUS, repository_told(root, uuid)),
    ]


def login_of_today(url="svn://h/r", root="svn://h/r", name="r", uuid=UUID):
    """The same of a client of today."""
    return [
        (greeting_answer(url, capabilities=OF_TODAY), login_wanted(name)),
        (ANONYMOUS, repository_told(root, uuid)),
    ]
