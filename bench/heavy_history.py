"""The rows of `heavy-load` that ask for the history of many revisions."""

import os

import spelling
from clients import URL, Refused, edit, mebibytes
from heavy import MEBIBYTE, PLACES, asks, goes_within, listed
from heavy_work import TEXT, WINDOW, copied
from spelling import NO_TEXT, add_directory, add_file, close_file, delete_entry, delta, document, open_directory, open_file, string, window

# how many paths and revisions are named in one command: as many as an item has room for without a user, but for some
NAMED = 190_000
# how many dates are asked for in one piece, and how often segments and a deletion within which a client goes
DATES, LISTED = 1_000, 1_000
# for how many seconds a processor may work at the locations, and at the log, of one command
LOCATED_WITHIN, LOGGED_WITHIN = 1, 20
# for how many seconds a processor may work at the revisions of a file with short texts, and how much memory a session takes beside a
# text that it is sent, in MiB
BLAMED_WITHIN, BLAME_LIMIT = 1, 4
# for how many seconds a processor may work at the replay of many small revisions
REPLAYED_WITHIN = 1


def changes(client, count, commands):
    """So many commits, by the commands of each number. Gives the last revision."""
    for number in range(count):
        revision = edit(client, *commands(number))
    return revision


def answered(client, command, count):
    """What one command is answered that is sent so many times in one piece."""
    client.send(command * count)
    return [client.succeed() for _ in range(2 * count)][1::2]


def locations(row):
    """Where a path was, or went, in all revisions."""
    count, alice = row.options.revisions, row.client("alice")
    first = edit(alice, *(add_file(name, "d0", name) + close_file(name) for name in ("f", "m0", "r")))

    def change(number):
        moved = string(f"{URL}/m{number}") + b"%d " % alice.youngest()
        property = [open_file("f", "d0", "c1"), spelling.file_property("c1", "p", b"%d" % number), close_file("c1")]
        return [*property, delete_entry(f"m{number}", "d0"), add_file(f"m{number + 1}", "d0", "c2", moved), close_file("c2")]

    changed = changes(alice, count, change)
    source = string(f"{URL}/f") + b"%d " % changed
    last = changes(alice, count // 2, lambda _number: [delete_entry("r", "d0"), add_file("r", "d0", "c1", source), close_file("c1")])
    everywhere = range(first, last + 1)
    for what, path, peg, revisions, most in (
        ("a file that was changed, back", "f", last, everywhere, len(everywhere)),
        ("a file that was changed, on", "f", first, everywhere, len(everywhere)),
        ("a file that was moved each time, back", f"m{count}", last, everywhere, count),
        ("a file that was replaced by copies, on", "r", first, everywhere, 1),
        ("a file that was changed, at the first and the last revision in turns", "f", last, [first, last] * (NAMED // 2), 2),
    ):
        told = asks(row, f"{len(revisions):,} locations of {what}", listed, spelling.locations(path, peg, revisions), most=LOCATED_WITHIN)
        if len(told) < most and not row.is_other:
            row.fail(f"of {what} {len(told):,} locations are told, and not {most:,}")
    if row.is_other:
        return
    goes_within(row, "the locations of what was replaced", spelling.locations("r", first, everywhere) * 4)
    segments, deletion = spelling.location_segments(f"m{count}", last), spelling.deleted_revision("f", first, last)
    goes_within(row, "many times the segments of what was moved", segments * LISTED, is_of_today=True)
    goes_within(row, "many searches for a deletion that there is not", deletion * LISTED, is_of_today=True)


def logs(row):
    """Logs of many paths, of which each has all revisions to be looked at."""
    count, files, alice = row.options.revisions, row.options.files, row.client("alice")
    names = [f"t/{number}" for number in range(files)]
    edit(alice, add_directory("t", "d0", "d1"), *(add_file(name, "d1", "c1") + close_file("c1") for name in names))
    begin = open_directory("t", "d0", "d1")
    last = changes(alice, count, lambda number: [begin, spelling.directory_property("d1", "p", b"%d" % number)])
    for what, paths, start, end in (
        (f"a log of one path, {NAMED:,} times", names[:1] * NAMED, last, 0),
        (f"a falling log of {files:,} files and the root", ["", *names], last, 0),
        (f"a rising log of {files:,} files and the root", ["", *names], 0, last),
    ):
        asks(row, what, listed, spelling.log(paths, b"%d " % start, b"%d " % end), most=LOGGED_WITHIN)
    if not row.is_other:
        goes_within(row, "the rising log", spelling.log(["", *names], b"0 ", b"%d " % last))


def dates(row):
    """Old dates, of revisions that rise, and then of some whose youngest is dated before them all."""
    alice = row.client("alice")
    edit(alice, add_file("f", "d0", "c1"), close_file("c1"))
    begin = open_file("f", "d0", "c1")
    last = changes(alice, row.options.revisions, lambda number: [begin, spelling.file_property("c1", "p", b"%d" % number)])
    ask = spelling.get_dated_revision(spelling.date(1))
    asks(row, f"{DATES:,} old dates, of {last} revisions", answered, ask, DATES)
    if row.is_other:
        return
    alice.ask(spelling.change_revision_property(last, "svn:date", spelling.date(2)))
    asks(row, f"{DATES:,} old dates, where the youngest of {last} revisions is the oldest", answered, ask, DATES)
    goes_within(row, f"{20 * DATES:,} of them", ask * 20 * DATES)


def growing_text(number, size, is_whole):
    """An svndiff document over a text of this size, by which the first eight bytes are others; and where it is to be sent whole, the
    last eight, too, so that it has nothing in common with the one before that a delta copies."""
    other = b"%08d" % number
    first = window(0, WINDOW, WINDOW, b"\x88" + copied(WINDOW - 8, 8), other)
    others = [window(begin, WINDOW, WINDOW, copied(WINDOW, 0), b"") for begin in range(WINDOW, size, WINDOW)]
    if is_whole:
        others[-1] = window(size - WINDOW, WINDOW, WINDOW, copied(WINDOW - 8, 0) + b"\x88", other)
    return NO_TEXT + first + b"".join(others)


def with_long_texts(client, path, size, count, is_whole=True):
    """A file of so many revisions, each with a text of this size. Gives the last revision."""
    edit(client, add_file(path, "d0", "c1"), *delta("c1", document(os.urandom(WINDOW))), close_file("c1"))
    pieces = b"".join(window(0, WINDOW, WINDOW, copied(WINDOW, 0), b"") for _ in range(size // WINDOW))
    edit(client, open_file(path, "d0", "c1"), *delta("c1", NO_TEXT + pieces), close_file("c1"))
    return changes(
        client, count, lambda number: [open_file(path, "d0", "c1"), *delta("c1", growing_text(number, size, is_whole)), close_file("c1")]
    )


def blamed(client, command):
    """How many bytes of the texts of a file's revisions come, and how many revisions."""
    client.send(command)
    client.succeed()
    length = count = 0
    while (found := client.item()) != "done":
        if isinstance(found, list):
            count += 1
        else:
            length += len(found)
    client.succeed()
    return length, count


def blames(row):
    """The revisions of a file with their texts: of one that takes them, of many that take nothing, and of those that go."""
    count, alice, today = row.options.revisions, row.client("alice"), {"is_of_today": True}
    many = count // 8
    with row.attack(f"{many} commits of a text of 1 MiB, of which the first and the last bytes differ"):
        last = with_long_texts(alice, "long", MEBIBYTE, many)
    with row.attack("4 commits of a text of 16 MiB, of which the first and the last bytes differ, and 4 of one of which the first do"):
        with_long_texts(alice, "longest", TEXT, 4)
        with_long_texts(alice, "nearly", TEXT, 4, is_whole=False)
    edit(alice, add_file("short", "d0", "c1") + close_file("c1"))
    begin = open_file("short", "d0", "c1")
    changes(alice, count, lambda number: [begin, *delta("c1", document(b"%d" % number)), close_file("c1")])
    of_long, of_longest = spelling.file_revisions("long", 0, last), spelling.file_revisions("longest", 0)
    of_short, of_nearly = spelling.file_revisions("short", 0), spelling.file_revisions("nearly", 0)
    for what, command, most in (
        (f"the {many + 2} revisions of a file with texts of 1 MiB", of_long, None),
        ("the same from the newest", spelling.file_revisions("long", last, 0), None),
        ("the 6 revisions of a file with texts of 16 MiB that are nearly the same", of_nearly, BLAMED_WITHIN),
        (f"the {count:,} revisions of a file with short texts", of_short, BLAMED_WITHIN),
        ("the newest of them alone", spelling.file_revisions("short"), BLAMED_WITHIN),
    ):
        told = asks(row, what, blamed, command, most=most, **today)
        row.say(f"{what}: {told[1] if told else 0:,} revisions, whose texts are told in {told[0] if told else 0:,} bytes")
    for what, command, length in (("those with texts of 1 MiB", of_long, MEBIBYTE), ("those with texts of 16 MiB", of_longest, TEXT)):
        takes_no_text(row, what, command, length, today)
    if row.is_other:
        return
    goes_within(row, "the revisions with texts of 1 MiB", of_long, **today)
    goes_within(row, "a hundred times those with texts of 16 MiB that are nearly the same", of_nearly * 100, **today)
    goes_within(row, "a hundred times the revisions with short texts", of_short * 100, **today)


def takes_no_text(row, what, command, length, today):
    """All clients but one ask for the revisions of a file, and take nothing of them: each may have one text in memory. Then they go."""
    clients = [row.client(**today) for _ in range(PLACES - 1)]
    with row.attack(f"{len(clients)} ask for {what}, and take nothing") as cost:
        for client in clients:
            client.send(command)
        row.settle()
    if cost.memory > len(clients) * (length + BLAME_LIMIT * MEBIBYTE) / 1024:
        row.fail(f"{len(clients)} that ask for {what} take {mebibytes(cost.memory)}")
    row.vanish(*clients)


def replayed(client, command):
    """How many items the edits of a replay have, and how many texts there are in them."""
    client.send(command)
    client.succeed()
    items = texts = 0
    while (found := client.item())[0] not in ("success", "failure"):
        items += 1
        texts += found[0] == "apply-textdelta"
    if found[0] == "failure":
        raise Refused(found)
    return items, texts


def replays(row):
    """What revisions did, one after another: of one that takes it, of many that take nothing, and of those that go."""
    count, alice, today = row.options.revisions, row.client("alice"), {"is_of_today": True}
    many = count // 8
    last = with_long_texts(alice, "long", MEBIBYTE, many)
    of_long = spelling.replay_range(1, last)
    with row.attack(f"a commit of a directory of {row.options.files:,} files"):
        wide = edit(alice, add_directory("wide", "d0", "d1"), *(add_file(f"wide/{n}", "d1", "c1") + close_file("c1") for n in range(row.options.files)))
    begin = [open_directory("wide", "d0", "d1"), open_file("wide/0", "d1", "c1")]
    newest = changes(alice, count, lambda number: [*begin, *delta("c1", document(b"%d" % number)), close_file("c1")])
    for what, command, most in (
        (f"{last:,} revisions with texts of 1 MiB", of_long, None),
        (f"{count:,} revisions of one file of {row.options.files:,} in its directory", spelling.replay_range(wide + 1, newest), REPLAYED_WITHIN),
        ("the same without texts", spelling.replay_range(wide + 1, newest, 0, False), REPLAYED_WITHIN),
    ):
        told = asks(row, what, replayed, command, most=most, **today)
        row.say(f"{what}: {told[0] if told else 0:,} items, {told[1] if told else 0:,} texts")
    takes_no_text(row, "a replay of those with texts of 1 MiB", of_long, MEBIBYTE, today)
    if row.is_other:
        return
    goes_within(row, "a replay of those with texts of 1 MiB", of_long, **today)
    goes_within(row, "a replay of all revisions, without texts", spelling.replay_range(0, newest, 0, False) * 100, **today)
