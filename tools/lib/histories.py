"""What owners were asked to write, and whether the rows that readers are given come of it. tools/storm writes and judges rows by it."""
import threading
import time
import zlib
from array import array
from bisect import bisect_left, bisect_right, insort
from collections import namedtuple
from math import log2

# how many writers an owner has, and how many keys each of them
WRITERS, KEYS = 2, 24
REMOVED = "removed"
# the keys that are written once, removed once and never written again begin so
ONCE = "once/"
# a key of none of the writers, under which hostile callers have an owner write; it is short, so that it is few others with a byte changed
DISTURBED = "x"
# the name of hostile peers, who write as nobody else
HOSTILE = "zz"
# the key of beats, and the one that each node writes after everything
BEAT, AFTER = "beat", "after/all"
# the keys of the writes that a node and its twin make beside one another begin so
APART = ("right/", "twin/")
# the name of a node that has left for good, and how many rows it wrote: each row has its version as its key and value
LEFT, LEFT_ROWS = "w", 5

Asked = namedtuple("Asked", "key kind value")
Row = namedtuple("Row", "owner key version words")


def key_of(writer, index):
    return f"k/{writer}/{index:02}"


def row_of(line):
    """The row that a line of `get` is; none where it is no such line."""
    words = line.split(" ", 4)
    if len(words) != 5 or not words[2].isdecimal():
        return None
    return Row(words[0], words[1], int(words[2]), f"{words[3]} {words[4]}")


def could_be_disturbed(word, of):
    """Whether a word is another one with at most one of its bytes changed."""
    return len(word) == len(of) and sum(a != b for a, b in zip(word, of)) <= 1


def left_key(version):
    return f"left/{version}"


def is_of_left(row):
    """Whether the node that has left wrote this row."""
    return 0 < row.version <= LEFT_ROWS and row.key == left_key(row.version) and row.words == f"weight {row.version}"


class Numbers:
    """The number of the write of each version, 0 where it is not known. Versions skip a million where a log is lost, so they are in pieces."""

    def __init__(self):
        # the first version of each piece, and its numbers
        self.firsts, self.pieces = [1], [array("Q")]

    def place(self, version):
        at = bisect_right(self.firsts, version) - 1
        return self.pieces[at], version - self.firsts[at]

    def skip_to(self, version):
        """The versions from this one on are in a piece of their own."""
        if version > self.firsts[-1]:
            self.firsts.append(version)
            self.pieces.append(array("Q"))

    def __getitem__(self, version):
        piece, at = self.place(version)
        return piece[at] if at < len(piece) else 0

    def __setitem__(self, version, number):
        piece, at = self.place(version)
        if at >= len(piece):
            piece.frombytes(bytes(piece.itemsize * (at + 1 - len(piece))))
        piece[at] = number


class Open:
    """A write that was asked for, of which it is not known whether it was made, and as which version: it lies above `after`, below
    `before` where that is known, and once a reader has seen it, it is `seen`."""

    def __init__(self, asked, after):
        self.asked, self.after, self.before, self.seen = asked, after, 0, 0

    def may_be(self, version, words):
        is_between = version > self.after and (not self.before or version < self.before)
        return f"{self.asked.kind} {self.asked.value}" == words and is_between and self.seen in (0, version)


class KeysUsedOnce:
    """The keys of one owner that are written once, removed once and never written again: the number of each is its value. Threads share it."""

    def __init__(self):
        self.lock = threading.Lock()
        self.count = 0
        # those whose write was answered and whose removal was not asked for; and those that may have a row, or may have none
        self.written, self.unclear = set(), set()

    def next(self):
        """Another number, before its write is asked for."""
        with self.lock:
            self.count += 1
            self.unclear.add(self.count)
            return self.count

    def oldest(self):
        """The number of the oldest key that is written, before its removal is asked for."""
        with self.lock:
            number = min(self.written)
            self.written.remove(number)
            self.unclear.add(number)
            return number

    def doubtful(self):
        """The number of the oldest key that may have a row, or may have none; none where there is no such key."""
        with self.lock:
            return min(self.unclear, default=None)

    def settle(self, number, is_written):
        """What became of the key is clear."""
        with self.lock:
            self.unclear.discard(number)
            if is_written:
                self.written.add(number)

    def __len__(self):
        with self.lock:
            return len(self.written)

    def lose(self):
        """The log was lost: what each key is now is what others show of it, so nothing is known."""
        with self.lock:
            self.unclear |= self.written
            self.written = set()

    def has(self, row):
        """Whether somebody asked for the row."""
        number = row.key.removeprefix(ONCE)
        return number.isdecimal() and 0 < int(number) <= self.count and row.words == f"weight {int(number)}"

    def losses(self, numbers):
        """What is wrong with these numbers, of all keys that a node shows which has each write."""
        with self.lock:
            yield from (f"{ONCE}{it} is gone" for it in sorted(self.written - numbers))
            yield from (f"{ONCE}{it} is there, and its removal was answered" for it in sorted(numbers - self.written - self.unclear))


class History:
    """The writes of one owner: those that were acknowledged, with their versions, and those that are open. What a number asks for follows
    from the seed and the owner, so no write has to be kept. Threads share it."""

    def __init__(self, seed, owner):
        self.seed, self.owner = seed, owner
        self.keys = sorted(key_of(writer, index) for writer in range(WRITERS) for index in range(KEYS))
        self.lock = threading.Lock()
        # the greatest version that was acknowledged, and how many were
        self.last, self.count = 0, 0
        # the versions behind which its log began anew: what was written before is gone there, or was written again where it was restored
        self.begun, self.restored = [], []
        self.numbers = Numbers()
        # when each version was answered
        self.answered = {}
        self.versions = {key: array("Q") for key in self.keys}
        self.open = {key: {} for key in self.keys}
        self.once = KeysUsedOnce()
        # how many writes it and its twin made beside one another
        self.apart = 0

    def lose(self, version):
        """Its log was lost, and begins anew behind this version."""
        self.once.lose()
        with self.lock:
            self.begun.append(version)
            self.numbers.skip_to(version + 1)
            self.last = max(self.last, version)

    def restore(self, version, rows):
        """Its log was lost while nothing was written, and has all of these rows again, in the versions after this one."""
        with self.lock:
            self.restored.append(version)
            self.numbers.skip_to(version + 1)
            self.last = max(self.last, version + len(rows))
            for at, row in enumerate(rows, version + 1):
                number = self.number_of(row)
                if number:
                    self.numbers[at] = number
                    insort(self.versions[row.key], at)

    def number_of(self, row):
        """The number of the write that a row is; 0 where it is of none of the writers."""
        if row.key not in self.open:
            return 0
        return self.numbers[row.version] or next((number for number, it in self.open[row.key].items() if it.may_be(row.version, row.words)), 0)

    def lost_before(self, upto):
        """The last version up to this one behind which its log began anew; 0 where there is none."""
        return max((it for it in (*self.begun, *self.restored) if it <= upto), default=0)

    def asked(self, number):
        """What write NUMBER is. Each number is of one writer, and each key of one writer too. Some keys are written often, some hardly."""
        mixed = zlib.crc32(f"{self.seed} {self.owner} {number}".encode())
        key = key_of(number % WRITERS, int(2 * (16 - log2(1 + mixed % 65536))) % KEYS)
        kind = (REMOVED, "flag", "addr", "text", "weight", "weight", "weight", "weight")[mixed >> 16 & 7]
        values = {
            REMOVED: "-", "flag": ("false", "true")[mixed >> 19 & 1], "addr": f"10.0.0.1:{number}", "text": f" two  words é {number}", "weight": str(number),
        }
        return Asked(key, kind, values[kind])

    def begin(self, number):
        """Before it is asked for."""
        asked = self.asked(number)
        with self.lock:
            self.open[asked.key][number] = Open(asked, self.last)
        return asked

    def refuse(self, number):
        """It was not made; why that can't be, if it can't."""
        with self.lock:
            it = self.open[self.asked(number).key].pop(number)
            return f"was refused, and was read as version {it.seen}" if it.seen else None

    def acknowledge(self, number, version):
        """It was made, as this version; why that can't be, if it can't."""
        with self.lock:
            it = self.open[self.asked(number).key].pop(number)
            if version <= it.after:
                return f"was acknowledged as version {version}, when {it.after} was the last one"
            if it.seen not in (0, version):
                return f"was acknowledged as version {version}, and was read as version {it.seen}"
            if self.numbers[version]:
                return f"was acknowledged as version {version}, and so was write {self.numbers[version]}"
            self.numbers[version] = number
            self.answered[version] = time.monotonic()
            insort(self.versions[it.asked.key], version)
            # (the writer of a key asks for one write after the other)
            for earlier in self.open[it.asked.key].values():
                earlier.before = earlier.before or version
            self.last, self.count = max(self.last, version), self.count + 1
            return None

    def has(self, row):
        """Whether the row is a write that the owner was asked for, at the version under which it was acknowledged."""
        if row.key.startswith(ONCE):
            return self.once.has(row)
        if row.key not in self.open:
            return self.is_of_no_writer(row)
        with self.lock:
            if self.numbers[row.version]:
                asked = self.asked(self.numbers[row.version])
                return asked.key == row.key and f"{asked.kind} {asked.value}" == row.words
            for it in self.open[row.key].values():
                if it.may_be(row.version, row.words):
                    it.seen = row.version
                    return True
            return False

    def is_of_no_writer(self, row):
        """Whether a row is a write that none of the writers asks for."""
        if row.key.startswith(APART):
            count = row.key.split("/")[1]
            return count.isdecimal() and int(count) <= self.apart and row.words == f"weight {count}"
        return could_be_disturbed(row.key, DISTURBED) or (row.key, row.words) in ((BEAT, "flag true"), (AFTER, "weight 1"))

    def newest(self, key, upto):
        """The last version up to this one that was acknowledged under the key; 0 where there is none, or where it was lost."""
        with self.lock:
            versions = self.versions[key]
            at = bisect_right(versions, upto)
            return versions[at - 1] if at and versions[at - 1] > self.lost_before(upto) else 0

    def may_be_above(self, key, upto):
        """Whether the key may have been written above this version."""
        with self.lock:
            versions = self.versions[key]
            return bool(versions) and versions[-1] > upto or any(not it.before or it.before > upto for it in self.open[key].values())

    def may_be_gone(self, key, version):
        """Whether nothing may stand under the key, of which this version is held."""
        with self.lock:
            if any(it > version for it in self.begun):
                return True
            versions = self.versions[key]
            later = range(bisect_left(versions, version), len(versions))
            return any(self.asked(self.numbers[versions[at]]).kind == REMOVED for at in later) or any(
                it.asked.kind == REMOVED for it in self.open[key].values()
            )


class Sight:
    """What one reader was given in one run of a node. What it is given next has to go on from there. Of some owners, as of the node's own
    name, the node is known to have each write up to what is held; of others only those of keys that were not written above that."""

    def __init__(self, histories, whole):
        self.histories, self.whole = histories, whole
        # of each owner a version that is held, and of each owner and key the version that was read last
        self.upto, self.seen = {}, {}
        # of each owner the keys used once that were read last, and those that were read and then were not
        self.once, self.gone = {}, {}

    def holds(self, owner, version):
        """All of the owner's writes up to this version are held by now."""
        self.upto[owner] = max(self.upto.get(owner, 0), version)

    def look(self, rows):
        """What is wrong with these rows, all that a node gave in their order."""
        yield from wrong_rows(self.histories, rows)
        yield from self.falls(rows)
        yield from self.come_back(rows)
        for owner, history in self.histories.items():
            yield from self.losses(history, {it.key: it.version for it in rows if it.owner == owner})

    def falls(self, rows):
        for it in rows:
            # (a key used once has one version)
            if it.key.startswith(ONCE):
                continue
            before = self.seen.get((it.owner, it.key), 0)
            if it.version < before:
                yield f"{it.owner} {it.key} fell from version {before} to {it.version}"
            self.seen[it.owner, it.key] = it.version

    def come_back(self, rows):
        """Keys used once that were gone and are there again."""
        for owner in self.histories:
            now = once_numbers(rows, owner)
            gone = self.gone.setdefault(owner, set())
            yield from (f"{owner} {ONCE}{it} came back" for it in sorted(gone & now))
            gone |= self.once.get(owner, set()) - now
            self.once[owner] = now

    def losses(self, history, versions):
        """Keys of an owner of which less is given than is held. A page is of one state, and none is older than the page before: so all that
        was given so far, in ascending key, is held from there on."""
        upto = self.upto.get(history.owner, 0)
        for key in history.keys:
            version = versions.get(key)
            upto = max(upto, version or 0)
            newest = history.newest(key, upto)
            if version and version < history.lost_before(upto):
                yield f"{history.owner} {key} is of version {version}, and its log began anew behind {history.lost_before(upto)}, where {upto} is held"
            if history.owner not in self.whole and history.may_be_above(key, upto):
                continue
            if version is None:
                if newest and not history.may_be_gone(key, newest):
                    yield f"{history.owner} {key} is gone, of which version {newest} was acknowledged, where {upto} is held"
            elif version < newest:
                yield f"{history.owner} {key} is of version {version}, and {newest} was acknowledged, where {upto} is held"
        self.holds(history.owner, max([upto, *versions.values()]))


def once_numbers(rows, owner):
    """The numbers of an owner's keys used once among these rows."""
    return {int(it.key.removeprefix(ONCE)) for it in rows if it.owner == owner and it.key.startswith(ONCE)}


def is_written(histories, row):
    """Whether somebody was asked for a row. Hostile peers write as HOSTILE, or as that with a byte changed."""
    history = histories.get(row.owner)
    return history.has(row) if history else is_of_left(row) if row.owner == LEFT else could_be_disturbed(row.owner, HOSTILE)


def wrong_rows(histories, rows):
    """Rows that are out of order, or that nobody was asked for."""
    places = [(it.owner, it.key) for it in rows]
    if places != sorted(set(places)):
        yield f"rows do not ascend by owner and key: {places}"
    for it in rows:
        if not is_written(histories, it):
            yield f"nobody was asked for {' '.join(map(str, it))}"
