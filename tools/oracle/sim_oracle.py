#!/usr/bin/env python3
r"""What `attrdir sim` must print, worked out a second time and without a look at the program.

Standard input is a script, standard output gets its answers. The exit status is 0, 2 after a line that is no command,
or 3 after a fault of the world line. The program's output is compared with this line by line (see `compare`).

Corners, and what stands in each:

Lines
- A script is bytes. Lines end at a byte 0a; a last line without one counts. A byte 0d is a byte as any other.
- An empty line is passed over, but counts in `line N`. A script of empty lines prints nothing and ends with status 0.
- Words are separated by exactly one space, with none at an end. A line of one space is no command.
- A text that `put`, `commit` or `crash` writes is one word, and may have spaces anywhere: it is all behind `text` and a
  space, of `crash` up to the last space. So `put a k text ` and `crash a k text  kept` write the empty text (4), and
  `put a k text` and `crash a k text kept` are no commands. Before the text there is one space between two words.
- The first line that is not empty is the world line. Later a world line is no command, even a faultless one.
- The shape of the whole line is looked at before any of its words is read: how many words, the numbers, the order's
  word, `kept` or `lost`. The number of a connection is 1 to 999,999, and another is no command.
- A line that is no command is `line N` and ends the run; what was printed before it stands.
- Numbers are decimal digits, at most 2^64 - 1, and may have leading zeros, however many. A weight is no such number:
  it is a value with a spelling of its own, and a wrong one is fault 4.
- A text is spelled in one way: the bytes 00 to 1f, 7f and the backslash are a backslash and two digits of 0-9 and a-f,
  all others are themselves. Another spelling (`\41`, `\5C`, `\5`), bytes that are no UTF-8, none and more than 512: 4.
- A value is two words. So `put a k removed` is no command, and `put a k removed x` is one with an unknown kind (4).
  `commit a k removed` is a removal, and `crash a k removed kept` no command.

Order of faults
- Names (2), keys (3) and values (4) are read from left to right, all of them before the line does anything. So a bad
  key is told even where the node is not in the world.
- World line: names, then budget and last version (5), then the number of nodes (5), then two equal names (24). The run
  ends at the first of these with status 3. After any other fault the script goes on.
- A node that is not in the world: `nothing`. A node that is down: 15, but for a restart (so also `purge`). Then what is not there or
  already there: `nothing`. An owner that is no node of the world holds nothing: `none`, 0, an empty delta.
- A removal of what is not there (9), then a new key beside 4,096 others (6), then the last version reached (8).
- A floor above the last version is 30, and the node stays up. Else `purge` prints the floor that was asked for and takes the
  node down, also where the log's floor is as high already and nothing changes there.

- `trim` is told by what the node holds, not by its log: above that it is 30, and nothing changes. Else it prints the floor
  that was asked for, also where both floors are as high already.

Floors and stages
- A block is looked at in this order: its owner is the taker; it tells nothing that is new (`stale`); it joins the table that is
  shown; it joins the stage of its floor, or begins one; else `gap`. A block that would add an owner beside 1,023 others is `owners-full`.
- The floor of the table rises before the first entry is entered, and stays risen where there is no room for that.
- `taken` and `too-many-keys` count what was entered: into the table, or into the stage. The swap counts nothing.
- An owner of which there is only a stage is held up to 0, and has a pair in each digest.
- A peer that does not hold as far as the table's floor is offered the table as if it were purged further, removals left out:
  up to the floor of its stage, from the stage's progress on, if the sender's floor is no higher and the sender holds as far;
  else up to all that the sender holds, from 0 on. A digest without a pair is as one of version 0 without a stage.
- What is offered of a table without an entry above the number is one item, with neither a key nor a version; its rank is 0.

Composite lines
- `put` and `del` print the version that was entered, which is not the one that was committed where another waits.
- `give` connects its giver, sends the offer, and prints that frame; then it connects its taker, lines both frames up there
  and lets all of them come. A fault is printed and skips what is left, but both connections end in silence. What is not
  there skips nothing: the taker of a giver that is not there still greets, and `nothing` is printed.
"""
import re
import sys
from dataclasses import dataclass, field

NAME_MOST, KEY_MOST, ADDR_MOST, TEXT_MOST = 32, 64, 128, 512
WEIGHT_MOST = 2**63 - 1
NUMBER_MOST = 2**64 - 1
VERSION_MOST = 2**40 - 1
BUDGET_LEAST, BUDGET_MOST = 1_024, 65_536
NODES_MOST, KEYS_MOST, OWNERS_MOST = 1_024, 4_096, 1_024
CONNECTION_MOST = 999_999
CLUSTER = b"sim"
FRAME_FRONT = b"\xa7\x03"

BAD_NAME, BAD_KEY, BAD_VALUE, BAD_SETTING = 2, 3, 4, 5
TABLE_FULL, VERSIONS_SPENT, NOTHING_THERE, CLOSED = 6, 8, 9, 15
CONFLICT, NO_HELLO, WRONG_CLUSTER, SAME_NAME, SECOND_HELLO = 21, 22, 23, 24, 25
FLOOR_TOO_HIGH = 30

NOTHING = [b"nothing"]


class NoCommand(Exception):
    """The line is no command."""


class Fault(Exception):
    """The line is refused with this number."""

    def __init__(self, number):
        super().__init__(number)
        self.number = number


# ---- words


TEXT_LINE = re.compile(rb"(put|commit|crash) ([^ ]+) ([^ ]+) (text) (.*)", re.DOTALL)


def words_of(line):
    """Splits a line into its words. A text that is written is one, whatever spaces it has."""
    found = TEXT_LINE.fullmatch(line)
    if found:
        *front, behind = found.groups()
        if front[0] != b"crash":
            return [*front, behind]
        spelled, space, end = behind.rpartition(b" ")
        if not space or not end:
            raise NoCommand
        return [*front, spelled, end]
    words = line.split(b" ")
    if b"" in words:
        raise NoCommand
    return words


def read_number(word):
    """Reads a number that is no weight."""
    if not re.fullmatch(rb"[0-9]+", word):
        raise NoCommand
    digits = word.lstrip(b"0") or b"0"
    if len(digits) > 20 or int(digits) > NUMBER_MOST:
        raise NoCommand
    return int(digits)


def read_connection(word):
    """Reads the number of a connection."""
    number = read_number(word)
    if not 1 <= number <= CONNECTION_MOST:
        raise NoCommand
    return number


def read_end(word):
    """Reads how a crash ends."""
    if word not in (b"kept", b"lost"):
        raise NoCommand
    return word == b"kept"


def read_name(word):
    """Reads the name of a node or an owner."""
    if len(word) > NAME_MOST or not re.fullmatch(rb"[a-z0-9-]+", word):
        raise Fault(BAD_NAME)
    return word


def read_key(word):
    """Reads a key."""
    if len(word) > KEY_MOST or not re.fullmatch(rb"[a-z0-9._/-]+", word):
        raise Fault(BAD_KEY)
    return word


@dataclass(frozen=True)
class Value:
    """A value, as it goes into a frame and as it is printed; of a removal nothing is printed."""

    tag: int
    encoded: bytes
    shown: bytes


REMOVED = Value(0, b"", b"")


SPELLING = re.compile(rb"([^\x00-\x1f\x7f\\]|\\([01][0-9a-f]|7f|5c))*", re.DOTALL)


def read_text(word):
    """Reads a text in its one spelling."""
    if not SPELLING.fullmatch(word):
        raise Fault(BAD_VALUE)
    found = re.sub(rb"\\(..)", lambda it: bytes.fromhex(it[1].decode()), word)
    try:
        found.decode()
    except UnicodeDecodeError:
        raise Fault(BAD_VALUE) from None
    if not 1 <= len(found) <= TEXT_MOST:
        raise Fault(BAD_VALUE)
    return Value(4, u16(len(found)) + found, b"text " + word)


def read_value(words):
    """Reads a value in its two words."""
    kind, word = words
    if kind == b"text":
        return read_text(word)
    if kind == b"addr" and len(word) <= ADDR_MOST and re.fullmatch(rb"[\x21-\x7e]+", word):
        return Value(1, bytes([len(word)]) + word, b"addr " + word)
    if kind == b"weight" and len(word) <= 19 and re.fullmatch(rb"0|[1-9][0-9]*", word) and int(word) <= WEIGHT_MOST:
        return Value(2, int(word).to_bytes(8, "big"), b"weight " + word)
    if kind == b"flag" and word in (b"false", b"true"):
        return Value(3, bytes([word == b"true"]), b"flag " + word)
    raise Fault(BAD_VALUE)


# ---- messages


@dataclass(frozen=True)
class Hello:
    """Who speaks."""

    cluster: bytes
    node: bytes

    def payload(self):
        """Spells the message."""
        return b"\x01" + text(self.cluster) + text(self.node)

    def words(self):
        """Says the message in words."""
        return [b"hello, cluster %s, node %s" % (self.cluster, self.node)]


@dataclass(frozen=True)
class Pair:
    """How far an owner is held, and the floor and the progress of its stage, both 0 where there is none."""

    name: bytes
    upto: int
    floor: int = 0
    progress: int = 0

    def start(self, floor, held):
        """Where a sender starts whose table has this floor and this held version: above which version, and under which floor."""
        if floor <= self.upto:
            return self.upto, floor
        return (self.progress, self.floor) if floor <= self.floor <= held else (0, held)

    def words(self):
        """Says the pair in words."""
        stage = b", stage of floor %d up to %d" % (self.floor, self.progress) if self.floor or self.progress else b""
        return b"    %s upto %d%s" % (self.name, self.upto, stage)


@dataclass(frozen=True)
class Digest:
    """How far each owner of a range is held."""

    want: bool
    start: bytes
    until: bytes
    pairs: tuple

    def payload(self):
        """Spells the message."""
        pairs = b"".join(text(it.name) + u64(it.upto) + u64(it.floor) + u64(it.progress) for it in self.pairs)
        return b"\x02" + bytes([self.want]) + text(self.start) + text(self.until) + u16(len(self.pairs)) + pairs

    def words(self):
        """Says the message in words."""
        want = b"wants an answer" if self.want else b"wants no answer"
        start = b"from " + (self.start or b"the first name")
        until = b"until " + self.until if self.until else b"to the last name"
        head = b"digest, %s, %s, %s, pairs %d" % (want, start, until, len(self.pairs))
        return [head, *(pair.words() for pair in self.pairs)]

    def start_of(self, name, floor, held):
        """Tells the same of an owner, or None where the digest does not speak of it."""
        if name < self.start or (self.until and name >= self.until):
            return None
        return next((pair for pair in self.pairs if pair.name == name), Pair(name, 0)).start(floor, held)


@dataclass(frozen=True)
class Block:
    """Entries (key, version, value) of an owner, all that it wrote above `after` up to `upto`, but for removals up to the floor."""

    owner: bytes
    floor: int
    after: int
    upto: int
    entries: tuple

    def above(self, version):
        """Lists its entries above a version."""
        return [it for it in self.entries if it[1] > version]


@dataclass(frozen=True)
class Delta:
    """A block for each of some owners."""

    blocks: tuple

    def payload(self):
        """Spells the message."""
        spelled = b"\x03" + u16(len(self.blocks))
        for block in self.blocks:
            spelled += text(block.owner) + u64(block.floor) + u64(block.after) + u64(block.upto) + u16(len(block.entries))
            for key, version, value in block.entries:
                spelled += text(key) + u64(version) + bytes([value.tag]) + value.encoded
        return spelled

    def words(self):
        """Says the message in words."""
        said = [b"delta, blocks %d" % len(self.blocks)]
        for block in self.blocks:
            floor = b", floor %d" % block.floor if block.floor else b""
            said.append(b"    block of %s%s, after %d, upto %d, entries %d" % (block.owner, floor, block.after, block.upto, len(block.entries)))
            for key, version, value in block.entries:
                said.append(b"      %s %s %d %s" % (block.owner, key, version, value.shown or b"removed -"))
        return said


def text(it):
    """Spells a name or a key, or none."""
    return bytes([len(it)]) + it


def u16(number):
    """Spells a count."""
    return number.to_bytes(2, "big")


def u64(number):
    """Spells a version."""
    return number.to_bytes(8, "big")


def frame_of(message):
    """Spells the frame of a message."""
    payload = message.payload()
    return FRAME_FRONT + len(payload).to_bytes(4, "big") + payload


# ---- nodes


@dataclass
class Entries:
    """Entries, (version, value) under each key in ascending version."""

    under: dict = field(default_factory=dict)

    def has_room(self, key):
        """Says whether an entry under this key keeps to the most keys."""
        return key in self.under or len(self.under) < KEYS_MOST

    def push(self, key, version, value):
        """Enters a write, which takes the place of an older one under its key."""
        self.under.pop(key, None)
        self.under[key] = (version, value)

    def fill(self, entries):
        """Enters these entries while there is room, and tells how many there were, and whether all were."""
        for taken, (key, version, value) in enumerate(entries):
            if not self.has_room(key):
                return taken, False
            self.push(key, version, value)
        return len(entries), True

    def above(self, version):
        """Lists the entries above a version as (key, version, value), ascending."""
        return [(key, *entry) for key, entry in self.under.items() if entry[0] > version]

    def without_removals(self, floor):
        """The entries but for the removals up to the floor."""
        return Entries({key: it for key, it in self.under.items() if it[1] is not REMOVED or it[0] > floor})


@dataclass
class Table:
    """What is held of one owner: its entries, the version up to which they are all, and the floor up to which removals are gone."""

    entries: Entries = field(default_factory=Entries)
    upto: int = 0
    floor: int = 0

    def live(self, key):
        """The version and the value under a key, unless nothing stands there."""
        entry = self.entries.under.get(key)
        return None if entry is None or entry[1] is REMOVED else entry

    def push(self, key, version, value):
        """Enters a write of the owner's own."""
        self.entries.push(key, version, value)
        self.upto = version

    def raise_floor(self, floor):
        """The floor rises, where it is lower, and the removals up to it go."""
        if floor > self.floor:
            self.floor, self.entries = floor, self.entries.without_removals(floor)

    def take(self, block):
        """Takes a block that joins it, and says how that ended."""
        self.raise_floor(block.floor)
        entries = block.above(self.upto)
        taken, is_whole = self.entries.fill(entries)
        if is_whole:
            self.upto = block.upto
            return b"taken %d" % taken
        if taken:
            self.upto = entries[taken - 1][1]
        return b"too-many-keys %d" % taken

    def copy(self):
        """An equal table."""
        return Table(Entries(dict(self.entries.under)), self.upto, self.floor)


@dataclass
class Stage:
    """What has come, from version 1 up to `progress`, of a table of a floor that is not shown yet."""

    floor: int
    progress: int = 0
    entries: Entries = field(default_factory=Entries)

    def take(self, block):
        """Takes a block that joins it, and says how that ended, and whether the stage has reached its floor by that."""
        entries = block.above(self.progress)
        taken, is_whole = self.entries.fill(entries)
        if is_whole:
            self.progress = block.upto
            return b"taken %d" % taken, self.progress >= self.floor
        if taken:
            self.progress = entries[taken - 1][1]
        return b"too-many-keys %d" % taken, False

    def swapped(self, shown):
        """The table that takes the place of the one that is shown."""
        kept = {}
        for key, entry in shown.entries.under.items():
            staged = self.entries.under.get(key)
            if staged is not None and staged[0] <= shown.upto:
                kept[key] = entry
        kept.update({key: entry for key, entry in self.entries.under.items() if entry[0] > shown.upto})
        return Table(Entries(kept).without_removals(self.floor), self.progress, self.floor)


@dataclass
class Node:
    """What a node has on its log, what it holds of each owner and what is staged, which writes wait, and whether it runs."""

    name: bytes
    log: Table = field(default_factory=Table)
    held: dict = field(default_factory=dict)
    stages: dict = field(default_factory=dict)
    waiting: list = field(default_factory=list)
    is_up: bool = True
    seen_ahead: bool = False

    def __post_init__(self):
        self.held = {self.name: Table()}

    def upto(self, owner):
        """The version up to which an owner is held."""
        return self.held[owner].upto if owner in self.held else 0

    def put(self, key, value, most):
        """The log takes a write, and answers its version."""
        if value is REMOVED and self.log.live(key) is None:
            raise Fault(NOTHING_THERE)
        if not self.log.entries.has_room(key):
            raise Fault(TABLE_FULL)
        if self.log.upto >= most:
            raise Fault(VERSIONS_SPENT)
        self.log.push(key, self.log.upto + 1, value)
        return self.log.upto

    def purge(self, floor):
        """The log drops its removals up to a floor."""
        if floor > self.log.upto:
            raise Fault(FLOOR_TOO_HIGH)
        self.log.raise_floor(floor)

    def restart(self):
        """Opens anew with what the log has."""
        self.held, self.stages, self.waiting = {self.name: self.log.copy()}, {}, []
        self.is_up, self.seen_ahead = True, False

    def stage_for(self, block):
        """The stage that a block joins or begins, if any."""
        stage = self.stages.get(block.owner)
        if stage is not None and stage.floor == block.floor:
            return stage if block.after <= stage.progress < block.upto else None
        if block.after == 0 and (stage is None or stage.floor < block.floor):
            return Stage(block.floor)
        return None

    def apply(self, block):
        """Takes a block, and says how it ended."""
        owner, held = block.owner, self.upto(block.owner)
        if owner == self.name:
            if block.upto <= held:
                return b"own"
            self.seen_ahead = True
            return b"own-ahead %d" % block.upto
        if block.upto <= held and block.floor <= held:
            return b"stale"
        stage = None
        if block.floor > held:
            stage = self.stage_for(block)
        if (block.floor > held and stage is None) or (block.floor <= held < block.after):
            return b"gap"
        if owner not in self.held and len(self.held) >= OWNERS_MOST:
            return b"owners-full"
        shown = self.held.setdefault(owner, Table())
        if stage is None:
            end = shown.take(block)
            if owner in self.stages and self.stages[owner].floor <= shown.upto:
                del self.stages[owner]
            return end
        end, is_reached = stage.take(block)
        self.stages[owner] = stage
        if is_reached:
            self.held[owner] = self.stages.pop(owner).swapped(shown)
        return end

    def items_for(self, digest):
        """All that the digest's sender lacks, as (rank, count, owner, start, entry), where there is no entry for the news alone."""
        items = []
        for owner, table in self.held.items():
            start = digest.start_of(owner, table.floor, table.upto)
            if start is None:
                continue
            number, floor = start
            entries = table.entries.without_removals(floor).above(number)
            if not entries and table.upto > number:
                items.append((0, 1, owner, start, None))
            items += [(rank, len(entries), owner, start, entry) for rank, entry in enumerate(entries)]
        return items

    def delta_for(self, digest, world):
        """All that the digest's sender lacks, as far as the budget has room, in the order of the world."""
        items = self.items_for(digest)
        if world.order == b"breadth":
            items.sort(key=lambda it: (it[0], it[2]))
        else:
            items.sort(key=lambda it: (-it[1], it[2], it[4][1] if it[4] else 0))
        parts, length = {}, 9
        for _, count, owner, start, entry in items:
            length += 10 + len(entry[0]) + len(entry[2].encoded) if entry else 0
            length += 0 if owner in parts else 27 + len(owner)
            if length > world.budget:
                break
            parts.setdefault(owner, (start, count if entry else 0, []))[2].extend([entry] if entry else [])
        return Delta(tuple(self.block_of(owner, *parts[owner]) for owner in sorted(parts)))

    def block_of(self, owner, start, count, entries):
        """The block of the first entries that an owner lacks, which reaches as far as is held where they are all."""
        number, floor = start
        held = self.held[owner].upto
        upto = held if len(entries) == count else entries[-1][1]
        return Block(owner, floor, number, upto, tuple(entries))

    def pair(self, owner):
        """How far an owner is held and staged."""
        stage = self.stages.get(owner, Stage(0))
        return Pair(owner, self.upto(owner), stage.floor, stage.progress)

    def digest(self, start, want, budget):
        """How far it holds each owner from a name on, as many as the budget has room for."""
        pairs = [self.pair(name) for name in sorted(self.held) if name >= start]
        whole = Digest(want, start, b"", tuple(pairs))
        if len(frame_of(whole)) <= budget:
            return whole
        for count in range(len(pairs) - 1, -1, -1):
            part = Digest(want, start, pairs[count].name, tuple(pairs[:count]))
            if len(frame_of(part)) <= budget:
                return part
        raise AssertionError("a budget has room for one pair")


@dataclass
class Connection:
    """A session at a node, the messages that are lined up towards it, and how many of their bytes have come."""

    node: Node
    lined: list = field(default_factory=list)
    length: int = 0
    come: int = 0
    taken: int = 0
    greeted: bool = False
    cursor: bytes = b""


# ---- the world


class World:
    """Nodes, their connections, and the messages of all frames that were sent."""

    def __init__(self, budget, order, most, names):
        self.budget, self.order, self.most = budget, order, most
        self.nodes = {name: Node(name) for name in names}
        self.connections = {}
        self.sent = []

    def running(self, name):
        """The node of a name that answers, None where there is none of that name."""
        node = self.nodes.get(name)
        if node is not None and not node.is_up:
            raise Fault(CLOSED)
        return node

    def send(self, message):
        """Sends a message, and answers the number of its frame."""
        self.sent.append((message, frame_of(message)))
        return len(self.sent)

    def stop(self, node):
        """A node goes down."""
        node.is_up = False
        self.drop_connections(node)

    def drop_connections(self, node):
        """Drops the connections of a node."""
        self.connections = {number: it for number, it in self.connections.items() if it.node is not node}

    def commit(self, name, key, value):
        """The log of a node takes a write, which waits."""
        node = self.running(name)
        if node is None:
            return NOTHING
        node.waiting.append((key, node.put(key, value, self.most), value))
        return [b"committed %d" % node.log.upto]

    def take(self, name):
        """The oldest write of a node that waits is entered."""
        node = self.running(name)
        if node is None or not node.waiting:
            return NOTHING
        if node.seen_ahead:
            raise Fault(CONFLICT)
        node.held[name].push(*node.waiting.pop(0))
        return [b"took %d" % node.upto(name)]

    def crash(self, name, key, value, is_kept):
        """A node goes down, behind a write or before it."""
        node = self.running(name)
        if node is None:
            return NOTHING
        try:
            if is_kept:
                node.put(key, value, self.most)
        except Fault:
            pass
        self.stop(node)
        return [b"crashed"]

    def purge(self, name, floor):
        """The log of a node drops its removals up to a floor, and the node goes down."""
        node = self.running(name)
        if node is None:
            return NOTHING
        node.purge(floor)
        self.stop(node)
        return [b"purged %d" % floor]

    def trim(self, name, floor):
        """A node drops the removals of its own table up to a floor, and then its log does; the node goes on."""
        node = self.running(name)
        if node is None:
            return NOTHING
        if floor > node.upto(name):
            raise Fault(FLOOR_TOO_HIGH)
        node.held[name].raise_floor(floor)
        node.log.raise_floor(floor)
        return [b"trimmed %d" % floor]

    def restart(self, name):
        """A node opens anew."""
        if name not in self.nodes:
            return NOTHING
        node = self.nodes[name]
        self.drop_connections(node)
        node.restart()
        return [b"restarted %d" % node.upto(name)]

    def connect(self, name, number):
        """A connection begins, and greets."""
        node = self.running(name)
        if node is None or number in self.connections:
            return NOTHING
        self.connections[number] = Connection(node)
        return [b"frame %d" % self.send(Hello(CLUSTER, name))]

    def close(self, number):
        """A connection ends."""
        return NOTHING if self.connections.pop(number, None) is None else [b"closed"]

    def line(self, number, at):
        """A frame is lined up on a connection."""
        connection = self.connections.get(number)
        if connection is None or not 1 <= at <= len(self.sent):
            return NOTHING
        message, frame = self.sent[at - 1]
        connection.length += len(frame)
        connection.lined.append((message, connection.length))
        return [b"lined"]

    def next_digest(self, connection, want):
        """The next digest of a session, which goes on where the last one ended."""
        digest = connection.node.digest(connection.cursor, want, self.budget)
        connection.cursor = digest.until
        return digest

    def ask(self, number):
        """A session sends its next digest."""
        connection = self.connections.get(number)
        if connection is None:
            return NOTHING
        return [b"frame %d" % self.send(self.next_digest(connection, True))]

    def take_message(self, connection, message):
        """A session takes a message, and answers what is printed of it."""
        if not isinstance(message, Hello) and not connection.greeted:
            raise Fault(NO_HELLO)
        if isinstance(message, Hello):
            if connection.greeted:
                raise Fault(SECOND_HELLO)
            if message.cluster != CLUSTER:
                raise Fault(WRONG_CLUSTER)
            if message.node == connection.node.name:
                raise Fault(SAME_NAME)
            connection.greeted = True
            return []
        if isinstance(message, Delta):
            return [connection.node.apply(block) for block in message.blocks]
        replies = [connection.node.delta_for(message, self)]
        if message.want:
            replies.append(self.next_digest(connection, False))
        return [b"frame %d" % self.send(reply) for reply in replies]

    def piece(self, number, count):
        """The next bytes of a line come, and each message is taken that has come whole."""
        connection = self.connections.get(number)
        if connection is None:
            return NOTHING
        connection.come = min(connection.come + count, connection.length)
        printed = []
        while connection.taken < len(connection.lined):
            message, end = connection.lined[connection.taken]
            if end > connection.come:
                break
            connection.taken += 1
            try:
                printed += self.take_message(connection, message)
            except Fault as fault:
                del self.connections[number]
                return [*printed, b"fault %d" % fault.number]
        return printed or NOTHING

    def offer(self, name, owner, after):
        """A node sends what it holds of an owner above a version."""
        node = self.running(name)
        if node is None:
            return NOTHING
        pairs = {held: Pair(held, table.upto) for held, table in node.held.items()}
        pairs[owner] = Pair(owner, after)
        return [b"frame %d" % self.send(node.delta_for(Digest(False, b"", b"", tuple(pairs.values())), self))]

    def read(self, name, owner, key):
        """What a node has under an owner's key."""
        node = self.running(name)
        if node is None:
            return NOTHING
        entry = node.held.get(owner, Table()).live(key)
        return [b"none"] if entry is None else [b"%s %s %d %s" % (owner, key, entry[0], entry[1].shown)]

    def upto(self, name, owner):
        """How far a node holds an owner."""
        node = self.running(name)
        return NOTHING if node is None else [b"%d" % node.upto(owner)]

    def show(self, at):
        """A frame that was sent."""
        return [self.sent[at - 1][1].hex().encode()] if 1 <= at <= len(self.sent) else NOTHING

    def words(self, at):
        """A frame that was sent, in words."""
        first, *others = self.sent[at - 1][0].words()
        return [b"  frame %d: %s" % (at, first), *others]

    def write(self, name, key, value):
        """A write that is entered at once, or an older one in its place."""
        self.commit(name, key, value)
        return [line.replace(b"took", b"version") for line in self.take(name)]

    def give(self, giver, taker, after):
        """A node sends another what it wrote above a version, on two connections that end with it."""
        one, other, printed = CONNECTION_MOST + 1, CONNECTION_MOST + 2, []
        try:
            first = len(self.sent)
            if self.connect(giver, one) != NOTHING:
                self.offer(giver, giver, after)
                printed += self.show(first + 2)
            delta = len(self.sent)
            self.connect(taker, other)
            for at in range(first + 1, delta + 1):
                self.line(other, at)
            printed += self.piece(other, NUMBER_MOST)
        except Fault as fault:
            printed.append(b"fault %d" % fault.number)
        self.close(one)
        self.close(other)
        return printed


# ---- lines


def make_world(words):
    """Makes the world of a world line."""
    if len(words) < 5 or words[0] != b"world" or words[2] not in (b"breadth", b"depth"):
        raise NoCommand
    budget, max_version = read_number(words[1]), read_number(words[3])
    names = [read_name(word) for word in words[4:]]
    if not BUDGET_LEAST <= budget <= BUDGET_MOST or not 1 <= max_version <= VERSION_MOST:
        raise Fault(BAD_SETTING)
    if len(names) > NODES_MOST:
        raise Fault(BAD_SETTING)
    if len(set(names)) < len(names):
        raise Fault(SAME_NAME)
    return World(budget, words[2], max_version, names)


def read_removal(words):
    """Reads the end of a removal."""
    if words != [b"removed"]:
        raise NoCommand
    return REMOVED


# Each form of a line: how many words follow the command, which of them are read how, and what the world does with what was
# read. N a name, K a key, V the two words of a value, R the word of a removal, # a number, C a connection's, E a crash's end.
FORMS = {
    b"commit": [("NKV", World.commit), ("NKR", World.commit)],
    b"take": [("N", World.take)],
    b"put": [("NKV", World.write)],
    b"del": [("NK", lambda world, name, key: world.write(name, key, REMOVED))],
    b"crash": [("NKVE", World.crash)],
    b"restart": [("N", World.restart)],
    b"purge": [("N#", World.purge)],
    b"trim": [("N#", World.trim)],
    b"connect": [("NC", World.connect)],
    b"ask": [("C", World.ask)],
    b"offer": [("NN#", World.offer)],
    b"close": [("C", World.close)],
    b"line": [("C#", World.line)],
    b"piece": [("C#", World.piece)],
    b"read": [("NNK", World.read)],
    b"upto": [("NN", World.upto)],
    b"show": [("#", World.show)],
    b"give": [("NN#", World.give)],
}
SHAPED = {"#": read_number, "C": read_connection, "E": read_end}
NAMED = {"N": read_name, "K": read_key, "V": read_value}


def parts_of(form, words):
    """Splits the words behind a command into the parts of a form, with the numbers and ends among them read."""
    if len(words) != len(form) + form.count("V"):
        raise NoCommand
    parts, at = [], 0
    for kind in form:
        if kind == "V":
            parts.append(words[at : at + 2])
            at += 2
            continue
        parts.append(SHAPED[kind](words[at]) if kind in SHAPED else read_removal([words[at]]) if kind == "R" else words[at])
        at += 1
    return parts


def answer(world, words):
    """Answers a line below the world line."""
    for form, act in FORMS.get(words[0], []):
        try:
            parts = parts_of(form, words[1:])
        except NoCommand:
            continue
        return act(world, *(NAMED[kind](part) if kind in NAMED else part for kind, part in zip(form, parts)))
    raise NoCommand


def explain(world, words, known):
    """Says in words the frame that a line shows, and those that were sent since so many were."""
    at = read_number(words[1]) if words[0] == b"show" else 0
    frames = [at] if 1 <= at <= known else []
    return [line for frame in [*frames, *range(known + 1, len(world.sent) + 1)] for line in world.words(frame)]


def run(script, explains=False):
    """Runs a script, and returns what it prints and its exit status."""
    printed, world = [], None
    for number, line in enumerate(script.split(b"\n"), 1):
        if not line:
            continue
        known = 0 if world is None else len(world.sent)
        try:
            words = words_of(line)
            if world is None:
                world = make_world(words)
            else:
                printed += answer(world, words)
        except NoCommand:
            return b"".join(it + b"\n" for it in [*printed, b"line %d" % number]), 2
        except Fault as fault:
            printed.append(b"fault %d" % fault.number)
            if world is None:
                return b"".join(it + b"\n" for it in printed), 3
        if explains:
            printed += explain(world, words, known)
    return b"".join(it + b"\n" for it in printed), 0


def main():
    """Runs the script on standard input."""
    printed, status = run(sys.stdin.buffer.read())
    sys.stdout.buffer.write(printed)
    return status


if __name__ == "__main__":
    sys.exit(main())
