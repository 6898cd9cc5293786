"""The parts of tools/check-node that look at news that nodes push: what comes over the sockets for a write, what a gap brings about, peers that
accept late or never end, and peers of release 0.2.0."""
import socket
import threading
import time

from check_metrics import awaits
from check_releases import RELEASES, turns
from check_waking import seconds_until
from nodes import BYE, SECONDS, Difference, ask, block, connect, delta, exchange, frame, hello, long_text, number, read_frame, until, want, weight

# how many bytes a write of one weight may take over a connection, both ways: Hellos, a delta and a Bye
MOST = 300


class Tap:
    """A socket that hands everything on to another, and keeps what came over each connection: both ways, once it has ended."""

    def __init__(self, path, target):
        self.path, self.target, self.talks = path, target, []
        self.door = socket.socket(socket.AF_UNIX, socket.SOCK_STREAM)
        self.door.bind(str(path))
        self.door.listen(64)
        threading.Thread(target=self.take, daemon=True).start()

    def take(self):
        while True:
            near = self.door.accept()[0]
            threading.Thread(target=self.talk, args=(near,), daemon=True).start()

    def talk(self, near):
        try:
            far = connect(self.target)
        except OSError:
            near.close()
            return
        far.settimeout(None)
        said, heard = bytearray(), bytearray()
        other = threading.Thread(target=self.hand_on, args=(near, far, said))
        other.start()
        self.hand_on(far, near, heard)
        other.join()
        near.close()
        far.close()
        self.talks.append((bytes(said), bytes(heard)))

    def hand_on(self, source, sink, kept):
        try:
            while piece := source.recv(65536):
                kept += piece
                sink.sendall(piece)
            sink.shutdown(socket.SHUT_WR)
        except OSError:
            pass


def kinds_of(content):
    """The kinds of the frames that came over a connection one way."""
    kinds = []
    while content:
        kinds.append(content[6])
        content = content[6 + int.from_bytes(content[2:6], "big") :]
    return kinds


def answers(node, *peers):
    """Waits until a node has said that these peers answer."""
    until(f"the peers of {node.name}", lambda: all(any(it.endswith(f"peer {peer}: answers") for it in node.lines()) for peer in peers))


def push(node, *said):
    """Says this to a node as the peer x, and a Bye; what the node says."""
    heard = []
    with connect(node.sock) as stream:
        stream.sendall(hello("x") + b"".join(said) + BYE)
        while (message := read_frame(stream)) is not None:
            heard.append(message)
    return heard


def holds(node, owner, version):
    """Whether a node has a row of this owner and version."""
    return number(version) in exchange(node.control, ask(owner))[1]


def fill(node, count):
    """Tells a node of so many owners, of a row each."""
    for at in range(0, count, 200):
        told = [block(f"owner-{it:04}", 0, [("k", 1, weight(1))]) for it in range(at, min(at + 200, count))]
        push(node, frame(3, number(len(told), 2) + b"".join(told)))


def pushes_of(tap, value):
    """How many pushes over a tap brought the write of a weight. Each takes few bytes."""
    told = [(said, heard) for said, heard in tap.talks if number(value) in said and kinds_of(said) == [1, 3, 4]]
    for said, heard in told:
        want(f"what is said to a push at {tap.path.name}", kinds_of(heard), [1])
        if len(said) + len(heard) > MOST:
            raise Difference(f"a write took {len(said)} and {len(heard)} bytes at {tap.path.name}")
    return len(told)


# ---- the parts


def pushes(check):
    """A write is pushed over two hops in less than 300 bytes a hop, however many owners there are, and the file of metrics counts the pushes."""
    folder, path = check.folder(), None
    nodes, taps = {}, {}
    for it, peers in (("a", "b"), ("b", "ac"), ("c", "b")):
        path = folder / f"{it}.prom"
        for peer in peers:
            taps[it + peer] = Tap(folder / f"{it}-{peer}.tap", folder / f"{peer}.sock")
        nodes[it] = check.node(it, "--pause", "3000", "--metrics", str(path), folder=folder, peers=[taps[it + peer].path for peer in peers])
    for node in nodes.values():
        node.start()
    for it, node in nodes.items():
        answers(node, *(taps[it + peer].path for peer in ("ac" if it == "b" else "b")))
    for node in nodes.values():
        fill(node, 300)
    nodes["a"].put("k", 1)
    time.sleep(6.5)
    times, ways, values = [], ("ab", "bc"), range(1001, 1006)
    for value in values:
        before = {it: len(tap.talks) for it, tap in taps.items()}
        version = nodes["a"].put("k", value)
        times.append(seconds_until(nodes["c"], "a", version))
        for it in ways:
            # (a round in turn may come between, and bring it before it is pushed)
            until(f"a session from {it[0]} to {it[1]}", lambda: any(number(version) in said for said, _ in taps[it].talks[before[it] :]))
    for it in ways:
        counts = [pushes_of(taps[it], value) for value in values]
        want(f"how often each write was pushed from {it[0]} to {it[1]} ({counts})", (max(counts), sum(counts) >= 3), (1, True))
    if sorted(times)[2] > 0.5:
        raise Difference(f"a write took {times} s over two hops")
    found = awaits(folder / "a.prom", "a", {("attrdir_push_faults_total",): 0}, lambda it: it["attrdir_pushes_total",] >= 5)
    if not 5 * 50 <= found["attrdir_pushed_bytes_total",]:
        raise Difference(f"{found['attrdir_pushed_bytes_total',]} bytes were pushed")
    awaits(folder / "c.prom", "c", {("attrdir_gaps_total",): 0, ("attrdir_hastened_rounds_total",): 0})


def gaps(check):
    """A push behind writes that are missing brings the next round in turn forward, once a pause."""
    folder = check.folder()
    other = check.node("c", folder=folder).start()
    path = folder / "b.prom"
    node = check.node("b", "--pause", "6000", "--metrics", str(path), folder=folder, peers=[other.sock]).start()
    answers(node, other.sock)
    began = time.monotonic()
    push(other, *(delta("y", it - 1, [("k", it, weight(it))]) for it in range(1, 7)))
    want("what the node says to a gap", push(node, delta("y", 5, [("k", 6, weight(6))])), [(1, b"\x01c\x01b")])
    seconds = seconds_until(node, "y", 6)
    # (the next round in turn comes some five seconds later)
    if seconds > 3:
        raise Difference(f"a gap was mended after {seconds:.2f} s")
    push(other, *(delta("y", it - 1, [("k", it, weight(it))]) for it in (7, 8)))
    push(node, delta("y", 7, [("k", 8, weight(8))]))
    time.sleep(1.5)
    if time.monotonic() - began < 5:
        want("whether a second gap in the same pause was mended", holds(node, "y", 8), False)
    until("the next round in turn", lambda: holds(node, "y", 8))
    awaits(path, "b", {("attrdir_gaps_total",): 2, ("attrdir_hastened_rounds_total",): 1})


class LatePeer:
    """A peer of a release, which says its Hello and otherwise only hears: it accepts after so many seconds, and ends each session or leaves it open."""

    def __init__(self, path, seconds, greeting=hello("b"), ends=True):
        self.path, self.seconds, self.greeting, self.ends = path, seconds, greeting, ends
        # what came in each session, and the streams that were left open and those that were closed
        self.heard, self.open, self.closed = [], [], []
        self.door = socket.socket(socket.AF_UNIX, socket.SOCK_STREAM)
        self.door.bind(str(path))
        self.door.listen(8)
        threading.Thread(target=self.take, daemon=True).start()

    def take(self):
        while True:
            time.sleep(self.seconds)
            stream = self.door.accept()[0]
            threading.Thread(target=self.hear, args=(stream,), daemon=True).start()

    def hear(self, stream):
        """Answers a digest by an empty delta and a digest of nobody, and keeps all that comes."""
        stream.sendall(self.greeting)
        talk = []
        self.heard.append(talk)
        while (message := read_frame(stream)) is not None:
            talk.append(message)
            if message[0] == 2 and message[1][0] == 1:
                stream.sendall(frame(3, number(0, 2)) + frame(2, b"\x00" + 2 * b"\x00" + number(0, 2)))
            if message[0] == 4:
                break
        if self.ends:
            stream.close()
            self.closed.append(stream)
        else:
            stream.settimeout(SECONDS)
            self.open.append(stream)

    def pushed(self):
        """The deltas of its sessions that had no digest."""
        return [talk[1][1] for talk in self.heard if [it[0] for it in talk] == [1, 3, 4]]


def late_peers(check):
    """A peer that accepts late is told, and once."""
    folder = check.folder()
    peer = LatePeer(folder / "b.sock", 0.7)
    given = ("--pause", "20000", "--dial-idle", "10000", "--audit", "0", "--no-wait")
    node = check.node("a", *given, folder=folder, peers=[peer.path]).start()
    answers(node, peer.path)
    node.put("k", 5)
    until("the push", lambda: len(peer.heard) == 2 and len(peer.heard[1]) == 3)
    time.sleep(1.5)
    want("what it was pushed", peer.pushed(), [delta("a", 0, [("k", 1, weight(5))])[7:]])
    want("how often it was dialed", len(peer.heard), 2)


def streams(check):
    """Of a stream of 100 writes a second, which no burst can bring one by one, a peer is pushed each write, in some 25 pushes a second."""
    folder = check.folder()
    peer = LatePeer(folder / "b.sock", 0)
    node = check.node("a", "--pause", "60000", "--audit", "0", folder=folder, peers=[peer.path]).start()
    answers(node, peer.path)
    times = [time.monotonic()]
    for at in range(1, 201):
        node.put(f"k/{at:03}", at)
        times.append(time.monotonic())
        time.sleep(max(0, times[0] + at / 100 - times[-1]))
    until("the push of the last write", lambda: number(200) in b"".join(peer.pushed()))
    want("which writes were pushed", [it for it in range(1, 201) if f"k/{it:03}".encode() in b"".join(peer.pushed())], [*range(1, 201)])
    # (what is written 20 ms after the last write may be pushed at once)
    late = sum(15e-3 < here - before for before, here in zip(times, times[1:]))
    most = 30 * (times[-1] - times[0]) + 2 + late
    if len(peer.pushed()) > most:
        raise Difference(f"there were {len(peer.pushed())} pushes, which is more than {most:.0f}")


def long_news(check):
    """News of more than 1,024 bytes is pushed if it is no longer than the node's own digests. If it is longer, a round brings it."""
    # (a digest has 35 bytes for each of these owners, and the news has some 1,600)
    for owners, wanted in ((100, [1, 3, 4]), (0, [1, 2, 3, 4])):
        folder = check.folder()
        peer = LatePeer(folder / "b.sock", 0)
        node = check.node("a", "--pause", "60000", "--audit", "0", "--no-wait", folder=folder, peers=[peer.path]).start()
        answers(node, peer.path)
        fill(node, owners)
        if owners:
            until("the news of all owners", lambda: kinds_with(peer, b"owner-0099"))
        push(node, delta("y", 0, [(f"k{at}", at, long_text(500 * "x")) for at in (1, 2, 3)]))
        until("the long news", lambda: kinds_with(peer, b"\x02k3" + number(3)))
        want(f"the session that brings it beside {owners} owners", kinds_with(peer, b"\x02k3" + number(3)), [wanted])
        node.kill()


def kinds_with(peer, content):
    """The kinds of the messages of each session that has ended and had this in a delta."""
    talks = [list(talk) for talk in list(peer.heard)]
    return [[it[0] for it in talk] for talk in talks if talk[-1:] == [(4, b"\x01")] and any(kind == 3 and content in body for kind, body in talk)]


def endless_peers(check):
    """A peer that takes a push and never ends it is told again, all at once; behind two such sessions it is dialed in its turns alone."""
    folder, path = check.folder(), None
    peer = LatePeer(folder / "b.sock", 0)
    path = folder / "a.prom"
    given = ("--pause", "6000", "--dial-idle", "1000", "--audit", "0", "--no-wait", "--metrics", str(path))
    node = check.node("a", *given, folder=folder, peers=[peer.path]).start()
    answers(node, peer.path)
    until("the end of the first round", lambda: peer.closed)
    peer.ends = False
    for at in (1, 2):
        node.put("k", at)
        until("a session that is left open", lambda: len(peer.open) == at)
        want("the end of that session by the node", peer.open[-1].recv(1), b"")
    node.put("k", 3)
    time.sleep(0.6)
    entries = [[("k", at, weight(at))] for at in (1, 2)]
    want("what it was pushed", peer.pushed(), [delta("a", 0, it)[7:] for it in entries])
    peer.ends = True
    until("the next round in turn", lambda: [it[0] for it in peer.heard[-1]] == [1, 2, 3, 4])
    awaits(path, "a", {("attrdir_pushes_total",): 2, ("attrdir_push_faults_total",): 2, ("attrdir_pushed_bytes_total",): 0})
    node.put("k", 4)
    until("a push after it", lambda: len(peer.pushed()) == 3)
    want("what it is pushed then", peer.pushed()[2], delta("a", 3, [("k", 4, weight(4))])[7:])


def pushes_beside_releases(check):
    """Nodes of an earlier release are told by pushes, and are heard where they dial: its frames go both ways beside a push."""
    for release in (it for it in sorted(RELEASES.iterdir()) if (it / "frames").is_file()):
        folder = check.folder()
        conversation = turns(release, "peer")
        # (the Hello of its node b, by which a session begins)
        peer = LatePeer(folder / "b.sock", 0, greeting=conversation[0][1])
        node = check.node("a", "--pause", "60000", "--no-wait", folder=folder, peers=[peer.path]).start()
        answers(node, peer.path)
        node.put("k", 5)
        until("a push", lambda: len(peer.pushed()) == 1)
        want("what the release is pushed", peer.pushed(), [delta("a", 0, [("k", 1, weight(5))])[7:]])
        # (what its b tells of itself, whose last version is of a removed key; a round brings what it tells of d, of which the log was purged)
        with connect(node.sock) as stream:
            for is_sent, content in conversation:
                if is_sent and content[9:11] != b"\x01d":
                    stream.sendall(content)
            while read_frame(stream) is not None:
                pass
        until("what the release told", lambda: holds(node, "b", 4))
        until("the news of it", lambda: len(peer.pushed()) == 2)
        want("how the news of it begins", peer.pushed()[1][:4], number(1, 2) + b"\x01b")


PARTS = (pushes, gaps, late_peers, streams, long_news, endless_peers, pushes_beside_releases)
