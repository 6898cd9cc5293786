"""Those of tools/storm who disturb the nodes: hostile and silent callers, kills, cut ways, full disks, and no file descriptors."""
import contextlib
import os
import resource
import socket
import time

from histories import DISTURBED, HOSTILE
from nodes import BYE, SECONDS, Difference, ask, bytes_by, connect, delta, digest, frame, hello, number, put, read_exactly, throw, weight
from storm_http import connect_to
from storm_posts import WORKERS, is_late

STORE_FAILED = 18
# after so many seconds a node has ended a silent connection
ENDED_WITHIN = 10


def disturbed(chance, good):
    """Bytes that come of a good exchange, or of nothing."""
    at = chance.randrange(len(good))
    return chance.choice((
        lambda: good[:at] + bytes([good[at] ^ chance.randrange(1, 256)]) + good[at + 1 :],
        lambda: good[:at],
        lambda: good[:at] + bytes_by(chance, chance.randrange(1, 100)) + good[at:],
        lambda: bytes_by(chance, chance.randrange(1, 200)),
        lambda: b"\xa7\x03\x00\x00\xff\xfa" + bytes(70000),
        lambda: bytes_by(chance, 1 << 18),
    ))()


SESSION = hello(HOSTILE) + digest(1, [(HOSTILE, 0)]) + delta(HOSTILE, 0, [("k", 1, weight(5)), ("l", 2, b"\x00")]) + BYE
PUT, ASK = put(DISTURBED, weight(5)), ask("", "k/")
# what neither socket takes of anyone
STRAY = frame(0x13, number(1))


def leave(path, content):
    """Sends these bytes, and is gone. Whether somebody was there."""
    is_there = False
    with contextlib.suppress(OSError), connect_to(path) as stream:
        is_there = True
        stream.sendall(content)
    return is_there


class Hostile:
    """Sends to one of a node's sockets what is no good exchange, or leaves in the midst of a good one."""

    share = 1

    def __init__(self, post, path, chance, goods):
        self.post, self.path, self.chance, self.goods = post, path, chance, goods

    def step(self):
        content = disturbed(self.chance, self.chance.choice(self.goods))
        if (throw if self.chance.randrange(4) else leave)(self.path, content):
            self.post.tally.count("hostile-exchanges")
        time.sleep(self.chance.uniform(0, 0.02))


class Silent:
    """More peers than there are workers, and callers, that say nothing or less than a frame. The node has to end them."""

    share = 0

    def __init__(self, post, chance, peers=2 * WORKERS + 1, callers=2, over_http=3):
        self.post, self.chance, self.peers, self.callers, self.over_http = post, chance, peers, callers, over_http

    def step(self):
        mark = self.post.mark()
        with contextlib.ExitStack() as held:
            places = ((self.post.node.sock, self.peers), (self.post.node.control, self.callers), (self.post.http, self.over_http))
            streams = [(place, it) for place, count in places for it in hold(held, place, count)]
            for _, stream in streams[::2]:
                with contextlib.suppress(OSError):
                    stream.sendall(SESSION[: self.chance.randrange(1, 10)])
            for at, (place, stream) in enumerate(streams):
                self.want_end(mark, stream, f"silent connection at {place}, which sent {'nothing' if at % 2 else 'something'},")
            self.post.tally.count("idle-connections", len(streams))
        time.sleep(self.chance.uniform(2, 6))

    def want_end(self, mark, stream, what):
        """Waits until the node ends a connection."""
        stream.settimeout(ENDED_WITHIN)
        try:
            while stream.recv(65536):
                pass
        except socket.timeout:
            if self.post.was_calm(mark):
                self.post.tally.tell(f"{self.post.name} let a {what} stand for {ENDED_WITHIN} s")
        except OSError:
            pass


class Slow:
    """A caller that sends its request byte by byte, and reads the answer in pieces. It is answered, as long as it keeps within the times of the node."""

    share = 0

    def __init__(self, post, chance):
        self.post, self.chance = post, chance

    def step(self):
        mark, gap = self.post.mark(), self.chance.uniform(0, 0.05)
        began = time.monotonic()
        slowest = 0
        try:
            with connect(self.post.node.control) as stream:
                for byte in ASK:
                    last = time.monotonic()
                    stream.sendall(bytes([byte]))
                    time.sleep(gap)
                    slowest = max(slowest, time.monotonic() - last)
                head = read_exactly(stream, 6)
                left = int.from_bytes(head[2:], "big") if head else 1
                while left and (piece := stream.recv(min(left, 4096))):
                    left -= len(piece)
                    time.sleep(gap / 4)
        except OSError:
            left = 1
        if not left:
            self.post.tally.count("slow-callers-answered")
        elif not is_late(0, slowest) and time.monotonic() - began < 1.5 and self.post.was_calm(mark):
            self.post.tally.tell(f"{self.post.name} did not answer a slow caller, after {time.monotonic() - began:.2f} s")
        time.sleep(self.chance.uniform(0.5, 2))


def hold(held, path, count):
    """So many connections to a socket, as far as they come about, until the stack ends."""
    streams = []
    for _ in range(count):
        with contextlib.suppress(OSError):
            streams.append(held.enter_context(connect_to(path)))
    return streams


class Killer:
    """Kills one of the nodes at a random moment, and starts it again."""

    share = 0

    def __init__(self, posts, chance):
        self.posts, self.chance = posts, chance

    def step(self):
        time.sleep(self.chance.uniform(0.2, 3))
        post = self.chance.choice(self.posts)
        with post.trouble():
            post.restart()
        post.tally.count("kills")


class Cutter:
    """Cuts ways between nodes for a while. Each is a link to the socket of the node that is dialed, by (who dials, who is dialed)."""

    share = 0

    def __init__(self, ways, names, chance, tally):
        self.ways, self.names, self.chance, self.tally = ways, names, chance, tally

    def step(self):
        time.sleep(self.chance.uniform(0.5, 4))
        cut = self.some()
        targets = {way: os.readlink(way) for way in cut}
        for way in cut:
            way.unlink()
        try:
            time.sleep(self.chance.uniform(0.1, 3))
        finally:
            for way, target in targets.items():
                way.symlink_to(target)
        self.tally.count("cuts")

    def some(self):
        """One way; or all that lead to a node; or all that lead to it or from it."""
        name = self.chance.choice(self.names)
        kinds = (
            [self.chance.choice(list(self.ways))],
            [it for it in self.ways if it[1] == name],
            [it for it in self.ways if name in it],
        )
        return [self.ways[it] for it in self.chance.choice(kinds)]


class Greedy:
    """Leaves a node with no file descriptor for a while, with many connections held open."""

    share = 0

    def __init__(self, post, chance, least):
        self.post, self.chance, self.least = post, chance, least

    def step(self):
        time.sleep(self.chance.uniform(3, 9))
        limit = self.least + self.chance.randrange(4)
        with self.post.trouble(), contextlib.ExitStack() as held:
            hold(held, self.post.node.sock, 20)
            hold(held, self.post.node.control, 20)
            before = self.post.limit(resource.RLIMIT_NOFILE, limit)
            try:
                end, most = time.monotonic() + self.chance.uniform(1, 3), 0
                while time.monotonic() < end:
                    most = max(most, self.post.descriptors())
                    time.sleep(0.01)
            finally:
                self.post.limit(resource.RLIMIT_NOFILE, before)
            if most >= limit:
                self.post.tally.count("times-without-descriptors")
        # it has to answer from here on
        self.post.node.get("--prefix", "none")


class Filler:
    """Leaves a node's log no room for a while, until it takes no more writes; then gives it room, and starts the node again."""

    share = 0

    def __init__(self, post, chance, disk):
        self.post, self.chance, self.disk = post, chance, disk

    def step(self):
        time.sleep(self.chance.uniform(3, 9))
        with self.post.trouble():
            try:
                self.disk.fill(self.post)
                self.when_full()
            finally:
                self.disk.free(self.post)
                if self.post.is_up():
                    self.post.kill()
                self.post.start()

    def when_full(self):
        if not self.closes_within(2):
            # a log that has room of its own left finds none where it starts anew
            self.post.kill()
            self.disk.free(self.post)
            self.disk.shrink(self.post)
            if not self.starts(self.chance.randrange(2)) or not self.closes_within(2):
                return
        # it goes on answering readers
        self.post.node.get("--owner", self.post.name)
        self.post.tally.count("times-without-room")

    def starts(self, on_full_disk):
        """Whether it starts, on a disk that is full or gets full. A refusal has to be for that."""
        if on_full_disk:
            self.disk.fill(self.post)
        try:
            self.post.start()
        except Difference as it:
            self.refused(str(it))
            return False
        self.disk.fill(self.post)
        return True

    def closes_within(self, seconds):
        end = time.monotonic() + seconds
        while time.monotonic() < end and self.post.closed_in != self.post.run:
            time.sleep(0.02)
        return self.post.closed_in == self.post.run

    def refused(self, why):
        status = self.post.node.ran.wait(SECONDS)
        if status != 3 or f"fault {STORE_FAILED}" not in why:
            self.post.tally.tell(f"{self.post.name} did not start on a full disk, with status {status}: {why}")
        self.post.tally.count("starts-refused-for-room")
