"""The storm of tools/storm: its nodes, who writes and reads at them, and who disturbs them; what is judged at its end."""
import contextlib
import os
import random
import shutil
import socket
import statistics
import subprocess
import threading
import time
import traceback

from histories import AFTER, BEAT, LEFT, LEFT_ROWS, WRITERS, History, Sight, left_key, once_numbers, row_of
from nodes import SECONDS, Difference, Nodes, run
from program import is_unproved
from slow_proxy import SlowProxy
from storm_callers import HttpReader, Reader, Writer, WriterOnce
from storm_disturbers import ASK, PUT, SESSION, STRAY, Cutter, Filler, Greedy, Hostile, Killer, Silent, Slow
from storm_http import DELETE, GET, OWNERS, Poller
from storm_names import Restorer, TwinMaker
from storm_posts import PACE, Post
from storm_samples import Sampler
from storm_watches import Watcher
from tally import Tally

NAMES = ("a", "b", "c", "e", "f")
# each with pages and orders of its own
OPTIONS = {
    "a": ("--dial-idle", "20000"),
    "b": ("--budget", "4096"),
    "c": ("--budget", "1024", "--order", "depth"),
    "e": ("--budget", "2048"),
    "f": ("--budget", "8192", "--order", "depth"),
}
# the node that answers over HTTP at a port; all others do at a socket
AT_PORT = "e"
BEAT_SECONDS = "5"
# so many idle connections at each socket of the node that is never started again
CROWD = 200
# how long the link to the slow peer takes each way, in seconds, and the options of that peer
LINK_SECONDS = 0.5
BEHIND_LINK = ("--idle", "20000")
# what a row may take in memory, and what may first be kept for reuse in the last part: for each of the five peers that a pushes to the buffer of a
# longest frame, 64 KiB, and as much for pages of the allocator of which only a piece is used
ROW_BYTES, REUSED_BYTES = 1024, 6 * 64 * 1024

# what the C library is told at the node whose memory is judged. Else it keeps freed pieces for each thread, up to 240 kB of small ones and twice
# the longest buffer, so that the process grows for an hour
GIVES_BACK = {"GLIBC_TUNABLES": "glibc.malloc.tcache_count=0:glibc.malloc.trim_threshold=131072:glibc.malloc.mmap_threshold=131072"}

# among these no system takes a port for a connection by itself, as it could while the node of the port is down
PORTS = range(20000, 30000)


def free_port(chance):
    """A port of this machine at which nobody listens."""
    while True:
        port = chance.choice(PORTS)
        with contextlib.suppress(OSError), socket.socket() as it:
            it.bind(("127.0.0.1", port))
            return port


class Pace:
    """Lets a thread make so many steps a second at most; as many as it can where that is 0."""

    def __init__(self, most):
        self.gap, self.due = 1 / most if most else 0, 0

    def wait(self):
        now = time.monotonic()
        if self.due > now:
            time.sleep(self.due - now)
        self.due = max(now, self.due) + self.gap


class Storm(Nodes):
    """The nodes, who writes and reads at them, and who disturbs them."""

    def __init__(self, program, room, disk, given):
        super().__init__(program, room)
        self.given = given
        self.chance, self.tally, self.is_over, self.threads = random.Random(given.seed), Tally(), threading.Event(), []
        self.histories = {name: History(given.seed, name) for name in NAMES}
        self.place = self.folder()
        self.ways = {(one, other): self.place / f"{one}-to-{other}.sock" for one in NAMES for other in NAMES if one != other}
        for (_, other), way in self.ways.items():
            way.symlink_to(self.place / f"{other}.sock")
        peers = {name: [way for (one, _), way in self.ways.items() if one == name] for name in NAMES}
        self.far = Post(self.node("d", *BEHIND_LINK, folder=self.place), self.another(), self.tally)
        self.link = SlowProxy(self.place / "link.sock", self.far.node.sock, LINK_SECONDS)
        peers["a"].append(self.link.path)
        self.posts = [self.post(name, peers[name]) for name in NAMES]
        self.steady, self.small, lost, _, self.named = self.posts
        lost.lost = [it for it in self.posts if it is not lost], self.histories[lost.name]
        self.steady.node.how["env"] = {**os.environ, **GIVES_BACK}
        for post in self.posts[1:]:
            post.may_forget = True
        self.disk = disk
        self.disk.place(self.small)
        self.watchers = [Watcher(it, self.histories) for it in self.posts]

    def post(self, name, peers):
        http = free_port(self.another()) if name == AT_PORT else self.place / f"{name}.http"
        address = f"127.0.0.1:{http}" if name == AT_PORT else str(http)
        node = self.node(name, *self.options(name), "--http", address, folder=self.place, peers=peers)
        return Post(node, self.another(), self.tally, http)

    def options(self, name):
        given = self.given
        purging = ("--purge-removals", str(given.purge_removals)) if given.purge_removals else ()
        auditing = ("--audit", str(given.audit)) if given.audit else ()
        return (*PACE, *OPTIONS[name], *purging, *auditing, "--beat", BEAT_SECONDS)

    def another(self):
        """Chances for one thread alone."""
        return random.Random(self.chance.getrandbits(64))

    def workers(self):
        """All that go on at once, made once."""
        workers = []
        for at, post in enumerate(self.posts):
            history = self.histories[post.name]
            workers += [Writer(post, history, at) for at in range(WRITERS)]
            workers += [WriterOnce(post, history)] if self.given.purge_removals else []
            crowd = (CROWD, CROWD) if post is self.steady else ()
            workers += [Reader(post, self.histories), Silent(post, self.another(), *crowd), Slow(post, self.another())]
            workers.append(Hostile(post, post.node.sock, self.another(), (SESSION, PUT, STRAY)))
            workers.append(Hostile(post, post.node.control, self.another(), (PUT, ASK, SESSION, STRAY)))
            workers += [HttpReader(post, self.histories), Poller(post, NAMES[at - 1], self.histories)]
            if post.takes_http_writes:
                workers.append(Hostile(post, post.http, self.another(), (GET, OWNERS, DELETE)))
        workers += [Killer(self.posts[1:], self.another()), Filler(self.small, self.another(), self.disk)]
        workers.append(Cutter(self.ways, NAMES, self.another(), self.tally))
        workers.append(Greedy(self.steady, self.another(), self.least_descriptors()))
        return [*workers, *self.watchers, *self.workers_of_names(), *self.samplers()]

    def workers_of_names(self):
        """Those who take the log of a node away, and who run its twin."""
        restorer = Restorer(self.named, self.steady, self.histories[self.named.name], self.another())
        folder = self.folder()
        node = self.node(self.named.name, *self.options(self.named.name), folder=folder, peers=self.named.node.peers)
        twin = Post(node, self.another(), self.tally)
        return [restorer, *([TwinMaker(self.named, twin, restorer, self.another(), self.given.audit)] if self.given.audit else [])]

    def samplers(self):
        return [Sampler(self.steady, self.given.samples)] if self.given.samples else []

    def least_descriptors(self):
        """Those of the node that is never started again, without connections: the fewest of some time. (A session with the slow
        peer takes some two seconds.)"""
        return min((time.sleep(0.01), self.steady.descriptors())[1] for _ in range(800))

    def go_on(self, worker):
        """One thread: step after step, until all are to stop."""
        pace = Pace(self.given.rate * worker.share)
        while not self.is_over.is_set():
            try:
                worker.step()
            except (Difference, OSError, subprocess.TimeoutExpired, ValueError):
                self.tally.tell(f"{type(worker).__name__}: {traceback.format_exc(limit=-2)}")
                time.sleep(0.5)
            pace.wait()

    def blow(self, workers, seconds):
        """The storm for so long. The nodes have to run as it ends."""
        self.is_over.clear()
        self.threads = [threading.Thread(target=self.go_on, args=(it,), daemon=True) for it in workers]
        for it in self.threads:
            it.start()
        self.is_over.wait(seconds)
        self.is_over.set()
        for it, worker in zip(self.threads, workers):
            it.join(3 * SECONDS)
            if it.is_alive():
                raise Difference(f"{type(worker).__name__} does not come to its end")
        for it in (self.far, *self.posts):
            if not it.is_up():
                raise Difference(f"{it.name} ended by itself: {it.node.ended()}")

    # ---- what has to be so once the storm is over

    def rows(self, post):
        """What a node has of the owners, beside their beats; hostile peers make it no more, but not the same at each."""
        return [it for it in map(row_of, post.node.get()) if it.owner in self.histories and it.key != BEAT]

    def losses(self, post):
        """What is wrong with the rows of a node that has heard of all."""
        sight = Sight(self.histories, NAMES)
        for name, history in self.histories.items():
            sight.holds(name, history.last)
        rows = self.rows(post)
        of_once = (f"{name} {it}" for name, history in self.histories.items() for it in history.once.losses(once_numbers(rows, name)))
        return [*sight.look(rows), *of_once]

    def settle(self):
        """Waits until all nodes have the same rows, and all that was acknowledged; tells what is missing after some time."""
        end = time.monotonic() + SECONDS
        while True:
            tables, losses = [self.rows(it) for it in self.posts], [self.losses(it) for it in self.posts]
            agree = all(it == tables[0] for it in tables)
            if agree and not any(losses):
                self.settle_far(tables[0])
                return
            if time.monotonic() > end:
                break
            time.sleep(0.05)
        for post, lost in zip(self.posts, losses):
            self.tally.count("lost", len(lost))
            for it in lost:
                self.tally.tell(f"{post.name} after the storm: {it}")
        if not agree:
            apart = {it for rows in tables for it in rows if not all(it in other for other in tables)}
            self.tally.tell(f"the nodes do not agree: {sorted(apart)}")

    def settle_far(self, rows):
        """Waits until the slow peer has these rows too."""
        end = time.monotonic() + 2 * SECONDS
        while (found := self.rows(self.far)) != rows:
            if time.monotonic() > end:
                self.tally.tell(f"the slow peer does not agree: {sorted(set(found) ^ set(rows))[:10]}")
                return
            time.sleep(0.05)
        self.tally.count("times-the-slow-peer-agreed")

    def last_write(self):
        """A write at each node comes to all of them, after everything, and so does a beat. Then the watches show what their nodes do."""
        for post in self.posts:
            post.node.put(AFTER, 1)
        for post in self.posts:
            post.node.awaits("the last writes", lambda rows: sum(f" {AFTER} " in it for it in rows) == len(self.posts))
            post.node.awaits("the beats", lambda rows: sum(f" {BEAT} " in it for it in rows) == len(self.posts))
        for watcher in self.watchers:
            watcher.agrees(lambda: self.rows(watcher.post))

    def want_logs(self):
        """Ends the nodes, and compares their logs with what they gave, beside the beats."""
        for post in self.posts:
            rows = [it for it in post.node.get("--owner", post.name) if f" {BEAT} " not in it]
            post.kill()
            words = ["log", "--log", str(post.node.log), "--name", post.name, "--cluster", "c"]
            status, printed, said = run(self.program, *words)
            found = [it for it in printed.split("\n")[:-1] if not it.endswith(" removed -") and f" {BEAT} " not in it]
            if (status, said, found[:-1]) != (0, "", rows):
                self.tally.tell(f"the log of {post.name} is not what it gave: {status} {said} {set(found) ^ set(rows)}")
            if shutil.which("sqlite3"):
                tested = subprocess.run(["sqlite3", "-batch", post.node.log, "PRAGMA integrity_check"], capture_output=True, text=True)
                if tested.stdout != "ok\n":
                    self.tally.tell(f"sqlite3 says of the log of {post.name}: {tested.stdout}{tested.stderr}")

    def measured(self):
        """Of the node that is never started again: its descriptors, its memory and how many rows it has. Meanwhile nobody watches it."""
        self.watchers[0].stop()
        found = self.least_descriptors(), self.steady.node.resident(), len(self.steady.node.get())
        self.watchers[0].start()
        return found

    def compare(self, sizes):
        """What was measured after the warm-up and after each of the three parts."""
        for name, found in zip(("descriptors", "resident-bytes", "rows"), zip(*sizes)):
            for when, value in zip(("the-warm-up", "the-first-part", "the-second-part", "the-third-part"), found):
                print(f"{name}-after-{when} {value}")
        (first_open, _, _), _, (_, _, rows_before), (last_open, _, rows) = sizes
        if last_open > first_open:
            self.tally.tell(f"{last_open - first_open} more descriptors are open")
        _, second, third = (then[1] - before[1] for before, then in zip(sizes, sizes[1:]))
        allowed = max(0, second) + max(0, rows - rows_before) * ROW_BYTES + REUSED_BYTES
        if third > allowed and not is_unproved(self.program):
            self.tally.tell(f"the memory grew by {second} bytes in the second part and by {third} in the third, and not by at most {allowed}")

    # ---- the whole of it

    def one_leaves(self):
        """A node writes some rows, and ends for good once all others have them."""
        node = self.node(LEFT, folder=self.place, peers=[self.steady.node.sock]).start()
        for version in range(1, LEFT_ROWS + 1):
            node.put(left_key(version), version)
        for it in (self.far, *self.posts):
            it.node.awaits(f"the rows of {LEFT}", lambda rows: sum(it.startswith(f"{LEFT} ") for it in rows) == LEFT_ROWS)
        node.kill()

    def play(self):
        seconds = self.given.seconds
        for it in (self.far, *self.posts):
            it.node.start()
        self.one_leaves()
        workers = self.workers()
        self.blow(workers, max(10, min(20, seconds / 5)))
        self.settle()
        sizes = [self.measured()]
        for _ in range(3):
            self.blow(workers, seconds / 3)
            self.settle()
            sizes.append(self.measured())
        self.last_write()
        self.want_logs()
        self.far.look_back()
        self.report(sizes)

    def report(self, sizes):
        counts = self.tally.counts
        print(f"writes-acknowledged {sum(it.count for it in self.histories.values())}")
        self.print_counts("lost", "writes-without-answer", "writes-over-http", "reads-checked", "reads-checked-over-http", "rows-checked")
        self.print_counts("kills", "restarts", "purges", "lost-logs", "cuts", "hostile-exchanges", "came-back", "false-alarms")
        happened = ["times-without-room", "writes-refused-for-room", "times-without-descriptors", "idle-connections", "times-the-slow-peer-agreed"]
        self.print_counts("late-callers", "starts-refused-for-room", "writes-refused-as-closed", *happened)
        more = ["slow-callers-answered", "polls-that-waited", "polls-at-once", "lines-of-watches", "watches-that-agreed", "beats-read", "runs-that-forget", "restores", "rows-restored"]
        more += ["twins", "twins-told", "twins-told-by-audits", "twins-healed"] if self.given.audit else []
        more += ["keys-used-once", "keys-used-once-removed", "purges-while-running"] if self.given.purge_removals else []
        self.print_counts("restores-put-off", "restores-given-again", "writes-beside-twins", *more)
        for what, times in sorted(self.tally.times.items()):
            if len(times) > 1:
                for name, of_hundred in (("median", 50), ("95th", 95)):
                    print(f"{what}-{name} {1000 * statistics.quantiles(times, n=100)[of_hundred - 1]:.0f} ms")
        print(f"room was taken by {type(self.disk).__name__}")
        self.compare(sizes)
        # a storm in which one of them never came about shows nothing of it
        for name in ("reads-checked", "kills", "purges", "cuts", "hostile-exchanges", *happened, *more):
            if not counts[name]:
                self.tally.tell(f"{name} is 0")

    def print_counts(self, *names):
        for name in names:
            print(f"{name} {self.tally.counts[name]}")

    def end(self):
        """Ends all threads, and kills each node, also one that a thread has just started."""
        self.is_over.set()
        end = time.monotonic() + 5
        for it in self.threads:
            it.join(max(0, end - time.monotonic()))
        for it in self.watchers:
            it.stop()
        self.stop()
