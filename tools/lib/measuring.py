"""What the parts of tools/measure-node share: how figures are said, turns that another process takes beside them, and a node that has many entries of
others."""
import contextlib
import multiprocessing
import statistics
import time

from nodes import BYE, SECONDS, Difference
from nodes import ask, connect, delta, hello, page, read_frame, run, want, weight

# how many writes have pauses of the usual length: if there are fewer, each pause is longer
ASKED_NEWS = 200
# how many entries an owner has, how many of them a frame, and how many rows the page
EACH, IN_FRAME, IN_PAGE = 4000, 2000, 16
# how long it may take until what goes on beside is there
FIRST_TURN_SECONDS = 600


def say(name, value, unit, limit=None, least=None):
    mark = "" if limit is None or value <= limit else f": above the limit of {limit} {unit}"
    mark += "" if least is None or value >= least else f": below the least of {least} {unit}"
    print(f"{name} {value:.4g} {unit}{mark}" if value < 1000 else f"{name} {value:.0f} {unit}{mark}", flush=True)


def seconds_of(action):
    began = time.perf_counter()
    action()
    return time.perf_counter() - began


def middle_and_95th(times):
    return statistics.median(times), statistics.quantiles(times, n=20)[-1]


def spaced(count):
    """So many numbers, with a pause after each. All pauses together are as long for each count."""
    for at in range(count):
        yield at
        # (so that writes fall anywhere between two rounds)
        time.sleep((0.02 + at % 17 / 200) * ASKED_NEWS / count)


def say_times(name, limits, times, last):
    late = middle_and_95th(times)[1] if last == "95th" else sorted(times)[len(times) * 99 // 100]
    for what, found, limit in zip(("median", last), (statistics.median(times), late), limits):
        say(f"{name}-{what}", found * 1e3, "ms", limit)


# ---- what goes on beside


class Beside:
    """Turns that another process takes meanwhile, so that they take no time of this one. `with` goes on after the first turn."""

    def __init__(self, turns):
        fork = multiprocessing.get_context("fork")
        self.line, line = fork.Pipe()
        self.process = fork.Process(target=self.take, args=(turns, line), daemon=True)
        self.process.start()
        line.close()

    def take(self, turns, line):
        """In the other process: sends what the first turn gave, and once it is asked, what the last one gave."""
        # (so that it hears of the end of the first process)
        self.line.close()
        try:
            line.send(next(turns))
            found = next(turns)
            while not line.poll():
                found = next(turns)
        except (Difference, OSError) as it:
            found = Difference(f"beside it: {it}")
        # (nobody is there to hear it if the first process was killed)
        with contextlib.suppress(OSError):
            line.send(found)

    def heard(self, seconds):
        try:
            found = self.line.recv() if self.line.poll(seconds) else Difference(f"what goes on beside it said nothing for {seconds} s")
        except EOFError:
            found = Difference("what goes on beside it has ended")
        if isinstance(found, Difference):
            raise found
        return found

    def last(self):
        """What its last turn gave."""
        with contextlib.suppress(OSError):
            self.line.send(None)
        return self.heard(SECONDS)

    def __enter__(self):
        try:
            self.heard(FIRST_TURN_SECONDS)
        except BaseException:
            self.__exit__()
            raise
        return self

    def __exit__(self, *_):
        self.process.kill()
        self.process.join()
        self.line.close()


# ---- a million entries of others


class Others:
    """Entries of made-up owners, 4,000 each. One owner in the middle has 16 of its keys under `page/`, the other keys begin with `k/`."""

    def __init__(self, count):
        self.count = count
        self.owners = [f"o{at:04}" for at in range((count + EACH - 1) // EACH)]
        self.paged = self.owners[(len(self.owners) - 1) // 2]

    def entries(self, owner):
        """Key, version and value of each, in ascending version."""
        before = self.owners.index(owner) * EACH
        here = min(EACH, self.count - before)
        return [(self.key(owner, version), version, weight(before + version)) for version in range(1, here + 1)]

    def key(self, owner, version):
        return f"page/{version:02}" if owner == self.paged and version <= IN_PAGE else f"k/{version:04}"

    def frames(self):
        """Deltas that have all of it."""
        for owner in self.owners:
            entries = self.entries(owner)
            for at in range(0, len(entries), IN_FRAME):
                yield delta(owner, at, entries[at : at + IN_FRAME])

    def lines(self):
        """What `get` prints of them."""
        rows = ((owner, *entry) for owner in self.owners for entry in sorted(self.entries(owner)))
        return "".join(f"{owner} {key} {version} weight {int.from_bytes(slot[1:], 'big')}\n" for owner, key, version, slot in rows)

    def page_of(self, owner, prefix):
        return page([(owner, *entry) for entry in sorted(self.entries(owner)) if entry[0].startswith(prefix)])

    def want_all(self, node):
        """It has each of them, and no other row."""
        status, printed, said = run(node.program, "get", "--control", str(node.control), seconds=600)
        want(f"get at {node.name}", (status, said), (0, ""))
        if printed != self.lines():
            raise Difference(f"node {node.name} has {printed.count(chr(10))} rows, and not just the {self.count} that it was given")

    def lasts(self):
        """Questions for the last write of each owner, with their answers."""
        ends = ((owner, self.entries(owner)[-1]) for owner in self.owners)
        return [(ask(owner, entry[0]), page([(owner, *entry)])) for owner, entry in ends]


def hand_in(node, frames):
    """Sends these deltas to a node, in one session. The node has taken them all when it ends its side."""
    with connect(node.sock) as stream:
        stream.sendall(hello("peer"))
        for it in frames:
            stream.sendall(it)
        stream.sendall(BYE)
        want("the node's Hello", read_frame(stream), (1, hello(node.name)[7:]))
        want("what follows it", read_frame(stream), None)


class Full:
    """The node that has them all, made once for all parts that give it no options."""

    def __init__(self, count, *options):
        self.others, self.options, self.node = Others(count), options, None

    def start(self, nodes):
        if self.node is None:
            frames = list(self.others.frames())
            node = nodes.node("a", *self.options).start()
            took = seconds_of(lambda: hand_in(node, frames))
            self.others.want_all(node)
            self.node = node
            if not self.options:
                say("intake", self.others.count / took, "entries a second")
        return self.node
