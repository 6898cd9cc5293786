"""The parts of tools/check-node that look at a node to which somebody writes all the time: everything else that it does still comes in its time."""
import contextlib
import socket
import threading
import time

from check_metrics import awaits
from nodes import SECONDS, Difference, exchange, put, until, version_of, want, weight
from slow_proxy import SlowProxy

# in seconds, from one write to the next
BETWEEN = 0.005


@contextlib.contextmanager
def steady_writes(node):
    """Writes one value after another as long as the block lasts, and gives the list of the versions. A write that is not answered is the last."""
    versions, over = [], threading.Event()

    def write():
        while not over.wait(BETWEEN):
            try:
                versions.append(version_of(exchange(node.control, put(f"k{len(versions) % 20}", weight(len(versions))))))
            except (OSError, Difference):
                return

    writer = threading.Thread(target=write)
    writer.start()
    try:
        yield versions
    finally:
        over.set()
        writer.join()


# one thread makes all rounds and brings all news
ALONE = ("--workers", "2", "--seats", "4")
# in seconds each way, so that news has come again by the end of each push, also on a slow machine
SLOW = 0.15
# how many times another peer may be dialed, at most, until it is the turn of one that listens again. It is some ten times: two rounds, two audits, and
# news in two pauses. A slow machine has time for more news.
DIALS = 100


def steady_news(check):
    """News is pushed to one peer all the time. A peer that was down is dialed again in its turn, rounds, audits and metrics go on, and so does the look
    at the file of the log. That is so too if one thread makes all of it, also if there is always news by the time it has pushed some."""
    look_under_steady_news(check, 0, 5)
    check.stop()
    look_under_steady_news(check, 0, 5, *ALONE)
    check.stop()
    look_under_steady_news(check, SLOW, 2, *ALONE)


def look_under_steady_news(check, seconds, count, *options):
    folder = check.folder()
    path = folder / "a.prom"
    link = SlowProxy(folder / "link.sock", check.node("b", "--pause", "100", folder=folder).start().sock, seconds)
    late = check.node("d", "--pause", "100", folder=folder)
    given = ("--pause", "100", "--audit", "100", "--metrics", str(path))
    node = check.node("a", *given, *options, folder=folder, peers=[link.path, late.sock]).start()
    with steady_writes(node) as versions:
        until("a peer that does not answer", lambda: any(f"peer {late.sock}: does not answer" in it for it in node.lines()))
        written, dialed = len(versions), link.count
        until("the news for the other peer", lambda: link.count > dialed + count)
        is_dialed(late.sock, link)
        first = awaits(path, "a", {("attrdir_peer_up", str(late.sock)): 0})
        late.start()
        late.awaits("rows of a", lambda rows: rows != [])
        wanted = {name: first[name,] + count for name in ("attrdir_rounds_total", "attrdir_audits_total", "attrdir_pushes_total")}
        awaits(path, "a", {("attrdir_peer_up", str(late.sock)): 1}, lambda found: all(found[name,] > least for name, least in wanted.items()))
        want("whether writes go on", len(versions) > written, True)
        node.log.rename(node.log.with_name("moved.log"))
        until("the line of a log that was removed", lambda: any("fault 18: its file was removed" in it for it in node.lines()))
    want("versions", versions, list(range(1, len(versions) + 1)))
    link.end()


def is_dialed(path, link):
    """Somebody listens at a path where nobody did, and is dialed before the peer behind the link is dialed too many times."""
    before = link.count
    with socket.socket(socket.AF_UNIX, socket.SOCK_STREAM) as door:
        door.settimeout(SECONDS)
        door.bind(str(path))
        door.listen(8)
        try:
            door.accept()[0].close()
        except socket.timeout:
            raise Difference(f"a peer that listens again was not dialed for {SECONDS} s, and the other {link.count - before} times") from None
    if link.count - before > DIALS:
        raise Difference(f"a peer that listens again was dialed after the other was {link.count - before} times")


def steady_end(check):
    """A node with --rounds ends although somebody writes all the time, also if one thread dials and there is always news."""
    end_under_steady_news(check, 0, "--rounds", "40")
    check.stop()
    end_under_steady_news(check, SLOW, "--rounds", "4", *ALONE)


def end_under_steady_news(check, seconds, *options):
    folder = check.folder()
    other = check.node("b", "--pause", "100", folder=folder).start()
    link = SlowProxy(folder / "link.sock", other.sock, seconds)
    node = check.node("a", "--pause", "50", *options, folder=folder, peers=[link.path]).start()
    with steady_writes(node) as versions:
        until("the end of a node", lambda: node.ran.poll() is not None)
    want("its status", node.ran.poll(), 0)
    # (a write after the last round comes to its peers once it runs again)
    node = check.node("a", "--pause", "50", folder=folder, peers=[link.path]).start()
    rows = node.get("--owner", "a")
    want("the keys that it has", len(rows) in (min(20, len(versions)), min(20, len(versions) + 1)), True)
    other.awaits("what it wrote", lambda found: found == rows)
    link.end()


PARTS = (steady_news, steady_end)
