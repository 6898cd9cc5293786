"""The parts of tools/check-node that look at when a node dials, how long it waits for others, and what it does where its log, its sockets or its
descriptors are not as they should be."""
import os
import re
import resource
import signal
import socket
import threading
import time

from check_metrics import awaits
from check_serving import Peer
from nodes import SECONDS, Difference, ask, connect, exchange, hello, number, put, read_frame, run, text, version_of, want, weight
from small_disk import SmallDisk, disk_in


def seconds_until(node, owner, version):
    """How long it takes until a node has a row of this owner and version."""
    began = time.monotonic()
    while number(version) not in exchange(node.control, ask(owner))[1]:
        if time.monotonic() - began > SECONDS:
            raise Difference(f"{node.name} did not hear of version {version} of {owner}")
        time.sleep(0.002)
    return time.monotonic() - began


def chain(check, *options):
    """Three nodes of which each dials the one before and the one behind it, once all have said that these answer."""
    folder = check.folder()
    sock = {it: folder / f"{it}.sock" for it in "abc"}
    peers = {"a": "b", "b": "ac", "c": "b"}
    nodes = [check.node(it, *options, folder=folder, peers=[sock[peer] for peer in peers[it]]) for it in "abc"]
    for node in nodes:
        node.start()
    end = time.monotonic() + SECONDS
    for node in nodes:
        while not all(any(it.endswith(f"peer {peer}: answers") for it in node.lines()) for peer in node.peers):
            if time.monotonic() > end:
                raise Difference(f"the peers of {node.name} do not answer: {node.lines()}")
            time.sleep(0.01)
    return nodes


def news(check):
    """A write is at a node two hops away long before the next pause is over; with --fanout 0 it is not."""
    nodes = chain(check, "--pause", "6000")
    nodes[0].awaits("a row of c", lambda rows: nodes[2].put("hello", 1) and any(it.startswith("c ") for it in rows))
    for at in range(5):
        seconds = seconds_until(nodes[2], "a", nodes[0].put("k", at))
        if seconds > 3:
            raise Difference(f"a write took {seconds:.2f} s over two hops")
    check.stop()
    folder = check.folder()
    other = check.node("b", folder=folder).start()
    node = check.node("a", "--pause", "60000", "--fanout", "0", folder=folder, peers=[other.sock]).start()
    end = time.monotonic() + SECONDS
    while len(node.lines()) < 2 and time.monotonic() < end:
        time.sleep(0.01)
    # (it is answered once the first round has ended, and the next is far away)
    version = node.put("k", 1)
    time.sleep(1.5)
    want("whether a write is pushed with --fanout 0", number(version) in exchange(other.control, ask("a"))[1], False)


def faulty_peers(check):
    """A peer whose last two sessions had a fault is dialed in its turn alone, whatever news there is."""
    folder, dialed = check.folder(), []
    Peer(folder / "wrong.sock", 0, dialed, hello("x", "d"))
    other = check.node("b", folder=folder).start()
    node = check.node("a", "--pause", "2000", folder=folder, peers=[folder / "wrong.sock", other.sock]).start()
    end = time.monotonic() + SECONDS
    while len(node.lines()) < 3 and time.monotonic() < end:
        time.sleep(0.01)
    before, began = len(dialed), time.monotonic()
    for at in range(20):
        seconds_until(other, "a", node.put("k", at))
    # (one more for the news, since the first fault may be that of the link)
    turns = 2 + (time.monotonic() - began) // 2
    if len(dialed) - before > turns:
        raise Difference(f"a peer of another cluster was dialed {len(dialed) - before} times in {time.monotonic() - began:.2f} s of news")


class Swallower:
    """A socket that takes connections and says nothing."""

    def __init__(self, path):
        self.streams, self.door = [], socket.socket(socket.AF_UNIX, socket.SOCK_STREAM)
        self.door.bind(str(path))
        self.door.listen(8)
        threading.Thread(target=self.take, daemon=True).start()

    def take(self):
        while True:
            try:
                self.streams.append(self.door.accept()[0])
            except OSError:
                return


def silent_peers(check):
    """A peer that takes connections and says nothing costs its own turn alone, and is dialed in every eighth of its turns at most."""
    folder = check.folder()
    silent, other = Swallower(folder / "silent.sock"), check.node("b", folder=folder).start()
    peers = [folder / "silent.sock", other.sock]
    began, count = time.monotonic(), 0
    node = check.node("a", "--pause", "50", "--dial-idle", "400", "--no-wait", folder=folder, peers=peers).start()
    while time.monotonic() - began < 6:
        seconds = seconds_until(node, "b", other.put("k", count))
        count += 1
        if seconds > 2:
            raise Difference(f"a write took {seconds:.2f} s beside a silent peer")
    dialed, seconds = len(silent.streams), time.monotonic() - began
    # (three times at most before it is passed over, and then once in a wait of 0.4 s and eight pauses of 0.05 s)
    if dialed > 3 + seconds / 0.8:
        raise Difference(f"a silent peer was dialed {dialed} times in {seconds:.2f} s")
    end = time.monotonic() + SECONDS
    while len(silent.streams) < 2:
        if time.monotonic() > end:
            raise Difference(f"a silent peer was dialed {len(silent.streams)} times")
        time.sleep(0.02)
    silent.door.close()


def without_room():
    """No file of this process gets longer than 400,000 bytes, and a write that would fails."""
    signal.signal(signal.SIGXFSZ, signal.SIG_IGN)
    resource.setrlimit(resource.RLIMIT_FSIZE, (400_000, 400_000))


def fill(node):
    """Writes until the log has no room for more; the answer to that."""
    for at in range(2000):
        status, printed, said = node.command("set", f"k{at}", "weight", "5")
        if status:
            return status, said.splitlines()[0]
    raise Difference("the log never filled up")


def full_disks(check):
    """A log that has no room closes: the node says so once, and goes on without writes, or ends with --on-log-fault exit, also in the pause behind its last
    round."""
    folder = check.folder()
    node = check.node("a", "--metrics", str(folder / "a.prom"), folder=folder)
    node.how["preexec_fn"] = without_room
    node.start()
    awaits(folder / "a.prom", "a", {("attrdir_log_open",): 1})
    want("the write that had no room", fill(node), (3, "fault 18"))
    awaits(folder / "a.prom", "a", {("attrdir_log_open",): 0})
    want("the next write", node.command("set", "k", "weight", "6")[2].splitlines()[0], "fault 15")
    rows = len(node.get())
    want("what it says", [it.split(":")[:3] for it in node.lines()[1:]], [["attrdir", f" error log {node.log}", " fault 18"]])
    node.kill()
    del node.how["preexec_fn"]
    node.start()
    if not rows <= len(node.get()) <= rows + 1:
        raise Difference(f"{len(node.get())} rows came back of {rows}")
    node.kill()
    for more in ((), ("--rounds", "1", "--pause", "600000")):
        node = check.node("a", "--on-log-fault", "exit", *more)
        node.how["preexec_fn"] = without_room
        node.start()
        want("the write that had no room", fill(node), (3, "fault 18"))
        status, printed, said = node.ended()
        want(f"its end {more}", (status, printed, said[-3]), (3, "", "fault 18"))
        want("its sockets", (node.sock.exists(), node.control.exists()), (False, False))


def small_disks(check):
    """A log whose disk is full closes, and the node names that cause on standard error and in its metrics. With room again it goes on."""
    folder = check.folder()
    path = folder / "a.prom"
    with disk_in(folder / "disk") as disk:
        if not isinstance(disk, SmallDisk):
            check.lacking.add("a disk can be mounted, so no log was on a full one")
            return
        node = check.node("a", "--pause", "10", "--metrics", str(path), folder=folder)
        disk.place(Place(node))
        node.start()
        found = awaits(path, "a", {("attrdir_log_open",): 1})
        want("a cause of an open log", [it for it in found if it[0] == "attrdir_log_fault"], [])
        want("a write", node.put("k", 5), 1)
        disk.fill(None)
        want("the write that had no room", fill(node), (3, "fault 18"))
        awaits(path, "a", {("attrdir_log_open",): 0, ("attrdir_log_fault", "no_space"): 1})
        said = f"attrdir: error log {node.log}: fault 18: no space is left; no more writes are taken: make room on its disk; then start the node again"
        want("what it says", node.lines()[1:], [said])
        node.kill()
        status, _, said = run(*map(str, (check.program, "log", "--log", node.log, "--name", "a", "--cluster", "c")))
        if status and said.splitlines()[:1] != ["fault 18"]:
            raise Difference(f"a log on a full disk is refused by {said!r}")
        disk.free(None)
        node.start()
        want("a row", node.get()[:1], ["a k 1 weight 5"])
        node.kill()


class Place:
    """A node as a disk places it."""

    def __init__(self, node):
        self.node = node


def take_descriptors(pid):
    """Leaves a process no descriptor for more than it has open, and gives the limits of before. It may have a file open for a moment, which is not to
    count: so it is looked at again and again, and the least descriptor that was free is the first that it may not have."""
    soft, hard = resource.prlimit(pid, resource.RLIMIT_NOFILE)
    least = soft
    for _ in range(20):
        open_ones = os.listdir(f"/proc/{pid}/fd")
        least = min(least, next(it for it in range(soft) if str(it) not in open_ones))
        time.sleep(0.02)
    resource.prlimit(pid, resource.RLIMIT_NOFILE, (least, hard))
    return soft, hard


def no_descriptors(check):
    """A node that has no descriptor left for a while goes on with all its workers, and at its control socket."""
    node = check.node("a", "--workers", "3").start()
    limits = take_descriptors(node.ran.pid)
    for _ in range(20):
        for path in (node.sock, node.control):
            connect(path).close()
        time.sleep(0.02)
    resource.prlimit(node.ran.pid, resource.RLIMIT_NOFILE, limits)
    # (each of these holds a worker until it says Bye)
    peers = [connect(node.sock) for _ in range(3)]
    for at, peer in enumerate(peers):
        peer.sendall(hello(f"b{at}"))
    want("what each of as many peers as there are workers gets", [read_frame(it) for it in peers], 3 * [(1, text("c") + text("a"))])
    for peer in peers:
        peer.close()
    want("a write", node.command("set", "k", "weight", "5"), (0, "version 1\n", ""))


def left_sockets(check):
    """A node that was killed starts again where its sockets lie, and says so. A file that is no socket is left."""
    node = check.node("a").start()
    want("a write", node.put("k", 5), 1)
    node.kill()
    node.start(with_left=True)
    left = [f"attrdir: info socket {it}: left by a node that no longer runs, and removed" for it in (node.sock, node.control)]
    want("what it says", node.lines()[:2], left)
    want("its rows", node.get(), ["a k 1 weight 5"])


def times(check):
    """With --log-time each line begins with the time."""
    node = check.node("a", "--rounds", "2", "--pause", "0", "--log-time").start()
    status, printed, said = node.ended()
    moment = r"\d{4}-\d\d-\d\dT\d\d:\d\d:\d\d\.\d{3}Z attrdir: info node a: "
    want("how its lines begin", [bool(re.match(moment, it)) for it in said], [True, True])


PARTS = (news, faulty_peers, silent_peers, full_disks, small_disks, no_descriptors, left_sockets, times)
