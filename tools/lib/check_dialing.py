"""The parts of tools/check-node that look at peers over slow links, and at what a node says of peers that are down."""
import shutil
import socket
import subprocess
import threading
import time

from check_metrics import awaits
from check_waking import seconds_until
from nodes import SECONDS, Difference, hello, read_frame, until, want
from slow_proxy import SlowProxy


def awaits_lines(node, ends):
    """Waits until the node has said of each of these that it ends a line."""
    end = time.monotonic() + SECONDS
    while not all(any(line.endswith(it) for line in node.lines()) for it in ends):
        if time.monotonic() > end:
            raise Difference(f"the node did not say all of {ends}: {node.lines()}")
        time.sleep(0.01)


def peers_over_slow_links(check):
    """Three peers behind a second of delay each way delay the news to nobody else, and hear of it too."""
    folder = check.folder()
    far, near = check.node("b", folder=folder).start(), [check.node(it, folder=folder).start() for it in "cd"]
    slow = [SlowProxy(folder / f"slow{at}.sock", far.sock, 1.0) for at in range(3)]
    peers = [*(it.sock for it in near), *(it.path for it in slow)]
    # (three threads for news, of which slow peers leave one to the others)
    given = ("--dial-idle", "20000", "--fanout", "5", "--workers", "1", "--seats", "6", "--no-wait")
    node = check.node("a", *given, folder=folder, peers=peers).start()
    awaits_lines(node, [f"peer {it.sock}: answers" for it in near])
    times = []
    for at in range(20):
        version = node.put("k", at)
        times += [seconds_until(it, "a", version) for it in near]
        time.sleep(0.2)
    # (a busy machine may be late with some; a session with a slow peer takes two seconds, and one is always under way)
    if sorted(times)[-10] > 0.3 or max(times) > 5:
        raise Difference(f"news took {max(times):.2f} s beside slow peers, and {sorted(times)[-10]:.2f} s but for the nine slowest of {len(times)}")
    if seconds_until(far, "a", version) > 15:
        raise Difference("a slow peer heard of the news too late")
    for it in slow:
        it.end()


class Fickle:
    """A socket whose connections end in one way after another: at once, behind the first frame, behind a Hello of its own, in silence."""

    def __init__(self, path):
        self.path, self.count, self.held = path, 0, []
        self.door = socket.socket(socket.AF_UNIX, socket.SOCK_STREAM)
        self.door.bind(str(path))
        self.door.listen(8)
        threading.Thread(target=self.take, daemon=True).start()

    def take(self):
        while True:
            try:
                stream, _ = self.door.accept()
            except OSError:
                return
            way, self.count = self.count % 4, self.count + 1
            try:
                if way == 1:
                    read_frame(stream)
                if way == 2:
                    stream.sendall(hello("b"))
            except OSError:
                pass
            if way == 3:
                self.held.append(stream)
            else:
                stream.close()

    def end(self):
        self.path.unlink()
        self.door.shutdown(socket.SHUT_RDWR)
        self.door.close()


def down_peers(check):
    """A peer that is down is said once, whatever its reasons, and its first one stays in the metrics until it answers."""
    folder = check.folder()
    other, path = check.node("b", folder=folder), folder / "a.prom"
    node = check.node("a", "--pause", "20", "--dial-idle", "1000", "--metrics", str(path), folder=folder, peers=[other.sock]).start()
    wanted = [f"attrdir: warning peer {other.sock}: does not answer: it cannot be reached"]
    awaits_lines(node, ["it cannot be reached"])
    peer = Fickle(other.sock)
    end = time.monotonic() + SECONDS
    # (each fourth connection is a silent one, and then the peer is passed over in seven turns)
    while peer.count < 13 and time.monotonic() < end:
        time.sleep(0.02)
    want("what is said of it", node.lines()[1:], wanted)
    time.sleep(1.5)
    awaits(path, "a", {("attrdir_peer_up", str(other.sock)): 0, ("attrdir_peer_fault", str(other.sock)): 16})
    peer.end()
    other.start()
    awaits_lines(node, [f"peer {other.sock}: answers"])
    awaits(path, "a", {("attrdir_peer_up", str(other.sock)): 1, ("attrdir_peer_fault", str(other.sock)): 0})
    other.kill()
    awaits_lines(node, [f"peer {other.sock}: answers"])
    end = time.monotonic() + SECONDS
    while len(node.lines()) < 4 and time.monotonic() < end:
        time.sleep(0.02)
    time.sleep(0.5)
    said = node.lines()[1:]
    want("what is said of it", [said[:1], [f"attrdir: info peer {other.sock}: answers"], len(said)], [wanted, said[1:2], 3])
    want("how it is down again", said[2].startswith(f"attrdir: warning peer {other.sock}: does not answer: "), True)


def down_behind_socat(check):
    """A peer behind a socat whose other end is gone is said to be down once."""
    if not shutil.which("socat"):
        check.lacking.add("socat is there, so no peer was behind one")
        return
    folder = check.folder()
    path = folder / "there.sock"
    link = subprocess.Popen(["socat", f"UNIX-LISTEN:{path},fork", f"UNIX-CONNECT:{folder / 'nobody.sock'}"], stderr=subprocess.DEVNULL)
    try:
        end = time.monotonic() + SECONDS
        while not path.exists() and time.monotonic() < end:
            time.sleep(0.01)
        node = check.node("a", "--pause", "20", folder=folder, peers=[path]).start()
        until("a line about the peer", lambda: any(f"peer {path}: does not answer" in it for it in node.lines()))
        time.sleep(2)
        said = node.lines()[1:]
        want("what is said of it", [it.split(": does not answer: ")[0] for it in said], [f"attrdir: warning peer {path}"])
    finally:
        link.kill()
        link.wait()


PARTS = (peers_over_slow_links, down_peers, down_behind_socat)
