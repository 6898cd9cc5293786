"""A part of tools/check-node: what the options and the words of `attrdir serve` do, by docs/REFERENCE.md. Frames that are made by hand tell of each
what it changes."""
import os
import shutil
import socket
import stat
import subprocess
import threading
import time

from nodes import BYE, ROWS, SECONDS, TRIES, Difference, ask, connect, delta, digest, exchange, hello, read_frame, run, send_in_pieces, want, weight

# the most bytes of the path of a socket
PATH_MOST = 107
# whole frames but for what stands in them: Rows, and a Delta with one block of the owner p
ROWS_HEAD, DELTA_HEAD = 10, 9 + 27 + 1
# an entry and a row of a weight of the owner p under a key of five bytes
ENTRY_BYTES, ROW_BYTES = 10 + 5 + 8, 11 + 1 + 5 + 8


def faults(words, ran, fault, about):
    """A node did not start, for this fault, and names this."""
    status, printed, said = ran
    lines = said.splitlines()
    want(f"the end of {words} ({said!r})", (status, printed, lines[:1], len(lines)), (3, "", [f"fault {fault}"], 3))
    if about not in lines[2]:
        raise Difference(f"{words} says {lines[2]!r}, without {about!r}")


def give(node, name, count, after=0):
    """A session, as the peer of this name, that brings the node so many weights behind a version."""
    with connect(node.sock) as stream:
        entries = [(f"k{at:04}", at, weight(at)) for at in range(after + 1, after + count + 1)]
        stream.sendall(hello(name) + delta(name, after, entries) + BYE)
        while read_frame(stream):
            pass


def messages_of(stream):
    found = []
    while (message := read_frame(stream)) is not None:
        found.append(message)
    return found


def delta_for(node, pairs=()):
    """The body of the Delta that a node sends to one that holds so much."""
    with connect(node.sock) as stream:
        stream.sendall(hello("zz") + digest(0, pairs) + BYE)
        return next(body for kind, body in messages_of(stream) if kind == 3)


# ---- the parts


def orders(check):
    """By breadth a frame takes of each owner one, which is so where no order is given; by depth all of the owner with the most."""
    for options, owners in ((), [b"\x01a", b"\x01p"]), (("--order", "breadth"), [b"\x01a", b"\x01p"]), (("--order", "depth"), [b"\x01p"]):
        node = check.node("a", "--budget", "1024", *options).start()
        want("a write", node.put("k", 5), 1)
        give(node, "p", 100)
        body = delta_for(node)
        found = [int.from_bytes(body[:2], "big"), body[2:4]]
        want(f"the blocks by {options}", found, [len(owners), owners[0]])
        node.kill()


def budgets(check):
    """No frame is longer than the budget, and none leaves room for what it could hold."""
    for options, budget in ((), 65536), (("--budget", "1024"), 1024), (("--budget", "2000"), 2000):
        node = check.node("a", *options).start()
        give(node, "p", 2000)
        give(node, "p", 2000, after=2000)
        body = exchange(node.control, ask())[1]
        want(f"more, and the rows of a page by {options}", (body[0], int.from_bytes(body[1:3], "big")), (1, (budget - ROWS_HEAD) // ROW_BYTES))
        body = delta_for(node)
        # (count of blocks, name, floor, after, upto, count of entries)
        count = int.from_bytes(body[28:30], "big")
        want(f"the entries of a delta by {options}", count, (budget - DELTA_HEAD) // ENTRY_BYTES)
        node.kill()


def versions(check):
    """A node gives versions up to --max-version, and no more when it starts again."""
    node = check.node("a", "--max-version", "2").start()
    want("the versions", [node.put("k", 5), node.put("l", 6)], [1, 2])
    for words in (["set", "k", "weight", "7"], ["del", "k"]):
        faults(words, node.command(*words), 8, str(node.control))
    node.kill()
    node.start()
    faults(["set"], node.command("set", "m", "weight", "7"), 8, str(node.control))
    want("the rows", node.get(), ["a k 1 weight 5", "a l 2 weight 6"])


def lengthy(folder, count):
    """A path in a folder, of so many bytes."""
    return folder / ("x" * (count - len(str(folder)) - 1))


def paths(check):
    """Paths of sockets, those of peers too, have 1 to 107 bytes. One of more is named, that of a peer before the log is opened."""
    for place in ("sock", "control"):
        folder = check.folder()
        node = check.node("a", folder=folder, peers=[lengthy(folder / "none", PATH_MOST)])
        setattr(node, place, lengthy(folder, PATH_MOST))
        node.start().kill()
        for path in (node.sock, node.control):
            path.unlink()
        setattr(node, place, lengthy(folder, PATH_MOST + 1))
        faults([place], run(*map(str, node.words())), 16, f" {lengthy(folder, PATH_MOST + 1)}: ")
    node = check.node("b", folder=folder)
    node.log = folder / "none.log"
    for path in (str(lengthy(folder, PATH_MOST + 1)), ""):
        node.peers = [folder / "b.sock", path]
        faults([path], run(*map(str, node.words())), 16, f"peer {path}: ")
    node.peers = []
    faults(["log"], run(*map(str, node.words())), 18, str(node.log))


def permissions(check):
    """What its user is not permitted to open or to make, a command says. Root, who is permitted all, runs it as another user."""
    folder = check.folder()
    closed, program = folder / "closed", folder / "attrdir"
    shutil.copy(check.program, program)
    for path in (check.room, folder):
        os.chmod(path, 0o755)
    node = check.node("a", folder=folder)
    os.chmod(node.log, 0o666)
    closed.mkdir()
    os.chmod(closed, 0o000)
    node.program, other = program, 65534
    become = (lambda: os.setuid(other)) if os.geteuid() == 0 else None

    def ends(words, fault, text):
        ran = subprocess.run([str(it) for it in words], stdin=subprocess.DEVNULL, capture_output=True, text=True, timeout=SECONDS, preexec_fn=become)
        want(f"the end of {words}", (ran.returncode, ran.stderr.splitlines()[:2]), (3, [f"fault {fault}", text]))

    ends([program, "get", "--control", closed / "a.ctl"], 16, "no node could be reached: not permitted")
    ends([program, "owners", "--sock", closed / "a.sock", "--cluster", "c"], 16, "no node could be reached: not permitted")
    ends([program, "log", "--log", closed / "a.log", "--name", "a", "--cluster", "c"], 18, "the log cannot be opened")
    of_log = lambda path: [program, "log", "--log", path, "--name", "a", "--cluster", "c"]
    place, second = folder / "place", folder / "second.log"
    place.mkdir()
    (place / "a.log").touch()
    os.chmod(place / "a.log", 0o666)
    os.chmod(place, 0o555)
    ends(of_log(place), 18, "the path of the log is not that of a file")
    ends(of_log(place / "a.log"), 18, "a file of the log cannot be made")
    os.chmod(place / "a.log", 0o444)
    ends(of_log(place / "a.log"), 18, "the file of the log cannot be written: not permitted")
    os.chmod(place, 0o755)
    second.touch()
    os.chmod(second, 0o666)
    os.link(second, folder / "first.log")
    ends(of_log(second), 18, "the file of the log has a second name")
    os.chmod(folder, 0o777)
    node.sock = closed / "a.sock"
    ends(node.words(), 16, "a socket could not be made: not permitted")
    os.chmod(closed, 0o555)
    ends(node.words(), 16, "a socket could not be made: not permitted")
    want("what is in the folder", list(closed.iterdir()), [])


def socket_permissions(check):
    """Each socket of a node has the permissions that the umask of the node leaves."""
    for mask in (0o022, 0o077, 0o007):
        folder = check.folder()
        door = folder / "a.http"
        node = check.node("a", "--http", str(door), folder=folder)
        node.how["preexec_fn"] = lambda: os.umask(mask)
        node.start()
        found = [stat.S_IMODE(it.stat().st_mode) for it in (node.sock, node.control, door)]
        want(f"the permissions of the sockets of a node with the umask {mask:03o}", found, [0o777 & ~mask] * 3)
        node.kill()


class Peer:
    """A socket that enters its number in a list for each connection, hears the Hello and the Digest that come first, says this, and ends that."""

    def __init__(self, path, number, list_of, says=b""):
        self.door = socket.socket(socket.AF_UNIX, socket.SOCK_STREAM)
        self.door.bind(str(path))
        self.door.listen(8)
        self.path, self.number, self.list_of, self.says = path, number, list_of, says
        threading.Thread(target=self.serve, daemon=True).start()

    def serve(self):
        while True:
            try:
                stream, _ = self.door.accept()
            except OSError:
                return
            self.list_of.append(self.number)
            with stream:
                if read_frame(stream) and read_frame(stream):
                    self.say(stream)

    def say(self, stream):
        stream.sendall(self.says)

    def end(self):
        self.path.unlink()
        self.door.shutdown(socket.SHUT_RDWR)
        self.door.close()


def turns(check):
    """Each peer is dialed in its turn, one a round, and how that ended is said of each once."""
    folder, dialed = check.folder(), []
    there = [folder / f"peer{at}" for at in range(3)]
    for at, path in enumerate(there):
        Peer(path, at, dialed)
    node = check.node("a", "--rounds", "7", "--pause", "0", folder=folder, peers=there).start()
    status, printed, said = node.ended()
    want("the end", (status, printed), (0, "rounds 7 faults 0 events 0\n"))
    want("the peers that were dialed", dialed, [0, 1, 2, 0, 1, 2, 0])
    want("what is said of them", said[1:-1], [f"attrdir: warning peer {path}: does not answer: it ended a session before its end" for path in there])
    node.peers = [folder / "nobody", there[1], folder / "no-folder/nobody"]
    status, printed, said = node.start().ended()
    want("the end", (status, printed), (0, "rounds 7 faults 5 events 0\n"))
    want("the first line", [said[0].find(str(it)) > 0 for it in (node.sock, node.control)], [True, True])
    if not said[0].index(str(node.sock)) < said[0].index("set") < said[0].index(str(node.control)):
        raise Difference(f"which socket is for whom: {said[0]}")
    ends = ("it cannot be reached", "it ended a session before its end", "it cannot be reached")
    want("what is said of them", said[1:-1], [f"attrdir: warning peer {path}: does not answer: {end}" for path, end in zip(node.peers, ends)])
    want("the name in each line", [it.split(":")[0] for it in said], ["attrdir"] * 5)


def peers_like_addresses(check):
    """If a peer looks like a host and a port, the line that it cannot be reached says that a peer is the path of a socket."""
    for peer in ("10.0.0.1:7400", "db.example:7400"):
        node = check.node("a", "--rounds", "1", "--pause", "0", folder=check.folder(), peers=[peer])
        status, _, said = node.start().ended()
        wanted = f"attrdir: warning peer {peer}: does not answer: it cannot be reached; a peer is the path of a socket, not HOST:PORT"
        want(f"what is said of the peer {peer}", (status, said[1:-1]), (0, [wanted]))


def changes(check):
    """Where a round with a peer ends otherwise than the one before, that is said, once."""
    folder = check.folder()
    peer = check.node("b", folder=folder)
    node = check.node("a", "--pause", "300", folder=folder, peers=[peer.sock]).start()
    down = f"attrdir: warning peer {peer.sock}: does not answer"
    wanted = [down]

    def lines():
        """What it says, without why a peer is down: one that ends during a session is down for another reason."""
        return [down if it.startswith(f"{down}: ") else it for it in node.lines()[1:]]

    def await_lines():
        end = time.monotonic() + SECONDS
        while len(lines()) < len(wanted) and time.monotonic() < end:
            time.sleep(0.005)
        want("what is said of a peer", lines(), wanted)

    await_lines()
    want("why it is down at first", node.lines()[1], f"{down}: it cannot be reached")
    other = Peer(peer.sock, 0, [], hello("b", "d"))
    wanted.append(f"attrdir: warning peer {peer.sock}: fault 23: the peer is of another cluster")
    await_lines()
    other.end()
    wanted.append(down)
    await_lines()
    peer.start()
    wanted.append(f"attrdir: info peer {peer.sock}: answers")
    await_lines()
    peer.kill()
    wanted.append(down)
    await_lines()
    time.sleep(0.7)
    want("what is said of a peer", lines(), wanted)


def paces(check):
    """A node waits as long as --pause says after a round."""
    began = time.monotonic()
    node = check.node("a", "--rounds", "3", "--pause", "300").start()
    want("an end", node.ended()[:2], (0, "rounds 3 faults 0 events 0\n"))
    if not 0.6 <= time.monotonic() - began <= 10:
        raise Difference(f"three rounds took {time.monotonic() - began:.2f} s")


class SlowPeer(Peer):
    """A peer that says this in so many pieces, once it may, and hears what comes."""

    def __init__(self, path, says, pieces):
        self.pieces, self.may_speak = pieces, threading.Event()
        super().__init__(path, 0, [], says)

    def say(self, stream):
        self.may_speak.wait(SECONDS)
        slowly(stream, self.says, self.pieces)


def reads(check):
    """A connection may take as many reads as --max-reads says, without limit where it is not given; --idle 0 lets a peer be silent."""
    asked = hello("zz") + digest(0) + BYE
    for options, is_answered in ((("--max-reads", "5"), False), (("--max-reads", "1000", "--idle", "0"), True), ((), True)):
        node = check.node("a", *options).start()
        with connect(node.sock) as stream:
            time.sleep(0.3)
            want(f"whether byte by byte is answered by {options}", 3 in slowly(stream, asked), is_answered)
        node.kill()
    for pieces, ends_well in ((9, True), (10, False)):
        # (pieces can come together on a busy machine, and are then one read: what is wrong is wrong each time)
        for tries_left in range(TRIES - 1, -1, -1):
            try:
                read_from_all(check, pieces, 9, ends_well)
                break
            except Difference:
                if ends_well or not tries_left:
                    raise


def read_from_all(check, pieces, max_reads, ends_well):
    """A peer that calls, the owner and a peer that is dialed each speak in so many pieces to a node that makes so many reads of each connection. It
    serves each to its end, or ends each with a fault."""
    folder = check.folder()
    peer = SlowPeer(folder / "peer", hello("b") + digest(0), pieces)
    # (its only round lasts until the peer speaks, and then it ends)
    given = ("--max-reads", str(max_reads), "--rounds", "1", "--pause", "0", "--dial-idle", "60000")
    node = check.node("a", *given, folder=folder, peers=[peer.path]).start()
    for path, asked, kind in ((node.sock, hello("zz") + digest(0) + BYE, 3), (node.control, ask(), ROWS)):
        with connect(path) as stream:
            want(f"whether {pieces} pieces are answered at {path.name}", kind in slowly(stream, asked, pieces), ends_well)
    peer.may_speak.set()
    status, printed, said = node.ended()
    want(f"the end after {pieces} pieces", (status, printed), (0, f"rounds 1 faults {0 if ends_well else 3} events 0\n"))
    level, end = ("info", "answers") if ends_well else ("warning", "fault 29: the reads, calls or events that were allowed are spent")
    want(f"what is said of a peer of {pieces} pieces", said[1:-1], [f"attrdir: {level} peer {peer.path}: {end}"])


def slowly(stream, content, pieces=None):
    """Sends bytes one by one, all or as the first of so many pieces, and gives the kinds of what comes."""
    alone = len(content) if pieces is None else pieces - 1
    try:
        send_in_pieces(stream, content[:alone], 1)
        # (even a send of nothing fails where the node has closed)
        if content[alone:]:
            stream.sendall(content[alone:])
        return [kind for kind, _ in messages_of(stream)]
    except OSError:
        return []


def workers(check):
    """The most workers, with seats of their own, and the least seats."""
    for options in (("--workers", "62"), ("--workers", "62", "--seats", "64"), ("--workers", "1", "--seats", "3")):
        check.node("a", *options).start().kill()


PARTS = (orders, budgets, versions, paths, permissions, socket_permissions, turns, peers_like_addresses, changes, paces, reads, workers)
