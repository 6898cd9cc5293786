"""The parts of tools/check-node that ask nodes how they are: `attrdir status`, and its messages by hand."""
import json
import socket
import subprocess
import time

from nodes import BYE, REFUSED, SECONDS, Difference, Reader, connect, delta, exchange, frame, hello, number, pieces, read_frame, throw, until, want, weight

ASK_STATUS, NODE_STATUS = 0x15, 0x16
UNREACHABLE, UNREADABLE = 2, 4


def ask_status(after=0):
    return frame(ASK_STATUS, number(after))


def read_status(answer):
    """A NodeStatus: whether more follow, the node, its cluster, its release, its figures by their numbers, and its peers."""
    if answer is None or answer[0] != NODE_STATUS:
        raise Difference(f"a question for a status was answered by {answer!r}")
    body = Reader(answer[1])
    more, node, cluster, release = body.number(1), body.text(), body.text(), body.text()
    figures = {body.number(1): body.number(8) for _ in range(body.number(2))}
    peers = [(body.text(), body.number(1), body.number(8)) for _ in range(body.number(2))]
    want("the end of a status", body.rest, b"")
    return more, node, cluster, release, figures, peers


def status_of(node, *words):
    """The exit status of `attrdir status`, and its object."""
    status, printed, said = node.command("status", "--format", "json", *words)
    want(f"what status says of {node.name}", said, "")
    return status, json.loads(printed)


def words_of(printed):
    """The lines of `attrdir status`: the value of each word, and the peers."""
    lines = [it.split(" ", 1) for it in printed.splitlines()]
    return {word: value for word, value in lines if word != "peer"}, [value.split(" ", 1) for word, value in lines if word == "peer"]


def has_frames(content, count):
    """Whether these bytes begin with so many whole frames."""
    for _ in range(count):
        length = 6 + int.from_bytes(content[2:6], "big")
        if len(content) < max(7, length):
            return False
        content = content[length:]
    return True


def awaits_status(node, test):
    """Asks until the object is as it should be, and gives it."""
    end = time.monotonic() + SECONDS
    while not test(found := status_of(node)[1]):
        if time.monotonic() > end:
            raise Difference(f"node {node.name} is not as it should be: {found}")
        time.sleep(0.02)
    return found


# ---- the parts


def statuses(check):
    """A node tells how it is in lines, in JSON and in frames, and is ready once each of its peers has had a round."""
    folder = check.folder()
    other = check.node("b", folder=folder).start()
    dead, late = folder / "nobody.sock", folder / "late.sock"
    with socket.socket(socket.AF_UNIX, socket.SOCK_STREAM) as silent:
        silent.bind(str(late))
        silent.listen()
        node = check.node("a", "--pause", "300", "--dial-idle", "30000", folder=folder, peers=[other.sock, dead, late]).start()
        silent.settimeout(SECONDS)
        caller, _ = silent.accept()
        with caller:
            want("its status beside a silent peer", status_of(node)[1]["ready"], False)
            # (a connection that is closed with bytes in it is reset, and the node is to read by then)
            until("the Hello and the digest of the node", lambda: has_frames(caller.recv(4096, socket.MSG_PEEK), 2))
    node.put("k", 5), node.put("l", 6)
    want("a removal", node.command("del", "l")[0], 0)
    want("its exit status", node.command("status", "--wait", "10000")[0], 0)
    found = awaits_status(node, lambda it: it["peers"][1]["state"] == "unreachable")
    told = {it: found[it] for it in ("ready", "node", "cluster", "caught_up", "log_fault", "conflict", "version", "keys", "removals", "owners")}
    want("its figures", told, {"ready": True, "node": "a", "cluster": "c", "caught_up": True, "log_fault": None, "conflict": None, "version": 3, "keys": 2, "removals": 1, "owners": 1})
    want("its peers", [(it["path"], it["state"]) for it in found["peers"]], [(str(other.sock), "answers"), (str(dead), "unreachable"), (str(late), "unreadable")])
    status, printed, said = node.command("status")
    words, peers = words_of(printed)
    want("its lines", (status, said, words["ready"], words["caught_up"], words["log_fault"], words["keys"], words["peers"]), (0, "", "yes", "yes", "none", "2", "3"))
    for words, count in (((), len(printed.splitlines())), (("--format", "json"), 1)):
        counts = [len(it.splitlines()) for it in pieces(check.program, "status", "--control", str(node.control), *words)]
        want(f"how many lines each write of status {words} has", counts, [count])
    want("its peers in lines", peers, [["answers", str(other.sock)], ["unreachable", str(dead)], ["unreadable", str(late)]])
    more, name, cluster, release, figures, peers = read_status(exchange(node.control, ask_status(1)))
    want("its frame", (more, name, cluster, release, figures[2], figures[6], [it[:2] for it in peers]), (0, "a", "c", found["release"], 1, 2, [(str(dead), UNREACHABLE), (str(late), UNREADABLE)]))
    # a node that dials nobody
    want("its status without peers", (status_of(other)[0], status_of(other)[1]["peers"]), (0, []))


def pages_of_statuses(check):
    """The peers of a status come in pages that fit the budget, and the command has them all."""
    folder = check.folder()
    peers = [folder / f"{at:03}{'p' * 40}.sock" for at in range(60)]
    node = check.node("a", "--budget", "1024", "--pause", "60000", folder=folder, peers=peers).start()
    found, after, more = [], 0, 1
    while more:
        answer = exchange(node.control, ask_status(after))
        if 7 + len(answer[1]) > 1024:
            raise Difference(f"a frame of a status has {7 + len(answer[1])} bytes")
        more, *_, page = read_status(answer)
        found, after = found + page, after + len(page)
    want("its peers", [it[0] for it in found], [str(it) for it in peers])
    want("its peers by the command", [it["path"] for it in status_of(node)[1]["peers"]], [str(it) for it in peers])
    want("peers after the last", read_status(exchange(node.control, ask_status(60)))[5], [])


def nodes_that_are_not_ready(check):
    """A node that is not ready, or not there, has another exit status, and one that starts is waited for."""
    folder = check.folder()
    node = check.node("a", folder=folder)
    want("a node that does not run", node.command("status", "--wait", "300")[0], 3)
    waiting = subprocess.Popen([node.program, "status", "--control", str(node.control), "--wait", "20000"], stdout=subprocess.PIPE, text=True)
    time.sleep(0.3)
    node.start()
    printed, _ = waiting.communicate(timeout=SECONDS)
    want("a node that starts", (waiting.returncode, printed.splitlines()[0]), (0, "ready yes"))
    node.put("k", 5)
    with connect(node.sock) as peer:
        peer.sendall(hello("z") + delta("a", 5, [("k", 9, weight(1))]) + BYE)
        while read_frame(peer):
            pass
    found = awaits_status(node, lambda it: it["conflict"] == 9)
    want("a node whose name is taken", (node.command("status")[0], found["ready"]), (1, False))


def statuses_between_nodes(check):
    """No peer answers the messages of a status, and a control socket refuses the answer as a request."""
    node = check.node("a", folder=check.folder()).start()
    for request in ask_status(), frame(NODE_STATUS, b"\x00\x01a\x01c\x010" + bytes(4)):
        with connect(node.sock) as peer:
            peer.sendall(hello("b") + request)
            want("the Hello of a node", (read_frame(peer) or [None])[0], 1)
            want("its answer to a message of a status", read_frame(peer), None)
    want("its answer to a status", exchange(node.control, frame(NODE_STATUS, b"\x00\x01a\x01c\x010" + bytes(4))), (REFUSED, b"\x0d"))
    want("half a question", throw(node.control, ask_status()[:10]), True)
    want("its answer", read_status(exchange(node.control, ask_status()))[1], "a")


PARTS = [statuses, pages_of_statuses, nodes_that_are_not_ready, statuses_between_nodes]
