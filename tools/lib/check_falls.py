"""The parts of tools/check-node that look at what a third node says of a name that two nodes have: that its version falls. It says nothing of one node,
however often that starts again, and however its sessions overlap."""
import time

from check_audit import copied
from check_metrics import awaits
from nodes import BYE, Difference, connect, digest, frame, hello, number, pair, read_frame, text, want

# what a node waits for before a lower version counts, in seconds, and how long it may take to say so
LATE = 10
SECONDS = 60
FALLS = ("attrdir_version_falls_total",)


def reported_falls(node):
    """The lines of a node about versions that fall."""
    return [it for it in node.lines() if " reports its version " in it]


def line_of(node, name, version, before):
    return (
        f"attrdir: warning node {node.name}: node {name} reports its version {version}, and reported {before} before: "
        "two nodes, or a node and an older copy of its log, have this name: see RUNBOOK, Two nodes with one name"
    )


def awaits_falls(node, count):
    """Waits until a node has said so many times that a version falls, a minute at most."""
    end = time.monotonic() + SECONDS
    while len(reported_falls(node)) < count:
        if time.monotonic() > end:
            raise Difference(f"{node.name} says nothing of versions that fall: {node.lines()}")
        time.sleep(0.05)


def third_node(check):
    """Two nodes of one name, with logs of different length, dial a third that dials both: it says so within a minute, once, and counts it."""
    folder, other = check.folder(), check.folder()
    first = check.node("a", "--pause", "100", folder=folder)
    twin = check.node("a", "--pause", "100", folder=other)
    for node, writes in ((first, 5), (twin, 2)):
        alone = check.node("a", folder=node.sock.parent).start()
        want("writes", [alone.put(f"k{at}", at) for at in range(writes)], list(range(1, writes + 1)))
        alone.kill()
    third = check.node("c", "--pause", "100", "--metrics", str(folder / "c.prom"), folder=folder, peers=[first.sock, twin.sock]).start()
    first.peers = twin.peers = [third.sock]
    begun = time.monotonic()
    first.start()
    twin.start()
    awaits_falls(third, 1)
    if time.monotonic() - begun < LATE:
        raise Difference(f"{third.name} says after {time.monotonic() - begun} s that a version falls")
    want("what it says", reported_falls(third), [line_of(third, "a", 2, 5)])
    awaits(folder / "c.prom", "c", {}, lambda found: found[FALLS] > 3)
    want("how often it says that", len(reported_falls(third)), 1)
    want("what the two say of each other", [reported_falls(first), reported_falls(twin)], [[], []])


def tells(node, stream, version, name="p", alone=False):
    """Tells a node by a stream that is open a version of the sender, in a digest of all owners or of this one alone. Waits for the answer."""
    body = text(name) + text(f"{name}-") if alone else text("") + text("")
    asked = frame(2, b"\x00" + body + number(1, 2) + pair(name, version))
    stream.sendall(hello(name) + asked + BYE)
    want("the answer", [read_frame(stream)[0] for _ in range(2)], [1, 3])
    stream.close()


def lower_versions(check):
    """What counts is when a connection came, how long before it more was reported, and in which digest."""
    node = check.node("c", "--pause", "100", "--idle", "60000", "--metrics", str(check.folder() / "c.prom"))
    node.start()
    # Of a connection that came before the node first looked for one, it does not know since when it waits: so one comes before.
    tells(node, connect(node.sock), 1, name="z")
    time.sleep(1)
    early = connect(node.sock)
    tells(node, connect(node.sock), 9)
    tells(node, connect(node.sock), 4)
    tells(node, connect(node.sock), 4, name="q")
    late = connect(node.sock)
    time.sleep(LATE + 1)
    tells(node, early, 4)
    tells(node, late, 4)
    tells(node, connect(node.sock), 9)
    tells(node, connect(node.sock), 4, alone=True)
    tells(node, connect(node.sock), 0)
    tells(node, connect(node.sock), 4, name="q")
    time.sleep(1)
    want("what it says so far", reported_falls(node), [])
    tells(node, connect(node.sock), 8)
    awaits_falls(node, 1)
    tells(node, connect(node.sock), 7)
    tells(node, connect(node.sock), 3, name="q")
    awaits_falls(node, 2)
    want("what it says", reported_falls(node), [line_of(node, "p", 8, 9), line_of(node, "q", 3, 4)])


def no_falls(check):
    """A node that starts again 300 times, and one whose sessions overlap while it writes, are no two nodes: also where connections come late."""
    folder = check.folder()
    path = folder / "c.prom"
    third = check.node("c", "--pause", "100", "--workers", "8", "--seats", "16", "--metrics", str(path), folder=folder).start()
    busy = check.node("b", "--pause", "1", "--seats", "16", folder=folder, peers=[third.sock] * 4).start()
    again = check.node("a", "--pause", "1", folder=folder, peers=[third.sock] * 2)
    begun = time.monotonic()
    for at in range(300):
        again.start()
        want("a write", again.put(f"k{at % 16}", at), at + 1)
        want("a write beside it", busy.put(f"k{at % 16}", at), at + 1)
        again.kill()
    again.start()
    while time.monotonic() - begun < 3 * LATE:
        busy.put("k", 1)
        time.sleep(0.01)
    third.awaits("all of it", lambda found: len([it for it in found if it.startswith("a ")]) == 16)
    awaits(path, "c", {FALLS: 0}, lambda found: found["attrdir_sessions_total",] > 600)
    want("what it says", reported_falls(third), [])


PARTS = (third_node, lower_versions, no_falls)
