"""The parts of tools/check-node that look at offers in vain: a peer that refuses all rows of one name has those of another all the same."""
import time

from nodes import FRAME_FRONT, SECONDS, Difference, block, connect, delta, frame, hello, long_text, number, pair, read_frame, throw, want, weight

# A peer that takes the rows of w in vain asks for at most so many rounds before it has another row.
ROUNDS_MOST = 12


def give_texts(node, owner, count, length, last=0):
    """Gives a node rows of an owner, each a text of so many bytes under a key of its own."""
    for at in range(last, last + count, 100):
        entries = [(f"k{it:05d}", it + 1, long_text(length * "x")) for it in range(at, min(at + 100, last + count))]
        throw(node.sock, hello("p") + delta(owner, at, entries))
    node.awaits(f"the rows of {owner}", lambda found: sum(it.startswith(f"{owner} ") for it in found) == last + count)


def give_weight(node, owner):
    throw(node.sock, hello("p") + delta(owner, 0, [("x", 1, weight(7))]))
    node.awaits(f"the row of {owner}", lambda found: f"{owner} x 1 weight 7" in found)


def rounds_of(node):
    """How many rounds a node has made."""
    status, printed, said = node.command("status")
    words = [it.split() for it in printed.splitlines()]
    found = [int(it[-1]) for it in words if it[:-1] == ["rounds"]]
    if not found:
        raise Difference(f"no rounds in the status of {node.name}: {status} {printed!r} {said!r}")
    return found[0]


def await_row(dialer, reader, row):
    """The row comes to the reader while the dialer makes a few rounds."""
    end = time.monotonic() + SECONDS
    before = rounds_of(dialer)
    while True:
        # (they are counted before the look: it may bring the row by one that comes in between)
        made = rounds_of(dialer) - before
        if row in reader.get():
            return
        if made > ROUNDS_MOST or time.monotonic() > end:
            raise Difference(f"{row!r} did not come to {reader.name} in {made} rounds of {dialer.name}: {reader.get()[:3]}")
        time.sleep(0.02)


def refused_by_depth(check):
    """Node r forgets w, of which the sender has more rows than a frame holds, and sends those first. The row of z comes all the same: if r dials the
    sender, and if the sender dials r."""
    folder = check.folder()
    sender = check.node("s", "--order", "depth", folder=folder).start()
    give_texts(sender, "w", 400, 200)
    give_weight(sender, "z")
    reader = check.node("r", "--forget", "w", "--pause", "100", folder=folder, peers=[sender.sock]).start()
    await_row(reader, reader, "z x 1 weight 7")
    reader.kill()
    reader.peers = ()
    reader.lose()
    reader.log.touch()
    sender.kill()
    served = reader.start()
    sender.options, sender.peers = ("--order", "depth", "--pause", "100"), [served.sock]
    sender.start()
    give_texts(sender, "w", 400, 200)
    give_weight(sender, "z")
    await_row(sender, served, "z x 1 weight 7")


def refused_by_breadth(check):
    """The same by breadth at the least budget: the first text of w leaves no room for that of z."""
    folder = check.folder()
    sender = check.node("s", "--budget", "1024", folder=folder).start()
    for owner in "wxyz":
        give_texts(sender, owner, 3, 500)
    reader = check.node("r", "--budget", "1024", "--forget", "w", "--forget", "y", "--pause", "100", folder=folder, peers=[sender.sock]).start()
    for owner, count in (("x", 3), ("z", 3)):
        for at in range(count):
            await_row(reader, reader, f"{owner} k{at:05d} {at + 1} text {500 * 'x'}")


def refused_for_room(check):
    """Node r holds as many owners as it may, and then dials the sender, which has another one with more rows than a frame holds. The newer row of z
    comes all the same."""
    folder = check.folder()
    later = folder / "later.sock"
    sender = check.node("s", "--order", "depth", folder=folder).start()
    reader = check.node("r", "--pause", "100", folder=folder, peers=[later]).start()
    names = [f"o{it:04d}" for it in range(1021)] + ["z"]
    for node in (sender, reader):
        for at in range(0, len(names), 511):
            blocks = [block(it, 0, [("x", 1, weight(7))]) for it in names[at : at + 511]]
            throw(node.sock, hello("p") + frame(3, number(len(blocks), 2) + b"".join(blocks)))
        node.awaits("the rows of all", lambda found: len(found) == len(names))
    give_weight(reader, "q")
    give_texts(sender, "w", 400, 200)
    throw(sender.sock, hello("p") + delta("z", 1, [("x", 2, weight(8))]))
    sender.awaits("the newer row of z", lambda found: "z x 2 weight 8" in found)
    later.symlink_to(sender.sock)
    await_row(reader, reader, "z x 2 weight 8")
    want("who holds w", any(it.startswith("w ") for it in reader.get()), False)


def owners_of_delta(node, name, held):
    """Whose blocks a peer of this name is offered that holds owners up to these versions."""
    with connect(node.sock) as stream:
        told = b"".join(pair(owner, upto) for owner, upto in held)
        body = bytes([0, 0, 0]) + number(len(held), 2) + told
        stream.sendall(hello(name) + FRAME_FRONT + number(1 + len(body), 4) + b"\x02" + body)
        read_frame(stream)
        kind, found = read_frame(stream)
        owners = []
        at = 2
        while at < len(found):
            length = found[at]
            owners.append(found[at + 1 : at + 1 + length].decode())
            at += 1 + length + 24
            count = int.from_bytes(found[at : at + 2], "big")
            at += 2
            for _ in range(count):
                at += 1 + found[at] + 8
                at += 3 + int.from_bytes(found[at + 1 : at + 3], "big")
        return kind, owners


def refused_in_turn(check):
    """Two peers ask in turn, each in sessions of its own. Of texts that fill a frame each is offered the next owner, and then all again."""
    node = check.node("s", "--budget", "1024").start()
    for owner in "wxyz":
        give_texts(node, owner, 1, 500)
    found = {name: [] for name in "qr"}
    for _ in range(8):
        for name in "qr":
            kind, owners = owners_of_delta(node, name, [])
            found[name].append((kind, *owners))
    for name in "qr":
        offered = {owner for _, *owners in found[name] for owner in owners}
        if offered != set("wxyz"):
            raise Difference(f"{name} was offered {found[name]}")
    # who takes what it is offered gets that first which it lacks in the order of the node
    if found["q"][0] != (3, "w") or found["r"][0] != (3, "w"):
        raise Difference(f"the first offers were {found}")


PARTS = (refused_by_depth, refused_by_breadth, refused_for_room, refused_in_turn)
