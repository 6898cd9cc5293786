"""The parts of tools/check-node that hold the program against earlier releases: it reads the frames and the logs that they wrote, and answers as they did,
but for a table that is offered whole.

Each folder of tools/releases is a release. `frames` has lines of a session and of questions, each in the order in which it was written; `a.log.xz` and
`a.log-wal.xz` are the log of the node a of the cluster c, as a kill left it; `lines` is what `attrdir log` prints of it. They never change.
"""
import lzma

from nodes import ROOT, Reader, block, connect, frame, number, read_exactly, run, want

RELEASES = ROOT / "tools" / "releases"


def releases():
    return sorted(it for it in RELEASES.iterdir() if (it / "frames").is_file())


def unpack(release, folder):
    """Lays the log of a release into a folder."""
    for name in ("a.log", "a.log-wal"):
        (folder / name).write_bytes(lzma.decompress((release / f"{name}.xz").read_bytes()))


def turns(release, place):
    """What went over one of the sockets: each frame, and whether it goes to the node."""
    lines = [it.split() for it in (release / "frames").read_text().splitlines() if it and not it.startswith("#")]
    return [(way == ">", bytes.fromhex(words)) for where, way, words in lines if where == place]


def read_slot(body):
    """The bytes of a slot: its tag, and then its value."""
    tag = body.take(1)
    if tag == b"\x01":
        size = body.take(1)
        return tag + size + body.take(size[0])
    if tag == b"\x04":
        size = body.take(2)
        return tag + size + body.take(int.from_bytes(size, "big"))
    return tag + body.take({b"\x00": 0, b"\x02": 8, b"\x03": 1}[tag])


def offered(content):
    """What is sent today in place of a delta of release 0.2.0: a whole table is offered as if it were purged up to its last version."""
    if content[:2] != b"\xa7\x03" or content[6] != 3:
        return content
    body, blocks = Reader(content[7:]), []
    for _ in range(body.number(2)):
        owner, floor, after, upto = body.text(), body.number(8), body.number(8), body.number(8)
        entries = [(body.text(), body.number(8), read_slot(body)) for _ in range(body.number(2))]
        if after == 0:
            floor, entries = upto, [it for it in entries if it[2] != b"\x00"]
        blocks.append(block(owner, after, entries, floor, upto))
    return frame(3, number(len(blocks), 2) + b"".join(blocks))


def play(path, conversation):
    """Sends what goes to the node, and looks whether it answers the rest, byte by byte, and ends then."""
    with connect(path) as stream:
        for at, (is_sent, content) in enumerate(conversation):
            if is_sent:
                stream.sendall(content)
            else:
                wanted = offered(content)
                want(f"frame {at} at {path.name}", (read_exactly(stream, len(wanted)) or b"").hex(), wanted.hex())
        want(f"what comes after the last frame at {path.name}", stream.recv(1), b"")


def logs_of_releases(check):
    """`attrdir log` prints what a log of each release holds."""
    for release in releases():
        folder = check.folder()
        unpack(release, folder)
        found = run(check.program, "log", "--log", str(folder / "a.log"), "--name", "a", "--cluster", "c")
        want(f"the log of {release.name}", found, (0, (release / "lines").read_text(), ""))


def frames_of_releases(check):
    """A node with the log of each release takes its frames, and answers by the same bytes, but that it offers whole tables as if purged."""
    for release in releases():
        folder = check.folder()
        unpack(release, folder)
        node = check.node("a", folder=folder).start()
        play(node.sock, turns(release, "peer"))
        questions = turns(release, "control")
        for request, answer in zip(questions[::2], questions[1::2]):
            play(node.control, [request, answer])


PARTS = (logs_of_releases, frames_of_releases)
