"""The parts of tools/check-node that look at audits: a node that compares what its peers hold of its own name with its log. It finds an older copy of its
log and a twin, and never its own writes, whatever was purged, begun anew or restored since."""
import select
import shutil
import signal
import socket
import time

from check_metrics import awaits
from check_purging import come_and_go
from nodes import DONE, REFUSED, SECONDS, TRIES, Difference, connect, delta, digest, exchange, frame, hello, put, read_frame, run, want, weight

OWNER_CONFLICT = 21
OFTEN = ("--audit", "300", "--pause", "50")
# a delta without blocks
NOTHING = frame(3, b"\x00\x00")


def copied(log, to):
    """Copies a log whose node does not run."""
    for end in ("", "-wal"):
        path = log.with_name(log.name + end)
        if path.exists():
            shutil.copy(path, to.with_name(to.name + end))


def moved_back(kept, log):
    for end in ("", "-wal"):
        log.with_name(log.name + end).unlink(missing_ok=True)
    copied(kept, log)


def found_by(node):
    """The lines of audits that found a difference."""
    return [it for it in node.lines() if "writes under this name: peer" in it]


def awaits_version(node, owner, version):
    """Waits until a node holds an owner up to a version."""
    end = time.monotonic() + SECONDS
    while True:
        found = run(node.program, "owners", "--sock", str(node.sock), "--cluster", "c")[1].splitlines()
        if [owner, str(version)] in [it.split()[:2] for it in found]:
            return
        if time.monotonic() > end:
            raise Difference(f"{node.name} does not hold {owner} up to {version}: {found}")
        time.sleep(0.02)


def awaits_difference(node, peer, words):
    """Waits until a node says what its peer holds otherwise, and that writes are refused from then on."""
    end = time.monotonic() + SECONDS
    while not found_by(node):
        if time.monotonic() > end:
            raise Difference(f"{node.name} found nothing: {node.lines()}")
        time.sleep(0.02)
    said = found_by(node)
    want("how often it is said", len(said), 1)
    line = f"attrdir: error node {node.name}: fault 21: another node, or an older copy of the log, writes under this name: peer {peer.sock} {words}; no more writes"
    want("what is said", said[0][: len(line)], line)
    want("a write", exchange(node.control, put("more", weight(1)))[1][0], OWNER_CONFLICT)
    want("other lines of the conflict", [it for it in node.lines() if "was seen" in it], [])


def older_copy(check):
    """A node whose log was restored from an older copy gives versions a second time while its peer is out of reach, as many as its peer had heard of."""
    folder = check.folder()
    peer = check.node("b", "--pause", "50", folder=folder).start()
    node = check.node("a", *OFTEN, "--metrics", str(folder / "a.prom"), folder=folder, peers=[peer.sock]).start()
    want("first writes", [node.put(f"k{at}", at) for at in range(1, 4)], [1, 2, 3])
    node.kill()
    kept = node.log.with_name("kept.log")
    copied(node.log, kept)
    node.start()
    want("later writes", [node.put(f"k{at}", at) for at in range(4, 9)], [4, 5, 6, 7, 8])
    peer.awaits("all of them", lambda found: len(found) == 8)
    awaits(folder / "a.prom", "a", {("attrdir_name_conflict",): 0}, lambda found: found["attrdir_audits_total",] > 2)
    want("what was found so far", found_by(node), [])
    node.kill()
    moved_back(kept, node.log)
    alone = check.node("a", folder=folder)
    alone.start()
    want("the versions once more", [alone.put(f"new{at}", at) for at in range(4, 9)], [4, 5, 6, 7, 8])
    alone.kill()
    node.start()
    awaits_difference(node, peer, "has `k4 4 weight 4`, and the log has `new4 4 weight 4`")
    awaits(folder / "a.prom", "a", {("attrdir_name_conflict",): 1}, lambda found: True)
    status = node.command("status")[1]
    want("the status", [it for it in status.splitlines() if it.startswith("conflict ")], ["conflict 9"])
    # (a node that is killed may leave its peer a session that is not whole)
    want("what the peer says", [it for it in peer.lines() if (" error " in it or " warning " in it) and "ended with a fault" not in it], [])


def twins(check):
    """Two nodes under one name with one write each: the one whose write the peer does not have finds the other's."""
    folder, other = check.folder(), check.folder()
    peer = check.node("b", "--pause", "50", folder=folder).start()
    first = check.node("a", *OFTEN, folder=folder, peers=[peer.sock]).start()
    want("the first write", first.put("x", 1), 1)
    peer.awaits("its row", lambda found: found == ["a x 1 weight 1"])
    twin = check.node("a", *OFTEN, folder=other, peers=[peer.sock])
    alone = check.node("a", folder=other)
    alone.start()
    want("the write of its twin", alone.put("x", 2), 1)
    alone.kill()
    twin.start()
    awaits_difference(twin, peer, "has `x 1 weight 1`, and the log has `x 1 weight 2`")
    want("what the first finds", found_by(first), [])
    want("a write of the first", first.put("y", 3), 2)


def twin_while_running(check):
    """A twin that begins to write while the other runs is found by the audits in turn, also if it removes."""
    folder, other = check.folder(), check.folder()
    peer = check.node("b", "--pause", "50", folder=folder).start()
    cut = check.node("d", "--pause", "50", folder=other).start()
    first = check.node("a", *OFTEN, folder=folder, peers=[peer.sock]).start()
    twin = check.node("a", *OFTEN, folder=other, peers=[cut.sock]).start()
    want("writes of both", [first.put("x", 1), twin.put("y", 2), first.put("x", 3), twin.put("y", 4)], [1, 1, 2, 2])
    want("removals", [exchange(first.control, put("x", b"\x00"))[0], exchange(twin.control, put("z", weight(5)))[0]], [0x13, 0x13])
    cut.awaits("the rows of the twin", lambda found: found == ["a y 2 weight 4", "a z 3 weight 5"])
    time.sleep(0.5)
    want("what is found apart", [found_by(first), found_by(twin)], [[], []])
    cut.kill()
    # (the twin waits until d has heard of the first: otherwise d could take the rows of the twin again, and nobody would see two logs)
    twin.ran.send_signal(signal.SIGSTOP)
    again = check.node("d", "--pause", "50", folder=other, peers=[peer.sock]).start()
    awaits_version(again, "a", 3)
    twin.ran.send_signal(signal.SIGCONT)
    awaits_difference(twin, again, "has `x 3 removed`, and the log has `z 3 weight 5`")


def no_false_alarm(check):
    """Audits find nothing in what a node wrote itself: over removals, purges, restarts, a log that began anew, and one that was restored."""
    folder = check.folder()
    peer = check.node("b", "--pause", "50", "--budget", "1024", folder=folder)
    node = check.node("a", *OFTEN, "--purge-removals", "64", "--budget", "1024", "--metrics", str(folder / "a.prom"), folder=folder, peers=[peer.sock])
    far = check.node("d", "--pause", "50", folder=folder, peers=[peer.sock, node.sock])
    for it in (peer, node, far):
        it.start()
    node.put("kept", 7)
    audits = lambda found: found["attrdir_audits_total",] > 1
    calm = {("attrdir_name_conflict",): 0}
    for turn in range(3):
        for at in range(150):
            come_and_go(node, f"t{turn}/{at:03}", at)
            node.put(f"stays/{at:03}", turn)
        awaits(folder / "a.prom", "a", calm, audits)
        if turn == 1:
            peer.kill()
            peer.start()
        node.kill()
        if turn == 2:
            node.purge()
        node.start()
        node.put("kept", turn)
        awaits(folder / "a.prom", "a", calm, audits)
    rows = node.get("--owner", "a")
    peer.awaits("the rows of a", lambda found: found == rows)
    node.kill()
    node.begin(peer.sock)
    node.start()
    want("a write after begin", exchange(node.control, put("anew", weight(1)))[0], 0x13)
    awaits(folder / "a.prom", "a", calm, audits)
    peer.awaits("the new rows", lambda found: len(found) == 1)
    node.kill()
    node.lose()
    words = ["--log", str(node.log), "--name", "a", "--cluster", "c", "--from", str(peer.sock), "--from-control", str(peer.control)]
    want("a restored log", run(check.program, "restore", *words)[0], 0)
    node.start()
    want("a write after restore", exchange(node.control, put("again", weight(1)))[0], 0x13)
    awaits(folder / "a.prom", "a", calm, audits)
    for it in (peer, node, far):
        want(f"what {it.name} says of conflicts", [line for line in it.lines() if "fault 21" in line], [])


def never(check):
    """With --audit 0 a node audits nobody."""
    folder = check.folder()
    peer = check.node("b", "--pause", "50", folder=folder).start()
    node = check.node("a", "--audit", "0", "--pause", "50", "--metrics", str(folder / "a.prom"), folder=folder, peers=[peer.sock]).start()
    node.put("x", 1)
    awaits(folder / "a.prom", "a", {("attrdir_audits_total",): 0}, lambda found: found["attrdir_rounds_total",] > 10)


def asks_for_its_name_alone(check):
    """What an audit asks: its digest has the range of the own name alone, and says that nothing is held; it answers with an empty delta."""
    folder = check.folder()
    with socket.socket(socket.AF_UNIX, socket.SOCK_STREAM) as listener:
        listener.bind(str(folder / "b.sock"))
        listener.listen()
        node = check.node("a", *OFTEN, "--no-wait", "--dial-idle", "20000", folder=folder, peers=[folder / "b.sock"]).start()
        want("a write", node.put("x", 1), 1)
        end = time.monotonic() + SECONDS
        while time.monotonic() < end:
            with listener.accept()[0] as stream:
                stream.settimeout(SECONDS)
                stream.sendall(hello("b"))
                kinds = []
                while (message := read_frame(stream)) is not None:
                    kinds.append(message)
                    if message[0] == 2 and message[1][:3] == b"\x01\x01a":
                        want("the digest of an audit", message[1], b"\x01\x01a\x02a-" + b"\x00\x01" + b"\x01a" + bytes(24))
                        stream.sendall(delta("a", 0, [("x", 1, weight(2))]) + digest(0))
                        answer = read_frame(stream)
                        want("its answer", answer, (3, b"\x00\x00"))
                        want("its end", read_frame(stream), None)
                        want("a write", exchange(node.control, put("more", weight(1)))[1][0], OWNER_CONFLICT)
                        return
                    if message[0] == 2:
                        stream.sendall(NOTHING + digest(0))
                    if message[0] == 4:
                        break
        raise Difference("no audit came")


def put_at_once(node):
    """The answer to a write right after the start."""
    return exchange(node.control, put("first", weight(9)))


def refused_at_once(node):
    """The first write after a start is refused, since the peer is heard before. A node that does not hear it in two seconds may take the write, and is
    started again."""
    for _ in range(TRIES):
        began = time.monotonic()
        node.start()
        kind = put_at_once(node)[0]
        if kind == REFUSED or time.monotonic() - began < 2:
            break
        node.kill()
    want("the kind of the first answer", kind, REFUSED)
    want("a write after it", exchange(node.control, put("more", weight(1)))[1][0], OWNER_CONFLICT)
    node.kill()


def first_write(check):
    """With a peer up, an older copy of a log and a twin get fault 21 for their first write, however soon it comes."""
    folder, other = check.folder(), check.folder()
    peer = check.node("b", folder=folder).start()
    node = check.node("a", folder=folder, peers=[peer.sock]).start()
    want("first writes", [node.put(f"k{at}", at) for at in range(1, 4)], [1, 2, 3])
    node.kill()
    kept = node.log.with_name("kept.log")
    copied(node.log, kept)
    node.start()
    want("a later write", node.put("k4", 4), 4)
    peer.awaits("all of them", lambda found: len(found) == 4)
    node.kill()
    moved_back(kept, node.log)
    for turn in range(5):
        refused_at_once(node)
    moved_back(kept, node.log)
    alone = check.node("a", folder=folder).start()
    want("the version once more", alone.put("new4", 4), 4)
    alone.kill()
    for turn in range(5):
        refused_at_once(node)
    twin = check.node("a", folder=other).start()
    want("writes of a twin", [twin.put(f"k{at}", 7) for at in range(1, 5)], [1, 2, 3, 4])
    twin.kill()
    twin = check.node("a", folder=other, peers=[peer.sock])
    refused_at_once(twin)


def told_before(node, stream):
    """Whether questions are answered while the first write waits, whose answer comes over a stream."""
    rows = node.get()
    # (1 if a peer did not answer)
    want("the status", node.command("status")[0] in (0, 1), True)
    is_before = not select.select([stream], [], [], 0)[0]
    if is_before:
        want("the rows", rows, [])
    return is_before


def first_write_of(node, asks):
    """Starts a node, and writes at once: after how many seconds that was answered, and whether questions were answered before, if some are asked."""
    began = time.monotonic()
    node.start()
    with connect(node.control) as stream:
        stream.sendall(put("x", weight(1)))
        is_before = not asks or told_before(node, stream)
        want("the write", read_frame(stream), (DONE, (1).to_bytes(8, "big")))
    took = time.monotonic() - began
    node.kill()
    return took, is_before


def first_writes(check, what, peers, options, least, most, asks=False):
    """First writes of new nodes beside these peers are answered no sooner than so many seconds after the start, and not later than so many: not each, since
    a busy machine may stop a node, but one of some. If questions are asked, they are answered before that one."""
    found = []
    for _ in range(TRIES):
        found.append(first_write_of(check.node("a", *options, folder=check.folder(), peers=peers), asks))
        if found[-1][0] < least:
            break
        if found[-1][0] < most and found[-1][1]:
            return
    raise Difference(f"first writes {what} were answered after so many seconds, and behind questions or not: {found}")


def peers_are_down(check):
    """A node whose peers are all down takes its first write: at once if they cannot be reached, and after two seconds if they are silent. Questions are
    answered meanwhile. With --no-wait it waits for nobody."""
    folder = check.folder()
    nobody = [folder / "nobody.sock", folder / "none.sock"]
    first_writes(check, "beside peers that cannot be reached", nobody, (), 0, 1.5)
    with socket.socket(socket.AF_UNIX, socket.SOCK_STREAM) as listener:
        listener.bind(str(folder / "b.sock"))
        listener.listen()
        silent = [folder / "b.sock", folder / "nobody.sock"]
        # (it would give up the silent peer much later)
        first_writes(check, "beside a silent peer", silent, ("--dial-idle", "20000"), 1.9, 2.9, asks=True)
        first_writes(check, "with --no-wait", silent, ("--no-wait",), 0, 1.5)


PARTS = (older_copy, first_write, peers_are_down, twins, twin_while_running, no_false_alarm, never, asks_for_its_name_alone)
