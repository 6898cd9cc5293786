"""The parts of tools/check-node that look at watches that wait: how soon a line comes, tables that were replaced, restarts, more callers than a
node watches for, the messages themselves, the ages of owners, and beats."""
import json
import statistics
import time

from check_http import free_port, node_at
from check_scripts import tell
from check_watch import Watching
from nodes import BYE, SECONDS, TRIES, Difference, connect, delta, frame, hello, number, read_frame, run, text, want

# how many milliseconds may pass from the answer to a write at a node to the line of `watch` at its peer, at the median of so many writes: of one
# series of some, since a machine may be busy for a while. What gathers news first, or asks by the clock, is later at each.
MEDIAN_MOST = 10
WRITES = 100
# up to which age rows are asked for; the part of ages takes that long
SECONDS_MOST = 5


def ask_change(owner, prefix, wait):
    return frame(0x17, text(owner) + text(prefix) + number(wait, 8))


def ask_for_change(node, owner="", prefix="", wait=10_000):
    """A connection on which a node is asked to tell of a change, and its first answer."""
    stream = connect(node.control)
    stream.settimeout(SECONDS)
    stream.sendall(ask_change(owner, prefix, wait))
    return stream, read_frame(stream)


def pair_of_nodes(check, *options):
    """Two nodes that dial each other."""
    folder = check.folder()
    names = [folder / "a.sock", folder / "b.sock"]
    first = check.node("a", *options, folder=folder, peers=names[1:])
    second = check.node("b", *options, folder=folder, peers=names[:1])
    return first.start(), second.start()


def soon(check):
    """The line of a watch at a peer comes soon after `set` at a node."""
    near, far = pair_of_nodes(check)
    near.put("first", 1)
    watch = Watching(far, "--owner", "a", "--every", "0")
    medians = []
    try:
        watch.awaits(["set a first 1 weight 1"])
        while len(medians) < TRIES and min(medians, default=MEDIAN_MOST) >= MEDIAN_MOST:
            medians.append(statistics.median(milliseconds_to_line(near, watch, at) for at in range(WRITES)))
    finally:
        watch.stop()
    if min(medians) >= MEDIAN_MOST:
        raise Difference(f"lines came after {', '.join(f'{it:.1f}' for it in medians)} ms at the medians")


def milliseconds_to_line(near, watch, value):
    """How long after the answer to a write the line of a watch at the peer comes."""
    version = near.put("w", value)
    answered = time.monotonic()
    watch.awaits([f"set a w {version} weight {value}"])
    took = (time.monotonic() - answered) * 1000
    # (news is gathered for 60 ms at the most after the burst before)
    time.sleep(0.1)
    return took


def notices(check):
    """A caller hears first that the node watches, and then of the change that it asked for, or that there was none."""
    node = check.node("a").start()
    streams = [ask_for_change(node, *words) for words in (("", "w/"), ("a", ""), ("b", ""), ("", "x", 300), ("", "", 0))]
    want("the first answers", [it for _, it in streams], [(0x18, b"\x01")] * 5)
    under, own, other, short, none = (it for it, _ in streams)
    want("the answer of no wait", read_frame(none), (0x18, b"\x03"))
    want("the answer of a short wait", read_frame(short), (0x18, b"\x03"))
    want("set", node.put("w/a", 1), 1)
    want("the answer under a prefix", read_frame(under), (0x18, b"\x02"))
    want("the answer of an owner", read_frame(own), (0x18, b"\x02"))
    want("the ends", [read_frame(under), read_frame(own)], [None, None])
    tell(node, "b", 0, ("k", 1, 5))
    want("the answer of another owner", read_frame(other), (0x18, b"\x02"))
    stream, first = ask_for_change(node)
    want("the first answer", first, (0x18, b"\x01"))
    want("del", node.command("del", "w/a"), (0, "version 2\n", ""))
    want("the answer to a removal", read_frame(stream), (0x18, b"\x02"))
    for it, _ in streams:
        it.close()


def many(check):
    """A node watches for 64 callers; one more is refused, and its watch asks by the clock; a caller that leaves makes room."""
    node = check.node("a").start()
    # (no time is over before the part is)
    streams = [ask_for_change(node, wait=600_000) for _ in range(64)]
    want("64 answers", {it for _, it in streams}, {(0x18, b"\x01")})
    want("one more", ask_for_change(node)[1], (0x14, bytes([27])))
    watch = Watching(node, "--every", "20")
    try:
        watch.awaits([])
        want("set", node.put("k", 1), 1)
        watch.awaits(["set a k 1 weight 1"])
    finally:
        watch.stop()
    want("the answers", {read_frame(it) for it, _ in streams}, {(0x18, b"\x02")})
    left = [ask_for_change(node, wait=600_000)[0] for _ in range(64)]
    for it in left[:10]:
        it.close()
    end = time.monotonic() + SECONDS
    while ask_for_change(node)[1] != (0x18, b"\x01"):
        if time.monotonic() > end:
            raise Difference("callers that left make no room")
        time.sleep(0.02)


def cleared(check):
    """A table that is replaced without a new entry is a change of its owner under each prefix."""
    node = check.node("a").start()
    tell(node, "p", 0, ("x", 1, 10), ("y", 2, 20))
    watch = Watching(node, "--prefix", "x")
    try:
        watch.awaits(["set p x 1 weight 10"])
        stream, _ = ask_for_change(node, "p", "q")
        with connect(node.sock) as peer:
            # (all that p set up to version 3 is removed)
            peer.sendall(hello("teller") + delta("p", 0, [], floor=3, upto=3) + BYE)
            while read_frame(peer):
                pass
        want("the answer", read_frame(stream), (0x18, b"\x02"))
        watch.awaits(["gone p x"])
    finally:
        watch.stop()


def over_restarts(check):
    """A watch that goes on is told by a node that was started again too, and by another at its socket."""
    node = check.node("a").start()
    want("set", node.put("k", 1), 1)
    watch = Watching(node, "--retry", "--every", "0")
    try:
        watch.awaits(["set a k 1 weight 1"])
        for at in range(2, 5):
            node.kill()
            node.start()
            want("set", node.put("k", at), at)
            watch.awaits([f"set a k {at} weight {at}"])
    finally:
        watch.stop()


def told_between(node, *words):
    """Tells a node of writes. The moments between which it heard them."""
    began = time.monotonic()
    tell(node, *words)
    return began, time.monotonic()


def owner_ages(check):
    """Ages say how long ago a version rose; old rows are left out; and a repeat makes no owner younger."""
    node = check.node("a").start()
    times = {"p": told_between(node, "p", 0, ("x", 1, 10))}
    time.sleep(SECONDS_MOST + 1)
    times["q"] = told_between(node, "q", 0, ("x", 1, 10))
    asked = time.monotonic()
    ages = {it["owner"]: it["age"] for it in map(json.loads, node.get("--format", "json", "--ages"))}
    answered = time.monotonic()
    want("whose ages", sorted(ages), ["p", "q"])
    for owner, (began, ended) in times.items():
        if not (asked - ended) * 1000 - 1 <= ages[owner] <= (answered - began) * 1000 + 1:
            raise Difference(f"the age of {owner} is {ages[owner]}, and it was heard from {asked - ended} to {answered - began} s ago")
    late = str(SECONDS_MOST)
    want("rows of some seconds", node.get("--max-age", late), ["q x 1 weight 10"])
    want("rows of an hour", node.get("--max-age", "3600"), ["p x 1 weight 10", "q x 1 weight 10"])
    tell(node, "p", 0, ("x", 1, 10))
    want("rows of some seconds, after a repeat", node.get("--max-age", late), ["q x 1 weight 10"])
    tell(node, "p", 1, ("y", 2, 20))
    want("rows of some seconds, after a write", node.get("--max-age", late), ["p x 1 weight 10", "p y 2 weight 20", "q x 1 weight 10"])
    words = ["owners", "--sock", str(node.sock), "--cluster", "c", "--ages-from", str(node.control)]
    status, printed, said = run(node.program, *words)
    lines = [it.split() for it in printed.splitlines()]
    want("owners with ages", (status, said, [it[:2] for it in lines]), (0, "", [["a", "0"], ["p", "2"], ["q", "1"]]))
    want("ages in lines", [it[2].isdigit() for it in lines], [True] * 3)
    want("ages without JSON", node.command("get", "--ages")[:2], (2, ""))


def beats_in(rows, owner, key):
    """The version of the beat, if it is the only row of these."""
    words = [it.split() for it in rows]
    if [[*it[:2], *it[3:]] for it in words] != [[owner, key, "flag", "true"]]:
        return 0
    return int(words[0][2])


def beats(check):
    """A node with a beat writes it again and again, under the key that is given, and never before its time."""
    began = time.monotonic()
    node = check.node("a", "--beat", "1").start()
    other = check.node("b", "--beat", "1", "--beat-key", "lives").start()
    node.awaits("the third beat", lambda rows: beats_in(rows, "a", "beat") >= 3)
    other.awaits("the second beat", lambda rows: beats_in(rows, "b", "lives") >= 2)
    # (the first is made at once)
    made, seconds = beats_in(node.get(), "a", "beat"), time.monotonic() - began
    if not 3 <= made <= 1 + seconds:
        raise Difference(f"{made} beats were made in {seconds:.2f} s")
    silent = check.node("c").start()
    time.sleep(0.1)
    want("a node without", silent.get(), [])
    wrong = check.node("d", "--beat-key", "K")
    found = run(check.program, *map(str, wrong.words()[1:]))
    want("a word that is no key", (found[0], found[1], found[2].splitlines()[0]), (3, "", "fault 3"))


def watched_beside_http(check):
    """A change for which a caller waited leaves the socket for HTTP as it was, at a path and at a port."""
    folder = check.folder()
    for name, at in (("a", folder / "a.http"), ("b", free_port())):
        node, place = node_at(check, name, at, folder=folder)
        stream, first = ask_for_change(node)
        want("the first answer", first, (0x18, b"\x01"))
        want("set", node.put("k", 1), 1)
        want("the answer to a change", read_frame(stream), (0x18, b"\x02"))
        host = "localhost" if name == "a" else f"127.0.0.1:{at}"
        for _ in range(10):
            status, _, body = place.bytes(f"GET /v1/rows?key=k&owner={name} HTTP/1.1\r\nhost: {host}\r\n\r\n".encode())
            want("the row over HTTP", (status, json.loads(body)["version"]), (200, 1))
        stream.close()


def polled_beside_callers(check):
    """If 64 callers wait for a change, a poll over HTTP lacks a watch. It is refused at once, and not after its wait."""
    folder = check.folder()
    node, place = node_at(check, "a", folder / "a.http", folder=folder)

    def rows(query):
        status, _, body = place.bytes(f"GET /v1/rows?{query} HTTP/1.1\r\nhost: localhost\r\n\r\n".encode())
        return status, json.loads(body)

    mark = rows("wait=0s")[1]["seen"]
    streams = [ask_for_change(node, wait=600_000) for _ in range(64)]
    want("64 answers", {it for _, it in streams}, {(0x18, b"\x01")})
    began = time.monotonic()
    status, found = rows(f"wait=25s&seen={mark}")
    want("a poll that lacks a watch", (status, found.get("fault"), time.monotonic() - began < 12), (503, 27, True))
    for stream, _ in streams:
        stream.close()


PARTS = (notices, many, cleared, over_restarts, soon, owner_ages, beats, watched_beside_http, polled_beside_callers)
