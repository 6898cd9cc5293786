"""The parts of tools/check-node that look at connections which are silent or slow, at both sockets: nobody waits for them."""
import resource
import select
import threading
import time

from check_waking import seconds_until
from nodes import BYE, FRAME_FRONT, ROWS, SECONDS, TRIES, Difference, ask, connect, digest, exchange, hello, number, put, read_frame, version_of, want, weight

# how many connections may wait at a socket
MOST = 1024
# what no answer may take beside them, in seconds: less than any of them may hold up another
SOON = 2.0
# how a message begins that is never whole, since it would have 60,000 bytes
LONG_FRAME = FRAME_FRONT + number(60_000, 4)


def soon(what, call):
    """What a call gives, which has to come soon."""
    began = time.monotonic()
    found = call()
    if time.monotonic() - began > SOON:
        raise Difference(f"{what} took {time.monotonic() - began:.2f} s")
    return found


def session(node, name="zz"):
    """The kinds of what a node says in a session."""
    with connect(node.sock) as stream:
        stream.sendall(hello(name) + digest(1) + BYE)
        kinds = []
        while (message := read_frame(stream)) is not None:
            kinds.append(message[0])
        return kinds


def is_served(node, version):
    """A write, a question and a session, each of them soon."""
    want("a write", soon("a write", lambda: node.put("k", version)), version)
    want("a question", soon("a question", lambda: exchange(node.control, ask()))[0], ROWS)
    want("a session", soon("a session", lambda: session(node)), [1, 3, 2])


def is_closed(stream, seconds=0.0):
    """Whether the node has closed a connection on which it says nothing."""
    # (select takes no descriptor above 1,023)
    found = select.poll()
    found.register(stream, select.POLLIN)
    return bool(found.poll(seconds * 1000))


def close_all(streams):
    for stream in streams:
        stream.close()


def silent_callers(check):
    """Callers and peers that say nothing delay nobody, and are closed once --request or --idle is over; so is a caller that sends a byte now and then."""
    node = check.node("a", "--request", "3000", "--idle", "6000", "--workers", "1").start()
    began = time.monotonic()
    callers, peers = ([connect(path) for _ in range(40)] for path in (node.control, node.sock))
    is_served(node, 1)
    closed = [it for it in callers + peers if is_closed(it)]
    if time.monotonic() - began < 2.5:
        want("who is closed at once", closed, [])
    request, began = put("k", weight(6)), time.monotonic()
    with connect(node.control) as slow:
        try:
            for at in range(len(request)):
                slow.sendall(request[at : at + 1])
                time.sleep(0.4)
            raise Difference("a request that took 7.2 s was taken whole")
        except OSError:
            pass
    if not 2.5 <= time.monotonic() - began <= 6.5:
        raise Difference(f"a slow caller was closed after {time.monotonic() - began:.2f} s")
    want("who is closed behind --request", [is_closed(it) for it in callers], 40 * [True])
    want("who is closed behind --idle", [is_closed(it, 10) for it in peers], 40 * [True])
    is_served(node, 2)
    close_all(callers + peers)


def slow_requests(check):
    """A request that is whole is served before one of which less has come, and that one as soon as it is whole."""
    node = check.node("a", "--workers", "1", "--request", "0", "--idle", "0").start()
    for path, content, kind in ((node.control, put("slow", weight(6)), None), (node.control, ask(), ROWS)):
        with connect(path) as slow:
            slow.sendall(content[:-1])
            version = soon("a write beside a slow caller", lambda: node.put("k", 5))
            want("whether a slow caller is answered", is_closed(slow, 0.2), False)
            slow.sendall(content[-1:])
            answer = soon("a slow caller", lambda: read_frame(slow))
            if kind is None:
                want("the version of a slow write", version_of(answer), version + 1)
            else:
                want("the kind of a slow answer", answer[0], kind)


def slow_peers(check):
    """Peers that send a byte now and then hold the workers for --session at most. Meanwhile callers are answered, by the owner's thread if need be."""
    node = check.node("a", "--workers", "2", "--idle", "3000", "--session", "6000").start()
    began, ended = time.monotonic(), []

    def dribble():
        with connect(node.sock) as stream:
            try:
                stream.sendall(hello("zz"))
                for byte in LONG_FRAME + bytes(200):
                    stream.sendall(bytes([byte]))
                    time.sleep(0.1)
            except OSError:
                ended.append(time.monotonic() - began)

    threads = [threading.Thread(target=dribble) for _ in range(2)]
    for thread in threads:
        thread.start()
    time.sleep(0.3)
    want("a write", soon("a write", lambda: node.put("k", 1)), 1)
    want("a question", soon("a question", lambda: exchange(node.control, ask()))[0], ROWS)
    want("a session", session(node, "b"), [1, 3, 2])
    for thread in threads:
        thread.join()
    want("how many slow peers were ended", len(ended), 2)
    if not 5.8 <= min(ended) <= max(ended) <= 12:
        raise Difference(f"slow peers were ended after {ended} s")


def slow_hellos(check):
    """Peers that are silent, or send a byte of their Hello now and then, hold no worker. Writes of another node arrive soon, and they are closed behind --idle."""
    folder = check.folder()
    hub = check.node("a", "--workers", "4", "--idle", "6000", folder=folder).start()
    leaf = check.node("b", "--pause", "1000", folder=folder, peers=[hub.sock]).start()
    hub.awaits("a row of b", lambda rows: leaf.put("k", 0) and any(it.startswith("b ") for it in rows))
    peers, began = [connect(hub.sock) for _ in range(8)], time.monotonic()
    for byte in hello("z" * 32)[:12]:
        for peer in peers[4:]:
            peer.sendall(bytes([byte]))
        version = leaf.put("k", byte)
        seconds = seconds_until(hub, "b", version)
        if seconds > 3:
            raise Difference(f"a write of another node took {seconds:.2f} s")
        time.sleep(0.1)
    is_served(hub, 1)
    closed = [it for it in peers if is_closed(it)]
    if time.monotonic() - began < 5.5:
        want("who is closed at once", closed, [])
    want("who is closed behind --idle", [is_closed(it, 10) for it in peers], 8 * [True])
    close_all(peers)


def full_list(check):
    """At each socket 1,024 connections may wait. One more takes the room of the oldest that has said nothing."""
    soft, hard = resource.getrlimit(resource.RLIMIT_NOFILE)
    wanted = 2 * MOST + 200
    if hard != resource.RLIM_INFINITY and hard < wanted:
        check.lacking.add(f"process may have {wanted} descriptors, so no list of connections was full")
        return
    resource.setrlimit(resource.RLIMIT_NOFILE, (max(soft, wanted), hard))
    # (a node that is started now has that limit too)
    node = check.node("a", "--workers", "1", "--request", "60000", "--idle", "60000").start()
    silent = []
    try:
        for path in (node.control, node.sock):
            here = []
            for at in range(MOST):
                here.append(connect(path))
                # (the oldest at the control socket has said something, and so stays)
                if path == node.control and at == 0:
                    here[0].sendall(put("first", weight(1))[:5])
            silent += here
            time.sleep(0.5)
            want("who is closed of those that may wait", [at for at, it in enumerate(here) if is_closed(it)], [])
            here.append(connect(path))
            silent.append(here[-1])
            oldest = 1 if path == node.control else 0
            want("whether the oldest is closed", is_closed(here[oldest], SECONDS), True)
            want("who else is closed", [at for at, it in enumerate(here) if at != oldest and is_closed(it)], [])
        is_served(node, 1)
        silent[0].sendall(put("first", weight(1))[5:])
        want("the version of the oldest", version_of(read_frame(silent[0])), 2)
    finally:
        close_all(silent)
        resource.setrlimit(resource.RLIMIT_NOFILE, (soft, hard))


def writes(node):
    """How long each of some writes took."""
    times = []
    for at in range(30):
        began = time.monotonic()
        node.put("k", at)
        times.append(time.monotonic() - began)
    return times


def half_of(times):
    """What half of these took at most."""
    return sorted(times)[len(times) // 2]


def reads_beside_writes(check):
    """Listings in a loop, by more callers than there are workers, delay no write for long."""
    node = check.node("a", "--workers", "2").start()
    for at in range(100):
        node.put(f"k{at}", at)
    found = []
    # (a machine may be busy for a while, but not each time)
    while len(found) < TRIES:
        found.append(halves_beside_listings(node))
        alone, beside = found[-1]
        # (a machine that has much else to do is slow at both)
        if beside <= max(0.1, 5 * alone):
            return
    raise Difference(f"what half of the writes took without listings, and beside them, in seconds: {found}")


def halves_beside_listings(node):
    """What half of some writes took at most, without listings, and beside them."""
    alone = half_of(writes(node))
    is_over = threading.Event()

    def list_on():
        while not is_over.is_set():
            want("a listing", exchange(node.control, ask())[0], ROWS)

    threads = [threading.Thread(target=list_on) for _ in range(4)]
    for thread in threads:
        thread.start()
    beside = half_of(writes(node))
    is_over.set()
    for thread in threads:
        thread.join()
    return alone, beside


PARTS = (silent_callers, slow_requests, slow_peers, slow_hellos, full_list, reads_beside_writes)
