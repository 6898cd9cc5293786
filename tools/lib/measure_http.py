"""The part of tools/measure-node that asks nodes over HTTP, at their sockets."""
import json
import select
import time
from contextlib import ExitStack

from measuring import IN_PAGE, Beside, Full, say, say_times, spaced
from nodes import Difference, connect, want

# how many clients ask for a row, for how many seconds, and how many times a turn
CLIENTS, GET_SECONDS, IN_TURN = 2, 5, 20
PAGES, POLLS = 400, 200
# after how many seconds a poll waits
UNTIL_IT_WAITS = 0.05
GETS_LEAST, PAGE_LIMIT, POLL_LIMIT = 5000, 1, 10


def ask_for(stream, target):
    stream.sendall(f"GET {target} HTTP/1.1\r\nHost: localhost\r\n\r\n".encode())


def body_of(stream, target):
    """The body of an answer, which has come when the connection ends."""
    got = b""
    while piece := stream.recv(65536):
        got += piece
    head, _, body = got.partition(b"\r\n\r\n")
    want(f"the answer to {target}", head.split(b"\r\n")[0], b"HTTP/1.1 200 OK")
    return body


def fetched(path, target):
    with connect(path) as stream:
        ask_for(stream, target)
        return body_of(stream, target)


def row(owner, key, version, value):
    return {"key": key, "kind": "weight", "owner": owner, "value": value, "version": version}


# ---- small rows


def gets(path, owner, wanted):
    """Turns of a client that asks for the row k over and over. Each gives how many answers came by then, and when that was."""
    got = 0
    while True:
        yield got, time.perf_counter()
        for _ in range(IN_TURN):
            want("a row", fetched(path, f"/v1/rows/{owner}/k"), wanted)
        got += IN_TURN


def measure_gets(nodes):
    folder = nodes.folder()
    path = folder / "a.http"
    node = nodes.node("a", "--http", str(path), folder=folder).start()
    wanted = json.dumps(row("a", "k", node.put("k", 5), 5), separators=(",", ":")).encode() + b"\n"
    with ExitStack() as both:
        began = time.perf_counter()
        clients = [both.enter_context(Beside(gets(path, "a", wanted))) for _ in range(CLIENTS)]
        time.sleep(GET_SECONDS)
        rates = [got / (end - began) for got, end in (it.last() for it in clients)]
    say(f"http-rows-to-{CLIENTS}-clients", sum(rates), "a second", least=GETS_LEAST)
    nodes.stop()


# ---- polls


def answered_poll(node, path, seen, value):
    """How long after a write at a peer a poll is answered that knew these rows and waited; and the mark that it brought."""
    target = f"/v1/rows?owner={node.name}&prefix=k&wait=30s&seen={seen}"
    with connect(path) as stream:
        ask_for(stream, target)
        time.sleep(UNTIL_IT_WAITS)
        if select.select([stream], [], [], 0)[0]:
            raise Difference(f"a poll was answered before a write: {body_of(stream, target)[:300]}")
        began = time.perf_counter()
        version = node.put("k", value)
        body = body_of(stream, target)
        took = time.perf_counter() - began
    found = json.loads(body)
    want("the rows of a poll", found["rows"], [row(node.name, "k", version, value)])
    return took, found["seen"]


def measure_polls(nodes):
    folder = nodes.folder()
    path = folder / "b.http"
    writer = nodes.node("a", folder=folder, peers=[folder / "b.sock"]).start()
    reader = nodes.node("b", "--http", str(path), folder=folder, peers=[writer.sock]).start()
    version = writer.put("k", 0)
    reader.awaits("the first row", lambda rows: rows == [f"a k {version} weight 0"])
    # (the first rounds have found out that the peers answer)
    time.sleep(3)
    seen, times = json.loads(fetched(path, "/v1/rows?owner=a&prefix=k&wait=0s"))["seen"], []
    for at in spaced(POLLS):
        took, seen = answered_poll(writer, path, seen, at + 1)
        times.append(took)
    say_times("http-poll-after-a-write-at-a-peer", (POLL_LIMIT, POLL_LIMIT), times, "99th")
    nodes.stop()


# ---- a page among many rows


def measure_pages(nodes, entries):
    folder = nodes.folder()
    path = folder / "a.http"
    full = Full(entries, "--http", str(path))
    full.start(nodes)
    owner = full.others.paged
    said = sorted(it for it in full.others.entries(owner) if it[0].startswith("page/"))
    wanted = {"more": False, "rows": [row(owner, key, version, int.from_bytes(slot[1:], "big")) for key, version, slot in said]}
    want("the rows of the page", len(wanted["rows"]), IN_PAGE)
    say("http-rows-at-the-node", entries, "rows")
    for name, query in (("http-page", "prefix=page/"), ("http-page-of-owner", f"owner={owner}&prefix=page/")):
        times = []
        for _ in range(PAGES):
            began = time.perf_counter()
            body = fetched(path, f"/v1/rows?{query}")
            times.append(time.perf_counter() - began)
            want(f"{name} of {owner}", json.loads(body), wanted)
        say_times(name, (PAGE_LIMIT, PAGE_LIMIT), times, "99th")
    nodes.stop()


def measure_http(nodes, entries):
    nodes.stop()
    measure_gets(nodes)
    measure_polls(nodes)
    measure_pages(nodes, entries)
