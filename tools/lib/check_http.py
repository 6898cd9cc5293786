"""The parts of tools/check-node that ask nodes over HTTP: by curl at a Unix socket and at a port, and by bytes that are made by hand."""
import base64
import hashlib
import json
import os
import re
import select
import shlex
import shutil
import socket
import subprocess
import threading
import time

import check_metrics
from nodes import ROOT, SECONDS, TRIES, Difference, connect, read_exactly, run, send_in_pieces, until, want

# the fields that each answer has, in their order, before the length of its body
FIELDS = [("connection", "close"), ("cache-control", "no-store"), ("x-content-type-options", "nosniff"), ("content-type", "application/json")]


UNKNOWN = "there is no such parameter: rows take owner, prefix, after, wait and seen, or owner and key; a write takes key; each is NAME=VALUE"
PARAMETERS = "each parameter comes once; key goes with owner alone, and in a write with no other"
NO_KEY = "name the key: /v1/keys/KEY, or /v1/keys?key=KEY"
WAIT = "wait is 0s to 60s, as in wait=30s; seen is a mark of an answer, and goes with wait"
KEY = "a key is 1 to 64 of the bytes a-z, 0-9, '.', '_', '/' and -; a prefix may be empty; an escape is % and two hex digits, as %2F"
PLACE = "one row is at /v1/rows/OWNER/KEY, those of an owner at /v1/rows?owner=OWNER; after is OWNER/KEY"
VALUE = "a value is addr with 1 to 128 printing bytes, weight a whole number from 0 to 2^63 - 1 without quotes, flag true or false, or text of 1 to 512 UTF-8 bytes"
KIND = "the kind is addr, weight, flag or text"
SPENT = "as many polls or writes wait at this node as may; a write was not made; ask again in a second, or give polls a shorter wait"


def free_port():
    with socket.socket() as it:
        it.bind(("127.0.0.1", 0))
        return it.getsockname()[1]


class Asked:
    """A place at which a node answers over HTTP: the path of a socket, or a port."""

    def __init__(self, place):
        self.place = place

    def curl(self, path, *words):
        """The status, the fields and the body of an answer."""
        if isinstance(self.place, int):
            address = [f"http://127.0.0.1:{self.place}{path}"]
        else:
            address = ["--unix-socket", str(self.place), f"http://localhost{path}"]
        ran = subprocess.run(["curl", "-s", "-S", "-i", "--path-as-is", "--max-time", str(SECONDS), *words, *address], capture_output=True, timeout=2 * SECONDS)
        if ran.returncode != 0:
            raise Difference(f"curl {path}: {ran.stderr.decode()}")
        return parsed(ran.stdout)

    def connect(self):
        if isinstance(self.place, int):
            return socket.create_connection(("127.0.0.1", self.place), timeout=SECONDS)
        return connect(self.place)

    def bytes(self, content, ends=False):
        """What comes to these bytes, up to the end of the connection; no more follow if it ends."""
        with self.connect() as stream:
            stream.sendall(content)
            if ends:
                stream.shutdown(socket.SHUT_WR)
            return parsed(read_all(stream))

    def json(self, path, *words):
        """The status and the object of an answer."""
        status, fields, body = self.curl(path, *words)
        want(f"the fields of {path}", fields[:4], FIELDS)
        want(f"the end of {path}", body[-1:], b"\n")
        return status, json.loads(body)

    def rows(self, query=""):
        """All rows, page after page."""
        rows, after = [], ""
        while True:
            status, found = self.json(f"/v1/rows?{query}{after}")
            want(f"the status of {query}{after}", (status, list(found)), (200, ["more", "rows"]))
            rows += found["rows"]
            if not found["more"]:
                return rows
            after = f"&after={found['rows'][-1]['owner']}/{found['rows'][-1]['key']}"


def read_all(stream):
    """What comes up to the end of a connection."""
    return b"".join(iter(lambda: stream.recv(65536), b""))


def parsed(answer):
    head, _, body = answer.partition(b"\r\n\r\n")
    first, *fields = head.decode().split("\r\n")
    return int(first.split()[1]), [tuple(it.lower().split(": ", 1)) for it in fields], body


def lacks_curl(check):
    if shutil.which("curl") is None:
        check.lacking.add("curl is here, so no node was asked over HTTP")
        return True
    return False


def node_at(check, name, place, *options, folder=None, peers=()):
    address = f"127.0.0.1:{place}" if isinstance(place, int) else str(place)
    node = check.node(name, "--http", address, *options, folder=folder, peers=peers).start()
    return node, Asked(place)


def refused(place, path, status, error, fault=None, *words):
    """An answer that says what is wrong."""
    wanted = {"error": error} | ({} if fault is None else {"fault": fault})
    want(f"the answer to {path} {words}", place.json(path, *words), (status, wanted))


# ---- the parts


def http_rows(check):
    """At a socket and at a port a node answers with the rows that `get --format json` prints, page by page, and one row alone."""
    if lacks_curl(check):
        return
    folder = check.folder()
    node, place = node_at(check, "a", folder / "a.http", folder=folder)
    port = free_port()
    other, at_port = node_at(check, "b", port, "--pause", "100", folder=folder, peers=[node.sock])
    for words in (("web/motto", "text", 'Grüße <b>"x"</b>\\0a'), ("web/at", "addr", "10.0.0.1:80"), ("web/up", "flag", "true"), ("n", "weight", "9223372036854775807")):
        want(f"set {words}", node.command("set", *words)[0], 0)
    for count in range(200):
        node.put(f"many/{count:03}", count)
    other.awaits("all rows", lambda rows: len(rows) == 204)
    for where, asked in ((node, place), (other, at_port)):
        want(f"all rows at {where.name}", asked.rows(), [json.loads(it) for it in where.get("--format", "json")])
    want("rows of nobody", at_port.json("/v1/rows?owner=zz"), (200, {"more": False, "rows": []}))
    web = at_port.rows("owner=a&prefix=web/")
    want("rows under a prefix", [it["key"] for it in web], ["web/at", "web/motto", "web/up"])
    want("the same prefix with an escape", at_port.rows("prefix=web%2f&owner=a"), web)
    want("rows after a place", [it["key"] for it in at_port.rows("owner=a&prefix=web/&after=a/web/at")], ["web/motto", "web/up"])
    want("one row", at_port.json("/v1/rows/a/web/motto"), (200, web[1]))
    want("one row with escapes", at_port.json("/v1/rows/a%2Fweb%2fmotto"), (200, web[1]))
    want("one row by its parameters", at_port.json("/v1/rows?key=web/motto&owner=a"), (200, web[1]))
    refused(at_port, "/v1/rows/a/web", 404, "there is no such row")
    refused(at_port, "/v1/rows/c/web/motto", 404, "there is no such row")
    status, fields, body = at_port.curl("/v1/rows", "-I")
    want("a HEAD", (status, body), (200, b""))


def http_owners(check):
    """The owners that a node shows, in the order of their names, with the version and the number of rows of each, and how long ago it heard each."""
    if lacks_curl(check):
        return
    folder = check.folder()
    node, place = node_at(check, "a", folder / "a.http", folder=folder)
    want("no owner yet", place.curl("/v1/owners")[2], b'{"owners":[]}\n')
    other = check.node("b", "--pause", "100", folder=folder, peers=[node.sock]).start()
    began = time.monotonic()
    node.put("k", 5), node.put("l", 6), other.put("k", 7)
    want("a removal", node.command("del", "l")[0], 0)
    node.awaits("the row of b", lambda rows: len(rows) == 2)
    # (a row is shown, and a write is answered, a moment before its owner counts as heard)
    time.sleep(0.5)
    ended = time.monotonic()
    time.sleep(1)
    asked = time.monotonic()
    node.put("k", 8)
    while True:
        body = place.curl("/v1/owners")[2].decode()
        answered = time.monotonic()
        want("the owners", with_no_ages(body), '{"owners":[{"age":N,"owner":"a","rows":1,"version":4},{"age":N,"owner":"b","rows":1,"version":1}]}\n')
        of_a, of_b = (it["age"] for it in json.loads(body)["owners"])
        if of_a <= (answered - asked) * 1000 + 1 or answered - asked > 5:
            break
    if of_a > (answered - asked) * 1000 + 1:
        raise Difference(f"the age of a is {of_a}, and it wrote {answered - asked} s ago at most")
    if not (asked - ended) * 1000 - 1 <= of_b <= (answered - began) * 1000 + 1:
        raise Difference(f"the age of b is {of_b}, and it was heard from {asked - ended} to {answered - began} s ago")


def with_no_ages(body):
    """A body with N in the place of each age, since ages are others each time."""
    return re.sub(r'"age":\d+', '"age":N', body)


def put(place, key, kind, value, *words):
    """The status and the object of the answer to a PUT."""
    return place.json(f"/v1/keys/{key}", "-X", "PUT", "-d", json.dumps({"kind": kind, "value": value}), *words)


def bytes_of_put(key, weight):
    body = json.dumps({"kind": "weight", "value": weight})
    return f"PUT /v1/keys/{key} HTTP/1.1\r\nHost: x\r\nContent-Length: {len(body)}\r\n\r\n{body}".encode()


def put_by_bytes(place, key, weight):
    """The status and the object of the answer to a PUT of a weight, without a process of its own."""
    status, _, found = place.bytes(bytes_of_put(key, weight))
    return status, json.loads(found)


def http_writes(check):
    """At a socket a node takes a write of each kind and a removal, and answers with its version; faults have their statuses; a port takes none."""
    if lacks_curl(check):
        return
    folder = check.folder()
    node, place = node_at(check, "a", folder / "a.http", "--pause", "100", folder=folder)
    other, at_port = node_at(check, "b", free_port(), "--pause", "100", folder=folder, peers=[node.sock])
    values = (("web/motto", "text", 'Grüße <b>"x"</b>\n'), ("web/at", "addr", "10.0.0.1:80"), ("web/up", "flag", True), ("n", "weight", 2**63 - 1))
    for version, (key, kind, value) in enumerate(values, 1):
        want(f"a PUT of {kind}", put(place, key, kind, value), (200, {"version": version}))
    want("the rows of these writes", place.rows(), [json.loads(it) for it in node.get("--format", "json")])
    want("what they hold", {(it["key"], it["kind"], it["value"]) for it in place.rows()}, set(values))
    other.awaits("these rows", lambda rows: len(rows) == 4)
    want("a PUT by its parameter", place.json("/v1/keys?key=a/../b", "-X", "PUT", "-d", '{"value":1,"kind":"weight"}'), (200, {"version": 5}))
    want("a PUT with an escape", put(place, "web%2Fat", "weight", 0), (200, {"version": 6}))
    want("a DELETE", place.json("/v1/keys/web/at", "-X", "DELETE"), (200, {"version": 7}))
    run_out = run(check.program, "del", "--control", str(node.control), "web/at")[2].splitlines()[1]
    refused(place, "/v1/keys/web/at", 404, run_out, 9, "-X", "DELETE")
    other.awaits("the removal", lambda rows: len(rows) == 4 and not any(" web/at " in it for it in rows))
    for words in (("-X", "PUT", "-d", '{"kind":"weight","value":5}'), ("-X", "DELETE")):
        refused(at_port, "/v1/keys/k", 403, "writes are taken at a Unix socket only", None, *words)
    for method in ("GET", "POST"):
        status, fields, body = place.curl("/v1/keys/k", "-X", method)
        want(f"{method} of a key", (status, dict(fields)["allow"], json.loads(body)), (405, "put, delete", {"error": "write by PUT, remove by DELETE; a row is read at /v1/rows/OWNER/KEY"}))
    form = 'the body is JSON of this form: {"kind":"weight","value":5}'
    for body in ("", "5", "{}", '{"kind":"weight"}', '{"kind":"weight","value":5,"x":1}', '{"kind":"weight","value":5', "\x01", 200 * "[", 900 * '{"value":'):
        refused(place, "/v1/keys/k", 400, form, None, "-X", "PUT", "-d", body)
    for kind, word in (("weight", "5"), ("weight", -1), ("weight", 2**63), ("weight", 1.5), ("flag", "true"), ("addr", "a b"), ("text", ""), ("text", 513 * "x"), ("text", None)):
        status, found = put(place, "k", kind, word)
        want(f"the value {word!r} of {kind}", (status, found), (400, {"error": VALUE, "fault": 4}))
    for kind in ("x", "adr", "Weight", "", 5):
        want(f"the kind {kind!r}", put(place, "k", kind, 5), (400, {"error": KIND, "fault": 4}))
    want("the longest text", put(place, "k", "text", 512 * "x"), (200, {"version": 8}))
    head = b"PUT /v1/keys/k HTTP/1.1\r\nHost: x\r\n"
    want("a longer body", place.bytes(head + b"Content-Length: 8193\r\n\r\n" + 8193 * b" ")[0], 413)
    chunked = head + b"Transfer-Encoding: chunked\r\n\r\n8\r\n{\"kind\":\r\n14\r\n\"flag\",\"value\":true}\r\n0\r\n\r\n"
    want("a body in chunks", place.bytes(chunked)[::2], (200, b'{"version":9}\n'))
    want("half a body", place.bytes(head + b'Content-Length: 27\r\n\r\n{"kind":"weight"', ends=True)[0], 400)
    twice = b'{"kind":"flag","value":4,"kind":"weight","value":6}'
    want("members that come twice", place.bytes(head + b"Content-Length: 51\r\n\r\n" + twice)[::2], (200, b'{"version":10}\n'))
    for path in ("/v1/keys/K", "/v1/keys/", f"/v1/keys/{65 * 'k'}", "/v1/keys?key=K"):
        refused(place, path, 400, KEY, 3, "-X", "DELETE")
    for path, text in (("?key=k&owner=a", PARAMETERS), ("?key=k&key=k", PARAMETERS), ("", NO_KEY), ("?owner=a", NO_KEY), ("?ky=k", UNKNOWN), ("?key", UNKNOWN)):
        refused(place, f"/v1/keys{path}", 400, text, None, "-X", "DELETE")
    many = [threading.Thread(target=lambda count=count: [put(place, f"many/{count}", "weight", it) for it in range(10)]) for count in range(7)]
    for it in many:
        it.start()
    for it in many:
        it.join()
    want("the version after writes at once", put(place, "k", "weight", 5), (200, {"version": 81}))
    node.log.unlink()
    status, found = put(place, "k", "weight", 6)
    want("a PUT once the log is lost", (status, found["fault"]), (503, 15))


def http_first_writes(check):
    """A PUT waits for the peers as `set` does, seven at once at most, and others are answered meanwhile; it is answered too if its node ends."""
    if lacks_curl(check):
        return
    folder = check.folder()
    with socket.socket(socket.AF_UNIX) as listener:
        listener.bind(str(folder / "b.sock"))
        listener.listen()
        node, place = node_at(check, "a", folder / "a.http", "--dial-idle", "60000", "--pause", "200", folder=folder, peers=[folder / "b.sock"])
        answers, end = [], time.monotonic() + SECONDS
        callers = [threading.Thread(target=lambda count=count: answers.append(put_by_bytes(place, f"k{count}", count))) for count in range(9)]
        for it in callers:
            it.start()
        while len(answers) < 2 and time.monotonic() < end:
            time.sleep(0.01)
        want("who was turned away before the others were answered", answers[:2], 2 * [(503, {"error": SPENT, "fault": 29})])
        found = place.curl("/v1/owners")[2]
        # (on a slow machine their time may be over by then)
        want("an answer beside those that wait", found == b'{"owners":[]}\n' or len(answers) > 2, True)
        for it in callers:
            it.join()
        want("the writes that waited", sorted((status, found.get("version")) for status, found in answers[2:]), [(200, version) for version in range(1, 8)])
        node, place = node_at(check, "c", folder / "c.http", "--dial-idle", "60000", "--pause", "200", "--rounds", "1", folder=folder, peers=[folder / "b.sock"])
        stream = place.connect()
        # (the node has read all of it before it may end)
        send_in_pieces(stream, bytes_of_put("k", 1), 64)
    with stream:
        status, _, found = parsed(read_all(stream))
    want("a PUT at the end of its node", (status, json.loads(found).get("fault")) in ((503, 15), (200, None)), True)
    want("the end of that node", node.ended()[0], 0)


def http_health(check):
    """A node answers 200 once it is ready, and 503 before, and says why."""
    if lacks_curl(check):
        return
    folder = check.folder()
    with socket.socket(socket.AF_UNIX) as listener:
        listener.bind(str(folder / "b.sock"))
        listener.listen()
        node, place = node_at(check, "a", free_port(), "--pause", "200", "--dial-idle", "60000", folder=folder, peers=[folder / "b.sock", folder / "nobody"])
        want("beside a silent peer", place.json("/healthz"), (503, {"caught_up": False, "conflict": 0, "log_fault": 0, "ready": False}))
    want("its exit status", node.command("status", "--wait", "10000")[0], 0)
    want("once it is ready", place.json("/healthz"), (200, {"caught_up": True, "conflict": 0, "log_fault": 0, "ready": True}))
    node.log.unlink()
    node.command("set", "k", "weight", "5")
    status, found = place.json("/healthz")
    want("once its log is lost", (status, found["ready"], found["log_fault"] != 0), (503, False, True))


def http_metrics(check):
    """The metrics are those of --metrics, of the same time; without that option too."""
    if lacks_curl(check):
        return
    folder = check.folder()
    path = folder / "a.prom"
    node, place = node_at(check, "a", free_port(), "--pause", "100", "--rounds", "0", "--metrics", str(path), folder=folder)
    node.put("k", 5)
    check_metrics.awaits(path, "a", {("attrdir_keys",): 1})
    end = time.monotonic() + SECONDS
    # (the node may write the file anew at any moment)
    while (told := place.curl("/metrics"))[2] != (content := path.read_bytes()) and time.monotonic() < end:
        time.sleep(0.05)
    want("the metrics", told[2].decode(), content.decode())
    want("their type", dict(told[1])["content-type"], "text/plain; version=0.0.4")
    statuses = []

    def ask_often():
        statuses.extend(place.bytes(b"GET /metrics HTTP/1.1\r\nHost: localhost\r\n\r\n")[0] for _ in range(100))

    callers = [threading.Thread(target=ask_often) for _ in range(4)]
    for caller in callers:
        caller.start()
    for caller in callers:
        caller.join()
    # (a node whose metrics are in use all the time answers 503, which is rare)
    want("the statuses of four callers at once", (len(statuses), set(statuses) <= {200, 503}, statuses.count(503) <= 20), (400, True, True))
    want("the status of one more", place.bytes(b"GET /metrics HTTP/1.1\r\nHost: localhost\r\n\r\n")[0], 200)
    alone, at_alone = node_at(check, "c", free_port(), "--pause", "100", folder=folder)
    while b"attrdir_rounds_total" not in at_alone.curl("/metrics")[2] and time.monotonic() < end:
        time.sleep(0.05)
    want("metrics without a file", b'attrdir_rounds_total{node="c"}' in at_alone.curl("/metrics")[2], True)


def http_scrape(check):
    """promtool finds nothing wrong with examples/prometheus.yml, reads the alerts that it names, and passes their tests."""
    if shutil.which("promtool") is None:
        check.lacking.add("promtool is here, so examples/prometheus.yml was not read by it")
        return
    status, printed, said = run("promtool", "check", "config", str(ROOT / "examples/prometheus.yml"))
    want("what promtool says of examples/prometheus.yml", (status, printed.count("SUCCESS"), said), (0, 3, ""))
    status, printed, said = run("promtool", "test", "rules", str(ROOT / "examples/alerts-test.yml"))
    want("what promtool says of the alerts, by their tests", (status, printed.count("SUCCESS")), (0, 1))


def http_polls(check):
    """A poll waits for rows that are asked for, answers soon after one came, changed or went, and not for others; four wait at once, and not after a restart."""
    if lacks_curl(check):
        return
    folder = check.folder()
    node, place = node_at(check, "a", folder / "a.http", "--pause", "100", folder=folder)
    other = check.node("b", "--pause", "100", folder=folder, peers=[node.sock]).start()
    node.put("web/k", 5), other.put("web/k", 6)
    node.awaits("both rows", lambda rows: len(rows) == 2)
    first = place.json("/v1/rows?prefix=web/&wait=0s")[1]
    want("a poll without a mark", list(first), ["more", "rows", "seen"])
    want("the same without a wait", place.json("/v1/rows?prefix=web/")[1], {it: first[it] for it in ("more", "rows")})
    want("its mark again", place.json("/v1/rows?prefix=web/&wait=0s")[1], first)
    want("the mark does not depend on the place", place.json("/v1/rows?prefix=web/&after=a/web/k&wait=0s")[1]["seen"], first["seen"])

    def poll(mark, seconds=30):
        began = time.monotonic()
        found = place.json(f"/v1/rows?prefix=web/&wait={seconds}s&seen={mark}")
        return found, time.monotonic() - began

    def answered(what, write):
        """What a poll answers that waits when something is written, and how long after that."""
        found = []
        caller = threading.Thread(target=lambda: found.append((poll(first["seen"]), time.monotonic())))
        caller.start()
        time.sleep(0.3)
        want(f"whether a poll waits before {what}", caller.is_alive(), True)
        write()
        written = time.monotonic()
        caller.join()
        (status, page), _ = found[0][0]
        want(f"the status after {what}", status, 200)
        # (if it were not told, its wait would be over after 30 s)
        if found[0][1] - written > 5:
            raise Difference(f"a poll was answered {found[0][1] - written:.2f} s after {what}")
        return page

    for what, write, count in (("a write", lambda: node.put("web/l", 1), 3), ("a change", lambda: node.put("web/l", 2), 3), ("a write at a peer", lambda: other.put("web/m", 1), 4), ("a removal", lambda: node.command("del", "web/l"), 3)):
        page = answered(what, write)
        want(f"the rows after {what}", (len(page["rows"]), page["seen"] != first["seen"]), (count, True))
        first = page
    (status, page), took = poll("0")
    want("a poll with another mark", (status, page, took < 5), (200, first, True))
    writer = threading.Timer(0.3, lambda: node.put("other/k", 1))
    writer.start()
    (status, page), took = poll(first["seen"], 2)
    want("a poll beside another write", (status, page, 1.9 < took < 10), (200, first, True))
    found = []
    callers = [threading.Thread(target=lambda: found.append(poll(first["seen"]))) for _ in range(6)]
    for it in callers:
        it.start()
    until("the polls that are turned away", lambda: len(found) >= 2)
    want("who was turned away at once", [it[0] for it in found], 2 * [(503, {"error": SPENT, "fault": 29})])
    want("an answer beside four polls", place.curl("/v1/owners")[0], 200)
    want("a write beside four polls", put(place, "other/k", "weight", 2)[0], 200)
    # (the others wait until then)
    node.put("web/k", 7)
    for it in callers:
        it.join()
    want("the polls that waited", sorted(it[0][0] for it in found), [200, 200, 200, 200, 503, 503])
    node.kill()
    node.start()
    (status, page), took = poll(first["seen"])
    want("a poll after a restart", (status, took < 5), (200, True))


def bytes_of_poll(mark):
    return f"GET /v1/rows?wait=60s&seen={mark} HTTP/1.1\r\nHost: localhost\r\n\r\n".encode()


def mark_now(place):
    """The mark of the rows that a node shows."""
    return place.json("/v1/rows?wait=0s")[1]["seen"]


def five_polls(place):
    """Five callers that ask at once for other rows: those that are answered first, and those that wait then."""
    content, streams = bytes_of_poll(mark_now(place)), [place.connect() for _ in range(5)]
    for stream in streams:
        stream.sendall(content)
    answered = select.select(streams, [], [], SECONDS)[0]
    return answered, [it for it in streams if it not in answered]


def close_all(streams):
    for stream in streams:
        stream.close()


def polls_wait(node, place):
    """Four callers that stay are answered once something changes, and not before."""
    answered, waiting = five_polls(place)
    want("who is turned away", [parsed(read_all(it))[0] for it in answered], [503])
    # (meanwhile a node looks many times whether they left)
    want("who is answered although nothing changed", select.select(waiting, [], [], 2)[0], [])
    node.put("k", 6)
    want("those that waited", [parsed(read_all(it))[0] for it in waiting], 4 * [200])
    close_all(answered + waiting)


def http_leavers(check):
    """A poll frees its place soon after its caller hung up, and is answered if that only ended its writing; the others wait on."""
    if lacks_curl(check):
        return
    for at in ("socket", "port"):
        folder = check.folder()
        node, place = node_at(check, "a", folder / "a.http" if at == "socket" else free_port(), folder=folder)
        node.put("k", 5)
        polls_wait(node, place)
        for turn in range(3):
            answered, waiting = five_polls(place)
            want(f"whether polls wait at a {at}", len(waiting) > 0, True)
            close_all(answered + waiting)
            began, statuses = time.monotonic(), []
            while statuses[-1:] != [200]:
                statuses.append(place.json(f"/v1/rows?wait=1s&seen={mark_now(place)}")[0])
                # (without that look they would keep their places for 60 s)
                if time.monotonic() - began > 15:
                    raise Difference(f"what polls get at a {at} once four others hung up for the {turn + 1}. time: {statuses}")
        mark, began = mark_now(place), time.monotonic()
        status, _, body = place.bytes(bytes_of_poll(mark), ends=True)
        want(f"a caller at a {at} that only ends its writing", (status, json.loads(body).get("seen"), time.monotonic() - began < 15), (200, mark, True))


def http_page(check):
    """The page of a node has its own script and style alone, whose hashes are those of its policy, and no address of elsewhere."""
    if lacks_curl(check):
        return
    status, fields, body = node_at(check, "a", free_port())[1].curl("/")
    fields, text = dict(fields), body.decode()
    want("the page", (status, fields["content-type"], text.count("<script"), text.count("<style")), (200, "text/html; charset=utf-8", 1, 1))
    for name in ("script", "style"):
        content = re.search(f"<{name}>(.*?)</{name}>", text, re.DOTALL).group(1)
        wanted = base64.b64encode(hashlib.sha256(content.encode()).digest()).decode()
        want(f"the hash of the {name}", f"{name}-src 'sha256-{wanted}'".lower() in fields["content-security-policy"], True)
    want("what the policy lets pass", ("unsafe" in fields["content-security-policy"], "http" in fields["content-security-policy"]), (False, False))
    want("what the page has of elsewhere", re.findall(r"https?://|innerHTML|outerHTML|insertAdjacentHTML|document\.write|eval\(", text), [])


def http_refusals(check):
    """What asks for nothing that is there is refused, each by the first reason; a node goes on after it."""
    if lacks_curl(check):
        return
    folder = check.folder()
    node, place = node_at(check, "a", folder / "a.http", folder=folder)
    at_port = node_at(check, "b", free_port(), folder=folder)[1]
    name = run(check.program, "get", "--control", str(node.control), "--owner", "A")[2].splitlines()[1]
    for path in ("/v1", "/v1/row", "/v1/rows.json", "/healthz/", "/v1/key"):
        refused(place, path, 404, "there is no such path")
        refused(place, path, 404, "there is no such path", None, "-X", "PUT")
    for path in ("/", "/v1/rows", "/v1/rows/a/k", "/v1/owners", "/healthz", "/metrics"):
        for method in ("PUT", "POST", "DELETE", "PATCH", "OPTIONS"):
            status, fields, body = place.curl(path, "-X", method)
            want(f"{method} {path}", (status, dict(fields)["allow"], json.loads(body)), (405, "get, head", {"error": "this path is only read; a key is written at /v1/keys/KEY"}))
    for query in ("owner=A", "owner=", "owner=%61%20", "after=A/k", f"owner={33 * 'a'}"):
        refused(place, f"/v1/rows?{query}", 400, name, 2)
    for query in ("prefix=A", "prefix=a+b", "prefix=%f", "after=a/", "owner=a&key=", f"owner=a&key={65 * 'k'}"):
        refused(place, f"/v1/rows?{query}", 400, KEY, 3)
    for path, text, fault in (("/v1/rows/A/k", name, 2), ("/v1/rows/a", PLACE, 3), ("/v1/rows/", PLACE, 3), ("/v1/rows?after=a", PLACE, 3), ("/v1/rows/a/", KEY, 3), ("/v1/rows/a/K", KEY, 3)):
        refused(place, path, 400, text, fault)
    for query in ("wait=61s", "wait=1", "wait=500ms", "wait=1m", "wait=", "seen=x", "wait=1s&seen=A"):
        refused(place, f"/v1/rows?{query}", 400, WAIT)
    for query in ("x=1", "owner", "prefx=web/", "Owner=a", "owner=a&x=1"):
        refused(place, f"/v1/rows?{query}", 400, UNKNOWN)
    for query in ("wait=1s&wait=1s", "owner=a&owner=a", "prefix=&prefix=", "key=k", "owner=a&key=k&prefix=k", "owner=a&key=k&after=a/k"):
        refused(place, f"/v1/rows?{query}", 400, PARAMETERS)
    for query in ("", "&", "owner=a&", "&&prefix="):
        want(f"rows by {query!r}", place.json(f"/v1/rows?{query}")[0], 200)
    for host in ("evil.example", "localhost.evil.example", "127.0.0.1.evil.example", "127.0.0.1:x", "[::2]"):
        refused(at_port, "/healthz", 421, "the host is not this machine", None, "-H", f"Host: {host}") if ":x" not in host else None
        want(f"{host} at a socket", place.curl("/v1/owners", "-H", f"Host: {host}")[0], 400 if ":x" in host else 200)
    for host in ("localhost", "localhost:1", "127.0.0.1", "[::1]:80"):
        want(f"{host} at a port", at_port.curl("/v1/owners", "-H", f"Host: {host}")[0], 200)
    want("the host of the target counts", at_port.bytes(b"GET http://evil.example/healthz HTTP/1.1\r\nHost: localhost\r\n\r\n")[0], 421)


def http_bounds(check):
    """Heads and bodies have limits; one connection is one request; what is no HTTP is refused and costs its connection alone."""
    if lacks_curl(check):
        return
    folder = check.folder()
    node, place = node_at(check, "a", folder / "a.http", folder=folder)
    head = b"GET /v1/owners HTTP/1.1\r\nHost: x\r\n"
    want("a body of 8 KiB", place.bytes(head + b"Content-Length: 8192\r\n\r\n" + 8192 * b"x")[0], 200)
    want("a longer body", place.bytes(head + b"Content-Length: 8193\r\n\r\n" + 8193 * b"x")[0], 413)
    (folder / "large").write_bytes(bytes(2_000_000))
    want("a large body by curl", place.curl("/v1/owners", "-X", "PUT", "-H", "Expect:", "--data-binary", f"@{folder / 'large'}")[0], 413)
    want("64 fields", place.bytes(head + 63 * b"x: y\r\n" + b"\r\n")[0], 200)
    want("65 fields", place.bytes(head + 64 * b"x: y\r\n" + b"\r\n")[0], 431)
    want("a long field", place.bytes(head + b"x: " + 17_000 * b"y" + b"\r\n\r\n")[0], 431)
    want("a long target", place.bytes(b"GET /" + 17_000 * b"y" + b" HTTP/1.1\r\n\r\n")[0], 414)
    status, fields, body = place.bytes(2 * (head + b"\r\n"))
    want("two requests at once", (status, body), (200, b'{"owners":[]}\n'))
    for content in (b"\x00\x01\x02\r\n\r\n", b"GET\r\n\r\n", b"GET / HTTP/9.9\r\n\r\n", b"GET / HTTP/1.1\r\nHost: a b\r\n\r\n"):
        want(f"what comes to {content}", place.bytes(content)[0], 400)
    with place.connect() as stream:
        stream.sendall(head + b"Expect: 100-continue\r\nContent-Length: 1\r\n\r\n")
        wanted = b"HTTP/1.1 100 Continue\r\n\r\n"
        want("what comes before a body that waits", read_exactly(stream, len(wanted)), wanted)
        stream.sendall(b"x")
        want("what comes after it", parsed(read_all(stream))[0], 200)
    want("an answer after all that", place.curl("/v1/owners")[0], 200)
    at_port = node_at(check, "b", free_port(), folder=folder)[1]
    for _ in range(20):
        want("a long body at a port", at_port.bytes(b"PUT /v1/owners HTTP/1.1\r\nHost: localhost\r\nContent-Length: 20000\r\n\r\n" + bytes(20_000))[0], 413)


def http_silence(check):
    """Eight connections are answered at once, and one that says nothing is closed after --idle."""
    if lacks_curl(check):
        return
    folder = check.folder()
    node, place = node_at(check, "a", free_port(), "--request", "600000", "--idle", "600000", folder=folder)
    streams = [place.connect() for _ in range(7)]
    want("an answer beside seven others", place.curl("/v1/owners")[0], 200)
    streams.append(place.connect())
    with place.connect() as ninth:
        ninth.sendall(b"GET /v1/owners HTTP/1.1\r\nHost: localhost\r\n\r\n")
        ninth.settimeout(1)
        try:
            raise Difference(f"beside eight others came {ninth.recv(65536)}")
        except TimeoutError:
            pass
        streams[0].close()
        ninth.settimeout(SECONDS)
        want("an answer once one of them is gone", parsed(read_all(ninth))[0], 200)
    for stream in streams:
        stream.close()
    other, at_other = node_at(check, "b", folder / "b.http", "--request", "600000", "--idle", "500", folder=folder)
    with at_other.connect() as stream:
        want("what comes to a connection that says nothing", stream.recv(65536), b"")


def http_crowd(check):
    """Connections that say nothing or a byte a second hold the answers over HTTP, each for at most --request; they delay no `set` and no session."""
    if lacks_curl(check):
        return
    folder = check.folder()
    port = free_port()
    node, place = node_at(check, "a", port, "--request", "2000", "--idle", "2000", "--pause", "100", folder=folder)
    other = check.node("b", "--pause", "100", folder=folder, peers=[node.sock]).start()

    def seconds_of_twenty_writes():
        began = time.monotonic()
        for count in range(20):
            versions.append(node.put("k", count))
        return time.monotonic() - began

    def crowd():
        """Connections that say nothing or not all, made anew."""
        streams = [place.connect() for _ in range(40)]
        for stream in streams[::2]:
            stream.sendall(b"GET /v1/owners HTTP/1.1\r\nHost: localhost\r\nx: ")
        return streams

    versions, found = [], []
    # (a machine may be busy for a while, but not each time)
    while not found or found[-1][1] > 4 * found[-1][0] + 1:
        if len(found) == TRIES:
            raise Difference(f"what twenty writes took alone, and beside silent connections, in seconds: {found}")
        alone, streams = seconds_of_twenty_writes(), crowd()
        found.append((alone, seconds_of_twenty_writes()))
    other.awaits("the last write", lambda rows: rows == [f"a k {versions[-1]} weight 19"])
    slow, end = streams[0], time.monotonic() + SECONDS
    try:
        while time.monotonic() < end:
            slow.sendall(b"y")
            time.sleep(0.2)
        raise Difference("a byte after a byte was never cut off")
    except OSError:
        pass
    for stream in streams:
        stream.close()
    want("an answer after them", place.curl("/v1/owners")[0], 200)


def http_places(check):
    """Only an address of this machine is taken, or the path of a socket, which is removed at the end; a node that waits for callers ends at once."""
    folder = check.folder()
    others = ("0.0.0.0:0", "10.0.0.1:80", "127.0.0.2:8080", "[::]:80", "localhost:80", "host.example:80", "127.0.0.1:", ":80", "8080", "localhost", "127.0.0.1", "10.0.0.1", "[::1]")
    for address in (*others, "127.0.0.1:0", "[::1]:0", "127.0.0.1:65536", "[::1%1]:8080"):
        node = check.node("a", "--http", address, folder=folder)
        status, printed, said = run(check.program, *[str(it) for it in node.words()[1:]])
        want(f"--http {address}", (status, printed, said.splitlines()[0], said.splitlines()[2].split(": ")[0]), (3, "", "fault 5", f"http {address}"))
    with socket.socket() as taken:
        taken.bind(("127.0.0.1", 0))
        taken.listen()
        address = f"127.0.0.1:{taken.getsockname()[1]}"
        status, _, said = run(check.program, *[str(it) for it in check.node("a", "--http", address, folder=folder).words()[1:]])
        want("a port that is taken", (status, said.splitlines()[:2], said.splitlines()[2].split(": ")[0]), (3, ["fault 16", "the node cannot listen at this port"], f"http {address}"))
    for at_port in (True, False):
        apart = check.folder()
        node = check.node("a", "--http", f"127.0.0.1:{free_port()}" if at_port else str(apart / "a.sock"), folder=apart)
        words = [str(it) for it in node.words()[1:]]
        if at_port:
            words[words.index("--control") + 1] = str(node.sock)
        said = run(check.program, *words)[2].splitlines()
        want(f"two sockets in one place, HTTP at a port {at_port}", (said[0], said[2].split(": ")), ("fault 16", [
            f"sockets {node.sock} and {node.sock}",
            "see that these are two different paths, that the disk has room, and that the process may open more files (ulimit -n)",
        ]))
        want("what is left in its folder, and the length of its log", ([it.name for it in apart.iterdir()], node.log.stat().st_size), (["a.log"], 0))
    want("what is left", sorted(it.name for it in folder.iterdir() if it.name.endswith((".sock", ".ctl"))), [])
    node = check.node("a", "--http", "x", "--seats", "3", "--workers", "1", folder=folder)
    said = run(check.program, *[str(it) for it in node.words()[1:]])[2].splitlines()
    want("too few seats", (said[0], said[2]), ("fault 5", "--seats: give workers and 2 (3 with --http) to 64"))
    for options in ((), ("--seats", "64")):
        node = check.node("a", "--http", "x", "--workers", "62", *options, folder=folder)
        said = run(check.program, *[str(it) for it in node.words()[1:]])[2].splitlines()
        want(f"too many workers beside HTTP, with {options}", (said[0], said[2]), ("fault 5", "--workers: give 1 to 61 with --http"))
    path = folder / "a.http"
    # (it is asked before it ends by itself)
    node, place = node_at(check, "a", path, "--rounds", "3", "--pause", "1000", folder=folder)
    if not lacks_curl(check):
        want("an answer at the socket", place.curl("/v1/owners")[0], 200)
    want("the end of a node", (node.ended()[0], path.exists()), (0, False))
    want("a node at [::1]", node_at(check, "a", f"[::1]:{free_port()}", "--rounds", "1", folder=folder)[0].ended()[0], 0)
    node = check.node("a", "--http", str(path), folder=folder).start()
    node.kill()
    again = check.node("a", "--http", str(path), folder=folder).start()
    want("the socket that was left", f"attrdir: info socket {path}: left by a node that no longer runs, and removed" in again.lines(), True)


def http_examples(check):
    """Each example of docs/FORMATS.md, `curl` and the answer below it, is what a node answers that has these rows, at a port and at a socket; ages aside."""
    if lacks_curl(check):
        return
    section = (ROOT / "docs/FORMATS.md").read_text().split("\n## HTTP\n")[1].split("\n## ")[0]
    examples = re.findall(r"^    \$ curl (.*)\n    (.*)$", section, re.MULTILINE)
    want("whether there are examples", len(examples) >= 12, True)
    folder, places = check.folder(), {}
    for name, place in (("port", free_port()), ("socket", folder / "a.http")):
        node, places[name] = node_at(check, "a", place, "--pause", "100", folder=check.folder())
        for words in (("web/motto", "text", "well met"), ("web/port", "weight", "8080")):
            want(f"set {words}", node.command("set", *words)[0], 0)
        want("its exit status", node.command("status", "--wait", "10000")[0], 0)
    for line, wanted in examples:
        *words, address = shlex.split(line)
        place = places["socket" if "--unix-socket" in words else "port"]
        if "--unix-socket" in words:
            at = words.index("--unix-socket")
            words = words[:at] + words[at + 2 :]
        path = address.split("://")[1].partition("/")[2]
        found = place.curl(f"/{path}", *[it for it in words if it != "-s"])[2].decode()
        want(f"the example {line}", with_no_ages(found), with_no_ages(wanted) + "\n")


PARTS = (http_rows, http_owners, http_writes, http_first_writes, http_health, http_metrics, http_scrape, http_polls, http_leavers, http_page, http_refusals, http_bounds, http_silence, http_crowd, http_places, http_examples)
