"""Those of tools/storm that ask nodes over HTTP."""
import json
import socket
import time

from histories import DISTURBED, REMOVED, Row, Sight, wrong_rows
from nodes import DONE, REFUSED, SECONDS, Difference, connect, spelled
from storm_posts import is_late

# how long a poll may wait, in seconds, and how much earlier than that it may come
POLL_SECONDS, EARLIER = 5, 0.2
HOST = b"Host: localhost\r\n"
# what is no good request where it is disturbed. A write is not: with more bytes it would be one of another key
TARGETS = ("GET /v1/rows?prefix=k/", "GET /v1/owners", f"DELETE /v1/keys/{DISTURBED}")
GET, OWNERS, DELETE = (f"{it} HTTP/1.1\r\n".encode() + HOST + b"\r\n" for it in TARGETS)


class Unanswered(OSError):
    """The connection ended before an answer was whole."""


class Late(OSError):
    """There is no answer, and the request came late."""


def connect_to(place):
    """A connection to a socket, or to a port of this machine."""
    return socket.create_connection(("127.0.0.1", place), timeout=SECONDS) if isinstance(place, int) else connect(place)


def request(method, path, body=b""):
    length = f"Content-Length: {len(body)}\r\n" if body else ""
    return f"{method} {path} HTTP/1.1\r\n{length}".encode() + HOST + b"\r\n" + body


def answer_of(stream):
    """The status and the object of an answer; no object where it has no body."""
    found = b""
    while piece := stream.recv(65536):
        found += piece
    head, _, content = found.partition(b"\r\n\r\n")
    lines = head.decode().split("\r\n")
    wanted = next((int(it.split(":")[1]) for it in lines if it.lower().startswith("content-length:")), None)
    if wanted is None or len(content) != wanted:
        raise Unanswered(f"an answer over HTTP broke off: {found[:300]!r}")
    return int(lines[0].split()[1]), json.loads(content) if content else None


def asked(place, path):
    """The status and the object of the answer to a GET."""
    began, sent = time.monotonic(), None
    with connect_to(place) as stream:
        try:
            stream.sendall(request("GET", path))
            sent = time.monotonic()
            return answer_of(stream)
        except OSError as it:
            raise Late(repr(it)) if is_late(began, sent or time.monotonic()) else it


def json_value(write):
    return {"weight": int, "flag": lambda it: it == "true"}.get(write.kind, str)(write.value)


def write_over_http(place, write):
    """Asks for a write by PUT or DELETE: (DONE, version), (REFUSED, fault), or (None, why there is no answer, whether it may be made)."""
    try:
        stream = connect_to(place)
    except OSError as it:
        return None, repr(it), False
    method, body = ("DELETE", b"") if write.kind == REMOVED else ("PUT", json.dumps({"kind": write.kind, "value": json_value(write)}).encode())
    with stream:
        try:
            stream.sendall(request(method, f"/v1/keys/{write.key}", body))
            status, found = answer_of(stream)
        except OSError as it:
            return None, repr(it), True
    if status == 200:
        return DONE, found["version"]
    if found is None:
        return None, f"status {status} without a body", True
    if "fault" not in found:
        raise Difference(f"a write over HTTP was answered by {status} {found}")
    return REFUSED, found["fault"]


def row_of_json(found):
    """The row that an object is."""
    kind, value = found["kind"], found["value"]
    word = ("false", "true")[value] if kind == "flag" else spelled(value) if kind == "text" else value
    return Row(found["owner"], found["key"], found["version"], f"{kind} {word}")


def later_pages(place, query, page):
    """The rows of a page and of those after it."""
    rows = list(page["rows"])
    while page["more"]:
        status, page = asked(place, f"/v1/rows?{query}&after={rows[-1]['owner']}/{rows[-1]['key']}")
        if status != 200:
            raise Unanswered(f"a page over HTTP was answered by {status} {page}")
        rows += page["rows"]
    return [row_of_json(it) for it in rows]


class Poller:
    """Waits at a node for a change of the rows of another owner, again and again."""

    share = 0.1

    def __init__(self, post, owner, histories):
        self.post, self.owner, self.histories = post, owner, {owner: histories[owner]}
        self.sight, self.run, self.newest = None, None, 0

    def step(self):
        began, mark = self.post.runs, self.post.mark()
        if self.run != began:
            self.sight, self.run = Sight(self.histories, ()), began
        try:
            status, page = asked(self.post.http, f"/v1/rows?owner={self.owner}&wait=0s")
            if status == 200:
                self.judge(began, page)
                asked_at = time.monotonic()
                status, found = asked(self.post.http, f"/v1/rows?owner={self.owner}&wait={POLL_SECONDS}s&seen={page['seen']}")
                took = time.monotonic() - asked_at
                page = self.answered(began, asked_at, took, page, found) if status == 200 else found
            if status != 200 and self.post.was_calm(mark):
                self.post.tally.tell(f"a poll at {self.post.name} was answered by {status} {page}")
        except Late:
            self.post.tally.count("late-callers")
        except (OSError, ValueError) as it:
            if self.post.was_calm(mark):
                self.post.tally.tell(f"a poll at {self.post.name} was not answered: {it!r}")
            time.sleep(0.02)

    def answered(self, began, asked_at, took, before, page):
        """Judges the answer to a poll, where the node is in the same run."""
        if self.post.runs != began:
            return page
        if page["seen"] == before["seen"] and (took < POLL_SECONDS - EARLIER or page["rows"] != before["rows"]):
            self.post.tally.tell(f"a poll at {self.post.name} with the mark that it had was answered after {took:.2f} s: {before} {page}")
        newest = max((it["version"] for it in page["rows"]), default=0)
        answered = self.histories[self.owner].answered.get(newest)
        if newest > self.newest and answered is not None and answered > asked_at and not page["more"]:
            self.post.tally.arrive(time.monotonic() - answered, "poll")
        self.newest = max(self.newest, newest)
        self.post.tally.count("polls-that-waited" if took > EARLIER else "polls-at-once")
        self.judge(began, page)
        return page

    def judge(self, began, page):
        """Judges the rows of a page, with those of the pages after it."""
        rows = later_pages(self.post.http, f"owner={self.owner}", page)
        wrong = self.sight.look(rows) if self.post.runs == began else wrong_rows(self.histories, rows)
        for it in wrong:
            self.post.tally.tell(f"a poll at {self.post.name} in its run {began}: {it}")
        self.post.tally.count("rows-checked", len(rows))
