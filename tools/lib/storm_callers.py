"""Those of tools/storm who write at the nodes and read their rows, and judge each answer."""
import time

from histories import BEAT, LEFT, ONCE, REMOVED, WRITERS, Sight, row_of, wrong_rows
from nodes import DONE, REFUSED, Difference, connect, long_text, put, read_frame, text, weight
from storm_http import asked, later_pages, write_over_http
from storm_posts import is_late

# one write of so many is made by the program's command, and one of so many over HTTP
BY_COMMAND, BY_HTTP = 40, 4
NOTHING_THERE, CLOSED, STORE_FAILED = 9, 15, 18
# so many keys used once are there at a time, and one write of so many is for a key of which nothing is known
ONCE_MOST, DOUBTFUL = 20, 8
LATE = "the caller was late"


def call(path, request):
    """A request over a control socket: (DONE, version), (REFUSED, fault), or (None, why there is no answer, whether it may be made)."""
    began = time.monotonic()
    try:
        stream = connect(path)
    except OSError as it:
        return None, repr(it), False
    sent, message, why = None, None, "the connection ended"
    with stream:
        try:
            stream.sendall(request)
            sent = time.monotonic()
            message = read_frame(stream)
        except OSError as it:
            why = repr(it)
    if message is None:
        return None, LATE if is_late(began, sent or time.monotonic()) else why, True
    kind, body = message
    if kind not in (DONE, REFUSED):
        raise Difference(f"a write was answered by {message!r}")
    return kind, int.from_bytes(body, "big")


def command(node, write):
    """The same by the program's command."""
    words = ["del", "--", write.key] if write.kind == REMOVED else ["set", "--", write.key, write.kind, write.value]
    began = time.monotonic()
    status, printed, said = node.command(*words)
    if status == 0:
        return DONE, int(printed.split()[1])
    lines = said.splitlines()
    if status != 3 or len(lines) != 3 or not lines[0].startswith("fault "):
        raise Difference(f"{words} ended with {status} and said {said!r}")
    fault = int(lines[0].split()[1])
    if fault in (16, 17, 28):
        return None, LATE if is_late(began, time.monotonic()) else said, "no node answers" not in lines[2]
    return REFUSED, fault


def over_http(place, write):
    """The same by PUT and DELETE."""
    began = time.monotonic()
    answer = write_over_http(place, write)
    return (None, LATE, answer[2]) if answer[0] is None and is_late(began, time.monotonic()) else answer


SLOTS = {
    REMOVED: lambda value: b"\x00",
    "addr": lambda value: b"\x01" + text(value),
    "weight": lambda value: weight(int(value)),
    "flag": lambda value: b"\x03" + bytes([value == "true"]),
    "text": long_text,
}


class Writer:
    """Asks an owner for one write after another, under keys that nobody else writes, and judges each answer."""

    share = 1

    def __init__(self, post, history, at):
        self.post, self.history, self.number = post, history, at + WRITERS
        # whether something stands under each key; none where that is not known
        self.stands, self.losses = {}, 0
        self.asked_in = None

    def step(self):
        with self.post.gate.passed():
            number, mark = self.number, self.post.mark()
            self.asked_in = self.post.run
            self.number += WRITERS
            write = self.history.begin(number)
            answer = self.ask(number // WRITERS, write)
            wrong = self.take(number, write, answer, mark)
        if wrong:
            self.post.tally.tell(f"write {number} of {self.post.name}, {' '.join(write)}, {wrong}")
        if answer[0] is None or answer[1] in (CLOSED, STORE_FAILED):
            time.sleep(0.02)

    def ask(self, turn, write):
        """The answer to a write, by one of the ways."""
        if turn % BY_COMMAND == 0:
            return command(self.post.node, write)
        if self.post.takes_http_writes and turn % BY_HTTP == 1:
            self.post.tally.count("writes-over-http")
            return over_http(self.post.http, write)
        return call(self.post.node.control, put(write.key, SLOTS[write.kind](write.value)))

    def take(self, number, write, answer, mark):
        """Enters an answer; why it is wrong, if it is."""
        if self.losses != self.post.losses:
            self.stands, self.losses = dict.fromkeys(self.history.keys), self.post.losses
        stood = self.stands.get(write.key, False)
        if answer[0] == DONE:
            self.stands[write.key] = write.kind != REMOVED
            wrong = self.history.acknowledge(number, answer[1])
            return wrong or ("was made, where nothing stood" if write.kind == REMOVED and stood is False else None)
        if answer[0] == REFUSED:
            return self.take_refusal(number, write, answer[1], stood)
        self.post.tally.count("writes-without-answer")
        if answer[1] == LATE:
            self.post.tally.count("late-callers")
        if answer[2]:
            self.stands[write.key] = None
        else:
            self.history.refuse(number)
        return f"was not answered: {answer[1]}" if answer[1] != LATE and self.post.was_calm(mark) else None

    def take_refusal(self, number, write, fault, stood):
        if fault == STORE_FAILED:
            # whether it was made is known once the node was started again
            self.stands[write.key], self.post.closed_in = None, self.post.run
            self.post.tally.count("writes-refused-for-room")
            return None if self.post.in_trouble else "was refused, for its log can't be written"
        wrong = self.history.refuse(number)
        if fault == CLOSED:
            self.post.tally.count("writes-refused-as-closed")
            if self.post.in_trouble and not wrong:
                # (a beat may have met the full disk before)
                self.post.closed_in = self.asked_in
            # (the run that was asked may have ended since)
            was_told = self.post.in_trouble or self.post.closed_in in (self.asked_in, self.post.run)
            return wrong or (None if was_told else "was refused, for its log is closed")
        if fault == NOTHING_THERE and write.kind == REMOVED:
            self.stands[write.key] = False
            return wrong or (f"was refused, where a write stood: {fault}" if stood else None)
        return f"was refused: {fault}"


class WriterOnce:
    """Writes one key after another, each once, and removes each some writes later. At times it removes one again of which it had no answer."""

    share = 1

    def __init__(self, post, history):
        self.post, self.keys, self.turn = post, history.once, 0

    def step(self):
        with self.post.gate.passed():
            kind = self.write()
        time.sleep(0.005 if kind == DONE else 0.02)

    def write(self):
        self.turn += 1
        doubtful = self.keys.doubtful() if self.turn % DOUBTFUL == 0 else None
        removes = doubtful is not None or len(self.keys) >= ONCE_MOST
        number = doubtful or (self.keys.oldest() if removes else self.keys.next())
        mark, losses = self.post.mark(), self.post.losses
        kind, answer, *_ = call(self.post.node.control, put(f"{ONCE}{number}", SLOTS[REMOVED]("-") if removes else weight(number)))
        if losses == self.post.losses:
            if kind == DONE:
                self.keys.settle(number, not removes)
                self.post.tally.count("keys-used-once" if not removes else "keys-used-once-removed")
            elif kind == REFUSED and answer == (NOTHING_THERE if doubtful else CLOSED):
                self.keys.settle(number, removes and not doubtful)
            elif answer not in (LATE, STORE_FAILED, CLOSED) and self.post.was_calm(mark):
                self.post.tally.tell(f"{'the removal' if removes else 'the write'} of {ONCE}{number} at {self.post.name}: {kind} {answer}")
        return kind


class Reader:
    """Asks a node for all of its rows, again and again, and judges them."""

    share, way = 0.1, "get"

    def __init__(self, post, histories):
        self.post, self.histories = post, histories
        self.sight, self.run, self.newest, self.beats = None, None, {}, {}

    def rows(self):
        """All rows that the node gives, and why these are not all, if so."""
        status, printed, said = self.post.node.command("get")
        rows = [row_of(it) for it in printed.split("\n")[:-1]]
        if None in rows:
            raise Difference(f"get at {self.post.name} printed {printed[:300]!r}")
        return rows, None if status == 0 else f"ended with {status}: {said!r}"

    def step(self):
        began, mark, forgets = self.post.runs, self.post.mark(), self.post.forgets
        if self.run != began:
            self.sight, self.run = Sight(self.histories, (self.post.name,)), began
        own, started = self.histories[self.post.name].last, time.monotonic()
        rows, why = self.rows()
        if why or self.post.runs != began:
            wrong = wrong_rows(self.histories, rows)
            if why and is_late(started, time.monotonic()):
                self.post.tally.count("late-callers")
            elif why and self.post.was_calm(mark):
                self.post.tally.tell(f"{self.way} at {self.post.name} {why}")
        else:
            self.sight.holds(self.post.name, own)
            wrong = [*self.sight.look(rows), *(self.forgotten(rows) if forgets else ())]
            self.post.tally.count(f"reads-checked{self.suffix}")
            self.time(rows)
        for it in wrong:
            self.post.tally.tell(f"{self.way} at {self.post.name} in its run {began}: {it}")
        self.post.tally.count("rows-checked", len(rows))
        time.sleep(0.01)

    @property
    def suffix(self):
        return "" if self.way == "get" else "-over-http"

    def forgotten(self, rows):
        """The rows of who has left, which the node forgets."""
        return [f"a row of {LEFT}, which it forgets: {' '.join(map(str, it))}" for it in rows if it.owner == LEFT]

    def time(self, rows):
        """Enters how long the newest row of each other node took from its answer until now, where it was not read before."""
        for owner, history in self.histories.items():
            version = max((it.version for it in rows if it.owner == owner and it.key != BEAT), default=0)
            if owner != self.post.name and version > self.newest.get(owner, 0):
                self.newest[owner] = version
                answered = history.answered.get(version)
                if answered is not None:
                    self.post.tally.arrive(time.monotonic() - answered)
        for it in rows:
            if it.key == BEAT and it.owner != self.post.name and it.version > self.beats.get(it.owner, 0):
                self.beats[it.owner] = it.version
                self.post.tally.count("beats-read")


class HttpReader(Reader):
    """Asks for them over HTTP."""

    way = "GET /v1/rows"

    def rows(self):
        try:
            status, page = asked(self.post.http, "/v1/rows")
            if status != 200:
                return [], f"was answered by {status} {page}"
            return later_pages(self.post.http, "", page), None
        except OSError as it:
            return [], f"was not answered: {it!r}"
