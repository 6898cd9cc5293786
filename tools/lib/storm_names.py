"""Those of tools/storm who take a node's log away and restore it, and who run a second node under its name."""
import shutil
import time
from concurrent.futures import ThreadPoolExecutor

from histories import APART, row_of
from nodes import DONE, REFUSED, SECONDS, Difference, exchange, put, run, want, weight
from storm_posts import CONFLICT, files_of, is_late, move

OWNER_CONFLICT = 21
# what a command says if the node ended its connection, and how many times it is given then
ENDED, TIMES = ("fault 16\nthe node ended the connection\n", "fault 17\nwriting failed after ", "fault 28\n"), 5
# what restore adds to the last version that a node heard of
MORE = 1_048_576
# what the line of an audit that found another node has
AUDITED = "writes under this name: peer"


class Turns:
    """When somebody's next turn is, by chance. (Nobody sleeps until then, so that the storm can end.)"""

    def __init__(self, chance, least, most):
        self.chance, self.least, self.most = chance, least, most
        self.due = self.next()

    def next(self):
        return time.monotonic() + self.chance.uniform(self.least, self.most)

    def come(self):
        """Whether it is by now. Then the one after it is drawn."""
        if time.monotonic() < self.due:
            time.sleep(0.2)
            return False
        self.due = self.next()
        return True


class Restorer:
    """Takes the log of a node away once another holds all of it, while nothing is written, and has it restored from there."""

    share = 0

    def __init__(self, post, helper, history, chance):
        self.post, self.helper, self.history, self.turns = post, helper, history, Turns(chance, 5, 40)
        self.kept = post.node.log.with_name("kept.log")

    def step(self):
        if not self.turns.come():
            return
        with self.post.trouble(), self.helper.turn, self.post.gate.shut():
            if not self.is_held_within(SECONDS / 3):
                self.post.tally.count("restores-put-off")
                return
            self.post.kill()
            try:
                self.lose_and_restore()
            finally:
                self.post.start()

    def is_held_within(self, seconds):
        """Whether the helper comes to hold the node as far as the node itself."""
        end = time.monotonic() + seconds
        while self.helper.held(self.post.name) != self.post.held(self.post.name):
            if time.monotonic() > end:
                return False
            time.sleep(0.05)
        return True

    def lose_and_restore(self):
        if self.helper.held(self.post.name) != self.post.node.last():
            self.post.tally.count("restores-put-off")
            return
        rows = rows_of(self.helper, self.post.name)
        move(self.post.node.log, self.kept)
        status, printed, said = restore(self.post, self.helper, self.helper)
        if not self.take(status, printed, said, rows):
            move(self.kept, self.post.node.log)

    def take(self, status, printed, said, rows):
        """Enters what restore made of these rows; whether it made a log."""
        words = printed.split()
        if status != 0 or words[::2] != ["restored", "last"] or int(words[1]) != len(rows):
            self.post.tally.tell(f"restore of {self.post.name} with {len(rows)} rows ended with {status}: {printed!r} {said!r}")
            return status == 0
        self.history.restore(int(words[3]) - len(rows), rows)
        self.post.tally.count("restores")
        self.post.tally.count("rows-restored", len(rows))
        return True


def rows_of(post, owner):
    return [row_of(it) for it in post.node.get("--owner", owner)]


def restore(post, asked, shown):
    """The status of `restore` of a node from one that heard of it, with the rows that one shows, what it printed, and what it said after how long. It is
    given again if its connection was ended, and it took so long that a node may have ended it as idle."""
    places = ["--log", str(post.node.log), "--name", post.name, "--cluster", "c", "--from", str(asked.node.sock), "--from-control", str(shown.node.control)]
    for _ in range(TIMES):
        began = time.monotonic()
        status, printed, said = run(post.node.program, "restore", *places)
        ended = time.monotonic()
        if not (said.startswith(ENDED) and is_late(began, ended)):
            break
        post.tally.count("restores-given-again")
    return status, printed, f"{said} after {ended - began:.2f} s"


class TwinMaker:
    """Runs a second node under a node's name, with a copy of its log, while nobody else writes there. Each writes, until one of the two is told. Then the
    second is ended, and the log of the first is restored with the rows that it shows."""

    share = 0

    def __init__(self, post, twin, restorer, chance, audit):
        self.post, self.twin, self.restorer, self.chance, self.turns = post, twin, restorer, chance, Turns(chance, 10, 60)
        self.history, self.tally = restorer.history, post.tally
        # within so many seconds it has audited each of its peers, also where one of them can't be reached for a while
        self.seconds = (1 + len(twin.node.peers)) * audit / 1000 + SECONDS / 2

    def step(self):
        if not self.turns.come():
            return
        helper = self.restorer.helper
        with self.post.trouble(), helper.turn, self.post.gate.shut():
            self.copy()
            self.post.has_twin = True
            try:
                self.twin.node.start()
                self.write_apart()
            finally:
                if self.twin.is_up():
                    self.twin.node.kill()
                self.heal(helper)
                self.post.has_twin = False

    def copy(self):
        """Gives the twin a copy of the log."""
        self.post.kill()
        for path, place in zip(files_of(self.post.node.log), files_of(self.twin.node.log)):
            place.unlink(missing_ok=True)
            if path.exists():
                shutil.copy(path, place)
        self.post.start()

    def write_apart(self):
        """Has both write, again and again or only once, until one is told that it is not alone."""
        began, writes_on = time.monotonic(), self.chance.randrange(2)
        self.tally.count("twins")
        is_told = self.both_write()
        while not is_told and time.monotonic() < began + self.seconds:
            time.sleep(0.2)
            is_told = self.is_said() or writes_on and self.both_write()
        if not is_told:
            self.tally.tell(f"{self.post.name} and its twin both wrote, and neither was told within {self.seconds} s: {self.twin.node.lines()}")
            return
        self.tally.count("twins-told")
        self.tally.count("twins-told-by-audits", any(CONFLICT in it and AUDITED in it for it in self.lines()))
        self.tally.arrive(time.monotonic() - began, "twin-told")

    def both_write(self):
        """Has both write one after the other, or at once, so that each gives the same version. Whether one was refused or told."""
        self.history.apart += 1
        both = list(zip((self.post, self.twin), APART))
        self.chance.shuffle(both)
        with ThreadPoolExecutor(2) as pool:
            return any((pool.map if self.chance.randrange(2) else map)(self.is_refused, both)) or self.is_said()

    def is_refused(self, side):
        post, front = side
        answer = exchange(post.node.control, put(f"{front}{self.history.apart}", weight(self.history.apart)))
        kind, body = answer or (None, b"")
        if kind not in (DONE, REFUSED) or kind == REFUSED and body[0] != OWNER_CONFLICT:
            raise Difference(f"a write beside a twin was answered by {answer!r}")
        self.tally.count("writes-beside-twins", kind == DONE)
        return kind == REFUSED

    def lines(self):
        return [*self.post.node.lines(), *self.twin.node.lines()]

    def is_said(self):
        return any(CONFLICT in it for it in self.lines())

    def heal(self, helper):
        """The first one's log is moved away while it runs, and restored with the rows that it shows: then others get these, in later versions."""
        move(self.post.node.log, self.restorer.kept)
        rows = rows_of(self.post, self.post.name)
        status, printed, said = restore(self.post, helper, self.post)
        made = self.restorer.take(status, printed, said, rows)
        self.post.kill()
        if not made:
            move(self.restorer.kept, self.post.node.log)
        self.post.start()
        if made:
            self.want_healed(helper, len(rows))
            self.clear(rows)

    def clear(self, rows):
        """Removes what was written beside the twin."""
        for row in rows:
            if row.key.startswith(APART[0]):
                want(f"the removal of {row.key}", self.removal(row.key), DONE)

    def removal(self, key):
        """The kind of the answer to a removal. On a busy machine a caller may be so late that the node ends the connection as idle."""
        for _ in range(TIMES):
            try:
                answer = exchange(self.post.node.control, put(key, b"\x00"))
            except OSError:
                answer = None
            if answer:
                return answer[0]
        return None

    def want_healed(self, helper, count):
        """The helper comes to show the rows of the first one."""
        end, base = time.monotonic() + SECONDS, self.history.restored[-1]
        while True:
            rows = rows_of(helper, self.post.name)
            if len(rows) >= count and all(it.version > base for it in rows) and not any(it.key.startswith(APART[1]) for it in rows):
                self.tally.count("twins-healed")
                return
            if time.monotonic() > end:
                self.tally.tell(f"{helper.name} does not show the {count} rows of {self.post.name} that were restored beside a twin: {rows}")
                return
            time.sleep(0.1)
