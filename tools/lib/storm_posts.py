"""The nodes of tools/storm, and what is done to them from outside."""
import contextlib
import os
import resource
import threading
import time
from pathlib import Path

from histories import LEFT
from nodes import Difference, run

WORKERS, IDLE = 4, 500
PACE = ("--workers", str(WORKERS), "--idle", str(IDLE))
# in one restart of so many the log is lost, and in one of so many the node forgets who has left
LOST_OF, FORGETS_OF = 24, 3
CONFLICT = "fault 21"


def is_late(began, sent):
    """Whether a request came so late, on a machine with much to do, that a node may have ended the connection as idle."""
    return sent - began > 0.8 * IDLE / 1000


class Gate:
    """Those who write pass it one write at a time. While it is shut none does, so that nobody asks for a write."""

    def __init__(self):
        self.changed, self.inside, self.is_shut = threading.Condition(), 0, False

    @contextlib.contextmanager
    def passed(self):
        with self.changed:
            self.changed.wait_for(lambda: not self.is_shut)
            self.inside += 1
        try:
            yield
        finally:
            with self.changed:
                self.inside -= 1
                self.changed.notify_all()

    @contextlib.contextmanager
    def shut(self):
        """(One thread at a time shuts it.)"""
        with self.changed:
            self.is_shut = True
            self.changed.wait_for(lambda: not self.inside)
        try:
            yield
        finally:
            with self.changed:
                self.is_shut = False
                self.changed.notify_all()


class Post:
    """A node of the storm, and what is done to it: it is in trouble while it may rightly leave a caller without an answer."""

    def __init__(self, node, chance, tally, http=None):
        self.node, self.chance, self.tally, self.http = node, chance, tally, http
        self.turn, self.gate = threading.RLock(), Gate()
        self.runs, self.changes, self.in_trouble, self.closed_in = 0, 0, False, None
        # how often its log was lost, and what is told of that, where it may be
        self.losses, self.lost = 0, None
        # its words without those by chance; whether the run that answers forgets who has left, and whether it may
        self.options, self.forgets, self.may_forget = node.options, False, False
        # whether its audits and its peers may tell it of a twin
        self.has_twin = False

    @property
    def name(self):
        return self.node.name

    @contextlib.contextmanager
    def trouble(self):
        with self.turn:
            self.in_trouble = True
            self.changes += 1
            try:
                yield
            finally:
                self.in_trouble = False
                self.changes += 1

    @property
    def takes_http_writes(self):
        """(At a port it takes none.)"""
        return self.http is not None and not isinstance(self.http, int)

    def mark(self):
        """What `was_calm` asks for, of a moment before."""
        return None if self.in_trouble else self.changes

    @property
    def run(self):
        """The run that answers, or that which is being ended and may still."""
        return self.runs - self.runs % 2

    def was_calm(self, mark):
        """Whether nothing was done to it since."""
        return mark is not None and mark == self.changes and not self.in_trouble

    def kill(self):
        if not self.is_up():
            self.tally.tell(f"{self.name} ended by itself: {self.node.ran.returncode} {self.node.lines()[-3:]}")
        # (twice: what is asked for in between may still be answered by the run that ends)
        self.runs += 1
        self.node.kill()
        self.forgets = False
        self.runs += 1
        self.look_back()

    def look_back(self):
        """Counts and judges what a run said, once it is over."""
        for line in self.node.lines():
            if CONFLICT in line and not self.has_twin:
                self.tally.count("false-alarms")
                self.tally.tell(f"{self.name} took its own writes for those of another: {line}")
            if "the older half of the removals" in line:
                self.tally.count("purges-while-running")

    def start(self):
        forgets = self.may_forget and not self.chance.randrange(FORGETS_OF)
        self.node.options = (*self.options, *(("--forget", LEFT) if forgets else ()))
        self.node.start(with_left=True)
        self.forgets = forgets
        self.tally.count("restarts")
        if self.forgets:
            self.tally.count("runs-that-forget")

    def restart(self):
        self.kill()
        if self.lost and not self.chance.randrange(LOST_OF):
            self.lose_log()
        elif self.chance.randrange(2):
            self.purge()
        time.sleep(self.chance.uniform(0, 0.5))
        self.start()

    def purge(self):
        """Purges the log of a node that does not run, unless it can't be written."""
        last = self.node.last()
        floor = self.chance.choice(["--all", self.chance.randint(0, last)])
        with contextlib.suppress(Difference):
            purged = self.node.purge(floor)
            if purged != (last if floor == "--all" else floor):
                self.tally.tell(f"purge {floor} of {self.name}, which has {last}, purged up to {purged}")
            self.tally.count("purges")

    def lose_log(self):
        """Takes the log of a node that does not run away, and has one begin behind what the one of the others heard of it that heard most, unless that
        can't be asked now."""
        others, history = self.lost
        most = max(others, key=lambda it: it.held(self.name))
        with contextlib.suppress(Difference):
            history.lose(self.node.begin(most.node.sock))
            self.losses += 1
            self.tally.count("lost-logs")

    def is_up(self):
        return self.node.ran.poll() is None

    def held(self, owner):
        """Up to which version it holds an owner; 0 where it does not hold it, or can't be asked."""
        printed = run(self.node.program, "owners", "--sock", str(self.node.sock), "--cluster", "c")[1]
        return next((int(it.split()[1]) for it in printed.splitlines() if it.split()[0] == owner), 0)

    def descriptors(self):
        return len(os.listdir(f"/proc/{self.node.ran.pid}/fd"))

    def limit(self, kind, most):
        """Sets a limit of the process as it runs, and gives the one that it had."""
        before, hard = resource.prlimit(self.node.ran.pid, kind)
        resource.prlimit(self.node.ran.pid, kind, (most, hard))
        return before


def files_of(log):
    """The file of a log, and the one beside it."""
    return [log, log.with_name(log.name + "-wal")]


def move(log, to):
    """Moves a log in the place of another."""
    for path, place in zip(files_of(log), files_of(Path(to))):
        place.unlink(missing_ok=True)
        if path.exists():
            path.replace(place)
