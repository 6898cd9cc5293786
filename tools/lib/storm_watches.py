"""Those of tools/storm that watch the rows of a node."""
import subprocess
import tempfile
import threading
import time

from histories import BEAT, ONCE, is_written, row_of
from nodes import SECONDS

# how long a watch waits after each asking, in milliseconds
EVERY = 300


class Watcher:
    """Runs a watch of all rows of a node, also while it is killed, and judges each line: a row is a write that its owner was asked for, no row has an
    earlier version than was printed, and of the keys used once none comes back."""

    share = 0

    def __init__(self, post, histories):
        self.post, self.histories, self.ran, self.said = post, histories, None, None
        self.rows, self.gone, self.versions, self.lock = {}, set(), {}, threading.Lock()
        self.read = None

    def step(self):
        if self.ran is None:
            self.start()
        if self.ran.poll() is not None:
            self.post.tally.tell(f"the watch at {self.post.name} ended with {self.ran.returncode}: {self.told()}")
            self.start()
        time.sleep(0.5)

    def start(self):
        self.said = tempfile.TemporaryFile()
        words = [self.post.node.program, "watch", "--control", str(self.post.node.control), "--retry", "--every", str(EVERY)]
        self.ran = subprocess.Popen(words, stdin=subprocess.DEVNULL, stdout=subprocess.PIPE, stderr=self.said, text=True)
        self.rows, self.gone, self.versions = {}, set(), {}
        self.read = threading.Thread(target=self.take, args=(self.ran,), daemon=True)
        self.read.start()

    def told(self):
        self.said.seek(0)
        return self.said.read().decode(errors="replace")[-300:]

    def take(self, ran):
        for line in ran.stdout:
            with self.lock:
                wrong = self.judge(line.rstrip("\n"))
            if wrong:
                self.post.tally.tell(f"the watch at {self.post.name} printed {line!r}: {wrong}")
            self.post.tally.count("lines-of-watches")

    def judge(self, line):
        """Enters a line; why it is wrong, if it is."""
        word, _, rest = line.partition(" ")
        if word == "gone":
            place = tuple(rest.split(" "))
            if place not in self.rows:
                return "nothing was there"
            del self.rows[place]
            if place[1].startswith(ONCE):
                self.gone.add(place)
            return None
        row = row_of(rest)
        if word != "set" or row is None:
            return "it is no line of a watch"
        place, self.rows[row.owner, row.key] = (row.owner, row.key), row
        if place in self.gone:
            return "it came back"
        if row.version < self.versions.get(place, 0):
            return f"its version was {self.versions[place]} before"
        self.versions[place] = row.version
        return None if is_written(self.histories, row) else "nobody was asked for it"

    def shown(self):
        """What it shows of the owners by now, beside their beats."""
        with self.lock:
            return sorted(it for it in self.rows.values() if it.owner in self.histories and it.key != BEAT)

    def agrees(self, rows_of):
        """Waits until it shows the rows that its node has, and ends it."""
        end = time.monotonic() + SECONDS
        while (shown := self.shown()) != (rows := sorted(rows_of())):
            if time.monotonic() > end:
                self.post.tally.tell(f"the watch at {self.post.name} does not show its rows: {sorted(set(shown) ^ set(rows))[:10]}; {self.told()}")
                break
            time.sleep(0.1)
        else:
            self.post.tally.count("watches-that-agreed")
        self.stop()

    def stop(self):
        if self.ran and self.ran.poll() is None:
            self.ran.kill()
            self.ran.wait()
