"""What tools/storm counts, and what it found wrong."""
import collections
import threading

TOLD_MOST = 40


class Tally:
    """What was counted, and what is wrong. Threads share it."""

    def __init__(self):
        self.lock = threading.Lock()
        self.counts, self.told, self.wrong = collections.Counter(), [], 0
        # how long the newest row of another node took from its answer until it was read, and what else took how long
        self.times = collections.defaultdict(list)

    def count(self, name, by=1):
        with self.lock:
            self.counts[name] += by

    def arrive(self, seconds, what="arrival"):
        with self.lock:
            self.times[what].append(seconds)

    def tell(self, what):
        with self.lock:
            self.wrong += 1
            self.counts["came-back"] += "came back" in what
            if len(self.told) < TOLD_MOST:
                self.told.append(what)
                print(f"storm: {what[:2000]}", flush=True)
