"""Notes each minute how a node of tools/storm is."""
import json
import time

SECONDS_BETWEEN = 60
FIGURES = ("owners", "keys", "removals", "workers_busy", "sessions", "turned_away")


class Sampler:
    """Writes a line each minute: the memory of a node and its heap, its threads, descriptors and rows, and some figures of its status."""

    share = 0

    def __init__(self, post, path):
        self.post, self.path, self.began, self.due = post, path, time.monotonic(), 0

    def step(self):
        time.sleep(0.5)
        now = time.monotonic()
        if now < self.due:
            return
        self.due = now + SECONDS_BETWEEN
        status, printed, _ = self.post.node.command("status", "--format", "json")
        figures = json.loads(printed) if status in (0, 1) else {}
        found = {
            "seconds": round(now - self.began),
            "resident": self.post.node.resident(),
            "threads": self.threads(),
            "descriptors": self.post.descriptors(),
            "rows": len(self.post.node.get()),
            **{it: figures.get(it, "-") for it in FIGURES},
            **self.mapped(),
        }
        with open(self.path, "a") as samples:
            samples.write(" ".join(f"{name} {value}" for name, value in found.items()) + "\n")

    def threads(self):
        with open(f"/proc/{self.post.node.ran.pid}/status") as lines:
            return next(it.split()[1] for it in lines if it.startswith("Threads:"))

    def mapped(self):
        """Bytes that are resident: of the heap, of other memory without a file, and of files."""
        found, kind = {"heap": 0, "anonymous": 0, "files": 0}, ""
        with open(f"/proc/{self.post.node.ran.pid}/smaps") as lines:
            for line in lines:
                words = line.split()
                if not words[0].endswith(":"):
                    kind = "heap" if words[-1] == "[heap]" else "files" if words[-1].startswith("/") else "anonymous"
                elif words[0] == "Rss:":
                    found[kind] += 1024 * int(words[1])
        return found
