"""A part of tools/check-node: what scripts read of a node. It runs `attrdir get --format json` and `attrdir watch` against nodes that
run, and compares the JSON, as Python reads it, with the lines of `attrdir get`, and the lines of a watch with what was written and
removed meanwhile."""
import json
import os
import signal
import subprocess
import threading
import time

from nodes import SECONDS, Difference, in_time, run, spelled, want

# kinds and words of values, with what JSON has of each; an address may have each printing byte but the space
VALUES = [
    ("addr", "10.0.0.1:80", "10.0.0.1:80"),
    ("addr", "".join(map(chr, range(0x21, 0x7F))), "".join(map(chr, range(0x21, 0x7F)))),
    ("addr", '"\\u0041\\', '"\\u0041\\'),
    ("weight", "0", 0),
    ("weight", str(2**63 - 1), 2**63 - 1),
    ("flag", "true", True),
    ("flag", "false", False),
    ("text", "zone b", "zone b"),
    ("text", " é \\5c\\0a\\7f\\00\" ", ' é \\\n\x7f\0" '),
    ("text", "x" * 512, "x" * 512),
    ("text", "€" * 170 + "zz", "€" * 170 + "zz"),
    ("text", "a\u2028b\u0085c", "a\u2028b\u0085c"),
]


class Watching:
    """A watch that runs, and the lines that it printed and those that it said, as they come."""

    def __init__(self, node, *words):
        self.start([node.program, "watch", "--control", str(node.control), *words])

    def start(self, words, **more):
        how = {"stdin": subprocess.DEVNULL, "stdout": subprocess.PIPE, "stderr": subprocess.PIPE, "text": True, **more}
        self.ran = subprocess.Popen(words, **how)
        self.lines, self.said, self.came = [], [], threading.Condition()
        self.readers = [threading.Thread(target=self.read, args=it, daemon=True) for it in ((self.ran.stdout, "lines"), (self.ran.stderr, "said"))]
        for reader in self.readers:
            reader.start()

    def read(self, stream, name):
        """Adds each line of a stream to the list of this name, which may be another one each time."""
        for line in stream:
            with self.came:
                getattr(self, name).append(line.rstrip("\n"))
                self.came.notify_all()

    def awaits(self, wanted):
        """The next lines are these, and no others have come."""
        with self.came:
            self.came.wait_for(lambda: len(self.lines) >= len(wanted), SECONDS)
            found, self.lines = self.lines, []
        want("the lines of a watch", found, wanted)

    def awaits_last(self, wanted):
        """This line comes; others may come before it. All of them are left."""
        with self.came:
            self.came.wait_for(lambda: self.lines[-1:] == [wanted], SECONDS)
            want("the last line of a watch", self.lines[-1:], [wanted])

    def awaits_said(self, words):
        """Waits until it has said a line with these words on standard error."""
        with self.came:
            if not self.came.wait_for(lambda: any(words in it for it in self.said), SECONDS):
                raise Difference(f"a watch did not say {words!r}: {self.said}")

    def all_said(self):
        """The lines that it said, once it has ended."""
        for reader in self.readers:
            reader.join(SECONDS)
        return self.said

    def ended(self):
        """Its exit status, the lines that were left, and those that it said."""
        status = self.ran.wait(SECONDS)
        said = self.all_said()
        return status, self.lines, said

    def stop(self):
        self.ran.kill()
        self.ran.wait()


def as_text(line):
    """The line of `attrdir get` that says what a line of JSON says."""
    row = json.loads(line)
    want(f"the names of {line}", sorted(row), ["key", "kind", "owner", "value", "version"])
    value, kind = row["value"], row["kind"]
    want(f"the kind of {line}", type(value), {"addr": str, "weight": int, "flag": bool, "text": str}[kind])
    word = ("true" if value else "false") if kind == "flag" else spelled(value) if kind == "text" else value
    return f"{row['owner']} {row['key']} {row['version']} {kind} {word}"


def rows_as_json(check):
    """Rows as JSON say what the lines of rows say, on each page."""
    node = check.node("a-1", "--budget", "1024").start()
    for at, (kind, word, _) in enumerate(VALUES):
        want("set", node.command("set", "--", f"k/{at:02}._-", kind, word), (0, f"version {at + 1}\n", ""))
    lines = node.get()
    want("how many rows", len(lines), len(VALUES))
    want("rows in words", node.get("--format", "text"), lines)
    told = node.get("--format", "json")
    want("rows as JSON", [as_text(it) for it in told], lines)
    values = [json.loads(it)["value"] for it in told]
    want("values as JSON", list(map(repr, values)), [repr(value) for _, _, value in VALUES])
    want("some rows as JSON", [as_text(it) for it in node.get("--format", "json", "--owner", "a-1", "--prefix", "k/03")], lines[3:4])
    want("no rows as JSON", node.get("--format", "json", "--prefix", "l"), [])
    for words in (["--format", "yaml"], ["--format"], ["--format="]):
        want(f"the status of {words}", node.command("get", *words)[0], 2)


def three_askings(node):
    """Three askings print the rows once, and have two pauses between them."""
    began = time.monotonic()
    want("three askings", node.command("watch", "--count", "3", "--every", "100"), (0, "".join(f"set {it}\n" for it in node.get()), ""))
    if time.monotonic() - began < 0.2:
        raise Difference(f"three askings took {time.monotonic() - began:.2f} s")


def watching(check):
    """A watch prints what was there, and then what is set, changed and removed, once each; and it ends as it should."""
    node = check.node("a").start()
    want("set", [node.put("w/a", 1), node.put("w/b", 2), node.put("x", 3)], [1, 2, 3])
    watch = Watching(node, "--prefix", "w/", "--every", "20")
    try:
        watch.awaits(["set a w/a 1 weight 1", "set a w/b 2 weight 2"])
        node.put("w/c", 5)
        watch.awaits(["set a w/c 4 weight 5"])
        node.put("w/b", 6)
        watch.awaits(["set a w/b 5 weight 6"])
        want("del", node.command("del", "w/a"), (0, "version 6\n", ""))
        watch.awaits(["gone a w/a"])
        node.put("y", 7)
        node.put("w/a", 8)
        watch.awaits(["set a w/a 8 weight 8"])
        want("one watch", run(node.program, "watch", "--control", str(node.control), "--owner", "a", "--prefix", "w/", "--count", "1"),
             (0, "set a w/a 8 weight 8\nset a w/b 5 weight 6\nset a w/c 4 weight 5\n", ""))
        in_time("three askings", 2, lambda: three_askings(node))
        want("that it runs", watch.ran.poll(), None)
        node.kill()
        status, lines, said = watch.ended()
        want("the end of a watch whose node ended", (status, lines, len(said)), (3, [], 3))
        # (the node may end before it is reached, or while it answers)
        if said[0] not in ("fault 16", "fault 17", "fault 28"):
            raise Difference(f"a watch whose node ended said {said}")
    finally:
        watch.stop()


def wrong_watches(check):
    """Command lines of watch that are wrong, faults, and standard output that is closed."""
    node = check.node("a").start()
    there, nowhere = ["--control", str(node.control)], ["--control", str(node.control) + ".none"]
    for words, status, fault in (
        ([], 2, None),
        ([*there, "k"], 2, None),
        ([*there, "--every", "+5"], 2, None),
        ([*there, "--every="], 2, None),
        ([*there, "--count", "1e3"], 2, None),
        ([*there, "--count", "+1"], 2, None),
        ([*there, "--count", "18446744073709551616"], 2, None),
        ([*there, "--count", "-1"], 2, None),
        ([*nowhere, "--owner", "O", "--prefix", "P"], 3, 2),
        ([*nowhere, "--prefix", "P"], 3, 3),
        (nowhere, 3, 16),
        (["--control", str(node.sock)], 3, 13),
    ):
        found, printed, said = run(node.program, "watch", *words)
        want(f"the status of watch {words} ({said!r})", (found, printed), (status, ""))
        if fault is not None:
            want(f"what watch {words} said", (said.splitlines()[0], len(said.splitlines())), (f"fault {fault}", 3))
    want("watch --help", "Example" in run(node.program, "watch", "--help")[1], True)
    node.put("k", 1)
    ends = []
    for words in (["get"], ["get", "--format", "json"], ["watch", "--every", "10"]):
        reads, writes = os.pipe()
        os.close(reads)
        told = [node.program, *words, *there]
        how = {"stdin": subprocess.DEVNULL, "stdout": writes, "stderr": subprocess.PIPE, "text": True, "timeout": SECONDS}
        # (Python ignores the signal of a closed pipe, and what it starts would too)
        ran = subprocess.run(told, preexec_fn=lambda: signal.signal(signal.SIGPIPE, signal.SIG_DFL), **how)
        os.close(writes)
        ends.append((ran.returncode, ran.stderr))
    want("the ends at a closed standard output", ends, [ends[0]] * 3)


PARTS = (rows_as_json, watching, wrong_watches)
