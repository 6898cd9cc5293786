"""A part of tools/check-node: what a careful watch shows. It runs `attrdir watch` with --hold, --floor, --settle, --listings and --render against
nodes that run, and compares lines and files with what was written and removed meanwhile."""
import json
import os
import subprocess
import threading
import time
from pathlib import Path

from check_beginning import written_back
from check_waking import Swallower
from check_watch import Watching
from nodes import ROOT, SECONDS, Difference, until, want

EXAMPLE = ROOT / "examples" / "balancer"
# the rows of two owners, as `attrdir set -` takes them
SERVERS = {
    "a": ["web/addr addr 10.0.0.1:80", "web/name text www.example", "web/up flag true", "web/weight weight 4"],
    "b": ["web/addr addr 10.0.0.2:8080", "web/name text two words", "web/up flag false"],
}

# by the name of a template: its text, and what comes of it
TEMPLATES = {
    "a map of HAProxy": (
        (EXAMPLE / "haproxy.map.template").read_text(),
        "a 10.0.0.1:80\nb 10.0.0.2:8080\n",
    ),
    "an upstream of nginx": (
        (EXAMPLE / "nginx.conf.template").read_text(),
        "upstream web {\n    server 10.0.0.1:80 weight=4;\n}\n",
    ),
    "a file of hosts": (
        (EXAMPLE / "hosts.template").read_text(),
        "127.0.0.1 localhost\n10.0.0.1 a.web\n10.0.0.2 b.web\n",
    ),
    "parts of an address, and a last line without an end": (
        "# {{owner}}\n{{web/addr:port}} at {{web/addr:host}}",
        "# a\n# b\n80 at 10.0.0.1\n8080 at 10.0.0.2\n",
    ),
    "words in place of values": (
        "{{owner}} {{web/weight|none}} {{web/zone|}}{{web/addr:port|no}};\n{{web/weight:host|80}}\n",
        "a 4 80;\nb none 8080;\n80\n",
    ),
    "values with bytes that are not plain": ("{{web/name}}\n", "www.example\n"),
    "a condition on a text": ("{{web/name=two words}}{{owner}}\n", "b\n"),
    "no such key": ("{{owner}} {{none}}\n", ""),
    "no placeholder": ("{ } é }} {\\\n\n  \tx\n", "{ } é }} {\\\n\n  \tx\n"),
    "the empty text": ("", ""),
}

# by the text of a template: the line that is wrong, and the fault
WRONG_TEMPLATES = {
    "{{owner": (1, 5),
    "x\n{{owner}} {{web/addr\n}}": (2, 5),
    "\n\n{{}}": (3, 3),
    "{{Web}}": (1, 3),
    "{{web/addr:name}}": (1, 5),
    "{{web/addr:host:port}}": (1, 5),
    "{{ owner }}": (1, 3),
    "{{web/addr=a|b}}": (1, 3),
    "{{:host}}": (1, 3),
}


def served(check):
    """Two nodes with the rows of SERVERS, of which the second hears of the first."""
    folder = check.folder()
    nodes = {name: check.node(name, "--pause", "20", folder=folder, peers=[folder / "b.sock"] if name == "a" else []) for name in "ba"}
    for name, node in nodes.items():
        node.start()
        for line in SERVERS[name]:
            want("set", node.command("set", *line.split(" ", 2))[0], 0)
    count = sum(map(len, SERVERS.values()))
    nodes["b"].awaits("all rows", lambda rows: len(rows) == count)
    return folder, nodes["b"], count


def render_words(check):
    """What becomes of each placeholder, and that all else stays as it is."""
    folder, node, count = served(check)
    template, path = folder / "template", folder / "file"
    for name, (text, wanted) in TEMPLATES.items():
        template.write_text(text)
        found = node.command("watch", "--render", str(template), "--to", str(path), "--count", "1")
        want(f"what was printed of {name}", found, (0, f"written {count}\n", ""))
        want(name, path.read_text(), wanted)
    want("what is beside the file", path.with_name("file.new").exists(), False)


def wrong_templates(check):
    """Templates and command lines that are wrong."""
    node = check.node("a").start()
    folder = check.folder()
    template, path = folder / "template", folder / "file"
    words = ["--render", str(template), "--to", str(path), "--count", "1"]
    for text, (line, fault) in WRONG_TEMPLATES.items():
        template.write_text(text)
        status, printed, said = node.command("watch", *words)
        want(f"the status of {text!r}", (status, printed), (3, ""))
        want(f"what is said of {text!r}", (said.splitlines()[0], f"line {line}: template {template}: write {{{{owner}}}}, " in said), (f"fault {fault}", True))
    template.write_bytes(b"\xff\n")
    for bad in (template, folder / "none", folder):
        status, _, said = node.command("watch", "--render", str(bad), *words[2:])
        want(f"a template that cannot be read: {bad}", (status, said.splitlines()[:2]), (3, ["fault 16", "the template could not be read"]))
    want("the file", path.exists(), False)
    template.write_text("x\n")
    for given in (words[:2], words[2:4], ["--listings", *words[:4]], ["--hold", "-1"], ["--hold", "1s"], ["--settle", "+1"], ["--floor", "x"]):
        want(f"the status of {given}", node.command("watch", *given, "--count", "1")[0], 2)
    status, _, said = node.command("watch", "--floor", "101", "--count", "1")
    want("a floor above all rows", (status, said.splitlines()[0], "--floor: give 0 to 100" in said), (3, "fault 5", True))


def taken_paths(check):
    """A watch replaces no log, no template, no link, and nothing but a file; it replaces any other file."""
    node = check.node("a").start()
    folder = check.folder()
    node.put("k", 1)
    template, plain, link, hard = (folder / it for it in ("template", "plain", "link", "hard"))
    template.write_text("{{owner}} {{k}}\n")
    plain.write_text("what was here\n")
    link.symlink_to(plain)
    os.link(template, hard)
    kept = {it: it.read_bytes() for it in (template, plain)}
    beside = folder / "beside"
    beside.with_name("beside.new").symlink_to(plain)
    for path in (template, hard, link, node.log, node.control, folder, Path("/dev/null"), beside):
        status, printed, said = node.command("watch", "--render", str(template), "--to", str(path), "--count", "1")
        want(f"the end of a watch to {path}", (status, printed, said.splitlines()), (3, "", [
            "fault 17", "the path is taken by the template, a log, a link, or what is no file", f"file {path}: give a path that nothing else uses, also with .new after it",
        ]))
    want("what is left", {it: it.read_bytes() for it in kept}, kept)
    want("that the link is one", link.is_symlink(), True)
    want("the version of a write", node.put("k", 2), 2)
    want("a watch to another file", node.command("watch", "--render", str(template), "--to", str(plain), "--count", "1"), (0, "written 1\n", ""))
    want("that file", plain.read_text(), "a 2\n")


def file_replaced(check):
    """Whoever reads the file has one whole text, it is written only if its text is another one, and again after it could not be written."""
    node = check.node("a").start()
    folder = check.folder()
    template, path = folder / "template", folder / "in" / "file"
    template.write_text("first {{web/x}}\n" + "{{web/x}}\n" * 5000 + "last {{web/x}}\n")
    node.put("web/x", 0)
    watch = Watching(node, "--render", str(template), "--to", str(path), "--every", "5")
    try:
        watch.awaits_said("cannot be written")
        want("a file without a folder", (path.exists(), watch.lines), (False, []))
        path.parent.mkdir()
        watch.awaits(["written 1"])
        found, stop = [], threading.Event()

        def read():
            while not stop.is_set():
                lines = path.read_text().splitlines()
                found.append((len(lines), len({it.split()[-1] for it in lines})))

        reader = threading.Thread(target=read)
        reader.start()
        for at in range(1, 21):
            node.put("web/x", at)
            watch.awaits(["written 1"])
        until("a look at the file", lambda: found)
        stop.set()
        reader.join()
        want("what a reader found", set(found), {(5002, 1)})
        node.put("web/x", 20)
        node.put("web/y", 1)
        node.put("web/x", 21)
        # (one line alone, since the text was the same meanwhile)
        watch.awaits(["written 2"])
        want("the file", path.read_text().splitlines()[-1], "last 21")
        node.kill()
        watch.awaits_said("does not answer")
        want("that it goes on", watch.ran.poll(), None)
    finally:
        watch.stop()
    said = watch.ended()[2]
    want("what is said", [it.split(": ")[1:3] for it in said[:2]], [[f"warning file {path}", "cannot be written"], [f"info file {path}", "written again"]])
    want("how often it is said", len(said), 3)


def listings(check):
    """Each line is all rows, as `get --format json` has them."""
    folder, node, count = served(check)
    watch = Watching(node, "--listings", "--prefix", "web/", "--every", "10")
    try:
        watch.awaits(["[" + ",".join(node.get("--prefix", "web/", "--format", "json")) + "]"])
        node.put("other", 1)
        node.put("web/weight", 9)
        watch.awaits(["[" + ",".join(node.get("--prefix", "web/", "--format", "json")) + "]"])
        for line in SERVERS["b"]:
            node.command("del", line.split()[0])
        watch.awaits_last("[" + ",".join(node.get("--prefix", "web/", "--format", "json")) + "]")
    finally:
        watch.stop()
    rows = [json.loads(it) for it in watch.ended()[1]]
    want("the rows of the last line", [(it["owner"], it["key"]) for it in rows[-1]], [("a", it.split()[0]) for it in SERVERS["a"]] + [("b", "web/weight")])
    for line in ("set a web/weight 9 weight 9", "written 3", '{"key":"k","owner":"a"}', "5"):
        ran = subprocess.run([EXAMPLE / "feed", folder / "haproxy.sock", "web"], input=f"{line}\n", capture_output=True, text=True, timeout=SECONDS)
        said = "feed: this line is not a listing: give the watch the option --listings\n"
        want(f"what feed makes of {line}", (ran.returncode, ran.stdout, ran.stderr), (2, "", said))
    # no line before there is a row
    empty = check.node("c").start()
    want("nothing of nothing", empty.command("watch", "--listings", "--count", "3", "--every", "1"), (0, "", ""))


def hold(check):
    """A row that went stays so long, one that came back in time was never gone, and the first line comes no sooner."""
    node = check.node("a").start()
    want("rows", [node.put("k", 1), node.put("l", 2)], [1, 2])
    began = time.monotonic()
    watch = Watching(node, "--hold", "2", "--every", "10")
    try:
        watch.awaits(["set a k 1 weight 1", "set a l 2 weight 2"])
        if time.monotonic() - began < 2:
            raise Difference(f"the first lines came after {time.monotonic() - began:.2f} s")
        node.command("del", "k")
        time.sleep(0.3)
        node.put("k", 3)
        watch.awaits(["set a k 4 weight 3"])
        removed = time.monotonic()
        node.command("del", "k")
        node.put("l", 4)
        # (a change that waited for a row that went would come after it)
        watch.awaits(["set a l 6 weight 4"])
        watch.awaits(["gone a k"])
        # (a watch that only asks when its node tells it something asks again after ten seconds)
        if not 2 <= time.monotonic() - removed <= 8:
            raise Difference(f"a row was gone after {time.monotonic() - removed:.2f} s")
    finally:
        watch.stop()
    want("what is said", watch.ended()[2], [])


def floor(check):
    """All rows that went stay, and that is said once, while fewer than the floor would be left without them."""
    node = check.node("a").start()
    want("rows", [node.put(f"k{at}", at) for at in range(1, 5)], [1, 2, 3, 4])
    watch = Watching(node, "--floor", "50", "--every", "10")
    try:
        watch.awaits([f"set a k{at} {at} weight {at}" for at in range(1, 5)])
        for at in (1, 2):
            node.command("del", f"k{at}")
            watch.awaits([f"gone a k{at}"])
        for at in (3, 4):
            node.command("del", f"k{at}")
        time.sleep(0.3)
        want("that nothing more is gone", watch.lines, [])
        node.put("k1", 9)
        watch.awaits(["set a k1 9 weight 9"])
        # (two of four are left without k3 and k4)
        node.put("k2", 9)
        watch.awaits(["set a k2 10 weight 9", "gone a k3", "gone a k4"])
    finally:
        watch.stop()
    said = watch.ended()[2]
    front = f"control socket {node.control}: "
    want("how much is said", len(said), 2)
    # (one asking may find that both went)
    stay = "so far: without them fewer than 50 % would be left of the 4 rows of the last hour"
    want("what is said at first", any(said[0].endswith(f"warning {front}rows that went stay, {count} {stay}") for count in (1, 2)), True)
    want("what is said then", said[1].endswith(f"info {front}no row is held back any more"), True)


def settle(check):
    """Changes that come within the time go together, and a row that was there meanwhile alone is never shown."""
    node = check.node("a").start()
    node.put("k", 1)
    watch = Watching(node, "--settle", "3000", "--listings", "--every", "10")
    try:
        watch.awaits(["[" + node.get("--format", "json")[0] + "]"])
        # (by one command, so that they come within the time; the watch sees m meanwhile)
        want("how many changes there are", written_back(node, "".join(f"l{at} weight {at}\n" for at in range(5)) + "m weight 1\n"), 6)
        time.sleep(0.1)
        want("a removal", node.command("del", "m")[0], 0)
        watch.awaits(["[" + ",".join(node.get("--format", "json")) + "]"])
        want("all changes", len(node.get()), 6)
    finally:
        watch.stop()
    want("what is left", watch.ended()[1:], ([], []))


def not_caught_up(check):
    """Nothing is shown before the node is caught up, and that is said."""
    folder = check.folder()
    silent = Swallower(folder / "silent.sock")
    # (it waits for the silent peer until that ends the connection)
    node = check.node("a", "--dial-idle", "600000", folder=folder, peers=[folder / "silent.sock"]).start()
    node.put("k", 1)
    want("a watch that is not careful", node.command("watch", "--retry", "--count", "1"), (0, "set a k 1 weight 1\n", ""))
    watch = Watching(node, "--listings", "--every", "10", "--count", "1")
    watch.awaits_said("not caught up yet")
    time.sleep(0.3)
    want("nothing before the node is caught up", watch.lines, [])
    until("the first dial of the silent peer", lambda: silent.streams)
    for stream in silent.streams:
        stream.close()
    status, lines, said = watch.ended()
    want("the end", (status, lines), (0, ["[" + node.get("--format", "json")[0] + "]"]))
    front = f"attrdir: info control socket {node.control}: the node is "
    want("what is said", said, [front + "not caught up yet, and nothing is shown before", front + "caught up"])
    want("caught up", "caught_up yes" in node.command("status")[1], True)
    silent.door.close()


def upgrade_in_part(check):
    """Two of four nodes start anew, and two are not heard yet: every row stays in the file."""
    folder = check.folder()
    hub = check.node("lb", folder=folder).start()
    nodes = {it: check.node(it, "--pause", "20", folder=folder, peers=[hub.sock]).start() for it in ("w1", "w2", "w3", "w4")}
    for at, node in enumerate(nodes.values(), 1):
        want("set", node.command("set", "web/addr", "addr", f"10.0.0.{at}:80")[0], 0)
    hub.awaits("four rows", lambda rows: len(rows) == 4)
    template, path = folder / "template", folder / "map"
    template.write_text("{{owner}} {{web/addr}}\n")
    whole = "".join(f"w{at} 10.0.0.{at}:80\n" for at in range(1, 5))
    watch = Watching(hub, "--render", str(template), "--to", str(path), "--hold", "1", "--floor", "50", "--every", "10")
    try:
        watch.awaits(["written 4"])
        want("the map", path.read_text(), whole)
        for node in (*nodes.values(), hub):
            node.kill()
        for node in (hub, nodes["w1"], nodes["w2"]):
            node.start()
        hub.awaits("two rows", lambda rows: len(rows) == 2)
        time.sleep(1.5)
        want("the map while two are not heard", path.read_text(), whole)
        want("w1 moves", nodes["w1"].command("set", "web/addr", "addr", "10.0.0.9:80")[0], 0)
        watch.awaits(["written 4"])
        want("the map after a change", path.read_text(), whole.replace("0.1:", "0.9:"))
        for name in ("w3", "w4"):
            nodes[name].start()
        hub.awaits("four rows", lambda rows: len(rows) == 4)
        # (the watch has to see the row of w4 before it can be gone; it has, once it shows a later change of another)
        want("w3 moves", nodes["w3"].command("set", "web/addr", "addr", "10.0.0.8:80")[0], 0)
        watch.awaits(["written 4"])
        moved = whole.replace("0.1:", "0.9:").replace("0.3:", "0.8:")
        want("the map after that change", path.read_text(), moved)
        want("w4 goes", nodes["w4"].command("del", "web/addr")[0], 0)
        watch.awaits(["written 3"])
        want("the map without w4", path.read_text(), moved[: -len("w4 10.0.0.4:80\n")])
    finally:
        watch.stop()


def command_after(check):
    """What examples/balancer/run-after runs after each write of the file, and again where it fails."""
    node = check.node("a").start()
    node.put("k", 1)
    folder = check.folder()
    template, path, done = folder / "template", folder / "file", folder / "done"
    template.write_text("{{owner}} {{k}}\n")
    # (it fails until it has a second line)
    command = f"cat {path} >> {done}; test $(wc -l < {done}) -ge 2"
    watch = Watching(node, "--render", str(template), "--to", str(path), "--every", "10")
    after = subprocess.Popen([EXAMPLE / "run-after", "sh", "-c", command], stdin=subprocess.PIPE, stderr=subprocess.PIPE, text=True)
    try:
        watch.awaits(["written 1"])
        after.stdin.write("written 1\n")
        after.stdin.flush()
        until("the second run", lambda: done.exists() and done.read_text() == "a 1\na 1\n")
        node.put("k", 2)
        watch.awaits(["written 1"])
        _, said = after.communicate("written 1\n", timeout=SECONDS)
        want("what ran then", (done.read_text(), after.returncode), ("a 1\na 1\na 2\n", 0))
        want("what is said", said, f"run-after: sh -c {command} ended with 1, and runs again in 1 s\n")
    finally:
        watch.stop()
        after.kill()
        after.communicate()


PARTS = (render_words, wrong_templates, taken_paths, file_replaced, listings, hold, floor, settle, not_caught_up, upgrade_in_part, command_after)
