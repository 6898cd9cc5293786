"""The parts of tools/check-node that look at the file in which a node tells how it is, and at the lines that say that keys or owners run out. Where
Prometheus is there, its promtool reads each file that is looked at last."""
import re
import shutil
import sqlite3
import subprocess
import time

from nodes import BYE, SECONDS, Difference, block, connect, delta, frame, hello, number, read_frame, run, until, want, weight

# each metric, in the order of the file, with its type and the labels of its values beside that of the node
METRICS = {
    "attrdir_build_info": ("gauge", ("version", "frames", "logs")),
    "attrdir_start_time_seconds": ("gauge", ()),
    "attrdir_rounds_total": ("counter", ()),
    "attrdir_round_faults_total": ("counter", ()),
    "attrdir_pushes_total": ("counter", ()),
    "attrdir_push_faults_total": ("counter", ()),
    "attrdir_pushed_bytes_total": ("counter", ()),
    "attrdir_gaps_total": ("counter", ()),
    "attrdir_hastened_rounds_total": ("counter", ()),
    "attrdir_sessions_total": ("counter", ()),
    "attrdir_session_faults_total": ("counter", ()),
    "attrdir_other_versions_total": ("counter", ()),
    "attrdir_turned_away_total": ("counter", ()),
    "attrdir_workers": ("gauge", ()),
    "attrdir_workers_busy": ("gauge", ()),
    "attrdir_all_workers_busy_total": ("counter", ()),
    "attrdir_purges_total": ("counter", ()),
    "attrdir_audits_total": ("counter", ()),
    "attrdir_log_open": ("gauge", ()),
    "attrdir_log_fault": ("gauge", ("cause",)),
    "attrdir_name_conflict": ("gauge", ()),
    "attrdir_version_falls_total": ("counter", ()),
    "attrdir_caught_up": ("gauge", ()),
    "attrdir_keys": ("gauge", ()),
    "attrdir_keys_limit": ("gauge", ()),
    "attrdir_removals": ("gauge", ()),
    "attrdir_full_writes_total": ("counter", ()),
    "attrdir_owners": ("gauge", ()),
    "attrdir_owners_limit": ("gauge", ()),
    "attrdir_held_version": ("gauge", ("owner",)),
    "attrdir_rows": ("gauge", ("owner",)),
    "attrdir_owner_age_seconds": ("gauge", ("owner",)),
    "attrdir_peer_up": ("gauge", ("peer",)),
    "attrdir_peer_fault": ("gauge", ("peer",)),
    "attrdir_peer_rounds_since": ("gauge", ("peer",)),
}
SAMPLE = re.compile(r"(\w+)\{(.*)\} (\d+(?:\.\d{3})?)")
LABEL = re.compile(r'(\w+)="((?:[^"\\]|\\.)*)"(?:,|$)')


def sample_of(line):
    """The name, the labels and the value of a line."""
    found = SAMPLE.fullmatch(line)
    labels = LABEL.findall(found[2]) if found else []
    if not found or "".join(f'{name}="{value}",' for name, value in labels) != found[2] + ",":
        raise Difference(f"{line!r} is no value of a metric")
    want(f"whether {line} has a point", "." in found[3], found[1] == "attrdir_owner_age_seconds")
    return found[1], labels, float(found[3])


def metrics_in(path, node, without=()):
    """What the file says of a node: by name and label the value. Each metric stands once, with its help and its type above its values, but for those
    that the node is to leave out."""
    content = path.read_text()
    want("the end of the file", content[-1:], "\n")
    names, values = [], {}
    for line in content.splitlines():
        if line.startswith("# HELP "):
            names.append(line.split()[2])
            if not line.split(" ", 3)[3].endswith("."):
                raise Difference(f"{line!r} says nothing")
        elif line.startswith("# TYPE "):
            want("a type", line, f"# TYPE {names[-1]} {METRICS[names[-1]][0]}")
        else:
            name, labels, value = sample_of(line)
            want("a name", name, names[-1])
            want(f"the labels of {name}", [it for it, _ in labels], ["node", *METRICS[name][1]])
            want(f"the node of {name}", labels[0][1], node)
            place = (name, *(it for _, it in labels[1:]))
            want(f"whether {place} stands twice", place in values, False)
            values[place] = value
    want("the metrics", names, [it for it in METRICS if it not in without])
    return values


def awaits(path, node, wanted, fits=lambda found: True, without=()):
    """Reads the file again and again until it has these values, by name and label, and what it says fits."""
    found, end = {}, time.monotonic() + SECONDS
    while time.monotonic() < end:
        if path.exists():
            found = metrics_in(path, node, without)
            if {it: found.get(it) for it in wanted} == wanted and fits(found):
                return found
        time.sleep(0.01)
    raise Difference(f"{path.name} has {({it: found.get(it) for it in wanted})} in place of {wanted}")


def awaits_line(node, line):
    """Waits until a node has said a line; it says it once."""
    end = time.monotonic() + SECONDS
    while line not in node.lines() and time.monotonic() < end:
        time.sleep(0.01)
    time.sleep(0.3)
    want(f"how many times {line!r} is said", node.lines().count(line), 1)


def promtool_takes(check, path):
    """Prometheus finds nothing wrong with the file."""
    if shutil.which("promtool") is None:
        check.lacking.add("promtool is here, so no file of metrics was read by it")
        return
    with open(path) as content:
        ran = subprocess.run(["promtool", "check", "metrics"], stdin=content, capture_output=True, text=True)
    want(f"what promtool says of {path.name}", (ran.returncode, ran.stdout, ran.stderr), (0, "", ""))


def rows_of(owners):
    """A Delta with one weight of each of these owners, from the first version on."""
    told = b"".join(block(it, 0, [("k", 1, weight(5))]) for it in owners)
    return frame(3, number(len(owners), 2) + told)


def give(node, content):
    """A session as the peer zz that brings this."""
    with connect(node.sock) as stream:
        stream.sendall(hello("zz") + content + BYE)
        while read_frame(stream):
            pass


# ---- the parts


def metrics(check):
    """The file has what the node has, and says of each peer how the last round with it ended."""
    folder = check.folder()
    path, odd = folder / "a.prom", folder / 'o"d\\d.sock'
    other = check.node("b", folder=folder).start()
    want("writes", [other.put("k", 5), other.put("l", 6)], [1, 2])
    peers = [other.sock, odd, other.sock]
    node = check.node("a", "--pause", "100", "--metrics", str(path), folder=folder, peers=peers).start()
    want("writes", [node.put("k", 5), node.put("l", 6), node.put("m", 7)], [1, 2, 3])
    want("del", node.command("del", "l"), (0, "version 4\n", ""))
    named = str(odd).replace("\\", "\\\\").replace('"', '\\"')
    wanted = {(name,): value for name, value in (
        ("attrdir_log_open", 1), ("attrdir_name_conflict", 0), ("attrdir_keys", 3), ("attrdir_keys_limit", 4096), ("attrdir_owners", 2),
        ("attrdir_owners_limit", 1024), ("attrdir_sessions_total", 0), ("attrdir_removals", 1), ("attrdir_workers", 4), ("attrdir_workers_busy", 0),
    )}
    wanted.update({("attrdir_held_version", "a"): 4, ("attrdir_held_version", "b"): 2, ("attrdir_rows", "a"): 2, ("attrdir_rows", "b"): 2})
    up = {("attrdir_peer_up", str(other.sock)): 1, ("attrdir_peer_fault", str(other.sock)): 0}
    nobody = {("attrdir_peer_up", named): 0, ("attrdir_peer_fault", named): 16}
    found = awaits(path, "a", {**wanted, **up, **nobody})
    for name in "attrdir_held_version", "attrdir_owner_age_seconds":
        want(f"the owners of {name}", sorted(it[1] for it in found if it[0] == name), ["a", "b"])
    want("the peers", sorted(it[1] for it in found if it[0] == "attrdir_peer_up"), sorted([str(other.sock), named]))
    rounds, faults = (found[it,] for it in ("attrdir_rounds_total", "attrdir_round_faults_total"))
    later = awaits(path, "a", {}, lambda it: it["attrdir_rounds_total",] >= rounds + 6)
    more = [later["attrdir_rounds_total",] - rounds, later["attrdir_round_faults_total",] - faults]
    # (of three turns one is nobody's)
    if not more[0] - 3 <= 3 * more[1] <= more[0] + 3:
        raise Difference(f"{more[1]} of {more[0]} rounds had a fault")
    since = [later["attrdir_peer_rounds_since", it] for it in (str(other.sock), named)]
    want(f"how many rounds ago each peer was dialed ({since})", (len(set(since)), max(since) <= 3), (2, True))
    other.kill()
    # (it may have ended during a session, which is another fault, or none)
    awaits(path, "a", {("attrdir_peer_up", str(other.sock)): 0})
    other.start()
    awaits(path, "a", up)
    promtool_takes(check, path)


def metrics_of_state(check):
    """The file says how many peers called and that another node writes under the name; it is written at most once a second, and a node that ends
    removes it. A turn of a node without peers counts as one round."""
    folder = check.folder()
    path = folder / "a.prom"
    began = time.time()
    node = check.node("a", "--pause", "10", "--metrics", str(path), folder=folder).start()
    none = {("attrdir_owners",): 1, ("attrdir_keys",): 0, ("attrdir_round_faults_total",): 0, ("attrdir_sessions_total",): 0}
    found = awaits(path, "a", none)
    release = ("attrdir_build_info", "0.2.0", "3", "2")
    # (a node holds itself at 0 before its first write)
    own = [("attrdir_held_version", "a"), ("attrdir_rows", "a")]
    told = [release, *own, ("attrdir_owner_age_seconds", "a")]
    want("the release, and no other owner, and no peer", [it for it in found if len(it) > 1], told)
    want("what it holds of itself", [found[it] for it in own], [0, 0])
    if not began - 1 <= found["attrdir_start_time_seconds",] <= time.time():
        raise Difference(f"it was started at {found['attrdir_start_time_seconds',]}, by its file")
    # (a stage of s, which comes to 2 of 5)
    give(node, delta("s", 0, [("k", 2, weight(5))], floor=5))
    staged = [("attrdir_held_version", "s"), ("attrdir_rows", "s")]
    found = awaits(path, "a", {it: 0 for it in staged})
    want("how many owners it holds", found["attrdir_owners",], 2)
    give(node, delta("b", 0, [("k", 1, weight(5))]))
    give(node, delta("a", 0, [("k", 1, weight(6))]))
    wanted = {("attrdir_owners",): 3, ("attrdir_name_conflict",): 1, ("attrdir_sessions_total",): 3, ("attrdir_session_faults_total",): 0}
    found = awaits(path, "a", {**wanted, ("attrdir_held_version", "b"): 1})
    want("the owners", [it[1] for it in found if it[0] == "attrdir_held_version"], ["b", "a", "s"])
    promtool_takes(check, path)
    files, began = [], time.monotonic()
    while (seconds := time.monotonic() - began) < 2.5 or len(files) < 2 and seconds < SECONDS:
        found = path.stat()
        if (found.st_ino, found.st_mtime_ns) not in files[-1:]:
            files.append((found.st_ino, found.st_mtime_ns))
        time.sleep(0.01)
    # (the first was there before)
    if not 2 <= len(files) <= 2 + seconds:
        raise Difference(f"{len(files)} files were seen in {seconds:.2f} s")
    # (another file takes its place, so that whoever reads it has a whole one)
    want("a file that was written again", [one for one, other in zip(files, files[1:]) if one[0] == other[0]], [])
    node.kill()
    path.unlink()
    node.options = ("--pause", "60000", "--metrics", str(path))
    node.start()
    want("the rounds after the first turn", awaits(path, "a", {})["attrdir_rounds_total",], 1)
    node.kill()
    node.options = ("--rounds", "2", "--metrics", str(path))
    want("an end", node.start().ended()[:2], (0, "rounds 2 faults 0 events 0\n"))
    want("the files at the end", sorted(it.name for it in folder.iterdir() if not it.name.endswith("-wal")), ["a.log"])


def metrics_elsewhere(check):
    """Where the file can't be written the node says so once, and goes on; a killed node leaves it, and its next start writes it. Nothing else is
    written over."""
    folder = check.folder()
    path = folder / "none" / "a.prom"
    node = check.node("a", "--pause", "10", "--metrics", str(path), folder=folder).start()
    awaits_line(node, f"attrdir: warning metrics {path}: cannot be written: No such file or directory (os error 2)")
    want("a write", node.put("k", 5), 1)
    path.parent.mkdir()
    awaits_line(node, f"attrdir: info metrics {path}: written again")
    node.kill()
    want("the keys that a killed node left", metrics_in(path, "a")["attrdir_keys",], 1)
    node.start()
    want("a write", node.put("l", 5), 2)
    awaits(path, "a", {("attrdir_keys",): 2})
    # (a file that is just being written is beside it for a moment)
    until("that it is alone in its folder", lambda: [it.name for it in path.parent.iterdir()] == ["a.prom"])
    node.kill()
    other = folder / "other"
    other.write_text("no metrics\n")
    over, not_metrics = "the path is that of the node's log or of a socket", "the path is taken by a file that is not metrics"
    for taken in (node.log, node.sock, node.control, folder / "a.log-wal", folder, other):
        node.options = ("--metrics", str(taken))
        status, printed, said = run(*map(str, node.words()))
        want(f"metrics at {taken.name}", (status, printed, said.splitlines()[:2]), (3, "", ["fault 17", not_metrics if taken in (folder, other) else over]))
        want("the path that is named", f"metrics {taken}: " in said, True)
    want("what is there still", other.read_text(), "no metrics\n")
    # (metrics go to FILE with .new first)
    beside = check.node("b", "--metrics", str(folder / "b"), folder=folder)
    beside.log = folder / "b.new"
    beside.log.touch()
    status, printed, said = run(*map(str, beside.words()))
    want("metrics that would be written to the log first", (status, printed, said.splitlines()[:2]), (3, "", ["fault 17", over]))
    want("that log", beside.log.read_bytes(), b"")
    want("its log", run(check.program, "log", "--log", str(node.log), "--name", "a", "--cluster", "c")[1].splitlines()[-1], "last 2")


def metrics_of_few(check):
    """With none the file leaves out the owners, or the peers."""
    folder = check.folder()
    path = folder / "a.prom"
    owners = ("attrdir_held_version", "attrdir_rows", "attrdir_owner_age_seconds")
    peers = ("attrdir_peer_up", "attrdir_peer_fault", "attrdir_peer_rounds_since")
    other = check.node("b", folder=folder).start()
    want("a write", other.put("k", 5), 1)
    for options, without in (("--metrics-owners", "none"), owners), (("--metrics-peers", "none"), peers):
        node = check.node("a", "--pause", "10", "--metrics", str(path), *options, folder=folder, peers=[other.sock]).start()
        awaits(path, "a", {("attrdir_owners",): 2}, without=without)
        promtool_takes(check, path)
        node.kill()
        path.unlink()


def shortages(check):
    """At nine tenths of the keys, and of the owners, that a node may have it says so, once, with or without a file."""
    folder = check.folder()
    path = folder / "a.prom"
    node = check.node("a", "--pause", "10", "--metrics", str(path), folder=folder)
    want("a new log", run(check.program, "log", "--log", str(node.log), "--name", "a", "--cluster", "c")[1], "last 0\n")
    with sqlite3.connect(node.log) as log:
        log.executemany("INSERT INTO writes VALUES (?, ?, 2, 5, NULL)", [(f"k{at:04}", at) for at in range(1, 3687)])
    log.close()
    node.start()
    give(node, rows_of([f"o{at:04}" for at in range(920)]))
    awaits(path, "a", {("attrdir_keys",): 3686, ("attrdir_owners",): 921, ("attrdir_rows", "a"): 3686})
    want("what it says", len(node.lines()), 1)
    want("a write", node.put("l", 5), 3687)
    awaits_line(node, "attrdir: warning node a: 3687 of 4096 keys are used")
    give(node, rows_of(["o0920"]))
    awaits_line(node, "attrdir: warning node a: 922 of 1024 owners are used")
    want("how many lines it says", len(node.lines()), 3)
    promtool_takes(check, path)
    node.kill()
    node.options = ("--pause", "10")
    node.start()
    awaits_line(node, "attrdir: warning node a: 3687 of 4096 keys are used")
    # (the last ones all at once)
    rest = "".join(f"m{at} weight 5\n" for at in range(4096 - 3687)).encode()
    with subprocess.Popen([node.program, "set", "--control", str(node.control), "-"], stdin=subprocess.PIPE, stdout=subprocess.DEVNULL) as ran:
        # (each is a write to the disk)
        ran.communicate(rest, timeout=4 * SECONDS)
    want("the last keys", ran.returncode, 0)
    awaits_line(node, "attrdir: error node a: all 4096 keys are used; no other is taken")
    want("a key more", node.command("set", "n0", "weight", "5")[2].splitlines()[:1], ["fault 6"])
    awaits_line(node, "attrdir: error node a: writes refused since all keys are used: 1; see RUNBOOK, Keys used up")


PARTS = (metrics, metrics_of_state, metrics_of_few, metrics_elsewhere, shortages)
