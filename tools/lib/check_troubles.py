"""The parts of tools/check-node that look at what a node does and prints where its log fails or is lost, and of what it suffers."""
import os
import resource
import sqlite3
import threading
import time
from pathlib import Path

from check_metrics import awaits, awaits_line, promtool_takes
from check_waking import Place, fill, take_descriptors
from nodes import BYE, DONE, SECONDS, Difference, connect, exchange, hello, put, read_frame, run, throw, until, want, weight
from small_disk import SmallDisk, disk_in

# from so many removals in its log on a node here purges it at a start
REMOVALS = 32
# how many seconds may pass, at most, until a node with a pause of 50 ms says that its -wal is lost: a hundred looks, also on a busy machine
SOON = 5
# the Hello of a peer of the version before
HELLO_OF_BEFORE = b"\xa7\x02" + hello("b")[2:]


def removals_in(node):
    """Gives the log of a node that does not run so many removals that a start may purge it, and one row."""
    want("a new log", run(node.program, "log", "--log", str(node.log), "--name", node.name, "--cluster", "c")[1], "last 0\n")
    with sqlite3.connect(node.log) as log:
        log.executemany("INSERT INTO writes VALUES (?, ?, 0, NULL, NULL)", [(f"r{at:04}", at) for at in range(1, REMOVALS + 1)])
        log.execute("INSERT INTO writes VALUES ('k', ?, 2, 5, NULL)", [REMOVALS + 1])
    log.close()


def refuses_a_write(node, fault):
    want("a write", node.command("set", "n", "weight", "6")[2].splitlines()[:1], [f"fault {fault}"])


def ends_early(node):
    """Starts a node that ends by itself: its status, what it printed, and what it said."""
    for path in (node.sock, node.control):
        path.unlink(missing_ok=True)
    return run(*map(str, node.words()))


# ---- the parts


def full_disks_at_a_start(check):
    """A node that is to purge its log, and has no room for that, starts all the same, as one whose log is closed. With room it purges at its next start."""
    folder = check.folder()
    path = folder / "a.prom"
    with disk_in(folder / "disk") as disk:
        if not isinstance(disk, SmallDisk):
            check.lacking.add("a disk can be mounted, so no log was on a full one at a start")
            return
        with_metrics = ("--pause", "10", "--metrics", str(path))
        purging = ("--purge-removals", str(REMOVALS))
        node = check.node("a", "--purge-removals", "0", folder=folder)
        disk.place(Place(node))
        removals_in(node)
        node.start()
        want("a write", node.put("n", 5), REMOVALS + 2)
        disk.fill(None)
        # (the log has room of its own, which is used up first)
        want("the write that had no room", fill(node), (3, "fault 18"))
        node.kill()
        node.options = (*with_metrics, *purging)
        node.start()
        rows = node.get()
        want("its first rows", [it for it in rows if it.split()[1] in ("k", "n")], [f"a k {REMOVALS + 1} weight 5", f"a n {REMOVALS + 2} weight 5"])
        expected = {("attrdir_removals",): REMOVALS, ("attrdir_rows", "a"): len(rows)}
        awaits(path, "a", {("attrdir_log_open",): 0, ("attrdir_log_fault", "no_space"): 1, **expected})
        refuses_a_write(node, 15)
        front = f"attrdir: error log {node.log}: fault 18: no space is left; no more writes are taken: "
        said = [f"attrdir: warning log {node.log}: its removals could not be purged", front + "make room on its disk; then start the node again"]
        want("what it says", [it for it in node.lines() if "listens" not in it], said)
        promtool_takes(check, path)
        node.kill()
        node.options = (*purging, "--on-log-fault", "exit")
        status, printed, said = ends_early(node)
        want("its end", (status, printed, said.splitlines()[-3:][:1]), (3, "", ["fault 18"]))
        disk.free(None)
        node.options = purging
        node.start()
        last = max(int(it.split()[2]) for it in rows)
        want("what it says", node.lines()[:1], [f"attrdir: info log {node.log}: {REMOVALS} removals up to version {last} are purged"])
        want("its rows", node.get(), rows)
        want("a write", node.put("n", 6), last + 1)
        node.kill()


def replaces(path, content):
    """Puts another file at a path in one step: a node that looks in between would find it removed. The first one is kept beside it."""
    os.link(path, path.with_name("moved"))
    path.with_name("other").write_bytes(content)
    path.with_name("other").replace(path)


def lost_logs(check):
    """A node whose log is removed, replaced or emptied says so once, and takes no more writes, or ends."""
    for cause, lose in (
        ("removed", lambda log: log.unlink()),
        ("replaced", lambda log: replaces(log, log.read_bytes())),
        ("replaced", lambda log: replaces(log, b"another file\n")),
        ("replaced", lambda log: replaces(log, b"")),
        ("replaced", lambda log: log.write_bytes(b"")),
    ):
        folder = check.folder()
        path = folder / "a.prom"
        node = check.node("a", "--pause", "50", "--metrics", str(path), folder=folder).start()
        want("a write", node.put("k", 5), 1)
        awaits(path, "a", {("attrdir_log_open",): 1})
        lose(node.log)
        # (before the next round too)
        refuses_a_write(node, 15)
        awaits(path, "a", {("attrdir_log_open",): 0, ("attrdir_log_fault", cause): 1})
        front = f"attrdir: error log {node.log}: fault 18: its file was {cause}; no more writes are taken: "
        awaits_line(node, front + "put the file back, or see RUNBOOK, A removed log; then start the node again")
        want("its rows", node.get(), ["a k 1 weight 5"])
        status, printed, _ = node.command("status")
        want("its status", (status, [it for it in printed.splitlines() if it.startswith("log_fault")]), (1, [f"log_fault {cause}"]))
        promtool_takes(check, path)
        node.kill()
        node = check.node("a", "--pause", "50", "--on-log-fault", "exit").start()
        want("a write", node.put("k", 5), 1)
        lose(node.log)
        status, printed, said = node.ended()
        want(f"its end by a log that is {cause}", (status, printed, said[-3]), (3, "", "fault 18"))
        want("its sockets", (node.sock.exists(), node.control.exists()), (False, False))


def copies_with_number(source, target):
    """Copies a file to another disk, as a file that has the same number there. Whether that could be done."""
    for _ in range(100):
        target.write_bytes(source.read_bytes())
        if target.stat().st_ino == source.stat().st_ino:
            return True
        target.unlink()
    return False


def logs_on_other_disks(check):
    """Another disk takes the place of that of a log, with copies of both files that have the same numbers there. The node says that its log was
    replaced, and takes no more writes."""
    folder = check.folder()
    with disk_in(folder / "first") as first, disk_in(folder / "second") as second:
        if not (isinstance(first, SmallDisk) and isinstance(second, SmallDisk)):
            check.lacking.add("a disk can be mounted, so no other one took the place of that of a log")
            return
        link, other = folder / "disk", folder / "other"
        link.symlink_to("first")
        other.symlink_to("second")
        node = check.node("a", "--pause", "50", folder=folder)
        node.log = link / "a.log"
        node.log.touch()
        node.start()
        want("a write", node.put("k", 5), 1)
        if not all(copies_with_number(first.folder / it, second.folder / it) for it in ("a.log", "a.log-wal")):
            check.lacking.add("two disks give their files the same numbers, so no such file took the place of a log")
            return
        other.replace(link)
        refuses_a_write(node, 15)
        front = f"attrdir: error log {node.log}: fault 18: its file was replaced; no more writes are taken: "
        awaits_line(node, front + "put the file back, or see RUNBOOK, A removed log; then start the node again")
        node.kill()


def wal_of(node):
    """Where the -wal of a node's log lies."""
    return node.log.with_name(node.log.name + "-wal")


def writes_until_refused(node, answered, writing):
    """Writes one key after another, each under a lock, and notes the version of each that was answered, until the node refuses one."""
    while True:
        with writing:
            answer = exchange(node.control, put(f"k{len(answered) % 50:02}", weight(len(answered))))
        if answer is None or answer[0] != DONE:
            return
        answered.append(int.from_bytes(answer[1], "big"))
        # (another one that waits for the lock gets it)
        time.sleep(0.001)


def is_shown(node, answered):
    """A node that runs shows the last write that it answered to each key."""
    last = {at % 50: (version, at) for at, version in enumerate(answered)}
    want("its rows", node.get(), [f"a k{key:02} {version} weight {at}" for key, (version, at) in sorted(last.items())])


def lost_wals(check):
    """A node whose -wal is removed, moved, replaced, emptied or cut says so soon, and refuses writes from then on. It shows each write
    that it answered until then. If the -wal was only moved, and is put back, a start finds each of them."""
    writing = threading.Lock()

    def cut(wal):
        # (not beside a write, which may make it longer again)
        with writing:
            os.truncate(wal, 5000)

    def blank(wal):
        """Leaves zeros, and more than there were bytes: so it is if a write that grows the file comes right after it was emptied."""
        with writing:
            length = wal.stat().st_size
            os.truncate(wal, 0)
            os.truncate(wal, length + 300_000)

    for cause, lose in (
        ("removed", lambda wal: wal.unlink()),
        ("removed", lambda wal: wal.rename(wal.with_name("moved"))),
        ("replaced", lambda wal: replaces(wal, b"")),
        ("replaced", lambda wal: replaces(wal, wal.read_bytes())),
        ("replaced", lambda wal: wal.write_bytes(b"")),
        ("replaced", blank),
        ("replaced", cut),
    ):
        folder = check.folder()
        path = folder / "a.prom"
        node = check.node("a", "--pause", "50", "--metrics", str(path), folder=folder).start()
        answered, wal = [], wal_of(node)
        writer = threading.Thread(target=writes_until_refused, args=(node, answered, writing), daemon=True)
        writer.start()
        # (the node has looked at a -wal that has more than is cut off)
        until("some writes", lambda: len(answered) >= 20)
        lose(wal)
        began = time.monotonic()
        writer.join(SECONDS)
        if writer.is_alive() or time.monotonic() - began > SOON:
            raise Difference(f"with a -wal that is {cause} the node took {len(answered)} writes, for {time.monotonic() - began:.2f} s")
        refuses_a_write(node, 15)
        front = f"attrdir: error log {node.log}-wal: fault 18: its file was {cause}; no more writes are taken: "
        awaits_line(node, front + "put the file back, or see RUNBOOK, A removed log; then start the node again")
        awaits(path, "a", {("attrdir_log_open",): 0, ("attrdir_log_fault", cause): 1})
        is_shown(node, answered)
        node.kill()
        if wal.with_name("moved").exists():
            wal.with_name("moved").replace(wal)
            node.start()
            is_shown(node, answered)
            want("the next version", node.put("next", 5), answered[-1] + 1)
            node.kill()


def quiet_wals(check):
    """A node without a write and without a caller says soon that its -wal is gone. One with --on-log-fault exit ends."""
    node = check.node("a", "--pause", "50").start()
    wal_of(node).unlink()
    began = time.monotonic()
    while not any("-wal: fault 18: its file was removed" in it for it in node.lines()):
        if time.monotonic() - began > SOON:
            raise Difference(f"a removed -wal is not said in {node.lines()}")
        time.sleep(0.01)
    refuses_a_write(node, 15)
    node.kill()
    node = check.node("a", "--pause", "50", "--on-log-fault", "exit").start()
    want("a write", node.put("k", 5), 1)
    wal_of(node).unlink()
    status, printed, said = node.ended()
    last = [
        "fault 18", "the node has ended, since its log takes no more writes",
        f"log {node.log}: the line of this log before says why; before you start the node again, see RUNBOOK, A full disk, or A removed log",
    ]
    want("its end by a -wal that is removed", (status, printed, said[-3:]), (3, "", last))


def whole_wals(check):
    """A node whose -wal was copied into its log several times, and written from its front again, says nothing of its log. So too one whose log is a
    link, and one whose folder is renamed again and again while it writes, with a log that is named from there."""

    def says_nothing(node):
        want("what it says of its log", [it for it in node.lines() if "fault 18" in it], [])
        node.kill()

    def renames(place):
        # (no name comes twice, so that a look in between finds nothing at an earlier one)
        for at in range(5000 if check.is_long else 500):
            if ended.wait(0.001):
                return
            place = place.rename(place.with_name(f"renamed{at}"))

    folder = check.folder()
    path = folder / "a.prom"
    node = check.node("a", "--pause", "50", "--metrics", str(path), folder=folder).start()
    # (it is copied after some 250 writes)
    for at in range(5000 if check.is_long else 1200):
        node.put(f"k{at % 100:02}", at)
    if node.log.stat().st_size <= 4096:
        raise Difference(f"nothing of the -wal was copied: the log has {node.log.stat().st_size} bytes")
    awaits(path, "a", {("attrdir_log_open",): 1})
    says_nothing(node)
    folder = check.folder()
    (folder / "inner").mkdir()
    node = check.node("a", "--pause", "1", folder=folder)
    node.log.rename(folder / "inner/a.log")
    node.log.symlink_to(folder / "inner/a.log")
    node.start()
    want("writes", [node.put("k", it) for it in range(5)], [1, 2, 3, 4, 5])
    time.sleep(0.5)
    says_nothing(node)
    node.log.unlink()
    node.how["cwd"], node.log = str(folder / "inner"), Path("a.log")
    node.start()
    ended = threading.Event()
    renaming = threading.Thread(target=renames, args=(folder / "inner",))
    renaming.start()
    version = 5
    try:
        while renaming.is_alive():
            version += 1
            want("a write while the folder is renamed", node.put("k", version), version)
    finally:
        ended.set()
        renaming.join()
    says_nothing(node)


def faults_of_sessions(check):
    """A session that another node dialed and that ends with a fault is counted, and said: the first at once, and others not before a minute."""
    folder = check.folder()
    path = folder / "a.prom"
    node = check.node("a", "--pause", "10", "--metrics", str(path), folder=folder).start()
    throw(node.sock, HELLO_OF_BEFORE)
    front = "attrdir: warning node a: "
    first = front + "sessions of other nodes ended with a fault: 1; the last by fault 11"
    version = front + "frames of another version refused: 1; run the same release at both ends"
    awaits_line(node, first)
    awaits_line(node, version)
    throw(node.sock, HELLO_OF_BEFORE)
    throw(node.control, HELLO_OF_BEFORE)
    throw(node.sock, hello("b", "c2"))
    awaits(path, "a", {("attrdir_session_faults_total",): 3, ("attrdir_other_versions_total",): 3, ("attrdir_sessions_total",): 3})
    want("what it says", sorted(node.lines()[1:]), sorted([first, version]))
    promtool_takes(check, path)
    if check.is_long:
        time.sleep(61)
        later = [it.split("node a: ")[1] for it in node.lines()[3:]]
        want("what it says a minute later", sorted(later), [
            "frames of another version refused: 2; run the same release at both ends",
            "sessions of other nodes ended with a fault: 2; the last by fault 23",
        ])


def busy_workers(check):
    """Workers that all wait for silent peers for longer than a second are said, and counted once, as long as that lasts."""
    folder = check.folder()
    path = folder / "a.prom"
    node = check.node("a", "--pause", "10", "--workers", "2", "--idle", "60000", "--metrics", str(path), folder=folder).start()
    peers = [connect(node.sock) for _ in range(2)]
    for at, peer in enumerate(peers):
        peer.sendall(hello(f"b{at}"))
        read_frame(peer)
    awaits(path, "a", {("attrdir_workers",): 2, ("attrdir_workers_busy",): 2})
    awaits(path, "a", {("attrdir_all_workers_busy_total",): 1})
    said = "attrdir: warning node a: times that all workers were busy for longer than a second: 1; give it more --workers, or end silent peers"
    awaits_line(node, said)
    time.sleep(1.5)
    awaits(path, "a", {("attrdir_all_workers_busy_total",): 1})
    for peer in peers:
        peer.sendall(BYE)
        while read_frame(peer):
            pass
        peer.close()
    awaits(path, "a", {("attrdir_workers_busy",): 0, ("attrdir_all_workers_busy_total",): 1})


def callers_turned_away(check):
    """That a node accepts nobody for want of descriptors is said, and counted once however often it tries."""
    folder = check.folder()
    path = folder / "a.prom"
    node = check.node("a", "--pause", "10", "--metrics", str(path), folder=folder).start()
    awaits(path, "a", {("attrdir_turned_away_total",): 0})
    limits = take_descriptors(node.ran.pid)
    connect(node.sock).close()
    end = time.monotonic() + SECONDS
    said = "warning node a: callers turned away, or times that none could be accepted: 1; let the process open more files"
    while not any(said in it for it in node.lines()):
        if time.monotonic() > end:
            raise Difference(f"no failure to accept is said in {node.lines()}")
        time.sleep(0.02)
    time.sleep(0.5)
    resource.prlimit(node.ran.pid, resource.RLIMIT_NOFILE, limits)
    awaits(path, "a", {("attrdir_turned_away_total",): 1})


PARTS = (full_disks_at_a_start, lost_logs, logs_on_other_disks, lost_wals, quiet_wals, whole_wals, faults_of_sessions, busy_workers, callers_turned_away)
