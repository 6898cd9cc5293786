"""The parts of tools/check-node that look at `begin` and `restore`: at what they take and refuse, at a node whose log is lost or replaced, and at a name
that is to end."""
import contextlib
import fcntl
import os
import subprocess
import threading
import time

from nodes import SECONDS, exchange, long_text, put, run, until, want

# what --from adds to the last version that a node heard of
MORE = 1_048_576

GREATEST = 2**40 - 1


def begin(check, node, *words, name=None, log=None):
    """The status of `begin` for a node, what it printed, and the lines that it said."""
    places = ["--log", str(log or node.log), "--name", name or node.name, "--cluster", "c"]
    status, printed, said = run(check.program, "begin", *places, *map(str, words))
    return status, printed, said.splitlines()


def restore(check, node, asked, shown=None, name=None, log=None):
    """The status of `restore` for a node from this one, or with the rows of another, what it printed, and the lines that it said."""
    places = ["--log", str(log or node.log), "--name", name or node.name, "--cluster", "c"]
    status, printed, said = run(check.program, "restore", *places, "--from", str(asked.sock), "--from-control", str((shown or asked).control))
    return status, printed, said.splitlines()


def files_of(log):
    """The names of the files of a log, and of those beside it."""
    return sorted(it.name for it in log.parent.glob(log.name + "*"))


def want_fault(what, found, fault, about=""):
    """It ended with this fault, its text and what to do about it; both have these words."""
    status, printed, said = found
    want(what, (status, printed, said[:1], len(said)), (3, "", [f"fault {fault}"], 3))
    want(f"what is said of {what} ({said})", about in " ".join(said), True)


def lines_of(check, node):
    return run(check.program, "log", "--log", str(node.log), "--name", node.name, "--cluster", "c")[1]


def begin_words(check):
    """What begin prints and makes, and which logs, versions and lines it refuses."""
    node = check.node("a")
    for wrong in ([], ["--after", "7", "--from", "b.sock"], ["--after", "+7"], ["--after", "x"], ["--after", "18446744073709551616"], ["--after"], ["7"]):
        want(f"begin {wrong}", begin(check, node, *wrong)[:2], (2, ""))
    for outside in (0, GREATEST + 1):
        want_fault(f"a version of {outside}", begin(check, node, "--after", outside), 5, "1099511627775")
    want("the file that was not opened", node.log.stat().st_size, 0)
    want_fault("a name that is none", begin(check, node, "--after", 7, name="A"), 2, "--name")
    made = node.log.with_name("made.log")
    want("in a file that is not there", (begin(check, node, "--after", 7, log=made), made.exists()), ((0, "begun 7\n", []), True))
    want("in an empty file", begin(check, node, "--after", 7), (0, "begun 7\n", []))
    want("what its log holds", lines_of(check, node), "last 7\n")
    want_fault("a log that began", begin(check, node, "--after", 9), 31, "its next write has version 8")
    want_fault("the log of another", begin(check, node, "--after", 9, name="b"), 20)
    node.start()
    want_fault("a log of a node that runs", begin(check, node, "--after", 9), 18, "another process has the log open")
    nowhere = node.log.with_name("nowhere") / "a.log"
    want_fault("a log in no folder", begin(check, node, "--after", 9, log=nowhere), 18, "its folder does not exist")
    want("the next version", node.put("x", 1), 8)
    node.kill()
    want_fault("a log with writes", begin(check, node, "--after", 99), 31, "its next write has version 9")
    want("what its log holds", lines_of(check, node), "a x 8 weight 1\nlast 8\n")
    text = node.log.with_name("text.log")
    text.write_text("no log, but a text that is long enough to be read as one, were it one\n" * 20)
    want_fault("a file that is no log", begin(check, node, "--after", 9, log=text), 19)
    last = node.log.with_name("last.log")
    warned = f"attrdir: warning log {last}: no version is left, so nothing can be written under this name any more"
    want("the greatest version", begin(check, node, "--after", GREATEST, log=last), (0, f"begun {GREATEST}\n", [warned]))


def lost_log(check):
    """A node whose log is gone begins behind what a peer heard of it: the others drop its old rows, take its new writes, and its rows are
    written back from a peer's."""
    folder = check.folder()
    lost, peer = check.node("a", folder=folder), check.node("b", folder=folder, peers=[folder / "a.sock"])
    far = check.node("d", folder=folder, peers=[folder / "b.sock"])
    for node in (lost, peer, far):
        node.start()
    want("writes", [lost.put("x", 1), lost.put("y/note", 2), lost.put("x", 3)], [1, 2, 3])
    want("a text", lost.command("set", "y/text", "text", "zone b, rack 7"), (0, "version 4\n", ""))
    want("a removal", lost.command("del", "y/note"), (0, "version 5\n", ""))
    rows = ["a x 3 weight 3", "a y/text 4 text zone b, rack 7"]
    for node in (peer, far):
        node.awaits("the rows of a", lambda found: found == rows)
    lost.kill()
    lost.lose()
    want_fault("a node that is not there", begin(check, lost, "--from", lost.sock), 16, "no node could be reached")
    want_fault("the name of the node that is asked", begin(check, lost, "--from", peer.sock, name="b"), 24)
    want_fault("a name of which nothing was heard", begin(check, lost, "--from", peer.sock, name="zz"), 9, "heard nothing of this name")
    want("nothing was made", lost.log.exists(), False)
    want("what begin prints", begin(check, lost, "--from", far.sock), (0, f"begun {5 + MORE}\n", []))
    # the rows of a peer, as lines that `set -` takes
    recipe = f"{check.program} get --control {peer.control} --owner a | cut -d ' ' -f 2,4-"
    lines = subprocess.run(["bash", "-c", recipe], capture_output=True, text=True, timeout=SECONDS).stdout
    want("the lines of the recipe", lines, "x weight 3\ny/text text zone b, rack 7\n")
    lost.start()
    for node in (peer, far):
        node.awaits("that the old rows go", lambda found: found == [])
    back = subprocess.run([check.program, "set", "--control", str(lost.control), "-"], input=lines, capture_output=True, text=True, timeout=SECONDS)
    want("the writes of the recipe", (back.returncode, back.stdout), (0, f"version {6 + MORE}\nversion {7 + MORE}\n"))
    rows = [f"a x {6 + MORE} weight 3", f"a y/text {7 + MORE} text zone b, rack 7"]
    for node in (lost, peer, far):
        node.awaits("the rows of a", lambda found: found == rows)


def ended_name(check):
    """A name that begins anew and writes nothing ends: its rows go everywhere, also where a node was away meanwhile."""
    folder = check.folder()
    ended, peer = check.node("old", "--rounds", "3", "--pause", "50", folder=folder, peers=[folder / "b.sock"]), check.node("b", folder=folder)
    away = check.node("d", folder=folder, peers=[folder / "b.sock"])
    peer.start()
    away.start()
    first = check.node("old", folder=folder, peers=[folder / "b.sock"]).start()
    want("writes", [first.put("x", 1), first.put("y", 2)], [1, 2])
    want("a write of another", peer.put("kept", 7), 1)
    rows = ["b kept 1 weight 7", "old x 1 weight 1", "old y 2 weight 2"]
    for node in (peer, away):
        node.awaits("the rows", lambda found: found == rows)
    first.kill()
    away.kill()
    ended.lose()
    want("what begin prints", begin(check, ended, "--after", 5000), (0, "begun 5000\n", []))
    ended.start()
    want("its end", ended.ended()[0], 0)
    peer.awaits("that its rows go", lambda found: found == ["b kept 1 weight 7"])
    away.start()
    away.awaits("that its rows go", lambda found: found == ["b kept 1 weight 7"])
    owners = run(check.program, "owners", "--sock", str(peer.sock), "--cluster", "c")[1]
    want("how far the name is held", owners, "b 1\nold 5000\n")
    ended.lose()
    want("what begin prints of the greatest version", begin(check, ended, "--after", GREATEST)[:2], (0, f"begun {GREATEST}\n"))
    want("its end", ended.start().ended()[0], 0)
    until("the end of the name at a peer", lambda: f"old {GREATEST}\n" in run(check.program, "owners", "--sock", str(peer.sock), "--cluster", "c")[1])
    want_fault("a log for which no version is left", begin(check, ended, "--from", peer.sock, log=ended.log.with_name("none.log")), 5, "1,048,576")


def written_back(node, lines):
    """How many writes `set -` made of these lines at a node."""
    # (each is a write to the disk)
    back = subprocess.run([node.program, "set", "--control", str(node.control), "-"], input=lines, capture_output=True, text=True, timeout=4 * SECONDS)
    want("the status of set -", (back.returncode, back.stderr), (0, ""))
    return len(back.stdout.splitlines())


def without_a_gap(check):
    """More rows than a frame has room for are written back before others hear of it, and purged: these show the old ones until all new ones came."""
    folder, count = check.folder(), 600
    peer = check.node("b", folder=folder).start()
    lost = check.node("a", folder=folder, peers=[peer.sock]).start()
    for at in range(count):
        exchange(lost.control, put(f"k{at:03}", long_text(f"{at:03} " + 200 * "x")))
    versions = lambda: [int(it.split()[2]) for it in peer.get("--owner", "a")]
    peer.awaits("the rows of a", lambda _: versions() == list(range(1, count + 1)))
    lost.kill()
    lost.lose()
    lines = "".join(f"{it.split(' ', 3)[1]} {it.split(' ', 3)[3]}\n" for it in peer.get("--owner", "a"))
    want("what begin prints", begin(check, lost, "--from", peer.sock), (0, f"begun {count + MORE}\n", []))
    quiet = check.node("a", folder=folder)
    quiet.sock = folder / "new.sock"
    want("how many are written back", written_back(quiet.start(), lines), count)
    quiet.kill()
    want("up to where it is purged", lost.purge(), 2 * count + MORE)
    looks, is_over = [], threading.Event()
    looking = threading.Thread(target=lambda: [looks.append(len(versions())) for _ in iter(is_over.is_set, True)])
    looking.start()
    try:
        until("a look at the old rows", lambda: looks)
        lost.start()
        peer.awaits("the new rows", lambda _: versions() == list(range(count + MORE + 1, 2 * count + MORE + 1)))
    finally:
        is_over.set()
        looking.join()
    want("how many rows the peer had meanwhile", set(looks), {count})


@contextlib.contextmanager
def locked(folder):
    """A folder that is locked as a command that restores a log in it does."""
    handle = os.open(folder, os.O_RDONLY)
    try:
        fcntl.flock(handle, fcntl.LOCK_EX)
        yield
    finally:
        os.close(handle)


def restore_words(check):
    """What restore refuses, what it leaves then, and which files at the path of the log it replaces."""
    folder = check.folder()
    peer, idle = check.node("b", folder=folder).start(), check.node("d", folder=folder).start()
    lost, gone = (check.node(name, "--pause", "20", folder=folder, peers=[peer.sock]).start() for name in ("a", "gone"))
    want("writes", [lost.put("x", 1), lost.put("y", 2), gone.put("z", 3)], [1, 2, 1])
    want("a removal", gone.command("del", "z"), (0, "version 2\n", ""))
    peer.awaits("the rows of a", lambda found: found == ["a x 1 weight 1", "a y 2 weight 2"])
    while "gone 2\n" not in run(check.program, "owners", "--sock", str(peer.sock), "--cluster", "c")[1]:
        time.sleep(0.02)
    for node in (lost, gone):
        node.kill()
    at = ["--log", str(lost.log), "--name", "a", "--cluster", "c"]
    for wrong in (at, [*at, "--from", str(peer.sock)], [*at, "--from-control", str(peer.control)], [*at, "--from", "x", "--from-control", "y", "7"]):
        want(f"restore {wrong[6:]}", run(check.program, "restore", *wrong)[:2], (2, ""))
    want_fault("a log with writes", restore(check, lost, peer), 31, "its next write has version 3")
    want("what its log holds", lines_of(check, lost), "a x 1 weight 1\na y 2 weight 2\nlast 2\n")
    want("the files of it", files_of(lost.log), ["a.log", "a.log-wal"])
    new = folder / "new.log"
    want_fault("a name that is none", restore(check, lost, peer, name="A", log=new), 2, "--name")
    want_fault("a node that is not there", restore(check, lost, lost, log=new), 16, "no node could be reached")
    want_fault("a control socket that is not there", restore(check, lost, peer, shown=lost, log=new), 16, "no node could be reached")
    want_fault("the name of the node that is asked", restore(check, lost, peer, name="b", log=new), 24)
    want_fault("a name of which nothing was heard", restore(check, lost, peer, name="zz", log=new), 9, "heard nothing of this name")
    want_fault("a name without rows", restore(check, lost, peer, name="gone", log=new), 9, "shows no row of this name")
    want_fault("a node that shows none", restore(check, lost, peer, shown=idle, log=new), 9, "shows no row of this name")
    want_fault("a log in no folder", restore(check, lost, peer, log=folder / "nowhere" / "a.log"), 18, "its folder does not exist")
    with locked(folder):
        want_fault("a folder in which another process restores", restore(check, lost, peer, log=new), 18, "another process restores a log")
    want("what was made", files_of(new), [])
    lost.start()
    want_fault("a log of a node that runs", restore(check, lost, peer), 18, "another process has the log open")
    want_fault("that node for the name", restore(check, lost, lost), 24)
    lost.log.rename(folder / "old.log")
    want_fault("a -wal alone", restore(check, lost, peer), 18, "of its name with -wal")
    lost.log.with_name("a.log-wal").rename(folder / "old.log-wal")
    lost.log.symlink_to("new.log")
    want_fault("a link", restore(check, lost, peer), 18, "is a link")
    lost.log.unlink()
    text = "no log, but a text that is long enough to be read as one, were it one\n" * 20
    lost.log.write_text(text)
    want_fault("a file that is no log", restore(check, lost, peer), 19)
    want("that file", lost.log.read_text(), text)
    lost.log.unlink()
    # a log without writes, and what a command that was killed left; the rows are those of the node itself
    lost.log.touch()
    lost.log.with_name("a.log.restore").write_text(text)
    want("what restore prints", restore(check, lost, peer, shown=lost), (0, f"restored 2 last {4 + MORE}\n", []))
    want("the files of it", files_of(lost.log), ["a.log"])
    lost.kill()
    want("what its log holds", lines_of(check, lost), f"a x {3 + MORE} weight 1\na y {4 + MORE} weight 2\nlast {4 + MORE}\n")
    busy = check.node("a", folder=folder)
    busy.log = folder / "new.log.restore"
    busy.log.touch()
    busy.start()
    want_fault("a file beside it that is open", restore(check, lost, peer, log=new), 18, "another process has the log open")
    want("what was made", new.exists(), False)


def restored_log(check):
    """A log that is lost is restored with more rows than a frame has room for: whole or not at all, wherever it is killed. Others show the old rows
    until all new ones came, and the node goes on after them."""
    folder, count = check.folder(), 600
    peer = check.node("b", folder=folder).start()
    lost = check.node("a", folder=folder, peers=[peer.sock]).start()
    for at in range(count):
        exchange(lost.control, put(f"k{at:03}", long_text(f"{at:03} " + 200 * "x")))
    versions = lambda: [int(it.split()[2]) for it in peer.get("--owner", "a")]
    peer.awaits("the rows of a", lambda _: versions() == list(range(1, count + 1)))
    lost.kill()
    values = [it.split(" ", 3)[1::2] for it in peer.get("--owner", "a")]
    lost.lose()
    words = ["restore", "--log", str(lost.log), "--name", "a", "--cluster", "c", "--from", str(peer.sock), "--from-control", str(peer.control)]
    for turn in range(20):
        ran = subprocess.Popen([check.program, *words], stdout=subprocess.DEVNULL, stderr=subprocess.DEVNULL)
        time.sleep(0.01 * turn)
        ran.kill()
        ran.wait()
        if lost.log.exists():
            want("the lines of a log that is there", lines_of(check, lost).count("\n"), count + 1)
            for name in files_of(lost.log):
                (folder / name).unlink()
    want("what restore prints", restore(check, lost, peer), (0, f"restored {count} last {2 * count + MORE}\n", []))
    want("the files of it", files_of(lost.log), ["a.log"])
    looks, is_over = [], threading.Event()
    looking = threading.Thread(target=lambda: [looks.append(len(versions())) for _ in iter(is_over.is_set, True)])
    looking.start()
    try:
        until("a look at the old rows", lambda: looks)
        lost.start()
        peer.awaits("the new rows", lambda _: versions() == list(range(count + MORE + 1, 2 * count + MORE + 1)))
    finally:
        is_over.set()
        looking.join()
    want("how many rows the peer had meanwhile", set(looks), {count})
    want("the values of the new rows", [it.split(" ", 3)[1::2] for it in peer.get("--owner", "a")], values)
    want("the next write", lost.put("new", 1), 2 * count + MORE + 1)
    peer.awaits("the next write", lambda found: f"a new {2 * count + MORE + 1} weight 1" in found)


def replaced_log(check):
    """A log whose file was moved, with an empty file in its place, and later with none: each command refuses it, and changes no byte. Once the file is
    back, each write that was answered is there, and the node goes on. Once its -wal is gone too, an empty file is a new log."""
    folder = check.folder()
    peer = check.node("b", folder=folder).start()
    node = check.node("a", folder=folder, peers=[peer.sock]).start()
    want("writes", [node.put("x", 1), node.put("y", 2), node.put("x", 3)], [1, 2, 3])
    want("a removal", node.command("del", "y"), (0, "version 4\n", ""))
    peer.awaits("the rows of a", lambda found: found == ["a x 3 weight 3"])
    moved, wal, link = folder / "moved.log", folder / "a.log-wal", folder / "link"
    node.log.rename(moved)
    node.log.touch()
    link.symlink_to(node.log)
    want("a write once it was replaced", node.command("set", "z", "weight", "5")[2].splitlines()[:1], ["fault 15"])
    node.kill()
    kept = wal.read_bytes()
    commands = [node.words()[1:]]
    for path, name, *words in (
        (node.log, "log"), (link, "log"), (node.log, "purge", "--all"), (node.log, "begin", "--after", "9000"),
        (node.log, "restore", "--from", str(peer.sock), "--from-control", str(peer.control)),
    ):
        commands.append([name, "--log", str(path), "--name", "a", "--cluster", "c", *words])
    for text, content in (("the file of the log is empty, but a file of its name with -wal has writes", b""), ("no such log, but a file of its name with -wal", None)):
        for words in commands:
            status, printed, said = run(check.program, *words)
            want_fault(f"{words[:3]}, if {text}", (status, printed, said.splitlines()), 18, text)
            want(f"the file after {words[:3]}", node.log.read_bytes() if node.log.exists() else None, content)
            want(f"whether the -wal is as it was after {words[:3]}", wal.read_bytes() == kept, True)
        want("the files beside it", files_of(node.log)[-1:], ["a.log-wal"])
        node.log.unlink(missing_ok=True)
        # (a link that leads nowhere is no log)
        commands = [it for it in commands if str(link) not in it]
    moved.rename(node.log)
    want("what its log holds", lines_of(check, node), "a x 3 weight 3\na y 4 removed -\nlast 4\n")
    node.start()
    want("the next write", node.put("z", 5), 5)
    peer.awaits("the rows of a", lambda found: found == ["a x 3 weight 3", "a z 5 weight 5"])
    node.kill()
    node.log.rename(moved)
    node.log.touch()
    wal.rename(folder / "moved.log-wal")
    want("what an empty file holds", lines_of(check, node), "last 0\n")


PARTS = (begin_words, lost_log, without_a_gap, ended_name, restore_words, restored_log, replaced_log)
