"""The parts of tools/check-node that look at nodes whose removed keys are purged, when they start and while they run."""
import time

from check_metrics import awaits
from check_troubles import refuses_a_write
from nodes import SECONDS, Difference, exchange, put, run, version_of, want, weight

REMOVED = b"\x00"
KEYS_MOST = 4096


def is_purge(line):
    return "the older half of the removals" in line


def come_and_go(node, key, value):
    """Sets a key and removes it: the version of the removal."""
    version = version_of(exchange(node.control, put(key, weight(value))))
    last = version_of(exchange(node.control, put(key, REMOVED)))
    want("the versions", version, last - 1)
    return last


def removals_of(node):
    """How many tombstones its log has, while it does not run."""
    return run(node.program, "log", "--log", str(node.log), "--name", node.name, "--cluster", "c")[1].count(" removed -\n")


def hears_up_to(node, owner, version):
    """Waits until a node holds an owner up to this version, and nothing of it is under way."""
    owners = lambda: run(node.program, "owners", "--sock", str(node.sock), "--cluster", "c")[1].splitlines()
    end = time.monotonic() + SECONDS
    while f"{owner} {version}" not in owners():
        if time.monotonic() > end:
            raise Difference(f"{node.name} has {owners()} in place of {owner} {version}")
        time.sleep(0.02)


def keys_given_back(check):
    """A node whose owner registers and removes more keys than there may be goes on, over restarts, and a peer sees none of the removed ones."""
    folder = check.folder()
    node, other = check.node("a", "--purge-removals", "1", folder=folder), check.node("b", folder=folder, peers=[folder / "a.sock"])
    node.start()
    other.start()
    want("a write that stays", node.put("kept", 7), 1)
    last = 1
    for turn in range(6 if check.is_long else 2):
        for at in range(2100):
            last = come_and_go(node, f"t{turn}/{at:04}", at)
        want("the rows", node.get(), ["a kept 1 weight 7"])
        node.kill()
        left = removals_of(node)
        if not 0 < left < 128:
            raise Difference(f"a node that purges at 64 removals left {left}")
        node.start(with_left=True)
        said = [it for it in node.lines() if "purged" in it]
        want("what it says of that", said, [f"attrdir: info log {node.log}: {left} removals up to version {last} are purged"])
        want("the rows", node.get(), ["a kept 1 weight 7"])
        last = come_and_go(node, f"later/{turn}", 1)
        hears_up_to(other, "a", last)
        want("the rows of the peer", other.get("--owner", "a"), ["a kept 1 weight 7"])


def keys_of_one_run(check):
    """Many more keys than there may be come and go in one run of a node. It has room for each, and its peer always shows the one that stays."""
    folder = check.folder()
    other = check.node("b", folder=folder, peers=[folder / "a.sock"])
    node = check.node("a", "--metrics", str(folder / "a.prom"), folder=folder, peers=[other.sock])
    other.start()
    node.start()
    node.put("kept", 7)
    hears_up_to(other, "a", 1)
    for at in range(100_000 if check.is_long else 6_000):
        last = come_and_go(node, f"k{at}", at)
        if at % 500 == 0 and "a kept 1 weight 7" not in other.get("--owner", "a"):
            raise Difference(f"after {at} keys the peer lacks the row that stays")
    hears_up_to(other, "a", last)
    want("the rows of the peer", other.get("--owner", "a"), ["a kept 1 weight 7"])
    purges = len([it for it in node.lines() if is_purge(it)])
    # (each purge drops some 512 of 1,024 removals)
    if purges < at // 700:
        raise Difference(f"{at} keys went by {purges} purges")
    awaits(folder / "a.prom", "a", {("attrdir_purges_total",): purges}, lambda found: found["attrdir_keys",] < 1200)


def full_table(check):
    """A node that is full of live keys and 64 removed ones makes room; with 63 it does not, nor with --purge-removals 0."""
    for removed, options, is_taken in ((64, (), True), (63, (), False), (64, ("--purge-removals", "0"), False)):
        node = check.node("a", *options).start()
        for at in range(KEYS_MOST):
            node.put(f"k{at}", at)
        for at in range(removed):
            exchange(node.control, put(f"k{at}", REMOVED))
        first = node.command("set", "one", "weight", "5")
        want(f"purges behind {removed} removals, {options}", len([it for it in node.lines() if is_purge(it)]), int(is_taken))
        want(f"a new key behind {removed} removals, {options}", first[0] == 0, is_taken)
        check.stop()


def closed_log(check):
    """A node whose log is closed does not purge its own table either."""
    folder = check.folder()
    node = check.node("a", "--purge-removals", "64", "--pause", "50", "--metrics", str(folder / "a.prom"), folder=folder).start()
    node.put("kept", 7)
    for at in range(64):
        come_and_go(node, f"k{at}", at)
    # (it counts its removals behind each eighth write, and 129 writes came)
    node.log.unlink()
    for _ in range(16):
        refuses_a_write(node, 15)
    awaits(folder / "a.prom", "a", {("attrdir_log_open",): 0, ("attrdir_removals",): 64, ("attrdir_purges_total",): 0})


PARTS = (keys_given_back, keys_of_one_run, full_table, closed_log)
