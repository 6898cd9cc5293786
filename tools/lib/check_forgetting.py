"""The parts of tools/check-node that look at `serve --forget`: at the names that it takes, and at three nodes that give a dead name back."""
import threading
import time

from check_beginning import want_fault
from nodes import SECONDS, Difference, run, want

OFTEN = ("--pause", "20")


def started_with(check, *options):
    """The status of a node a with these options that does not start, what it printed, and the lines that it said."""
    status, printed, said = run(*check.node("a", *options).words())
    return status, printed, said.splitlines()


def names(count):
    return [it for at in range(count) for it in ("--forget", f"w{at}")]


def forget_names(check):
    """Which names a node forgets, and how many."""
    want_fault("its own name", started_with(check, "--forget", "w", "--forget", "a"), 5, "own name")
    want_fault("its own name beside a peer", started_with(check, "--forget", "a", "nobody.sock"), 5, "own name")
    for name in ("", "W", "w.x", 33 * "w"):
        want_fault(f"the name '{name}'", started_with(check, f"--forget={name}"), 5, "1 to 32")
    want("a missing name", started_with(check, "--forget")[:2], (2, ""))
    status, printed, said = started_with(check, *names(65))
    want("65 names", (status, printed, said), (2, "", ["error: give '--forget' at most 64 times"]))
    node = check.node("a", *names(64)).start()
    want("a write at a node that forgets 64 names", node.put("x", 1), 1)


def owners_of(check, node):
    """The names that a node holds."""
    status, printed, said = run(check.program, "owners", "--sock", str(node.sock), "--cluster", "c")
    want(f"owners of {node.name}", (status, said), (0, ""))
    return [it.split()[0] for it in printed.splitlines()]


def await_that(what, test):
    """Asks until it is so."""
    end = time.monotonic() + SECONDS
    while not test():
        if time.monotonic() > end:
            raise Difference(f"{what} did not come about")
        time.sleep(0.02)


def warnings(node):
    return [it for it in node.lines() if "another node still has rows of w" in it]


def start_again(node, *options):
    node.kill()
    node.options = (*OFTEN, *options)
    node.start()


def write_on(writer, is_over, written):
    """Writes 1, 2, 3 and so on under x until it is over."""
    while not is_over.is_set():
        written.append(writer.put("x", len(written) + 1))
        time.sleep(0.01)


def forgotten_by_all(check):
    """The steps of the runbook at three nodes, while one is written to: a name that ended is forgotten by one after another. Then no node names it, and
    it starts anew with version 1. The rows of others are right all the while."""
    folder = check.folder()
    socks = {name: folder / f"{name}.sock" for name in "abd"}
    nodes = [check.node(name, *OFTEN, folder=folder, peers=[it for other, it in socks.items() if other != name]) for name in "abd"]
    writer, dead = check.node("z", *OFTEN, folder=folder, peers=list(socks.values())), check.node("w", *OFTEN, folder=folder, peers=[socks["a"]])
    for node in (*nodes, writer, dead):
        node.start()
    want("writes", [dead.put("old", 1), dead.put("older", 2)], [1, 2])
    for node in nodes:
        node.awaits("the rows of w", lambda found: sum(it.startswith("w ") for it in found) == 2)
    dead.kill()
    dead.lose()
    ended = run(check.program, "begin", "--log", str(dead.log), "--name", "w", "--cluster", "c", "--after", "5000")
    want("the end of the name", ended[:2], (0, "begun 5000\n"))
    dead.options = (*OFTEN, "--rounds", "3")
    want("its last run", dead.start().ended()[0], 0)
    for node in nodes:
        node.awaits("that the rows of w go", lambda found: not any(it.startswith("w ") for it in found))
    written, is_over = [], threading.Event()
    writing = threading.Thread(target=write_on, args=(writer, is_over, written))
    writing.start()
    try:
        # the writer is a node too, and forgets last
        for node in nodes:
            start_again(node, "--forget", "w")
            node.awaits("the rows of z", lambda found: any(it.startswith("z x ") for it in found))
            await_that(f"the warning of {node.name}", lambda: warnings(node))
            for row in node.get():
                want(f"the version and the value of {row}", row.split()[2], row.split()[4])
    finally:
        is_over.set()
        writing.join()
    start_again(writer, "--forget", "w")
    for node in (*nodes, writer):
        node.awaits("the last write", lambda found: found == [f"z x {len(written)} weight {len(written)}"])
        want(f"whether {node.name} names w", "w" in owners_of(check, node), False)
    want("who was warned", [len(warnings(node)) for node in (*nodes, writer)], [1, 1, 1, 0])
    # the name is free: it starts anew, with an empty log
    for node in (*nodes, writer):
        start_again(node)
    dead.lose()
    dead.log.touch()
    dead.options = OFTEN
    want("its first write", dead.start().put("new", 7), 1)
    for node in nodes:
        node.awaits("the row of w", lambda found: "w new 1 weight 7" in found)


def forgotten_once(check):
    """A node that forgets a name shows none of its rows, though its peer has them, and warns once. The peer shows them still."""
    folder = check.folder()
    peer = check.node("b", *OFTEN, folder=folder).start()
    want("a write", peer.put("x", 1), 1)
    node = check.node("a", *OFTEN, "--forget", "b", "--forget", "nobody", folder=folder, peers=[peer.sock]).start()
    want("its own write", node.put("y", 2), 1)
    peer.awaits("the row of a", lambda found: found == ["a y 1 weight 2", "b x 1 weight 1"])
    await_that("the warning of a", lambda: any("another node still has rows of b" in it for it in node.lines()))
    want("a later write", peer.put("x", 2), 2)
    time.sleep(0.5)
    want("its rows", node.get(), ["a y 1 weight 2"])
    want("what it holds", owners_of(check, node), ["a"])
    want("how often it warns", sum("another node still has rows of" in it for it in node.lines()), 1)


PARTS = (forget_names, forgotten_once, forgotten_by_all)
