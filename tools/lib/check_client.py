"""A part of tools/check-node: the clients of examples/clients. They ask nodes that run and made-up ones, and what they return is compared with what
the program's own commands print."""
import ast
import importlib.util
import json
import os
import re
import signal
import socket
import subprocess
import sys
import threading
import time
from contextlib import suppress
from queue import Empty, Queue

from check_asking import MadeUp, done, refused, rows, texts
from check_http import KEY, KIND, VALUE, free_port, lacks_curl, node_at
from check_scripts import tell
from check_status import ASK_STATUS, NODE_STATUS
from check_watch import VALUES, Watching
from nodes import BYE, FRAME_FRONT, ROOT, SECONDS, Difference, frame, number, run, text, want

CLIENT, HTTP_CLIENT, SHELL_CLIENT = (ROOT / "examples" / "clients" / it for it in ("attrdir.py", "attrdir_http.py", "attrdir_http.sh"))


def module_of(path):
    spec = importlib.util.spec_from_file_location(f"{path.stem}_client", path)
    module = importlib.util.module_from_spec(spec)
    spec.loader.exec_module(module)
    return module


CLIENT_MODULE, HTTP_MODULE = module_of(CLIENT), module_of(HTTP_CLIENT)
Fault = CLIENT_MODULE.Fault
ENDED = "the node ended before it answered; the watch goes on"


def client_of(node, timeout=SECONDS):
    return CLIENT_MODULE.Node(node.control, timeout)


def command(node, *words):
    """The status, what was printed and what was said by the client's command line."""
    ran = subprocess.run([sys.executable, CLIENT, "--control", node.control, *words], stdin=subprocess.DEVNULL, capture_output=True, encoding="utf-8", timeout=SECONDS)
    return ran.returncode, ran.stdout, ran.stderr


def by_variable(words, variable):
    """The same without its option, and with this ATTRDIR_CONTROL, or none."""
    environment = {**os.environ, **({} if variable is None else {"ATTRDIR_CONTROL": variable})}
    ran = subprocess.run([sys.executable, CLIENT, *words], env=environment, stdin=subprocess.DEVNULL, capture_output=True, encoding="utf-8", timeout=SECONDS)
    return ran.returncode, ran.stdout, ran.stderr


def names_wrong_options(asked):
    """A client in Python names an option that it does not have, before and after the command, and says how to give a word that looks like one."""
    for *words, wanted in (
        ("--perfix", "web/", "get", "unknown option --perfix"), ("get", "--perfix=web/", "unknown option --perfix"),
        ("set", "k", "text", "-dash", "unknown option -dash; if a key or value begins with -, put -- before the key"),
    ):
        status, printed, said = asked(*words)
        want(f"the end of {words}", (status, printed, said.splitlines()[-1].partition(": error: ")[2]), (2, "", wanted))
    for words in (("set", "--", "-k", "text", "--dash"), ("del", "--", "-k"), ("set", "k", "text", "-- a"), ("del", "k")):
        want(f"the end of {words}", asked(*words)[::2], (0, ""))


def printed_of(node):
    """All rows as the client prints them."""
    return escaped(node.command("get", "--format", "json")[1])


def fault_of(call, *words):
    """The number and the text of the fault by which a call ends."""
    try:
        found = call(*words)
    except Fault as fault:
        want("the words of a fault", str(fault), f"fault {fault.number}: {fault.text}")
        return fault.number, fault.text
    raise Difference(f"no fault of {words}, but {found!r}")


def escaped(printed):
    """Rows as JSON with the escape of the byte 7f, which the clients write and the program does not."""
    return printed.replace("\x7f", "\\u007f")


class Changes:
    """The changes that a watch of a client yields, as they come."""

    def __init__(self, watch):
        self.queue, self.watch = Queue(), watch
        threading.Thread(target=self.read, daemon=True).start()

    def read(self):
        try:
            for change, row in self.watch:
                self.queue.put((change, row["owner"], row["key"], row["version"], row["value"]))
        except Exception as fault:
            self.queue.put(fault)

    def awaits(self, *wanted):
        """The next changes are these, and no others have come."""
        found = []
        try:
            for _ in wanted:
                found.append(self.queue.get(timeout=SECONDS))
        except Empty:
            pass
        want("the changes of a client's watch", found + [self.queue.get() for _ in range(self.queue.qsize())], list(wanted))


def changes_at(node, *words, **how):
    return Changes(client_of(node).watch(*words, **how))


class MadeUpRuns(MadeUp):
    """A made-up node that is started again after the answers of each run. It makes its socket anew once somebody asks after the last of them."""

    def __init__(self, path, runs):
        self.runs = runs[1:]
        super().__init__(path, runs[0])

    def serve(self):
        while True:
            for answer in self.answers:
                stream, request = self.take()
                with stream:
                    self.requests.append(request)
                    stream.sendall(answer)
            if not self.runs:
                return self.door.close()
            stream, _ = self.door.accept()
            door, self.answers, self.runs = self.door, self.runs[0], self.runs[1:]
            self.path.unlink()
            self.door = socket.socket(socket.AF_UNIX)
            self.door.bind(str(self.path))
            self.door.listen(8)
            door.close(), stream.close()


# ---- the parts


def client_rows(check):
    """The client writes each kind of value, and reads the rows that `attrdir get` prints, on all pages, and by owner, prefix and key."""
    node = check.node("a", "--budget", "1024").start()
    asked = client_of(node)
    for at, (kind, _, value) in enumerate(VALUES, 1):
        want(f"the version of {value!r}", asked.set(f"k/{at:02}._-", kind, value), at)
    whole = lambda *words: [json.loads(it) for it in node.get("--format", "json", *words)]
    want("rows", list(map(repr, (it["value"] for it in asked.get()))), [repr(value) for _, _, value in VALUES])
    count = len(VALUES)
    for at in range(100):
        asked.set(f"many/{at:03}", "weight", at)
    tell(node, "b", 0, ("k/03._-", 1, 10), ("k/03", 2, 20), ("z", 3, 30))
    want("all rows", asked.get(), whole())
    want("how many rows", len(asked.get()), count + 103)
    want("rows of an owner", asked.get("b"), whole("--owner", "b"))
    want("rows under a prefix", asked.get(prefix="many/09"), whole("--prefix", "many/09"))
    want("rows of both", asked.get("a", "k/1"), whole("--owner", "a", "--prefix", "k/1"))
    want("a row", asked.get("b", key="k/03"), whole("--owner", "b", "--key", "k/03"))
    want("rows of a key", [it["owner"] for it in asked.get(key="k/03._-")], ["a", "b"])
    want("no rows", (asked.get("c"), asked.get(prefix="l"), asked.get("b", key="k")), ([], [], []))
    want("a removal", asked.delete("many/050"), count + 101)
    want("rows afterwards", asked.get(prefix="many/05"), whole("--prefix", "many/05"))
    want("what it prints", command(node, "get"), (0, escaped(node.command("get", "--format", "json")[1]), ""))


def client_commands(check):
    """The client's command line writes, removes and prints, and ends with status 3 after a fault."""
    node = check.node("a").start()
    words = [("addr", "10.0.0.1:80"), ("weight", "7"), ("flag", "true"), ("flag", "false"), ("text", "zone b \\ \"é\n")]
    for at, (kind, word) in enumerate(words, 1):
        want(f"set {word!r}", command(node, "set", f"k{at}", kind, word), (0, f"{at}\n", ""))
    want("the values", [it["value"] for it in client_of(node).get()], ["10.0.0.1:80", 7, True, False, words[-1][1]])
    want("del", command(node, "del", "k1"), (0, "6\n", ""))
    printed = run(check.program, "get", "--control", str(node.control), "--owner", "a", "--key", "k2", "--format", "json")[1]
    want("get of a key", command(node, "get", "--owner", "a", "--key", "k2"), (0, printed, ""))
    want("get of none", command(node, "get", "--prefix", "l"), (0, "", ""))
    for wrong in (["set", "k", "weight", "05"], ["set", "k", "flag", "yes"], ["del", "k1"], ["del", "K"], ["get", "--owner", "A"]):
        status, printed, said = command(node, *wrong)
        program = node.command(*wrong)
        want(f"{wrong}", (status, printed, said.splitlines()[0]), (3, "", program[2].splitlines()[0]))
    for wrong in (
        ["set", "k", "weight", "05"], ["set", "k", "weight", "5.5"], ["set", "k", "weight", "true"], ["set", "k", "weigth", "5"], ["set", "k", "flag", "yes"], ["set", "k", "addr", "a b"],
        ["set", "K", "weight", "5"], ["get", "--owner", "A"], ["get", "--prefix", "P"],
    ):
        status, printed, said = command(node, *wrong)
        want(f"what is said of {wrong}", (status, printed, said.splitlines()[::2]), (3, "", node.command(*wrong)[2].splitlines()[::2]))
    weight = "a weight is a whole number from 0 to 2^63 - 1, in digits alone and without a leading 0"
    for value in ("-1", "9" * 5000):
        want(f"a weight {value[:9]}", command(node, "set", "k", "weight", value)[2].splitlines()[2], f"value 'weight {value}': {weight}")
    want("wrong command lines", [command(node, *it)[0] for it in ([], ["put"], ["set", "k"], ["get", "k"])], [2, 2, 2, 2])
    names_wrong_options(lambda *words: command(node, *words))
    status, printed, said = command(node, "get", "--key", "k2", "--prefix", "l")
    want("a key and a prefix", (status, printed, said.splitlines()[-1]), (2, "", "attrdir.py: error: --key cannot be used with --prefix"))
    for words, variable in (
        (["get", "--control", str(node.control)], None), (["get", "--control", str(node.control)], "none.ctl"), (["--control", str(node.control), "get"], "none.ctl"), (["get"], str(node.control)),
    ):
        want(f"{words} with {variable}", by_variable(words, variable), (0, printed_of(node), ""))
    for variable in (None, ""):
        want(f"no control socket and {variable!r}", by_variable(["get"], variable)[:2], (2, ""))
    for key, value, fault in (("k", "bad\udcff", 4), ("k\udcff", "b", 3)):
        status, printed, said = command(node, "set", key, "text", value)
        want("what is not UTF-8", (status, printed, said.splitlines()[0]), (3, "", f"fault {fault}"))


def client_watches(check):
    """A watch of the client yields what changes, goes on over a restart of the node, and keeps the rows that this node has not heard of again."""
    node = check.node("a").start()
    asked = client_of(node)
    asked.set("own", "weight", 1)
    tell(node, "p", 0, ("x", 1, 10), ("y", 2, 20), ("z", 3, 30))
    watch = changes_at(node, pause=0.02)
    watch.awaits(("set", "a", "own", 1, 1), ("set", "p", "x", 1, 10), ("set", "p", "y", 2, 20), ("set", "p", "z", 3, 30))
    asked.set("own", "weight", 2)
    watch.awaits(("set", "a", "own", 2, 2))
    printing = ClientWatching(sys.executable, CLIENT, "--control", node.control, "watch", "--prefix", "own")
    line = '["set",{{"key":"own","kind":"weight","owner":"a","value":{0},"version":{0}}}]'
    try:
        printing.awaits([line.format(2)])
        node.kill()
        want("a node that ended", fault_of(asked.get)[0], 16)
        printing.awaits_said("does not answer")
        node.start()
        asked.set("own", "weight", 3)
        watch.awaits(("set", "a", "own", 3, 3))
        printing.awaits([line.format(3)])
    finally:
        printing.stop()
    says_it_was_away(printing, "attrdir.py", node.control)
    want("that p is not known", asked.get("p"), [])
    # y was removed meanwhile, and a later row of p shows that the node knows
    tell(node, "p", 0, ("x", 1, 10), ("z", 3, 30), ("v", 5, 50))
    watch.awaits(("set", "p", "v", 5, 50), ("gone", "p", "y", 2, 20))
    asked.delete("own")
    watch.awaits(("gone", "a", "own", 3, 3))
    filtered = changes_at(node, "p", "v", pause=0.02)
    filtered.awaits(("set", "p", "v", 5, 50))
    tell(node, "p", 5, ("w", 6, 60), ("v", 7, 70))
    filtered.awaits(("set", "p", "v", 7, 70))
    began = time.monotonic()
    made = check.folder() / "made.ctl"
    MadeUp(made, [rows(("a", "k", at, at)) for at in range(1, 7)])
    six = changes_at(type("Place", (), {"control": made}))
    six.awaits(*(("set", "a", "k", at, at) for at in range(1, 7)))
    if not 1 <= time.monotonic() - began <= 10:
        raise Difference(f"six askings took {time.monotonic() - began:.2f} s")
    want("a prefix that is none", fault_of(next, asked.watch(prefix="P"))[0], 3)
    ending, told = check.folder() / "made.ctl", Queue()
    MadeUp(ending, [b"", rows(), b""])
    Changes(CLIENT_MODULE.Node(ending).watch(pause=0.02, tell=told.put))
    want("what a watch tells", [str(told.get(timeout=SECONDS)) for _ in range(3)], ["fault 28: the stream ends inside a frame", "None", f"fault 28: {ENDED}"])
    want("what is no control socket", fault_of(next, CLIENT_MODULE.Node(node.sock).watch())[0], 13)


def client_watches_pages(check):
    """The node heard of an owner between two pages after it was started again: no row is gone that only the first page could have had."""
    place = type("Place", (), {"control": check.folder() / "made.ctl"})
    MadeUp(place.control, [rows(("a", "b1", 5, 1), ("a", "z", 6, 1))])
    watch = changes_at(place, pause=0.02)
    watch.awaits(("set", "a", "b1", 5, 1), ("set", "a", "z", 6, 1))
    place.control.unlink()
    whole = rows(("a", "c1", 1, 1), ("a", "z", 100, 1))
    MadeUp(place.control, [rows(("a", "c1", 1, 1), more=1), rows(("a", "z", 100, 1)), whole], is_another=True)
    # (c1 may be a row that was removed: it is yielded once the node has shown a as far as before)
    watch.awaits(("set", "a", "z", 100, 1), ("gone", "a", "b1", 5, 1), ("set", "a", "c1", 1, 1))
    # a row of an earlier version is passed over
    other = type("Place", (), {"control": check.folder() / "made.ctl"})
    MadeUp(other.control, [rows(("b", "k", 2, 1), ("b", "l", 3, 1)), rows(("b", "k", 1, 9))])
    changes_at(other, pause=0.02).awaits(("set", "b", "k", 2, 1), ("set", "b", "l", 3, 1), ("gone", "b", "l", 3, 1))


def client_watches_back(check):
    """After a restart of its node a watch of each client in Python yields no earlier version, no removed row, and each later one. It does not
    matter whether the node hears less of the owner at first, or hears of it in pieces."""
    folder = check.folder()
    node, _ = node_at(check, "b", folder / "b.http", folder=folder)
    watches = [changes_at(node, pause=0.02), Changes(HTTP_MODULE.Node(str(folder / "b.http")).watch())]

    def yield_both(*wanted):
        for watch in watches:
            watch.awaits(*wanted)

    def write(value):
        node.put("own", value)
        yield_both(("set", "b", "own", value, value))

    tell(node, "a", 0, ("y", 1, 10), ("x", 2, 20))
    yield_both(("set", "a", "x", 2, 20), ("set", "a", "y", 1, 10))
    tell(node, "a", 2, ("x", 3, None), ("y", 4, 40))
    yield_both(("gone", "a", "x", 2, 20), ("set", "a", "y", 4, 40))
    node.kill()
    node.start()
    # the node hears of a from one that was away
    tell(node, "a", 0, ("y", 1, 10), ("x", 2, 20))
    write(1)
    write(2)
    want("the rows", node.get("--owner", "a"), ["a x 2 weight 20", "a y 1 weight 10"])
    tell(node, "a", 2, ("x", 3, None), ("y", 4, 40))
    tell(node, "a", 4, ("z", 5, 50))
    yield_both(("set", "a", "z", 5, 50))
    node.kill()
    node.start()
    # a wrote x and y again, which comes last: until then the node shows what was so before x went
    tell(node, "a", 0, ("y", 1, 10), ("x", 2, 20))
    tell(node, "a", 2, ("z", 5, 50))
    write(3)
    write(4)
    want("the rows in pieces", node.get("--owner", "a"), ["a x 2 weight 20", "a y 1 weight 10", "a z 5 weight 50"])
    tell(node, "a", 5, ("y", 7, 70), ("x", 8, 80))
    yield_both(("set", "a", "x", 8, 80), ("set", "a", "y", 7, 70))
    node.kill()
    node.start()
    # now x and y are gone, and no write comes after the one that shows it
    tell(node, "a", 0, ("z", 5, 50), ("w", 11, 110))
    yield_both(("set", "a", "w", 11, 110), ("gone", "a", "x", 8, 80), ("gone", "a", "y", 7, 70))


def client_watch_rules(check):
    """Of random listings, in one page or more, of a made-up node that is started again now and then, a watch of the client yields what
    `attrdir watch --retry` prints."""
    chance, places = check.chance, [(owner, key) for owner in "ab" for key in ("k", "l", "m")]

    def listing():
        found = [(*place, version, version if chance.random() < 0.9 else 99) for place in places if chance.random() < 0.6 for version in [chance.randrange(1, 12)]]
        cut = chance.randrange(len(found)) if found else 0
        return [rows(*found[:cut], more=1), rows(*found[cut:])] if cut else [rows(*found)]

    for _ in range(20 if check.is_long else 4):
        listings = [[listing() for _ in range(chance.randrange(1, 7))] for _ in range(15)] + [[[rows(("c", "end", 1, 1))]]]
        runs, count = [sum(run, []) for run in listings], sum(map(len, listings))
        made = [MadeUpRuns(check.folder() / "made.ctl", runs) for _ in range(2)]
        status, printed, _ = run(check.program, "watch", "--retry", "--every", "0", "--count", str(count), "--control", str(made[0].path))
        want("the end of the program's watch", (status, printed.splitlines()[-1]), (0, "set c end 1 weight 1"))
        watch, found = Changes(CLIENT_MODULE.Node(made[1].path).watch(pause=0)), []
        while found[-1:] != ["set c end 1 weight 1"]:
            change, owner, key, version, value = watch.queue.get(timeout=SECONDS)
            found.append(f"{change} {owner} {key}" + (f" {version} weight {value}" if change == "set" else ""))
        want("the changes of a watch", found, printed.splitlines())


def client_statuses(check):
    """The client returns the status that `attrdir status` prints, with all peers."""
    folder = check.folder()
    other = check.node("b", folder=folder).start()
    peers = [other.sock, *(folder / f"{at:03}{'p' * 40}.sock" for at in range(30))]
    silent = socket.socket(socket.AF_UNIX)
    silent.bind(str(peers[-1]))
    silent.listen(8)
    node = check.node("a", "--budget", "1024", "--pause", "60000", "--dial-idle", "60000", folder=folder, peers=peers).start()
    asked, end = client_of(node), time.monotonic() + SECONDS
    asked.set("k", "weight", 5), asked.set("l", "weight", 6), asked.delete("l")
    moving = ("uptime", "workers_busy")
    while True:
        found, printed = asked.status(), json.loads(node.command("status", "--format", "json")[1])
        same = [{name: value for name, value in it.items() if name not in moving} for it in (found, printed)]
        if same[0] == same[1] and "not_dialed" not in [it["state"] for it in found["peers"][:2]]:
            break
        if time.monotonic() > end:
            want("the status", *same)
    want("its members", sorted(found), sorted(printed))
    want("its figures", (found["keys"], found["removals"], found["ready"], found["log_fault"], len(found["peers"])), (2, 1, False, None, 31))
    want("its first peers", [it["state"] for it in found["peers"][:2]], ["answers", "unreachable"])
    silent.close()
    want("the status of a node that is ready", (client_of(other).status()["ready"], client_of(other).status()["peers"]), (True, []))
    want("what it prints", json.loads(command(other, "status")[1])["node"], "b")


def client_status_words(check):
    """The client has the program's word for each figure, each cause of a log's fault, and each state of a peer, also for those of a later release."""
    states = [*range(9), 32, 33, 48, 63, 64, 255]
    peers = b"".join(text(f"p{state}") + number(state, 1) + number(7) for state in states)
    for cause in range(11):
        figures = [(at, cause if at == 3 else cause % 2 if at in (2, 4) else at) for at in range(1, 23)]
        told = b"".join(number(at, 1) + number(value) for at, value in figures)
        head = b"\x00" + text("a") + text("c") + text("0.3.0")
        answer = frame(NODE_STATUS, head + number(len(figures), 2) + told + number(len(states), 2) + peers)
        made = MadeUp(check.folder() / "made.ctl", [answer, answer])
        printed = run(check.program, "status", "--control", str(made.path), "--format", "json")[1]
        want(f"a status with the cause {cause}", CLIENT_MODULE.Node(made.path).status(), json.loads(printed))
        want("its requests", made.requests, [(ASK_STATUS, number(0))] * 2)


def client_faults(check):
    """The client ends by the fault of the program's commands, with its text: of wrong words, of a node's refusal, of no node, and of wrong answers."""
    told, folder = texts(), check.folder()
    closer = {13: "a message of this kind has no place here", 14: "a message breaks the format", 17: "writing failed"}
    closer[21] = "another node writes under this node's name; give each node a name of its own"
    node = check.node("a").start()
    asked = client_of(node)
    for fault, call, *words in (
        (3, asked.get, None, "", "k" * 65), (3, asked.set, "k" * 65, "weight", 5), (3, asked.delete, ""), (3, asked.get, None, "P"), (2, asked.get, "A"), (2, asked.get, ""),
        (9, asked.delete, "k"),
    ):
        want(f"the fault of {words}", fault_of(call, *words), (fault, told[fault]))
    for kind, value in (
        ("addr", "a b"), ("addr", ""), ("addr", "é"), ("weight", -1), ("weight", 2**63), ("weight", True), ("weight", "5"), ("flag", 1), ("flag", "true"), ("text", ""),
        ("text", "x" * 513), ("text", "é" * 257), ("removed", None), ("wait", 5),
    ):
        want(f"the fault of {kind} {value!r}", fault_of(asked.set, "k", kind, value)[0], 4)
    want("that nothing was written", asked.get(), [])
    at = lambda path, timeout=SECONDS: CLIENT_MODULE.Node(path, timeout)
    (folder / "taken").touch()
    for path in (folder / "none.ctl", folder / "taken", folder / ("x" * 120)):
        found, words = fault_of(at(path).set, "k", "weight", 5)
        want(f"the fault of {path.name}", (found, words.startswith("no node could be reached: ")), (16, True))
        said = [run(*it, "get", "--control", str(path))[2].splitlines() for it in ([check.program], [sys.executable, str(CLIENT)])]
        if len(path.name) < 108:  # that of a longer path is another one
            want(f"what to do about {path.name}", said[1][2:], said[0][2:])
    want("the fault at a --sock", fault_of(at(node.sock).get)[0], 13)
    made = lambda *answers: at(MadeUp(check.folder() / "made.ctl", answers).path)
    good = done(5)
    for answer, fault in (
        (b"\xa8" + good[1:], 10), (b"\xa7\x02" + good[2:], 11), (FRAME_FRONT + number(0, 4), 12), (FRAME_FRONT + number(65531, 4), 12), (b"", 28), (good[:4], 28), (good[:-1], 28), (rows(), 13), (BYE, 13), (good[:5] + b"\x03" + good[6:9], 14),
    ):
        want(f"the fault of {answer.hex()}", fault_of(made(answer).delete, "k")[0], fault)
    want("a page that has no row", fault_of(made(rows(more=1)).get)[0], 14)
    for fault in told:
        found, words = fault_of(made(refused(fault)).set, "k", "weight", 5)
        want("the number of a refusal", found, fault)
        if fault in (1, 2, 3, *range(6, 10), *range(10, 19), 21, 28, 29) and fault != 7:
            want("the text of a refusal", words, closer.get(fault, told[fault]))
    for fault, advice in (
        (15, "the log of this node takes no writes: its standard error says why"),
        (18, "the node could not write its log, and takes no more writes; this write may have been made"),
    ):
        place = MadeUp(check.folder() / "made.ctl", [refused(fault)]).path
        ran = run(sys.executable, str(CLIENT), "--control", str(place), "set", "k", "weight", "5")
        want(f"what is printed of fault {fault}", ran, (3, "", f"fault {fault}\n{told[fault]}\ncontrol socket {place}: {advice}\n"))
    door = socket.socket(socket.AF_UNIX)
    door.bind(str(folder / "silent.ctl"))
    door.listen(8)
    want("a node that is silent", fault_of(at(folder / "silent.ctl", 0.2).get), (16, "the node did not answer: timed out"))
    door.close()


def client_alone(check):
    """Both clients in Python are plain Python 3.8, import nothing but the standard library, and keep rows by the same code."""
    kept = []
    for path in (CLIENT, HTTP_CLIENT):
        tree = ast.parse(path.read_text(), feature_version=(3, 8))
        kept += [ast.dump(it) for it in tree.body if getattr(it, "name", None) == "Kept"]
        imports = [alias.name for it in ast.walk(tree) if isinstance(it, ast.Import) for alias in it.names]
        imports += [it.module for it in ast.walk(tree) if isinstance(it, ast.ImportFrom)]
        there = set("argparse contextlib http.client io json os re signal socket struct sys time typing collections urllib.parse".split())
        want(f"what {path.name} imports", sorted(set(imports) - there), [])
    want("how both keep rows", kept, 2 * kept[:1])


# ---- the clients over HTTP


def by_http(place, *words):
    """The status, what was printed and what was said by the client in Python over HTTP."""
    return run(sys.executable, str(HTTP_CLIENT), "--http", str(place), *words)


def by_shell(place, *words):
    """The same by the reader in shell."""
    return run("sh", str(SHELL_CLIENT), str(place), *words)


class MadeUpHttp:
    """A socket that takes a request for each of these answers, which it sends as they are."""

    def __init__(self, path, *answers):
        self.path, self.answers, self.targets = path, answers, []
        self.door = socket.socket(socket.AF_UNIX)
        self.door.bind(str(path))
        self.door.listen(8)
        threading.Thread(target=self.serve, daemon=True).start()

    def serve(self):
        for answer in self.answers:
            stream, _ = self.door.accept()
            with stream, suppress(OSError):
                request = b""
                while b"\r\n\r\n" not in request:
                    request += stream.recv(65536)
                self.targets.append(request.split()[1].decode())
                stream.sendall(answer)
        self.door.close()


def http_answer(content, length=None):
    """An answer with this object, of which so many bytes are announced."""
    body = json.dumps(content, separators=(",", ":")).encode()
    return b"HTTP/1.1 200 OK\r\nContent-Length: %d\r\n\r\n%s" % (len(body) if length is None else length, body)


def says_it_was_away(watching, program, address):
    """A client in Python that has ended said once that the node did not answer, and once that it answered again."""
    said, away = watching.all_said(), f"{program}: warning {address}: does not answer: "
    want(f"what {program} says", [said[0][: len(away)] if said else "", *said[1:]], [away, f"{program}: info {address}: answers"])


class ClientWatching(Watching):
    """A client that watches."""

    def __init__(self, *words, **how):
        self.start(list(map(str, words)), start_new_session=True, **how)

    def stop(self):
        # (with the curl that it waits for)
        os.killpg(self.ran.pid, signal.SIGTERM)
        self.ran.wait(SECONDS)


def http_client_rows(check):
    """The clients over HTTP print the rows that `attrdir get` prints, on all pages, at a socket and at a port. The one in Python writes too."""
    if lacks_curl(check):
        return
    folder = check.folder()
    node, _ = node_at(check, "a", folder / "a.http", "--budget", "1024", folder=folder)
    port = f"127.0.0.1:{free_port()}"
    other = check.node("b", "--http", port, "--budget", "1024", "--pause", "100", folder=folder, peers=[node.sock]).start()
    asked = HTTP_MODULE.Node(str(folder / "a.http"))
    for at, (kind, _, value) in enumerate(VALUES, 1):
        want(f"the version of {value!r}", asked.set(f"k/{at:02}._-", kind, value), at)
    for at, value in enumerate(("},{", '},{"key":"b","owner":"b"', ',"more":true,', "],", '"],"rows":[{"', "\\"), at + 1):
        want(f"the version of {value!r}", asked.set("x/../y", "text", value) and asked.set(f"n/{at}", "text", value), 2 * at - len(VALUES))
    for at in range(60):
        node.put(f"many/{at:03}", at)
    count = len(node.get())
    other.awaits("all rows", lambda found: len(found) == count)
    whole = lambda *words: escaped(node.command("get", "--format", "json", *words)[1])
    for place, printed in ((folder / "a.http", whole()), (port, whole())):
        want(f"rows at {place}", by_http(place, "get"), (0, printed, ""))
        want(f"rows by the shell at {place}", by_shell(place, "rows"), (0, printed, ""))
        for prefix in ("many/05", "n/", "l"):
            want(f"rows under {prefix}", by_http(place, "get", "--prefix", prefix), (0, whole("--prefix", prefix), ""))
            want(f"rows by the shell under {prefix}", by_shell(place, "rows", prefix), (0, whole("--prefix", prefix), ""))
        for key in ("x/../y", "k/09._-"):
            want(f"the row of {key} by the shell", by_shell(place, "row", "a", key), (0, whole("--owner", "a", "--key", key), ""))
        want("no row by the shell", by_shell(place, "row", "b", "k"), (3, "", 'status 404: {"error":"there is no such row"}\n'))
    want("rows of an owner", by_http(port, "get", "--owner", "a", "--prefix", "n/"), (0, whole("--prefix", "n/"), ""))
    want("rows of nobody", by_http(port, "get", "--owner", "b"), (0, "", ""))
    want("the values", [it["value"] for it in asked.get(prefix="k/")], [value for _, _, value in VALUES])


def http_client_faults(check):
    """The clients over HTTP end with status 3 if the node refuses, and if no node answers with that or with the status of curl."""
    if lacks_curl(check):
        return
    folder, told = check.folder(), {**texts(), 0: KIND, 3: KEY, 4: VALUE}
    node, port = node_at(check, "a", folder / "a.http", folder=folder)[0], f"127.0.0.1:{free_port()}"
    check.node("b", "--http", port, folder=folder).start()
    asked = lambda *words: by_http(folder / "a.http", *words)
    want("set", [asked("set", *it) for it in (("k", "weight", "5"), ("k", "flag", "true"), ("k", "text", "5"))], [(0, f"{at}\n", "") for at in (1, 2, 3)])
    want("the row", node.get(), ["a k 3 text 5"])
    want("del", [asked("del", "k"), asked("del", "k")], [(0, "4\n", ""), (3, "", f"fault 9: {told[9]}\n")])
    weight = "a weight is a whole number from 0 to 2^63 - 1, without a leading 0"
    for kind, value, rule in (("weight", "05", weight), ("weight", "-1", weight), ("weight", str(2**63), weight), ("weight", "true", weight), ("flag", "1", "a flag is true or false")):
        # nothing is sent, so no node is needed
        want(f"set {kind} {value}", by_http(folder / "none.http", "set", "k", kind, value), (3, "", f"fault 4: value '{kind} {value}': {rule}\n"))
    names_wrong_options(asked)
    for words, fault in ((("set", "k", "weigth", "5"), 0), (("set", "k", "addr", "a b"), 4), (("set", "K", "weight", "5"), 3), (("get", "--prefix", "P"), 3), (("get", "--owner", "A"), 2), (("watch", "--prefix", "P"), 3)):
        want(f"{words}", asked(*words), (3, "", f"fault {fault or 4}: {told[fault]}\n"))
    want("a write at a port", by_http(port, "set", "k", "weight", "5"), (3, "", "status 403: writes are taken at a Unix socket only\n"))
    for command in ("rows", "watch"):
        status, printed, said = by_shell(folder / "a.http", command, "p" * 65)
        want(f"a wrong prefix of {command}", (status, printed, json.loads(said.partition(": ")[2])["fault"], said[:12]), (3, "", 3, "status 400: "))
    allowed = {"name": "a name has only the bytes a-z, 0-9 and -", "key": "a key and a prefix have only the bytes a-z, 0-9, '.', '_', '/' and -"}
    for words, wrong, what in (
        (("rows", "web/#x"), "web/#x", "key"), (("watch", "P"), "P", "key"), (("row", "a", "k&owner=b"), "k&owner=b", "key"), (("row", "a/k", "K"), "a/k", "name"), (("row", "a%2", "k"), "a%2", "name"),
    ):
        want(f"{words}", by_shell(folder / "a.http", *words), (2, "", f"'{wrong}' is no {what}: {allowed[what]}\n"))
    for words, fault in ((("set", "k", "text", "bad\udcff"), 4), (("set", "k\udcff", "text", "b"), 3), (("get", "--prefix", "\udcff"), 3), (("get", "--owner", "\udcff"), 2)):
        want(f"{words}", [(status, printed, said.split(":")[0]) for status, printed, said in [asked(*words)]], [(3, "", f"fault {fault}")])
    status, printed, said = by_shell(folder / "none.http", "rows")
    want("no node", (by_http(folder / "none.http", "get")[:2], status, printed, said.splitlines()[1:]), ((3, ""), 7, "", [f"no node answers at {folder / 'none.http'}"]))
    want("wrong command lines", [by_shell(*it)[0] for it in (("x",), ("x", "put"), ("x", "row", "a"), ("x", "rows", "a", "b"))], [2, 2, 2, 2])


def http_client_addresses(check):
    """The clients over HTTP end with status 2 if a word is no address of a node, and say what one is. The one in shell prints its help."""
    places = "give 127.0.0.1:PORT, [::1]:PORT, or the path of a socket"
    hosts = ("localhost:19111", "127.0.0.2:8080", "10.0.0.1:80", ":80", "8080", "localhost", "127.0.0.1", "10.0.0.1")
    wrong = {it: f"{it} is no address of a node: {places}" for it in hosts}
    wrong.update({it: f"{it} is no address of a node: {places}, without http://" for it in ("http://127.0.0.1:8080", "https://localhost/v1/rows")})
    ports = ("127.0.0.1:99999", "127.0.0.1:65536", "[::1]:0", "[::1]:" + 30 * "9", "127.0.0.1:", "127.0.0.1:http")
    wrong.update({it: f"{it} is no address of a node: a port is 1 to 65535" for it in ports})
    wrong[""] = f"the address is empty: {places}"
    for address, said in wrong.items():
        want(f"the end at {address}", by_shell(address, "rows"), (2, "", f"{said}\n"))
        try:
            HTTP_MODULE.Node(address)
            raise Difference(f"{address} is an address")
        except ValueError as fault:
            want(f"what is said of {address}", str(fault), said)
    for address in ("localhost", ""):
        status, printed, said = by_http(address, "get")
        want(f"the end at {address}", (status, printed, said.splitlines()[-1]), (2, "", f"attrdir_http.py: error: {wrong[address]}"))
        want(f"the end of a watch at {address}", by_shell(address, "watch"), (2, "", f"{wrong[address]}\n"))
    good = {it: HTTP_MODULE.Node(it).is_port for it in ("127.0.0.1:1", "[::1]:65535", "./localhost", "./127.0.0.1", "1.2.3", "a.http", "/run/a:80")}
    want("what is an address", good, {it: it.endswith((":1", ":65535")) for it in good})
    lines = SHELL_CLIENT.read_text().splitlines()[1:]
    page = "".join(f"{it[2:]}\n" for it in lines[: [it[:1] for it in lines].index("s")])
    for words, wanted in (["--help"], (0, page, "")), (["-h"], (0, page, "")), ([], (2, "", page)):
        want(f"the help by {words}", run("sh", str(SHELL_CLIENT), *words), wanted)


def client_wrong_sockets(check):
    """If a client is given another one of the three sockets of a node, it names the option to give."""
    if lacks_curl(check):
        return
    folder = check.folder()
    node, _ = node_at(check, "a", folder / "a.http", folder=folder)
    advice = "does not speak HTTP{}: give what the --http of the node has, not its --sock or --control"
    for place, speaks, status in ((node.sock, False, 1), (node.control, True, 52)):
        python = f"{place}: no whole answer came: the node ended, or " + advice.format(" there") if speaks else f"{place}: what answers there " + advice.format("")
        want(f"{place} by Python", by_http(place, "get"), (3, "", f"{python}\n"))
        shell = f"the node at {place} ended, or " + advice.format(" there") if speaks else f"what answers at {place} " + advice.format("")
        found, printed, said = by_shell(place, "rows")
        want(f"{place} by the shell", (found, printed, said.splitlines()[1:]), (status, "", [shell]))
    for place, fault in ((node.sock, 13), (folder / "a.http", 10)):
        ran = run(sys.executable, str(CLIENT), "--control", str(place), "get")
        text = "what answers is not a control socket: give the --control of the node, not its --sock or --http"
        want(f"{place} at the control socket", (*ran[:2], ran[2].splitlines()[::2]), (3, "", [f"fault {fault}", f"control socket {place}: {text}"]))


def http_client_answers(check):
    """What is no whole answer is an OSError of each call of the client over HTTP, and its command line ends with status 3. A watch asks again. What
    no node answers is a Fault."""
    good = http_answer({"more": False, "rows": []})
    broken = (b"", b"no answer\r\n\r\n", good[:20], good[:-5], http_answer({}, 1000), b"HTTP/1.1 200 OK\r\nTransfer-Encoding: chunked\r\n\r\n5\r\n{")
    made = lambda *answers: MadeUpHttp(check.folder() / "made.http", *answers).path
    for answer in broken:
        for call, *words in (("get",), ("set", "k", "weight", 5), ("delete", "k")):
            try:
                found = getattr(HTTP_MODULE.Node(str(made(answer)), SECONDS), call)(*words)
            except OSError as fault:
                found = type(fault)
            want(f"the end of {call} after {answer}", issubclass(found, ConnectionError) if isinstance(found, type) else found, True)
        status, printed, said = by_http(made(answer), "get")
        want(f"what is printed after {answer}", (status, printed, len(said.splitlines())), (3, "", 1))
    for answer in (b"HTTP/1.1 200 OK\r\nContent-Length: 5\r\n\r\nhello", http_answer(5), http_answer("rows"), http_answer({"row": 5})):
        want(f"the end after {answer}", by_http(made(answer), "get"), (3, "", "status 200: the answer is not that of a node\n"))
    row = {"key": "k", "kind": "weight", "owner": "a", "value": 5, "version": 1}
    rows_of = lambda mark, *found: http_answer({"more": False, "rows": found, "seen": mark})
    node = MadeUpHttp(check.folder() / "made.http", broken[3], rows_of("m", row), broken[2], rows_of("m", row), rows_of("r"), rows_of("m", row), rows_of("r"), broken[0])
    Changes(HTTP_MODULE.Node(str(node.path), SECONDS).watch()).awaits(("set", "a", "k", 1, 5))
    polls = [it for it in node.targets if "owner" not in it]
    want("the polls of a watch", polls[:4], 4 * ["/v1/rows?prefix=&wait=30s"])
    told = Queue()
    Changes(HTTP_MODULE.Node(str(made(b"", rows_of("m"), rows_of("r"), b"")), SECONDS).watch(tell=told.put))
    ended = "no whole answer came: the node ended, or does not speak HTTP there: give what the --http of the node has, not its --sock or --control"
    want("what a watch tells", [str(told.get(timeout=SECONDS)) for _ in range(3)], [ended, "None", ENDED])


def http_client_watches(check):
    """Both clients over HTTP print what changes at the node and at its peer, go on over a restart, and leave no file."""
    if lacks_curl(check):
        return
    folder = check.folder()
    (folder / "tmp").mkdir()
    node, _ = node_at(check, "a", folder / "a.http", "--pause", "100", "--budget", "1024", folder=folder)
    other = check.node("b", "--pause", "100", folder=folder, peers=[node.sock]).start()
    row = lambda owner, key, version, value: f'{{"key":"{key}","kind":"weight","owner":"{owner}","value":{value},"version":{version}}}'
    node.put("w/k", 5), node.put("x", 6)
    for at in range(30):
        node.put(f"w/z{at:02}", at)
    first = [row("a", "w/k", 1, 5), *(row("a", f"w/z{at:02}", at + 3, at) for at in range(30))]
    shell = ClientWatching("sh", SHELL_CLIENT, folder / "a.http", "watch", "w/", env={**os.environ, "TMPDIR": str(folder / "tmp")})
    python = ClientWatching(sys.executable, HTTP_CLIENT, "--http", folder / "a.http", "watch", "--prefix", "w/")

    def print_both(gone, came):
        """The row that a write replaced or removed, and the one that it made."""
        shell.awaits([f"- {it}" for it in gone] + [f"+ {it}" for it in came])
        python.awaits([f'["set",{it}]' for it in came] if came else [f'["gone",{it}]' for it in gone])

    try:
        print_both([], first)
        node.put("w/k", 7)
        print_both([row("a", "w/k", 1, 5)], [row("a", "w/k", 33, 7)])
        node.put("x", 8)
        other.put("w/l", 1)
        print_both([], [row("b", "w/l", 1, 1)])
        want("del", other.command("del", "w/l")[0], 0)
        print_both([row("b", "w/l", 1, 1)], [])
        node.kill()
        shell.awaits_said("does not answer")
        python.awaits_said("does not answer")
        time.sleep(1.5)
        node.start()
        node.put("w/k", 9)
        print_both([row("a", "w/k", 33, 7)], [row("a", "w/k", 35, 9)])
    finally:
        shell.stop(), python.stop()
    front, said = f"attrdir_http.sh: {{}} {folder / 'a.http'}: {{}}", [it for it in shell.all_said() if it != "Terminated"]
    away = front.format("warning", "does not answer: curl: (")
    want("what the shell says", [said[0][: len(away)], *said[1:]], [away, front.format("info", "answers")])
    says_it_was_away(python, "attrdir_http.py", folder / "a.http")
    want("what the shell leaves", list((folder / "tmp").iterdir()), [])
    made = MadeUpHttp(folder / "made.http", http_answer({"more": False, "rows": [], "seen": "m"}), b"").path
    ending = ClientWatching("sh", SHELL_CLIENT, made, "watch")
    try:
        ending.awaits_said(f"warning {made}: does not answer: curl: (52) Empty reply from server; {ENDED}")
    finally:
        ending.stop()


def client_unread(check):
    """A client whose output nobody reads any more ends by the signal of a closed pipe, and prints nothing about that."""
    if lacks_curl(check):
        return
    folder = check.folder()
    node, _ = node_at(check, "a", folder / "a.http", folder=folder)
    node.put("k", 1)
    python = [[sys.executable, CLIENT, "--control", node.control], [sys.executable, HTTP_CLIENT, "--http", folder / "a.http"]]
    asked = [(-signal.SIGPIPE, [*front, *words]) for front in python for words in (["get"], ["watch"], ["set", "l", "weight", "5"])]
    asked += [(128 + signal.SIGPIPE, ["sh", SHELL_CLIENT, folder / "a.http", *words]) for words in (["rows"], ["row", "a", "k"], ["watch"])]
    for status, words in asked:
        reads, writes = os.pipe()
        os.close(reads)
        ran = subprocess.run(words, stdin=subprocess.DEVNULL, stdout=writes, stderr=subprocess.PIPE, text=True, timeout=SECONDS)
        os.close(writes)
        want(f"the end of {words[1:]}", (ran.returncode, ran.stderr), (status, ""))


def client_page(check):
    """Each example of examples/clients/README.md, a command and the line below it, is what a node h prints that answers at h.http. Those in Python
    find the clients."""
    if lacks_curl(check):
        return
    page = (CLIENT.parent / "README.md").read_text()
    examples = re.findall(r"^    \$ (.*)\n    (.*)$", page, re.MULTILINE)
    want("whether there are examples", len(examples) >= 6, True)
    folder = check.folder()
    node_at(check, "h", folder / "h.http", folder=folder)
    path = f"{CLIENT.parent}:{os.environ['PATH']}"
    for line, wanted in examples:
        ran = subprocess.run(["sh", "-c", line], cwd=folder, env={**os.environ, "PATH": path}, stdin=subprocess.DEVNULL, capture_output=True, text=True, timeout=SECONDS)
        want(f"the example {line}", ran.stdout + ran.stderr, f"{wanted}\n")
    imports = re.findall(r"^In Python, after `(export PYTHONPATH=\S+)`, the same is:\n\n    (from .*)$", page, re.MULTILINE)
    want("how many examples are in Python", len(imports), 2)
    for export, line in imports:
        words = f"{export.replace('/the/repository', str(ROOT))}; exec {sys.executable} -c '{line}'"
        ran = subprocess.run(["sh", "-c", words], cwd=folder, stdin=subprocess.DEVNULL, capture_output=True, text=True, timeout=SECONDS)
        want(f"the example {line}", (ran.returncode, ran.stderr), (0, ""))


PARTS = (
    client_rows, client_commands, client_watches, client_watches_pages, client_watches_back, client_watch_rules, client_statuses, client_status_words,
    client_faults, client_wrong_sockets, client_alone, http_client_rows, http_client_faults, http_client_addresses, http_client_answers, http_client_watches,
    client_unread, client_page,
)
