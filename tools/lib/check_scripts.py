"""A part of tools/check-node: what commands do for scripts. It asks nodes that run for one row, has them write lines of standard input, sets the
path of the control socket in the environment, has a watch outlast its node, and asks how far a node holds each owner."""
import os
import re
import signal
import socket
import subprocess
import threading
import time
from types import SimpleNamespace

from check_asking import MadeUp, rows
from check_purging import REMOVED
from check_watch import Watching
from nodes import BYE, SECONDS, Difference, connect, delta, frame, hello, number, pair, pieces, read_frame, run, text, want, weight


def ended(program, words, given="", **more):
    """The status of a command with this standard input, a text or a descriptor, what it printed and what it said."""
    source = {"input": given} if isinstance(given, str) else {"stdin": given}
    ran = subprocess.run([program, *words], capture_output=True, text=True, timeout=SECONDS, **source, **more)
    return ran.returncode, ran.stdout, ran.stderr


def wrong(what, found, status, first, *about):
    """A command ended with this status and said this first, and the rest of what it said names these."""
    code, printed, said = found
    lines = said.splitlines()
    want(f"{what} ({said!r})", (code, printed, lines[:1]), (status, "", [first] if first else lines[:1]))
    want(f"what {what} said of {about} ({said!r})", [it for it in about if it not in said], [])


def raw_of(spelling):
    """The text that is spelled so."""
    return re.sub(r"\\([0-9a-f]{2})", lambda found: chr(int(found[1], 16)), spelling)


def one_row(check):
    """get --key prints the row of that key alone, with --value its value alone, and ends with status 1 where there is none."""
    node = check.node("a").start()
    for at, (key, kind, word) in enumerate((("web/addr", "addr", "10.0.0.1:80"), ("web/addr2", "addr", "x"), ("web/w", "weight", "7"), ("up", "flag", "true")), 1):
        want("set", node.command("set", key, kind, word), (0, f"version {at}\n", ""))
    for words, wanted in (
        (["--owner", "a", "--key", "web/addr"], (0, "a web/addr 1 addr 10.0.0.1:80\n", "")),
        (["--owner", "a", "--key", "web/addr", "--value"], (0, "10.0.0.1:80\n", "")),
        (["--value", "--key", "web/w", "--owner", "a"], (0, "7\n", "")),
        (["--owner", "a", "--key", "up", "--value"], (0, "true\n", "")),
        (["--owner", "a", "--key", "up", "--value", "--raw"], (0, "true\n", "")),
        (["--raw", "--owner", "a", "--value", "--key", "web/w"], (0, "7\n", "")),
        (["--owner", "a", "--key", "web/addr", "--value", "--raw"], (0, "10.0.0.1:80\n", "")),
        (["--owner", "a", "--key", "web/add", "--value", "--raw"], (1, "", "")),
        (["--owner", "a", "--key", "web/w", "--format", "text"], (0, "a web/w 3 weight 7\n", "")),
        (["--owner", "a", "--key", "web/w", "--format", "json"], (0, '{"key":"web/w","kind":"weight","owner":"a","value":7,"version":3}\n', "")),
        (["--owner", "a", "--key", "web/add"], (1, "", "")),
        (["--owner", "a", "--key", "web/add", "--value"], (1, "", "")),
        (["--owner", "b", "--key", "web/addr"], (1, "", "")),
        (["--owner", "a", "--key", "zz", "--format", "json"], (1, "", "")),
    ):
        want(f"get {words}", node.command("get", *words), wanted)
    want("del", node.command("del", "web/addr"), (0, "version 5\n", ""))
    want("a key that was removed", node.command("get", "--owner", "a", "--key", "web/addr"), (1, "", ""))
    for words in (["--key", "up"], ["--value"], ["--owner", "a", "--value"], ["--owner", "a", "--key", "up", "--prefix", "u"],
                  ["--owner", "a", "--key", "up", "--value", "--format", "json"], ["--raw"], ["--owner", "a", "--key", "up", "--raw"],
                  ["--owner", "a", "--key", "up", "--value", "--raw", "--format", "json"]):
        want(f"the status of get {words}", node.command("get", *words)[:2], (2, ""))
    wrong("get of no key", node.command("get", "--owner", "a", "--key", "K"), 3, "fault 3", "key 'K': ")
    wrong("get of no name", node.command("get", "--owner", "A", "--key", "K"), 3, "fault 2", "--owner 'A': ")
    node.kill()
    wrong("get of a row at nobody", node.command("get", "--owner", "a", "--key", "up"), 3, "fault 16")


def texts_of_scripts(check):
    """A text is one argument of set, as it is spelled or with --raw as it is; in lines it is all behind its kind; get prints it as it is spelled, or with
    --value --raw as it is."""
    node = check.node("a").start()
    for at, (words, line) in enumerate((
        (["t/a", "text", "two  words "], "two  words "), (["t/b", "text", r" a\5cb\0a"], r" a\5cb\0a"), (["--raw", "t/c", "text", "C:\\5c\n\té "], r"C:\5c5c\0a\09é "),
        (["t/d", "--raw", "text", "x" * 512], "x" * 512), (["--raw", "t/w", "weight", "5"], None), (["--raw", "--", "t/e", "text", "-- x"], "-- x"),
    ), 1):
        key = next(it for it in words if it.startswith("t/"))
        want(f"set {words}", node.command("set", *words), (0, f"version {at}\n", ""))
        if line is not None:
            want(f"the row of {key}", node.command("get", "--owner", "a", "--key", key), (0, f"a {key} {at} text {line}\n", ""))
            asked = ["--owner", "a", "--key", key, "--value"]
            want(f"the value of {key}", node.command("get", *asked), (0, f"{line}\n", ""))
            want(f"the raw value of {key}", node.command("get", *asked, "--raw"), (0, f"{raw_of(line)}\n", ""))
    for words in ([""], [r"a\41"], [r"\5C"], [r"\5"], ["\\"], ["a\nb"], ["\x7f"], ["x" * 513], ["é" * 257], ["--raw", ""], ["--raw", "x" * 513]):
        *raw, word = words
        wrong(f"set of the text {words}", node.command("set", *raw, "t/x", "text", word), 3, "fault 4", "value 'text ")
    words = ["set", "--control", str(node.control), "-"]
    given = "l/a text  x  y \nl/b text removed\nl/c text \\5c\\7f\nl/d removed\n"
    status, printed, said = ended(check.program, words, given)
    want("lines of texts", (status, printed, said.splitlines()[0]), (3, "version 7\nversion 8\nversion 9\n", "fault 9"))
    want("their rows", node.get("--prefix", "l/"), ["a l/a 7 text  x  y ", "a l/b 8 text removed", r"a l/c 9 text \5c\7f"])
    for line, quote, about in (("k text", "'k text'", "give a kind"), ("k text ", "'k text '", "a text has 1"), ("k  text x", "'k  text x'", "give a kind"),
                               (r"k text \5C", r"'k text \5c5C'", "a text has 1"), ("k text a\tb", r"'k text a\09b'", r"a text has 1 to 512 bytes of UTF-8; write a backslash as \5c, a newline as \0a and a tab as \09"),
                               ("k text x\r", r"'k text x\0d'", "the line ends with a carriage return, \\0d: "),
                               ("k addr \té\x7f~", r"'k addr \09\c3\a9\7f~'", "give a kind"), (f"k weight {71 * '9'}", f"'k weight {71 * '9'}'", "a weight is"),
                               (f"k weight {72 * '9'}", f"'k weight {71 * '9'}'..", "a weight is"), (f"k text {513 * 'x'}", f"'k text {73 * 'x'}'..", "a text has 1")):
        wrong(f"a line {line!r}", ended(check.program, words, f"{line}\n"), 3, "fault 4", f"line 1: {quote}: {about}")
    wrong("a key in a line", ended(check.program, words, "\nk\x7f weight 5\n"), 3, "fault 3", r"line 2: 'k\7f weight 5': give at most 64 ")


def lines_of_input(check):
    """set - writes what lines of standard input say, each as it comes, and stops at the first that is none."""
    node = check.node("a").start()
    words = ["set", "--control", str(node.control), "-"]
    printed = "".join(f"version {at}\n" for at in range(1, 6))
    want("lines", ended(check.program, words, "k/a weight 5\nk/b addr 10.0.0.1:80\n\n-x flag true\nk/a removed\nk/c weight 9"), (0, printed, ""))
    wanted = ["a -x 3 flag true", "a k/b 2 addr 10.0.0.1:80", "a k/c 5 weight 9"]
    want("the rows", node.get(), wanted)
    want("no lines", ended(check.program, words, ""), (0, "", ""))
    want("empty lines", ended(check.program, words, "\n\n"), (0, "", ""))
    version = 5
    for line, fault in (("K weight 5", 3), ("k", 4), ("k weight", 4), ("k weight 05", 4), ("k  weight 5", 4), ("k weight 5 ", 4), ("k removed ", 4),
                        (" k weight 5", 3), ("k wait 5", 4), ("k addr a b", 4), ("\xe9 weight 5", 3), ("none removed", 9)):
        version += 1
        status, printed, said = ended(check.program, words, f"k/a weight 1\n\n{line}\nk/a weight 2\n")
        lines = said.splitlines()
        want(f"a line {line!r}", (status, printed, lines[0], len(lines), lines[2][:8]), (3, f"version {version}\n", f"fault {fault}", 3, "line 3: "))
    want("the rows", node.get("--prefix", "k/a"), [f"a k/a {version} weight 1"])
    for more in (["k"], ["k", "weight"], ["-", "weight"]):
        want(f"the status of set {more}", node.command("set", *more)[:2], (2, ""))
    want("a key of one sign", node.command("set", "--", "-", "weight", "5"), (0, f"version {version + 1}\n", ""))
    count = 1000 if check.is_long else 100
    given = "".join(f"n/{at:04} weight {at}\n" for at in range(count))
    want("many lines", ended(check.program, words, given), (0, "".join(f"version {version + 2 + at}\n" for at in range(count)), ""))
    want("how many rows", len(node.get("--prefix", "n/")), count)
    lines_as_they_come(node, words)
    node.kill()
    wrong("lines at nobody", ended(check.program, words, "k weight 5\n"), 3, "fault 16", "line 1: control socket ")
    folder = os.open(check.room, os.O_RDONLY)
    wrong("lines that can't be read", ended(check.program, words, folder), 3, "fault 16", "line 1: ")
    os.close(folder)


def lines_as_they_come(node, words):
    """A line is written, and its version printed, before the next one comes."""
    how = {"stdin": subprocess.PIPE, "stdout": subprocess.PIPE, "text": True, "bufsize": 1}
    with subprocess.Popen([node.program, *words], **how) as ran:
        for at in range(3):
            ran.stdin.write(f"slow weight {at}\n")
            version = ran.stdout.readline().split()[1]
            want("a line that came alone", node.get("--prefix", "slow"), [f"a slow {version} weight {at}"])
        ran.stdin.close()
        want("the end of lines", ran.wait(SECONDS), 0)


def environment(check):
    """ATTRDIR_CONTROL stands for --control where that is not given."""
    node = check.node("a").start()
    env = {**os.environ, "ATTRDIR_CONTROL": str(node.control)}
    ask = lambda *words, **more: ended(check.program, words, env={**env, **more})
    want("set", ask("set", "k", "weight", "5"), (0, "version 1\n", ""))
    want("get", ask("get"), (0, "a k 1 weight 5\n", ""))
    want("watch", ask("watch", "--count", "1"), (0, "set a k 1 weight 5\n", ""))
    want("del", ask("del", "k"), (0, "version 2\n", ""))
    nowhere = str(node.control) + ".none"
    wrong("an option that wins", ask("get", "--control", nowhere), 3, "fault 16", nowhere)
    want("an option that wins", ask("get", "--control", str(node.control), ATTRDIR_CONTROL=nowhere), (0, "", ""))
    wrong("an environment that leads nowhere", ask("get", ATTRDIR_CONTROL=nowhere), 3, "fault 16", nowhere)
    wrong("an empty one", ask("get", ATTRDIR_CONTROL=""), 2, None, "error: no control socket: give --control PATH, or set ATTRDIR_CONTROL")
    words = [it for it in node.words()[1:] if it not in ("--control", str(node.control))]
    wrong("a node, which makes its socket", ended(check.program, words, env=env), 2, None, "--control")


def marks(check):
    """A watch asks every 200 ms where nothing else is said, prints a mark behind each asking, and ends soon where its output is closed."""
    node = check.node("a").start()
    node.put("k", 1)
    want("marks", node.command("watch", "--mark", "--count", "3", "--every", "0"), (0, "set a k 1 weight 1\nasked\nasked\nasked\n", ""))
    want("marks of a watch that goes on", node.command("watch", "--retry", "--mark", "--count", "2", "--every", "0"), (0, "set a k 1 weight 1\nasked\nasked\n", ""))
    began = time.monotonic()
    want("six askings", node.command("watch", "--mark", "--count", "6"), (0, "set a k 1 weight 1\n" + "asked\n" * 6, ""))
    if not 1 <= time.monotonic() - began <= 5:
        raise Difference(f"six askings took {time.monotonic() - began:.2f} s")
    want("a file as output", node.command("watch", "--count", "2", "--every", "50")[0], 0)
    for words in ([], ["--retry"], ["--mark"]):
        closed_output(node, words)


def closed_output(node, words):
    """A watch that prints nothing more ends where nobody reads it any more, and does not wait for the next change."""
    reads, writes = os.pipe()
    how = {"stdin": subprocess.DEVNULL, "stdout": writes, "stderr": subprocess.PIPE, "text": True}
    told = [node.program, "watch", "--control", str(node.control), "--every", "60000", *words]
    with subprocess.Popen(told, preexec_fn=lambda: signal.signal(signal.SIGPIPE, signal.SIG_DFL), **how) as ran:
        os.close(writes)
        want("its first line", os.read(reads, 4096).splitlines()[0], b"set a k 1 weight 1")
        time.sleep(0.2)
        want("that it waits", ran.poll(), None)
        os.close(reads)
        try:
            ran.wait(5)
        except subprocess.TimeoutExpired:
            ran.kill()
            raise Difference(f"watch {words} goes on where its output is closed") from None
        want("how it ended", ran.returncode != 0, True)


def tell(node, owner, after, *entries):
    """Brings a node these writes of an owner, as its peer. A write without a value is a removal."""
    told = [(key, version, REMOVED if value is None else weight(value)) for key, version, value in entries]
    with connect(node.sock) as stream:
        stream.sendall(hello("teller") + delta(owner, after, told) + BYE)
        while read_frame(stream):
            pass


# why a node that ended or starts does not answer
AWAY = ("no node could be reached: no such file", "no node could be reached: refused, no node listens there", "the node ended the connection")


def beside_away_and_back(control, said):
    """The lines of a watch that goes on, without those of a node that did not answer, and why, and then did."""
    front = f"control socket {control}: "
    known = [f"attrdir: info {front}answers", *(f"attrdir: warning {front}does not answer: {why}" for why in AWAY)]
    return [it for it in said if it not in known]


def pages_apart(check):
    """The node was started again, and heard of an owner between two pages: none of the owner's rows is gone that the first page could not have."""
    node = SimpleNamespace(program=check.program, control=check.folder() / "made.ctl")
    MadeUp(node.control, [rows(("a", "b1", 5, 1), ("a", "z", 6, 1))])
    watch = Watching(node, "--retry", "--every", "20", "--count", "3")
    try:
        watch.awaits(["set a b1 5 weight 1", "set a z 6 weight 1"])
        node.control.unlink()
        whole = rows(("a", "b1", 5, 1), ("a", "c1", 1, 1), ("a", "z", 100, 1))
        MadeUp(node.control, [rows(("a", "c1", 1, 1), more=1), rows(("a", "z", 100, 1)), whole], is_another=True)
        # (the first page was as early as c1, which a later write may have removed: it is printed once the node has shown a as far as before)
        want("its end", watch.ended()[:2], (0, ["set a z 100 weight 1", "set a c1 1 weight 1"]))
    finally:
        watch.stop()


def outlasting(check):
    """A watch that goes on keeps what it printed over a restart of its node, and takes it back only where the node knows better."""
    node = check.node("a").start()
    node.put("own", 1)
    tell(node, "p", 0, ("x", 1, 10), ("y", 2, 20), ("z", 3, 30))
    watch = Watching(node, "--retry", "--every", "20")
    try:
        first = ["set a own 1 weight 1", "set p x 1 weight 10", "set p y 2 weight 20", "set p z 3 weight 30"]
        watch.awaits(first)
        node.kill()
        node.start()
        node.put("own", 2)
        watch.awaits(["set a own 2 weight 2"])
        want("that p is not known", node.get("--owner", "p"), [])
        # the node holds p less far than was printed: an older row is not printed, and none is gone
        tell(node, "p", 0, ("x", 1, 10))
        node.put("own", 3)
        watch.awaits(["set a own 3 weight 3"])
        # y was removed meanwhile, and a later row of p shows that the node knows
        tell(node, "p", 1, ("z", 3, 30), ("v", 5, 50))
        watch.awaits(["set p v 5 weight 50", "gone p y"])
        want("del", node.command("del", "own"), (0, "version 4\n", ""))
        watch.awaits(["gone a own"])
        node.kill()
        time.sleep(0.2)
        node.start()
        tell(node, "p", 0, ("x", 6, 60))
        watch.awaits(["set p x 6 weight 60", "gone p v", "gone p z"])
        want("that it runs", watch.ran.poll(), None)
    finally:
        watch.stop()
    want("what it said", beside_away_and_back(node.control, watch.all_said()), [])
    want("without --retry", node.command("watch", "--count", "1"), (0, "set p x 6 weight 60\n", ""))


def removed_rows(check):
    """A watch that goes on does not print a removed row again where its node, started again, hears of the owner from a node that was away."""
    folder = check.folder()
    away = check.node("c", folder=folder).start()
    owner = check.node("a", "--pause", "20", folder=folder, peers=[away.sock]).start()
    owner.put("k", 1)
    away.awaits("the first version", lambda rows: rows == ["a k 1 weight 1"])
    owner.kill()
    node = check.node("b", "--pause", "20", folder=folder).start()
    owner.peers = [node.sock]
    owner.start()
    watch = Watching(node, "--retry", "--every", "20")
    try:
        watch.awaits(["set a k 1 weight 1"])
        owner.put("k", 2)
        watch.awaits(["set a k 2 weight 2"])
        want("del", owner.command("del", "k"), (0, "version 3\n", ""))
        watch.awaits(["gone a k"])
        owner.put("j", 4)
        watch.awaits(["set a j 4 weight 4"])
        owner.kill()
        node.kill()
        node.peers = [away.sock]
        node.start()
        node.awaits("what the peer held", lambda rows: rows == ["a k 1 weight 1"])
        node.put("own", 1)
        watch.awaits(["set b own 1 weight 1"])
        owner.start()
        node.awaits("what the owner holds", lambda rows: rows == ["a j 4 weight 4", "b own 1 weight 1"])
        owner.put("m", 5)
        watch.awaits(["set a m 5 weight 5"])
        owner.put("k", 6)
        watch.awaits(["set a k 6 weight 6"])
        want("del", owner.command("del", "j"), (0, "version 7\n", ""))
        watch.awaits(["gone a j"])
        want("that it runs", watch.ran.poll(), None)
    finally:
        watch.stop()
    want("what it said", beside_away_and_back(node.control, watch.all_said()), [])


def rows_in_pieces(check):
    """A watch that goes on prints no earlier version of a row that went where its node, started again, hears of the owner in pieces. It prints each
    later one, and a row that comes back while the node runs."""
    node = check.node("a").start()
    tell(node, "b", 0, ("k", 1, 1), ("m", 2, 2))
    watch = Watching(node, "--retry", "--every", "20")
    try:
        watch.awaits(["set b k 1 weight 1", "set b m 2 weight 2"])
        tell(node, "b", 2, ("k", 3, 3))
        watch.awaits(["set b k 3 weight 3"])
        tell(node, "b", 3, ("k", 4, None))
        watch.awaits(["gone b k"])
        node.kill()
        node.start()
        # the owner wrote k again, which comes last: until then the node shows what was so before k went
        tell(node, "b", 0, ("k", 1, 1), ("m", 2, 2))
        tell(node, "b", 2, ("n", 5, 5))
        watch.awaits(["set b n 5 weight 5"])
        want("the rows", node.get(), ["b k 1 weight 1", "b m 2 weight 2", "b n 5 weight 5"])
        tell(node, "b", 5, ("o", 6, 6))
        watch.awaits(["set b o 6 weight 6"])
        tell(node, "b", 6, ("k", 9, 9))
        watch.awaits(["set b k 9 weight 9"])
        tell(node, "b", 9, ("k", 10, None))
        watch.awaits(["gone b k"])
        node.kill()
        node.start()
        # now the same of the version that went last, and the owner's log is begun anew behind all of that
        tell(node, "b", 0, ("m", 2, 2), ("n", 5, 5), ("o", 6, 6), ("k", 9, 9))
        tell(node, "b", 9, ("n", 11, 11))
        watch.awaits(["set b n 11 weight 11"])
        tell(node, "b", 11, ("o", 12, 12))
        watch.awaits(["set b o 12 weight 12"])
        want("the row of k", node.get("--prefix", "k"), ["b k 9 weight 9"])
        tell(node, "b", 12, ("k", 1048589, 1), ("l", 1048590, 2))
        watch.awaits(["set b k 1048589 weight 1", "set b l 1048590 weight 2"])
        want("that it runs", watch.ran.poll(), None)
    finally:
        watch.stop()
    want("what it said", beside_away_and_back(node.control, watch.all_said()), [])
    whole, part = rows(("b", "k", 2, 1), ("b", "l", 3, 1)), rows(("b", "l", 3, 1))
    made = MadeUp(check.folder() / "made.ctl", [whole, part, whole])
    found = run(check.program, "watch", "--retry", "--every", "0", "--count", "3", "--control", str(made.path))
    want("a row that comes back while the node runs", found, (0, "set b k 2 weight 1\nset b l 3 weight 1\ngone b k\nset b k 2 weight 1\n", ""))


def earlier_versions(check):
    """A watch that goes on says that its node, started again, shows less of an owner than was printed, and prints the rest once it shows as much."""
    node = check.node("a").start()
    tell(node, "p", 0, ("x", 1, 10), ("y", 2, 20), ("z", 3, 30))
    tell(node, "q", 0, ("x", 1, 10))
    watch = Watching(node, "--retry", "--every", "20")
    try:
        watch.awaits(["set p x 1 weight 10", "set p y 2 weight 20", "set p z 3 weight 30", "set q x 1 weight 10"])
        tell(node, "q", 1, ("x", 3, None), ("z", 4, 40))
        watch.awaits(["gone q x", "set q z 4 weight 40"])
        node.kill()
        node.start()
        # of p the node hears less than was printed, and of q what was so before the row was gone
        tell(node, "p", 0, ("x", 1, 10))
        tell(node, "q", 0, ("x", 1, 10), ("y", 2, 20))
        node.put("own", 1)
        watch.awaits(["set a own 1 weight 1"])
        time.sleep(11)
        node.put("own", 2)
        watch.awaits(["set a own 2 weight 2"])
        tell(node, "p", 1, ("y", 2, 20), ("z", 3, 30), ("v", 4, 40))
        watch.awaits(["set p v 4 weight 40"])
        tell(node, "q", 2, ("z", 4, 40), ("x", 5, 50), ("y", 6, 60))
        watch.awaits(["set q x 5 weight 50", "set q y 6 weight 60"])
        want("the rows", node.get("--owner", "p"), ["p v 4 weight 40", "p x 1 weight 10", "p y 2 weight 20", "p z 3 weight 30"])
        # (it prints the rows before it says so)
        watch.awaits_said("shows again what was printed")
        want("that it runs", watch.ran.poll(), None)
    finally:
        watch.stop()
    said = beside_away_and_back(node.control, watch.all_said())
    front = f"control socket {node.control}: "
    want("what it said", said, [
        f"attrdir: warning {front}since its start the node has shown less of 2 owners than was printed, the first is p; their printed rows stay; if an owner has a new log, start the watch again",
        f"attrdir: info {front}the node shows again what was printed",
    ])


def waiting(check):
    """A watch that goes on waits for a node that is not there yet, and ends after as many askings as were answered; what no node answers ends it."""
    node = check.node("a")
    watch = Watching(node, "--retry", "--mark", "--count", "1", "--every", "20")
    try:
        # (a node that was there at its first asking would never have been away)
        watch.awaits_said("does not answer")
        want("that it waits", watch.ran.poll(), None)
        node.start()
        status, printed, said = watch.ended()
        want("its end", (status, printed), (0, ["asked"]))
        want("what it said", (len(said), beside_away_and_back(node.control, said)), (2, []))
    finally:
        watch.stop()
    wrong("what is no control socket", run(check.program, "watch", "--retry", "--control", str(node.sock)), 3, "fault 13")
    wrong("no prefix", node.command("watch", "--retry", "--prefix", "P"), 3, "fault 3")
    made = MadeUp(check.folder() / "made.ctl", [rows(("b", "k", 2, 1), ("b", "l", 3, 1)), rows(("b", "k", 1, 9))])
    found = run(check.program, "watch", "--retry", "--every", "0", "--count", "2", "--control", str(made.path))
    want("a row of an earlier version", found, (0, "set b k 2 weight 1\nset b l 3 weight 1\ngone b l\n", ""))


def digest(want_one, start, end, pairs):
    """The body of a digest of a range."""
    told = b"".join(pair(name, upto) for name, upto in pairs)
    return bytes([want_one]) + text(start) + text(end) + number(len(pairs), 2) + told


def owners(check):
    """owners prints how far each owner is held, over as many digests as it takes, writes nothing, and ends its session in order."""
    node = check.node("a", "--budget", "1024").start()
    ask = lambda *words: run(check.program, "owners", "--sock", str(node.sock), *words)
    want("a node that holds nothing", ask("--cluster", "c"), (0, "a 0\n", ""))
    want("set", [node.put("k", 5), node.put("l", 6)], [1, 2])
    names = [f"{'n' * 28}{at:04}" for at in range(40)]
    for at, name in enumerate(names, 1):
        tell(node, name, 0, ("k", at, 1))
    rows_before = node.get()
    wanted = "".join(f"{name} {upto}\n" for name, upto in sorted([("a", 2), *zip(names, range(1, 41))]))
    want("owners", ask("--cluster", "c"), (0, wanted, ""))
    want("its writes", pieces(check.program, "owners", "--sock", str(node.sock), "--cluster", "c"), [wanted])
    want("owners under another name", ask("--cluster", "c", "--name", "me"), (0, wanted, ""))
    want("the rows afterwards", node.get(), rows_before)
    for words, status, first, about in (
        (["--cluster", "d"], 3, "fault 23", "--cluster"), (["--cluster", "c", "--name", "a"], 3, "fault 24", "--name"), ([], 2, None, "--cluster"),
        (["--cluster", "C"], 3, "fault 2", "--cluster 'C': "), (["--cluster", "c", "--name", "A"], 3, "fault 2", "--name 'A': "),
    ):
        wrong(f"owners {words}", ask(*words), status, first, about)
    wrong("owners at a control socket", run(check.program, "owners", "--sock", str(node.control), "--cluster", "c"), 3, "fault 13", str(node.control))
    node.kill()
    wrong("owners at nobody", ask("--cluster", "c"), 3, "fault 16", str(node.sock))


def whole_sessions(check):
    """A node that owners asks counts no fault, and of each session an event, as of any delta that brings nothing."""
    node = check.node("a", "--rounds", "5", "--pause", "1000").start()
    want("set", node.put("k", 5), 1)
    for _ in range(3):
        want("owners", run(check.program, "owners", "--sock", str(node.sock), "--cluster", "c"), (0, "a 1\n", ""))
    want("what it did", node.ended()[1], "rounds 5 faults 0 events 4\n")


class MadeUpPeer:
    """A socket for peers that answers the first message of a session by these frames, says no more, and keeps all that comes."""

    def __init__(self, path, answers):
        self.path, self.answers, self.messages = path, answers, []
        self.door = socket.socket(socket.AF_UNIX, socket.SOCK_STREAM)
        self.door.bind(str(path))
        self.door.listen(8)
        self.thread = threading.Thread(target=self.serve, daemon=True)
        self.thread.start()

    def serve(self):
        stream, _ = self.door.accept()
        self.door.close()
        with stream:
            self.messages.append(read_frame(stream))
            stream.sendall(b"".join(self.answers))
            stream.shutdown(socket.SHUT_WR)
            while (message := read_frame(stream)) is not None:
                self.messages.append(message)


def made_up_digests(check):
    """What owners says in a session, and that it ends at what is no orderly one."""
    greeting, none = hello("a"), frame(3, number(0, 2))
    whole = frame(2, digest(0, "", "", [("a", 1)]))
    first, rest = frame(2, digest(0, "", "m", [("b", 7)])), frame(2, digest(0, "m", "", [("n", 2)]))
    asks = (2, digest(1, "", "-", []))
    for answers, kinds, found in (
        ([greeting, none, whole], [1, 2, 3, 4], "a 1\n"), ([greeting, none, first, none, rest], [1, 2, 3, 2, 3, 4], "b 7\nn 2\n"), ([greeting], None, 28),
        ([whole], None, 22), ([greeting, greeting], None, 25), ([greeting, rest], None, 14), ([greeting, first, first], None, 14), ([greeting, first], None, 28),
        ([greeting, frame(2, digest(1, "", "", []))], None, 14), ([greeting, BYE], None, 28), ([b"\xa8"], None, 10), ([greeting, frame(0x13, number(1))], None, 13),
    ):
        made = MadeUpPeer(check.folder() / "made.sock", answers)
        status, printed, said = run(check.program, "owners", "--sock", str(made.path), "--cluster", "c")
        made.thread.join(SECONDS)
        what = f"owners at {[it.hex() for it in answers]} ({said!r})"
        if kinds is None:
            want(what, (status, printed, said.splitlines()[0]), (3, "", f"fault {found}"))
        else:
            want(what, (status, printed, said), (0, found, ""))
            want(f"what {what} sent", [it[0] for it in made.messages], kinds)
            want(f"the deltas of {what}", {it[1] for it in made.messages if it[0] == 3}, {number(0, 2)})
        # (nothing is asked before the node's Hello has come)
        begins = [(1, text("c") + text("attrdir-owners")), *([asks] if answers[0] == greeting else [])]
        want(f"its first messages at {what}", made.messages[:2], begins)


PARTS = (one_row, texts_of_scripts, lines_of_input, environment, marks, outlasting, removed_rows, rows_in_pieces, earlier_versions, pages_apart, waiting, owners, whole_sessions, made_up_digests)
