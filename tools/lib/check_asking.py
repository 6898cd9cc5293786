"""A part of tools/check-node: what the commands that ask a node send, and what they make of each answer. They ask a made-up node, which keeps the
requests and sends the answers that it was given. docs/FORMATS.md and docs/REFERENCE.md have what is wanted."""
import fcntl
import os
import re
import socket
import subprocess
import termios
import threading
import time
from concurrent.futures import ThreadPoolExecutor

from nodes import BYE, DONE, FRAME_FRONT, REFUSED, ROOT, SECONDS, Difference
from nodes import ask, delta, digest, frame, hello, number, page, put, read_frame, run, send_in_pieces, text, want, weight

# the reads that a script may take, by docs/REFERENCE.md
SCRIPT_READS = 1_000_000
# the faults whose text has a number that a Refused does not carry
CARRIES_MORE = (13, 14, 17, 21, 31)


def done(version):
    return frame(DONE, number(version))


def refused(fault):
    return frame(REFUSED, bytes([fault]))


def rows(*told, more=0):
    """A page of weights: owner, key, version and weight of each."""
    return frame(*page([(owner, key, version, weight(value)) for owner, key, version, value in told], more))


def address(word):
    return b"\x01" + text(word)


def texts():
    """The text of each fault, by its number, as docs/REFERENCE.md has it."""
    reference = (ROOT / "docs" / "REFERENCE.md").read_text()
    return {int(at): words for at, words in re.findall(r"^\| (\d+) \| `\w+(?:\(N\))?` \| (.*?) \|", reference, re.M)}


class MadeUp:
    """A control socket that keeps each request, and sends the next of these answers, in pieces of so many bytes. It ends behind the last. It
    tells nobody of changes, as a node of release 0.2.0, and keeps no request for that. If it takes the place of another, it closes its first connection:
    a watch that looked at the path before may make it, and would take no answer from it."""

    def __init__(self, path, answers, piece=1 << 20, is_another=False):
        self.path, self.answers, self.piece, self.is_another, self.requests = path, answers, piece, is_another, []
        self.door = socket.socket(socket.AF_UNIX, socket.SOCK_STREAM)
        self.door.bind(str(path))
        self.door.listen(8)
        threading.Thread(target=self.serve, daemon=True).start()

    def serve(self):
        if self.is_another:
            self.door.accept()[0].close()
        for at, answer in enumerate(self.answers, 1):
            stream, request = self.take()
            if at == len(self.answers):
                self.door.close()
            try:
                with stream:
                    self.requests.append(request)
                    send_in_pieces(stream, answer, self.piece)
            except OSError:
                pass

    def take(self):
        """The next connection, and its request, which is no question to tell of changes."""
        while True:
            stream, _ = self.door.accept()
            request = read_frame(stream)
            if request is None or request[0] != 0x17:
                return stream, request
            stream.close()


def asked(check, answers, command, *words, **how):
    """The end of a command at a node that answers so, and what it asked for."""
    node = MadeUp(check.folder() / "made.ctl", answers, **how)
    ran = run(check.program, command, "--control", str(node.path), *words)
    return ran, node.requests


def messages(*frames):
    """The kind and the body of each."""
    return [(it[6], it[7:]) for it in frames]


def ends_with(check, words, answers, fault, told, printed=""):
    """A command at a node that answers so ends with this fault and this text, where one is given, and names the control socket."""
    (status, found, said), _ = asked(check, answers, *words)
    lines = said.splitlines()
    what = f"{words} at {[it.hex() for it in answers]}"
    want(f"the end of {what} ({said!r})", (status, found, lines[:1], len(lines)), (3, printed, [f"fault {fault}"], 3))
    if told is not None:
        want(f"the text of {what}", lines[1], told)
    if "/made.ctl: " not in lines[2]:
        raise Difference(f"{what} does not name its control socket: {lines[2]}")


# ---- the parts


def requests(check):
    """A command asks for what its words say, once; for a later page behind the last row of the one before."""
    for words, request in (
        (["set", "k/a", "addr", "x:1"], put("k/a", address("x:1"))),
        (["set", "--", "-k", "weight", "5"], put("-k", weight(5))),
        (["set", "k", "flag", "true"], put("k", b"\x03\x01")),
        (["set", "k", "flag", "false"], put("k", b"\x03\x00")),
        (["del", "k"], put("k", b"\x00")),
    ):
        want(f"{words}", asked(check, [done(2**40 - 1)], *words), ((0, "version 1099511627775\n", ""), messages(request)))
    pages = [rows(("o", "k/a", 3, 1), ("o", "k/b", 9, 2), more=1), rows(("o", "k/c", 4, 3), more=1), rows(("o", "k/d", 5, 4))]
    lines = ["o k/a 3 weight 1", "o k/b 9 weight 2", "o k/c 4 weight 3", "o k/d 5 weight 4"]
    question = ["--owner", "o", "--prefix", "k/"]
    asks = messages(ask("o", "k/"), ask("o", "k/", "o", "k/b"), ask("o", "k/", "o", "k/c"))
    printed = "".join(f"{it}\n" for it in lines)
    want("get, page by page", asked(check, pages, "get", *question), ((0, printed, ""), asks))
    pages = [rows(("o", "z", 3, 1), more=1), rows(("p", "a", 9, 2))]
    asks = messages(ask(), ask("", "", "o", "z"))
    want("get of all", asked(check, pages, "get"), ((0, "o z 3 weight 1\np a 9 weight 2\n", ""), asks))


def watched_requests(check):
    """A watch asks as often as it is told, each time for all pages, and prints of each asking what changed."""
    pages = [rows(("o", "k/a", 3, 1), ("o", "k/b", 9, 2), more=1), rows(("o", "k/c", 4, 3))]
    asks = messages(ask("o", "k/"), ask("o", "k/", "o", "k/b"))
    words = ["--owner", "o", "--prefix", "k/", "--every", "0", "--count", "2"]
    printed = "set o k/a 3 weight 1\nset o k/b 9 weight 2\nset o k/c 4 weight 3\n"
    want("a watch, page by page", asked(check, pages * 2, "watch", *words), ((0, printed, ""), asks * 2))
    want("three askings", asked(check, [rows()] * 3, "watch", "--every", "0", "--count", "3"), ((0, "", ""), messages(ask()) * 3))
    first = [rows(("a", "k", 1, 1), ("b", "k", 1, 1))]
    second = [rows(("a", "k", 2, 1), more=1), rows(("c", "k", 7, 1))]
    printed = "set a k 1 weight 1\nset b k 1 weight 1\nset a k 2 weight 1\ngone b k\nset c k 7 weight 1\n"
    want("what changed", asked(check, first + second, "watch", "--every", "0", "--count", "2")[0], (0, printed, ""))


def watched_times(check):
    """A watch asks at first at once, and a fifth of a second later again where --every is not given."""
    began = time.monotonic()
    want("one asking", asked(check, [rows()], "watch", "--every", "60000", "--count", "1")[0], (0, "", ""))
    want("six askings", asked(check, [rows()] * 6, "watch", "--count", "6")[0], (0, "", ""))
    if not 1 <= time.monotonic() - began <= 10:
        raise Difference(f"an asking and then six took {time.monotonic() - began:.2f} s")


def wrong_answers(check):
    """What is no answer to a request ends the command, with the fault of its bytes."""
    told, good = texts(), done(5)
    kind = lambda fault, message: told[fault].replace("kind N", f"kind {message[6]}")
    writes, reads = ["set", "k", "weight", "5"], ["get"]
    cases = [(writes, [answer], fault, told[fault]) for answer, fault in (
        (b"\xa8" + good[1:], 10), (b"\xa7\x01" + good[2:], 11), (b"\xa7\x02" + good[2:], 11), (b"\xa7\x04" + good[2:], 11), (FRAME_FRONT + bytes(4), 12), (FRAME_FRONT + number(65531, 4), 12),
        (b"", 28), (good[:-1], 28),
    )]
    no_put = [hello("a"), digest(0), delta("a", 0, [("k", 1, weight(5))]), BYE, ask(), rows(), put("k", weight(5)), frame(0x7F, b"")]
    cases += [(writes, [it], 13, kind(13, it)) for it in no_put]
    cases += [(reads, [it], 13, kind(13, it)) for it in (good, BYE)]
    cases += [(writes, [it], 14, kind(14, it)) for it in (done(0), good[:5] + b"\x0a" + good[6:] + b"\0", refused(0), refused(32))]
    no_page = rows(more=1)
    cases += [(it, [no_page], 14, kind(14, no_page)) for it in (reads, ["watch"])]
    for case in cases:
        ends_with(check, *case)


def pages_that_turn_back(check):
    """A later page that does not lie behind the one before ends the command. Of an asking with a fault a watch prints nothing."""
    first = rows(("b", "k", 1, 1), ("b", "m", 2, 1), more=1)
    printed, told = "b k 1 weight 1\nb m 2 weight 1\n", texts()
    broken = told[14].replace("kind N", "kind 17")
    for later in (rows(("b", "m", 2, 1)), rows(("b", "l", 2, 1)), rows(("a", "z", 2, 1)), rows(more=1)):
        ends_with(check, ["get"], [first, later], 14, broken, printed)
        ends_with(check, ["watch"], [first, later], 14, broken)
    ends_with(check, ["get"], [first, refused(15)], 15, told[15], printed)
    ends_with(check, ["watch"], [first, refused(15)], 15, told[15])
    words = ["watch", "--every", "0"]
    ends_with(check, words, [rows(("b", "k", 1, 1)), first, refused(15)], 15, told[15], "set b k 1 weight 1\n")


def refusals(check):
    """A fault that a node answers is the fault of the command."""
    told = texts()
    want("how many faults there are", sorted(told), list(range(1, 32)))
    cases = [(["set", "k", "weight", "5"], [refused(it)], it, None if it in CARRIES_MORE else told[it]) for it in told]
    with ThreadPoolExecutor(4) as pool:
        list(pool.map(lambda case: ends_with(check, *case), cases))


def answers_in_pieces(check):
    """An answer is taken however it is cut: the longest of all byte by byte, and without --long one that is shorter."""
    count = 2621 if check.is_long else 40
    told = [("o", f"k{at:04}", 1, at) for at in range(count)]
    printed = "".join(f"{owner} {key} {version} weight {value}\n" for owner, key, version, value in told)
    want("an answer byte by byte", asked(check, [rows(*told)], "get", piece=1)[0], (0, printed, ""))


def silence(check):
    """A node that moves no byte is given up after a minute, which is waited for with --long alone."""
    path = check.folder() / "made.ctl"
    with socket.socket(socket.AF_UNIX, socket.SOCK_STREAM) as door:
        door.bind(str(path))
        door.listen(8)
        began = time.monotonic()
        how = {"stdin": subprocess.DEVNULL, "stdout": subprocess.PIPE, "stderr": subprocess.PIPE, "text": True}
        with subprocess.Popen([check.program, "get", "--control", str(path)], **how) as ran:
            try:
                _, said = ran.communicate(timeout=90 if check.is_long else 1)
                want("a silent node", (ran.returncode, said.splitlines()[:2]), (3, ["fault 16", "the node was silent for 60 s"]))
                if not 59 <= time.monotonic() - began <= 80:
                    raise Difference(f"a silent node was given up after {time.monotonic() - began:.1f} s")
            except subprocess.TimeoutExpired:
                ran.kill()
                if check.is_long:
                    raise


def broken_connections(check):
    """A node that ends a connection and has not read the request."""
    path = check.folder() / "made.ctl"
    with socket.socket(socket.AF_UNIX, socket.SOCK_STREAM) as door:
        door.bind(str(path))
        door.listen(8)
        for words in (["get", "--control"], ["owners", "--cluster", "c", "--sock"]):
            with subprocess.Popen([check.program, *words, str(path)], stdin=subprocess.DEVNULL, stderr=subprocess.PIPE, text=True) as ran:
                stream, _ = door.accept()
                # (a stream that is closed with bytes in it, as those of a request, is reset)
                stream.recv(1, socket.MSG_PEEK)
                stream.close()
                said = ran.communicate(timeout=SECONDS)[1]
                want(f"the end of {words}", (ran.returncode, said.splitlines()[:2]), (3, ["fault 16", "the node ended the connection"]))


def full_output(check):
    """Standard output that takes nothing is fault 17 of each command."""
    folder = check.folder()
    node = check.node("a", folder=folder).start()
    node.put("k", 1)
    there = ["--control", str(node.control)]
    ends = [ended_at_full(check, *it) for it in (
        (["set", *there, "k", "weight", "5"],), (["get", *there],), (["get", "--format", "json", *there],), (["watch", *there],), (["del", *there, "k"],),
        (["sim"], b"world 1024 breadth 9 a\nupto a a\n"), (["--help"],),
    )]
    node.kill()
    ends.append(ended_at_full(check, ["log", "--log", str(node.log), "--name", "a", "--cluster", "c"]))
    second = check.node("b", "--rounds", "1", "--pause", "0", folder=folder)
    ends.append(ended_at_full(check, second.words()[1:]))
    want("the ends at a full standard output", ends, [(3, ["fault 17"], 2)] * len(ends))


def ended_at_full(check, words, given=b""):
    """The status of a command at a full standard output, its fault, and how many lines follow; what a node says beside it is left out."""
    with open("/dev/full", "wb") as full:
        ran = subprocess.run([check.program, *words], input=given, stdout=full, stderr=subprocess.PIPE, timeout=SECONDS)
    lines = [it for it in ran.stderr.decode().splitlines() if not it.startswith("attrdir: ")]
    return ran.returncode, lines[:1], len(lines[1:])


def scripts(check):
    """The faults of a run of a script, which ends with status 3: input that cannot be read, and too many reads; and a word that is not UTF-8."""
    folder = os.open(check.room, os.O_RDONLY)
    ran = subprocess.run([check.program, "sim"], stdin=folder, capture_output=True, text=True, timeout=SECONDS)
    os.close(folder)
    want("input that cannot be read", (ran.returncode, ran.stdout, ran.stderr.splitlines()[:2]), (3, "", ["fault 16", texts()[16]]))
    ran = subprocess.run([check.program, "sim", b"\xff"], stdin=subprocess.DEVNULL, capture_output=True, timeout=SECONDS)
    want("a word that is not UTF-8", (ran.returncode, ran.stdout, len(ran.stderr.splitlines())), (2, b"", 1))
    status, fault, reads = reads_of_a_script(check)
    # (the last read may be one that is not made any more)
    want("a script in too many pieces", (status, fault, SCRIPT_READS - 1 <= reads <= SCRIPT_READS + 1), (3, "fault 29", True))


def reads_of_a_script(check):
    """Gives a script in pieces, each of them one read, until it ends: the status, the fault, and how many pieces were read."""
    # (a pipe of packets, each of which is one read)
    reads, writes = os.pipe2(os.O_DIRECT)
    fcntl.fcntl(writes, fcntl.F_SETPIPE_SZ, 1 << 20)
    how = {"stdin": reads, "stdout": subprocess.DEVNULL, "stderr": subprocess.PIPE, "text": True}
    with subprocess.Popen([check.program, "sim"], **how) as ran:
        count = packets_until_ended(ran, writes)
        left = int.from_bytes(fcntl.ioctl(reads, termios.FIONREAD, bytes(4)), "little")
        os.close(reads)
        os.close(writes)
        return ran.wait(SECONDS), ran.stderr.readline().strip(), count - left


def packets_until_ended(ran, writes):
    """Writes empty lines, one a packet, while the program runs, and a third more than it may read at most; how many were written."""
    os.set_blocking(writes, False)
    count = 0
    while ran.poll() is None and count < SCRIPT_READS * 4 // 3:
        try:
            for _ in range(200):
                count += os.write(writes, b"\n")
        except BlockingIOError:
            time.sleep(0.0005)
    return count


def examples_of(program, command):
    """The examples of a command's help: what is typed, and the lines that it prints."""
    printed = run(program, command, "--help")[1].split("\nExample")[1]
    found = []
    for line in printed.splitlines()[1:]:
        if line.startswith("  $ "):
            found.append((line[4:], []))
        elif line.startswith("  ") and found:
            found[-1][1].append(line[2:])
    return found


def helped(check, folder, command):
    """Each example of a help prints what stands there."""
    (folder / "attrdir").unlink(missing_ok=True)
    (folder / "attrdir").symlink_to(check.program)
    path = {"PATH": f"{folder}:{os.environ['PATH']}"}
    for typed, lines in examples_of(check.program, command):
        ran = subprocess.run(["bash", "-c", typed], cwd=folder, env=path, stdin=subprocess.DEVNULL, capture_output=True, text=True, timeout=SECONDS)
        want(f"the example {typed} of {command} --help ({ran.stderr!r})", (ran.returncode, ran.stdout.splitlines()), (0, lines))


def helps(check):
    """What a help shows is what comes of it: of sim, and in this order of set, del, get and owners at a node that has a peer, and of log."""
    folder = check.folder()
    helped(check, folder, "sim")
    other = check.node("b", folder=folder).start()
    want("set", other.command("set", "web/addr", "addr", "10.0.0.2:80"), (0, "version 1\n", ""))
    node = check.node("a", "--pause", "20", folder=folder, peers=[other.sock]).start()
    node.awaits("the peer's write", lambda found: found == ["b web/addr 1 addr 10.0.0.2:80"])
    for command in ("set", "del", "get", "owners"):
        helped(check, folder, command)
    folder = check.folder()
    node = check.node("a", folder=folder).start()
    for words in (["set", "x", "weight", "5"], ["del", "x"], ["set", "y", "flag", "true"]):
        want(f"{words}", node.command(*words)[0], 0)
    node.kill()
    helped(check, folder, "log")


PARTS = (
    requests, watched_requests, watched_times, wrong_answers, pages_that_turn_back, refusals, answers_in_pieces, silence, broken_connections, full_output, scripts, helps,
)
