"""What the tools that run real nodes share: frames of both sockets, made and read by hand as docs/FORMATS.md has them, and nodes of the program
as processes, each with its log and its sockets in a folder."""
import fcntl
import os
import socket
import subprocess
import tempfile
import termios
import time
from pathlib import Path

ROOT = Path(__file__).resolve().parent.parent.parent
SECONDS = 30
# how often it is looked whether something is in time, until it is
TRIES = 5
DONE, ROWS, REFUSED = 0x13, 0x11, 0x14


class Difference(Exception):
    """What was found that is not as it should be."""


def want(what, found, wanted):
    if found != wanted:
        raise Difference(f"{what}: {repr(found)[:300]} in place of {repr(wanted)[:300]}")


def in_time(what, seconds, call):
    """What a call gives, which is to take so many seconds at most. A busy machine may stop anybody for a moment, so it is made again if it took longer:
    what is always late is late each time."""
    times = []
    for _ in range(TRIES):
        began = time.monotonic()
        found = call()
        times.append(time.monotonic() - began)
        if times[-1] <= seconds:
            return found
    raise Difference(f"{what} took {', '.join(f'{it:.2f}' for it in times)} s, each time more than {seconds}")


def until(what, test):
    """Looks again and again until something is so."""
    end = time.monotonic() + SECONDS
    while not test():
        if time.monotonic() > end:
            raise Difference(f"{what} did not come about in {SECONDS} s")
        time.sleep(0.002)


# ---- frames


# what each frame begins with: the mark, and the version of the format
FRAME_FRONT = b"\xa7\x03"


def text(word):
    return bytes([len(word)]) + word.encode()


def number(value, size=8):
    return value.to_bytes(size, "big")


def frame(kind, body):
    return FRAME_FRONT + number(1 + len(body), 4) + bytes([kind]) + body


def weight(value):
    return b"\x02" + number(value)


def long_text(value):
    """The slot of a text."""
    found = value.encode()
    return b"\x04" + number(len(found), 2) + found


def spelled(value):
    """A text as it stands in a line: control bytes and backslashes as a backslash and two digits."""
    return "".join(f"\\{ord(it):02x}" if ord(it) < 32 or it in "\x7f\\" else it for it in value)


def hello(name, cluster="c"):
    return frame(1, text(cluster) + text(name))


def pair(name, upto, floor=0, progress=0):
    """How far an owner is held, and its stage, where there is one."""
    return text(name) + number(upto) + number(floor) + number(progress)


def digest(want_one, pairs=()):
    told = b"".join(pair(name, upto) for name, upto in pairs)
    return frame(2, bytes([want_one]) + text("") + text("") + number(len(pairs), 2) + told)


def block(owner, after, entries, floor=0, upto=None):
    """A block that reaches as far as its last entry, where nothing else is said."""
    told = b"".join(text(key) + number(version) + slot for key, version, slot in entries)
    reaches = max([after, *(it[1] for it in entries)]) if upto is None else upto
    return text(owner) + number(floor) + number(after) + number(reaches) + number(len(entries), 2) + told


def delta(owner, after, entries, floor=0, upto=None):
    return frame(3, number(1, 2) + block(owner, after, entries, floor, upto))


BYE = frame(4, b"\x01")


def put(key, slot):
    return frame(0x12, text(key) + slot)


def ask(owner="", prefix="", after_owner="", after_key=""):
    return frame(0x10, text(owner) + text(prefix) + text(after_owner) + text(after_key))


def page(rows, more=0):
    """The kind and the body of Rows: owner, key, version and value of each."""
    told = b"".join(text(owner) + text(key) + number(version) + slot for owner, key, version, slot in rows)
    return ROWS, bytes([more]) + number(len(rows), 2) + told


class Reader:
    """The body of a message, read from its front."""

    def __init__(self, body):
        self.rest = body

    def take(self, count):
        taken, self.rest = self.rest[:count], self.rest[count:]
        return taken

    def number(self, size):
        return int.from_bytes(self.take(size), "big")

    def text(self):
        return self.take(self.number(1)).decode()


def bytes_by(chance, count):
    return chance.getrandbits(8 * count).to_bytes(count, "little")


def connect(path):
    stream = socket.socket(socket.AF_UNIX, socket.SOCK_STREAM)
    stream.settimeout(SECONDS)
    stream.connect(str(path))
    return stream


def read_exactly(stream, count):
    got = b""
    while len(got) < count:
        piece = stream.recv(count - len(got))
        if not piece:
            return None
        got += piece
    return got


def read_frame(stream):
    """The kind and the body of the next message; nothing at an end."""
    head = read_exactly(stream, 6)
    payload = head and read_exactly(stream, int.from_bytes(head[2:], "big"))
    return (payload[0], payload[1:]) if payload else None


def exchange(path, request):
    with connect(path) as stream:
        stream.sendall(request)
        return read_frame(stream)


def throw(path, content):
    """Sends these bytes to a socket, and takes what comes until the end. The other side may end it first. Whether there was one."""
    is_there = False
    try:
        with connect(path) as stream:
            is_there = True
            stream.sendall(content)
            stream.shutdown(socket.SHUT_WR)
            while stream.recv(65536):
                pass
    except socket.timeout:
        raise Difference(f"{path.name} let {content[:300].hex()} wait for {SECONDS} s") from None
    except OSError:
        pass
    return is_there


def send_in_pieces(stream, content, size):
    """Sends bytes in pieces of this size, each once the one before was read; all at once where one piece is all."""
    for at in range(0, len(content), size):
        stream.sendall(content[at : at + size])
        end = time.monotonic() + SECONDS
        while size < len(content) and fcntl.ioctl(stream, termios.TIOCOUTQ, bytes(4)) != bytes(4):
            if time.monotonic() > end:
                raise Difference(f"a piece was not read for {SECONDS} s")
            time.sleep(0)


def version_of(answer):
    """The version of a Done."""
    if answer is None or answer[0] != DONE:
        raise Difference(f"a write was answered by {answer!r}")
    return int.from_bytes(answer[1], "big")


# ---- nodes


def run(program, *words, seconds=SECONDS):
    """The status of a command, what it printed and what it said."""
    ran = subprocess.run([program, *words], stdin=subprocess.DEVNULL, capture_output=True, text=True, timeout=seconds)
    return ran.returncode, ran.stdout, ran.stderr


def pieces(program, *words):
    """What a command prints, as a list of what each of its writes has."""
    ours, given = socket.socketpair(socket.AF_UNIX, socket.SOCK_SEQPACKET)
    ours.settimeout(SECONDS)
    with ours, subprocess.Popen([program, *words], stdin=subprocess.DEVNULL, stdout=given):
        given.close()
        return [it.decode() for it in iter(lambda: ours.recv(1 << 20), b"")]


class Node:
    """A node of the cluster c in a folder, which can be started again and again."""

    def __init__(self, program, folder, name, *options, peers=()):
        self.program, self.name, self.options, self.peers = program, name, options, peers
        self.log, self.sock, self.control = (Path(folder) / f"{name}.{end}" for end in ("log", "sock", "ctl"))
        self.log.touch()
        # what Popen is given beside the words
        self.how = {"stdin": subprocess.DEVNULL, "stdout": subprocess.PIPE, "text": True}
        self.ran = self.said = None

    def words(self):
        places = ["--log", self.log, "--sock", self.sock, "--control", self.control]
        return [self.program, "serve", "--name", self.name, "--cluster", "c", *map(str, places), *self.options, *map(str, self.peers)]

    def start(self, with_left=False):
        """Starts it, without the sockets of an earlier run where it is not told to leave them, and waits until it listens."""
        for path in () if with_left else (self.sock, self.control):
            path.unlink(missing_ok=True)
        # (a file, since a pipe that nobody empties would stop it)
        self.said = tempfile.TemporaryFile()
        self.ran = subprocess.Popen(self.words(), stderr=self.said, **self.how)
        while "listens" not in "".join(self.lines()):
            if self.ran.poll() is not None:
                break
            time.sleep(0.002)
        if "listens" not in "".join(self.lines()):
            self.kill()
            raise Difference(f"node {self.name} did not start: {self.lines()}")
        return self

    def lines(self):
        """The whole lines that it has said on standard error since it started."""
        file = self.said.fileno()
        said = os.pread(file, os.fstat(file).st_size, 0).decode(errors="replace")
        return said[: said.rfind("\n") + 1].splitlines()

    def kill(self):
        self.ran.kill()
        self.ran.communicate()

    def resident(self, name="VmRSS"):
        """Bytes of memory of its process."""
        with open(f"/proc/{self.ran.pid}/status") as lines:
            return next(int(it.split()[1]) * 1024 for it in lines if it.startswith(f"{name}:"))

    def ended(self):
        """Its exit status, what it printed, and the lines that it said."""
        printed, _ = self.ran.communicate(timeout=SECONDS)
        return self.ran.returncode, printed, self.lines()

    def put(self, key, value):
        """Writes a weight: its version. If it is refused, the difference has the last lines of the node."""
        try:
            return version_of(exchange(self.control, put(key, weight(value))))
        except Difference as difference:
            raise Difference(f"{difference}, after the lines {self.lines()[-2:]}") from None

    def last(self):
        """The last version of its log, while it does not run; 0 where that can't be read."""
        printed = run(self.program, "log", "--log", str(self.log), "--name", self.name, "--cluster", "c")[1]
        return int(printed.split()[-1]) if printed else 0

    def lose(self):
        """Removes both files of its log, while it does not run."""
        for end in ("", "-wal"):
            self.log.with_name(self.log.name + end).unlink(missing_ok=True)

    def purge(self, floor="--all"):
        """Purges its log, while it does not run: the version that was printed."""
        found = run(self.program, "purge", "--log", str(self.log), "--name", self.name, "--cluster", "c", str(floor))
        want(f"purge {floor} of {self.name}", (found[0], found[1].split()[:1], found[2]), (0, ["purged"], ""))
        return int(found[1].split()[1])

    def begin(self, sock):
        """Has a log begin in the place of its own, which is lost, while it does not run, behind what the node at a socket heard of it: the version.
        Where that node can't be asked it keeps the log that it had."""
        places = [(self.log.with_name(self.log.name + end), self.log.with_name("lost-" + self.log.name + end)) for end in ("", "-wal")]
        for path, kept in places:
            if path.exists():
                path.replace(kept)
        status, printed, said = run(self.program, "begin", "--log", str(self.log), "--name", self.name, "--cluster", "c", "--from", str(sock))
        for path, kept in places:
            if status != 0:
                path.unlink(missing_ok=True)
            if kept.exists():
                kept.replace(path) if status != 0 else kept.unlink()
        want(f"begin of {self.name}", (status, printed.split()[:1], said), (0, ["begun"], ""))
        return int(printed.split()[1])

    def command(self, name, *words):
        """The status, what was printed and what was said by one of the program's commands to this node."""
        return run(self.program, name, "--control", str(self.control), *words)

    def get(self, *words):
        status, printed, said = self.command("get", *words)
        want(f"get {words} at {self.name}", (status, said), (0, ""))
        # (a text may have what Python takes for the end of a line, as U+2028)
        return printed.split("\n")[:-1]

    def awaits(self, what, test):
        """Asks until the rows are as they should be."""
        end = time.monotonic() + SECONDS
        while not test(rows := self.get()):
            if time.monotonic() > end:
                raise Difference(f"{what} did not come about at {self.name}: {rows}")
            time.sleep(0.02)


class Nodes:
    """The nodes that a tool has made of a program, each in a folder within one room."""

    def __init__(self, program, room):
        self.program, self.room, self.nodes = program, Path(room), []

    def folder(self):
        return Path(tempfile.mkdtemp(dir=self.room))

    def node(self, name, *options, folder=None, peers=()):
        node = Node(self.program, folder or self.folder(), name, *options, peers=peers)
        self.nodes.append(node)
        return node

    def stop(self):
        """Kills those that run, and knows none of them any more."""
        for node in self.nodes:
            if node.ran and node.ran.poll() is None:
                node.kill()
        self.nodes = []
