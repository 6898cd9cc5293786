#!/usr/bin/env python3
"""A client of an attrdir node, over the control socket of the node. It needs Linux and Python 3.8 or later, and nothing else."""
import argparse
import io
import json
import os
import re
import signal
import socket
import sys
import time
from contextlib import suppress

ASK, PUT, REFUSED, ASK_STATUS = 0x10, 0x12, 0x14, 0x15  # a request is answered by the kind after its own, or by REFUSED
SIGNS = "give at most 64 lower-case letters, digits and the signs . _ / -"
RULES = {  # of each word: the fault of another one, its type, the bytes of the number or of the text's length, the limit, and what to say of it
    ("--owner", ""): (2, str, 1, b"[a-z0-9-]{1,32}", "give 1 to 32 lower-case letters, digits and -"),
    ("--prefix", ""): (3, str, 1, b"[a-z0-9._/-]{0,64}", SIGNS),
    ("key", ""): (3, str, 1, b"[a-z0-9._/-]{1,64}", SIGNS),
    ("value", "addr"): (4, str, 1, b"[!-~]{1,128}", "an addr has 1 to 128 printing bytes, and no space"),
    ("value", "weight"): (4, int, 8, 2**63, "a weight is a whole number from 0 to 2^63 - 1, in digits alone and without a leading 0"),
    ("value", "flag"): (4, bool, 1, 2, "a flag is true or false"),
    ("value", "text"): (4, str, 2, b"(?s).{1,512}", "a text has 1 to 512 bytes of UTF-8"),
}
NO_KIND, KINDS = (4, None, 0, 0, "the kind is addr, weight, flag or text"), (None, "addr", "weight", "flag", "text")
FIGURES = dict(enumerate("""uptime caught_up log_fault conflict version keys removals owners peers rounds round_faults sessions
    workers workers_busy all_workers_busy session_faults last_session_fault other_versions turned_away full_writes""".split(), 1))
CAUSES = dict(enumerate([None, *"no_space cannot_open locked io damaged no_memory other removed replaced".split()]))
STATES = "not_dialed answers unreachable silent unreadable hung_up broken_off ended_early".split()
STATES += [f"fault_{number - 32}" if 32 < number < 64 else f"state_{number}" for number in range(8, 256)]
TEXTS = {
    1: "there was no memory; free some, or ask for less", 2: "a name is 1 to 32 of the bytes a-z, 0-9 and -",
    3: "a key is 1 to 64 of the bytes a-z, 0-9, '.', '_', '/' and -; a prefix may be empty",
    4: "a value is addr with 1 to 128 printing bytes, weight below 2^63, flag true or false, or text of 1 to 512 UTF-8 bytes",
    6: "the owner has 4,096 keys, removed ones counted; write under a key that it has",
    8: "the owner has used every version that the settings allow", 9: "there is nothing to remove under this key",
    10: "a frame begins with another byte than a7; the peer speaks another protocol",
    11: "the frame is of another version of the format; run the same release at both ends", 12: "a frame's length is outside 1 to 65,530",
    13: "a message of this kind has no place here", 14: "a message breaks the format", 15: "this is closed; open it again",
    16: "reading failed", 17: "writing failed", 18: "the log could not be read or written; open it again",
    21: "another node writes under this node's name; give each node a name of its own",
    28: "the stream ends inside a frame", 29: "the reads, calls or events that were allowed are spent",
}
ADVICE = {
    **dict.fromkeys((10, 13), "what answers is not a control socket: give the --control of the node, not its --sock or --http"),
    15: "the log of this node takes no writes: its standard error says why",
    16: "start the node, or correct the path: it is the --control of a node that runs",
    18: "the node could not write its log, and takes no more writes; this write may have been made",
    28: "see whether the node runs; if this was a write, it may have been made, or may still be: look with get once the node answers",
    ConnectionRefusedError: "the node has ended, or this file is not a socket: start the node, or correct the path",
    PermissionError: "you need write permission on the socket, and x on each folder above it: run as the user of the node",
}


class Fault(Exception):
    """A request failed. It has the number of the fault, its text, and what to do or None; docs/REFERENCE.md explains each number."""

    def __init__(self, number, text=None, advice=None):
        self.number, self.advice = number, advice or ADVICE.get(number)
        self.text = text or TEXTS.get(number, "docs/REFERENCE.md explains this number")
        super().__init__(f"fault {number}: {self.text}")


def take(stream, size, of=int, fault=14):
    """The next part of a message: a number of so many bytes, or a text after its length of so many."""
    content = stream.read(size)
    if len(content) < size:
        raise Fault(fault)
    number = int.from_bytes(content, "big")
    return stream.read(number).decode() if of is str else of(number)


def part(what, word, kind=""):
    """A number in a message, or a text after its length. If a word breaks its rule, the fault says what it has to be."""
    fault, of, size, limit, rule = RULES.get((what, kind), NO_KIND)
    with suppress(UnicodeEncodeError):  # a word of a command line that is not UTF-8
        if type(word) is of is str and re.fullmatch(limit, word.encode()):
            return len(word.encode()).to_bytes(size, "big") + word.encode()
    if type(word) is of is not str and 0 <= word < limit:
        return word.to_bytes(size, "big")
    raise Fault(fault, advice=f"{what} {f'{kind} {word}' if kind else word!r}: {rule}")


class Kept:
    """The rows that a watch keeps, by the rules of `attrdir watch --retry` in docs/REFERENCE.md. Each version is the greatest of an owner."""

    def __init__(self):
        self.rows, self.shown, self.yielded, self.gone, self.gone_before = {}, {}, {}, {}, {}

    def restart(self):
        """The node was started again, and has shown nothing since."""
        self.shown, self.gone_before = {}, dict(self.gone)

    def differ(self, old, new):
        """Whether the watch yields that a row changed: from the one that it keeps to the one that the node shows, each a row or None."""
        owner, version = (new or old)["owner"], (new or old)["version"]
        shown = self.shown.get(owner, 0)
        is_held_back = shown < self.yielded.get(owner, 0) >= version  # the owner may have replaced or removed it since
        if not new:
            return version <= shown
        if not old:
            return version > self.gone_before.get(owner, 0) and not is_held_back
        return new != old if version == old["version"] else version > old["version"] and not is_held_back

    def take(self, found):
        """Takes all rows that the node shows, each under its owner and key. Returns the changes."""
        pairs = [(self.rows.get(place), found.get(place)) for place in sorted({*self.rows, *found})]
        changes = [("set", new) if new else ("gone", old) for old, new in pairs if self.differ(old, new)]
        for row in found.values():
            self.note(self.shown, row)
        for change, row in changes:
            if change == "set":
                self.rows[row["owner"], row["key"]] = row
                self.note(self.yielded, row)
            else:
                del self.rows[row["owner"], row["key"]]
                self.note(self.gone, row)
                for versions in self.shown, self.yielded:
                    self.note(versions, row, 1)  # a row goes by a later write of its owner
        return changes

    @staticmethod
    def note(versions, row, more=0):
        """Raises the version of an owner to that of a row, or so much more."""
        versions[row["owner"]] = max(row["version"] + more, versions.get(row["owner"], 0))


class Node:
    """A node that runs. Each request has a connection of its own, so threads can share a Node. Each call can raise Fault."""

    def __init__(self, path, timeout=60.0):
        """Takes the path of the control socket, and for how many seconds the node may be silent."""
        self.path, self.timeout = os.fspath(path), timeout

    def set(self, key, kind, value):
        """Writes a str (addr, text), an int (weight) or a bool (flag). Returns the version of the write."""
        front, slot = part("key", key), part("value", value, kind)
        return take(self._ask(PUT, front + bytes([KINDS.index(kind)]) + slot), 8)

    def delete(self, key):
        """Removes a key of this node. Returns the version of the removal."""
        return take(self._ask(PUT, part("key", key) + b"\0"), 8)

    def get(self, owner=None, prefix="", key=None):
        """Returns a list of rows, by owner, and by prefix or key. A row is a dict, as `attrdir get --format json` prints it."""
        query = b"\0" if owner is None else part("--owner", owner)
        query += part("--prefix", prefix) if key is None else part("key", key)
        rows, after = [], b"\0\0"
        while after:
            body = self._ask(ASK, query + after)
            more = take(body, 1)
            for _ in range(max(more, take(body, 2))):  # only the last page may have no row
                row = {"owner": take(body, 1, str), "key": take(body, 1, str), "version": take(body, 8)}
                row["kind"] = KINDS[take(body, 1)]
                _, of, size, *_ = RULES["value", row["kind"]]
                rows.append({**row, "value": take(body, size, of)})
            after = more and part("--owner", row["owner"]) + part("key", row["key"])
        return [row for row in rows if key in (None, row["key"])]

    def watch(self, owner=None, prefix="", key=None, pause=0.2, tell=lambda fault: None):
        """Yields ("set", row) for each new or changed row, and ("gone", row) for each that is gone, without end. If the node does not answer, it calls
        tell with the fault, and with None once the node answers again."""
        kept, start, is_away = Kept(), None, False
        while True:
            changes, met = [], None
            try:
                before = self._start()
                rows = {(row["owner"], row["key"]): row for row in self.get(owner, prefix, key)}
                if before == self._start():  # else some of these rows are of another start
                    if before != start:
                        kept.restart()
                    start, changes = before, kept.take(rows)
            except (Fault, OSError) as fault:
                if getattr(fault, "number", 16) not in (1, 15, 16, 28):
                    raise
                met = Fault(28, "the node ended before it answered; the watch goes on") if start and getattr(fault, "number", 16) == 28 else fault
            if is_away != (met is not None):
                tell(met)
            is_away = met is not None
            yield from changes
            time.sleep(pause)

    def status(self):
        """Returns how the node is: the dict that `attrdir status --format json` prints."""
        peers, more = [], True
        while more:
            body = self._ask(ASK_STATUS, len(peers).to_bytes(8, "big"))
            more, status = take(body, 1), {word: take(body, 1, str) for word in ("node", "cluster", "release")}
            status.update((FIGURES.get(at := take(body, 1), f"figure_{at}"), take(body, 8)) for _ in range(take(body, 2)))
            peers += [{"path": take(body, 1, str), "state": STATES[take(body, 1)], "round": take(body, 8)} for _ in range(take(body, 2))]
        cause = CAUSES.get(status["log_fault"], f"cause_{status['log_fault']}")
        status.update(peers=peers, log_fault=cause, caught_up=status["caught_up"] == 1, conflict=status["conflict"] or None)
        return {**status, "ready": status["caught_up"] and not cause and not status["conflict"]}

    def _start(self):
        """Which socket is at the path: each start of the node makes another one."""
        found = os.stat(self.path)
        return found.st_dev, found.st_ino, found.st_mtime_ns

    def _ask(self, kind, body):
        """Sends a message, and returns the body of its answer."""
        problem, advice = "no node could be reached", None
        with socket.socket(socket.AF_UNIX) as stream, stream.makefile("rb") as reader:
            try:
                stream.connect(self.path)  # waits if the socket has no room for another caller
                problem, advice = "the node did not answer", ADVICE[28]
                stream.settimeout(self.timeout)
                stream.sendall(b"\xa7\3" + (1 + len(body)).to_bytes(4, "big") + bytes([kind]) + body)
                mark, version, length = (take(reader, size, fault=28) for size in (1, 1, 4))
                answer = reader.read(length if (mark, version) == (0xA7, 3) and length <= 65530 else 0)
            except OSError as error:
                raise Fault(16, f"{problem}: {error.strerror or error}", advice or ADVICE.get(type(error))) from error
        if not answer or len(answer) < length:
            raise Fault(10 if mark != 0xA7 else 11 if version != 3 else 28 if 0 < length <= 65530 else 12)
        if answer[0] != kind + 1:
            raise Fault(answer[1] if answer[0] == REFUSED else 13)
        return io.BytesIO(answer[1:])


def show(item):
    """Prints an item as a line of JSON. If nobody reads the output any more, the program ends by SIGPIPE."""
    try:
        print(json.dumps(item, ensure_ascii=False, sort_keys=True, separators=(",", ":")).replace("\x7f", r"\u007f"), flush=True)
    except BrokenPipeError:
        signal.signal(signal.SIGPIPE, signal.SIG_DFL)
        signal.raise_signal(signal.SIGPIPE)


def parsed():
    """The parser, and the words of the command line by their names."""
    parser, filters = argparse.ArgumentParser(description=__doc__), ["--owner", "--prefix", "--key"]
    control = {"metavar": "PATH", "help": "the control socket of the node, or ATTRDIR_CONTROL in the environment"}
    parser.add_argument("--control", default=os.environ.get("ATTRDIR_CONTROL"), **control)
    commands = parser.add_subparsers(dest="command", required=True)
    for command, words in ("get", filters), ("watch", filters), ("set", ["key", "kind", "value"]), ("del", ["key"]), ("status", []):
        options = commands.add_parser(command, argument_default=argparse.SUPPRESS)
        options.add_argument("--control", **control)
        for word in words:
            options.add_argument(word)
    for word in sys.argv[1 : sys.argv.index("--") if "--" in sys.argv else None]:
        name = word.partition("=")[0]
        if re.fullmatch(r"-[^\d. ][^ ]*", word) and not any(it.startswith(name) for it in ("-h", "--help", "--control", *filters)):
            parser.error(f"unknown option {name}" + "; if a key or value begins with -, put -- before the key" * (name[1] != "-"))
    given = vars(parser.parse_args())
    if not given["control"]:
        parser.error("give --control PATH, or set ATTRDIR_CONTROL")
    if {"key", "prefix"} <= {*given}:
        parser.error("--key cannot be used with --prefix")
    return parser, given


def main():
    """Runs one command, and prints what it answers as lines of JSON."""
    parser, given = parsed()
    node, command = Node(given.pop("control")), given.pop("command")
    if re.fullmatch("weight (0|[1-9][0-9]{0,18})|flag (true|false)", f"{given.get('kind')} {given.get('value')}"):
        given["value"] = json.loads(given["value"])
    try:
        if command == "watch":
            away, back = f"{parser.prog}: warning {node.path}: does not answer", f"{parser.prog}: info {node.path}: answers"
            text_of = lambda fault: f"{away}: {getattr(fault, 'strerror', None) or fault}" if fault else back
            given["tell"] = lambda fault: print(text_of(fault), file=sys.stderr, flush=True)
        answer = getattr(node, "delete" if command == "del" else command)(**given)
        for item in answer if command in ("get", "watch") else [answer]:
            show(item)
    except Fault as fault:
        place = "" if fault.number in (2, 3, 4) else f"control socket {node.path}: "
        parser.exit(3, f"fault {fault.number}\n{fault.text}\n" + f"{place}{fault.advice}\n" * bool(fault.advice))
    except KeyboardInterrupt:
        parser.exit(130)


if __name__ == "__main__":
    main()
