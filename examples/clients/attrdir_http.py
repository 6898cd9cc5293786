#!/usr/bin/env python3
"""A client of an attrdir node over HTTP: it reads, and at a socket it writes too. It needs Linux and Python 3.8 or later, and nothing else."""
import argparse
import http.client
import json
import re
import signal
import socket
import sys
import time
from urllib.parse import urlencode

PLACES = "give 127.0.0.1:PORT, [::1]:PORT, or the path of a socket"
RULES = {"weight": (int, "a weight is a whole number from 0 to 2^63 - 1, without a leading 0"), "flag": (bool, "a flag is true or false")}
ADVICE = "give what the --http of the node has, not its --sock or --control"


class Fault(Exception):
    """The node refused a request: the status, the text, and the number of the fault or None, as docs/FORMATS.md has them."""
    def __init__(self, status, text, number=None):
        super().__init__(f"status {status}: {text}" if number is None else f"fault {number}: {text}")
        self.status, self.text, self.number = status, text, number


class Kept:
    """The rows that a watch keeps, by the rules of `attrdir watch --retry` in docs/REFERENCE.md. Each version is the greatest of an owner."""

    def __init__(self):
        self.rows, self.shown, self.yielded, self.gone, self.gone_before = {}, {}, {}, {}, {}

    def restart(self):
        """The node was started again, and has shown nothing since."""
        self.shown, self.gone_before = {}, dict(self.gone)

    def differ(self, old, new):
        """Whether the watch yields that a row changed: from the one that it keeps to the one that the node shows, each a row or None."""
        owner, version = (new or old)["owner"], (new or old)["version"]
        shown = self.shown.get(owner, 0)
        is_held_back = shown < self.yielded.get(owner, 0) >= version  # the owner may have replaced or removed it since
        if not new:
            return version <= shown
        if not old:
            return version > self.gone_before.get(owner, 0) and not is_held_back
        return new != old if version == old["version"] else version > old["version"] and not is_held_back

    def take(self, found):
        """Takes all rows that the node shows, each under its owner and key. Returns the changes."""
        pairs = [(self.rows.get(place), found.get(place)) for place in sorted({*self.rows, *found})]
        changes = [("set", new) if new else ("gone", old) for old, new in pairs if self.differ(old, new)]
        for row in found.values():
            self.note(self.shown, row)
        for change, row in changes:
            if change == "set":
                self.rows[row["owner"], row["key"]] = row
                self.note(self.yielded, row)
            else:
                del self.rows[row["owner"], row["key"]]
                self.note(self.gone, row)
                for versions in self.shown, self.yielded:
                    self.note(versions, row, 1)  # a row goes by a later write of its owner
        return changes

    @staticmethod
    def note(versions, row, more=0):
        """Raises the version of an owner to that of a row, or so much more."""
        versions[row["owner"]] = max(row["version"] + more, versions.get(row["owner"], 0))


class Node:
    """A node at 127.0.0.1:PORT, at [::1]:PORT or at the path of a socket. Threads can share it. Each call can raise Fault and OSError."""

    def __init__(self, address, timeout=60.0):
        """Takes the address, and for how many seconds the node may be silent. ValueError of what is no address of a node."""
        self.address, self.timeout = address, timeout
        port = re.fullmatch(r"(?s)(?:127\.0\.0\.1|\[::1]):(.*)", address)
        self.is_port = port is not None
        if not address:
            raise ValueError(f"the address is empty: {PLACES}")
        if port and not (re.fullmatch("0*[1-9][0-9]{0,4}", port[1]) and int(port[1]) < 65536):
            raise ValueError(f"{address} is no address of a node: a port is 1 to 65535")
        is_url = "://" in address
        if is_url or not port and re.fullmatch(r"localhost|[0-9]+(\.[0-9]+){3}|[0-9]+|[^/]*:[^/]*", address):
            raise ValueError(f"{address} is no address of a node: {PLACES}" + ", without http://" * is_url)

    def set(self, key, kind, value):
        """Writes a str (addr, text), an int (weight) or a bool (flag). Returns the version of the write."""
        of, rule = RULES.get(kind, (type(value), ""))
        if type(value) is not of or kind == "weight" and not 0 <= value < 2**63:
            raise Fault(400, f"value {f'{kind} {value}'!r}: {rule}", 4)
        return self._ask("PUT", "/v1/keys", json.dumps({"kind": kind, "value": value}, ensure_ascii=False), key=key)["version"]

    def delete(self, key):
        """Removes a key of this node. Returns the version of the removal."""
        return self._ask("DELETE", "/v1/keys", key=key)["version"]

    def get(self, owner=None, prefix=""):
        """Returns a list of rows from all pages. A row is a dict, as `attrdir get --format json` prints it."""
        return list(self._rows({"owner": owner, "prefix": prefix})[0].values())

    def watch(self, owner=None, prefix="", tell=lambda fault: None):
        """Yields ("set", row) for each new or changed row, and ("gone", row) for each that is gone, without end. If the node does not answer, it calls
        tell with the fault, and with None once the node answers again."""
        kept, run, seen, wait, is_away = Kept(), None, None, "30s", False
        while True:
            try:
                rows, mark = self._rows({"owner": owner, "prefix": prefix}, wait=wait, seen=seen)
                found = self._run()
            except (Fault, OSError) as fault:
                if getattr(fault, "status", 503) != 503:
                    raise
                if not is_away:
                    tell(ConnectionError("the node ended before it answered; the watch goes on") if run and ADVICE in str(fault) else fault)
                is_away = True
                time.sleep(1)  # the node does not run, or others wait in all its places
                continue
            if is_away:
                tell(None)
            is_away = False
            if found == run:
                yield from kept.take(rows)
                seen, wait = mark, "30s" if rows == kept.rows else "10s"  # a later asking may show that a row is gone
            else:  # some of these rows may be of the run before
                kept.restart()
                run, seen = found, None

    def _rows(self, query, **poll):
        """The rows from all pages by their places, and if it is a poll the mark of these rows."""
        page = self._ask(**query, **poll)
        rows, seen = page["rows"], page.get("seen")
        while page["more"]:
            page = self._ask(**query, after=f"{rows[-1]['owner']}/{rows[-1]['key']}")
            rows += page["rows"]
        return {(row["owner"], row["key"]): row for row in rows}, seen

    def _run(self):
        """A word that is another in each run of the node: the mark of a row that nobody has."""
        return self._ask(owner="-", prefix="-" * 64, wait="0s")["seen"]

    def _ask(self, method="GET", path="/v1/rows", body=None, **query):
        """Sends a request, and returns the object that answers it. A parameter that is None is left out."""
        for name, word in {**query, "value": body}.items():
            if re.search("[\ud800-\udfff]", str(word)):  # a byte of a command line that is not UTF-8
                raise Fault(400, f"the {name} is not UTF-8", {"owner": 2, "value": 4}.get(name, 3))
        connection = http.client.HTTPConnection(self.address if self.is_port else "localhost", timeout=self.timeout + 30 * ("wait" in query))
        try:
            if not self.is_port:
                connection.sock = socket.socket(socket.AF_UNIX)
                connection.sock.settimeout(connection.timeout)
                connection.sock.connect(self.address)
            connection.request(method, path + "?" + urlencode({name: word for name, word in query.items() if word is not None}), body and body.encode())
            answer = connection.getresponse()
            body = answer.read()
        except (BrokenPipeError, ConnectionResetError) as error:
            raise ConnectionError(f"no whole answer came: the node ended, or does not speak HTTP there: {ADVICE}") from error
        except http.client.BadStatusLine as error:
            raise ConnectionError(f"what answers there does not speak HTTP: {ADVICE}") from error
        except http.client.HTTPException as error:
            raise ConnectionError(f"no whole answer came: {error!r}") from error
        finally:
            connection.close()
        if answer.status == 200 and not body:
            raise ConnectionError("no whole answer came: it has no body")
        try:
            content = dict(json.loads(body or b"{}"))
        except (TypeError, ValueError):
            content = {}
        if answer.status == 200 and {"rows", "version"} & {*content}:
            return content
        reason = "the answer is not that of a node" if answer.status == 200 else answer.reason
        raise Fault(answer.status, content.get("error", reason), content.get("fault"))


def show(item):
    """Prints an item as a line of JSON. If nobody reads the output any more, the program ends by SIGPIPE."""
    try:
        print(json.dumps(item, ensure_ascii=False, sort_keys=True, separators=(",", ":")).replace("\x7f", r"\u007f"), flush=True)
    except BrokenPipeError:
        signal.signal(signal.SIGPIPE, signal.SIG_DFL)
        signal.raise_signal(signal.SIGPIPE)


def parsed():
    """The parser, and the words of the command line by their names."""
    parser, filters = argparse.ArgumentParser(description=__doc__), ["--owner", "--prefix"]
    address = {"metavar": "ADDRESS", "help": "what the option --http of the node has"}
    parser.add_argument("--http", **address)
    commands = parser.add_subparsers(dest="command", required=True)
    for command, words in ("get", filters), ("watch", filters), ("set", ["key", "kind", "value"]), ("del", ["key"]):
        options = commands.add_parser(command, argument_default=argparse.SUPPRESS)
        options.add_argument("--http", **address)
        for word in words:
            options.add_argument(word)
    for word in sys.argv[1 : sys.argv.index("--") if "--" in sys.argv else None]:
        name = word.partition("=")[0]
        if re.fullmatch(r"-[^\d. ][^ ]*", word) and not any(it.startswith(name) for it in ("-h", "--help", "--http", *filters)):
            parser.error(f"unknown option {name}" + "; if a key or value begins with -, put -- before the key" * (name[1] != "-"))
    given = vars(parser.parse_args())
    if given["http"] is None:
        parser.error("give --http ADDRESS")
    return parser, given


def main():
    """Runs one command, and prints what it answers as lines of JSON."""
    parser, given = parsed()
    try:
        node, command = Node(given.pop("http")), given.pop("command")
    except ValueError as wrong:
        parser.error(str(wrong))
    if re.fullmatch("weight (0|[1-9][0-9]{0,18})|flag (true|false)", f"{given.get('kind')} {given.get('value')}"):
        given["value"] = json.loads(given["value"])
    try:
        if command == "watch":
            away, back = f"{parser.prog}: warning {node.address}: does not answer", f"{parser.prog}: info {node.address}: answers"
            text_of = lambda fault: f"{away}: {getattr(fault, 'strerror', None) or fault}" if fault else back
            given["tell"] = lambda fault: print(text_of(fault), file=sys.stderr, flush=True)
        answer = getattr(node, "delete" if command == "del" else command)(**given)
        for item in answer if command in ("get", "watch") else [answer]:
            show(item)
    except Fault as fault:
        parser.exit(3, f"{fault}\n")
    except OSError as error:
        parser.exit(3, f"{node.address}: {error.strerror or error}\n")
    except KeyboardInterrupt:
        parser.exit(130)


if __name__ == "__main__":
    main()
