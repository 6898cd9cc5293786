#!/usr/bin/env python3
"""Writes random scripts for `attrdir sim`: make_scripts.py SEED COUNT DIR.

The scripts are DIR/00001.sim and so on. The same seed gives the same scripts. Most are short lives of a few nodes that
write, crash, purge, restart and talk over connections that lose, repeat, reorder and cut; some have a line that is no command,
some a world line with a fault, and a few are long: 4,096 keys and one more, deltas about as long as a frame can carry, a
thousand nodes, digests that take several frames.
"""
import os
import random
import re
import sys

import sim_oracle

NAME_BYTES = "abcdefghijklmnopqrstuvwxyz0123456789-"
KEY_BYTES = NAME_BYTES + "._/"
ADDR_BYTES = "".join(map(chr, range(0x21, 0x7F)))
GREATEST = 2**64 - 1

GOOD_WORLDS = ["1024 breadth 100", "65536 depth 1099511627775", "01024 depth 7", "1100 breadth 18", "2048 depth 0000000000000000000000040"]
BAD_SETTINGS = ["1023 breadth 100", "65537 breadth 100", "0 depth 5", f"{GREATEST} depth 5", "1024 depth 0", "1024 breadth 1099511627776", f"1024 breadth {GREATEST}"]
BAD_NAMES = ["A", "a_b", "a.b", "a/b", "n" * 33, "é", "a\r", "a\x00", "a:", "\x7f", "a\t"]
BAD_KEYS = ["K", "k:", "k" * 65, "k,k", "ké", "k\r", "\x00", "k\\", "~"]
BAD_VALUES = [
    "addr " + "x" * 129, "addr \x7f", "addr x\r", "addr é", "addr a\x1fb", "addr a\tb",
    "weight 9223372036854775808", f"weight {GREATEST}", f"weight {GREATEST + 1}", "weight 00", "weight 01", "weight -1", "weight +1", "weight 1.0", "weight 0x1",
    "weight x", "weight " + "9" * 40, "weight 5\r", "weight ٣", "flag True", "flag 1", "flag no", "flag true\r", "weights 5", "Addr x", "Text x", "removed x", "removed removed",
    "text ", "text a\\41", "text \\5C", "text \\0A", "text \\7F", "text \\80", "text \\5", "text \\", "text a\\ b", "text a\x1fb", "text \x7f", "text a\tb", "text x\r", "text " + "x" * 513, "text " + "é" * 257,
]
GOOD_VALUES = ["addr " + "x" * 128, "addr !", "addr ~", "addr " + ADDR_BYTES, "weight 0", "weight 1", "weight 9223372036854775807", "weight 9223372036854775806", "flag true", "flag false", "text x", "text  x ", "text " + "x" * 512, "text " + "€" * 170 + "\\00\\5c", "text a\\5cb\\0a", "text kept", "text é removed"]
TEXT_PARTS = [" ", "  ", "a", "Zz", "0", "\\5c", "\\0a", "\\00", "\\7f", "\\1f", "é", "€", "𝄞", "~", '"', "text ", " kept"]
BAD_NUMBERS = ["-1", "+1", "x", "1x", "0x1", "1_0", "1.0", str(GREATEST + 1), "9" * 30, "٣", "1\r", "\x00"]


def text(rng, letters, most):
    """Makes a text of 1 to `most` letters, short ones and longest ones more often."""
    length = rng.choice([1, 1, 2, 3, rng.randint(1, most), most])
    return "".join(rng.choice(letters) for _ in range(length))


def spelled(rng):
    """Makes the spelling of a text, now and then of one of the longest."""
    most, made, length = rng.choice([1, 3, 10, 40, 511, 512]), "", 0
    while True:
        part = rng.choice(TEXT_PARTS)
        length += len(re.sub(r"\\..", "x", part).encode())
        if length > most:
            return made or "x"
        made += part


def value(rng):
    """Makes a value in its two words."""
    made = [f"weight {rng.randint(0, 9)}", f"weight {rng.getrandbits(63)}", f"addr {text(rng, ADDR_BYTES, 128)}", f"text {spelled(rng)}"]
    return rng.choice([*made, rng.choice(GOOD_VALUES)])


def number(rng, near):
    """Makes a number from 0 to a little above `near`, now and then a far one or one with leading zeros."""
    found = rng.choice([0, 0, rng.randint(0, near + 2), rng.randint(0, near + 2), near])
    return rng.choice([str(found)] * 8 + ["00" + str(found), "0" * 50 + str(found), str(GREATEST), str(2**40)])


class Life:
    """A script in the making: a world of a few nodes, and lines that mostly do something there."""

    def __init__(self, rng, settings=None, nodes=None):
        self.rng = rng
        self.nodes = nodes or self.some(rng.randint(1, 4), NAME_BYTES, 32)
        self.keys = self.some(rng.randint(1, 6), KEY_BYTES, 64)
        self.puts = self.sent = 0
        self.lines = [f"world {settings or rng.choice(GOOD_WORLDS)} {' '.join(self.nodes)}"]

    def some(self, count, letters, most):
        """Makes some texts that all differ."""
        return list(dict.fromkeys(text(self.rng, letters, most) for _ in range(count)))

    def node(self):
        """Picks a node, now and then a name that is none in this world."""
        return self.rng.choice(self.nodes * 8 + ["not-there"])

    def connection(self):
        """Picks the number of a connection, mostly a small one."""
        return self.rng.choice([1, 1, 1, 2, 2, 2, 3, 3, 4, 999_999, "007"])

    def frame(self):
        """Picks the number of a frame, mostly one that may have been sent of late."""
        rng = self.rng
        return rng.choice([rng.randint(1, self.sent + 1), max(1, self.sent - rng.randint(0, 3)), max(1, self.sent - rng.randint(0, 3)), rng.choice([0, 1, f"00{self.sent}", GREATEST])])

    def end(self):
        """Picks how a crash ends."""
        return self.rng.choice(["kept", "lost"])

    def held(self):
        """Picks a version that somebody may hold."""
        return number(self.rng, self.puts // len(self.nodes))

    def write_line(self):
        """Makes a line that writes, or tries to."""
        node, key, rng = self.node(), self.rng.choice(self.keys), self.rng
        self.puts += 1
        put, crash = f"put {node} {key} {value(rng)}", f"crash {node} {key} {value(rng)} {self.end()}"
        return rng.choice([put, put, put, f"del {node} {key}", f"commit {node} {key} {value(rng)}", f"commit {node} {key} removed", f"take {node}", f"take {node}", crash, f"purge {node} {self.held()}", f"trim {node} {self.held()}"])

    def connection_line(self):
        """Makes a line of a connection."""
        rng, number = self.rng, self.connection()
        self.sent += 1
        piece = f"piece {number} {rng.choice([0, 1, 5, 13, 40, rng.randint(1, 300), rng.randint(1, 300), 100_000, GREATEST])}"
        connect, ask = f"connect {self.node()} {number}", f"ask {number}"
        return rng.choice([connect, connect, ask, ask, f"line {number} {self.frame()}", f"line {number} {self.frame()}", f"line {number} {self.frame()}", piece, piece, piece, f"close {number}"])

    def line(self):
        """Makes a line that is a command without a fault of its words."""
        rng = self.rng
        if rng.random() < 0.3:
            return self.write_line()
        if rng.random() < 0.5:
            return self.connection_line()
        self.sent += 3
        give = f"give {self.node()} {self.node()} {self.held()}"
        offer = f"offer {self.node()} {self.node()} {self.held()}"
        read = f"read {self.node()} {self.node()} {rng.choice([*self.keys, 'other'])}"
        return rng.choice([give, give, offer, read, read, f"upto {self.node()} {self.node()}", f"show {self.frame()}", f"restart {self.node()}"])

    def faulty_line(self):
        """Makes a line with one to three faults among its words."""
        rng = self.rng
        name = lambda: rng.choice([self.node(), rng.choice(BAD_NAMES)])
        key = lambda: rng.choice([rng.choice(self.keys), rng.choice(BAD_KEYS)])
        words = rng.choice([value(rng), rng.choice(BAD_VALUES), rng.choice(BAD_VALUES)])
        write = rng.choice([f"put {name()} {key()} {words}", f"commit {name()} {key()} {words}", f"crash {name()} {key()} {words} {self.end()}"])
        others = [f"give {name()} {name()} {number(rng, self.puts)}", f"offer {name()} {name()} {number(rng, self.puts)}", f"read {name()} {name()} {key()}"]
        few = [f"del {name()} {key()}", f"commit {name()} {key()} removed", f"take {name()}", f"restart {name()}", f"purge {name()} {number(rng, self.puts)}", f"trim {name()} {number(rng, self.puts)}", f"connect {name()} {self.connection()}", f"upto {name()} {name()}"]
        return rng.choice([write, write, rng.choice(others), rng.choice(few)])

    def wrong_line(self):
        """Makes a line that is no command."""
        rng = self.rng
        line = rng.choice([self.line(), self.faulty_line()])
        words = line.split(" ")
        node, bad = self.node(), rng.choice(BAD_NUMBERS)
        far = rng.choice([bad, "0", "00", "1000000", "1000001", str(GREATEST)])
        ways = [
            " " + line, line + " ", line.replace(" ", "  ", 1), line.replace(" ", "\t", 1), line + " x", " ".join(words[:-1]),
            "\r", " ", "#", line.upper(), line.capitalize(), words[0], words[0] + "\r", "\x00" + line,
            f"give {node} {node} {bad}", f"offer {node} {node} {bad}", f"piece 1 {bad}", f"line 1 {bad}", f"show {bad}",
            f"connect {node} {far}", f"close {far}", f"ask {far}", f"line {far} 1", f"piece {far} 1",
            f"purge {node}", f"purge {node} {bad}", f"purge {node} 1 1", f"put {node} k removed", f"put {node} k addr a b", f"commit {node} k Removed", f"crash {node} k removed kept", f"crash {node} k weight 1", f"crash {node} k weight 1 Kept",
            f"put {node} k text", f"put {node} k  text x", f"put  {node} k text x", f"crash {node} k text kept", f"crash {node} k text  kept", f"crash {node} k text x y lost", f"crash {node} k text x ",
            self.lines[0], "world 1024 breadth 100 a b", "world",
        ]
        return rng.choice(ways)

    def live(self, count, faulty=0.0):
        """Adds some lines, and some empty ones between them."""
        for _ in range(count):
            if self.rng.random() < 0.03:
                self.lines.append("")
            self.lines.append(self.faulty_line() if self.rng.random() < faulty else self.line())
        return self


def quiet(rng):
    """A life without a fault of its words."""
    return Life(rng).live(rng.randint(1, 60)).lines


def faulty(rng):
    """A life with bad names, keys and values."""
    return Life(rng).live(rng.randint(1, 40), faulty=0.5).lines


def broken(rng):
    """A life that a line which is no command ends, with more lines behind it."""
    life = Life(rng).live(rng.randint(0, 12), faulty=0.2)
    life.lines.append(life.wrong_line())
    return life.live(rng.randint(0, 3)).lines


def talk(rng):
    """Nodes that write, and greet, ask and answer over connections, in order or not, in pieces or whole."""
    life = Life(rng, nodes=["a", "b", "c"][: rng.randint(2, 3)])
    ends = {number: node for number, node in enumerate([node for node in life.nodes for _ in life.nodes], 1)}
    lines, sent = life.lines, 0
    for number, node in ends.items():
        lines.append(f"connect {node} {number}")
        sent += 1
    for _ in range(rng.randint(4, 40)):
        number = rng.choice([*ends])
        way = rng.random()
        if way < 0.25:
            life.puts += 1
            lines.append(f"{rng.choice(['put', 'put', 'commit'])} {ends[number]} {rng.choice(life.keys)} {value(rng)}")
        elif way < 0.35:
            lines.append(f"ask {number}")
            sent += 1
        elif way < 0.4:
            lines.append(rng.choice([f"take {ends[number]}", f"restart {ends[number]}", f"close {number}", f"connect {ends[number]} {number}", f"upto {ends[number]} a"]))
        else:
            # each connection hears the Hello of another node first, and then what was sent of late
            other = rng.choice([it for it in ends if ends[it] != ends[number]])
            if rng.random() < 0.5:
                lines.append(f"line {number} {other}")
            lines += [f"line {number} {max(1, sent - rng.randint(0, 4))}" for _ in range(rng.randint(0, 3))]
            lines += [f"piece {number} {rng.choice([1, 13, 30, rng.randint(1, 200), 100_000, 100_000])}" for _ in range(rng.randint(1, 3))]
            sent += rng.choice([0, 1, 2, 2])
    return [*lines, *(f"show {at}" for at in rng.sample(range(1, sent + 2), min(4, sent))), *(f"read {node} {owner} {rng.choice(life.keys)}" for node in life.nodes for owner in life.nodes)]


def through(rng):
    """A node that learns of others' writes, and passes them on: digests and deltas of many owners."""
    count = rng.choice([3, 5, 12, 28])
    names = [f"{at:02}".rjust(rng.choice([2, 32]), "n") for at in range(count)]
    lines = [f"world {rng.choice([1024, 1100, 1240, 1500, 2100, 65536])} {rng.choice(['breadth', 'depth'])} 1000 {' '.join(names)}"]
    for name in names[1:]:
        lines += [f"put {name} k{rng.randint(0, 5)} {value(rng)}" for _ in range(rng.randint(0, 4))]
        lines += [f"give {name} {names[0]} 0"] * rng.randint(1, 3)
    other = names[1]
    sent = sum(line.startswith("give") for line in lines) * 3
    lines += [f"connect {names[0]} 1", f"connect {other} 2", f"line 1 {sent + 2}", f"line 2 {sent + 1}"]
    sent += 2
    for _ in range(rng.randint(1, 6)):
        lines += ["ask 2", f"line 1 {sent + 1}", "piece 1 100000", f"line 2 {sent + 2}", f"line 2 {sent + 3}", f"piece 2 {rng.choice([100, 100_000, 100_000])}"]
        sent += 4
        if rng.random() < 0.3:
            lines.append(f"put {rng.choice(names)} k{rng.randint(0, 5)} {value(rng)}")
    lines += [f"upto {other} {name}" for name in names] + [f"offer {other} {rng.choice(names)} {rng.randint(0, 2)}", f"show {rng.randint(1, sent + 1)}", f"show {sent}"]
    return lines


def spent(rng):
    """A life that uses up its versions and goes on."""
    return Life(rng, f"1024 breadth {rng.randint(1, 5)}").live(rng.randint(10, 60)).lines


def twins(rng):
    """Two nodes that give each other much, in large and small steps."""
    life = Life(rng, nodes=["a", "b"])
    for _ in range(rng.randint(1, 12)):
        for _ in range(rng.randint(0, 3)):
            life.puts += 1
            life.lines.append(f"put a {rng.choice(life.keys)} {value(rng)}")
        life.lines += [f"give {rng.choice(['a b', 'a b', 'b a', 'a a'])} {number(rng, life.puts)}", f"read b a {rng.choice(life.keys)}"]
    return life.lines


class Play:
    """A script in the making that the oracle runs along, so that it knows which frames there are."""

    def __init__(self, line):
        self.lines, self.world, self.numbers = [line], sim_oracle.make_world(line.encode().split(b" ")), 0

    def sent(self):
        """How many frames there are."""
        return len(self.world.sent)

    def do(self, line):
        """Adds a line."""
        self.lines.append(line)
        try:
            return sim_oracle.answer(self.world, sim_oracle.words_of(line.encode()))
        except sim_oracle.Fault:
            return []

    def connect(self, node, other):
        """Begins a session at a node, which hears the Hello of another one, and tells its number."""
        self.numbers += 1
        at = self.numbers
        self.do(f"connect {other} {10_000 + at}")
        hello = self.sent()
        self.do(f"connect {node} {at}")
        self.do(f"line {at} {hello}")
        self.do(f"piece {at} 100")
        return at

    def exchange(self, node, other, rounds):
        """A node asks another, is answered, and answers in turn, some times over."""
        here, there = self.connect(node, other), self.connect(other, node)
        for _ in range(rounds):
            self.do(f"ask {here}")
            before = self.sent()
            self.do(f"line {there} {before}")
            self.do(f"piece {there} 100000")
            for at in range(before + 1, self.sent() + 1):
                self.do(f"line {here} {at}")
            self.do(f"piece {here} 100000")
            if self.sent() > before + 2:
                self.do(f"line {there} {self.sent()}")
                self.do(f"piece {there} 100000")


def purged(rng):
    """An owner that writes, removes and purges, and others that hear of it in order or not, from it or from each other."""
    names = ["a", "b", "c"][: rng.choice([2, 3, 3])]
    play = Play(f"world {rng.choice([1024, 1024, 1200, 65536])} {rng.choice(['breadth', 'depth'])} 1000 {' '.join(names)}")
    keys = [f"k{at}" for at in range(rng.choice([2, 3, 6, 16, 40]))]
    long = rng.choice(["flag true", f"addr {'x' * 128}", f"text {'x' * 300}"])
    upto = lambda: play.world.nodes[b"a"].log.upto
    if rng.random() < 0.5:
        for key in keys:
            play.do(f"put a {key} {long}")
    for _ in range(rng.randint(5, 50)):
        way, (node, other) = rng.random(), rng.sample(names, 2)
        if way < 0.3:
            play.do(f"put a {rng.choice(keys)} {rng.choice([long, value(rng)])}")
        elif way < 0.5:
            play.do(f"del a {rng.choice(keys)}")
        elif way < 0.55:
            play.do(f"trim a {rng.choice([upto(), max(0, upto() - rng.randint(0, 5)), max(0, upto() - rng.randint(0, 20)), upto() + 1])}")
        elif way < 0.62:
            play.do(f"purge a {rng.choice([upto(), upto(), max(0, upto() - rng.randint(0, 5)), upto() + 1])}")
            if rng.random() < 0.9:
                play.do("restart a")
        elif way < 0.7:
            play.do(f"give a {rng.choice(names)} {rng.choice([0, 0, upto(), max(0, upto() - rng.randint(0, 5))])}")
        elif way < 0.85:
            play.exchange(node, other, rng.choice([1, 1, 2, 5]))
        elif way < 0.92 and play.sent() > 2:
            at = play.connect(node, other)
            for _ in range(rng.randint(1, 6)):
                play.do(f"line {at} {rng.randint(1, play.sent())}")
            play.do(f"piece {at} {rng.choice([100, 1000, 100_000])}")
        else:
            play.do(rng.choice([f"upto {node} a", f"read {node} a {rng.choice(keys)}", f"offer {node} a {rng.randint(0, upto() + 1)}", f"restart {node}", f"show {play.sent()}"]))
    for name in names:
        play.lines += [f"upto {name} a", *(f"read {name} a {key}" for key in keys)]
    return play.lines


def worlds(rng):
    """A world line with something wrong in it, and a line behind it."""
    names, good = [rng.choice([text(rng, NAME_BYTES, 32), rng.choice(BAD_NAMES), "a"]) for _ in range(rng.randint(1, 4))], rng.choice(GOOD_WORLDS)
    line = rng.choice([
        f"world {good} {' '.join(names)}", f"world {rng.choice(BAD_SETTINGS)} {' '.join(names)}", f"world {rng.choice(BAD_SETTINGS)} a", f"world {good} a b a",
        f"world {good}", f"world {good} ", f"world {good}  a", f"world {rng.choice(BAD_NUMBERS)} breadth 5 a", f"world 1024 depth {rng.choice(BAD_NUMBERS)} a",
        "world 1024 Breadth 5 a", "world 1024 random 5 a", "world 1024 5 a", f"World {good} a", f" world {good} a", "world", "put a k weight 1", "\r", " ", f"world {good} a\r",
    ])
    return [""] * rng.randint(0, 2) + [line, "put a k weight 1", "read a a k"]


def edges(rng):
    """Names, keys and values at their limits, those just inside and those just outside."""
    longest = "n" * 32
    life = Life(rng, nodes=["a", longest])
    keys = ["k" * 64, "-", ".", "_", "/", "k" * 65]
    for found in rng.sample(GOOD_VALUES + BAD_VALUES, 8):
        node, key = rng.choice(["a", longest, "n" * 33]), rng.choice(keys)
        life.lines += [f"put {node} {key} {found}", f"read {node} {node} {key}"]
    life.lines += [f"give {longest} a 0", f"give a {longest} 0", f"read a {longest} {rng.choice(keys)}", f"read {longest} a {rng.choice(keys)}"]
    return life.lines


def full(rng):
    """An owner with 4,096 keys, and a few writes and gives beyond."""
    shown = rng.choice(["flag true", "weight 7"])
    most = rng.choice([4_094, 4_096, 4_098, 1_099_511_627_775])
    lines = [f"world 1024 breadth {most} a b", *(f"put a {at:03x} {shown}" for at in range(4_094))]
    if rng.random() < 0.5:
        lines += ["give a b 0"]
    lines += ["put a x weight 1", "put a y flag true", "put a z weight 1", "put a x flag false", "put a z weight 1", "put a y weight 2", "put a new weight 1", "put b z weight 1"]
    return [*lines, f"give a b {rng.randint(4_000, 4_098)}", "give a b 0", "give a b 4094", "read b a x", "read b a z", "read a a y", "give a not-there 0", "give a a 0"]


def long(rng):
    """An owner whose delta is a byte or two shorter or longer than the longest that a frame carries."""
    name = text(rng, NAME_BYTES, 32)
    lines = [f"world 65536 {rng.choice(['depth', 'breadth'])} 1000 {name} not-{'b' * rng.randint(1, 20)}"]
    other = lines[0].split(" ")[-1]
    lines += [f"put {name} {at:064} addr {'x' * 128}" for at in range(321)]
    left = 65_530 - 3 - 27 - len(name) - 321 * 203
    # two more entries take what is left, or up to two bytes less or more
    last = left + rng.randint(-2, 2) - (10 + 20 + 129) - (10 + 64 + 1)
    lines += [f"put {name} {'y' * 20} addr {'y' * 128}", f"put {name} {'k' * 64} addr {'z' * last}"]
    gives = [f"give {name} {other} 0", f"give {name} {name} 0", f"give {name} not-there 0", f"give {name} {other} 1", f"give {name} {other} 0", f"read {other} {name} {'y' * 20}"]
    return lines + gives


def crowd(rng):
    """A world of about 1,024 nodes, now and then with two equal names."""
    names = [f"n{at}" for at in range(rng.choice([1_023, 1_024, 1_024, 1_025]))]
    if rng.random() < 0.4:
        names[-1] = rng.choice(["n0", "N"])
    settings = rng.choice(["1024 breadth 9", "1024 breadth 9", "1023 breadth 9"])
    return [f"world {settings} {' '.join(names)}", "put n1022 k weight 1", "give n1022 n5 0", "read n5 n1022 k", "read n1023 n1022 k"]


def empty(rng):
    """A script with no line, or only empty ones."""
    return [""] * rng.randint(0, 4)


KINDS = {quiet: 40, faulty: 22, broken: 26, twins: 14, talk: 40, through: 20, purged: 30, spent: 8, worlds: 16, edges: 12, full: 1, long: 2, crowd: 2, empty: 1}


def script(seed, at):
    """Makes the script of this number."""
    rng = random.Random(f"{seed}/{at}")
    kind = rng.choices([*KINDS], [*KINDS.values()])[0]
    made = "\n".join(kind(rng)) + rng.choice(["\n", "\n", "\n", "", "\n\n"])
    made = made.encode()
    # text outside ASCII, as one byte that is no UTF-8
    return made.replace("é".encode(), b"\xe9") if rng.random() < 0.5 else made


def scripts(seed, count):
    """Makes all scripts of a seed, each with its name."""
    for at in range(1, count + 1):
        yield f"{at:05}", script(seed, at)


def main(seed, count, folder):
    """Writes the scripts."""
    os.makedirs(folder, exist_ok=True)
    for name, made in scripts(seed, int(count)):
        with open(f"{folder}/{name}.sim", "wb") as file:
            file.write(made)


if __name__ == "__main__":
    if len(sys.argv) != 4:
        sys.exit(__doc__.split("\n", maxsplit=1)[0])
    main(*sys.argv[1:])
