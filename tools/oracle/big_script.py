#!/usr/bin/env python3
"""Prints a long script for `attrdir sim`, to measure it by: big_script.py [EVENTS [NODES]].

NODES nodes, 100 where no number is given, stand in a ring. In its turn each writes one of 40 keys, offers the next node what it
has not offered yet, which comes in two pieces, and the next node reads the key and tells how far it holds its neighbour: eight events.
In every tenth turn the next node asks and is answered, with a digest and two deltas: six more. The script ends after EVENTS
events, 1,000,000 where no number is given, the first ones of connecting and greeting among them.
"""
import sys

KEYS = 40


class Ring:
    """Nodes in a ring, each with a connection from the node before it and one from the node behind it."""

    def __init__(self, count):
        self.count, self.sent, self.events = count, 0, 0

    def name(self, at):
        """The name of a node."""
        return f"node-{at % self.count:03}"

    def before(self, at):
        """The connection of a node on which it hears the node before it."""
        return 2 * (at % self.count) + 1

    def behind(self, at):
        """The connection of a node on which it hears the node behind it."""
        return 2 * (at % self.count) + 2

    def event(self, line, frames=0):
        """One event, and how many frames it sends."""
        self.events += 2 if line.startswith("put") else 1
        self.sent += frames
        return line

    def greetings(self):
        """Each node connects twice, and hears both Hellos."""
        for at in range(self.count):
            for number in (self.before(at), self.behind(at)):
                yield self.event(f"connect {self.name(at)} {number}", 1)
        for at in range(self.count):
            for number, other in ((self.before(at), self.behind(at - 1)), (self.behind(at), self.before(at + 1))):
                yield self.event(f"line {number} {other}")
                yield self.event(f"piece {number} 1000")

    def turn(self, at, version):
        """A node writes, and the next one hears of it."""
        node, other, key = self.name(at), self.name(at + 1), f"k{version % KEYS:02}"
        yield self.event(f"put {node} {key} weight {version}")
        yield self.event(f"offer {node} {node} {version - 1}", 1)
        yield self.event(f"line {self.before(at + 1)} {self.sent}")
        yield self.event(f"piece {self.before(at + 1)} 30")
        yield self.event(f"piece {self.before(at + 1)} 1000")
        yield self.event(f"read {other} {node} {key}")
        yield self.event(f"upto {other} {node}")

    def exchange(self, at):
        """The next node asks, is answered, and answers in turn."""
        yield self.event(f"ask {self.before(at + 1)}", 1)
        yield self.event(f"line {self.behind(at)} {self.sent}")
        yield self.event(f"piece {self.behind(at)} 10000", 2)
        yield self.event(f"line {self.before(at + 1)} {self.sent - 1}")
        yield self.event(f"line {self.before(at + 1)} {self.sent}")
        yield self.event(f"piece {self.before(at + 1)} 10000", 1)


def lines(events, count):
    """Makes the lines of the script."""
    ring = Ring(count)
    yield f"world 1024 breadth {2**40 - 1} {' '.join(ring.name(at) for at in range(count))}"
    yield from ring.greetings()
    turn = 0
    while ring.events < events:
        at, version = turn % count, turn // count + 1
        yield from ring.turn(at, version)
        if turn % 10 == 0:
            yield from ring.exchange(at)
        turn += 1


def main():
    """Prints the script."""
    events, nodes = (int(word) for word in [*sys.argv[1:], *["1000000", "100"][len(sys.argv) - 1 :]])
    for line in lines(events, nodes):
        print(line)


if __name__ == "__main__":
    main()
