#!/usr/bin/env python3
"""Scripts that fit the grammar, for measurements and for looking at replies.

    python3 bench/replay/scripts.py mix CLIENTS DATABASES EVENTS [SEED]    lines of every kind, without the text of a page
    python3 bench/replay/scripts.py commits BYTES                          commits of one whole page each, about so many bytes
    python3 bench/replay/scripts.py reads EVENTS                           reads of cached and of fetched pages
    python3 bench/replay/scripts.py publications DATABASES VERSIONS        new databases, copies and removals

Each is printed, and is the same for the same arguments."""
import random, sys

WORLD = "world %d 4096 512 100 %d\n"


def reads(events):
    """A container, 200 databases of eight pages, 60 transactions, and then reads until there are so many events."""
    lines = ["1 create", "1 step 1"]
    for k in range(200):
        lines.append("1 new db%d %s" % (k, " ".join("%02x%02x" % (k, page) for page in range(8))))
        lines += ["1 step 1"] * 3
    lines += ["1 begin db%d" % (3 * k) for k in range(60)]
    k = 0
    while len(lines) + 2 <= events:
        lines += ["1 read %d %d" % (1 + k % 60, 1 + k % 8), "1 step 1"]
        k += 1
    return WORLD % (1, 2) + "\n".join(lines) + "\n", len(lines)


def publications(databases, versions):
    """A container, a database of eight pages, copies of it, and then rounds until there are so many versions.

    A round drops a database, makes an empty one of its name, drops that one, and copies a neighbour to the name. The
    copies share their blocks, so that no block dies: what dies stays listed in each later manifest until it is cleaned up."""
    lines = ["1 create", "1 step 1", "1 new db0 01 02 03 04 05 06 07 08"] + ["1 step 1"] * 3
    made = 2
    for k in range(1, databases):
        lines += ["1 copy db0 db%d" % k, "1 step 1", "1 step 1"]
        made += 1
    k = 0
    while made + 4 <= versions:
        old, other = k % databases, (k + 1) % databases
        for line in ("drop db%d" % old, "new db%d" % old, "drop db%d" % old, "copy db%d db%d" % (other, old)):
            lines += ["1 " + line, "1 step 1", "1 step 1"]
        made += 4
        k += 1
    return WORLD % (1, 2) + "\n".join(lines) + "\n", len(lines)


def commits(size):
    """A container with a database of 1,000 pages, and commits of one whole page each until there are about so many bytes."""
    draw = random.Random(1)
    lines = ["1 create", "1 step 1", "1 new a" + " -" * 1000] + ["1 step 1"] * (125 + 2)
    long = sum(len(line) + 1 for line in lines)
    while long < size:
        line = "1 commit a 1000 %d=%s" % (draw.randint(1, 1000), draw.randbytes(512).hex())
        lines.append(line)
        long += len(line) + 1
    return WORLD % (1, 2) + "\n".join(lines) + "\n", len(lines)


class Mix:
    """Lines of every kind: half of them steps, the others drawn alike, and now and then a crash, a fuse or a failure of a disk.
    A client that crashed comes up with its next line."""

    def __init__(self, clients, databases, seed):
        self.draw = random.Random(seed)
        self.clients, self.databases = clients, databases
        self.down = set()

    def name(self):
        return "db%d" % self.draw.randrange(self.databases)

    def page(self):
        return "%d %d" % (self.draw.randint(1, 4), self.draw.randint(1, 8))

    def step(self):
        return "step %d%s" % (self.draw.randint(1, 3), self.draw.choice([""] * 30 + [" fail", " lost"]))

    def asked(self):
        draw = self.draw
        return draw.choice((
            lambda: "poll",
            lambda: "new " + self.name() + " -" * draw.randint(1, 8),
            lambda: "begin " + self.name(),
            lambda: "read " + self.page(),
            lambda: "hold " + self.page(),
            lambda: "look " + self.page(),
            lambda: "free " + self.page(),
            lambda: "end %d" % draw.randint(1, 4),
            lambda: self.commit(draw.randint(1, 8)),
            lambda: "revert " + self.name(),
            lambda: "list",
            lambda: "upload " + self.name(),
            lambda: "copy %s %s" % (self.name(), self.name()),
            lambda: "drop " + self.name(),
            lambda: "cleanup",
            lambda: "resolve",
        ))()

    def commit(self, size):
        return "commit %s %d %d=-" % (self.name(), size, self.draw.randint(1, size))

    def trouble(self, client):
        self.down.add(client)
        return self.draw.choice(("crash %d" % self.draw.randrange(5), "fuse %d %d" % (self.draw.randrange(12), self.draw.randrange(5)),
                                 "fail %d" % self.draw.randrange(12)))

    def line(self):
        client = self.draw.randint(1, self.clients)
        kind = self.draw.randrange(1024)
        if client in self.down and kind < 512:
            self.down.discard(client)
            return "%d up" % client
        if kind == 0:
            return "%d %s" % (client, self.trouble(client))
        if kind < 16:
            return "tick %d" % self.draw.randrange(40)
        return "%d %s" % (client, self.step() if kind < 560 else self.asked())


def mix(clients, databases, events, seed=1):
    """A container, and then lines of every kind by all clients over so many names of databases."""
    made = Mix(clients, databases, seed)
    lines = ["1 create", "1 step 1"]
    while len(lines) < events:
        lines.append(made.line())
    return WORLD % (clients, 8) + "\n".join(lines) + "\n", len(lines)


MADE = {"mix": mix, "commits": commits, "reads": reads, "publications": publications}

if __name__ == "__main__":
    if len(sys.argv) < 2 or sys.argv[1] not in MADE:
        sys.exit(__doc__)
    sys.stdout.write(MADE[sys.argv[1]](*map(int, sys.argv[2:]))[0])
