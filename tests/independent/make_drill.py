#!/usr/bin/env python3
"""Writes a long drill for a set to standard output: the same moves for the same set, number of moves and seed.

Run: python3 tests/independent/make_drill.py plan.set MOVES SEED [odd] > moves
The network is taken round and round through Standby, Normal, the sleep sequence and Sleep, with damage and loss on the way; with odd,
every eighth line or so is damaged or is no move at all."""
import random
import sys

MASTER = 255
ODD_LINES = ["", " ", "tick ", " tick", "tick\r", "TICK", "wake", "wake 16", "wake 00", "permit 0 2", "permit m", "req 128 ok", "req 01 ok",
             "req 1  ok", "req 1 ok ", "req 1 OK", "send m 1 ok", "send 0 1", "sent", "sent no", "sleep m", "sleep\tm", "\0", "tick\0",
             "\u00e9", "req 18446744073709551617 ok", "req -1 ok", "wake +1", "tick\x0btick", "permit 0 1 1", "x" * 5000]


def read_plan(path):
    """Gives N, the times W, D, S, E, R, P, C and the rows (ReqId, publisher) of a right set."""
    with open(path, "rb") as file:
        data = file.read()
    times = [int.from_bytes(data[at:at + 2], "big") for at in range(6, 20, 2)]
    rows = []
    for block in range(512, len(data), 512):
        for row in range(data[block + 4]):
            at = block + 8 + 4 * row
            rows.append((data[at], data[at + 1]))
    return data[4], times, rows


class Drill:
    def __init__(self, plan, moves, seed, odd, out):
        self.nodes, self.times, self.rows = plan
        self.own = [[reqid for reqid, publisher in self.rows if publisher == node] for node in range(self.nodes)]
        self.left, self.odd, self.out = moves, odd, out
        self.random = random.Random(seed)

    def move(self, line):
        if self.left == 0:
            return
        if self.odd and self.random.random() < 0.125:
            line = self.spoil(line)
        self.out.write(line.encode("utf-8") + b"\n")
        self.left -= 1

    def spoil(self, line):
        if self.random.random() < 0.5:
            return self.random.choice(ODD_LINES)
        place = self.random.randrange(len(line))
        letter = chr(self.random.choice([9, 11, 13, *range(32, 127)]))
        return line[:place] + letter + line[place + self.random.randrange(2):]

    def machine(self):
        return self.random.choice(["m", *range(self.nodes)])

    def passage(self, good=0.9):
        if self.random.random() < good:
            return "ok"
        return self.random.choice(["bad", "lost"])

    def ticks(self, most):
        for _ in range(self.random.randint(1, most)):
            self.move("tick")
            if self.random.random() < 0.02:
                self.traffic()

    def traffic(self):
        """One message, an odd one now and then."""
        kind = self.random.random()
        reqid = self.random.choice(self.rows)[0] if kind < 0.95 else self.random.randrange(128)
        if self.random.random() < 0.7:
            self.move(f"req {reqid} {self.passage()}")
        else:
            node = self.random.randrange(self.nodes)
            reqid = self.random.choice(self.own[node]) if kind < 0.9 else reqid
            self.move(f"send {node} {reqid} {self.passage()}")

    def permit_all(self, good):
        for who in ["m", *range(self.nodes)]:
            self.move(f"permit {who} {int(self.random.random() < good)}")

    def wake(self):
        for _ in range(self.random.choice([1, 1, 1, 2])):
            self.move(f"wake {self.machine()}")
        self.ticks(self.times[6] + 2)

    def work(self):
        for _ in range(self.random.randint(0, 60)):
            chance = self.random.random()
            if chance < 0.3:
                self.move("tick")
            elif chance < 0.9:
                self.traffic()
            elif chance < 0.95:
                self.move(f"permit {self.machine()} {self.random.randrange(2)}")
            else:
                self.move(self.random.choice(["sleep", "sent ok", "sent fail", f"wake {self.machine()}"]))

    def ask_all(self):
        """Permission of all; two rounds, as the first answer after an ask to wake carries the wake bit."""
        self.permit_all(0.99)
        for _ in range(2):
            for node in self.random.sample(range(self.nodes), self.nodes):
                self.move(f"req {self.random.choice(self.own[node])} {self.passage(0.995)}")

    def fall_asleep(self):
        """The sleep sequence, whole more often than not."""
        self.ask_all()
        self.move("sleep")
        if self.random.random() < 0.2:
            self.disturb()
        self.move("sent fail" if self.random.random() < 0.1 else "sent ok")
        for _ in range(self.times[1] + self.random.randint(0, self.times[2])):
            self.move("tick")
            if self.random.random() < 0.03:
                self.disturb()

    def miss_message(self):
        """A first sleep message called back puts the nodes to sleep just when the second is sent, so that they never get it, and those
        no longer permitted show an error once the clock is off."""
        self.ask_all()
        for line in ["sleep", "sent ok", "permit m 0", "permit m 1", *["tick"] * self.times[2], "sleep", "sent ok", "tick", "tick"]:
            self.move(line)
        self.permit_all(0.5)
        self.ticks(self.times[1] + 2 * self.times[3])

    def disturb(self):
        node = self.random.randrange(self.nodes)
        self.move(self.random.choice([f"wake {node}", "wake m", "permit m 0", f"permit {node} 0", f"req {self.random.choice(self.own[node])} bad"]))

    def rest(self):
        """Ticks up to every limit, so that errors show and nodes give up."""
        self.ticks(2 * max(self.times[3], 2 * self.times[4], self.times[4] + self.times[5]))
        if self.random.random() < 0.3:
            self.permit_all(0.5)

    def run(self):
        while self.left > 0:
            self.wake()
            self.work()
            self.random.choices([self.fall_asleep, self.miss_message, self.work], [7, 1, 2])[0]()
            if self.random.random() < 0.6:
                self.rest()


def main():
    if len(sys.argv) not in (4, 5) or sys.argv[4:] not in ([], ["odd"]):
        sys.exit(__doc__)
    Drill(read_plan(sys.argv[1]), int(sys.argv[2]), int(sys.argv[3]), len(sys.argv) == 5, sys.stdout.buffer).run()


if __name__ == "__main__":
    main()
