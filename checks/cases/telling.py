"""A journal in the making. The model's host is told each line, so that a story knows what is
there, and most of its calls get through.
"""

from cases.writing import CHUNK_LIMIT, chunks_of, frame
from model.calls import NotBuilt
from model.host import Host
from model.journal import entry_of
from model.requests import START

NAMES = ["w", "r", "a1", "_", "0", "x" * 64, "worker", "router", "up", "n_9"]
SEEDS = 2**60


class Telling:
    def __init__(self, random):
        self.random = random
        seed = random.choice([0, 7, random.randrange(SEEDS), SEEDS - 1])
        self.lines = [f"journal 1 {seed}"]
        self.length = 0
        self.host = Host(seed)
        self.is_told = False
        self.names = random.sample(NAMES, random.randint(1, len(NAMES)))
        # What each worker says that hasn't come yet, and what it has answered.
        self.ways = {}
        self.answered = set()

    def one_of(self, weights):
        return self.random.choices(list(weights), list(weights.values()))[0]

    def chance(self, share):
        return self.random.random() < share

    def add(self, line):
        """The next line. Behind one that isn't built nothing more is told."""
        if self.is_told:
            return
        self.lines.append(line)
        self.length += len(line)
        try:
            self.host.enter(entry_of(line))
        except NotBuilt:
            self.is_told = True

    def call_line(self, words):
        self.add(f"call {self.lane()} {words}")

    def lane(self):
        return self.random.choice([1, 1, 2, 3, 64])

    # ---- names of what is there

    def new_name(self):
        if self.chance(0.04):
            return self.random.choice(self.names)
        return f"n{len(self.lines)}"

    def things(self, kinds, is_open=True):
        things = self.host.tree.by_name.values()
        return [thing for thing in things if thing.kind in kinds and thing.is_open == is_open]

    def thing(self, kinds):
        """Mostly an open object of these kinds, if there is one."""
        things = self.things(kinds, is_open=self.chance(0.96))
        return self.random.choice(things) if things and self.chance(0.97) else None

    def any_name(self):
        there = list(self.host.tree.by_name)
        return self.random.choice(there if there and self.chance(0.7) else self.names)

    def name_of(self, thing):
        return self.any_name() if thing is None else thing.name

    # ---- what comes from workers

    def slot(self):
        if self.host.slots and self.chance(0.95):
            return self.random.randint(1, len(self.host.slots))
        return self.random.choice([1, 2, 64])

    def unanswered(self):
        """The requests that wait, by slot and id, of which the worker has said nothing."""
        waiting = self.host.requests.waiting
        return [key for key in waiting if key[1] != START and key not in self.answered]

    def send_from(self, slot, payload):
        self.ways.setdefault(slot, bytearray()).extend(frame(payload))

    def hear(self):
        slot = self.random.choice(list(self.ways)) if self.ways else self.slot()
        way = self.ways.get(slot)
        if not way:
            return
        size = self.random.choice([1, 3, 4, 5, 40, 100, CHUNK_LIMIT, CHUNK_LIMIT])
        count = min(len(way), size)
        generation = 1 if self.chance(0.99) else 2
        digits = way[:count].hex()
        digits = digits.upper() if self.chance(0.2) else digits
        self.add(f"chunk {slot} {generation} {digits}")
        del way[:count]

    def hear_all(self, slot):
        for line in chunks_of(slot, bytes(self.ways.pop(slot, b""))):
            self.add(line)
