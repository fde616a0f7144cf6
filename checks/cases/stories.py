"""Whole journals at random: calls of several lanes, and workers that answer in pieces."""

from cases import options
from cases.json_values import written
from cases.messages import payload_of
from cases.replies import notice_of, packet_of, reply_to
from cases.telling import Telling
from cases.writing import RUNNING, chunk
from model.calls import STREAMS, TRANSPORTS
from model.journal import EVENTS

LENGTHS = (500, 3_000, 10_000, 20_000)
EVENTS_OF = {
    "worker": ("running",),
    "plain": ("tuple",),
    "producer": ("paused", "resumed"),
    "consumer": ("paused", "resumed", "rtp"),
}


class Story(Telling):
    def tell(self):
        steps = {
            self.call: 10,
            self.answer: 10,
            self.say_odd: 0.4,
            self.notice: 2,
            self.packet: 1,
            self.hear: 3,
            self.wait: 1.5,
            self.start: 0.3,
            self.odd_entry: 0.03,
        }
        length = self.random.choice(LENGTHS)
        if self.chance(0.95):
            self.set_up()
        while self.length < length and not self.is_told:
            self.one_of(steps)()
        for slot in list(self.ways):
            self.hear_all(slot)
        return self.lines

    # ---- calls

    def set_up(self):
        self.add_worker()
        for slot in list(self.ways):
            self.hear_all(slot)
        for _ in range(self.random.choice([1, 1, 2])):
            self.add_router()
        if self.chance(0.9):
            self.answer_all()
            for _ in range(self.random.choice([1, 2, 3])):
                self.add_transport()
        if self.chance(0.9):
            self.answer_all()

    def call(self):
        calls = {
            self.add_worker: 0.3,
            self.add_router: 1 if self.things(("worker",)) else 0.1,
            self.add_transport: 1.5 if self.things(("router",)) else 0.1,
            self.connect: 1 if self.things(("plain", "pipe")) else 0.1,
            self.produce: 4 if self.things(TRANSPORTS) else 0.1,
            self.consume: 7 if self.things(("producer",)) else 0.1,
            self.turn: 4 if self.things(STREAMS) else 0.1,
            self.close: 0.8,
            self.ask_whether: 1 if self.things(("producer",)) else 0.1,
            self.send: 1.5 if self.direct_producers() else 0.1,
        }
        self.one_of(calls)()

    def add_worker(self):
        slots = len(self.host.slots)
        self.call_line(f"worker {self.new_name()} 0")
        if len(self.host.slots) > slots and self.chance(0.95):
            self.add(f"spawned {slots + 1} 1 up")
            self.send_from(slots + 1, RUNNING)
            if self.chance(0.8):
                self.hear_all(slots + 1)

    def add_router(self):
        given = written(self.random, options.router(self.random))
        self.call_line(f"router {self.new_name()} {self.name_of(self.thing(('worker',)))} {given}")

    def add_transport(self):
        kind = self.random.choice(TRANSPORTS)
        words = f"{kind} {self.new_name()} {self.name_of(self.thing(('router',)))}"
        readers = {"plain": options.plain, "pipe": options.pipe}
        given = "" if kind == "direct" else " " + written(self.random, readers[kind](self.random))
        self.call_line(words + given)

    def connect(self):
        given = written(self.random, options.connect(self.random))
        kinds = ("plain", "pipe") if self.chance(0.95) else TRANSPORTS
        self.call_line(f"connect {self.name_of(self.thing(kinds))} {given}")

    def produce(self):
        transport = self.thing(TRANSPORTS)
        ids = ["ABCDEF00-0000-4007-8000-00000000000a", *self.ids(STREAMS), "x"]
        caps = transport.parent.kept if transport else None
        given = written(self.random, options.produce(self.random, caps, ids[:4]))
        self.call_line(f"produce {self.new_name()} {self.name_of(transport)} {given}")

    def ids(self, kinds):
        return [thing.id for thing in self.things(kinds)]

    def consume(self):
        producer, transport = self.thing(("producer",)), self.thing(TRANSPORTS)
        if producer and self.chance(0.95):
            transport = self.random.choice(producer.router.children)
        is_piped = transport is not None and transport.kind == "pipe"
        offered = producer.kept.params if producer else None
        given = written(self.random, options.consume(self.random, offered, is_piped))
        names = f"{self.new_name()} {self.name_of(transport)} {self.name_of(producer)}"
        self.call_line(f"consume {names} {given}")

    def turn(self):
        word = self.random.choice(["pause", "resume"])
        self.call_line(f"{word} {self.name_of(self.thing(STREAMS))}")

    def close(self):
        kinds = self.one_of({("worker", "router"): 1, TRANSPORTS: 3, STREAMS: 8})
        self.call_line(f"close {self.name_of(self.thing(kinds))}")

    def ask_whether(self):
        producer = self.thing(("producer",))
        offered = producer.kept.params if producer else None
        given = written(self.random, options.can_consume(self.random, offered))
        self.call_line(f"canconsume {self.name_of(producer)} {given}")

    def direct_producers(self):
        return [one for one in self.things(("producer",)) if one.parent.kind == "direct"]

    def send(self):
        producers = self.direct_producers()
        producer = self.thing(("producer",))
        if producers and self.chance(0.9):
            producer = self.random.choice(producers)
        packet = self.random.randbytes(self.random.choice([1, 12, 40]))
        self.call_line(f"send {self.name_of(producer)} {packet.hex()}")

    def wait(self):
        kinds = self.random.choice([("worker", "router"), TRANSPORTS, STREAMS])
        to_be_made = [thing.name for thing in self.host.requests.to_be_made()]
        name = self.name_of(self.thing(kinds))
        if to_be_made and self.chance(0.3):
            name = self.random.choice(to_be_made)
        elif self.chance(0.1):
            name = f"n{len(self.lines) + self.random.randint(1, 5)}"
        kind = getattr(self.host.tree.named(name), "kind", None)
        event = self.random.choice((*EVENTS_OF.get(kind, EVENTS), "open", "closed"))
        count = self.random.choice([1, 1, 1, 2, 3])
        self.add(f"await {self.lane()} {name} {event} {count}")

    # ---- what workers do

    def start(self):
        generation = self.one_of({1: 8, 2: 1, 1001: 1})
        event = self.one_of({"up": 60, "failed": 1})
        self.add(f"spawned {self.slot()} {generation} {event}")

    def answer(self):
        """Mostly the first request that waits, and once in a while again."""
        keys = self.unanswered()
        if not keys or self.chance(0.02):
            return self.hear()
        key = keys[0] if self.chance(0.7) else self.random.choice(keys)
        self.reply(key)
        if self.chance(0.03):
            self.answered.remove(key)
        if self.chance(0.7):
            self.hear_all(key[0].number)

    def reply(self, key):
        self.answered.add(key)
        request = self.host.requests.waiting[key]
        self.send_from(key[0].number, reply_to(self.random, request, key[1]))

    def answer_all(self):
        for key in self.unanswered():
            self.reply(key)
        for slot in list(self.ways):
            self.hear_all(slot)

    def say_odd(self):
        slot = self.slot()
        asked = self.host.slots[slot - 1].last_id if slot <= len(self.host.slots) else 1
        self.send_from(slot, payload_of(self.random, asked))

    def notice(self):
        things = self.things(("plain", "consumer"), is_open=self.chance(0.95))
        thing = self.random.choice(things) if things else None
        slot = thing.slot.number if thing and self.chance(0.97) else self.slot()
        self.send_from(slot, notice_of(self.random, thing))
        if self.chance(0.5):
            self.hear_all(slot)

    def packet(self):
        things = [one for one in self.things(("consumer",)) if one.parent.kind == "direct"]
        thing = self.random.choice(things) if things and self.chance(0.9) else self.thing(STREAMS)
        slot = thing.slot.number if thing and self.chance(0.97) else self.slot()
        self.send_from(slot, packet_of(self.random, thing))

    def odd_entry(self):
        others = (
            *(f"call 1 worker {self.new_name()} 1", f"spawned {self.slot()} 1 failed"),
            *(chunk(self.slot(), b"\x01\x00\x40\x00"), f"call 1 worker {self.new_name()} 1000"),
        )
        self.add(self.random.choice(others))
