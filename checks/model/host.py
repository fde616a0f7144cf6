"""The host of the whole tree: what it knows, and what follows from each entry. Not built are a call
that pipes a Producer to another Router, restarts, a start that failed, the end of a channel, a
stream that breaks, and the stop.
"""

from collections import Counter

from model import calls, lines, replies
from model.awaits import Awaits
from model.calls import NotBuilt
from model.journal import Await, Call, Spawned
from model.messages import message_of
from model.reading import Refused
from model.requests import PAYLOAD_LIMIT, Requests
from model.tree import Tree

FIRST_SSRC = 100_000_000


class Host:
    def __init__(self, seed):
        self.seed = seed
        self.notes = []
        self.tree = Tree()
        self.slots = []
        self.requests = Requests()
        self.awaits = Awaits()
        self.calls = Counter()
        self.next_serial = 1
        self.next_ssrc = FIRST_SSRC

    def enter(self, entry):
        if isinstance(entry, Call):
            self.call(entry)
        elif isinstance(entry, Await):
            self.awaits.add(self.next_key(entry.lane), entry)
            self.awaits.settle(self)
        elif isinstance(entry, Spawned):
            self.start(entry)
        else:
            self.hear(entry)

    def call(self, call):
        key = self.next_key(call.lane)
        try:
            calls.answer(self, key, call)
        except Refused as refused:
            self.settle(key, str(refused), calls.name_made_by(call))
        self.awaits.settle(self)

    def start(self, entry):
        slot = self.slot_at(entry, "wanted")
        if slot is None:
            return
        if not entry.is_up:
            raise NotBuilt
        slot.phase = "up"
        self.note(lines.up(slot.number))
        self.awaits.settle(self)

    def hear(self, entry):
        slot = self.slot_at(entry, "up")
        if slot is None:
            return
        slot.stream += entry.data
        for payload in take_payloads(slot.stream):
            replies.hear(self, slot, message_of(payload))
            self.awaits.settle(self)

    def slot_at(self, entry, phase):
        """The slot of a start or a chunk, if it is in this phase. Each worker is its first."""
        if entry.slot > len(self.slots) or entry.generation != 1:
            return None
        slot = self.slots[entry.slot - 1]
        return slot if slot.phase == phase else None

    def next_key(self, lane):
        self.calls[lane] += 1
        return lane, self.calls[lane]

    def draw(self, ssrcs=0):
        """A serial was drawn, and so many SSRCs."""
        self.next_serial += 1
        self.next_ssrc += ssrcs

    def is_taken(self, name):
        return self.tree.named(name) is not None or name in self.requests.names

    def producers(self):
        """Those that are open, and those that are to be made."""
        to_be_made = (thing for thing in self.requests.to_be_made() if thing.kind == "producer")
        return [*(thing for thing in self.tree.producers if thing.is_open), *to_be_made]

    def issue(self, request, data):
        self.note(self.requests.issue(request, data))

    def open(self, thing):
        self.tree.add(thing)
        self.note(lines.opened(thing.serial, thing.kind, thing.name, thing.id))

    def settle(self, key, outcome, failed_name=None):
        """A call or an await has come to its outcome. A call may have failed to make an object."""
        self.note(lines.settled(*key, outcome))
        if failed_name is not None:
            self.awaits.failed.add(failed_name)

    def note(self, line):
        self.notes.append(line)
        self.awaits.hear(line)


def take_payloads(stream):
    """Takes the whole frames from the front of a stream; a length over the limit is not built."""
    payloads = []
    place = 0
    while len(stream) - place >= 4:
        length = int.from_bytes(stream[place : place + 4], "little")
        if length > PAYLOAD_LIMIT:
            raise NotBuilt
        if len(stream) - place - 4 < length:
            break
        payloads.append(bytes(stream[place + 4 : place + 4 + length]))
        place += 4 + length
    del stream[:place]
    return payloads
