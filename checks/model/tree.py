"""The objects of a host, open and closed, and the slots of its workers."""

from dataclasses import dataclass, field


@dataclass(eq=False)
class Slot:
    """The place of a worker process, with its channel: how far the process is, what of a frame has
    come, and which id was used last.
    """

    number: int
    phase: str = "wanted"
    stream: bytearray = field(default_factory=bytearray)
    last_id: int = 0


@dataclass(eq=False)
class Object:
    """An object. What is kept of it is what its kind needs: of a Router its capabilities, of a
    Producer its media and what is offered of it, of a PipeTransport whether it retransmits.
    """

    serial: int
    name: str
    id: str
    kind: str
    slot: Slot
    parent: "Object | None" = None
    producer: "Object | None" = None
    kept: object = None
    is_paused: bool = False
    is_producer_paused: bool = False
    is_running: bool = False
    is_open: bool = True
    children: list = field(default_factory=list)

    @property
    def is_quiet(self):
        return self.is_paused or self.is_producer_paused

    @property
    def router(self):
        """That of a Producer or a Consumer."""
        return self.parent.parent

    def with_those_below(self):
        """It, and all open objects below it."""
        yield self
        for child in self.children:
            if child.is_open:
                yield from child.with_those_below()


class Tree:
    def __init__(self):
        self.by_name = {}
        self.by_id = {}
        self.producers = []

    def add(self, thing):
        self.by_name[thing.name] = thing
        if thing.parent is not None:
            thing.parent.children.append(thing)
        if thing.kind == "producer":
            self.producers.append(thing)
        else:
            self.by_id[thing.slot, thing.kind, thing.id] = thing

    def named(self, name):
        return self.by_name.get(name)

    def open_one(self, slot, kind, id_):
        """The open object of this worker, kind and id. It isn't asked for Producers."""
        thing = self.by_id.get((slot, kind, id_))
        return thing if thing is not None and thing.is_open else None


def ids_of(thing):
    """The ids that a request names: those of an object and of those above it."""
    above = {} if thing.parent is None else ids_of(thing.parent)
    if thing.kind == "worker":
        return above
    if thing.kind == "consumer":
        above |= {"producerId": thing.producer.id}
    role = thing.kind if thing.kind in ("router", "producer", "consumer") else "transport"
    return above | {f"{role}Id": thing.id}
