"""What a call comes to: its first refusal, or what it does. The refusals are tried in this order:
names that are taken, names that have no object, objects of another kind, objects in another state,
and then what the call was given.
"""

from dataclasses import dataclass
from typing import Callable

from model import lines, options, ortc
from model.falls import fall
from model.params import encoding_value, params_value
from model.reading import Refused, type_error, unsupported
from model.requests import Request
from model.tree import Object, Slot

SLOTS = 64
PACKET_LIMIT = 65_535
TRANSPORTS = ("plain", "pipe", "direct")
STREAMS = ("producer", "consumer")
ANY = ("worker", "router", *TRANSPORTS, *STREAMS)


class NotBuilt(Exception):
    """An entry that is not built yet."""


@dataclass
class Row:
    """A call by the table of calls."""

    does: Callable
    # The kinds of each object that it needs.
    needs: tuple = ()
    # Its first word names an object that it is to make.
    makes: bool = False
    # Such objects are of a wrong kind besides, or in no state for it.
    is_elsewhere: Callable = lambda *needed: False
    is_unready: Callable = lambda *needed: False
    # And so are closed ones.
    bars_closed: bool = True


@dataclass
class Offer:
    """What is kept of a Producer."""

    media: str
    params: object


def answer(host, key, call):
    """Does what a call asks for, or refuses it and changes nothing."""
    if call.word == "worker" and call.given[1] != 0:
        raise NotBuilt
    row = ROWS[call.word]
    count = int(row.makes)
    made, words = call.given[:count], call.given[count:]
    names, given = words[: len(row.needs)], words[len(row.needs) :]
    if any(host.is_taken(name) for name in made):
        raise Refused("nametaken")
    needed = [host.tree.named(name) for name in names]
    if None in needed:
        raise Refused("noname")
    is_fitting = all(thing.kind in kinds for thing, kinds in zip(needed, row.needs))
    if not is_fitting or row.is_elsewhere(*needed):
        raise Refused("wrongkind")
    if row.bars_closed and not all(thing.is_open for thing in needed) or row.is_unready(*needed):
        raise Refused("invalidstate")
    row.does(host, key, *made, *needed, *given)


def name_made_by(call):
    return call.given[0] if ROWS[call.word].makes else None


def worker(host, key, name, budget):
    if len(host.slots) == SLOTS:
        raise type_error("slots")
    slot = Slot(len(host.slots) + 1)
    host.slots.append(slot)
    thing = new_object(host, "worker", name, slot=slot)
    host.draw()
    host.requests.wait_for_start(thing, key)
    host.open(thing)
    host.note(lines.spawn(slot.number))


def new_object(host, kind, name, parent=None, **fields):
    """An object with the next serial."""
    id_ = lines.id_text(host.seed, host.next_serial)
    fields = {"id": id_, "slot": parent and parent.slot} | fields
    return Object(host.next_serial, name, kind=kind, parent=parent, **fields)


def make(host, key, method, thing, data=None, ssrcs=0):
    host.issue(Request(method, thing, thing.parent, key, "opens"), data)
    host.draw(ssrcs)


def router(host, key, name, on, given):
    caps = ortc.router_caps(options.router(given))
    make(host, key, "worker.createRouter", new_object(host, "router", name, on, kept=caps))


def plain(host, key, name, on, given):
    ip, comedia = options.plain(given)
    data = {"comedia": comedia, "listenIp": {"ip": ip}, "rtcpMux": True}
    make(host, key, "router.createPlainTransport", new_object(host, "plain", name, on), data)


def pipe(host, key, name, on, given):
    ip, enable_rtx = options.pipe(given)
    data = {"enableRtx": enable_rtx, "listenIp": {"ip": ip}}
    thing = new_object(host, "pipe", name, on, kept=enable_rtx)
    make(host, key, "router.createPipeTransport", thing, data)


def direct(host, key, name, on):
    thing = new_object(host, "direct", name, on)
    make(host, key, "router.createDirectTransport", thing, {"direct": True})


def connect(host, key, transport, given):
    ip, port = options.connect(given)
    host.issue(Request("transport.connect", transport, transport, key), {"ip": ip, "port": port})


def produce(host, key, name, transport, given):
    given = options.produce(given)
    on, caps = transport.parent, transport.parent.kept
    id_ = given.id or lines.id_text(host.seed, host.next_serial)
    if any(other.router is on and other.id == id_ for other in host.producers()):
        raise type_error("duplicate_id")
    mapping = ortc.producer_mapping(given.params, caps, host.next_ssrc)
    offered = ortc.consumable(given.media, given.params, caps, mapping)
    fields = {"id": id_, "is_paused": given.is_paused, "kept": Offer(given.media, offered)}
    data = {
        "kind": given.media,
        "paused": given.is_paused,
        "rtpMapping": mapping_value(mapping),
        "rtpParameters": params_value(given.params),
    }
    thing = new_object(host, "producer", name, transport, **fields)
    make(host, key, "transport.produce", thing, data, len(given.params.encodings))


def mapping_value(mapping):
    return {
        "codecs": [{"mappedPayloadType": to, "payloadType": of} for of, to in mapping.types],
        "encodings": [{"mappedSsrc": to, "ssrc": of} for of, to in mapping.ssrcs],
    }


def consume(host, key, name, transport, producer, given):
    offered = producer.kept.params
    is_piped = transport.kind == "pipe"
    if is_piped:
        is_paused = options.piped_consume(given)
        received = ortc.pipe_params(offered, transport.kept, host.next_ssrc)
    else:
        caps, is_paused = options.consume(given)
        if len(offered.encodings) > 1:
            raise unsupported("simulcast")
        received = ortc.consumer_params(offered, caps, host.next_ssrc)
    data = {
        "consumableRtpEncodings": [encoding_value(encoding) for encoding in offered.encodings],
        "kind": producer.kept.media,
        "paused": is_paused,
        "rtpParameters": params_value(received),
        "type": "pipe" if is_piped else "simple",
    }
    thing = new_object(host, "consumer", name, transport, producer=producer)
    ssrcs = sum(1 if encoding.rtx is None else 2 for encoding in received.encodings)
    make(host, key, "transport.consume", thing, data, ssrcs)


def pause(host, key, stream):
    host.issue(Request(f"{stream.kind}.pause", stream, stream, key, "pauses"), None)


def resume(host, key, stream):
    host.issue(Request(f"{stream.kind}.resume", stream, stream, key, "resumes"), None)


def close(host, key, thing):
    if thing.is_open:
        fall(host, thing, "close")
    host.settle(key, "ok")


def can_consume(host, key, producer, given):
    caps = options.can_consume(given)
    host.settle(key, "yes" if ortc.can_consume(producer.kept.params, caps) else "no")


def send(host, key, producer, packet):
    if len(packet) > PACKET_LIMIT:
        raise type_error("packet")
    host.note(lines.sent_packet(producer.slot.number, producer.id, packet))
    host.settle(key, "ok")


def is_not_running(on):
    return not on.is_running


def is_of_another_router(transport, producer):
    return producer.router is not transport.parent


def is_not_direct(producer):
    return producer.parent.kind != "direct"


ROWS = {
    "worker": Row(worker, makes=True),
    "router": Row(router, (("worker",),), makes=True, is_unready=is_not_running),
    "plain": Row(plain, (("router",),), makes=True),
    "pipe": Row(pipe, (("router",),), makes=True),
    "direct": Row(direct, (("router",),), makes=True),
    "connect": Row(connect, (("plain", "pipe"),)),
    "produce": Row(produce, (TRANSPORTS,), makes=True),
    "consume": Row(
        consume, (TRANSPORTS, ("producer",)), makes=True, is_unready=is_of_another_router
    ),
    "pause": Row(pause, (STREAMS,)),
    "resume": Row(resume, (STREAMS,)),
    "close": Row(close, (ANY,), bars_closed=False),
    "canconsume": Row(can_consume, (("producer",),)),
    "send": Row(send, (("producer",),), is_elsewhere=is_not_direct),
}
