"""What follows from a message of a worker."""

from model import lines, options
from model.falls import fall
from model.messages import Accepted, Log, Notice, Packet, Refused
from model.options import readable
from model.reading import UUID
from model.requests import START

BAD_DATA = lines.refused_by_worker("BadData", "")


def hear(host, slot, message):
    if isinstance(message, (Accepted, Refused)):
        hear_response(host, slot, message)
    elif isinstance(message, Notice):
        hear_notice(host, slot, message)
    elif isinstance(message, Packet):
        hear_packet(host, slot, message)
    elif isinstance(message, Log):
        host.note(lines.log(slot.number, message.letter, message.data))
    else:
        host.note(lines.unexpected(slot.number))


def hear_response(host, slot, response):
    request = host.requests.take(slot, response.id)
    if request is None:
        host.note(lines.late(slot.number, response.id))
    elif isinstance(response, Accepted):
        settle_accepted(host, request, response.content)
    elif request.call is not None:
        outcome = lines.refused_by_worker(response.error, response.reason)
        host.settle(request.call, outcome, request.makes)


def settle_accepted(host, request, content):
    if request.then == "opens" and not take_content(request.about, content):
        host.settle(request.call, BAD_DATA, request.makes)
        return
    if request.then == "opens":
        host.open(request.about)
    elif request.then in ("pauses", "resumes"):
        turn(host, request.about, is_paused=request.then == "pauses")
    if request.call is not None:
        host.settle(request.call, "ok")


def take_content(thing, content):
    """Whether an object's content is as it has to be: a Consumer takes its flags from it."""
    if thing.kind in ("plain", "pipe"):
        return readable(options.local_tuple, content) is not None
    if thing.kind == "consumer":
        flags = readable(options.consumer_flags, content)
        if flags is None:
            return False
        thing.is_paused, thing.is_producer_paused = flags
    return True


def turn(host, thing, **flags):
    """An object is paused or resumed, or its Producer is. It is noted where it gets quiet by it or
    stops being so.
    """
    was_quiet = thing.is_quiet
    for name, value in flags.items():
        setattr(thing, name, value)
    if thing.is_quiet != was_quiet:
        host.note(lines.turned(thing.name, thing.is_quiet))


def hear_notice(host, slot, notice):
    is_taken = False
    if notice.target == "worker":
        is_taken = notice.event == "running" and hear_running(host, slot)
    elif UUID.fullmatch(notice.target) is not None:
        is_taken = hear_of_object(host, slot, notice.target.lower(), notice)
    if not is_taken:
        host.note(lines.stray(slot.number))


def hear_running(host, slot):
    """Whether it is the first time."""
    request = host.requests.take(slot, START)
    if request is None:
        return False
    request.about.is_running = True
    host.note(lines.running(request.about.name))
    host.settle(request.call, "ok")
    return True


def hear_of_object(host, slot, id_, notice):
    """Whether an object takes the notice."""
    if notice.event == "tuple":
        return hear_tuple(host, host.tree.open_one(slot, "plain", id_), notice.content)
    consumer = host.tree.open_one(slot, "consumer", id_)
    if consumer is None:
        return False
    if notice.event == "producerclose":
        fall(host, consumer, "producerclose")
    elif notice.event in ("producerpause", "producerresume"):
        turn(host, consumer, is_producer_paused=notice.event == "producerpause")
    else:
        return False
    return True


def hear_tuple(host, transport, content):
    remote = readable(options.remote_tuple, content)
    if transport is None or remote is None:
        return False
    host.note(lines.learnt(transport.name, *remote))
    return True


def hear_packet(host, slot, packet):
    consumer = host.tree.open_one(slot, "consumer", packet.id)
    if consumer is not None and consumer.parent.kind == "direct":
        host.note(lines.packet(consumer.name, packet.data))
    else:
        host.note(lines.stray(slot.number))
