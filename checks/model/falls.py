"""What falls with an object: all open objects below it close, what waits under them settles, and
the worker is asked to close what still stands on an open object. Without pipes from Router to
Router nothing else falls.
"""

from model import lines
from model.reading import Refused
from model.requests import Request

CLOSE_METHODS = {
    "router": "router.close",
    "plain": "transport.close",
    "pipe": "transport.close",
    "direct": "transport.close",
    "producer": "producer.close",
    "consumer": "consumer.close",
}


def fall(host, root, reason):
    fallen = sorted(root.with_those_below(), key=lambda thing: thing.serial)
    for thing in fallen:
        thing.is_open = False
        if thing.kind == "worker":
            thing.slot.phase = "over"
        host.note(lines.closed(thing.serial, thing.name, reason_of(thing, root, reason)))
    for request in host.requests.take_under(set(fallen)):
        if request.call is not None:
            host.settle(request.call, f"closed {request.under.name}", request.makes)
    if root.parent is not None and reason != "producerclose":
        ask_to_close(host, root)


def reason_of(thing, root, reason):
    if thing is root:
        return reason
    kind = thing.parent.kind
    return f"{kind}close" if kind in ("worker", "router") else "transportclose"


def ask_to_close(host, thing):
    """Nobody waits for it. Where no id is left it isn't asked."""
    try:
        host.issue(Request(CLOSE_METHODS[thing.kind], thing, thing.parent, None), None)
    except Refused:
        pass
