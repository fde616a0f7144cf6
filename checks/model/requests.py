"""The requests that wait for their settlement, over all channels."""

from dataclasses import dataclass

from model import lines
from model.reading import Refused
from model.tree import Object, ids_of

LAST_ID = 2**32 - 1
PAYLOAD_LIMIT = 4_194_304
# The place of a Worker's start among its requests: it is settled by the first word of the process.
START = 0


@dataclass
class Request:
    """What a worker was asked: about an object, under an object, and for a call, if for one. Once
    it is accepted the object opens, pauses or resumes, or nothing else follows.
    """

    method: str
    about: Object
    under: Object
    call: tuple | None
    then: str = "nothing"

    @property
    def makes(self):
        """The name of the object that it is to make."""
        return self.about.name if self.then == "opens" else None


class Requests:
    def __init__(self):
        # In order of issue, by slot and id.
        self.waiting = {}
        # The names of what they are to make.
        self.names = set()

    def wait_for_start(self, worker, call):
        self.waiting[worker.slot, START] = Request("", worker, worker, call)

    def issue(self, request, data):
        """Refuses it, or gives the note of what was sent."""
        slot = request.under.slot
        if slot.last_id == LAST_ID:
            raise Refused("idsspent")
        id_ = slot.last_id + 1
        payload = lines.request(id_, request.method, ids_of(request.about), data)
        if len(payload.encode("utf-8")) > PAYLOAD_LIMIT:
            raise Refused("toobig")
        slot.last_id = id_
        self.waiting[slot, id_] = request
        if request.makes is not None:
            self.names.add(request.makes)
        return lines.sent(slot.number, payload)

    def take(self, slot, id_):
        request = self.waiting.pop((slot, id_), None)
        if request is not None:
            self.names.discard(request.makes)
        return request

    def take_under(self, fallen):
        """Those under one of these objects, in order of issue."""
        keys = [key for key, request in self.waiting.items() if request.under in fallen]
        return [self.take(*key) for key in keys]

    def to_be_made(self):
        return [request.about for request in self.waiting.values() if request.then == "opens"]
