"""What a worker says of its requests and objects, at random: most of it fits."""

from cases.json_values import spoiled_at_all, written
from cases.messages import acceptance, json_text, refusal

IPS = ("127.0.0.1", "10.0.0.1", "255.255.255.255")
EVENTS = ("producerclose", "producerpause", "producerresume")


def reply_to(random, request, id_):
    if random.random() < 0.1:
        return refusal(random, str(id_))
    if random.random() < 0.05:
        return acceptance(random, str(id_))
    content = content_for(random, request)
    if random.random() < 0.06:
        content = spoiled_at_all(random, content)
    data = [] if content is None else [("data", written(random, content))]
    return json_text(random, [("accepted", "true"), *data, ("id", str(id_))])


def content_for(random, request):
    if request.method == "transport.connect":
        return {"tuple": {"remoteIp": random.choice(IPS), "remotePort": 5004}}
    if request.then != "opens":
        return None
    if request.about.kind in ("plain", "pipe"):
        end = {"localIp": random.choice(IPS), "localPort": random.choice([1, 4000, 65535])}
        return {"tuple": end}
    if request.about.kind == "consumer":
        flags = random.random() < 0.3, random.random() < 0.3
        return {"paused": flags[0], "producerPaused": flags[1]}
    return {"type": "simple"} if request.about.kind == "producer" else None


def notice_of(random, thing):
    """To an object, or to none."""
    target = "worker" if thing is None else thing.id
    target = target.upper() if random.random() < 0.1 else target
    event, data = random.choice((*EVENTS[1:] * 4, EVENTS[0])), []
    if (thing is not None and thing.kind == "plain") != (random.random() < 0.05):
        event, data = "tuple", [("data", written(random, tuple_for(random)))]
    return json_text(random, [*data, ("event", f'"{event}"'), ("targetId", f'"{target}"')])


def tuple_for(random):
    end = {"remoteIp": random.choice(IPS), "remotePort": random.choice([0, 5004, 65535])}
    value = {"tuple": end}
    return spoiled_at_all(random, value) if random.random() < 0.1 else value


def packet_of(random, thing):
    id_ = "00000000-0000-4007-8000-000000000063" if thing is None else thing.id
    id_ = id_.upper() if random.random() < 0.1 else id_
    return b"R" + id_.encode() + random.randbytes(random.choice([0, 1, 12, 40]))
