"""The lines of a journal, as its cases write them."""

RUNNING = b'{"event":"running","targetId":"worker"}'
OPTIONS = '{"mediaCodecs":[]}'
CHUNK_LIMIT = 65_536


def frame(payload):
    return len(payload).to_bytes(4, "little") + payload


def chunk(slot, data, generation=1):
    return f"chunk {slot} {generation} {data.hex()}"


def chunks_of(slot, data, size=CHUNK_LIMIT):
    return [chunk(slot, data[place : place + size]) for place in range(0, len(data), size)]


def text_of(lines):
    return "".join(line + "\n" for line in lines).encode("utf-8")


def started(slot=1):
    """The lines of a worker that was started."""
    return [f"call 1 worker w{slot} 0", f"spawned {slot} 1 up"]


def up(slot=1):
    """The lines of a worker that is running."""
    return [*started(slot), chunk(slot, frame(RUNNING))]


def journal(*lines):
    return text_of(["journal 1 7", *lines])


def heard(payload):
    """A worker with two pending requests says something."""
    asks = [f"call 2 router {name} w1 {OPTIONS}" for name in ("r", "s")]
    return journal(*up(), *asks, *chunks_of(1, frame(payload)))


def heard_first(payload):
    """A worker that was started says something, and then that it is running."""
    return journal(*started(), *chunks_of(1, frame(payload) + frame(RUNNING)))
