"""The journals that bench/replay.sh measures."""

OPTIONS = '{"mediaCodecs":[]}'
RUNNING = b'{"event":"running","targetId":"worker"}'
CHUNKS_TEXT = 100_000_000
CALLS = 200_000
CHUNK = 65_536


def frame(payload):
    return len(payload).to_bytes(4, "little") + payload


def chunk(slot, data):
    return f"chunk {slot} 1 {data.hex()}\n"


def accepted(number):
    return frame(b'{"accepted":true,"id":%d}' % number)


def worker(slot):
    return f"call 1 worker w{slot} 0\nspawned {slot} 1 up\n" + chunk(slot, frame(RUNNING))


# Each shape gives the lines of a journal of a share of the full length, and the number of notes that follow from it.


def unheard_chunks(share):
    """Chunks of a worker that was never started: they are read and kept, and say nothing."""
    count = int(CHUNKS_TEXT * share) // (2 * CHUNK)
    lines = (chunk(1, bytes(CHUNK)) for _ in range(count))
    return lines, 0


def logs_in_chunks(size, length):
    """Chunks of this size of a worker that says log texts of this length."""

    def shape(share):
        said = frame(b"D" + b"x" * (length - 1))
        count = int(CHUNKS_TEXT * share) // (2 * size)
        repeated = said * (size // len(said) + 2)

        def lines():
            yield worker(1)
            for number in range(count):
                place = number * size % len(said)
                yield chunk(1, repeated[place : place + size])

        return lines(), 5 + count * size // len(said)

    return shape


def calls_with_responses(share):
    """Each call is answered by the next line."""
    count = int(CALLS * share)

    def lines():
        yield worker(1)
        for number in range(1, count + 1):
            yield f"call 1 router r{number} w1 {OPTIONS}\n"
            yield chunk(1, accepted(number))

    return lines(), 5 + 3 * count


def calls_before_responses(share):
    """All calls come first, and then all responses in whole chunks."""
    count = int(CALLS * share)

    def lines():
        yield worker(1)
        for number in range(1, count + 1):
            yield f"call 1 router r{number} w1 {OPTIONS}\n"
        said = bytearray()
        for number in range(1, count + 1):
            said += accepted(number)
            if len(said) >= CHUNK or number == count:
                yield chunk(1, said[:CHUNK])
                del said[:CHUNK]
        if said:
            yield chunk(1, said)

    return lines(), 5 + 3 * count


def calls_of_many(share):
    """64 lanes call for Routers on 64 workers; each worker answers once all have been asked."""
    rounds = int(CALLS * share) // 64

    def lines():
        for slot in range(1, 65):
            yield worker(slot)
        for number in range(1, rounds + 1):
            for slot in range(1, 65):
                yield f"call {(slot + number) % 64 + 1} router r{number}_{slot} w{slot} {OPTIONS}\n"
            for slot in range(64, 0, -1):
                yield chunk(slot, accepted(number))

    return lines(), 5 * 64 + 3 * 64 * rounds


CODEC = '"mimeType":"audio/opus","clockRate":48000,"channels":2'
MEDIA = f'{{"mediaCodecs":[{{{CODEC}}}]}}'
CAPABILITIES = f'{{"rtpCapabilities":{{"codecs":[{{{CODEC},"preferredPayloadType":100}}],"headerExtensions":[]}}}}'
CAN_CONSUME = f'{{"codecs":[{{{CODEC},"preferredPayloadType":100}}],"headerExtensions":[]}}'
SENT = f'{{"codecs":[{{{CODEC},"payloadType":111}}],"encodings":[{{"ssrc":1000}}]}}'
PRODUCE = f'{{"kind":"audio","rtpParameters":{SENT}}}'
PLAIN = '{"listenIp":{"ip":"127.0.0.1"}}'
CONNECT = '{"ip":"127.0.0.1","port":9000}'
TUPLE = '{"tuple":{"localIp":"127.0.0.1","localPort":40000}}'
FLAGS = '{"paused":false,"producerPaused":false}'
FALLS = 50_000
AWAITS = 20_000
LARGE_CALLS = 20_000


class Worker:
    """A worker of a slot that answers each request by the next line."""

    def __init__(self, slot):
        self.slot = slot
        self.requests = 0

    def starts(self):
        return worker(self.slot)

    def calls(self, words):
        """A call that asks the worker for nothing."""
        return f"call {self.slot} {words}\n"

    def answers(self, content=None):
        self.requests += 1
        data = "" if content is None else f',"data":{content}'
        return chunk(self.slot, frame(f'{{"accepted":true,"id":{self.requests}{data}}}'.encode()))

    def does(self, words, content=None):
        """A call that asks the worker, and its answer."""
        return self.calls(words) + self.answers(content)

    def opens(self):
        """The worker, a Router, a transport that receives, and a Producer: 5 notes, and 3 for each of the others."""
        n = self.slot
        yield self.starts()
        yield self.does(f"router r{n} w{n} {MEDIA}")
        yield self.does(f"plain t{n} r{n} {PLAIN}", TUPLE)
        yield self.does(f"produce p{n} t{n} {PRODUCE}")


OPENS_NOTES = 5 + 3 * 3


def receiver_comes_and_goes(lane, number):
    """Seven calls and 19 notes: a transport is made and connected, a Consumer made, paused and resumed, and all of it closed."""
    n, name = lane.slot, f"{lane.slot}_{number}"
    yield lane.does(f"plain t{name} r{n} {PLAIN}", TUPLE)
    yield lane.does(f"connect t{name} {CONNECT}", TUPLE)
    yield lane.does(f"consume c{name} t{name} p{n} {CAPABILITIES}", FLAGS)
    yield lane.does(f"pause c{name}")
    yield lane.does(f"resume c{name}")
    yield lane.calls(f"canconsume p{n} {CAN_CONSUME}")
    yield lane.does(f"close t{name}")


def calls_of_all_kinds(share):
    """Receivers come and go on 64 workers in turn."""
    rounds = int(CALLS * share) // (64 * 7)

    def lines():
        lanes = [Worker(slot) for slot in range(1, 65)]
        for lane in lanes:
            yield from lane.opens()
        for number in range(rounds):
            for lane in lanes:
                yield from receiver_comes_and_goes(lane, number)

    return lines(), 64 * OPENS_NOTES + 64 * rounds * 19


def falls_of(most):
    """Direct transports are made and closed, at most so many of them at a time: alone, or with the Router that they stand on."""

    def shape(share):
        size = min(most, int(FALLS * share))
        falls = int(FALLS * share) // size

        def alone(lane):
            yield lane.does(f"router r w1 {OPTIONS}")
            for number in range(falls):
                yield lane.does(f"direct d{number} r")
                yield lane.does(f"close d{number}")

        def together(lane):
            for fall in range(falls):
                yield lane.does(f"router r{fall} w1 {OPTIONS}")
                for number in range(size - 1):
                    yield lane.does(f"direct d{fall}_{number} r{fall}")
                yield lane.does(f"close r{fall}")

        def lines():
            lane = Worker(1)
            yield lane.starts()
            yield from (alone if size == 1 else together)(lane)

        # Each object takes four notes, of its making and its close, and each close two.
        return lines(), 5 + 4 * size * falls + 2 * falls + (3 if size == 1 else 0)

    return shape


def awaits_that_wait(share):
    """Lanes wait for objects of many names, which are then made one by one; all others wait on."""
    count = int(AWAITS * share)

    def lines():
        lane = Worker(1)
        yield lane.starts()
        yield lane.does(f"router r w1 {OPTIONS}")
        for number in range(count):
            yield f"await {number % 63 + 2} d{number} open 1\n"
        for number in range(count):
            yield lane.does(f"direct d{number} r")

    return lines(), 5 + 3 + 4 * count


def large_parameters(share):
    """Producers with a browser's parameters of 3 kB: 20 codecs and 12 header extensions."""
    count = int(LARGE_CALLS * share)
    codecs = ",".join(
        f'{{"mimeType":"audio/opus","payloadType":{96 + n},"clockRate":48000,"channels":2,"parameters":{{"useinbandfec":1,"minptime":10}}}}'
        for n in range(20)
    )
    uris = ",".join(f'{{"uri":"urn:ietf:params:rtp-hdrext:of-some-purpose-{n}","id":{n + 1}}}' for n in range(12))

    def produce(number):
        sent = f'{{"codecs":[{codecs}],"headerExtensions":[{uris}],"encodings":[{{"ssrc":{1000 + number}}}]}}'
        return f'{{"kind":"audio","rtpParameters":{sent}}}'

    def lines():
        lane = Worker(1)
        yield from lane.opens()
        for number in range(1, count + 1):
            yield lane.does(f"direct d{number} r1")
            yield lane.does(f"produce p1_{number} d{number} {produce(number)}")

    return lines(), OPENS_NOTES + 6 * count


SHAPES = [
    ("chunks of 64 KiB, unheard", unheard_chunks),
    ("chunks of 64 KiB, logs of 1,000", logs_in_chunks(CHUNK, 1_000)),
    ("chunks of 64 bytes, logs of 60", logs_in_chunks(64, 60)),
    ("calls, each answered at once", calls_with_responses),
    ("calls, all answered at the end", calls_before_responses),
    ("64 workers, 64 lanes", calls_of_many),
    ("calls of all kinds, 64 workers", calls_of_all_kinds),
    ("falls of one object", falls_of(1)),
    ("falls of 100 objects", falls_of(100)),
    ("one fall of 50,000 objects", falls_of(50_000)),
    ("20,000 awaits that wait", awaits_that_wait),
    ("20,000 parameters of 3 kB", large_parameters),
]


# ---- So many of a thing, all of them there at the end.


def held(words, content=None, answered=True):
    """Calls of these words, a number in each, and perhaps their responses: two notes, and the object's."""

    def shape(count):
        def lines():
            lane = Worker(1)
            yield from lane.opens()
            yield lane.does("direct d r1")
            for number in range(count):
                call = words.replace("#", str(number))
                yield lane.does(call, content) if answered else lane.calls(call)

        return lines(), OPENS_NOTES + 3 + (3 if answered else 1) * count

    return shape


def awaits(names):
    """Awaits of one name, or of a name each, which wait. None has a note."""

    def shape(count):
        def lines():
            for number in range(count):
                yield f"await 1 {names.replace('#', str(number))} open 1\n"

        return lines(), 0

    return shape


HELD = [
    ("a Router without codecs", held(f"router r_# w1 {OPTIONS}")),
    ("a Router with opus", held(f"router r_# w1 {MEDIA}")),
    ("a direct transport", held("direct d_# r1")),
    ("a plain transport", held(f"plain t_# r1 {PLAIN}", TUPLE)),
    ("a Producer of opus", held(f"produce p_# d {PRODUCE.replace('1000', '1#')}")),
    ("a Consumer of opus", held(f"consume c_# d p1 {CAPABILITIES}", FLAGS)),
    ("a pending request for a Router", held(f"router r_# w1 {OPTIONS}", answered=False)),
    ("a pending request for a transport", held("direct d_# r1", answered=False)),
    ("an await of its own name", awaits("a_#")),
    ("an await of a common name", awaits("a")),
]
