"""Prints what makes a worker with one Producer and so many Consumers of it, as bench/engine.sh needs it: a line with the kind and the
number of Consumers, then the payloads of requests. A line that begins with + has one for later.

Usage: requests.py KIND CONSUMERS, with KIND one of direct, extended, plain, pipe, video; or requests.py close OBJECTS, which makes a
transport with so many objects below it, half of them Producers and half Consumers of these, and closes it later; or requests.py closes
TRANSPORTS, which makes so many plain transports, and closes them later one by one, in order of making."""

import json
import sys

ROUTER, TRANSPORT, PRODUCER, CONSUMER, OTHER = 1, 2, 3, 4, 0x8000
URIS = {
    3: "urn:ietf:params:rtp-hdrext:ssrc-audio-level",
    5: "http://www.webrtc.org/experiments/rtp-hdrext/abs-send-time",
    7: "http://www.ietf.org/id/draft-holmer-rmcat-transport-wide-cc-extensions-01",
}
TABLE = {3: 10, 5: 4, 7: 5}
OPUS = {"channels": 2, "clockRate": 48000, "mimeType": "audio/opus"}
VP8 = {"clockRate": 90000, "mimeType": "video/VP8"}
CODECS = {"direct": OPUS, "extended": OPUS, "plain": OPUS, "close": OPUS, "pipe": VP8, "video": VP8}
ENCODINGS = 3
# How many Consumers are paused in a turn.
PAUSES = 8
PLAIN = {"listenIp": {"ip": "127.0.0.1"}, "rtcpMux": True}


def of(number):
    return f"00000000-0000-4000-8000-{number:012x}"


def media(kind):
    return "audio" if CODECS[kind] is OPUS else "video"


def parameters(kind, payload_type, ssrcs, ids):
    extensions = [{"id": i, "uri": uri} for i, uri in ids] if kind == "extended" else []
    encodings = [{"ssrc": ssrc} for ssrc in ssrcs]
    return {"codecs": [{**CODECS[kind], "payloadType": payload_type}], "encodings": encodings, "headerExtensions": extensions}


def transport(kind, ids):
    """A transport at whose other end somebody is told later."""
    if kind in ("direct", "extended"):
        return "router.createDirectTransport", ids, {"direct": True}
    if kind == "pipe":
        return "router.createPipeTransport", ids, {"enableRtx": False, "listenIp": PLAIN["listenIp"]}
    return "router.createPlainTransport", ids, {**PLAIN, "comedia": False}


def produce(kind, ids, first, count):
    ssrcs = range(first, first + count)
    encodings = [{"mappedSsrc": 100000000 + ssrc - first, "ssrc": ssrc} for ssrc in ssrcs]
    return "transport.produce", ids, {
        "kind": media(kind),
        "paused": False,
        "rtpMapping": {"codecs": [{"mappedPayloadType": 100, "payloadType": 111}], "encodings": encodings},
        "rtpParameters": parameters(kind, 111, ssrcs, URIS.items()),
    }


def consume(kind, ids, place, count):
    own = [200000000 + place * count + encoding for encoding in range(count)]
    return "transport.consume", ids, {
        "consumableRtpEncodings": [{"ssrc": 100000000 + encoding} for encoding in range(count)],
        "kind": media(kind),
        "paused": False,
        "rtpParameters": parameters(kind, 100, own, [(TABLE[i], uri) for i, uri in URIS.items()]),
        "type": "pipe" if kind == "pipe" else "simple",
    }


def streams(kind, consumers):
    """The requests that make one Producer with its Consumers, each on a transport of its own."""
    router = {"routerId": of(ROUTER)}
    above = {**router, "transportId": of(TRANSPORT)}
    count = ENCODINGS if kind == "pipe" else 1
    yield "worker.createRouter", router, None
    if kind in ("direct", "extended"):
        yield transport(kind, above)
    else:
        yield "router.createPlainTransport", above, {**PLAIN, "comedia": True}
    yield produce(kind, {**above, "producerId": of(PRODUCER)}, 2222, count)
    for place in range(consumers):
        own = {**router, "transportId": of(OTHER + place)}
        yield transport(kind, own)
        if kind not in ("direct", "extended"):
            yield "transport.connect", own, {"ip": "127.0.0.1", "port": 10000 + place}
        yield consume(kind, {**own, "producerId": of(PRODUCER), "consumerId": of(CONSUMER + place)}, place, count)


def pauses(consumers):
    """The requests that pause and resume some of the Consumers."""
    for pause in range(PAUSES):
        place = pause * consumers // PAUSES
        ids = {"routerId": of(ROUTER), "transportId": of(OTHER + place), "producerId": of(PRODUCER), "consumerId": of(CONSUMER + place)}
        yield "consumer.pause", ids, None
        yield "consumer.resume", ids, None


def objects(count):
    """The requests that make two transports, and Producers of the one each with a Consumer on the other."""
    router = {"routerId": of(ROUTER)}
    above, below = ({**router, "transportId": of(number)} for number in (TRANSPORT, 3))
    yield "worker.createRouter", router, None
    yield transport("plain", above)
    yield transport("plain", below)
    for place in range(count // 2):
        producer = {"producerId": of(0x10000000 + place)}
        yield produce("close", {**above, **producer}, 1 + place, 1)
        yield consume("close", {**below, **producer, "consumerId": of(0x20000000 + place)}, place, 1)


def transports(count):
    """The requests that make a Router with plain transports, and those that close these."""
    router = {"routerId": of(ROUTER)}
    every = [{**router, "transportId": of(OTHER + place)} for place in range(count)]
    made = [("worker.createRouter", router, None), *(transport("plain", ids) for ids in every)]
    return made, [("transport.close", ids, None) for ids in every]


def write(kind, count):
    print(kind, count)
    if kind == "close":
        lists = ("", objects(count)), ("+", [("transport.close", {"routerId": of(ROUTER), "transportId": of(TRANSPORT)}, None)])
    elif kind == "closes":
        lists = zip(("", "+"), transports(count))
    else:
        lists = ("", streams(kind, count)), ("+", pauses(count) if kind == "video" else [])
    for mark, requests in lists:
        for method, internal, data in requests:
            request = {"id": 1, "method": method, "internal": internal}
            if data is not None:
                request["data"] = data
            print(mark + json.dumps(request, separators=(",", ":"), sort_keys=True))


write(sys.argv[1], int(sys.argv[2]))
