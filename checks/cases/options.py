"""Options of calls at random: most fit what they are given for, some have a fault."""

from cases.json_values import spoiled

EXTENSIONS = (
    (1, "urn:ietf:params:rtp-hdrext:sdes:mid"),
    (2, "urn:ietf:params:rtp-hdrext:sdes:rtp-stream-id"),
    (4, "http://www.webrtc.org/experiments/rtp-hdrext/abs-send-time"),
    (5, "http://www.ietf.org/id/draft-holmer-rmcat-transport-wide-cc-extensions-01"),
    (7, "urn:ietf:params:rtp-hdrext:framemarking"),
    (10, "urn:ietf:params:rtp-hdrext:ssrc-audio-level"),
    (11, "urn:3gpp:video-orientation"),
    (12, "urn:ietf:params:rtp-hdrext:toffset"),
    (3, "urn:example:of-no-table"),
)
CODECS = (
    {"mimeType": "audio/opus", "clockRate": 48000, "channels": 2},
    {"mimeType": "audio/PCMU", "clockRate": 8000},
    {"mimeType": "audio/PCMA", "clockRate": 8000, "channels": 1},
    {"mimeType": "video/VP8", "clockRate": 90000},
    {"mimeType": "video/VP9", "clockRate": 90000, "parameters": {"profile-id": 2}},
    {"mimeType": "video/VP9", "clockRate": 90000},
)
OTHER_CODECS = (
    {"mimeType": "video/H264", "clockRate": 90000, "parameters": {"packetization-mode": 1}},
    {"mimeType": "video/rtx", "clockRate": 90000, "parameters": {"apt": 96}},
    {"mimeType": "audio/opus", "clockRate": 48000},
    {"mimeType": "audio/opus", "clockRate": 16000, "channels": 2},
    {"mimeType": "AUDIO/Opus", "clockRate": 48000, "channels": 2},
    {"mimeType": "Video/vp9", "clockRate": 90000, "parameters": {"profile-id": "02"}},
    {"mimeType": "video/VP9", "clockRate": 90000, "parameters": {"profile-id": "x"}},
)
FEEDBACK = (
    *({"type": "nack"}, {"type": "nack", "parameter": "pli"}, {"type": "ccm", "parameter": "fir"}),
    *({"type": "goog-remb"}, {"type": "transport-cc"}, {"type": "transport-cc", "parameter": "x"}),
    *({"type": "nack", "parameter": ""}, {"type": "", "parameter": "pli"}),
)
IPS = ("127.0.0.1", "10.0.0.255", "0.0.0.0", "255.255.255.255")
ODD_IPS = ("127.0.0", "1.2.3.4.5", "01.2.3.4", "256.0.0.1", "::1", "", "1.2.3.4 ", "1.2.3.+4")


def some(random, items, share=0.5):
    return [item for item in items if random.random() < share]


def maybe(random, share, **members):
    return members if random.random() < share else {}


def shuffled(random, items):
    return random.sample(items, len(items))


def ip(random):
    return random.choice(IPS if random.random() < 0.95 else ODD_IPS)


def flag(random, share=0.5):
    return random.random() < share


def router(random):
    codecs = shuffled(random, some(random, CODECS, 0.6))
    if random.random() < 0.08:
        codecs.append(random.choice(OTHER_CODECS))
    if random.random() < 0.01:
        codecs = codecs[:1] * 33
    types = maybe(random, 0.2, preferredPayloadType=random.choice([0, 96, 100, 101, 127]))
    place = random.randrange(len(codecs) or 1)
    codecs = [codec | (types if at == place else {}) for at, codec in enumerate(codecs)]
    return spoiled(random, {"mediaCodecs": codecs})


def plain(random):
    members = {"listenIp": listen_ip(random)} | maybe(random, 0.5, comedia=flag(random))
    return spoiled(random, members | maybe(random, 0.3, rtcpMux=flag(random, 0.8)))


def pipe(random):
    members = maybe(random, 0.6, enableRtx=flag(random))
    return spoiled(random, {"listenIp": listen_ip(random)} | members)


def listen_ip(random):
    return ip(random) if random.random() < 0.5 else {"ip": ip(random)}


def connect(random):
    port = random.choice([1, 5004, 65535] if random.random() < 0.95 else [0, 65536])
    return spoiled(random, {"ip": ip(random), "port": port})


def produce(random, caps, ids):
    """For a Router of these capabilities, and sometimes with one of these ids."""
    codecs = [codec for codec in caps.codecs if not codec.is_rtx] if caps else []
    codecs = random.sample(codecs, min(len(codecs), random.choice([1, 1, 1, 2])))
    given = [as_given(codec) for codec in codecs]
    if not given or random.random() < 0.08:
        given.append(dict(random.choice((*CODECS, *OTHER_CODECS))))
    kind = given[0]["mimeType"].split("/")[0].lower()
    given = [codec for codec in given if codec["mimeType"].lower().startswith(kind)]
    kind = kind if random.random() < 0.97 else random.choice(["audio", "video", "Audio", ""])
    members = maybe(random, 0.4, paused=flag(random))
    members |= maybe(random, 0.15, id=random.choice(ids))
    return spoiled(random, {"kind": kind, "rtpParameters": parameters(random, given)} | members)


def as_given(codec):
    """A Router's codec as a client names it."""
    channels = {} if codec.channels is None else {"channels": codec.channels}
    return channels | {
        "mimeType": f"{codec.media}/{codec.name}",
        "clockRate": codec.clock_rate,
        "parameters": codec.parameters,
    }


def parameters(random, codecs):
    types = random.sample(range(96, 128), 2 * len(codecs))
    sent = []
    for codec, type_, rtx_type in zip(codecs, types[::2], types[1::2]):
        members = {"payloadType": type_} | maybe(random, 0.3, rtcpFeedback=feedback(random))
        sent.append(codec | members)
        if codec["mimeType"].lower().startswith("video") and random.random() < 0.7:
            apt = type_ if random.random() < 0.95 else rtx_type
            rtx = {"mimeType": "video/rtx", "clockRate": 90000, "payloadType": rtx_type}
            sent.append(rtx | {"parameters": {"apt": apt}})
    sent = shuffled(random, sent) if random.random() < 0.2 else sent
    rtcp = maybe(random, 0.5, cname="c" * random.randrange(4))
    rtcp |= maybe(random, 0.3, reducedSize=False)
    return (
        {"codecs": sent, "encodings": encodings(random)}
        | maybe(random, 0.5, headerExtensions=extensions(random, "id"))
        | maybe(random, 0.6, rtcp=rtcp)
    )


def encodings(random):
    count = random.choice([1] * 12 + [2, 3] * 2 + [8, 9, 0])
    ssrcs = [random.choice([0, 1111, 2**32 - 1, random.randrange(2**32)]) for _ in range(count)]
    if random.random() < 0.98:
        ssrcs = list(dict.fromkeys(ssrcs))
    return [{"ssrc": ssrc} | maybe(random, 0.4, rtx={"ssrc": (ssrc + 1) % 2**32}) for ssrc in ssrcs]


def extensions(random, id_name):
    """Mostly under the ids of the table."""
    chosen = some(random, EXTENSIONS, 0.4)
    own = random.randint(1, 14)
    return [{"uri": uri, id_name: id_ if random.random() < 0.9 else own} for id_, uri in chosen]


def feedback(random):
    return some(random, FEEDBACK, 0.4)


def consume(random, offered, is_piped):
    """For what is offered, if it is known."""
    members = maybe(random, 0.4, paused=flag(random))
    if not is_piped or random.random() < 0.1:
        members |= {"rtpCapabilities": capabilities(random, offered)}
    return spoiled(random, members)


def can_consume(random, offered):
    return spoiled(random, capabilities(random, offered))


def capabilities(random, offered):
    codecs = []
    for codec in offered.codecs if offered else ():
        if random.random() < 0.9:
            members = maybe(random, 0.5, preferredPayloadType=codec.payload_type)
            members |= maybe(random, 0.7, rtcpFeedback=feedback(random))
            codecs.append(as_given(codec) | members)
    codecs += random.sample((*CODECS, *OTHER_CODECS), random.choice([0, 0, 1, 2]))
    if random.random() < 0.01:
        codecs = [{"mimeType": "audio/x", "clockRate": 1}] * 129
    known = extensions(random, "preferredId")
    known = [one | maybe(random, 0.3, kind="", direction="sendonly") for one in known]
    return {"codecs": shuffled(random, codecs)} | maybe(random, 0.7, headerExtensions=known)
