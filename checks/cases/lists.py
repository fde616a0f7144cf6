"""Named cases of how many codecs, extensions and encodings there may be, of payload types, and of
what is mapped to what.
"""

from cases import tree
from cases.tree import OPUS, VIDEO, VP8, VP9, accepted, said, text
from cases.writing import journal

PCMU = {"mimeType": "audio/PCMU", "clockRate": 8000}
RTX = VP8 | {"mimeType": "video/RTX"}
SOME_CODEC = {"mimeType": "audio/x", "clockRate": 1}
SOME_EXTENSION = {"uri": "x", "id": 1, "preferredId": 1}
FEEDBACK = [{"type": "nack"}, {"type": "goog-remb"}, {"type": "transport-cc"}]
PROFILES = (
    *(2, 0, "x", "", -2, "9" * 30, "2", "02", "0", "00", "X", "-2", "9" * 31, "0" * 5000 + "2"),
    *("9" * 5000, 2**63 - 1, "9223372036854775807", "٣", "2 "),
)


def routers():
    lists = (
        *([], [OPUS] * 32, [OPUS] * 33, [PCMU, PCMU], [VP9, VP9]),
        # Each codec of video takes two of the 32 types.
        *([VP8] * 16, [VP8] * 16 + [OPUS], [VP8] * 16 + [PCMU], [VP8] * 17),
        *([typed(OPUS, type_), VP8] for type_ in (0, 99, 100, 101, 127)),
        *([VP8, typed(OPUS, type_)] for type_ in (0, 100, 101, 102)),
        *([typed(PCMU, 5), PCMU], [typed(OPUS, 0), PCMU]),
        *([RTX], [VP8 | {"mimeType": "audio/VP8"}]),
    )
    calls = (f"router n{at} w1 {text({'mediaCodecs': one})}" for at, one in enumerate(lists))
    yield "routers", journal(*tree.tree(), *(f"call 2 {call}" for call in calls))


def profiles():
    """VP9 of each profile, in a Router of each."""
    calls = []
    for at, of_router in enumerate(PROFILES[:6]):
        caps = {"mediaCodecs": [VP9 | {"parameters": {"profile-id": of_router}}]}
        calls += [f"call 2 router r{at} w1 {text(caps)}", *said(accepted(tree.LAST_ID + 1 + 2 * at))]
        calls += [f"call 2 direct d{at} r{at}", *said(accepted(tree.LAST_ID + 2 + 2 * at))]
    for at, profile in enumerate(PROFILES):
        codec = VP9 | {"payloadType": 9, "parameters": {"profile-id": profile}}
        given = text(with_params(codecs=[codec]))
        calls += [f"call 2 produce n{at}_{to} d{to} {given}" for to in range(6)]
    yield "profiles", journal(*tree.tree(), *calls)


def typed(codec, payload_type):
    return codec | {"preferredPayloadType": payload_type}


def producers():
    """And what Consumers get of them, over a pipe and over another transport."""
    calls = [f"call 2 produce n{at} t {text(one)}" for at, one in enumerate(produced())]
    replies = said(*(accepted(id_) for id_ in range(tree.LAST_ID + 1, tree.LAST_ID + len(calls))))
    given = text(tree.CONSUME)
    consumed = [
        f"call 2 consume m{at}{transport} {transport} n{at} {given}"
        for transport in "qt"
        for at in range(len(calls))
    ]
    yield "producers", journal(*tree.tree(), *calls, *replies, *consumed)


def produced():
    media = VP8 | {"payloadType": 96}
    for count in (0, 1, 32, 33):
        yield with_params(codecs=[media] * count)
        yield with_params(codecs=[media], headerExtensions=[SOME_EXTENSION] * count)
    for count in (0, 1, 2, 8, 9):
        yield with_params(codecs=[media], encodings=[{"ssrc": ssrc} for ssrc in range(count)])
    for parameters in ({"apt": 96}, {"apt": 97}, {"apt": 98}, {}):
        for payload_type in (97, 96):
            rtx = RTX | {"payloadType": payload_type, "parameters": parameters}
            yield with_params(codecs=[media, rtx])
            yield with_params(codecs=[rtx, media])
    yield with_params(codecs=[media, VP9 | {"payloadType": 96}])
    for parameters in ({}, *({"profile-id": profile} for profile in PROFILES)):
        yield with_params(codecs=[VP9 | {"payloadType": 9, "parameters": parameters}])


def with_params(**members):
    return VIDEO | {"rtpParameters": VIDEO["rtpParameters"] | members}


def capabilities():
    """Of a receiver: whether it can consume, and what a Consumer gets."""
    caps = (
        *({"codecs": [SOME_CODEC] * count} for count in (128, 129)),
        *({"headerExtensions": [SOME_EXTENSION] * count} for count in (128, 129)),
        *({"codecs": codecs} for codecs in received()),
        *({"codecs": [VP8 | {"rtcpFeedback": FEEDBACK}], "headerExtensions": e} for e in known()),
    )
    lines = []
    for at, one in enumerate(caps):
        lines.append(f"call 2 canconsume v {text(one)}")
        lines.append(f"call 2 consume n{at} d v {text({'rtpCapabilities': one})}")
    yield "capabilities", journal(*tree.tree(), *lines)


def received():
    yield from ([], [VP8], [RTX], [RTX, VP8], [VP8, RTX], [VP9], [OPUS], [VP8 | {"clockRate": 1}])
    yield [VP8 | {"rtcpFeedback": FEEDBACK}, VP8, RTX]
    yield [VP8, VP8 | {"rtcpFeedback": FEEDBACK}]


def known():
    """Extensions that decide which feedback goes, under the ids of the table and under others."""
    sent = (
        "http://www.webrtc.org/experiments/rtp-hdrext/abs-send-time",
        "http://www.ietf.org/id/draft-holmer-rmcat-transport-wide-cc-extensions-01",
    )
    for ids in ((4, None), (None, 5), (4, 5), (5, 4), (5, None)):
        both = zip(sent, ids)
        yield [{"uri": uri, "preferredId": id_} for uri, id_ in both if id_ is not None]
