"""A small tree as the lines that make it, for the cases that begin with one."""

import json

from cases.writing import chunks_of, frame, up

OPUS = {"mimeType": "audio/opus", "clockRate": 48000, "channels": 2}
VP8 = {"mimeType": "video/VP8", "clockRate": 90000}
VP9 = {"mimeType": "video/VP9", "clockRate": 90000, "parameters": {"profile-id": 2}}
MID = "urn:ietf:params:rtp-hdrext:sdes:mid"

ROUTER = {"mediaCodecs": [OPUS, VP8, VP9]}
PLAIN = {"listenIp": {"ip": "127.0.0.1"}, "comedia": False, "rtcpMux": True}
PIPE = {"listenIp": "127.0.0.1", "enableRtx": True}
CONNECT = {"ip": "10.0.0.1", "port": 5004}
AUDIO = {
    "kind": "audio",
    "rtpParameters": {
        "codecs": [OPUS | {"payloadType": 111, "parameters": {"useinbandfec": 1}}],
        "headerExtensions": [{"uri": MID, "id": 4}],
        "encodings": [{"ssrc": 1111}],
        "rtcp": {"cname": "a", "reducedSize": False},
    },
    "paused": False,
}
VIDEO = {
    "kind": "video",
    "rtpParameters": {
        "codecs": [
            VP8 | {"payloadType": 96, "rtcpFeedback": [{"type": "nack", "parameter": "pli"}]},
            VP8 | {"mimeType": "video/rtx", "payloadType": 97, "parameters": {"apt": 96}},
        ],
        "encodings": [{"ssrc": 2222, "rtx": {"ssrc": 2223}}],
    },
}
CAPS = {
    "codecs": [
        OPUS | {"preferredPayloadType": 100, "rtcpFeedback": [{"type": "transport-cc"}]},
        VP8 | {"rtcpFeedback": [{"type": "nack"}, {"type": "goog-remb", "parameter": ""}]},
        {"mimeType": "video/rtx", "clockRate": 90000, "parameters": {"apt": 101}},
    ],
    "headerExtensions": [{"kind": "", "uri": MID, "preferredId": 1, "direction": "sendrecv"}],
}
CONSUME = {"rtpCapabilities": CAPS, "paused": True}
LOCAL = {"tuple": {"localIp": "127.0.0.1", "localPort": 40000}}
REMOTE = {"tuple": {"remoteIp": "10.0.0.1", "remotePort": 5004}}
FLAGS = {"paused": False, "producerPaused": True}


def text(value):
    return json.dumps(value, ensure_ascii=False, separators=(",", ":"))


def said(*values):
    """A worker says these JSON values."""
    return chunks_of(1, b"".join(frame(text(value).encode()) for value in values))


def accepted(id_, data=None):
    return {"accepted": True, "data": data, "id": id_}


def id_of(serial):
    return f"00000000-0000-4007-8000-{serial:012x}"


def notice(event, serial, data=None):
    return {"data": data, "event": event, "targetId": id_of(serial)}


# Each call that makes an object of the tree below w1, and what its worker says.
CALLS = (
    (f"router r w1 {text(ROUTER)}", None),
    (f"plain t r {text(PLAIN)}", LOCAL),
    (f"pipe q r {text(PIPE)}", LOCAL),
    ("direct d r", None),
    (f"produce a d {text(AUDIO)}", None),
    (f"produce v t {text(VIDEO)}", None),
    (f"consume c d a {text(CONSUME)}", FLAGS),
    (f"consume e t v {text(CONSUME)}", FLAGS),
    ("consume g q v {}", {"paused": False, "producerPaused": False}),
)
# In order of their serials, from 1.
NAMES = ("w1", "r", "t", "q", "d", "a", "v", "c", "e", "g")
LAST_ID = len(CALLS)


def tree():
    """The lines that make all of NAMES, with the serials from 1 on."""
    lines = up()
    for id_, (call, data) in enumerate(CALLS, 1):
        lines += [f"call 1 {call}", *said(accepted(id_, data))]
    return lines
