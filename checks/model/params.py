"""Parameters and capabilities of RTP: how they are read of JSON values, and written as such. The
first fault counts, in the order in which the members stand here.
"""

from dataclasses import dataclass, field

from model import reading
from model.reading import Refused, member, number_of, object_of, text_of, type_error

PAYLOAD_TYPE = number_of(0, 127)
SSRC = number_of(0, 2**32 - 1)
EXTENSION_ID = number_of(1, 255)
INTEGER = number_of(-(2**63), 2**63 - 1)


@dataclass(frozen=True)
class Codec:
    media: str
    name: str
    clock_rate: int
    channels: int | None = None
    payload_type: int | None = None
    parameters: dict = field(default_factory=dict)
    feedback: tuple = ()

    @property
    def is_rtx(self):
        return reading.folded(self.name) == b"rtx"

    @property
    def apt(self):
        return self.parameters.get("apt")


@dataclass(frozen=True)
class Extension:
    """Without a media it is for both."""

    uri: str
    id: int
    media: str | None = None
    is_sent: bool = True


@dataclass(frozen=True)
class Encoding:
    ssrc: int
    rtx: int | None = None


@dataclass(frozen=True)
class Params:
    codecs: list
    extensions: list
    encodings: list
    cname: str = ""
    reduced_size: bool = True


@dataclass(frozen=True)
class Caps:
    codecs: list
    extensions: list


def params_of(value):
    members = object_of(value)
    codecs = member(members, "codecs", reading.each(codec_of_params))
    extensions = member(members, "headerExtensions", reading.each(extension_of_params), [])
    encodings = member(members, "encodings", encodings_of)
    rtcp = member(members, "rtcp", object_of, {})
    cname = member(rtcp, "cname", text_of, "")
    reduced_size = member(rtcp, "reducedSize", reading.flag_of, True)
    return Params(codecs, extensions, encodings, cname, reduced_size)


def caps_of(value):
    members = object_of(value)
    codecs = member(members, "codecs", capability_codecs_of, [])
    return Caps(codecs, member(members, "headerExtensions", reading.each(extension_of_caps), []))


def capability_codecs_of(value):
    return reading.each(codec_of_caps)(value)


def codec_of_params(value):
    return codec_of(value, "payloadType", reading.NEEDED)


def codec_of_caps(value):
    return codec_of(value, "preferredPayloadType", None)


def codec_of(value, type_name, no_type):
    members = object_of(value)
    media, name = member(members, "mimeType", mime_type_of)
    clock_rate = member(members, "clockRate", number_of(1, 2**32 - 1))
    channels = member(members, "channels", number_of(1, 255), 1) if media == "audio" else None
    payload_type = member(members, type_name, PAYLOAD_TYPE, no_type)
    parameters = member(members, "parameters", parameters_of, {})
    feedback = tuple(member(members, "rtcpFeedback", reading.each(feedback_of), []))
    return Codec(media, name, clock_rate, channels, payload_type, parameters, feedback)


def mime_type_of(value):
    """The media in small letters, and the name, which is all behind the first slash."""
    media, _, name = text_of(value).partition("/")
    if reading.folded(media) not in (b"audio", b"video") or name == "":
        raise type_error("form")
    return media.lower(), name


def parameters_of(value):
    return {name: parameter_of(name, item) for name, item in object_of(value).items()}


def parameter_of(name, value):
    if name == "apt":
        return PAYLOAD_TYPE(value)
    return value if type(value) is str else INTEGER(value)


def feedback_of(value):
    members = object_of(value)
    return member(members, "type", text_of), member(members, "parameter", text_of, "")


def extension_of_params(value):
    members = object_of(value)
    uri = member(members, "uri", reading.filled_text_of)
    return Extension(uri, member(members, "id", EXTENSION_ID))


def extension_of_caps(value):
    members = object_of(value)
    media = member(members, "kind", media_of, None)
    uri = member(members, "uri", reading.filled_text_of)
    id_ = member(members, "preferredId", EXTENSION_ID)
    direction = member(members, "direction", text_of, "sendrecv")
    return Extension(uri, id_, media, direction in ("sendrecv", "sendonly"))


def media_of(value):
    if text_of(value) not in ("", "audio", "video"):
        raise type_error("form")
    return value or None


def encodings_of(value):
    encodings = []
    for item in reading.list_of(value):
        members = object_of(item)
        ssrc = own_ssrc_of(members, encodings)
        encodings.append(Encoding(ssrc, member(members, "rtx", rtx_of, None)))
    return encodings


def own_ssrc_of(members, before):
    """An SSRC that no encoding before has: each fault of it has a code of its own."""
    try:
        ssrc = member(members, "ssrc", SSRC)
    except Refused:
        raise type_error("ssrc") from None
    if any(encoding.ssrc == ssrc for encoding in before):
        raise type_error("ssrc")
    return ssrc


def rtx_of(value):
    return member(object_of(value), "ssrc", SSRC)


def params_value(params):
    return {
        "codecs": [codec_value(codec) for codec in params.codecs],
        "encodings": [encoding_value(encoding) for encoding in params.encodings],
        "headerExtensions": [{"id": each.id, "uri": each.uri} for each in params.extensions],
        "rtcp": {"cname": params.cname, "reducedSize": params.reduced_size},
    }


def codec_value(codec):
    channels = {} if codec.channels is None else {"channels": codec.channels}
    return channels | {
        "clockRate": codec.clock_rate,
        "mimeType": f"{codec.media}/{codec.name}",
        "parameters": codec.parameters,
        "payloadType": codec.payload_type,
        "rtcpFeedback": [{"parameter": word, "type": kind} for kind, word in codec.feedback],
    }


def encoding_value(encoding):
    rtx = {} if encoding.rtx is None else {"rtx": {"ssrc": encoding.rtx}}
    return rtx | {"ssrc": encoding.ssrc}
