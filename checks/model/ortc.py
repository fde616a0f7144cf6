"""What a Router can receive and send, how a Producer's packets are mapped, and what a Consumer gets
of it, after the rules of ORTC.
"""

import re
from dataclasses import dataclass, replace

from model.params import Caps, Codec, Encoding, Extension, Params
from model.reading import folded, type_error, unsupported

AUDIO_FEEDBACK = (("transport-cc", ""),)
VIDEO_FEEDBACK = (
    *(("nack", ""), ("nack", "pli"), ("ccm", "fir"), ("goog-remb", ""), ("transport-cc", "")),
)
SUPPORTED = (
    Codec("audio", "opus", 48000, 2, None, feedback=AUDIO_FEEDBACK),
    Codec("audio", "PCMU", 8000, 1, 0, feedback=AUDIO_FEEDBACK),
    Codec("audio", "PCMA", 8000, 1, 8, feedback=AUDIO_FEEDBACK),
    Codec("video", "VP8", 90000, feedback=VIDEO_FEEDBACK),
    Codec("video", "VP9", 90000, feedback=VIDEO_FEEDBACK),
)
DYNAMIC_TYPES = (*range(100, 128), *range(96, 100))

HDREXT = "urn:ietf:params:rtp-hdrext:"
EXTENSIONS = (
    Extension(HDREXT + "sdes:mid", 1),
    Extension(HDREXT + "sdes:rtp-stream-id", 2, "video", False),
    Extension(HDREXT + "sdes:repaired-rtp-stream-id", 3, "video", False),
    Extension("http://www.webrtc.org/experiments/rtp-hdrext/abs-send-time", 4),
    Extension("http://www.ietf.org/id/draft-holmer-rmcat-transport-wide-cc-extensions-01", 5),
    Extension(HDREXT + "framemarking", 7, "video"),
    Extension(HDREXT + "ssrc-audio-level", 10, "audio"),
    Extension("urn:3gpp:video-orientation", 11, "video"),
    Extension(HDREXT + "toffset", 12, "video"),
)
# Of one transport each: the identification of its media, the time of sending, its own numbers.
OF_ONE_TRANSPORT = (1, 4, 5)


@dataclass(frozen=True)
class Mapping:
    """Payload types and SSRCs, each with the one that stands for it in the Router."""

    types: list
    ssrcs: list


def first(test, items):
    return next((item for item in items if test(item)), None)


def matches(codec, other):
    return (
        codec.media == other.media
        and folded(codec.name) == folded(other.name)
        and codec.clock_rate == other.clock_rate
        and codec.channels == other.channels
    )


def strictly_matches(codec, other):
    is_vp9 = codec.media == "video" and folded(codec.name) == b"vp9"
    return matches(codec, other) and (not is_vp9 or profile_of(codec) == profile_of(other))


def profile_of(codec):
    """A text of digits counts as its number, of whatever length."""
    profile = codec.parameters.get("profile-id", 0)
    if type(profile) is int:
        return "number", str(profile)
    if re.fullmatch("[0-9]+", profile):
        return "number", profile.lstrip("0") or "0"
    return "text", profile


def of_type(codecs, payload_type):
    return first(lambda codec: codec.payload_type == payload_type, codecs)


def next_type(codecs):
    payload_type = first(lambda type_: of_type(codecs, type_) is None, DYNAMIC_TYPES)
    if payload_type is None:
        raise unsupported("types")
    return payload_type


def router_caps(given):
    codecs = []
    for codec in given:
        add_codec(codecs, codec)
    return Caps(codecs, list(EXTENSIONS))


def add_codec(codecs, given):
    """A Router's codec, and behind one of video that of its retransmissions."""
    codec = first(lambda supported: matches(given, supported), SUPPORTED)
    if codec is None:
        raise unsupported("codec")
    types = (given.payload_type, codec.payload_type)
    payload_type = first(lambda type_: type_ is not None, types)
    if payload_type is None:
        payload_type = next_type(codecs)
    if of_type(codecs, payload_type) is not None:
        raise type_error("duplicate_type")
    codecs.append(replace(codec, payload_type=payload_type, parameters=given.parameters))
    if codec.media == "video":
        apt = {"apt": payload_type}
        codecs.append(Codec("video", "rtx", codec.clock_rate, None, next_type(codecs), apt))


def producer_mapping(params, caps, first_ssrc):
    media = [codec for codec in params.codecs if not codec.is_rtx]
    rtx = [codec for codec in params.codecs if codec.is_rtx]
    types = [(codec.payload_type, router_type(caps, codec)) for codec in media]
    types += [(codec.payload_type, router_rtx_type(caps, params, codec)) for codec in rtx]
    ssrcs = [(each.ssrc, first_ssrc + place) for place, each in enumerate(params.encodings)]
    return Mapping(types, ssrcs)


def router_type(caps, codec):
    found = None if codec.is_rtx else first(lambda of: strictly_matches(codec, of), caps.codecs)
    if found is None:
        raise unsupported("codec")
    return found.payload_type


def router_rtx_type(caps, params, codec):
    """By the first codec of the payload type that `apt` names, which has to carry media."""
    associated = None if codec.apt is None else of_type(params.codecs, codec.apt)
    if associated is None:
        raise type_error("apt")
    found = rtx_of(caps, router_type(caps, associated))
    if found is None:
        raise unsupported("codec")
    return found.payload_type


def rtx_of(caps, payload_type):
    return first(lambda codec: codec.is_rtx and codec.apt == payload_type, caps.codecs)


def consumable(media, params, caps, mapping):
    """What the Router offers of what a Producer sends."""
    codecs = []
    for codec in params.codecs:
        if not codec.is_rtx:
            _, mapped = first(lambda pair: pair[0] == codec.payload_type, mapping.types)
            codecs.append(replace(of_type(caps.codecs, mapped), parameters=codec.parameters))
            rtx = rtx_of(caps, mapped)
            codecs += [] if rtx is None else [rtx]
    extensions = [each for each in EXTENSIONS if each.is_sent and each.media in (None, media)]
    encodings = [Encoding(mapped) for _, mapped in mapping.ssrcs]
    return Params(codecs, extensions, encodings, params.cname)


def capability_for(caps, codec):
    return first(lambda capability: strictly_matches(codec, capability), caps.codecs)


def can_consume(offered, caps):
    codec = first(lambda codec: capability_for(caps, codec) is not None, offered.codecs)
    return codec is not None and not codec.is_rtx


def consumer_params(offered, caps, first_ssrc):
    matched = [codec for codec in offered.codecs if capability_for(caps, codec) is not None]
    types = {codec.payload_type for codec in matched if not codec.is_rtx}
    staying = [codec for codec in matched if not codec.is_rtx or codec.apt in types]
    if not staying or staying[0].is_rtx:
        raise unsupported("codecs")
    known = {(extension.uri, extension.id) for extension in caps.extensions}
    extensions = [each for each in offered.extensions if (each.uri, each.id) in known]
    going = feedback_going({extension.id for extension in extensions})
    codecs = [with_feedback(codec, capability_for(caps, codec), going) for codec in staying]
    has_rtx = any(codec.is_rtx for codec in codecs)
    encoding = Encoding(first_ssrc, first_ssrc + 1 if has_rtx else None)
    return replace(offered, codecs=codecs, extensions=extensions, encodings=[encoding])


def feedback_going(extension_ids):
    if 5 in extension_ids:
        return ("goog-remb",)
    if 4 in extension_ids:
        return ("transport-cc",)
    return "goog-remb", "transport-cc"


def with_feedback(codec, capability, going):
    staying = tuple(each for each in capability.feedback if each[0] not in going)
    return replace(codec, feedback=staying)


def pipe_params(offered, with_rtx, first_ssrc):
    kinds = {("nack", "pli"), ("ccm", "fir"), *([("nack", "")] if with_rtx else [])}
    codecs = [
        replace(codec, feedback=tuple(each for each in codec.feedback if each in kinds))
        for codec in offered.codecs
        if with_rtx or not codec.is_rtx
    ]
    extensions = [each for each in offered.extensions if each.id not in OF_ONE_TRANSPORT]
    count = len(offered.encodings)
    encodings = [
        Encoding(ssrc, ssrc + count if with_rtx else None)
        for ssrc in range(first_ssrc, first_ssrc + count)
    ]
    return replace(offered, codecs=codecs, extensions=extensions, encodings=encodings)
