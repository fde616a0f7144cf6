"""What the options of each call are read as, and the contents of replies and notices."""

from dataclasses import dataclass

from model import params, reading
from model.reading import Refused, flag_of, ip_of, member, number_of, object_of
from model.reading import type_error, unsupported

ROUTER_CODECS = 32
PRODUCER_CODECS = range(1, 33)
PRODUCER_EXTENSIONS = 32
ENCODINGS = range(1, 9)
CAPABILITIES = 128


@dataclass
class Produced:
    """What a Producer is to be."""

    media: str
    params: params.Params
    is_paused: bool
    id: str | None


def router(value):
    codecs = member(object_of(value), "mediaCodecs", params.capability_codecs_of)
    if len(codecs) > ROUTER_CODECS:
        raise type_error("many")
    return codecs


def plain(value):
    members = object_of(value)
    ip = member(members, "listenIp", listen_ip_of)
    comedia = member(members, "comedia", flag_of, False)
    if not member(members, "rtcpMux", flag_of, True):
        raise unsupported("mux")
    return ip, comedia


def pipe(value):
    members = object_of(value)
    return member(members, "listenIp", listen_ip_of), member(members, "enableRtx", flag_of, False)


def listen_ip_of(value):
    """An address, or an object whose `ip` is one."""
    return member(value, "ip", ip_of) if type(value) is dict else ip_of(value)


def connect(value):
    members = object_of(value)
    return member(members, "ip", ip_of), member(members, "port", number_of(1, 65535))


def produce(value):
    members = object_of(value)
    kind = member(members, "kind", reading.text_of)
    given = member(members, "rtpParameters", params.params_of)
    is_paused = member(members, "paused", flag_of, False)
    id_ = member(members, "id", reading.id_of, None)
    if not is_few(given):
        raise type_error("many")
    if kind not in ("audio", "video") or any(codec.media != kind for codec in given.codecs):
        raise type_error("kind")
    return Produced(kind, given, is_paused, id_)


def is_few(given):
    return (
        len(given.codecs) in PRODUCER_CODECS
        and len(given.extensions) <= PRODUCER_EXTENSIONS
        and len(given.encodings) in ENCODINGS
    )


def consume(value):
    members = object_of(value)
    caps = member(members, "rtpCapabilities", params.caps_of)
    is_paused = member(members, "paused", flag_of, False)
    return few(caps), is_paused


def piped_consume(value):
    """Over a pipe a Consumer gets all: no capabilities are read."""
    return member(object_of(value), "paused", flag_of, False)


def can_consume(value):
    return few(params.caps_of(value))


def few(caps):
    if max(len(caps.codecs), len(caps.extensions)) > CAPABILITIES:
        raise type_error("many")
    return caps


def readable(read, content):
    """What is read of a content, or None."""
    try:
        return read(content)
    except Refused:
        return None


def local_tuple(content):
    """Where a new transport listens."""
    return tuple_in(content, "localIp", "localPort", 1)


def remote_tuple(content):
    """From where a transport's packets come."""
    return tuple_in(content, "remoteIp", "remotePort", 0)


def tuple_in(content, ip_name, port_name, least):
    members = member(object_of(content), "tuple", object_of)
    return member(members, ip_name, ip_of), member(members, port_name, number_of(least, 65535))


def consumer_flags(content):
    """Whether a new Consumer is paused, and whether its Producer is."""
    members = object_of(content)
    return member(members, "paused", flag_of), member(members, "producerPaused", flag_of)
