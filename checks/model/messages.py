"""Which message a payload of a worker is."""

from dataclasses import dataclass

from model.json_reader import NoJson, json_value
from model.reading import UUID

IDS = 2**32 - 1


@dataclass
class Accepted:
    id: int
    content: object


@dataclass
class Refused:
    id: int
    error: str
    reason: str


@dataclass
class Notice:
    target: str
    event: str
    content: object


@dataclass
class Log:
    letter: str
    data: bytes


@dataclass
class Packet:
    """A packet of an object, whose id is in small letters."""

    id: str
    data: bytes


class Unexpected:
    """What no form of a message reads."""


def message_of(payload):
    if payload[:1] in (b"D", b"W", b"E", b"X"):
        return Log(chr(payload[0]), payload[1:])
    if payload[:1] == b"R":
        return packet_of(payload[1:37], payload[37:])
    try:
        return said_by(json_value(payload.decode("utf-8")))
    except (UnicodeDecodeError, NoJson):
        return Unexpected()


def packet_of(text, data):
    id_ = text.decode("latin-1")
    return Unexpected() if UUID.fullmatch(id_) is None else Packet(id_.lower(), data)


def said_by(value):
    if type(value) is not dict:
        return Unexpected()
    if "id" in value:
        return response_of(value)
    target, event = value.get("targetId"), value.get("event")
    if type(target) is str and type(event) is str:
        return Notice(target, event, value.get("data"))
    return Unexpected()


def response_of(value):
    id_ = value["id"]
    if type(id_) is not int or not 1 <= id_ <= IDS:
        return Unexpected()
    if value.get("accepted") is True:
        return Accepted(id_, value.get("data"))
    error, reason = value.get("error"), value.get("reason")
    if type(error) is not str:
        return Unexpected()
    kind = "TypeError" if error == "TypeError" else "Error"
    return Refused(id_, kind, reason if type(reason) is str else "")
