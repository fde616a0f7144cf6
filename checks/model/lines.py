"""How the lines of a transcript are written, and the payload of a request. Each worker is the
first of its slot.
"""

import json
import re


def id_text(seed, serial):
    """The UUID of version 4 whose free bits are the seed (60) and the serial (62)."""
    bits = (seed >> 12) << 80 | 4 << 76 | (seed & 0xFFF) << 64 | 0b10 << 62 | serial
    return re.sub("(.{8})(.{4})(.{4})(.{4})(.{12})", r"\1-\2-\3-\4-\5", f"{bits:032x}")


def request(id_, method, internal, data):
    """The payload of a request: compact JSON, its members in ascending order."""
    value = {"id": id_, "internal": internal, "method": method}
    if data is not None:
        value["data"] = data
    return json.dumps(value, ensure_ascii=False, separators=(",", ":"), sort_keys=True)


def spawn(slot):
    return f"spawn {slot} 1"


def up(slot):
    return f"up {slot} 1"


def running(name):
    return f"running {name} 1"


def sent(slot, payload):
    return f"sent {slot} 1 {payload}"


def sent_packet(slot, producer, data):
    return f"sent {slot} 1 rtp {producer} {data.hex()}"


def opened(serial, kind, name, id_):
    return f"open {serial} {kind} {name} {id_}"


def closed(serial, name, reason):
    return f"closed {serial} {name} {reason}"


def turned(name, is_quiet):
    return f"{'paused' if is_quiet else 'resumed'} {name}"


def learnt(name, ip, port):
    return f"tuple {name} {ip} {port}"


def packet(name, data):
    return f"rtp {name} {data.hex()}"


def settled(lane, place, outcome):
    return f"settled {lane} {place} {outcome}"


def refused_by_worker(error, reason):
    return f"worker {error} {json.dumps(reason, ensure_ascii=False)}"


def late(slot, id_):
    return f"late {slot} 1 {id_}"


def stray(slot):
    return f"stray {slot} 1"


def unexpected(slot):
    return f"unexpected {slot} 1"


def log(slot, letter, data):
    return f"log {slot} 1 {letter} {data.hex()}"


def bad(line, code):
    return f"bad {line} {code}"
