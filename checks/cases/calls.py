"""Named cases of calls and messages: each member of what they are given, with each odd value in its
place, and each call in each state of the tree.
"""

from cases import tree
from cases.json_values import Text, plain
from cases.tree import AUDIO, CAPS, NAMES, VIDEO, accepted, notice, said, text
from cases.writing import chunks_of, frame, journal
from model.calls import ROWS

ODD = (
    *(None, True, False, "", "x", "audio", "audio/", "/opus", "AUDIO/Opus", "video/opus/1", [], {}),
    *(0, 1, -1, 127, 128, 255, 256, 65535, 65536, 2**32 - 1, 2**32, 2**63 - 1, 2**63, -(2**63)),
    *(Text("1.0"), Text("-0"), Text("1e2"), "127.0.0.1", "127.0.0.01", "256.0.0.1", "1.2.3.4\n"),
    *("0", "02", "sendonly", "recvonly", "video", "ABCDEF00-0000-4007-8000-00000000000a"),
    *("abcdef00000040078000000000000000", [1], {"ip": "10.0.0.1"}, [{}], Text('"\\u00e9"')),
)
OPTIONS = {
    "router {name} w1": tree.ROUTER,
    "plain {name} r": tree.PLAIN,
    "pipe {name} r": tree.PIPE,
    "connect t": tree.CONNECT,
    "produce {name} d": AUDIO | {"id": "ABCDEF00-0000-4007-8000-00000000000b"},
    "produce {name} t": VIDEO,
    "consume {name} d a": tree.CONSUME,
    "consume {name} d v": tree.CONSUME,
    "consume {name} q v": {"paused": False, "rtpCapabilities": 1},
    "canconsume v": CAPS,
}
# A request, by its call, and the content of its reply.
CONTENTS = {
    f"plain {{name}} r {text(tree.PLAIN)}": tree.LOCAL,
    f"pipe {{name}} r {text(tree.PIPE)}": tree.LOCAL,
    f"consume {{name}} d a {text(tree.CONSUME)}": tree.FLAGS,
    f"connect t {text(tree.CONNECT)}": tree.REMOTE,
}
EVERY_CALL = (
    *("worker x 0", f"router x w1 {text(tree.ROUTER)}", f"plain x r {text(tree.PLAIN)}"),
    *(f"pipe x r {text(tree.PIPE)}", "direct x r", f"connect t {text(tree.CONNECT)}"),
    *(f"connect q {text(tree.CONNECT)}", f"produce x t {text(AUDIO)}"),
    *(f"produce x d {text(AUDIO)}", f"consume x t a {text(tree.CONSUME)}"),
    *(f"consume x d v {text(tree.CONSUME)}", "consume x q v {}"),
    *(f"canconsume v {text(CAPS)}", f"canconsume a {text(CAPS)}", "send a 00", "send v 00"),
    *(f"{word} {name}" for word in ("pause", "resume") for name in "avceg"),
)


def places(value, at=()):
    """The paths to all places of a JSON value, the whole first."""
    yield at
    if isinstance(value, (dict, list)):
        items = value.items() if isinstance(value, dict) else enumerate(value)
        for key, item in items:
            yield from places(item, (*at, key))


def changed(value, path, to):
    """The value with another at a place, or without that place."""
    if path == ():
        return to[0]
    other = dict(value) if isinstance(value, dict) else list(value)
    if path[1:] or to:
        other[path[0]] = changed(value[path[0]], path[1:], to)
    else:
        del other[path[0]]
    return other


def spoiled(value):
    """At each place: its path, and the texts of the value with each odd value there, and none."""
    for path in places(value):
        others = [changed(value, path, (odd,)) for odd in ODD]
        if path:
            others.append(changed(value, path, ()))
        yield path, [plain(other) for other in others]


def named(call, number):
    return call.replace("{name}", f"n{number}")


def given():
    for call, value in OPTIONS.items():
        for path, texts in spoiled(value):
            lines = [f"call 2 {named(call, at)} {given}" for at, given in enumerate(texts)]
            yield f"{call} with odd values at {path}", journal(*tree.tree(), *lines)


def contents():
    """Replies and the notice that has a content."""
    for call, value in CONTENTS.items():
        for path, texts in spoiled(value):
            lines = []
            for id_, data in enumerate(texts, tree.LAST_ID + 1):
                lines.append(f"call 2 {named(call, id_)}")
                lines += said_text(f'{{"accepted":true,"data":{data},"id":{id_}}}')
            yield f"{call}: reply with odd values at {path}", journal(*tree.tree(), *lines)
    for path, texts in spoiled(notice("tuple", 3, tree.REMOTE)):
        lines = [line for told in texts for line in said_text(told)]
        yield f"notice with odd values at {path}", journal(*tree.tree(), *lines)


def said_text(payload):
    return chunks_of(1, frame(payload.encode()))


def notices():
    """Each event to each object, twice; packets of each."""
    events = ("producerpause", "producerresume", "tuple", "running", "x", "producerclose")
    for serial in range(len(NAMES) + 2):
        told = [notice(event, serial, tree.REMOTE) for event in events for _ in range(2)]
        packets = [f"R{tree.id_of(serial)}{data}" for data in ("", "a")]
        lines = [*said(*told), *(line for packet in packets for line in said_text(packet))]
        yield f"notices to the object {serial}", journal(*tree.tree(), *lines)
        yield f"packets of the object {serial}", journal(*tree.tree(), *lines[::-1])


def states():
    """Every call when an object has closed; and when it closes while all calls are pending, or when
    they have settled; and all replies behind that.
    """
    calls = [f"call 2 {call.replace(' x ', f' n{at} ')}" for at, call in enumerate(EVERY_CALL)]
    made = (f"n{at}" for at in range(len(calls)))
    waits = [f"await 3 {name} closed 1" for name in (*NAMES, *made)]
    replies = said(*(accepted(id_, tree.LOCAL | tree.FLAGS) for id_ in range(tree.LAST_ID, 60)))
    begun = tree.tree()
    for name in NAMES:
        close = [f"call 4 close {name}"] * 2
        yield f"{name} closed, then every call", journal(*begun, *close, *calls, *replies)
        yield f"every call, then {name} closed", journal(*begun, *waits, *calls, *close, *replies)
        yield f"replies, then {name} closed", journal(*begun, *calls, *replies, *waits, *close)
        for other in NAMES:
            turns = [f"call 3 {word} {other}" for word in ("pause", "resume", "close")]
            yield f"{name} and {other} closed", journal(*begun, *turns, *close, *turns, *replies)


def names():
    """The name that a call makes: in making, free again, taken and of what has closed."""
    refused, made = {"error": "x", "id": tree.LAST_ID + 1}, accepted(tree.LAST_ID + 2, tree.LOCAL)
    waits = [f"await {lane} x {event} 1" for lane, event in ((5, "open"), (6, "closed"))]
    for call in EVERY_CALL:
        if ROWS[call.split(" ")[0]].makes:
            tries = [f"call 2 {call}", f"call 3 {call}", *said(refused), f"call 4 {call}"]
            ends = [*said(made), *waits, f"call 2 {call}", "call 7 close x", f"call 2 {call}"]
            yield f"{call}: its name", journal(*tree.tree(), *waits, *tries, *waits, *ends, *waits)


def needs():
    """Each call with each object, and with none, at the place of each name."""
    for call in EVERY_CALL:
        words = call.split(" ")
        row = ROWS[words[0]]
        for name in (*NAMES, "nobody"):
            places_of_names = range(1, 1 + row.makes + len(row.needs))
            others = ([*words[:at], name, *words[at + 1 :]] for at in places_of_names)
            lines = [f"call 2 {' '.join(other)}" for other in others]
            yield f"{call} with {name}", journal(*tree.tree(), *lines)
