"""Named cases at the limits of slots, payloads, packets and log texts, and of the ids that packets
name.
"""

from cases import tree
from cases.writing import OPTIONS, chunk, frame, heard, journal, up

SLOTS = 64
PAYLOAD_LIMIT = 4_194_304
# The bytes of the request below with an empty cname.
WITHOUT_CNAME = 661
SOME_ID = "00000000-0000-4007-8000-00000000000a"


def slots():
    many = [line for slot in range(1, SLOTS + 1) for line in up(slot)]
    one_more = "call 64 worker w65 0"
    yield "a worker past the slots, and a name that is taken", journal(
        *many, one_more, "call 64 worker w1 0", "spawned 65 1 up"
    )
    yield "the refused name is free", journal(
        *many, one_more, "call 64 router w65 w64 " + OPTIONS, "chunk 64 1 00"
    )


def payloads():
    for length in (0, 1, PAYLOAD_LIMIT, PAYLOAD_LIMIT + 1, 2**32 - 1):
        size = length.to_bytes(4, "little")
        yield f"a length of {length}", journal(*up(), chunk(1, size))
        yield f"a length of {length} behind a frame", journal(
            *up(), chunk(1, frame(b"{}") + size), "chunk 1 1 44"
        )
    yield "the longest log text", heard(b"D" * PAYLOAD_LIMIT)


def packets():
    forms = {
        "an id": SOME_ID,
        "an id in great letters": SOME_ID.upper(),
        "an id without its last digit": SOME_ID[:-1],
        "an id and a letter": SOME_ID + "x",
        "an id without hyphens": SOME_ID.replace("-", ""),
        "as long without hyphens": SOME_ID.replace("-", "") + "0000",
        "an id in braces": "{" + SOME_ID[1:-1] + "}",
        "no id": "",
    }
    for name, text in forms.items():
        yield f"packet: {name}", heard(b"R" + text.encode())
        yield f"small letter: {name}", heard(b"r" + text.encode())


def calls():
    """Packets and requests that are too big by a byte, and such as aren't."""
    for length in (65_535, 65_536):
        yield f"a packet of {length} bytes", journal(*tree.tree(), f"call 2 send a {'00' * length}")
    room = PAYLOAD_LIMIT - WITHOUT_CNAME
    fits = "\n" * 500 + "x" * (room - 1_000)
    for cname in ("x" * room, "x" * (room + 1), fits, fits + "x"):
        yield f"a cname of {len(cname)} letters", journal(*tree.tree(), with_cname(cname))
    yield "a cname of longer letters", journal(*tree.tree(), with_cname("é" * (room // 2 + 1)))


def with_cname(cname):
    params = tree.AUDIO["rtpParameters"] | {"rtcp": {"cname": cname}}
    return f"call 2 produce n d {tree.text(tree.AUDIO | {'rtpParameters': params})}"
