"""What a worker says, at random."""

import json

from cases.journal_texts import NOT_UTF8
from cases.json_texts import IDS, NO_VALUES, ODD_VALUES, TEXTS
from cases.writing import chunks_of, frame, journal, up

VALUES = (*ODD_VALUES.values(), *IDS)
BYTES = (0, 10, 13, 32, 34, 48, 65, 92, 97, 123, 125, 128, 255)


def payload_of(random, asked):
    """Something that a worker says, which was asked so many requests."""
    id_ = str(random.randint(1, asked + 1)) if random.random() < 0.9 else random.choice(IDS)
    kinds = {
        acceptance: 30,
        refusal: 15,
        running: 6,
        notice: 6,
        log: 4,
        packet: 4,
        some_object: 10,
        no_message: 5,
    }
    kind = random.choices(list(kinds), list(kinds.values()))[0]
    payload = kind(random, id_)
    return edited(random, payload) if random.random() < 0.06 else payload


def acceptance(random, id_):
    return json_text(random, [("accepted", "true"), ("id", id_)])


def refusal(random, id_):
    members = [("error", some_text(random)), ("id", id_), ("reason", some_text(random))]
    return json_text(random, [*members, *maybe(random, ("accepted", some_value(random)))])


def running(random, _):
    return json_text(random, [("event", '"running"'), ("targetId", '"worker"')])


def notice(random, id_):
    members = [("event", some_text(random)), ("targetId", some_text(random))]
    return json_text(random, [*members, *maybe(random, ("id", id_))])


def log(random, _):
    return random.choice([b"D", b"W", b"E", b"X", b"d"]) + random.randbytes(
        random.choice([0, 1, 9])
    )


def packet(random, _):
    ids = (
        b"00000000-0000-4007-8000-000000000001",
        b"ABCDEF00-0000-4007-8000-00000000000a",
        b"x" * 36,
        b"",
    )
    return b"R" + random.choice(ids) + random.randbytes(3)


def some_object(random, _):
    names = ["id", "accepted", "error", "reason", "event", "targetId", "data", ""]
    keys = random.choices(names, k=random.randint(0, 6))
    return json_text(random, [(key, some_value(random)) for key in keys])


def no_message(random, _):
    plain = [b"", b" ", b"{}", b"[]", b"null", b"\xff", b"{", some_value(random).encode()]
    return random.choice([*plain, *NOT_UTF8.values()])


def maybe(random, member):
    return [member] if random.random() < 0.3 else []


def some_text(random):
    if random.random() < 0.9:
        return written(random, random.choice(TEXTS))
    return some_value(random)


def some_value(random):
    kind = random.random()
    if kind < 0.4:
        return random.choice(VALUES)
    if kind < 0.5:
        return random.choice(list(NO_VALUES.values()))
    return written(random, random.choice(TEXTS))


def written(random, letters):
    """A text in quotes, with some of its letters escaped where they need not be."""
    if random.random() < 0.7:
        return json.dumps(letters, ensure_ascii=random.random() < 0.5)
    return '"' + "".join(letter_of(random, letter) for letter in letters) + '"'


def letter_of(random, letter):
    if random.random() < 0.7 or ord(letter) > 0xFFFF:
        return json.dumps(letter)[1:-1]
    return f"\\u{ord(letter):04X}"


def json_text(random, members):
    """An object of these members, at times in another order, with one twice, or with blanks."""
    if random.random() < 0.3:
        random.shuffle(members)
    if random.random() < 0.1:
        key, _ = random.choice(members or [("id", "1")])
        members.insert(random.randint(0, len(members)), (key, some_value(random)))
    blank = random.choice(["", "", "", " ", "\n", "\t\r "])
    key_of = json.dumps if random.random() < 0.9 else lambda key: written(random, key)
    texts = [f"{key_of(key)}{blank}:{blank}{member}" for key, member in members]
    inner = f"{blank},{blank}".join(texts)
    return f"{blank}{{{blank}{inner}{blank}}}{blank}".encode()


def edited(random, data):
    """With one byte more, less or other."""
    place = random.randint(0, len(data))
    kind = random.randrange(3)
    byte = bytes([random.choice([*BYTES, random.randrange(256)])])
    return data[:place] + (b"" if kind == 0 else byte) + data[place + (kind != 1) :]


def many_payloads(random):
    """A running worker says some hundred objects, most of which were edited: which are JSON?"""
    said = bytearray()
    for _ in range(200):
        names = ["event", "targetId", "data", "id", "accepted"]
        keys = random.choices(names, k=random.randint(0, 3))
        others = ((key, some_value(random)) for key in keys)
        payload = json_text(random, [("event", '"b"'), ("targetId", '"a"'), *others])
        while random.random() < 0.5:
            payload = edited(random, payload)
        said += frame(payload)
    return journal(*up(), *chunks_of(1, bytes(said)))
