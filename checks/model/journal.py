"""How the text of a journal is read: the seed and the entries, or the first bad line."""

import re
from dataclasses import dataclass

from model.json_reader import NoJson, json_value

CHUNK_LIMIT = 65_536
SLOTS = LANES = 64
GENERATIONS = 1_001
BUDGETS = 1_000
COUNTS = 1_000_000_000
EVENTS = ("running", "open", "closed", "paused", "resumed", "tuple", "rtp")
SEEDS = 2**60


class BadLine(Exception):
    def __init__(self, line, code):
        super().__init__(line, code)
        self.line = line
        self.code = code


class Fault(Exception):
    """What is wrong with a line: its code."""


@dataclass
class Call:
    """A lane's call: its first word, and what stands behind that. Options are their JSON value."""

    lane: int
    word: str
    given: list


@dataclass
class Await:
    lane: int
    name: str
    event: str
    count: int


@dataclass
class Spawned:
    slot: int
    generation: int
    is_up: bool


@dataclass
class Chunk:
    slot: int
    generation: int
    data: bytes


def read_journal(text):
    """The seed, and the entries with their lines."""
    lines = text.split(b"\n")
    is_cut = text == b"" or lines[-1] != b""
    if not is_cut:
        lines.pop()
    seed = None
    entries = []
    for number, line in enumerate(lines, 1):
        try:
            words = utf8_of(line)
            if number == 1:
                seed = seed_of(words)
            if is_cut and number == len(lines):
                raise Fault("cut")
            if number > 1:
                entries.append((number, entry_of(words)))
        except Fault as fault:
            raise BadLine(number, str(fault)) from None
    return seed, entries


def utf8_of(line):
    try:
        return line.decode("utf-8")
    except UnicodeDecodeError:
        raise Fault("utf8") from None


def seed_of(line):
    words = line.split(" ")
    if len(words) != 3 or words[:2] != ["journal", "1"] or not is_number(words[2], 0, SEEDS - 1):
        raise Fault("head")
    return int(words[2])


def entry_of(line):
    words = line.split(" ")
    if words[0] == "call" and words[2:3] and words[2] in CALLS:
        return call_of(words[2], line)
    if words[0] == "await":
        with_words(words, 5)
        lane, name = number_of(words[1], 1, LANES), name_of(words[2])
        return Await(lane, name, event_of(words[3]), number_of(words[4], 1, COUNTS))
    if words[0] == "spawned":
        with_words(words, 4)
        return Spawned(*worker_of(words), is_up_of(words[3]))
    if words[0] == "chunk":
        with_words(words, 4)
        return Chunk(*worker_of(words), bytes_of(words[3], CHUNK_LIMIT))
    raise Fault("op")


def call_of(word, line):
    """A call by the forms of the words behind its first: a JSON text is the rest of the line."""
    forms = CALLS[word]
    words = line.split(" ", 2 + len(forms) if forms[-1] is json_of else -1)
    with_words(words, 3 + len(forms))
    lane = number_of(words[1], 1, LANES)
    return Call(lane, word, [read(part) for read, part in zip(forms, words[3:])])


def with_words(words, count):
    if len(words) != count:
        raise Fault("words")


def worker_of(words):
    return number_of(words[1], 1, SLOTS), number_of(words[2], 1, GENERATIONS)


def is_number(word, least, greatest):
    if len(word) > 20 or re.fullmatch("0|[1-9][0-9]*", word) is None:
        return False
    return least <= int(word) <= greatest


def number_of(word, least, greatest):
    if not is_number(word, least, greatest):
        raise Fault("number")
    return int(word)


def name_of(word):
    if re.fullmatch("[a-z0-9_]{1,64}", word) is None:
        raise Fault("name")
    return word


def is_up_of(word):
    if word not in ("up", "failed"):
        raise Fault("event")
    return word == "up"


def json_of(word):
    """The value of a JSON text."""
    try:
        return json_value(word)
    except NoJson:
        raise Fault("json") from None


def bytes_of(word, limit=None):
    if limit is not None and len(word) > 2 * limit:
        raise Fault("hex")
    if re.fullmatch("(?:[0-9a-fA-F]{2})+", word) is None:
        raise Fault("hex")
    return bytes.fromhex(word)


def budget_of(word):
    return number_of(word, 0, BUDGETS)


def event_of(word):
    if word not in EVENTS:
        raise Fault("event")
    return word


# The words behind the first of each call, by how each is read.
CALLS = {
    "worker": (name_of, budget_of),
    "router": (name_of, name_of, json_of),
    "plain": (name_of, name_of, json_of),
    "pipe": (name_of, name_of, json_of),
    "direct": (name_of, name_of),
    "connect": (name_of, json_of),
    "produce": (name_of, name_of, json_of),
    "consume": (name_of, name_of, name_of, json_of),
    "pause": (name_of,),
    "resume": (name_of,),
    "close": (name_of,),
    "canconsume": (name_of, json_of),
    "send": (name_of, bytes_of),
}
