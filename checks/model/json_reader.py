"""JSON texts as the journal and the channel read them, by hand: Python's own reader takes NaN and
lone surrogates, nests deeper, and has no end of whole numbers.

Numbers that have no fraction, no exponent and 64 bits at most are whole (int), but for -0; all
others are floats, and one that rounds to an infinite float is no JSON. Arrays and objects nest at
most 127 deep. Of equal members the last counts.
"""

import re

DEPTH_LIMIT = 127

BLANKS = re.compile(r"[ \t\n\r]*")
NUMBER = re.compile(r"-?(?:0|[1-9][0-9]*)((?:\.[0-9]+)?(?:[eE][+-]?[0-9]+)?)")
PLAIN = re.compile(r'[^"\\\x00-\x1f]*')
FOUR_DIGITS = re.compile(r"[0-9a-fA-F]{4}")
ESCAPES = {'"': '"', "\\": "\\", "/": "/", "b": "\b", "f": "\f", "n": "\n", "r": "\r", "t": "\t"}
WORDS = {"true": True, "false": False, "null": None}


class NoJson(Exception):
    """The text is no JSON."""


def json_value(text):
    """The value of a text: None, bool, int, float, str, list or dict."""
    value, place = _value(text, 0, 0)
    if place != len(text):
        raise NoJson
    return value


def _after_blanks(text, place):
    return BLANKS.match(text, place).end()


def _value(text, place, depth):
    """The value behind the blanks at this place, and the place behind it and its blanks."""
    place = _after_blanks(text, place)
    first = text[place : place + 1]
    if first == '"':
        value, place = _string(text, place + 1)
    elif first == "[":
        value, place = _array(text, place + 1, depth + 1)
    elif first == "{":
        value, place = _object(text, place + 1, depth + 1)
    else:
        value, place = _word(text, place)
    return value, _after_blanks(text, place)


def _word(text, place):
    for word, value in WORDS.items():
        if text.startswith(word, place):
            return value, place + len(word)
    found = NUMBER.match(text, place)
    if found is None:
        raise NoJson
    return _number(found[0], found[1] == ""), found.end()


def _number(digits, is_plain):
    if is_plain and digits != "-0" and len(digits) <= 20:
        number = int(digits)
        if -(2**63) <= number < 2**64:
            return number
    number = float(digits)
    if number in (float("inf"), float("-inf")):
        raise NoJson
    return number


def _string(text, place):
    parts = []
    while True:
        plain = PLAIN.match(text, place)
        parts.append(plain[0])
        place = plain.end()
        if text.startswith('"', place):
            return "".join(parts), place + 1
        if not text.startswith("\\", place):
            raise NoJson
        part, place = _escape(text, place + 1)
        parts.append(part)


def _escape(text, place):
    letter = text[place : place + 1]
    if letter in ESCAPES:
        return ESCAPES[letter], place + 1
    first = _unit(text, place)
    if 0xDC00 <= first <= 0xDFFF:
        raise NoJson
    if not 0xD800 <= first <= 0xDBFF:
        return chr(first), place + 5
    if not text.startswith("\\", place + 5):
        raise NoJson
    second = _unit(text, place + 6)
    if not 0xDC00 <= second <= 0xDFFF:
        raise NoJson
    return chr(0x10000 + (first - 0xD800) * 0x400 + (second - 0xDC00)), place + 11


def _unit(text, place):
    """The number of `uXXXX`."""
    digits = FOUR_DIGITS.match(text, place + 1)
    if not text.startswith("u", place) or digits is None:
        raise NoJson
    return int(digits[0], 16)


def _array(text, place, depth):
    if depth > DEPTH_LIMIT:
        raise NoJson
    items = []
    place = _after_blanks(text, place)
    if text.startswith("]", place):
        return items, place + 1
    while True:
        item, place = _value(text, place, depth)
        items.append(item)
        if text.startswith("]", place):
            return items, place + 1
        if not text.startswith(",", place):
            raise NoJson
        place += 1


def _object(text, place, depth):
    if depth > DEPTH_LIMIT:
        raise NoJson
    members = {}
    place = _after_blanks(text, place)
    if text.startswith("}", place):
        return members, place + 1
    while True:
        key, place = _key(text, place)
        members[key], place = _value(text, place, depth)
        if text.startswith("}", place):
            return members, place + 1
        if not text.startswith(",", place):
            raise NoJson
        place += 1


def _key(text, place):
    """A key with its colon."""
    place = _after_blanks(text, place)
    if not text.startswith('"', place):
        raise NoJson
    key, place = _string(text, place + 1)
    place = _after_blanks(text, place)
    if not text.startswith(":", place):
        raise NoJson
    return key, place + 1
