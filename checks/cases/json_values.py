"""JSON values at random: with a fault somewhere, and written in one of the ways in which a text may
have them.
"""

import json

from cases.json_texts import ODD_VALUES

ODD_NUMBERS = (
    *("0", "1", "-1", "127", "128", "255", "256", "65535", "65536", "4294967296", "1.0", "1e2"),
)
SPOILED = 0.06


class Text(str):
    """The text of a JSON value, which is written as it stands."""


ODD = [
    Text(text)
    for text in (*ODD_NUMBERS, *ODD_VALUES.values(), '""', "null", "[]", "{}", "true")
    if len(text) < 60 and "\n" not in text
]


def spoiled(random, value):
    """The value, or by chance one with another value or none at some place."""
    return spoiled_at_all(random, value) if random.random() < SPOILED else value


def spoiled_at_all(random, value):
    if not isinstance(value, (dict, list)) or not value or random.random() < 0.1:
        return random.choice(ODD)
    changed = dict(value) if isinstance(value, dict) else list(value)
    place = random.choice(list(value) if isinstance(value, dict) else range(len(value)))
    if random.random() < 0.15:
        del changed[place]
    else:
        changed[place] = spoiled_at_all(random, changed[place])
    return changed


def written(random, value):
    """Mostly compact, at times with its members in another order, blanks, escapes or one twice."""
    if random.random() < 0.7:
        return plain(value)
    return odd(random, value, random.choice(["", " ", "\t", "  ", "\r"]))


def plain(value):
    if isinstance(value, dict):
        members = (f"{json.dumps(key)}:{plain(item)}" for key, item in value.items())
        return "{" + ",".join(members) + "}"
    if isinstance(value, (list, tuple)):
        return "[" + ",".join(map(plain, value)) + "]"
    return value if isinstance(value, Text) else json.dumps(value, ensure_ascii=False)


def odd(random, value, blank):
    if isinstance(value, dict):
        items = [(key, odd(random, item, blank)) for key, item in value.items()]
        random.shuffle(items)
        if items and random.random() < 0.1:
            items.insert(0, (items[-1][0], random.choice(ODD)))
        members = (f"{escaped(random, key)}{blank}:{blank}{item}" for key, item in items)
        return f"{{{blank}{f'{blank},{blank}'.join(members)}{blank}}}{blank}"
    if isinstance(value, (list, tuple)):
        return f"[{f'{blank},'.join(odd(random, item, blank) for item in value)}{blank}]"
    if type(value) is str:
        return escaped(random, value)
    return plain(value)


def escaped(random, text):
    """In quotes, with one letter at times escaped where it need not be."""
    if text == "" or random.random() < 0.8:
        return json.dumps(text, ensure_ascii=random.random() < 0.5)
    place = random.randrange(len(text))
    letter = text[place]
    if ord(letter) > 0xFFFF:
        return json.dumps(text)
    before, behind = json.dumps(text[:place])[:-1], json.dumps(text[place + 1 :])[1:]
    return f"{before}\\u{ord(letter):04x}{behind}"
