"""Journals with a fault put into them at random."""

from cases.journal_texts import HEADS, NOT_UTF8, NUMBERS, ODD_HEX, ODD_NAMES, OTHER_LINES
from cases.json_texts import NO_VALUES
from cases.messages import edited

ODD_WORDS = (*NUMBERS, *ODD_NAMES, *ODD_HEX[:10], *NO_VALUES.values())


def broken(random, data):
    """With a fault somewhere, or with none by chance."""
    kind = random.randrange(6)
    if kind == 0:
        return edited(random, data)
    if kind == 1:
        return data[:-1]
    lines = data.split(b"\n")
    place = random.randrange(len(lines) - 1) if len(lines) > 1 else 0
    if kind == 2:
        lines.insert(place + 1, random.choice(OTHER_LINES).encode())
    elif kind == 3:
        lines[0] = random.choice(HEADS).encode()
    else:
        lines[place] = broken_line(random, lines[place])
    return b"\n".join(lines)


def broken_line(random, line):
    words = line.split(b" ")
    place = random.randrange(len(words))
    kind = random.randrange(6)
    if kind == 0:
        del words[place]
    elif kind == 1:
        words.insert(place, b"")
    elif kind == 2:
        words[place] = random.choice(ODD_WORDS).replace("\n", "").encode()
    elif kind == 3:
        words[place] += b"\r"
    elif kind == 4:
        words[place] += random.choice(list(NOT_UTF8.values()))
    else:
        words.append(random.choice([b"", b"x", b"0"]))
    return b" ".join(words)
