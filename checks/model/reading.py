"""How the members of JSON objects are read. What can't be read refuses the call that gave it."""

import re


class Refused(Exception):
    """A call is refused: its outcome."""


def type_error(code):
    return Refused(f"typeerror {code}")


def unsupported(code):
    return Refused(f"unsupported {code}")


NEEDED = object()
OCTET = "(?:0|[1-9][0-9]?|1[0-9]{2}|2[0-4][0-9]|25[0-5])"
IPV4 = re.compile(rf"{OCTET}(?:\.{OCTET}){{3}}")
UUID = re.compile("[0-9a-fA-F]{8}(?:-[0-9a-fA-F]{4}){3}-[0-9a-fA-F]{12}")


def member(members, name, read, default=NEEDED):
    """A member that has to be there, or that has a default where it is absent. A null is there."""
    if name in members:
        return read(members[name])
    if default is NEEDED:
        raise type_error("form")
    return default


def of_type(form):
    def read(value):
        if type(value) is not form:
            raise type_error("form")
        return value

    return read


object_of, list_of, text_of, flag_of = of_type(dict), of_type(list), of_type(str), of_type(bool)


def number_of(least, greatest):
    """A whole number in this range: a float is none, and neither is a truth value."""

    def read(value):
        if type(value) is not int or not least <= value <= greatest:
            raise type_error("form")
        return value

    return read


def filled_text_of(value):
    if text_of(value) == "":
        raise type_error("form")
    return value


def ip_of(value):
    """An IPv4 address: four numbers without leading zeros."""
    if IPV4.fullmatch(text_of(value)) is None:
        raise type_error("form")
    return value


def id_of(value):
    """An id, in small letters."""
    if UUID.fullmatch(text_of(value)) is None:
        raise type_error("form")
    return value.lower()


def each(read):
    """A list, whose items are read each by itself."""
    return lambda value: [read(item) for item in list_of(value)]


def folded(text):
    """For a comparison without regard to the case of ASCII letters."""
    return text.encode("utf-8").lower()
