"""Texts at the edges of what is JSON, and named cases of each place where a journal has JSON."""

import json

from cases.writing import heard, heard_first, journal, up

# Texts that stand for a value of JSON and are none.
NO_VALUES = {
    "number too great": "1e999",
    "number too small": "-1e999",
    "first number past a double": "1.7976931348623159e308",
    "309 digits": "2" + "0" * 308,
    "5000 digits": "9" * 5000,
    "leading 0": "01",
    "sign alone": "-",
    "leading 0 with sign": "-01",
    "point without fraction": "1.",
    "point without whole": ".5",
    "plus": "+1",
    "exponent without digits": "1e",
    "signed exponent without digits": "1e+",
    "hexadecimal": "0x1",
    "not a number": "NaN",
    "infinity": "Infinity",
    "negative infinity": "-Infinity",
    "true cut": "tru",
    "null cut": "nul",
    "True": "True",
    "single quotes": "'x'",
    "quote alone": '"',
    "high surrogate alone": '"\\ud800"',
    "low surrogate alone": '"\\udc00"',
    "high surrogate and a letter's escape": '"\\ud800\\u0041"',
    "high surrogate and a letter": '"\\ud800x"',
    "two high surrogates": '"\\ud800\\ud800\\udc00"',
    "high surrogate and past the low ones": '"\\udbff\\ue000"',
    "control character": '"\x01"',
    "tab in a text": '"\t"',
    "unknown escape": '"\\q"',
    "escape with a letter past f": '"\\u12g4"',
    "escape of three digits": '"\\u00e"',
    "escape with great U": '"\\U0041"',
    "comma at the end of an array": "[1,]",
    "comma at its beginning": "[,1]",
    "no comma in an array": "[1 2]",
    "open array": "[1",
    "closed array": "]",
    "comma at the end of an object": '{"a":1,}',
    "key alone": '{"a"}',
    "key without value": '{"a":}',
    "number as key": "{1:2}",
    "no colon": '{"a" 1}',
    "no comma in an object": '{"a":1 "b":2}',
    "key without quotes": "{a:1}",
    "nothing": "",
    "blank": " ",
    "comment": "//",
    "two values": "1 1",
    "128 arrays": "[" * 128 + "]" * 128,
    "5000 open arrays": "[" * 5000,
    "128 objects": '{"a":' * 128 + "1" + "}" * 128,
    "byte order mark": "\ufeff1",
    "blank that is no break": "\u00a01",
    "vertical tab": "\v1",
    "null byte": "\x00",
    "delete": "\x7f",
}

# Odd texts that are values of JSON.
ODD_VALUES = {
    "minus 0": "-0",
    "0": "0",
    "1.0": "1.0",
    "1e0": "1e0",
    "1E+2": "1E+2",
    "1e-2": "1e-2",
    "0 with a great exponent": "0e999",
    "rounds to 0": "1e-999",
    "0 with a small exponent": "0.0e-99999999999",
    "greatest double": "1.7976931348623157e308",
    "rounds to the greatest double": "1.7976931348623158e308",
    "1 and 308 zeros": "1" + "0" * 308,
    "400 zeros of fraction": "0." + "0" * 400 + "1",
    "greatest of 64 bits": "18446744073709551615",
    "past 64 bits": "18446744073709551616",
    "least of 64 bits": "-9223372036854775808",
    "below 64 bits": "-9223372036854775809",
    "surrogate pair": '"\\ud83d\\ude00"',
    "surrogate pair, mixed case": '"\\uD834\\uDd1e"',
    "escaped control characters": '"\\u0000\\u001f\\u007f"',
    "letters of each length": '"\x7f\u0080\u2028\uffff\U0001f600"',
    "each short escape": '"\\"\\\\\\/\\b\\f\\n\\r\\t"',
    "empty array": "[]",
    "empty object": "{}",
    "nested empty ones": "[[],{}]",
    "empty key": '{"":""}',
    "key twice": '{"a":1,"a":2}',
    "blanks around": " \t\r\n1 \t\r",
    "127 arrays": "[" * 127 + "]" * 127,
    "127 objects": '{"a":' * 127 + "1" + "}" * 127,
    "127 mixed": '[{"a":' * 63 + "[1]" + "}]" * 63,
    "100 arrays and a blank": "[" * 100 + "]" * 100 + " ",
    "true": "true",
    "false": "false",
    "null": "null",
    "nested array": "[1,[2,[3]],-4.5e+6]",
}

# What may stand for the id of a response.
IDS = (
    *("0", "1", "2", "3", "4294967295", "4294967296", "4294967297", "-1", "-0"),
    *("1.0", "1e0", "10e-1", "1.5", '"1"', "null", "true", "[1]", "{}", "01"),
    *("18446744073709551615", "18446744073709551617"),
)

# Texts of members that are read, or nearly.
TEXTS = (
    *("TypeError", "Error", "typeerror", "BadData", "", "worker", "running", "Running"),
    *('quote " and \\', "line\nfeed\ttab\x01\x1f\x7f", "é 😀 \u2028", "/"),
)


def values():
    """Each odd text as options, as a payload, and as members of a response."""
    for name, text in (NO_VALUES | ODD_VALUES).items():
        yield f"options: {name}", journal(*up(), f"call 1 router r w1 {text}")
        yield f"payload: {name}", heard(text.encode())
        yield f"data of an acceptance: {name}", heard(
            f'{{"accepted":true,"data":{text},"id":1}}'.encode()
        )
        yield f"members of a refusal: {name}", heard(
            f'{{"accepted":{text},"error":"TypeError","id":1,"reason":{text}}}'.encode()
        )


def members():
    """Ids, errors, reasons, targets and events."""
    for text in IDS:
        yield f"id of an acceptance: {text}", heard(f'{{"accepted":true,"id":{text}}}'.encode())
        yield f"id of a notice with an error: {text}", heard(
            f'{{"error":"x","event":"running","id":{text},"targetId":"worker"}}'.encode()
        )
    for text in TEXTS:
        yield f"error and reason: {text!r}", heard(
            json.dumps({"error": text, "id": 1, "reason": text}).encode()
        )
        yield f"reason that is no text: {text!r}", heard(
            json.dumps({"error": "x", "id": 2, "reason": [text]}).encode()
        )
        for other in TEXTS:
            yield f"event {text!r} of {other!r}", heard_first(
                json.dumps({"event": text, "targetId": other}).encode()
            )
