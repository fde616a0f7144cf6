"""Named cases of the journal's text: its head, its lines, and the words of each line."""

from cases.writing import heard, journal, text_of, up

HEADS = (
    *("journal 1 0", "journal 1 1152921504606846975", "journal 1 1152921504606846976"),
    *("journal 1 07", "journal 1 ", "journal 1", "journal 1 7 ", "journal 1 7\r"),
    *("journal 2 7", "journal 01 7", "Journal 1 7", " journal 1 7", "journal  1 7"),
    *("journal 1 -7", "journal 1 7.0", "", "script 1 7", "\ufeffjournal 1 7", "journal 1 ٧"),
)

# Lines of no form that is read, with two faults, of which the first is told, or of calls for what
# isn't there.
OTHER_LINES = (
    *("stop", "stop x", "gone 1 1 end", "await 1 w running 1", "call 1 plain t r {}"),
    *("call 1 direct d r", "call 1 close w", "script 1 7", "lane", "journal 1 7"),
    *("call", "call ", "call 1", "call 1 ", "call 0 foo", "call  1 worker w 0"),
    *("CALL 1 worker w 0", "Chunk 1 1 00", "#", "", " ", "\r"),
    *("call 1 worker", "call 1 router", "call 1 worker\r w 0", "spawned", "chunk"),
    *("spawned 1 1 Up", "spawned 1 1 up ", "spawned 1 1  up", "spawned\t1 1 up"),
    *("call 1 router r w", "call 1 router r w ", "call 1 router r  w {}"),
    *("call 1 pipe t r []", "call 1 connect t {}", "call 1 produce p t {}", "call 1 pause p"),
    *("call 1 resume p", "call 1 canconsume p {}", "call 1 piperouter k p r", "call 1 together 2"),
    *("call 0 pipe T r", "call 1 send p 00 00", "call 1 send P 0", "await 1 w", "await 0 W x 0"),
    *("await 1 w running 1 ", "await 1 w gone 1", "call 1 await w running 1", "stop 1"),
    *("call 65 worker W x", "call 1 worker W 1001", "chunk 0 0 0", "chunk 1 1002 g"),
    *("chunk 1 1", "chunk 1 1 ", "chunk 1 1 00 00", "call 1 worker w", "call 1 worker w 0 "),
    *("call 1 worker w 0 0", "call 0 router R W {", "call 1 router r W {"),
)

NUMBERS = (
    *("0", "1", "2", "64", "65", "1001", "1002", "1000", "00", "01", "+1", "-1", "", "1.0"),
    *("1e1", "x", "٣", "1٣", "²", "1_0", "0x1", "9" * 30, "9" * 5000),
)
ODD_NAMES = ("", "x" * 65, "A", "a-b", "a.b", "é", "a\tb", "w\r", "\x00")
ODD_HEX = (
    *("", "0", "abc", "AB", "aB0", "0g", "g0", "0x00", "é", "٣٣"),
    *("00" * 65536, "00" * 65536 + "0", "00" * 65537, "00\r"),
)

NOT_UTF8 = {
    "byte of no letter": b"\xff",
    "too long a form": b"\xc0\x80",
    "surrogate": b"\xed\xa0\x80",
    "past the last letter": b"\xf4\x90\x80\x80",
    "letter cut": b"\xe2\x82",
    "letter without a beginning": b"\x80",
    "form of five bytes": b"\xf8\x88\x80\x80\x80",
}

# A line of each form, and the odd words that may stand at its places; None where none is tried.
FORMS = {
    "call 1 worker w 0": (None, NUMBERS, None, ODD_NAMES, NUMBERS),
    "call 1 router r w {}": (None, NUMBERS, None, ODD_NAMES, ODD_NAMES, ("{", "", "[]")),
    "call 1 consume c t p {}": (None, NUMBERS, None, ODD_NAMES, ODD_NAMES, ODD_NAMES, ("{", "", "[]")),
    "call 1 direct d r": (None, NUMBERS, None, ODD_NAMES, ODD_NAMES),
    "call 1 close w": (None, NUMBERS, None, ODD_NAMES),
    "call 1 send p 00": (None, NUMBERS, None, ODD_NAMES, ODD_HEX),
    "await 1 w open 1": (None, NUMBERS, ODD_NAMES, ("opened", "", "Open", "gone"), NUMBERS),
    "spawned 1 1 up": (None, NUMBERS, NUMBERS, ("up ", "", "UP", "failed", "end")),
    "chunk 1 1 00": (None, NUMBERS, NUMBERS, ODD_HEX),
}


def ends():
    """Texts that end early."""
    yield "nothing", b""
    yield "a line feed", b"\n"
    yield "a head that is cut", b"journal 1 7"
    yield "a head", journal()
    yield "an empty line", journal("")
    yield "a head with a carriage return", b"journal 1 7\r\n"
    yield "a line that is cut", journal() + b"stop"
    yield "no head", b"nonsense"
    yield "no head and no UTF-8", b"\xff\n"
    yield "no UTF-8, and cut", b"\xff"


def heads():
    for head in HEADS:
        yield f"head {head!r}, and lines", text_of([head, *up()])
        yield f"head {head!r}", text_of([head])
        yield f"head {head!r}, cut", head.encode()


def lines():
    for line in OTHER_LINES:
        yield f"line {line!r}, and a bad one", journal(*up(), line, "chunk 1 1 zz")
        yield f"line {line!r}, cut", journal(*up()) + line.encode()
        yield f"line {line!r}, not UTF-8", journal(*up(), line).replace(b" w ", b" \xffw ")


def words():
    """A line of each form with an odd word at one place, and at two."""
    for form, odd_words in FORMS.items():
        plain = form.split(" ")
        places = [place for place, odd in enumerate(odd_words) if odd is not None]
        for place in places:
            for odd in odd_words[place]:
                faulty = [*plain[:place], odd, *plain[place + 1 :]]
                yield f"{form!r} with {odd[:20]!r} at {place}", journal(" ".join(faulty))
        for first in places:
            for second in places:
                faulty = list(plain)
                faulty[first], faulty[second] = odd_words[first][-1], odd_words[second][-1]
                yield f"{form!r} with odd words at {first}, {second}", journal(" ".join(faulty))


def not_utf8():
    for name, bad in NOT_UTF8.items():
        yield f"options: {name}", journal(*up()) + b"call 1 router r w1 " + bad + b"\n"
        yield f"head: {name}", b"journal 1 " + bad + b"\n"
        yield f"behind a bad line: {name}", b"journal 1 7\nstop\n" + bad + b"\nstop"
        yield f"cut line: {name}", b"journal 1 7\n" + bad
        yield f"payload: {name}", heard(bad)
        yield f"text in a payload: {name}", heard(b'{"a":"' + bad + b'"}')
        yield f"log: {name}", heard(b"D" + bad)
