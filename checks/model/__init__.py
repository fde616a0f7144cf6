"""A model of `mediahub replay`, from the rules of docs/FORMATS.md and docs/MODEL.md and not from
the program.
"""

from model import lines
from model.host import Host, NotBuilt
from model.journal import BadLine, read_journal

JOURNAL_LIMIT = 268_435_456

DONE, BAD, TOO_LONG = 0, 3, 6


def replay(text):
    """The exit status and the standard output."""
    if len(text) > JOURNAL_LIMIT:
        return TOO_LONG, b""
    try:
        return DONE, transcript_of(*read_journal(text))
    except BadLine as bad:
        return BAD, f"{lines.bad(bad.line, bad.code)}\n".encode()


def transcript_of(seed, entries):
    host = Host(seed)
    for line, entry in entries:
        try:
            host.enter(entry)
        except NotBuilt:
            raise BadLine(line, "op") from None
    return "".join(note + "\n" for note in host.notes).encode("utf-8")
