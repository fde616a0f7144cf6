"""Journals for `replay`: named cases of the edges of each rule, and others at random."""

from random import Random

from cases import calls, journal_texts, json_texts, limits, lists
from cases.faults import broken
from cases.messages import many_payloads
from cases.stories import Story
from cases.writing import text_of

EDGES = (
    *(journal_texts.ends, journal_texts.heads, journal_texts.lines, journal_texts.words),
    *(json_texts.values, json_texts.members, journal_texts.not_utf8),
    *(limits.slots, limits.payloads, limits.packets, limits.calls),
    *(calls.given, calls.contents, calls.notices, calls.states, calls.names, calls.needs),
    *(lists.routers, lists.producers, lists.profiles, lists.capabilities),
)


def edges():
    """Each rule at its edge, by itself: names and journals."""
    for subject in EDGES:
        yield from subject()


def at_random(seed, count):
    """So many journals of this seed, each named by what makes it again."""
    for number in range(count):
        yield f"seed {seed}, journal {number}", one_at_random(Random(f"{seed} {number}"))


def one_at_random(random):
    data = many_payloads(random) if random.random() < 0.05 else text_of(Story(random).tell())
    while random.random() < 0.2:
        data = broken(random, data)
    return data
