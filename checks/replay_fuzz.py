#!/usr/bin/env python3
"""Replays journals with the built program and with the model, and compares exit status, standard
output and standard error. The journals are named cases of the edges of each rule, and as many more
as are asked for, made at random from a seed. The first differences are printed, each with a journal
that was cut down to the lines that it needs.

Usage: checks/replay_fuzz.py [--seed N] [--cases N] PROGRAM
"""

import argparse
import re
import subprocess
import sys
from collections import Counter
from itertools import chain, zip_longest

import cases
from model import replay

SHOWN = 5
SECONDS = 60
OBJECTS = "worker router plain pipe direct producer consumer"
REASONS = "close producerclose workerclose routerclose transportclose"
OUTCOMES = "ok yes no nametaken noname wrongkind invalidstate toobig closed missed"
TYPE_ERRORS = "form duplicate_type duplicate_id ssrc apt many kind slots packet"
TO_BE_MET = [
    *(f"bad {code}" for code in "utf8 head cut op words number name event json hex".split()),
    *(f"open {kind}" for kind in OBJECTS.split()),
    *(f"closed {reason}" for reason in REASONS.split()),
    *("spawn", "up", "running", "sent request", "sent rtp", "paused", "resumed", "tuple", "rtp"),
    *("late", "stray", "unexpected", "log"),
    *(f"settled {outcome}" for outcome in OUTCOMES.split()),
    *(f"settled typeerror {code}" for code in TYPE_ERRORS.split()),
    *(f"settled unsupported {code}" for code in "codec codecs types mux simulcast".split()),
    *(f"settled worker {error}" for error in "TypeError Error BadData".split()),
]
# The outcomes that have a second word which tells more of the kind.
TELLING = ("typeerror", "unsupported", "worker")


def run(program, text):
    try:
        done = subprocess.run([program, "replay"], input=text, capture_output=True, timeout=SECONDS)
    except subprocess.TimeoutExpired:
        return f"no end within {SECONDS} s", b"", b""
    return done.returncode, done.stdout, done.stderr


def differs(program, text):
    return run(program, text) != (*replay(text), b"")


def shrunk(program, text):
    """Without the lines that the difference doesn't need."""
    lines = re.findall(rb"[^\n]*\n|[^\n]+", text)
    count = len(lines)
    while count > 1:
        count = (count + 1) // 2
        place = 0
        while place < len(lines):
            rest = lines[:place] + lines[place + count :]
            if differs(program, b"".join(rest)):
                lines = rest
            else:
                place += count
    return b"".join(lines)


def show(program, name, text):
    text = shrunk(program, text)
    print(f"A difference: {name}. The journal")
    for line in text.split(b"\n"):
        print("   ", str(line)[:400])
    status, output, error = run(program, text)
    wanted_status, wanted = replay(text)
    print(f"  program: status {status}, standard error {error}; model: status {wanted_status}")
    both = zip_longest(output.split(b"\n"), wanted.split(b"\n"))
    for place, (got, want) in enumerate(both, 1):
        if got != want:
            print(f"  line {place} of the output: program {got}, model {want}")
            break


def kinds_of(answer):
    """What an answer shows: the code of a bad text, or the kinds of its notes."""
    for line in answer.decode("utf-8").split("\n")[:-1]:
        words = line.split(" ", 5)
        if words[0] in ("bad", "open"):
            yield f"{words[0]} {words[2]}"
        elif words[0] == "closed":
            yield f"closed {words[3]}"
        elif words[0] == "sent":
            yield "sent rtp" if words[3] == "rtp" else "sent request"
        elif words[0] == "settled":
            yield "settled " + " ".join(words[3 : 5 if words[3] in TELLING else 4])
        else:
            yield words[0]


def main():
    words = argparse.ArgumentParser(description=__doc__)
    words.add_argument("--seed", type=int, default=1)
    words.add_argument("--cases", type=int, default=3000)
    words.add_argument("program")
    words = words.parse_args()
    met = Counter()
    tried = different = 0
    for name, text in chain(cases.edges(), cases.at_random(words.seed, words.cases)):
        tried += 1
        wanted = replay(text)
        met.update(set(kinds_of(wanted[1])))
        if run(words.program, text) != (*wanted, b""):
            different += 1
            if different <= SHOWN:
                show(words.program, name, text)
    missing = [kind for kind in TO_BE_MET if met[kind] == 0]
    counts = ", ".join(f"{kind} {met[kind]}" for kind in sorted(met))
    print(f"{tried} journals, {different} differences. Met: {counts}")
    if missing:
        print("Not met:", ", ".join(missing))
    return 1 if different or missing else 0


if __name__ == "__main__":
    sys.exit(main())
